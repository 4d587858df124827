//! A new file that appears under its name only when it is whole: until then it
//! stands beside it under a name of the process's own, and goes with whatever
//! goes wrong.

use std::fs::{self, File};
use std::io;
use std::path::{Path, PathBuf};
use std::process;

use crate::signals::Unfinished;

pub struct NewFile {
    pub file: File,
    path: PathBuf,
    beside: PathBuf,
    _unfinished: Option<Unfinished>,
}

impl NewFile {
    /// A file is never written over.
    pub fn create(path: &Path) -> io::Result<NewFile> {
        if path.symlink_metadata().is_ok() {
            return Err(io::Error::from_raw_os_error(libc::EEXIST));
        }
        let beside = beside(path);
        let _unfinished = Unfinished::new(&beside);
        Ok(NewFile {
            file: File::create_new(&beside)?,
            path: path.to_path_buf(),
            beside,
            _unfinished,
        })
    }

    /// Gives the file its name, once its bytes are on the disk.
    pub fn finish(self) -> io::Result<()> {
        self.file.sync_all()?;
        match fs::hard_link(&self.beside, &self.path) {
            // a file system without hard links: FAT, or one over the network
            Err(error) if is_unsupported(&error) && !self.path.exists() => {
                fs::rename(&self.beside, &self.path)?;
            }
            linked => linked?,
        }
        sync_folder_of(&self.path);
        Ok(())
    }
}

/// Where something stands until it is whole.
pub fn beside(path: &Path) -> PathBuf {
    path.with_file_name(format!(".lohenarr-{}.part", process::id()))
}

/// A name is on the disk once its folder is; some cannot be synced.
pub fn sync_folder_of(path: &Path) {
    let folder = path.parent().filter(|folder| *folder != Path::new(""));
    if let Ok(folder) = File::open(folder.unwrap_or(Path::new("."))) {
        let _ = folder.sync_all();
    }
}

/// Whether a file system has no such thing.
pub fn is_unsupported(error: &io::Error) -> bool {
    let codes = [libc::EPERM, libc::EOPNOTSUPP, libc::ENOSYS, libc::EINVAL];
    error
        .raw_os_error()
        .is_some_and(|code| codes.contains(&code))
}

impl Drop for NewFile {
    fn drop(&mut self) {
        let _ = fs::remove_file(&self.beside);
    }
}
