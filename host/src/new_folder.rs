//! A new folder that appears under its name only when it is whole, as a new file does.

use std::ffi::CString;
use std::io;
use std::os::unix::ffi::OsStrExt;
use std::path::{Path, PathBuf};

use crate::folder::{self, Folder};
use crate::new_file::{beside, sync_folder_of};
use crate::signals::Unfinished;

pub struct NewFolder {
    pub folder: Folder,
    path: PathBuf,
    beside: PathBuf,
    _unfinished: Option<Unfinished>,
}

impl NewFolder {
    /// Whatever has the name already stays.
    pub fn create(path: &Path) -> io::Result<NewFolder> {
        if path.symlink_metadata().is_ok() {
            return Err(io::Error::from_raw_os_error(libc::EEXIST));
        }
        let no_name = || io::Error::other("it is no name of a folder");
        let name = path.file_name().ok_or_else(no_name)?;
        let path = path.with_file_name(name);
        let beside = beside(&path);
        let _unfinished = Unfinished::new(&beside);
        Ok(NewFolder {
            folder: Folder::create(&beside)?,
            path,
            beside,
            _unfinished,
        })
    }

    /// Gives the folder its name, once all that is in it is on the disk.
    pub fn finish(self) -> io::Result<()> {
        self.folder.sync()?;
        folder::rename(&self.beside, &self.path)?;
        sync_folder_of(&self.path);
        Ok(())
    }
}

impl Drop for NewFolder {
    fn drop(&mut self) {
        if let Ok(beside) = CString::new(self.beside.as_os_str().as_bytes()) {
            folder::remove(&beside);
        }
    }
}
