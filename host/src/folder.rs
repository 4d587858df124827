//! A folder by its handle: what is made in it is made there and nowhere else, however
//! long its path is. No link is followed, and nothing is written over.

use std::ffi::{CStr, CString};
use std::fs::File;
use std::io;
use std::os::fd::{AsRawFd, FromRawFd, OwnedFd, RawFd};
use std::os::unix::ffi::OsStrExt;
use std::path::Path;

/// What the system takes of the access that a new entry has is left to the umask.
const FOR_ALL: libc::mode_t = 0o666;
const FOR_ALL_TO_ENTER: libc::mode_t = 0o777;

/// Opens a folder, and no link to one.
const OPEN: i32 = libc::O_RDONLY | libc::O_DIRECTORY | libc::O_NOFOLLOW | libc::O_CLOEXEC;

/// Opens a new file for writing.
const NEW: i32 = libc::O_WRONLY | libc::O_CREAT | libc::O_EXCL | libc::O_NOFOLLOW | libc::O_CLOEXEC;

pub struct Folder(OwnedFd);

impl Folder {
    /// A new folder with a path.
    pub fn create(path: &Path) -> io::Result<Folder> {
        let path = CString::new(path.as_os_str().as_bytes())?;
        Folder::create_at(libc::AT_FDCWD, &path)
    }

    /// A new folder in this one.
    pub fn folder(&self, name: &[u8]) -> io::Result<Folder> {
        Folder::create_at(self.0.as_raw_fd(), &entry(name)?)
    }

    fn create_at(at: RawFd, name: &CStr) -> io::Result<Folder> {
        // SAFETY: the name ends with a zero byte and outlives the calls; the handle is new, so
        // that nobody else closes it.
        unsafe {
            done(libc::mkdirat(at, name.as_ptr(), FOR_ALL_TO_ENTER))?;
            let handle = done(libc::openat(at, name.as_ptr(), OPEN))?;
            Ok(Folder(OwnedFd::from_raw_fd(handle)))
        }
    }

    /// The same folder by another handle.
    pub fn again(&self) -> io::Result<Folder> {
        self.0.try_clone().map(Folder)
    }

    /// A new file in this folder.
    pub fn file(&self, name: &[u8]) -> io::Result<File> {
        let name = entry(name)?;
        // SAFETY: the name ends with a zero byte and outlives the call; the handle is new, so
        // that nobody else closes it.
        unsafe {
            let at = self.0.as_raw_fd();
            let handle = done(libc::openat(at, name.as_ptr(), NEW, FOR_ALL))?;
            Ok(OwnedFd::from_raw_fd(handle).into())
        }
    }

    /// A new symbolic link in this folder.
    pub fn link(&self, name: &[u8], target: &[u8]) -> io::Result<()> {
        let (name, target) = (entry(name)?, CString::new(target)?);
        // SAFETY: both names end with a zero byte and outlive the call.
        let made = unsafe { libc::symlinkat(target.as_ptr(), self.0.as_raw_fd(), name.as_ptr()) };
        done(made).map(drop)
    }

    /// Waits until all of its file system is on the disk.
    pub fn sync(&self) -> io::Result<()> {
        // SAFETY: takes no memory; the handle is open.
        done(unsafe { libc::syncfs(self.0.as_raw_fd()) }).map(drop)
    }
}

/// A name that leads to an entry of its folder and nowhere else.
fn entry(name: &[u8]) -> io::Result<CString> {
    match name {
        b"" | b"." | b".." => Err(io::ErrorKind::InvalidInput.into()),
        _ if name.contains(&b'/') => Err(io::ErrorKind::InvalidInput.into()),
        _ => Ok(CString::new(name)?),
    }
}

/// What the system answers, or its error.
fn done(answer: i32) -> io::Result<i32> {
    match answer {
        -1 => Err(io::Error::last_os_error()),
        _ => Ok(answer),
    }
}

/// Gives a folder another name that nothing has yet.
pub fn rename(from: &Path, to: &Path) -> io::Result<()> {
    let [from, to] = [from, to].map(|path| CString::new(path.as_os_str().as_bytes()));
    let (from, to) = (from?, to?);
    let (from, to, here) = (from.as_ptr(), to.as_ptr(), libc::AT_FDCWD);
    // SAFETY: both names end with a zero byte and outlive the calls.
    unsafe {
        let renamed = done(libc::renameat2(
            here,
            from,
            here,
            to,
            libc::RENAME_NOREPLACE,
        ));
        match renamed {
            // a file system that cannot: an empty folder gives its name
            Err(error) if error.raw_os_error() == Some(libc::EINVAL) => {
                done(libc::mkdir(to, FOR_ALL_TO_ENTER))?;
                done(libc::rename(from, to)).inspect_err(|_| {
                    libc::rmdir(to);
                })
            }
            renamed => renamed,
        }
    }
    .map(drop)
}

/// Folders below one another that are removed; no more are made.
const DEEPEST: usize = 64;

/// What is known of some entries at once, in bytes: one has less than 300.
const SOME: usize = 1024;

/// Where an entry has its length and its name.
const LENGTH: usize = 16;
const NAME: usize = 19;

/// Removes a folder with all that is in it. Nothing but calls of the system, so that
/// the handler of a signal may do it.
pub fn remove(path: &CStr) {
    remove_at(libc::AT_FDCWD, path, DEEPEST);
}

/// Says whether the folder is gone.
fn remove_at(at: RawFd, name: &CStr, depth: usize) -> bool {
    // SAFETY: the name ends with a zero byte and outlives the calls; the handle is new, and is
    // closed here alone.
    unsafe {
        let handle = libc::openat(at, name.as_ptr(), OPEN);
        if handle >= 0 {
            // entries that were passed over while others went are met the next time
            while depth > 0 && remove_entries(handle, depth) {
                libc::lseek(handle, 0, libc::SEEK_SET);
            }
            libc::close(handle);
        }
        libc::unlinkat(at, name.as_ptr(), libc::AT_REMOVEDIR) == 0
    }
}

/// Removes what is met in a folder; says whether anything is gone.
fn remove_entries(handle: RawFd, depth: usize) -> bool {
    let mut bytes = [0_u8; SOME];
    let mut gone = false;
    loop {
        let to = bytes.as_mut_ptr();
        // SAFETY: the system writes no more than `SOME` bytes, which is how many there are.
        let count = unsafe { libc::syscall(libc::SYS_getdents64, handle, to, SOME) };
        if count <= 0 {
            return gone;
        }
        let mut left = &bytes[..count as usize];
        while left.len() > NAME {
            let length = u16::from_ne_bytes([left[LENGTH], left[LENGTH + 1]]);
            let (entry, rest) = left.split_at(length.into());
            left = rest;
            let name = CStr::from_bytes_until_nul(&entry[NAME..]).unwrap_or(c".");
            if name != c"." && name != c".." {
                gone |= remove_entry(handle, name, depth);
            }
        }
    }
}

/// Says whether the entry is gone.
fn remove_entry(handle: RawFd, name: &CStr, depth: usize) -> bool {
    // SAFETY: the name ends with a zero byte and outlives the call.
    let is_gone = unsafe { libc::unlinkat(handle, name.as_ptr(), 0) == 0 };
    is_gone || remove_at(handle, name, depth - 1)
}

#[cfg(test)]
mod tests {
    use std::fs;
    use std::io::ErrorKind::{AlreadyExists, InvalidInput};
    use std::os::unix::fs::symlink;

    use super::*;

    #[test]
    fn entries_are_new_and_inside() {
        let place = tempfile::tempdir().unwrap();
        let path = place.path().join("folder");
        let folder = Folder::create(&path).unwrap();
        for name in [&b""[..], b".", b"..", b"a/b", b"/", b"a\0b"] {
            for made in [
                folder.file(name).map(drop),
                folder.folder(name).map(drop),
                folder.link(name, b"a"),
            ] {
                assert_eq!(made.unwrap_err().kind(), InvalidInput, "{name:?}");
            }
        }
        symlink("../beside", path.join("link")).unwrap();
        fs::write(path.join("file"), "theirs").unwrap();
        for name in [&b"link"[..], b"file"] {
            let made = [
                folder.file(name).map(drop),
                folder.folder(name).map(drop),
                folder.link(name, b"a"),
            ];
            assert!(made.map(|made| made.unwrap_err().kind()) == [AlreadyExists; 3]);
        }
        assert!(!place.path().join("beside").exists());
        assert_eq!(fs::read(path.join("file")).unwrap(), b"theirs");
        let moved = place.path().join("moved");
        assert!(rename(&path, place.path()).is_err());
        rename(&path, &moved).unwrap();
        folder.folder(b"in").unwrap().file(b"new").unwrap();
        assert!(moved.join("in/new").exists());
    }

    /// More entries than are known at once, and links that lead to what stays.
    #[test]
    fn all_of_a_folder_is_removed() {
        let place = tempfile::tempdir().unwrap();
        let stays = place.path().join("stays");
        fs::create_dir(&stays).unwrap();
        fs::write(stays.join("file"), "").unwrap();
        let path = place.path().join("goes");
        let mut folder = Folder::create(&path).unwrap();
        for _ in 0..DEEPEST - 1 {
            for number in 0..30 {
                folder.file(format!("{number}").as_bytes()).unwrap();
            }
            folder.link(b"link", stays.as_os_str().as_bytes()).unwrap();
            folder = folder.folder(&[b'd'; 255]).unwrap();
        }
        remove(&CString::new(path.as_os_str().as_bytes()).unwrap());
        assert!(!path.exists());
        assert!(stays.join("file").exists());
    }
}
