//! A dump as a slice of bytes: a file mapped read-only, or bytes read into
//! memory. A dump is never opened for writing. Of an input that is longer than
//! any dump no more is taken than makes it too long.

use std::cell::Cell;
use std::ffi::{OsStr, OsString};
use std::fs::{File, Metadata};
use std::io::{self, Read, Seek, SeekFrom};
use std::ops::Deref;
use std::os::unix::fs::FileTypeExt;

use memmap2::{Mmap, MmapOptions};

use crate::failure::{reason, shown};
use crate::ffi;
use crate::progress::Progress;
use crate::second;
use crate::signals::Watched;
use crate::standard;

/// The bytes of a dump, which nothing may change while they are held.
pub struct Dump {
    name: OsString,
    bytes: Bytes,
}

enum Bytes {
    Mapped(Mapped),
    Copied(Vec<u8>),
}

/// A file that is mapped and watched: a byte that is gone when it is read ends
/// the process with a sentence.
struct Mapped {
    _watched: Watched,
    map: Mmap,
    file: File,
    /// Whether a second thread was at work.
    is_shared: Cell<bool>,
}

impl Drop for Mapped {
    fn drop(&mut self) {
        if self.is_shared.get() {
            second::unmap(&self.map);
        }
    }
}

impl Dump {
    /// The dump of a file, or of standard input where the name is `-`, or why
    /// there is none. A file is mapped, unless it is to be copied or is none
    /// that can be.
    pub fn open(name: &OsStr, copy: bool) -> Result<Dump, String> {
        let bytes = bytes(name, copy).map_err(|why| unread(name, &why))?;
        let name = name.to_os_string();
        Ok(Dump { name, bytes })
    }

    /// The name under which it was opened.
    pub fn name(&self) -> &OsStr {
        &self.name
    }

    /// Does work on the dump, and beside it other work where the dump is long,
    /// mapped and in memory.
    pub fn beside<T, U: Send>(
        &self,
        work: impl FnOnce() -> T,
        other: impl FnOnce() -> U + Send,
    ) -> (T, Option<U>) {
        let Bytes::Mapped(mapped) = &self.bytes else {
            return (work(), None);
        };
        let (answer, other) = second::beside(&mapped.map, &mapped.file, work, other);
        mapped.is_shared.set(other.is_some());
        (answer, other)
    }

    /// Fails where a mapped file is no longer as long as it was: bytes that it
    /// lost within its last page read as zeros, and no signal tells.
    pub fn check_length(&self) -> Result<(), String> {
        let Bytes::Mapped(Mapped { map, file, .. }) = &self.bytes else {
            return Ok(());
        };
        match file.metadata().map(|metadata| metadata.len()) {
            Ok(length) if length >= map.len() as u64 => Ok(()),
            Ok(length) => Err(unread(&self.name, &shortened(length))),
            Err(why) => Err(unread(&self.name, &why)),
        }
    }
}

/// The sentence on a file that cannot be read.
pub fn unread(name: &OsStr, why: &io::Error) -> String {
    format!("cannot read {}: {}", input(name), reason(why))
}

/// What is read under a name, in a sentence.
pub fn input(name: &OsStr) -> String {
    match name == "-" {
        true => "standard input".to_string(),
        false => shown(name),
    }
}

fn shortened(length: u64) -> io::Error {
    io::Error::other(format!(
        "it was shortened to {length} bytes while it was read"
    ))
}

fn bytes(name: &OsStr, copy: bool) -> io::Result<Bytes> {
    let file = match name == "-" {
        true => standard::input()?,
        false => File::open(name)?,
    };
    let metadata = file.metadata()?;
    if name == "-" || copy || !metadata.is_file() || metadata.len() == 0 {
        return copied(file, &metadata).map(Bytes::Copied);
    }
    let length = metadata.len().min(too_long()) as usize;
    // SAFETY: nobody is to write to the file while it is mapped: that is owed by whoever runs
    // the command, and `--copy` is there for a file that may change. A byte that is gone
    // ends the process in `signals`, and `check_length` sees a last page that was cut.
    let map = unsafe { MmapOptions::new().len(length).map(&file)? };
    let _watched = Watched::new(name, &map);
    Ok(Bytes::Mapped(Mapped {
        _watched,
        map,
        file,
        is_shared: Cell::new(false),
    }))
}

/// The fewest bytes that are longer than any dump.
fn too_long() -> u64 {
    ffi::most_bytes() as u64 + 1
}

/// The bytes of an input, or where it could not be read on. A device that
/// never ends is not begun with.
fn copied(mut input: File, metadata: &Metadata) -> io::Result<Vec<u8>> {
    if metadata.file_type().is_char_device() {
        if input.seek(SeekFrom::End(0)).unwrap_or(0) == 0 {
            let device = "it is a device without a length; copy what it has to a file";
            return Err(io::Error::other(device));
        }
        input.rewind()?;
    }
    let begin = input.stream_position().unwrap_or(0);
    let mut bytes = Vec::new();
    let _progress = Progress::new("reading the dump", None);
    let read = input.take(too_long()).read_to_end(&mut bytes);
    let end = begin + bytes.len() as u64;
    match read {
        Err(why) if end > 0 => Err(io::Error::other(format!("byte {end}: {}", reason(&why)))),
        Err(why) => Err(why),
        Ok(_) if metadata.is_file() && end < metadata.len().min(too_long()) => Err(shortened(end)),
        Ok(_) => Ok(bytes),
    }
}

impl Deref for Dump {
    type Target = [u8];

    fn deref(&self) -> &[u8] {
        match &self.bytes {
            Bytes::Mapped(mapped) => &mapped.map,
            Bytes::Copied(bytes) => bytes,
        }
    }
}
