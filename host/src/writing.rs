//! The bytes of a file, as they stand, written to an output or into a new file.

use std::fs::File;
use std::hint::black_box;
use std::io::{self, ErrorKind, IoSlice, Seek, SeekFrom, Write};

use sha2::{Digest, Sha256};

use crate::fields::hex;
use crate::objects::Objects;
use crate::progress::Progress;
use crate::table::{Piece, Table};

/// How many parts are handed to the system at once: no more than it takes.
const AT_ONCE: usize = 1024;

/// Fewer zeros than these would not be left sparse by a file system.
const HOLE: u64 = 4096;

/// Writes the bytes of a file.
pub fn write(
    objects: &Objects<'_>,
    table: &Table,
    out: &mut dyn Write,
    progress: &Progress,
) -> io::Result<()> {
    let mut batch = Batch::new(out);
    objects.hand_on(table, |piece| {
        progress.add(piece.length());
        batch.push(piece)
    })?;
    batch.write()
}

/// Fills a new file, leaving holes sparse, and gives the SHA-256 of its bytes, in hex.
pub fn fill(
    mut file: &File,
    objects: &Objects<'_>,
    table: &Table,
    progress: &Progress,
) -> io::Result<String> {
    let mut sum = Sha256::new();
    let mut batch = Batch::new(file);
    objects.hand_on(table, |piece| {
        for part in piece.parts() {
            sum.update(part);
            progress.add(part.len() as u64);
        }
        match piece {
            Piece::Zeros(count) if count >= HOLE => {
                batch.write()?;
                file.seek(SeekFrom::Current(count as i64))?;
                Ok(())
            }
            _ => batch.push(piece),
        }
    })?;
    batch.write()?;
    file.set_len(table.size)?;
    Ok(hex(&sum.finalize()))
}

/// Parts that are not empty, to be written as they stand, many at once.
struct Batch<'p, W> {
    parts: Vec<IoSlice<'p>>,
    out: W,
}

impl<'p, W: Write> Batch<'p, W> {
    fn new(out: W) -> Batch<'p, W> {
        let parts = Vec::with_capacity(AT_ONCE);
        Batch { parts, out }
    }

    /// Adds a piece, and writes whenever there are enough parts.
    fn push(&mut self, piece: Piece<'p>) -> io::Result<()> {
        for part in piece.parts() {
            self.parts.push(IoSlice::new(part));
            if self.parts.len() == AT_ONCE {
                self.write()?;
            }
        }
        Ok(())
    }

    /// Writes the parts that were added since the last time, whole.
    fn write(&mut self) -> io::Result<()> {
        let mut left = &mut self.parts[..];
        while !left.is_empty() {
            match self.out.write_vectored(left) {
                Ok(0) => return Err(ErrorKind::WriteZero.into()),
                Ok(count) => IoSlice::advance_slices(&mut left, count),
                Err(error) if error.kind() == ErrorKind::Interrupted => {}
                Err(error) => {
                    if error.raw_os_error() == Some(libc::EFAULT) {
                        touch(left);
                    }
                    return Err(error);
                }
            }
        }
        self.parts.clear();
        Ok(())
    }
}

/// Reads what the system could not read: a byte that the dump has lost then
/// ends the process with its sentence.
fn touch(parts: &[IoSlice<'_>]) {
    for part in parts {
        part.iter().for_each(|byte| {
            black_box(*byte);
        });
    }
}

#[cfg(test)]
mod tests {
    use super::*;

    /// A writer that takes at most so many bytes at once, and is interrupted
    /// before each time.
    struct Slow {
        taken: Vec<u8>,
        most: usize,
        interrupted: bool,
    }

    impl Write for Slow {
        fn write(&mut self, bytes: &[u8]) -> io::Result<usize> {
            self.interrupted = !self.interrupted;
            if self.interrupted {
                return Err(ErrorKind::Interrupted.into());
            }
            let count = bytes.len().min(self.most);
            self.taken.extend_from_slice(&bytes[..count]);
            Ok(count)
        }

        fn flush(&mut self) -> io::Result<()> {
            Ok(())
        }
    }

    /// Writes bytes in pieces of four.
    fn write_all(bytes: &[u8], out: impl Write) -> io::Result<()> {
        let mut batch = Batch::new(out);
        let mut pieces = bytes.chunks(4).map(Piece::Bytes);
        pieces.try_for_each(|piece| batch.push(piece))?;
        batch.write()
    }

    #[test]
    fn pieces_are_written_whole() {
        let bytes: Vec<u8> = (0..=255).cycle().take(5 * AT_ONCE + 7).collect();
        for most in [1, 3, 1000] {
            let (taken, interrupted) = (Vec::new(), false);
            let mut slow = Slow {
                taken,
                most,
                interrupted,
            };
            write_all(&bytes, &mut slow).unwrap();
            assert!(slow.taken == bytes);
        }
        let mut full: &mut [u8] = &mut [0; 9];
        let error = write_all(&bytes, &mut full).unwrap_err();
        assert_eq!(error.kind(), ErrorKind::WriteZero);
    }
}
