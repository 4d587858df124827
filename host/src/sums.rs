//! SHA-256 of dumps, of files and of what is written.

use std::convert::Infallible;
use std::io::{self, Write};

use sha2::{Digest, Sha256};

use crate::fields::hex;
use crate::objects::Objects;
use crate::progress::Progress;
use crate::table::Table;

/// How many bytes are summed between two looks at how far it is.
const PART: usize = 1 << 20;

/// The sum of bytes, in hex.
pub fn of_bytes(bytes: &[u8]) -> String {
    let progress = Progress::new("summing the dump", Some(bytes.len() as u64));
    let mut sum = Sha256::new();
    for part in bytes.chunks(PART) {
        sum.update(part);
        progress.add(part.len() as u64);
    }
    hex(&sum.finalize())
}

/// The sum of the bytes of a file, in hex.
pub fn of_file(objects: &Objects<'_>, table: &Table) -> String {
    let progress = Progress::new("summing the file", Some(table.size));
    let mut sum = Sha256::new();
    let Ok(()) = objects.hand_on(table, |piece| {
        for part in piece.parts() {
            sum.update(part);
            progress.add(part.len() as u64);
        }
        Ok::<_, Infallible>(())
    });
    hex(&sum.finalize())
}

/// Hands on what is written, and sums it.
pub struct Summed<W> {
    out: W,
    sum: Sha256,
    size: u64,
}

impl<W: Write> Summed<W> {
    pub fn new(out: W) -> Summed<W> {
        let (sum, size) = (Sha256::new(), 0);
        Summed { out, sum, size }
    }

    /// How many bytes were written, and their sum in hex.
    pub fn told(self) -> (u64, String) {
        (self.size, hex(&self.sum.finalize()))
    }
}

impl<W: Write> Write for Summed<W> {
    fn write(&mut self, bytes: &[u8]) -> io::Result<usize> {
        let count = self.out.write(bytes)?;
        self.sum.update(&bytes[..count]);
        self.size += count as u64;
        Ok(count)
    }

    fn flush(&mut self) -> io::Result<()> {
        self.out.flush()
    }
}
