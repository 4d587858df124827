//! The table of a file: its size, and for each chunk where its copy is and how
//! many bytes of it are valid, as the library writes them.

use crate::ffi::{self, Geometry, TableAnswer};
use crate::refusal::INDEX_DAMAGED;

/// How many words a row has.
const WORDS: usize = 2;

/// The first word of a row: 0 for a hole, `DAMAGED` where the index is damaged
/// before a copy is met, and else the page and `PAGES`.
const DAMAGED: u32 = 1;
const PAGES: u32 = 2;

/// What a file has where no copy is, as much as is handled at once.
static ZEROS: [u8; 1 << 16] = [0; 1 << 16];

/// A piece of a file: bytes of the dump, or so many zeros.
#[derive(Clone, Copy, Debug)]
pub enum Piece<'d> {
    Bytes(&'d [u8]),
    Zeros(u64),
}

impl<'d> Piece<'d> {
    pub fn length(self) -> u64 {
        match self {
            Piece::Bytes(bytes) => bytes.len() as u64,
            Piece::Zeros(count) => count,
        }
    }

    /// The bytes of the piece, those of zeros a part at a time.
    pub fn parts(self) -> impl Iterator<Item = &'d [u8]> {
        let (bytes, mut zeros) = match self {
            Piece::Bytes(bytes) => (Some(bytes), 0),
            Piece::Zeros(count) => (None, count),
        };
        let zeros = std::iter::from_fn(move || {
            let some = zeros.min(ZEROS.len() as u64);
            zeros -= some;
            (some > 0).then_some(&ZEROS[..some as usize])
        });
        bytes.into_iter().chain(zeros)
    }
}

pub struct Table {
    pub size: u64,
    words: Vec<u32>,
}

/// The row of chunk `n`.
#[derive(Clone, Copy, Debug, PartialEq, Eq)]
pub struct Row {
    pub n: u32,
    pub valid: u32,
    place: u32,
}

impl Row {
    /// The page that holds the copy, unless it is a hole.
    pub fn page(self) -> Option<u32> {
        self.place.checked_sub(PAGES)
    }
}

impl Table {
    /// The table that the library wrote in front of the words, or the number
    /// of the refusal where a row met a damaged link.
    pub fn of(answer: TableAnswer, mut words: Vec<u32>) -> Result<Table, u32> {
        words.truncate(WORDS * answer.rows as usize);
        let size = answer.size;
        let table = Table { size, words };
        let damaged = table.rows().any(|row| row.place == DAMAGED);
        match damaged {
            true => Err(INDEX_DAMAGED),
            false => Ok(table),
        }
    }

    /// The rows, from that of chunk 1 on.
    pub fn rows(&self) -> impl Iterator<Item = Row> + '_ {
        let rows = self.words.chunks_exact(WORDS);
        (1..).zip(rows).map(|(n, row)| Row {
            n,
            valid: row[1],
            place: row[0],
        })
    }

    /// Hands on the file in pieces, none empty: the valid bytes of each copy as
    /// a part of the dump, at its chunk's place, and zeros everywhere else. A
    /// plain loop, since a copy is fetched from memory while the next row is
    /// looked at: an iterator that kept its place between pieces was slower.
    pub fn hand_on<'d, E>(
        &self,
        dump: &'d [u8],
        on: Geometry,
        mut take: impl FnMut(Piece<'d>) -> Result<(), E>,
    ) -> Result<(), E> {
        let data = u64::from(ffi::layout(on.layout).data);
        let mut done = 0;
        for row in self.rows().filter(|row| row.page().is_some()) {
            let at = u64::from(row.n - 1) * data;
            if at > done {
                take(Piece::Zeros(at - done))?;
            }
            let bytes = ffi::row(dump, on, row.place, row.valid).of(dump);
            if !bytes.is_empty() {
                take(Piece::Bytes(bytes))?;
            }
            done = at + bytes.len() as u64;
        }
        match self.size - done {
            0 => Ok(()),
            left => take(Piece::Zeros(left)),
        }
    }
}

#[cfg(test)]
mod tests {
    use std::convert::Infallible;

    use crate::ffi::Geometry;
    use crate::objects::Objects;

    /// A header alone that says 4 GiB: there are no more rows than numbers for
    /// chunks, and zeros up to the size.
    #[test]
    fn a_file_longer_than_chunks_have_numbers() {
        let mut page = include_bytes!("../tests/data/W")[..528].to_vec();
        page[0x124..0x128].fill(0xFF);
        let on = Geometry {
            layout: 6,
            block: 1,
        };
        let objects = Objects::of(&page, on).unwrap();
        let table = objects.table(257).unwrap();
        assert_eq!(table.rows().count(), 0xF_FFFF);
        let mut length = 0;
        let counted = objects.hand_on(&table, |piece| {
            length += piece.length();
            let parts = piece.parts().map(|part| part.len() as u64);
            assert_eq!(parts.sum::<u64>(), piece.length());
            Ok::<_, Infallible>(())
        });
        assert_eq!((counted, length), (Ok(()), u64::from(u32::MAX)));
    }
}
