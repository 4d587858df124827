//! Dumps that are made to be slow, of 512/16/0 in blocks of `BLOCK` pages: what
//! each page says, by its number.

use std::collections::HashSet;
use std::fs::File;
use std::io::{self, BufWriter, Write};
use std::path::Path;

use super::super::BLOCK;

const DATA: usize = 512;
pub const PAGE: usize = DATA + 16;

/// Where a header says whose the object is, which decides nothing.
const OWNER: usize = 0x110;

/// The lowest sequence, and the highest id.
const LOWEST: u32 = 0x1000;
const LAST_OBJECT: u32 = 0x0FFF_FFFF;

/// The object of dumps that have but one, and the first of those that count up.
const ONE: u32 = 300;
const FIRST: u32 = 257;

/// What a page says of its object: a file's size, with a shrink mark or without, a
/// full chunk, or in which directory a file or a directory is.
#[derive(Clone, Copy)]
enum Says {
    Header { size: u32 },
    Shrunk { size: u32 },
    Data { chunk: u32 },
    File { parent: u32 },
    Directory { parent: u32 },
}

/// A record: its sequence, its object, and what it says.
type Record = (u32, u32, Says);

/// A kind of dump: its name, and the records of so many pages.
pub struct Kind {
    pub name: &'static str,
    records: fn(u32) -> Box<dyn Iterator<Item = Record>>,
}

pub const KINDS: [Kind; 18] = [
    Kind {
        name: "claims",
        records: claims,
    },
    Kind {
        name: "far",
        records: far,
    },
    Kind {
        name: "falling",
        records: falling,
    },
    Kind {
        name: "colliding",
        records: colliding,
    },
    Kind {
        name: "descending",
        records: descending,
    },
    Kind {
        name: "onechunk",
        records: one_chunk,
    },
    Kind {
        name: "scattered",
        records: scattered,
    },
    Kind {
        name: "cut",
        records: cut,
    },
    Kind {
        name: "cuts",
        records: cuts,
    },
    Kind {
        name: "sparse",
        records: sparse,
    },
    Kind {
        name: "directory",
        records: directory,
    },
    Kind {
        name: "deep",
        records: deep,
    },
    Kind {
        name: "chain",
        records: chain,
    },
    Kind {
        name: "ring",
        records: ring,
    },
    Kind {
        name: "rings",
        records: rings,
    },
    Kind {
        name: "renamed",
        records: renamed,
    },
    Kind {
        name: "backwards",
        records: backwards,
    },
    Kind {
        name: "woven",
        records: woven,
    },
];

impl Kind {
    /// Writes the dump of so many pages; if it is to be changed, with another byte in
    /// each, which is of a field in a header.
    pub fn write(&self, path: &Path, pages: u32, is_changed: bool) -> io::Result<()> {
        let mut file = BufWriter::new(File::create(path)?);
        for record in (self.records)(pages) {
            let mut page = bytes(record);
            page[OWNER] ^= u8::from(is_changed);
            file.write_all(&page)?;
        }
        file.flush()
    }

    /// The object of the last page, for which a search has the most to pass.
    pub fn object(&self, pages: u32) -> u32 {
        let last = (self.records)(pages).last();
        last.map_or(0, |(_, object, _)| object)
    }
}

/// The pages of a dump of at most so many MiB, in whole blocks.
pub fn pages(mib: usize) -> u32 {
    ((mib << 20) / PAGE) as u32 / BLOCK * BLOCK
}

/// A page of 0xFF but for what it says, so that names are as long as can be; a header
/// is of a file below the root if nothing else is said.
fn bytes((sequence, object, says): Record) -> [u8; PAGE] {
    let mut page = [0xFF; PAGE];
    let mut put = |at: usize, word: u32| page[at..at + 4].copy_from_slice(&word.to_le_bytes());
    let mut header = |file_type, parent, size, shrink| {
        for (at, word) in [(0, file_type), (4, parent), (0x124, size), (0x1FC, shrink)] {
            put(at, word);
        }
        [sequence, object | file_type << 28, 1 << 31 | 1, 0]
    };
    let tags = match says {
        Says::Header { size } => header(1, 1, size, 0),
        Says::Shrunk { size } => header(1, 1, size, 1),
        Says::File { parent } => header(1, parent, 0, 0),
        Says::Directory { parent } => header(3, parent, 0, 0),
        Says::Data { chunk } => [sequence, object, chunk, DATA as u32],
    };
    for (i, word) in tags.into_iter().enumerate() {
        put(DATA + 4 * i, word);
    }
    page
}

/// A sequence for each block, rising.
fn rising(page: u32) -> u32 {
    LOWEST + page / BLOCK
}

/// Each page is the header of an object of its own that claims 4 GiB.
fn claims(pages: u32) -> Box<dyn Iterator<Item = Record>> {
    let header = |p| (rising(p), FIRST + p, Says::Header { size: u32::MAX });
    Box::new((0..pages).map(header))
}

/// Objects of two pages: a header, and one chunk as far out as can be.
fn far(pages: u32) -> Box<dyn Iterator<Item = Record>> {
    let says = |p| match p % 2 {
        0 => Says::Header { size: 0 },
        _ => Says::Data { chunk: 0xF_FFFF },
    };
    Box::new((0..pages).map(move |p| (rising(p), FIRST + p / 2, says(p))))
}

/// One object; half of each block bears one sequence, and those of the other
/// halves fall over the whole dump.
fn falling(pages: u32) -> Box<dyn Iterator<Item = Record>> {
    let sequence = move |p| match p % BLOCK < BLOCK / 2 {
        true => LOWEST + 2 * pages,
        false => LOWEST + pages - p,
    };
    let says = |p| match p {
        0 => Says::Header { size: DATA as u32 },
        _ => Says::Data {
            chunk: 1 + p % 1000,
        },
    };
    Box::new((0..pages).map(move |p| (sequence(p), ONE, says(p))))
}

/// An empty file for each page, by their ids.
fn empty(pages: u32, id: impl FnMut(u32) -> u32 + 'static) -> Box<dyn Iterator<Item = Record>> {
    let ids = (0..pages).map(id);
    Box::new((0..).zip(ids).map(|(p, id)| {
        let size = 0;
        (rising(p), id.max(1), Says::Header { size })
    }))
}

/// How many ids there are of each remainder by the number of pages, less one.
fn of_one_remainder(pages: u32) -> u32 {
    LAST_OBJECT / pages - 1
}

/// Ids of few remainders by the number of pages: an index that goes by that
/// alone begins to search for all of them at one place.
fn colliding(pages: u32) -> Box<dyn Iterator<Item = Record>> {
    let most = of_one_remainder(pages);
    empty(pages, move |p| pages - 1 - p / most + pages * (p % most))
}

/// Ids that come in falling order, slot by slot.
fn descending(pages: u32) -> Box<dyn Iterator<Item = Record>> {
    let most = of_one_remainder(pages);
    empty(pages, move |p| p + pages * (most - p * most / pages))
}

/// One object, of which every page but its header is a copy of chunk 1.
fn one_chunk(pages: u32) -> Box<dyn Iterator<Item = Record>> {
    let says = |p| match p {
        0 => Says::Header { size: DATA as u32 },
        _ => Says::Data { chunk: 1 },
    };
    Box::new((0..pages).map(move |p| (rising(p), ONE, says(p))))
}

/// Ids as by chance, no two alike.
fn scattered(pages: u32) -> Box<dyn Iterator<Item = Record>> {
    let mut seed: u64 = 1;
    let mut seen = HashSet::new();
    empty(pages, move |_| loop {
        // xorshift64
        seed ^= seed << 13;
        seed ^= seed >> 7;
        seed ^= seed << 17;
        let id = (seed >> 32) as u32 & LAST_OBJECT;
        if id > 0 && seen.insert(id) {
            return id;
        }
    })
}

/// One file of as many chunks as pages, all cut by one header; another claims the
/// size again.
fn cut(pages: u32) -> Box<dyn Iterator<Item = Record>> {
    let says = move |p| match pages - p {
        1 => Says::Header {
            size: pages * DATA as u32,
        },
        2 => Says::Shrunk { size: 1 },
        _ => Says::Data { chunk: 1 + p },
    };
    Box::new((0..pages).map(move |p| (rising(p), ONE, says(p))))
}

/// One file of half as many chunks as pages, and then headers that each cut
/// another chunk, from the first on; the last claims the size again.
fn cuts(pages: u32) -> Box<dyn Iterator<Item = Record>> {
    let chunks = pages / 2;
    let size = move |n: u32| n * DATA as u32 + 1;
    let says = move |p: u32| match p.checked_sub(chunks) {
        None => Says::Data { chunk: 1 + p },
        Some(_) if p == pages - 1 => Says::Header { size: size(chunks) },
        Some(n) => Says::Shrunk { size: size(n) },
    };
    Box::new((0..pages).map(move |p| (rising(p), ONE, says(p))))
}

/// One file that claims 4 GiB, with every other chunk as far out as it goes, last
/// one first.
fn sparse(pages: u32) -> Box<dyn Iterator<Item = Record>> {
    let says = |p| match p {
        0 => Says::Header { size: u32::MAX },
        _ => Says::Data {
            chunk: 0xF_FFFFu32.saturating_sub(2 * p).max(1),
        },
    };
    Box::new((0..pages).map(move |p| (rising(p), ONE, says(p))))
}

/// One directory that has all other objects as entries, ids falling.
fn directory(pages: u32) -> Box<dyn Iterator<Item = Record>> {
    let says = |p| match p {
        0 => Says::Directory { parent: 1 },
        _ => Says::File { parent: ONE },
    };
    let id = move |p| if p == 0 { ONE } else { ONE + pages - p };
    Box::new((0..pages).map(move |p| (rising(p), id(p), says(p))))
}

/// The same as deep as is listed: each path has more than 7,000 bytes.
fn deep(pages: u32) -> Box<dyn Iterator<Item = Record>> {
    let says = |p| match p {
        0 => Says::Directory { parent: 1 },
        1..30 => Says::Directory {
            parent: ONE + p - 1,
        },
        _ => Says::File { parent: ONE + 29 },
    };
    Box::new((0..pages).map(move |p| (rising(p), ONE + p, says(p))))
}

/// Directories that each are in the one before.
fn chain(pages: u32) -> Box<dyn Iterator<Item = Record>> {
    let parent = |p| if p == 0 { 1 } else { FIRST + p - 1 };
    let says = move |p| Says::Directory { parent: parent(p) };
    Box::new((0..pages).map(move |p| (rising(p), FIRST + p, says(p))))
}

/// Directories that each are in the next, and the last in the first.
fn ring(pages: u32) -> Box<dyn Iterator<Item = Record>> {
    let parent = move |p| FIRST + (p + 1) % pages;
    let says = move |p| Says::Directory { parent: parent(p) };
    Box::new((0..pages).map(move |p| (rising(p), FIRST + p, says(p))))
}

/// Loops of every length from 1 on, until there are no more pages.
fn rings(pages: u32) -> Box<dyn Iterator<Item = Record>> {
    let (mut begin, mut length) = (0, 1);
    Box::new((0..pages).map(move |p| {
        if p == begin + length {
            (begin, length) = (p, length + 1);
        }
        let end = (begin + length).min(pages);
        let next = if p + 1 == end { begin } else { p + 1 };
        let parent = FIRST + next;
        (rising(p), FIRST + p, Says::Directory { parent })
    }))
}

/// One directory with as many headers as pages, which moves in and out of the root.
fn renamed(pages: u32) -> Box<dyn Iterator<Item = Record>> {
    let says = |p: u32| Says::Directory {
        parent: if p.is_multiple_of(2) { 1 } else { FIRST },
    };
    Box::new((0..pages).map(move |p| (rising(p), ONE, says(p))))
}

/// One file of as many chunks as pages, whose last block was written first.
fn backwards(pages: u32) -> Box<dyn Iterator<Item = Record>> {
    let sequence = move |p| LOWEST + (pages - 1 - p) / BLOCK;
    let says = move |p| match p {
        0 => Says::Header {
            size: pages * DATA as u32,
        },
        _ => Says::Data { chunk: 1 + p },
    };
    Box::new((0..pages).map(move |p| (sequence(p), ONE, says(p))))
}

/// Files of 4 GiB, each of a header and seven chunks that are far from each other in the
/// dump and in the file, last one first.
fn woven(pages: u32) -> Box<dyn Iterator<Item = Record>> {
    let files = (pages / 8).max(1);
    let says = move |p| match p / files {
        0 => Says::Header { size: u32::MAX },
        n => Says::Data {
            chunk: 0xF_FFFF / n,
        },
    };
    Box::new((0..pages).map(move |p| (rising(p), FIRST + p % files, says(p))))
}
