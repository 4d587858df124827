//! A dump in which every page is the header of an object of its own: a tree of some
//! depth, with loops and with parents that lead nowhere.

use std::fs::File;
use std::io::{self, BufWriter, Write as _};
use std::path::Path;

use super::hostile::kinds::{pages, PAGE};

const DATA: usize = 512;

/// The first id; that of each page follows.
const FIRST: u32 = 257;

/// Writes a dump of 512/16/0 of at most so many MiB.
pub fn write(path: &Path, mib: usize) -> io::Result<()> {
    let mut file = BufWriter::new(File::create(path)?);
    let pages = pages(mib);
    let mut seed: u64 = 1;
    for number in 0..pages {
        // xorshift64
        seed ^= seed << 13;
        seed ^= seed >> 7;
        seed ^= seed << 17;
        let chance = (seed >> 40) as u32;
        let file_type = if chance.is_multiple_of(4) { 3 } else { 1 };
        // mostly an earlier page's object, which may be no directory
        let parent = match chance % 100 {
            0..=4 => 1,
            5 => FIRST + (seed >> 33) as u32 % pages,
            6 => 4,
            _ => FIRST + (seed >> 33) as u32 % number.max(1) / 4 * 4,
        };
        file.write_all(&page(number, file_type, parent))?;
    }
    file.flush()
}

/// A header page. Objects whose number four divides are directories, so that the tree
/// grows.
fn page(number: u32, file_type: u32, parent: u32) -> [u8; PAGE] {
    let file_type = if number.is_multiple_of(4) {
        3
    } else {
        file_type
    };
    let mut page = [0; PAGE];
    let name = format!("object-{number}");
    page[0xA..0xA + name.len()].copy_from_slice(name.as_bytes());
    let mut put = |at: usize, word: u32| page[at..at + 4].copy_from_slice(&word.to_le_bytes());
    put(0, file_type);
    put(4, parent);
    let tags = [
        0x1000 + number / super::BLOCK,
        (file_type << 28) | (FIRST + number),
        1 << 31 | 1,
        0,
    ];
    for (i, word) in tags.into_iter().enumerate() {
        put(DATA + 4 * i, word);
    }
    page
}
