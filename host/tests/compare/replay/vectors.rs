//! The vectors: small dumps that each show a rule, and their K.

use crate::generator::build::Builder;
use crate::generator::shelf::{self, shelf, without, BLOCK, LAYOUT, OBJECT};
use crate::second::layout::Layout;

/// A dump and the byte that says its K.
pub struct Vector {
    pub k: u8,
    pub dump: Vec<u8>,
}

/// The object that the program asks every dump for, live or not.
pub const ALWAYS: u32 = 300;

/// The object of most vectors.
const FILE: u32 = OBJECT as u32;

/// All vectors, in their order.
pub fn vectors() -> Vec<Vector> {
    let of_shelf = BLOCK as u8;
    [
        (of_shelf, shelf().bytes),
        (of_shelf, without(&[5]).bytes),
        (of_shelf, without(&[5, 6]).bytes),
        (7, shrunk_and_grown()),
        (4, deleted_and_anew()),
        (2, equal_and_falling()),
        (1, limits()),
        (3, holes()),
        (6, crowded()),
        (0, Vec::new()),
        (4, Vec::new()),
        (3, less_than_half()),
        (2, large([2048, 64, 0], 2049, [3, 2048])),
        (1, large([2048, 64, 30], u32::MAX, [2, 2047])),
        (1, large([8192, 224, 2], 8193, [0xF_7FFF, 8192])),
        (1, tied()),
    ]
    .map(|(k, dump)| Vector { k, dump })
    .into()
}

/// A header page whose tags name the object alone: type, parent, size, shrink.
fn header(dump: &mut Builder, page: usize, sequence: u32, object: u32, words: [u32; 4]) {
    dump.tags(page, [sequence, object, 0, 0]);
    dump.header(page, words);
}

/// A data page: chunk and count.
fn data(dump: &mut Builder, page: usize, sequence: u32, object: u32, words: [u32; 2]) {
    dump.tags(page, [sequence, object, words[0], words[1]]);
}

/// A file is cut to 100 bytes and grows again: old bytes do not come back. A
/// smaller size with no mark cuts nothing.
fn shrunk_and_grown() -> Vec<u8> {
    let mut dump = Builder::new(LAYOUT, 7);
    for (page, chunk) in [(0, 1), (1, 2), (2, 3)] {
        shelf::data(&mut dump, page, 4097, chunk, 512);
    }
    for (page, size, shrink) in [(3, 100, 2), (4, 50, 0)] {
        shelf::header(&mut dump, page, 4097, size, shrink);
    }
    shelf::data(&mut dump, 5, 4097, 3, 512);
    shelf::header(&mut dump, 6, 4097, 1500, 0);
    dump.bytes
}

/// An object is deleted as a file and then as a directory, with data before
/// each, and its id given to a new file; another is unlinked.
fn deleted_and_anew() -> Vec<u8> {
    let mut dump = Builder::new(LAYOUT, 8);
    data(&mut dump, 0, 4097, FILE, [1, 512]);
    header(&mut dump, 1, 4097, FILE, [1, 4, 512, 0]);
    data(&mut dump, 2, 4097, FILE, [2, 512]);
    header(&mut dump, 3, 4097, FILE, [3, 4, 0, 0]);
    header(&mut dump, 4, 4098, FILE, [1, 1, 0, 0]);
    data(&mut dump, 5, 4098, FILE, [3, 20]);
    header(&mut dump, 6, 4098, FILE, [1, 1, 1044, 0]);
    header(&mut dump, 7, 4098, ALWAYS, [3, 3, 0, 0]);
    dump.bytes
}

/// Two blocks of equal sequence between two that fall: the later page is the
/// newer one among equals alone. A mark on a header of no file cuts nothing.
fn equal_and_falling() -> Vec<u8> {
    let mut dump = Builder::new(LAYOUT, 8);
    let blocks = [
        (4099, [1, 100], [1, 1, 612, 0]),
        (4098, [2, 50], [1, 1, 562, 0]),
        (4098, [2, 40], [3, 1, 520, 1]),
        (4097, [1, 400], [1, 1, 912, 0]),
    ];
    for (block, (sequence, chunk, words)) in blocks.into_iter().enumerate() {
        data(&mut dump, 2 * block, sequence, FILE, chunk);
        header(&mut dump, 2 * block + 1, sequence, FILE, words);
    }
    dump.bytes
}

/// Sequences and fields at their limits and past them. Half of the pages that
/// are not blank are good by their tags.
fn limits() -> Vec<u8> {
    let mut dump = Builder::new(LAYOUT, 13);
    header(&mut dump, 0, 0x1000, FILE, [1, 1, 600, 0]);
    data(&mut dump, 1, 0xEFFF_FF00, FILE, [1, 512]);
    data(&mut dump, 2, 0xEFFF_FF01, FILE, [1, 300]);
    data(&mut dump, 3, 0xFFF, FILE, [1, 300]);
    data(&mut dump, 4, 4097, FILE, [1, 513]);
    data(&mut dump, 5, 4097, FILE, [2, 0]);
    data(&mut dump, 6, 4097, 0x0FFF_FFFF, [0xF_FFFF, 1]);
    header(&mut dump, 7, 4097, 0x1000_0000 + FILE, [1, 1, 9, 0]);
    header(&mut dump, 8, 4097, 0x0FFF_FFFF, [5, 1, 9, 0]);
    header(&mut dump, 9, 4098, FILE, [0x101, 1, 9, 0]);
    header(&mut dump, 10, 4098, ALWAYS, [1, 1, 9, 0]);
    dump.tags(10, [4098, 0x3000_0000 + ALWAYS, 0x8000_0001, 0]);
    data(&mut dump, 11, 4098, FILE, [0x10_0000, 1]);
    dump.bytes
}

/// Holes beside a copy that the newest header cuts, with no mark; a newer page
/// of another sequence behind it makes the file longer.
fn holes() -> Vec<u8> {
    let mut dump = Builder::new(LAYOUT, 3);
    data(&mut dump, 0, 4097, FILE, [2, 512]);
    header(&mut dump, 1, 4097, FILE, [1, 1, 700, 0]);
    data(&mut dump, 2, 4098, FILE, [6, 340]);
    dump.bytes
}

/// A foreign page, then ids of one slot: a file, an empty one, a directory, and
/// data with no header.
fn crowded() -> Vec<u8> {
    let mut dump = Builder::new(LAYOUT, 6);
    let [file, empty, directory] = [ALWAYS + 6, ALWAYS - 6, ALWAYS + 12];
    data(&mut dump, 0, 1, file, [1, 512]);
    data(&mut dump, 1, 4097, file, [1, 80]);
    header(&mut dump, 2, 4097, file, [1, 1, 80, 0]);
    header(&mut dump, 3, 4097, empty, [1, 1, 0, 0]);
    header(&mut dump, 4, 4097, directory, [3, 1, 0, 0]);
    data(&mut dump, 5, 4097, ALWAYS, [2, 30]);
    dump.bytes
}

/// One good page behind two foreign ones: no layout fits.
fn less_than_half() -> Vec<u8> {
    let mut dump = Builder::new(LAYOUT, 3);
    for (page, sequence) in [1, 1, 4097].into_iter().enumerate() {
        header(&mut dump, page, sequence, FILE, [1, 1, 0, 0]);
    }
    dump.bytes
}

/// A file of this size, and a newer page of it: chunk and count.
fn large([data, spare, tag]: [usize; 3], size: u32, newer: [u32; 2]) -> Vec<u8> {
    let mut dump = Builder::new(Layout { data, spare, tag }, 2);
    header(&mut dump, 0, 4097, FILE, [1, 1, size, 0]);
    self::data(&mut dump, 1, 4097, FILE, newer);
    dump.bytes
}

/// One page of one layout and four of another, with a good page each: the
/// first in the table is found, neither the smaller page nor tag offset.
fn tied() -> Vec<u8> {
    let [data, spare, tag] = [2048, 64, 2];
    let mut dump = Builder::new(Layout { data, spare, tag }, 1);
    header(&mut dump, 0, 4097, 0x9000, [1, 1, 9, 0]);
    dump.tags_under(LAYOUT, 1, [4097, FILE, 1, 512]);
    dump.bytes
}
