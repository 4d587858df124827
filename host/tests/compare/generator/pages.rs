//! Random pages of each kind, with fields at their limits.

use super::build::Builder;
use super::dump::Dump;
use super::rng::Rng;

const ID_LIMITS: [u32; 6] = [0, 1, 0x0FFF_FFFF, 0x1000_0000, 0x1000_0101, 0xFFFF_FFFF];

const CHUNK_LIMITS: [u32; 8] = [
    0xF_FFFE,
    0xF_FFFF,
    0xF_FFFF,
    0xF_FFFF,
    0x10_0000,
    0x10_0001,
    0x4000_0001,
    0x7FFF_FFFF,
];

/// Header words with the top bit, whose other bits do not matter.
const TOP_BIT_WORDS: [u32; 5] = [
    0x8000_0000,
    0x8000_0001,
    0x8000_0101,
    0xC000_0000,
    0xFFFF_FFFF,
];

const SHRINKS: [u32; 9] = [0, 0, 0, 0, 0, 1, 1, 0xFFFF_FFFF, 0x0001_0000];

/// A byte count: mostly right, sometimes at a limit.
fn count(rng: &mut Rng, data: u64) -> u32 {
    let count = match rng.below(20) {
        0..=7 => data,
        8..=15 => rng.between(1, data),
        16 => 1,
        17 => data - 1,
        18 => rng.pick(&[0, data + 1, data + 1, data * 2, 0xFFFF_FFFF]),
        _ => rng.between(data / 2, data),
    };
    count as u32
}

/// The id, or in a few places one at a limit.
fn perhaps_limit(rng: &mut Rng, made: &Dump, id: u32) -> u32 {
    match !made.calm && rng.chance(3) {
        true => rng.pick(&ID_LIMITS),
        false => id,
    }
}

/// A data page of the object, `tags` being its sequence and id.
pub fn data_page(rng: &mut Rng, b: &mut Builder, page: usize, made: &mut Dump, tags: [u32; 2]) {
    rng.fill(b.data(page));
    let [sequence, id] = tags;
    let id = perhaps_limit(rng, made, id);
    let chunk = match rng.below(40) {
        0 | 1 if !made.calm => rng.pick(&CHUNK_LIMITS),
        2 => rng.between(1, 0xF_FFFF) as u32,
        _ => rng.between(1, made.span) as u32,
    };
    let count = count(rng, made.layout.data as u64);
    made.lengths
        .push(count as u64 % (made.layout.data as u64 + 1));
    b.tags(page, [sequence, id, chunk, count]);
}

/// A file size: often at the edge of a chunk.
fn file_size(rng: &mut Rng, made: &Dump) -> u32 {
    let data = made.layout.data as u64;
    let edge = rng.below(made.span + 2) * data;
    let size = match rng.below(20) {
        0 | 1 => 0,
        2..=9 => edge,
        10 => made.span * data,
        11 => edge + 1,
        12 => edge.saturating_sub(1),
        13 => rng.pick(&[1, 0x7FFF_FFFF, 0x8000_0000, 0xFFFF_FFFF]),
        _ => rng.below((made.span + 1) * data),
    };
    size as u32
}

/// A header page of the object, `tags` being its sequence, id and usual type.
pub fn header_page(rng: &mut Rng, b: &mut Builder, page: usize, made: &mut Dump, tags: [u32; 3]) {
    match rng.below(4) {
        0 => {}
        1 => b.data(page).fill(0),
        _ => rng.fill(b.data(page)),
    }
    let [sequence, id, usual] = tags;
    let any = rng.word();
    let parent = match made.calm {
        true => rng.pick(&[1, 1, 1, 1, 1, 1, 1, 1, 1, 1, 1, 1, 2, 3, 4, any]),
        false => rng.pick(&[1, 1, 1, 1, 1, 1, 257, 3, 4, 0, 2, 5, 0xFFFF_FFFF, any]),
    };
    let file_type = match rng.below(20) {
        0 if !made.calm => rng.pick(&[0, 6, 0x101, 0x0100_0001, 0xFFFF_FFFF]),
        1 | 2 => rng.between(1, 5) as u32,
        3..=11 if parent == 3 || parent == 4 => 3,
        _ => usual,
    };
    let size = file_size(rng, made);
    made.lengths.push(size as u64 % made.layout.data as u64);
    let shrink = rng.pick(&SHRINKS);
    b.header(page, [file_type, parent, size, shrink]);
    let id = perhaps_limit(rng, made, id);
    let words = header_words(rng, made.calm, id, file_type);
    let count = rng.pick(&[0, 0, 1, made.layout.data as u32, 0xFFFF_FFFF]);
    b.tags(page, [sequence, words[0], words[1], count]);
}

/// Object and chunk word of a header, in either form.
fn header_words(rng: &mut Rng, calm: bool, id: u32, file_type: u32) -> [u32; 2] {
    if rng.chance(40) {
        let typed = if !calm && rng.chance(6) {
            file_type << 28
        } else {
            0
        };
        return [id | typed, 0];
    }
    let tag_type = match !calm && rng.chance(5) {
        true => rng.word() & 0xF,
        false => file_type & 0xF,
    };
    let any = rng.word() | 0x8000_0000;
    let chunk = match rng.chance(80) {
        true => rng.pick(&TOP_BIT_WORDS),
        false => any,
    };
    [tag_type << 28 | id & 0x0FFF_FFFF, chunk]
}

/// A blank page: by its sequence alone, or clean.
pub fn blank_page(rng: &mut Rng, b: &mut Builder, page: usize) {
    if rng.chance(30) {
        rng.fill(b.data(page));
        b.tags(page, [0xFFFF_FFFF, 257, 1, 1]);
    }
}

/// A foreign page, some of them with tags that would make a record.
pub fn foreign_page(rng: &mut Rng, b: &mut Builder, page: usize, id: u32) {
    let sequence = rng.pick(&[0, 0x21, 0xFFF, 0xFFF, 0xEFFF_FF01, 0xEFFF_FF01, 0xFFFF_FFFE]);
    rng.fill(b.data(page));
    b.tags(page, [sequence, id, rng.pick(&[0, 1, 2]), 1]);
}

/// A page of random bytes, with a sequence in half the cases.
pub fn noise_page(rng: &mut Rng, b: &mut Builder, page: usize, sequence: u32) {
    rng.fill(b.data(page));
    let mut words = [rng.word(), rng.word(), rng.word(), rng.word()];
    if rng.chance(50) {
        words[0] = sequence;
    }
    b.tags(page, words);
}
