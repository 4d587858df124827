//! Dumps of one or two files that are written over and over: shrunk and grown
//! again, with holes of many chunks, and with sizes far beyond their data.

use super::build::Builder;
use super::dump::Dump;
use super::rng::Rng;
use crate::second::layout::{table, Layout};
use crate::second::page::LAST_CHUNK;

/// The most pages of such a dump.
const MOST: u64 = 48;

/// A random dump of that sort. Every page is a record, but for blank ones behind.
pub fn dump(rng: &mut Rng) -> Dump {
    let small = table().into_iter().find(|layout| layout.data == 512);
    let layout = match (rng.chance(50), small) {
        (true, Some(small)) => small,
        _ => rng.pick(&table()),
    };
    let k = rng.pick(&[1, 2, 4, 8]);
    let pages = k * rng.between(2, MOST / k);
    let ids = rng.pick(&[[257, 258], [1, 0x0FFF_FFFF]]);
    let mut made = Dump {
        bytes: Vec::new(),
        layout,
        k,
        calm: true,
        ids: ids.to_vec(),
        span: rng.between(2, 9),
        lengths: Vec::new(),
    };
    let mut builder = Builder::new(layout, pages as usize);
    let blank = rng.below(k);
    for page in 0..pages - blank {
        let id = ids[rng.below(5) as usize / 4] as u32;
        let tags = [0x1001 + (page / k) as u32, id];
        match rng.chance(60) {
            true => data_page(rng, &mut builder, page as usize, &mut made, tags),
            false => header_page(rng, &mut builder, page as usize, &mut made, tags),
        }
    }
    made.bytes = builder.bytes;
    made
}

/// A byte of the file at which something may begin or end: in its first chunks,
/// or now and then as far out as chunks have numbers, or further.
fn place(rng: &mut Rng, layout: Layout, span: u64) -> u64 {
    let data = layout.data as u64;
    let far = (LAST_CHUNK - 2 + rng.below(6)) * data;
    let chunk = match rng.below(12) {
        0 => far,
        1 => rng.below(LAST_CHUNK) * data,
        _ => rng.below(span) * data,
    };
    let within = rng.below(data);
    chunk + rng.pick(&[0, 0, 0, 1, data - 1, within])
}

/// A page of data: full, or of so many bytes as reach to some place.
fn data_page(rng: &mut Rng, b: &mut Builder, page: usize, made: &mut Dump, tags: [u32; 2]) {
    rng.fill(b.data(page));
    let (data, end) = (made.layout.data as u64, place(rng, made.layout, made.span));
    let chunk = (end / data + 1).min(LAST_CHUNK);
    let count = match rng.chance(50) {
        true => data,
        false => (end % data).max(1),
    };
    made.lengths.push(count);
    let [sequence, id] = tags;
    b.tags(page, [sequence, id, chunk as u32, count as u32]);
}

/// A header of a file: often shrink-marked, and of a size at some place or as
/// large as can be. Now and then the file is unlinked or deleted.
fn header_page(rng: &mut Rng, b: &mut Builder, page: usize, made: &mut Dump, tags: [u32; 2]) {
    let some = place(rng, made.layout, made.span);
    let size = match rng.below(8) {
        0 => u64::from(u32::MAX),
        1 => 0,
        _ => some,
    };
    let size = size.min(u32::MAX.into());
    made.lengths.push(size % made.layout.data as u64);
    let parent = rng.pick(&[1, 1, 1, 1, 1, 1, 1, 1, 1, 1, 3, 4]);
    let shrink = rng.pick(&[0, 1]);
    b.header(page, [1, parent, size as u32, shrink]);
    let [sequence, id] = tags;
    b.tags(page, [sequence, 1 << 28 | id, 0x8000_0001, 0]);
}
