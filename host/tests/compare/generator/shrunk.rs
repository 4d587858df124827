//! Dumps of a file of a few chunks that headers cut inside of: some data, then several
//! headers, and again. Now and then it is deleted and made anew, or of another type.
//! Ages go by sequences, by pages, or by both.

use super::build::Builder;
use super::dump::Dump;
use super::rng::Rng;
use crate::second::layout::table;

/// The most pages of such a dump.
const MOST: u64 = 24;

/// A random dump of that sort. Every page is a record of the file.
pub fn dump(rng: &mut Rng) -> Dump {
    let layout = rng.pick(&table());
    let k = rng.pick(&[1, 1, 2, 4]);
    let blocks = rng.between(3, MOST / k);
    let mut made = Dump {
        bytes: Vec::new(),
        layout,
        k,
        calm: true,
        ids: vec![rng.pick(&[1, 257, 0x0FFF_FFFF])],
        span: rng.pick(&[1, 2, 2, 3]),
        lengths: Vec::new(),
    };
    let mut builder = Builder::new(layout, (k * blocks) as usize);
    let mut written: Vec<u64> = (0..blocks).collect();
    let step = rng.pick(&[0, 1, 1]);
    if step > 0 && rng.chance(60) {
        rng.shuffle(&mut written);
    }
    let (mut chunk, mut headers) = (1, 1);
    for (age, block) in (0..).zip(written) {
        for page in block * k..(block + 1) * k {
            let (page, sequence) = (page as usize, 0x1001 + step * age);
            if headers > 0 {
                header_page(rng, &mut builder, page, &mut made, [sequence, chunk]);
                headers -= 1;
            } else {
                chunk = rng.between(1, made.span) as u32;
                data_page(rng, &mut builder, page, &mut made, [sequence, chunk]);
                headers = rng.pick(&[0, 0, 1, 2, 3, 4]);
            }
        }
    }
    made.bytes = builder.bytes;
    made
}

/// A page of data of a chunk, mostly full.
fn data_page(rng: &mut Rng, b: &mut Builder, page: usize, made: &mut Dump, tags: [u32; 2]) {
    rng.fill(b.data(page));
    let data = made.layout.data as u64;
    let some = rng.between(1, data);
    let count = rng.pick(&[data, data, data, some]);
    made.lengths.push(count);
    let [sequence, chunk] = tags;
    b.tags(page, [sequence, made.ids[0] as u32, chunk, count as u32]);
}

/// A header, mostly of a file whose size is inside this chunk.
fn header_page(rng: &mut Rng, b: &mut Builder, page: usize, made: &mut Dump, tags: [u32; 2]) {
    let data = made.layout.data as u64;
    let [sequence, chunk] = tags;
    let inside = u64::from(chunk - 1) * data + rng.between(1, data - 1);
    let edge = rng.below(made.span + 2) * data;
    let size = if rng.chance(80) { inside } else { edge };
    made.lengths.push(size % data);
    let parent = rng.pick(&[1, 1, 1, 1, 1, 1, 1, 1, 1, 1, 1, 1, 1, 1, 1, 1, 3, 4]);
    let other = rng.between(2, 5) as u32;
    let file_type = if rng.chance(90) { 1 } else { other };
    let shrink = rng.pick(&[0, 1, 1]);
    b.header(page, [file_type, parent, size as u32, shrink]);
    let word = file_type << 28 | made.ids[0] as u32;
    b.tags(page, [sequence, word, 0x8000_0001, 0]);
}
