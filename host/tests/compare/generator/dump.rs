//! Random dumps: few objects, so that cuts, holes and older copies really
//! happen, and fields at their limits.

use super::build::Builder;
use super::decoy;
use super::pages::{blank_page, data_page, foreign_page, header_page, noise_page};
use super::rng::Rng;
use crate::second::layout::{table, Layout};

/// A dump, and what is worth asking of it.
pub struct Dump {
    pub bytes: Vec<u8>,
    /// The layout and K it was made by.
    pub layout: Layout,
    pub k: u64,
    /// Whether it is mostly the sound records of files, with few limits.
    pub calm: bool,
    /// Ids on its pages, the most frequent first.
    pub ids: Vec<u64>,
    /// The last chunk number that is not a limit's.
    pub span: u64,
    /// Byte counts, and what file sizes leave of a last chunk.
    pub lengths: Vec<u64>,
}

impl Dump {
    /// The lengths, or 1 where there are none.
    pub fn lengths_or_one(&self) -> Vec<u64> {
        match self.lengths.is_empty() {
            true => vec![1],
            false => self.lengths.clone(),
        }
    }
}

/// How many out of a hundred pages are data, header, blank, foreign, noise.
const MIXES: [[u64; 5]; 10] = [
    [58, 34, 4, 2, 2],
    [62, 36, 2, 0, 0],
    [70, 28, 1, 1, 0],
    [50, 48, 1, 1, 0],
    [56, 40, 2, 1, 1],
    [25, 70, 2, 2, 1],
    [90, 4, 3, 2, 1],
    [25, 15, 20, 20, 20],
    [14, 8, 76, 1, 1],
    [30, 20, 5, 40, 5],
];

/// So many of the mixes, from the first, are calm.
const CALM_MIXES: usize = 5;

const SEQUENCE_LIMITS: [u32; 10] = [
    0,
    0xFFF,
    0x1000,
    0x1001,
    0x7FFF_FFFF,
    0xEFFF_FEFF,
    0xEFFF_FF00,
    0xEFFF_FF01,
    0xFFFF_FFFE,
    0xFFFF_FFFF,
];

/// A random dump.
pub fn dump(rng: &mut Rng) -> Dump {
    let layout = rng.pick(&table());
    let (k, pages) = block_and_pages(rng, layout);
    let mut made = Dump {
        bytes: Vec::new(),
        layout,
        k,
        calm: rng.chance(45),
        ids: ids(rng, pages as u64),
        span: rng.pick(&[1, 2, 2, 3, 3, 4, 6, 9]),
        lengths: Vec::new(),
    };
    let sequences = sequences(rng, pages, k as usize);
    let mut builder = Builder::new(layout, pages);
    let mix = match made.calm {
        true => rng.pick(&MIXES[..CALM_MIXES]),
        false => rng.pick(&MIXES),
    };
    let mut types: Vec<u32> = (0..made.ids.len())
        .map(|_| rng.pick(&[1, 1, 1, 1, 1, 1, 1, 3, 3, 2, 4, 5]))
        .collect();
    if made.calm || rng.chance(70) {
        types[0] = 1;
    }
    for (page, &sequence) in sequences.iter().enumerate() {
        let who = match rng.chance(if made.ids.len() > 5 { 10 } else { 60 }) {
            true => 0,
            false => rng.below(made.ids.len() as u64) as usize,
        };
        let id = made.ids[who] as u32;
        match rng.weighted(&mix) {
            0 => data_page(rng, &mut builder, page, &mut made, [sequence, id]),
            1 => {
                let tags = [sequence, id, types[who]];
                header_page(rng, &mut builder, page, &mut made, tags);
            }
            2 => blank_page(rng, &mut builder, page),
            3 => foreign_page(rng, &mut builder, page, id),
            _ => noise_page(rng, &mut builder, page, sequence),
        }
    }
    let decoys = if k > 64 { 90 } else { 50 };
    if !made.calm && rng.chance(decoys) {
        decoy::plant(rng, &mut builder, k);
    }
    made.bytes = builder.bytes;
    if !made.calm {
        decoy::spoil_length(rng, &mut made);
    }
    made
}

/// K, and a number of pages that makes whole blocks; large pages stay few. Now
/// and then every layout divides the dump.
fn block_and_pages(rng: &mut Rng, layout: Layout) -> (u64, usize) {
    if layout.data > 4096 && rng.chance(4) {
        return (1, common_length() / layout.page());
    }
    let most = match layout.data {
        512 => 600,
        2048 => 300,
        4096 => 64,
        _ => 40,
    };
    let pages = match rng.below(100) {
        0..=9 => rng.between(1, 4),
        10..=69 => rng.between(5, 24),
        70..=95 => rng.between(25, 64),
        96..=98 => rng.between(65, 256),
        _ => rng.between(257, 600),
    };
    let pages = pages.min(most);
    let k = rng.pick(&[1, 2, 3, 4, 4, 4, 5, 6, 7, 8, 8, 16, 32, 64, 128, 256, 256]);
    let k = if k > most { 4.min(pages) } else { k };
    let blocks = (pages / k).max(1);
    (k, (k * blocks) as usize)
}

/// The fewest bytes that every layout divides into pages.
fn common_length() -> usize {
    table().iter().map(|layout| layout.page()).fold(1, |a, b| {
        let mut multiples = (1..).map(|n| n * a);
        multiples.find(|n| n.is_multiple_of(b)).unwrap_or(a)
    })
}

/// One to five ids, often equal modulo the number of pages; sometimes about
/// as many as there are pages.
fn ids(rng: &mut Rng, pages: u64) -> Vec<u64> {
    let small = rng.between(1, 600);
    let first = rng.pick(&[
        257,
        257,
        small,
        small,
        1,
        3,
        4,
        pages,
        2 * pages - 1,
        0x0FFF_FFFF,
        0x0FFF_FFFE,
    ]);
    let mut ids = vec![first];
    let others = match rng.chance(8) {
        true => pages,
        false => rng.pick(&[0, 1, 1, 2, 2, 3, 4]),
    };
    for _ in 0..others {
        let step = pages * rng.between(1, 4);
        let other = match rng.below(10) {
            0..=3 if first > 0x0FFF_0000 => first - step,
            0..=3 => first + step,
            4 => first ^ 1,
            5 => 0x0FFF_FFFF,
            6 => rng.between(1, 4),
            _ => rng.between(1, 600),
        };
        if other != 0 && !ids.contains(&other) {
            ids.push(other);
        }
    }
    ids
}

/// A sequence for each page: one to a block, as a rule.
fn sequences(rng: &mut Rng, pages: usize, k: usize) -> Vec<u32> {
    let small = rng.between(0x1000, 0x2000) as u32;
    let top = 0xEFFF_FEFF - rng.below(20) as u32;
    let first = rng.pick(&[4097, small, small, 0xFFF, 0x7FFF_FFFD, top]);
    let blocks = pages.div_ceil(k);
    let mut of_block: Vec<u32> = (0..blocks as u32).map(|b| first + b).collect();
    match rng.below(8) {
        0 | 1 => {}
        2 => of_block.reverse(),
        3 => of_block.fill(first.max(0x1000)),
        4 => {
            for sequence in &mut of_block {
                *sequence = first + rng.below(3) as u32;
            }
        }
        _ => rng.shuffle(&mut of_block),
    }
    let jitter = rng.pick(&[0, 0, 0, 10, 50]);
    let limits = rng.pick(&[0, 0, 2, 8]);
    (0..pages)
        .map(|page| {
            let sequence = of_block[page / k];
            if rng.chance(limits) {
                rng.pick(&SEQUENCE_LIMITS)
            } else if rng.chance(jitter) {
                sequence - 1 + rng.below(4) as u32
            } else {
                sequence
            }
        })
        .collect()
}
