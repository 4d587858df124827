//! Pairs of dumps to be compared. Most are of one controller, an evening's and a
//! morning's, often under two layouts; some are of any dump and the same with a few
//! pages changed. A few are refused.

use super::controller::{collected, laid, played};
use super::dump::{self, Dump};
use super::night::{evening, night, spoil};
use super::rng::Rng;
use super::{rewritten, trees};
use crate::second::compare::{compare, Differing, Side};
use crate::second::layout::{table, Layout, Named};
use crate::second::refusal::Refusal;
use crate::second::wrong::Wrong;

/// Two dumps, each with its layout, where that is named, and K.
pub struct Pair {
    pub seed: u64,
    pub dumps: [Vec<u8>; 2],
    pub layouts: [Option<Named>; 2],
    pub blocks: [u64; 2],
}

impl Pair {
    pub fn sides(&self) -> [Side<'_>; 2] {
        [0, 1].map(|side| Side {
            dump: &self.dumps[side],
            layout: self.layouts[side],
            k: self.blocks[side],
        })
    }

    /// What the second reader answers, under one wrong rule or none.
    pub fn answer(&self, wrong: Wrong) -> Result<Vec<Differing>, Refusal> {
        compare(self.sides(), wrong)
    }
}

/// Of so many seeds one makes a pair of any dump and the same changed.
const SORTS: u64 = 5;

/// The pair of a seed.
pub fn pair(seed: u64) -> Pair {
    let mut rng = Rng::new(seed ^ 0x5EED_0000_0000);
    let rng = &mut rng;
    let mut pair = match seed % SORTS {
        0 => changed(rng),
        _ => nightly(rng),
    };
    pair.seed = seed;
    if rng.chance(30) {
        pair.dumps.reverse();
        pair.layouts.reverse();
        pair.blocks.reverse();
    }
    for side in 0..2 {
        if rng.chance(25) {
            pair.layouts[side] = None;
        }
    }
    if rng.chance(15) {
        for side in 0..2 {
            if rng.chance(60) {
                refused(rng, &mut pair, side);
            }
        }
    }
    pair
}

/// A pair of dumps with these bytes, each with a layout and K.
fn of(dumps: [Vec<u8>; 2], layouts: [Layout; 2], blocks: [u64; 2]) -> Pair {
    Pair {
        seed: 0,
        dumps,
        layouts: layouts.map(|layout| Some(layout.into())),
        blocks,
    }
}

/// A layout; small pages are the most frequent.
fn layout(rng: &mut Rng) -> Layout {
    let table = table();
    let small: Vec<Layout> = table.iter().copied().filter(|l| l.data <= 2048).collect();
    match rng.chance(60) {
        true => rng.pick(&small),
        false => rng.pick(&table),
    }
}

/// The dumps of one controller on an evening and on the morning behind it.
fn nightly(rng: &mut Rng) -> Pair {
    let one = layout(rng);
    let other = if rng.chance(50) { one } else { layout(rng) };
    let sizes = [one.data as u64, other.data as u64];
    let (ids, mut steps) = evening(rng, sizes);
    let mut logs = [played(&steps, one.data), Vec::new()];
    steps.extend(night(rng, &ids, sizes));
    logs[1] = match rng.chance(30) {
        true => collected(&steps, other.data),
        false => played(&steps, other.data),
    };
    for log in &mut logs {
        for _ in 0..rng.pick(&[0, 0, 0, 1, 1, 2]) {
            spoil(rng, log, &ids);
        }
    }
    let k = rng.pick(&[1, 2, 3, 4, 4, 8]);
    let blocks = [k, if rng.chance(50) { k } else { rng.between(1, 9) }];
    let layouts = [one, other];
    let dumps = [0, 1].map(|side| laid(rng, &logs[side], layouts[side], blocks[side] as usize));
    of(dumps, layouts, blocks)
}

/// A dump at the edges of the rules, and the same with a few pages changed.
fn changed(rng: &mut Rng) -> Pair {
    let made: Dump = match rng.below(3) {
        0 => rewritten::dump(rng),
        1 => trees::dump(rng),
        _ => dump::dump(rng),
    };
    let (page, mut other) = (made.layout.page(), made.bytes.clone());
    let pages = other.len() / page;
    for _ in 0..rng.pick(&[0, 1, 1, 2, 3, 6]) {
        if pages == 0 {
            break;
        }
        let at = rng.below(pages as u64) as usize * page;
        let from = rng.below(pages as u64) as usize * page;
        let tags = at + made.layout.data + made.layout.tag;
        match rng.below(6) {
            0 => other.copy_within(from..from + page, at),
            1 => other[tags..tags + 4].fill(0xFF),
            2 => other[tags] = other[tags].wrapping_add(1),
            3 => other[tags + 12] ^= 1,
            4 => other[at + rng.below(512) as usize] ^= rng.pick(&[1, 0xFF]),
            _ => other[at + rng.below(made.layout.data as u64) as usize] ^= 1,
        }
    }
    of([made.bytes, other], [made.layout; 2], [made.k; 2])
}

/// Makes a dump of a pair one that is refused, mostly.
fn refused(rng: &mut Rng, pair: &mut Pair, side: usize) {
    match rng.below(9) {
        0 => pair.layouts[side] = Some(Named::Number(rng.pick(&[13, 99]))),
        1 => {
            pair.layouts[side] = Some(rng.pick(&[Named::Sizes(512, 16, 2), Named::Sizes(0, 0, 0)]))
        }
        2 => pair.blocks[side] = rng.pick(&[0, 257, 1 << 32]),
        3 => pair.blocks[side] += rng.pick(&[1, 7, 200]),
        4 => pair.dumps[side].clear(),
        5 => {
            pair.dumps[side].pop();
        }
        6 => pair.layouts[side] = Some(rng.pick(&table()).into()),
        _ => {
            pair.layouts[side] = None;
            pair.dumps[side].fill(rng.pick(&[0, 0xFF]));
        }
    }
}
