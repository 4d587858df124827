//! Dumps that are hard to find the layout of: tags where another layout would
//! have them, and lengths that are no whole blocks.

use super::build::Builder;
use super::dump::Dump;
use super::rng::Rng;
use crate::second::layout::{table, Layout};

/// Plant tags of other layouts that divide the length, if there are any.
pub fn plant(rng: &mut Rng, b: &mut Builder, k: u64) {
    let own = b.layout;
    let length = b.bytes.len();
    let mut others = table();
    others.retain(|&other| other != own && length.is_multiple_of(other.page() * k as usize));
    let twins: Vec<Layout> = others
        .iter()
        .copied()
        .filter(|o| o.data == own.data)
        .collect();
    match rng.below(6) {
        0 if !twins.is_empty() => twin(rng, b, &twins),
        1 | 2 if !others.is_empty() => {
            let other = rng.pick(&others);
            scatter(rng, b, other, k);
        }
        _ => race(rng, b, &others, k),
    }
}

/// Copy each page's tags to where a layout of the same pair has them, so that
/// the two score alike, or nearly.
fn twin(rng: &mut Rng, b: &mut Builder, twins: &[Layout]) {
    let other = rng.pick(twins);
    let kept = rng.pick(&[100, 100, 80]);
    for page in 0..b.pages() {
        let at = page * b.layout.page() + b.layout.data + b.layout.tag;
        let words: [u32; 4] = std::array::from_fn(|i| {
            let four = &b.bytes[at + 4 * i..at + 4 * i + 4];
            u32::from_le_bytes([four[0], four[1], four[2], four[3]])
        });
        if rng.chance(kept) {
            b.tags_under(other, page, words);
        }
    }
}

/// Good tags for some pages of another layout, over whatever stands there.
fn scatter(rng: &mut Rng, b: &mut Builder, other: Layout, k: u64) {
    let density = rng.pick(&[20, 50, 80, 100]);
    for page in 0..b.bytes.len() / other.page() {
        if rng.chance(density) {
            let jitter = if rng.chance(10) { 1 } else { 0 };
            b.tags_under(other, page, [sequence(page, k) + jitter, 257, 1, 1]);
        }
    }
}

/// The sequence of a page's block.
fn sequence(page: usize, k: u64) -> u32 {
    0x1800 + (page as u64 / k) as u32
}

/// A clean dump on which up to three layouts run close: their good pages are
/// as many, or one more, and the bad ones none, or about as many again.
fn race(rng: &mut Rng, b: &mut Builder, others: &[Layout], k: u64) {
    b.bytes.fill(0xFF);
    let mut layouts = vec![b.layout];
    if !others.is_empty() {
        layouts.extend((0..rng.pick(&[1, 1, 2])).map(|_| rng.pick(others)));
    }
    let fewest = layouts.iter().map(|l| b.bytes.len() / l.page()).min();
    let least = rng.between(1, fewest.unwrap_or(1) as u64);
    let most = least + rng.pick(&[0, 0, 1]);
    for layout in layouts {
        let pages = b.bytes.len() / layout.page();
        let good = rng.between(least, most) as usize;
        let bad = rng.pick(&[0, 0, good - 1, good, good + 1]);
        for (page, mark) in marks(rng, pages, good, bad).into_iter().enumerate() {
            let sequence = match mark {
                Mark::Good => sequence(page, k),
                Mark::Bad => 7,
                Mark::Blank => continue,
            };
            b.tags_under(layout, page, [sequence, 257, 0, 0]);
        }
    }
}

/// What a candidate makes of a page: Bad is neither good nor blank.
#[derive(Clone, Copy)]
enum Mark {
    Good,
    Bad,
    Blank,
}

/// So many good and bad pages, from the first page on, up to the last, or
/// anywhere.
fn marks(rng: &mut Rng, pages: usize, good: usize, bad: usize) -> Vec<Mark> {
    let mut marks = [vec![Mark::Good; good], vec![Mark::Bad; bad]].concat();
    marks.truncate(pages);
    if rng.chance(30) {
        marks.reverse();
    }
    let marked = marks.len();
    marks.resize(pages, Mark::Blank);
    match rng.below(4) {
        0 => {}
        1 | 2 => marks.rotate_left(marked),
        _ => rng.shuffle(&mut marks),
    }
    marks
}

/// Make the length of some dumps one that is not whole blocks.
pub fn spoil_length(rng: &mut Rng, made: &mut Dump) {
    let page = made.layout.page();
    let length = made.bytes.len();
    let new = match rng.below(35) {
        0 => 0,
        1 => rng.below(length as u64) as usize,
        2 => length + rng.pick(&[1, page / 2, page]),
        3 => length - rng.pick(&[1, page]),
        _ => length,
    };
    made.bytes.resize(new, 0xFF);
}
