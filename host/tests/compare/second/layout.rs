//! Layouts, K, and the length of a dump.

use super::refusal::{refuse, Refusal};
use super::wrong::Wrong;

/// The longest dump, in bytes.
pub const LONGEST: u64 = 1 << 30;

/// Data and spare sizes, in the order of the table.
const PAIRS: [(usize, usize); 5] = [
    (2048, 64),
    (4096, 128),
    (512, 16),
    (8192, 224),
    (16384, 448),
];

/// Tag offsets, in the order of the table; the smallest pages have only the first.
const OFFSETS: [usize; 3] = [0, 2, 30];

/// A layout: data size P, spare size S and tag offset T.
#[derive(Clone, Copy, Debug, PartialEq, Eq)]
pub struct Layout {
    pub data: usize,
    pub spare: usize,
    pub tag: usize,
}

impl Layout {
    /// Bytes of a page: its data, then its spare.
    pub fn page(self) -> usize {
        self.data + self.spare
    }
}

/// The thirteen layouts, by pair and then by offset.
pub fn table() -> Vec<Layout> {
    let mut table = Vec::new();
    for (data, spare) in PAIRS {
        for tag in OFFSETS {
            if data != 512 || tag == 0 {
                table.push(Layout { data, spare, tag });
            }
        }
    }
    table
}

/// A layout as a request names it: by its place in the table or by its sizes.
/// It may be one that the table does not have.
#[derive(Clone, Copy, Debug, PartialEq, Eq)]
pub enum Named {
    Number(u64),
    Sizes(u64, u64, u64),
}

impl Named {
    /// The layout of the table that is meant, if there is one.
    pub fn layout(self) -> Option<Layout> {
        match self {
            Named::Number(number) => table().get(usize::try_from(number).ok()?).copied(),
            Named::Sizes(p, s, t) => table()
                .into_iter()
                .find(|l| (l.data as u64, l.spare as u64, l.tag as u64) == (p, s, t)),
        }
    }
}

impl From<Layout> for Named {
    fn from(l: Layout) -> Named {
        Named::Sizes(l.data as u64, l.spare as u64, l.tag as u64)
    }
}

/// Whether K is no block size.
pub fn bad_block(k: u64, wrong: Wrong) -> bool {
    wrong != Wrong::BlockIgnored && !(1..=256).contains(&k)
}

/// Whether no dump has this length.
pub fn bad_length(length: u64) -> bool {
    length == 0 || length > LONGEST
}

/// Whether a dump of this length is not made of whole blocks.
pub fn broken_block(layout: Layout, k: u64, length: u64, wrong: Wrong) -> bool {
    let k = if wrong == Wrong::BlockIgnored { 1 } else { k };
    !length.is_multiple_of(k * layout.page() as u64)
}

/// The tests of every call that names a layout: the layout meant and the
/// number of its pages, or refusal 1 or 2.
pub fn opened(named: Named, k: u64, length: u64, wrong: Wrong) -> Result<(Layout, usize), Refusal> {
    let bad_block = bad_block(k, wrong);
    let layout = named.layout();
    let broken = !bad_block && layout.is_some_and(|l| broken_block(l, k, length, wrong));
    let tests = [
        (Refusal::BadLayout, layout.is_none() || bad_block),
        (Refusal::BadLength, bad_length(length) || broken),
    ];
    refuse(&tests, wrong)?;
    let layout = layout.ok_or(Refusal::BadLayout)?;
    Ok((layout, length as usize / layout.page()))
}
