//! The shelf dump W: one file in eight pages of 512 bytes, K = 4.

use super::build::Builder;
use crate::second::layout::Layout;

pub const LAYOUT: Layout = Layout {
    data: 512,
    spare: 16,
    tag: 0,
};
pub const BLOCK: u64 = 4;
pub const OBJECT: u64 = 257;

/// W, still open to changes.
pub fn shelf() -> Builder {
    let mut w = Builder::new(LAYOUT, 8);
    header(&mut w, 0, 4097, 0, 0);
    data(&mut w, 1, 4097, 1, 512);
    data(&mut w, 2, 4097, 2, 100);
    header(&mut w, 3, 4097, 612, 0);
    header(&mut w, 4, 4098, 300, 1);
    data(&mut w, 5, 4098, 1, 300);
    data(&mut w, 6, 4098, 3, 10);
    w
}

/// W with these pages blank.
pub fn without(pages: &[usize]) -> Builder {
    let mut w = shelf();
    for &page in pages {
        w.tags(page, [u32::MAX; 4]);
    }
    w
}

/// A header page of W: a file under the root.
pub fn header(w: &mut Builder, page: usize, sequence: u32, size: u32, shrink: u32) {
    w.tags(page, [sequence, 0x1000_0101, 0x8000_0001, 0]);
    w.header(page, [1, 1, size, shrink]);
}

/// A data page of W.
pub fn data(w: &mut Builder, page: usize, sequence: u32, chunk: u32, count: u32) {
    w.tags(page, [sequence, 257, chunk, count]);
}
