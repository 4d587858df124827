//! The arguments of random requests: mostly sensible, sometimes at a limit or
//! beyond it.

use super::dump::Dump;
use super::rng::Rng;
use crate::second::cells::need;
use crate::second::copies::packed;
use crate::second::index::{Lent, Over, Reader};
use crate::second::layout::{opened, table, Layout, Named};
use crate::second::page::{LAST_CHUNK, LAST_OBJECT};
use crate::second::script::Request;
use crate::second::why::Past;
use crate::second::wrong::Wrong;

/// Tables of so many words are not asked for, but for a refusal.
const MANY: u64 = 128;

/// Beyond 32 bits: a number that must not be cut down to one in range.
const WIDE: u64 = 1 << 32;

/// A list of requests in the making.
pub struct Asker<'a> {
    pub rng: &'a mut Rng,
    pub dump: &'a Dump,
    /// Layout and page count of the last accepted start.
    pub started: Option<(Layout, usize)>,
    /// The seed that the index has.
    pub seed: u32,
    pub list: Vec<Request>,
}

impl Asker<'_> {
    /// A layout of the table, by number or by sizes.
    pub fn named(&mut self, layout: Layout) -> Named {
        let number = table().iter().position(|&l| l == layout);
        match number {
            Some(number) if self.rng.chance(50) => Named::Number(number as u64),
            _ => layout.into(),
        }
    }

    /// A layout that the table does not have.
    pub fn bad_layout(&mut self) -> Named {
        let bad = [
            Named::Number(13),
            Named::Number(u64::from(u32::MAX)),
            Named::Number(WIDE),
            Named::Sizes(512, 16, 2),
            Named::Sizes(512, 16, 30),
            Named::Sizes(2048, 64, 1),
            Named::Sizes(2048, 128, 0),
            Named::Sizes(4096, 64, 0),
            Named::Sizes(0, 0, 0),
            Named::Sizes(2048 + WIDE, 64, 0),
        ];
        self.rng.pick(&bad)
    }

    /// Mostly the dump's own layout.
    pub fn any_layout(&mut self) -> Named {
        match self.rng.below(60) {
            0 => self.bad_layout(),
            1 | 2 => {
                let other = self.rng.pick(&table());
                self.named(other)
            }
            _ if self.dump.bytes.is_empty() => self.bad_layout(),
            _ => self.named(self.dump.layout),
        }
    }

    /// Mostly the dump's own K.
    pub fn k(&mut self) -> u64 {
        let k = self.dump.k;
        match self.rng.below(30) {
            0 => self.rng.pick(&[0, 257, 300, WIDE + k, u64::from(u32::MAX)]),
            1 => self.rng.pick(&[1, 2, 3, 4, 8, 255, 256, k + 1, 2 * k]),
            _ => k,
        }
    }

    pub fn pages(&self) -> u64 {
        (self.dump.bytes.len() / self.dump.layout.page()) as u64
    }

    /// A page number: mostly in the dump.
    pub fn page(&mut self) -> u64 {
        let pages = self.pages();
        match self.rng.below(12) {
            0 => self.rng.pick(&[pages, pages + 1, 0xFFFF_FFFF, WIDE]),
            _ => self.rng.below(pages + 1).min(pages.saturating_sub(1)),
        }
    }

    /// An object id: mostly one of the dump's.
    pub fn object(&mut self) -> u64 {
        let crowd = self.dump.ids.len() > 5;
        let known = match self.rng.chance(if crowd { 10 } else { 75 }) {
            true => self.dump.ids[0],
            false => self.rng.pick(&self.dump.ids),
        };
        match self.rng.below(24) {
            0 => self
                .rng
                .pick(&[0, 0, LAST_OBJECT, LAST_OBJECT + 1, 0xFFFF_FFFF]),
            1 => {
                let near = known + self.pages().max(1);
                let any = self.rng.between(1, 600);
                self.rng
                    .pick(&[near, known + WIDE, known ^ 1, any, 1 << 28 | known])
            }
            _ => known,
        }
    }

    /// A chunk number: mostly within the dump's files or just past them.
    pub fn chunk(&mut self) -> u64 {
        let any = self.rng.between(1, LAST_CHUNK);
        match self.rng.below(24) {
            0 => self
                .rng
                .pick(&[0, 0, LAST_CHUNK + 1, 0xFFFF_FFFF, WIDE + 1]),
            1 => self
                .rng
                .pick(&[LAST_CHUNK, LAST_CHUNK, LAST_CHUNK - 1, any]),
            _ => self.rng.between(1, self.dump.span + 1),
        }
    }

    /// Length of a read's buffer: a page, or about what will be shown.
    pub fn buffer(&mut self) -> usize {
        let data = self.dump.layout.data as u64;
        let length = match self.dump.lengths.is_empty() {
            true => data / 3,
            false => self.rng.pick(&self.dump.lengths),
        };
        let any = self.rng.below(data);
        let length = match self.rng.below(10) {
            0..=3 => data,
            4 => length,
            5 => self.rng.pick(&[length.saturating_sub(1), length + 1]),
            6 => self.rng.pick(&[0, 1, data - 1]),
            7 => any,
            _ => data + self.rng.below(40),
        };
        length as usize
    }

    /// Words for a table: those of its rows when every page is added, about as
    /// many, or any few.
    pub fn table_words(&mut self, object: u64) -> usize {
        let reader = Reader::new(&self.dump.bytes, Wrong::None);
        let size = reader.size(Over::Dump(self.dump.layout.into(), self.dump.k), object);
        let chunks = size.map_or(0, |(size, _)| size.div_ceil(self.dump.layout.data as u64));
        let any = self.rng.below(2 * self.dump.span + 6);
        let words = match (2 * chunks, self.rng.below(10)) {
            (MANY.., _) | (_, 0 | 1) => any,
            (need, 2..=4) => need.saturating_sub(1),
            (need, 5 | 6) => need,
            (need, _) => need + self.rng.between(1, 5),
        };
        words as usize
    }

    /// Rows for the copies of an object: those that it needs when every page is
    /// added, about as many, or any few.
    pub fn copies_rows(&mut self, object: u64) -> usize {
        let reader = Reader::new(&self.dump.bytes, Wrong::None);
        let over = Over::Dump(self.dump.layout.into(), self.dump.k);
        let need = 2 * reader.met(over, object) as u64;
        let any = self.rng.below(2 * self.dump.span + 6);
        let rows = match self.rng.below(10) {
            0 => any,
            1 => need / 2,
            2 | 3 => need.saturating_sub(1),
            4 | 5 => need,
            _ => need + self.rng.between(1, 5),
        };
        rows as usize
    }

    /// The dump alone, mostly as it stands.
    pub fn past(&mut self) -> Past {
        Past {
            layout: self.any_layout(),
            k: self.k(),
            before: self.rng.chance(30).then(|| self.page()),
        }
    }

    /// A position of an object: mostly where a reason may change, or beside it.
    pub fn position(&mut self, on: Past, object: u64) -> u64 {
        let reader = Reader::new(&self.dump.bytes, Wrong::None);
        let turns = reader.turns(on, object);
        let data = self.dump.layout.data as u64;
        let numbered = LAST_CHUNK * data;
        // as far behind the last chunk that has a number as data lies behind 0
        let behind = numbered + data + self.rng.below(self.dump.span * data);
        let any = self.rng.below((self.dump.span + 1) * data);
        let Some(&size) = turns.last() else {
            return self.rng.pick(&[0, any, u64::MAX]);
        };
        let inside = self.rng.below(size.max(1));
        let turn = self.rng.pick(&turns);
        match self.rng.below(16) {
            0 => self.rng.pick(&[0, WIDE - 1, WIDE, u64::MAX - 1, u64::MAX]),
            1 if size > numbered => self.rng.pick(&[numbered - 1, numbered, behind, behind]),
            1 => self.rng.pick(&[size.saturating_sub(1), size, size + 1]),
            2 => any,
            3 | 4 => inside,
            5..=9 => turn,
            10 | 11 => turn.saturating_sub(1),
            12 => turn + 1,
            _ => turn + self.rng.below(data),
        }
    }

    /// A row of a copy: of numbers that are mostly in range.
    pub fn copy(&mut self) -> Request {
        let (chunk, page) = (self.chunk(), self.page());
        let valid = self.rng.pick(&self.dump.lengths_or_one());
        let [any, high] = [self.rng.word(), self.rng.word()].map(u64::from);
        let row = match self.rng.below(4) {
            0 => high << 32 | any,
            1 => self.rng.pick(&[0, 1, u64::MAX, 1 << 15, 1 << 36, 1 << 35]),
            _ => packed([chunk % (1 << 20), page % (1 << 21), valid], Wrong::None),
        };
        Request::Copy { row }
    }

    /// A seed: none, any, or one of few bits.
    pub fn any_seed(&mut self) -> u32 {
        let any = self.rng.word();
        self.rng
            .pick(&[0, 0, 0, any, any, any, 1, u32::MAX, 1 << 31, any & 0xFFFF])
    }

    /// A row's words: of a page and a length, each mostly in range.
    pub fn row(&mut self) -> Request {
        let layout = self.any_layout();
        let page = self.page();
        let place = self.rng.pick(&[0, 1, page, page + 2, page + 2, page + 2]);
        let data = self.dump.layout.data as u64;
        let any = self.rng.below(data);
        let valid = self
            .rng
            .pick(&[0, 1, data, data, data + 1, any, any, WIDE + any]);
        Request::Row {
            layout,
            place,
            valid,
        }
    }

    /// The index words that a layout's pages need.
    pub fn need(&self, layout: Layout) -> u64 {
        need(self.dump.bytes.len() / layout.page()) as u64
    }

    /// Index words for a call: enough, with some to spare, or too few.
    pub fn words(&mut self, layout: Layout) -> u64 {
        let (need, shared) = (self.need(layout), need(0) as u64);
        match self.rng.below(60) {
            0 => self.rng.pick(&[0, shared - 1, shared, need - 1]),
            1 => need - 1,
            2..=19 => need + self.rng.below(9),
            _ => need,
        }
    }

    /// Whether layout, K or index words refuse a call.
    pub fn refused(&self, lent: Lent) -> bool {
        let opened = opened(
            lent.layout,
            lent.k,
            self.dump.bytes.len() as u64,
            Wrong::None,
        );
        !opened.is_ok_and(|(layout, _)| lent.words >= self.need(layout))
    }
}
