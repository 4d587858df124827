//! Random lists of requests to one dump.

use super::arguments::Asker;
use super::dump::Dump;
use super::rng::Rng;
use crate::second::index::{Lent, Over};
use crate::second::layout::{table, Layout};
use crate::second::page::tags;
use crate::second::script::Request;

/// Requests to this dump: about it as a whole, lookups on it alone, one or two
/// lists of additions and lookups on an index, calls on other cells, why bytes are
/// what they are, trees, and how records stand.
pub fn requests(rng: &mut Rng, dump: &Dump) -> Vec<Request> {
    let list = Vec::new();
    let mut asker = Asker {
        rng,
        dump,
        started: None,
        seed: 0,
        list,
    };
    asker.whole_dump();
    for _ in 0..asker.rng.between(10, 16) {
        let over = asker.dump_alone();
        asker.lookup(over);
    }
    for _ in 0..asker.rng.pick(&[1, 1, 2]) {
        asker.index_calls();
    }
    if asker.rng.chance(70) {
        asker.foreign_calls();
    }
    for _ in 0..asker.rng.between(8, 14) {
        asker.why();
    }
    for _ in 0..asker.rng.between(1, 4) {
        let on = asker.past();
        asker.list.push(Request::Tree { on });
    }
    for _ in 0..asker.rng.between(6, 10) {
        asker.records_alone();
    }
    asker.list
}

impl Asker<'_> {
    /// Requests about the dump as a whole and about single pages.
    fn whole_dump(&mut self) {
        let k = self.dump.k;
        self.list.push(Request::Find { k });
        let k = if self.rng.chance(40) { 1 } else { self.k() };
        self.list.push(Request::Find { k });
        for _ in 0..self.rng.between(3, 9) {
            let layout = self.any_layout();
            let k = self.k();
            let page = self.page();
            self.list.push(match self.rng.below(9) {
                0 => Request::Find { k },
                1 => Request::Pages { layout, k },
                2 => Request::Counts { layout, k },
                3..=6 => Request::Kind { layout, k, page },
                _ => Request::Header { layout, k, page },
            });
        }
    }

    fn dump_alone(&mut self) -> Over {
        Over::Dump(self.any_layout(), self.k())
    }

    /// One lookup by object, or a listing.
    pub fn lookup(&mut self, over: Over) {
        let object = self.object();
        let n = self.chunk();
        let ids = self.dump.ids.len();
        if let Over::Index(lent) = over {
            match self.rng.below(100) {
                0..=14 => return self.table(lent, object),
                15..=29 => return self.copies(lent, object),
                30..=36 => return self.records(lent, object),
                _ => {}
            }
        }
        let lookup = match self.rng.below(21) {
            0..=3 => Request::Size { over, object },
            4..=9 => Request::Chunk { over, object, n },
            10..=15 => Request::Read {
                over,
                object,
                n,
                buffer: self.buffer(),
            },
            16..=17 => Request::Part { over, object, n },
            18 => Request::Objects { over },
            _ => Request::List {
                over,
                buffer: self.rng.pick(&[0, 1, ids / 2, ids, ids + 1, ids + 4]),
            },
        };
        self.list.push(lookup);
    }

    /// Why a byte is what it is, or all bytes of a file.
    fn why(&mut self) {
        let (on, object) = (self.past(), self.object());
        let position = self.position(on, object);
        self.list.push(match self.rng.chance(20) {
            true => Request::Spans { on, object },
            false => Request::Why {
                on,
                object,
                position,
            },
        });
    }

    /// How the records of an object stand, or what its file was after each.
    fn records_alone(&mut self) {
        let (on, object) = (self.past(), self.object());
        self.list.push(match self.rng.chance(60) {
            true => Request::Stands { on, object },
            false => Request::History { on, object },
        });
    }

    /// The table of a file, and the bytes of some row.
    fn table(&mut self, lent: Lent, object: u64) {
        let buffer = self.table_words(object);
        self.list.push(Request::Table {
            lent,
            object,
            buffer,
        });
        if self.rng.chance(50) {
            let row = self.row();
            self.list.push(row);
        }
    }

    /// The shown copies of a file, and what some row says.
    fn copies(&mut self, lent: Lent, object: u64) {
        let buffer = self.copies_rows(object);
        self.list.push(Request::Copies {
            lent,
            object,
            buffer,
        });
        if self.rng.chance(30) {
            let copy = self.copy();
            self.list.push(copy);
        }
    }

    /// The records of an object, in words that are mostly enough.
    fn records(&mut self, lent: Lent, object: u64) {
        let pages = self.pages() as usize;
        let few = self.rng.below(8) as usize;
        let buffer = self.rng.pick(&[pages, pages, pages + 1, few, pages / 2]);
        self.list.push(Request::Records {
            lent,
            object,
            buffer,
        });
    }

    /// Additions of the older records of some pages, mostly of all.
    pub fn older(&mut self, lent: Lent) {
        let pages = self.pages();
        let (from, to) = match self.rng.chance(60) {
            true => (0, pages),
            // the page where a run begins is told, in 32 bits
            false => (self.page().min(0xFFFF_FFFF), self.page()),
        };
        let before = self.page();
        self.list.push(Request::Older {
            lent,
            from,
            to,
            before,
        });
    }

    /// A start that may be refused.
    fn start(&mut self) {
        let layout = self.any_layout();
        let words = self.words(layout.layout().unwrap_or(self.dump.layout));
        let k = self.k();
        self.start_with(Lent { layout, k, words });
    }

    pub fn start_with(&mut self, lent: Lent) {
        let seed = self.any_seed();
        if !self.refused(lent) {
            let layout = lent.layout.layout();
            self.started = layout.map(|l| (l, self.dump.bytes.len() / l.page()));
            self.seed = seed;
        }
        self.list.push(Request::Start { lent, seed });
    }

    /// What a call on the started index is lent; a layout other than the
    /// started one only where the call is refused for it.
    fn lent(&mut self, started: Layout) -> Lent {
        let layout = self.named(started);
        let lent = Lent {
            layout,
            k: self.k(),
            words: self.words(started),
        };
        let layout = match self.rng.below(40) {
            0 => self.bad_layout(),
            1 => {
                let other = self.rng.pick(&table());
                self.named(other)
            }
            _ => layout,
        };
        let other = Lent { layout, ..lent };
        match self.refused(other) || layout.layout() == Some(started) {
            true => other,
            false => lent,
        }
    }

    fn index_lookup(&mut self, started: Layout) {
        let lent = self.lent(started);
        self.lookup(Over::Index(lent));
    }

    fn add(&mut self, started: Layout, page: u64) {
        let lent = self.lent(started);
        self.list.push(Request::Add { lent, page });
    }

    /// Starts, and then additions and lookups in between. A dump that cannot
    /// be started gets the refused calls alone.
    fn index_calls(&mut self) {
        if self.rng.chance(30) {
            self.start();
        }
        if self.rng.chance(10) {
            let word = self.rng.pick(&[0, 1, 0xFFFF_FFFF, 0x0101_0101]);
            self.fill(word);
            self.started = None;
        }
        let layout = self.named(self.dump.layout);
        let words = self.need(self.dump.layout) + self.rng.pick(&[0, 0, 0, 1, 8]);
        let k = self.dump.k;
        self.start_with(Lent { layout, k, words });
        if self.rng.chance(4) {
            self.start();
        }
        let Some((layout, pages)) = self.started else {
            let lent = Lent { layout, k, words };
            self.lookup(Over::Index(lent));
            self.list.push(Request::Add { lent, page: 0 });
            return;
        };
        if self.rng.chance(25) {
            for _ in 0..self.rng.between(1, 3) {
                let lent = self.lent(layout);
                self.older(lent);
                for _ in 0..self.rng.between(2, 6) {
                    self.index_lookup(layout);
                }
            }
        }
        self.additions(layout, pages);
        for _ in 0..self.rng.between(10, 20) {
            self.index_lookup(layout);
        }
    }

    /// The pages in the order they are added in, sometimes only a part.
    fn order(&mut self, layout: Layout, pages: usize) -> Vec<u64> {
        let sequence = |page: u64| tags(&self.dump.bytes, layout, page as usize).sequence;
        let mut order: Vec<u64> = (0..pages as u64).collect();
        match self.rng.below(6) {
            0 => {}
            1 => order.reverse(),
            2 => order.sort_by_key(|&page| sequence(page)),
            3 => {
                order.sort_by_key(|&page| sequence(page));
                order.reverse();
            }
            _ => self.rng.shuffle(&mut order),
        }
        if self.rng.chance(30) {
            let part = self.rng.between(1, pages as u64);
            order.truncate(part as usize);
        }
        order
    }

    /// Additions in some order, with lookups, repeated and refused additions,
    /// and refused starts in between.
    pub fn additions(&mut self, layout: Layout, pages: usize) {
        let order = self.order(layout, pages);
        let most = (1600 / order.len() as u64).clamp(25, 90);
        for (done, &page) in order.iter().enumerate() {
            if self.rng.chance(4) {
                self.poor_add(layout, pages as u64);
            }
            self.add(layout, page);
            if self.rng.chance(4) {
                let again = self.rng.pick(&order[..=done]);
                self.add(layout, again);
            }
            if self.rng.chance(2) {
                self.refused_start(layout);
            }
            if self.rng.chance(1) {
                let lent = self.lent(layout);
                self.older(lent);
            }
            let asked = if 3 * done < order.len() {
                most / 4
            } else {
                most
            };
            if self.rng.chance(asked) {
                self.index_lookup(layout);
            }
        }
    }

    /// An addition of a page that is not there, sometimes with too few words.
    fn poor_add(&mut self, layout: Layout, pages: u64) {
        let mut lent = self.lent(layout);
        if self.rng.chance(25) {
            lent.words = self.need(layout) - 1;
        }
        let page = self.rng.pick(&[pages, pages + 1, 0xFFFF_FFFF, 1 << 32]);
        self.list.push(Request::Add { lent, page });
    }

    /// A start that is refused and must leave the additions as they are.
    fn refused_start(&mut self, layout: Layout) {
        let named = self.named(layout);
        let lent = Lent {
            layout: named,
            k: self.dump.k,
            words: self.need(layout) - 1,
        };
        let bad = Lent {
            k: self.rng.pick(&[0, 257]),
            ..lent
        };
        let lent = self.rng.pick(&[lent, bad]);
        self.start_with(lent);
    }
}
