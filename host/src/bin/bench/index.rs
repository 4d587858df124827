//! The same index in plain Rust: chains, sizes, chunks, tables, the live list
//! and whole files.

use std::ops::Range;

use lohenarr::ffi::{self, Geometry};
use lohenarr::objects::drawn;

use super::plain::{bad_type, claim_of, word, Claim, LAYOUTS};

/// The last number that a chunk has.
const LAST_CHUNK: u64 = 0xF_FFFF;

/// A place behind every file's end.
const NOWHERE: u64 = u64::MAX;

/// An index of every page: the added records of each object in a chain, from
/// the newest to the oldest, found by a table of objects. As the words may hold
/// anything, a walk tries each link that it meets.
pub struct Index<'d> {
    dump: &'d [u8],
    data: usize,
    tag: usize,
    page: usize,
    pages: usize,
    cells: Vec<u32>,
}

/// The words for the whole index, of which one is the seed, and those of each page:
/// its link, and three of the table of objects.
const SHARED: usize = 16;
const SEED: usize = 0;
const PER_PAGE: usize = 4;

/// Where a page's link stands, a slot's object and its first link.
fn link_of(page: usize) -> usize {
    SHARED + PER_PAGE * page
}

fn key_of(slot: usize) -> usize {
    of_table(2 * slot)
}

fn first_of(slot: usize) -> usize {
    of_table(2 * slot + 1)
}

fn of_table(number: usize) -> usize {
    SHARED + 1 + number + number / (PER_PAGE - 1)
}

/// How many slots there are for so many pages.
fn slots(pages: usize) -> usize {
    pages + pages / 2
}

/// An object's id mixed with a seed.
fn mixed(seed: u32, object: u32) -> u64 {
    let (seed, id) = (u64::from(seed), u64::from(object));
    let middle = u64::from(((id * seed) >> 14) as u32);
    id + u64::from(((middle * middle) >> 16) as u32)
}

impl<'d> Index<'d> {
    /// Adds the pages in runs of one sequence, the oldest first.
    pub fn of(dump: &'d [u8], on: Geometry) -> Index<'d> {
        let (data, spare, tag) = LAYOUTS[on.layout as usize];
        let page = data + spare;
        let pages = dump.len() / page;
        let mut cells = vec![0; ffi::cells(pages as u32)];
        assert_eq!(cells.len(), link_of(pages), "the library's words");
        cells[SEED] = drawn();
        let mut index = Index {
            dump,
            data,
            tag,
            page,
            pages,
            cells,
        };
        let mut runs: Vec<(u32, Range<usize>)> = Vec::new();
        for page in 0..pages {
            let sequence = word(index.tags(page), 0);
            match runs.last_mut() {
                Some((same, run)) if *same == sequence => run.end = page + 1,
                _ => runs.push((sequence, page..page + 1)),
            }
        }
        runs.sort_unstable_by_key(|(sequence, run)| (*sequence, run.start));
        for page in runs.into_iter().flat_map(|(_, run)| run) {
            index.add(page);
        }
        index
    }

    fn page(&self, number: usize) -> &'d [u8] {
        &self.dump[number * self.page..][..self.page]
    }

    fn tags(&self, number: usize) -> &'d [u8] {
        &self.dump[number * self.page + self.data + self.tag..][..16]
    }

    fn is_record(&self, number: usize) -> bool {
        let tags = self.tags(number);
        match claim_of(tags, word(tags, 0), self.data) {
            Claim::Header => !bad_type(self.page(number), self.data, self.tag),
            claim => claim == Claim::Data,
        }
    }

    /// The slot of an object: its own, or else a free one.
    fn slot(&self, object: u32) -> usize {
        let slots = slots(self.pages);
        let home = (mixed(self.cells[SEED], object) % slots as u64) as usize;
        let serves = |&s: &usize| {
            let key = self.cells[key_of(s)];
            key == 0 || key == object
        };
        let near = (0..=home).rev().find(serves);
        near.unwrap_or_else(|| (0..slots).rev().find(serves).unwrap_or(home))
    }

    fn add(&mut self, page: usize) {
        if !self.is_record(page) {
            self.cells[link_of(page)] = 1;
            return;
        }
        let tags = self.tags(page);
        let (sequence, object) = (word(tags, 0), word(tags, 4) & 0x0FFF_FFFF);
        let slot = self.slot(object);
        self.cells[key_of(slot)] = object;
        let mut walk = self.walk(object, slot);
        let mut at = walk.at;
        while walk.next(self).is_some() {
            if walk.bound < age(sequence, page) {
                break;
            }
            at = walk.at;
        }
        self.cells[link_of(page)] = self.cells[at].max(1);
        self.cells[at] = page as u32 + 2;
    }

    fn walk(&self, object: u32, slot: usize) -> Walk {
        Walk {
            object,
            bound: u64::MAX,
            at: first_of(slot),
        }
    }

    /// The size of a live file.
    pub fn size(&self, object: u32) -> Option<u64> {
        let mut end = 0;
        let mut walk = self.walk(object, self.slot(object));
        while let Some((page, chunk)) = walk.next(self) {
            if chunk == 0 {
                let header = self.page(page);
                let live = !matches!(word(header, 4), 3 | 4) && word(header, 0) == 1;
                return live.then_some(end.max(u64::from(word(header, 0x124))));
            }
            end = end.max(self.end(chunk, word(self.tags(page), 12)));
        }
        None
    }

    fn end(&self, chunk: u32, count: u32) -> u64 {
        u64::from(chunk - 1) * self.data as u64 + u64::from(count)
    }

    /// The page and the valid length of the copy of a chunk of a live file;
    /// none for a hole.
    pub fn chunk(&self, object: u32, n: u32) -> Option<(u32, u32)> {
        let (mut newest, mut cut) = (true, NOWHERE);
        let mut copy = None;
        let mut walk = self.walk(object, self.slot(object));
        while let Some((page, chunk)) = walk.next(self) {
            if chunk == 0 {
                cut = cut.min(self.cut(page, newest));
                newest = false;
            } else if chunk == n && copy.is_none() {
                copy = Some((page, cut));
            }
            if copy.is_some() && !newest {
                break;
            }
        }
        let (page, cut) = copy?;
        let count = u64::from(word(self.tags(page), 12));
        let valid = count.min(cut.saturating_sub(self.end(n, 0)));
        (valid > 0).then_some((page as u32, valid as u32))
    }

    /// The keys of the slots that are used.
    fn keys(&self) -> impl Iterator<Item = u32> + '_ {
        let keys = (0..slots(self.pages)).map(|slot| self.cells[key_of(slot)]);
        keys.filter(|&key| key != 0)
    }

    /// The ids of the live objects, ascending.
    pub fn list(&self) -> Vec<u32> {
        let mut ids: Vec<u32> = self.keys().filter(|&key| self.is_live(key)).collect();
        ids.sort_unstable();
        ids
    }

    /// Whether the newest header is there and says that the object is live.
    fn is_live(&self, object: u32) -> bool {
        let mut walk = self.walk(object, self.slot(object));
        while let Some((page, chunk)) = walk.next(self) {
            if chunk == 0 {
                return !matches!(word(self.page(page), 4), 3 | 4);
            }
        }
        false
    }

    /// How many objects have a record. The links met are those of a listing.
    pub fn objects(&self) -> u32 {
        let mut count = 0;
        for object in self.keys() {
            let mut walk = self.walk(object, self.slot(object));
            let Some((_, mut chunk)) = walk.next(self) else {
                continue;
            };
            count += 1;
            while chunk != 0 {
                chunk = walk.next(self).map_or(0, |(_, chunk)| chunk);
            }
        }
        count
    }

    /// The size of a live file and a row for each chunk: page and valid length
    /// of the copy, of which a hole has 0. One walk notes of each chunk the
    /// first copy met that no newer header hides.
    pub fn table(&self, object: u32) -> Option<(u64, Vec<(u32, u32)>)> {
        let size = self.size(object)?;
        let chunks = size.div_ceil(self.data as u64).min(LAST_CHUNK);
        let mut rows = vec![(0, 0); chunks as usize];
        let (mut newest, mut cut) = (true, NOWHERE);
        let mut walk = self.walk(object, self.slot(object));
        while let Some((page, chunk)) = walk.next(self) {
            if chunk == 0 {
                cut = cut.min(self.cut(page, newest));
                newest = false;
                continue;
            }
            let row = rows.get_mut(chunk as usize - 1);
            if let Some(row) = row.filter(|row| row.1 == 0) {
                let left = cut.min(size).saturating_sub(self.end(chunk, 0));
                let count = word(self.tags(page), 12);
                *row = (page as u32, left.min(u64::from(count)) as u32);
            }
        }
        Some((size, rows))
    }

    /// The shown copies of a live file, ascending by chunk: chunk, page and valid
    /// length. One walk notes every copy that no newer header hides, and of those of
    /// one chunk the first one met stays.
    pub fn copies(&self, object: u32) -> Option<Vec<(u32, u32, u32)>> {
        let size = self.size(object)?;
        let mut met = Vec::new();
        let (mut newest, mut cut) = (true, size);
        let mut walk = self.walk(object, self.slot(object));
        while let Some((page, chunk)) = walk.next(self) {
            if chunk == 0 {
                cut = cut.min(self.cut(page, newest));
                newest = false;
                continue;
            }
            let left = cut.saturating_sub(self.end(chunk, 0));
            if left > 0 {
                let count = u64::from(word(self.tags(page), 12));
                met.push((chunk, met.len(), page as u32, left.min(count) as u32));
            }
        }
        met.sort_unstable();
        met.dedup_by_key(|copy| copy.0);
        let copies = met.into_iter();
        Some(
            copies
                .map(|(chunk, _, page, valid)| (chunk, page, valid))
                .collect(),
        )
    }

    /// Hands on the bytes of a live file by its table: of each chunk the valid
    /// ones as they stand in the dump, then zeros.
    pub fn contents(&self, object: u32, mut hand_on: impl FnMut(&[u8])) {
        let Some((size, rows)) = self.table(object) else {
            return;
        };
        let zeros = vec![0; self.data];
        let mut left = size;
        for (page, valid) in rows {
            let shown = self.data.min(left as usize);
            let valid = valid as usize;
            hand_on(&self.page(page as usize)[..valid]);
            hand_on(&zeros[valid..shown]);
            left -= shown as u64;
        }
    }

    /// Where a header cuts.
    fn cut(&self, page: usize, newest: bool) -> u64 {
        let header = self.page(page);
        if matches!(word(header, 4), 3 | 4) {
            return 0;
        }
        if word(header, 0) == 1 && (newest || word(header, 0x1FC) != 0) {
            return u64::from(word(header, 0x124));
        }
        NOWHERE
    }
}

/// The place of a record in the order.
fn age(sequence: u32, page: usize) -> u64 {
    u64::from(sequence) << 32 | page as u64
}

/// A walk down an object's chain, from the newest record on.
struct Walk {
    object: u32,
    bound: u64,
    at: usize,
}

impl Walk {
    /// The next older record and its chunk number, 0 for a header. None at the
    /// chain's end, and where a link leads outside the dump, to a page that is
    /// no record of the object, or to one that is not older.
    #[inline(always)]
    fn next(&mut self, index: &Index<'_>) -> Option<(usize, u32)> {
        let page = (index.cells[self.at] as usize).checked_sub(2)?;
        if page >= index.pages {
            return None;
        }
        let tags = index.tags(page);
        let sequence = word(tags, 0);
        let (mut object, mut chunk) = (word(tags, 4), word(tags, 8));
        match claim_of(tags, sequence, index.data) {
            Claim::Data => {}
            Claim::Header if !bad_type(index.page(page), index.data, index.tag) => {
                (object, chunk) = (object & 0x0FFF_FFFF, 0);
            }
            _ => return None,
        }
        let age = age(sequence, page);
        if object != self.object || age >= self.bound {
            return None;
        }
        self.bound = age;
        self.at = link_of(page);
        Some((page, chunk))
    }
}
