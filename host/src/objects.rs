//! The objects of a dump and their chunks, by an index of all its pages.

use std::collections::hash_map::RandomState;
use std::hash::{BuildHasher, Hasher};
use std::ops::Range;

use crate::ffi::{self, Answer as _, ChunkAnswer, Geometry, KindAnswer, SizeAnswer, TallyAnswer};
use crate::refusal::{INDEX_DAMAGED, NO_HEADER, SHORT_BUFFER};
use crate::table::{Piece, Table};

/// Words that are mostly enough for a table, so that one call is.
const SOME_ROWS: usize = 1024;

/// Pages in runs, each with the word by which it has its place.
pub type Runs = Vec<(u32, Range<u32>)>;

/// An index without pages, and the runs in which they are to be added.
pub struct Started {
    cells: Vec<u32>,
    runs: Runs,
}

impl Started {
    /// Starts the index, or gives the number of the refusal.
    pub fn of(dump: &[u8], on: Geometry, runs: Runs) -> Result<Started, u32> {
        let pages = ffi::pages(dump, on).given()?.pages;
        let mut cells = vec![0; ffi::cells(pages)];
        done(ffi::start(dump, on, &mut cells, drawn()))?;
        Ok(Started { cells, runs })
    }
}

/// A word that nobody knows beforehand. No answer depends on it, and no dump can
/// be made for it on which the search for an object's slot is slow.
pub fn drawn() -> u32 {
    RandomState::new().build_hasher().finish() as u32
}

/// A dump with the index of all its pages, or of its records that are older than
/// one.
pub struct Objects<'d> {
    dump: &'d [u8],
    on: Geometry,
    cells: Vec<u32>,
}

impl<'d> Objects<'d> {
    /// Makes the index, or gives the number of the refusal.
    pub fn of(dump: &'d [u8], on: Geometry) -> Result<Objects<'d>, u32> {
        let started = Started::of(dump, on, by_sequence(dump, on.layout))?;
        Objects::telling(dump, on, started, None, |_| ())
    }

    /// The same, of what was started, or with none but the records that are older
    /// than the one on page `before`; tells of each run of pages that is gone over
    /// how many they are.
    pub fn telling(
        dump: &'d [u8],
        on: Geometry,
        started: Started,
        before: Option<u32>,
        mut tell: impl FnMut(u32),
    ) -> Result<Objects<'d>, u32> {
        let Started { mut cells, runs } = started;
        for (_, run) in runs {
            let count = run.end - run.start;
            let added = match before {
                None => ffi::add_run(dump, on, &mut cells, run.start, run.end),
                Some(page) => ffi::add_older(dump, on, &mut cells, run, page),
            };
            added.given()?;
            tell(count);
        }
        Ok(Objects { dump, on, cells })
    }

    pub fn size(&self, object: u32) -> SizeAnswer {
        ffi::size(self.dump, self.on, &self.cells, object)
    }

    pub fn chunk(&self, object: u32, n: u32) -> ChunkAnswer {
        ffi::chunk(self.dump, self.on, &self.cells, object, n)
    }

    /// The table of a live file, or the number of the refusal.
    pub fn table(&self, object: u32) -> Result<Table, u32> {
        let (dump, on, cells) = (self.dump, self.on, &self.cells);
        let mut words = vec![0; SOME_ROWS];
        let mut answer = ffi::table(dump, on, cells, object, &mut words);
        if answer.refusal == SHORT_BUFFER {
            words = vec![0; answer.need as usize];
            answer = ffi::table(dump, on, cells, object, &mut words);
        }
        Table::of(answer.given()?, words)
    }

    /// The shown copies of a live file, ascending by chunk, a row for each, or the
    /// number of the refusal. The memory grows to what a file needs, and serves the
    /// next one too.
    pub fn copies<'m>(&self, object: u32, memory: &'m mut Vec<u64>) -> Result<&'m [u64], u32> {
        let (dump, on, cells) = (self.dump, self.on, &self.cells);
        let mut answer = ffi::copies(dump, on, cells, object, memory);
        if answer.refusal == SHORT_BUFFER {
            memory.resize(answer.need as usize, 0);
            answer = ffi::copies(dump, on, cells, object, memory);
        }
        let answer = answer.given()?;
        match answer.damaged {
            0 => Ok(&memory[..answer.count as usize]),
            _ => Err(INDEX_DAMAGED),
        }
    }

    /// Hands on the bytes of a live file, in pieces, until one is not taken.
    pub fn hand_on<E>(
        &self,
        table: &Table,
        take: impl FnMut(Piece<'d>) -> Result<(), E>,
    ) -> Result<(), E> {
        table.hand_on(self.dump, self.on, take)
    }

    /// The ids of the live objects, ascending, or the number of the refusal. There
    /// are no more of them than pages, and words that stay zeros take no memory.
    pub fn list(&self) -> Result<Vec<u32>, u32> {
        let pages = ffi::pages(self.dump, self.on).given()?.pages;
        let mut ids = vec![0; pages as usize];
        let answer = ffi::list(self.dump, self.on, &self.cells, &mut ids);
        ids.truncate(answer.given()?.count as usize);
        Ok(ids)
    }

    /// The page of the newest header of an object, or the number of the refusal.
    pub fn newest_header(&self, object: u32) -> Result<u32, u32> {
        let (dump, on, cells) = (self.dump, self.on, &self.cells);
        let mut pages = vec![0; SOME_ROWS];
        let mut answer = ffi::records(dump, on, cells, object, &mut pages);
        if answer.refusal == SHORT_BUFFER {
            pages = vec![0; answer.need as usize];
            answer = ffi::records(dump, on, cells, object, &mut pages);
        }
        pages.truncate(answer.given()?.count as usize);
        let is_header = |&page: &u32| ffi::kind(dump, on, page).kind == KindAnswer::HEADER;
        pages.into_iter().find(is_header).ok_or(NO_HEADER)
    }

    /// How many objects there are, live or not.
    pub fn count(&self) -> TallyAnswer {
        ffi::objects(self.dump, self.on, &self.cells)
    }
}

/// What was done, or the number of the refusal.
fn done(refusal: u32) -> Result<(), u32> {
    match refusal {
        0 => Ok(()),
        number => Err(number),
    }
}

/// Runs of pages whose tags begin with one word, which is a record's sequence, in
/// the order of these words and of pages. Any order is right, so that no rule is
/// decided here; in this one each record is newer than all that were added
/// before, and no addition walks, whatever the dump and K.
///
/// The second half of the pages is read first: where another thread reads the
/// dump from its begin on, each has the system map a half.
pub fn by_sequence(dump: &[u8], layout: u32) -> Runs {
    let layout = ffi::layout(layout);
    let page_len = (layout.data + layout.spare) as usize;
    let tags = (layout.data + layout.tag) as usize;
    // what is no layout has no pages
    let pages = dump.len().checked_div(page_len).unwrap_or(0) as u32;
    let mut runs = Runs::new();
    for number in (pages / 2..pages).chain(0..pages / 2) {
        let at = number as usize * page_len + tags;
        let word = u32::from_le_bytes([0, 1, 2, 3].map(|byte| dump[at + byte]));
        match runs.last_mut() {
            Some((same, run)) if *same == word && run.end == number => run.end += 1,
            _ => runs.push((word, number..number + 1)),
        }
    }
    runs.sort_unstable_by_key(|(word, run)| (*word, run.start));
    runs
}

#[cfg(test)]
mod tests {
    use super::*;

    const W: Geometry = Geometry {
        layout: 6,
        block: 4,
    };

    /// The link below the newest header of W's file leads outside: the size is
    /// known, and table and copies are refused.
    #[test]
    fn a_table_of_damaged_cells_is_refused() {
        let dump = include_bytes!("../tests/data/W");
        let mut objects = Objects::of(dump, W).unwrap();
        let chunks = |objects: &Objects| objects.table(257).map(|table| table.rows().count());
        let copies = |objects: &Objects| objects.copies(257, &mut Vec::new()).map(<[u64]>::len);
        assert_eq!((chunks(&objects), copies(&objects)), (Ok(3), Ok(2)));
        let link_of_page_4 = ffi::cells(4);
        objects.cells[link_of_page_4] = u32::MAX;
        assert_eq!(objects.size(257).size, 1034);
        assert_eq!(chunks(&objects), Err(INDEX_DAMAGED));
        assert_eq!(copies(&objects), Err(INDEX_DAMAGED));
    }

    /// Memory that served a file before serves another one.
    #[test]
    fn copies_are_written_over_others() {
        let dump = include_bytes!("../tests/data/W");
        let objects = Objects::of(dump, W).unwrap();
        let mut memory = vec![u64::MAX; 100];
        for _ in 0..2 {
            let rows = objects.copies(257, &mut memory).unwrap();
            let copies = rows.iter().map(|&row| ffi::copy(row));
            let copies: Vec<_> = copies.map(|c| (c.chunk, c.page, c.valid)).collect();
            assert_eq!(copies, [(1, 5, 300), (3, 6, 10)]);
        }
    }

    /// W with its second block first, in one block of 8 pages: the older records
    /// are added first all the same.
    #[test]
    fn older_records_are_added_first() {
        let w = include_bytes!("../tests/data/W");
        let (first, second) = w.split_at(w.len() / 2);
        let turned = [second, first].concat();
        let on = Geometry { block: 8, ..W };
        let runs = by_sequence(&turned, on.layout);
        assert_eq!(runs, [(4097, 4..8), (4098, 0..3), (u32::MAX, 3..4)]);
        let objects = Objects::of(&turned, on).unwrap();
        assert_eq!(objects.size(257).size, 1034);
    }

    #[test]
    fn what_is_no_layout_is_refused() {
        let dump = include_bytes!("../tests/data/W");
        let on = Geometry { layout: 13, ..W };
        assert_eq!(Objects::of(dump, on).err(), Some(1), "BadLayout");
    }

    /// A run over the middle may be two, which follow each other; one over the end
    /// and the begin is none.
    #[test]
    fn runs_do_not_go_round() {
        let w = include_bytes!("../tests/data/W");
        let alike = [&w[..w.len() / 2]; 3].concat();
        assert_eq!(by_sequence(&alike, W.layout), [(4097, 0..6), (4097, 6..12)]);
    }

    /// A run of no pages is refused as one of some would be, and is done where
    /// the words are enough.
    #[test]
    fn a_run_of_no_pages_tests_its_words() {
        let dump = include_bytes!("../tests/data/W");
        let mut cells = vec![0; ffi::cells(8)];
        let short = cells.len() - 1;
        let run = |cells: &mut [u32], from, to| ffi::add_run(dump, W, cells, from, to).refusal;
        for to in [2, 3, 4] {
            assert_eq!(run(&mut cells[..short], 3, to), 12, "ShortIndex");
        }
        assert_eq!(run(&mut cells, 3, 3), 0);
        assert_eq!(run(&mut cells, 3, 2), 0);
    }
}
