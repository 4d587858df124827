//! The reader and its index. On cells that its own calls left, lookups by object
//! and listings go by the set of pages added since the start, as if all others
//! were blank; on other cells, by what the words say.

use std::ops::Range;

use super::cells::{need, unused, Cells, SEED};
use super::layout::{opened, Layout, Named};
use super::page::{kind, Kind, Record};
use super::records::{age, ids, records};
use super::refusal::{refuse, Refusal};
use super::rules::Object;
use super::wrong::Wrong;

/// What each word of the index holds before the first call.
const WORD: u32 = 0xA5A5_A5A5;

/// A refused call: its number, its visits, and for ShortBuffer the length needed.
#[derive(Clone, Copy, Debug, PartialEq, Eq)]
pub struct Refused {
    pub refusal: Refusal,
    pub visits: u64,
    pub need: Option<u64>,
}

impl From<Refusal> for Refused {
    fn from(refusal: Refusal) -> Refused {
        Refused {
            refusal,
            visits: 0,
            need: None,
        }
    }
}

/// What a call on the index is given besides the dump: layout, K and the
/// number of index words lent.
#[derive(Clone, Copy, Debug, PartialEq, Eq)]
pub struct Lent {
    pub layout: Named,
    pub k: u64,
    pub words: u64,
}

/// What a lookup reads: a dump alone, by layout and K, or the index.
#[derive(Clone, Copy, Debug, PartialEq, Eq)]
pub enum Over {
    Dump(Named, u64),
    Index(Lent),
}

/// The pages added since an accepted start with this layout.
struct Added {
    layout: Layout,
    pages: Vec<bool>,
}

/// Where a lookup finds records: on these pages, or by the words of an index
/// of so many pages.
pub(super) enum Seen {
    Pages(Vec<bool>),
    Cells(usize),
}

/// The reader of one dump, with the words of its index; `added` where those
/// are as its own calls left them.
pub struct Reader<'d> {
    pub(super) dump: &'d [u8],
    pub words: Vec<u32>,
    added: Option<Added>,
    pub(super) wrong: Wrong,
}

impl<'d> Reader<'d> {
    /// A reader for calls that are lent no index.
    pub fn new(dump: &'d [u8], wrong: Wrong) -> Reader<'d> {
        Reader::lent(dump, 0, wrong)
    }

    /// A reader with index memory of so many words.
    pub fn lent(dump: &'d [u8], words: u64, wrong: Wrong) -> Reader<'d> {
        Reader {
            dump,
            words: vec![WORD; words as usize],
            added: None,
            wrong,
        }
    }

    /// The layout named and its number of pages, or refusal 1 or 2.
    pub(super) fn opened(&self, layout: Named, k: u64) -> Result<(Layout, usize), Refusal> {
        opened(layout, k, self.dump.len() as u64, self.wrong)
    }

    fn short_index(&self, words: u64, pages: usize) -> bool {
        let need = need(pages) as u64;
        words < need - u64::from(self.wrong == Wrong::IndexOneWordShort)
    }

    pub(super) fn cells(&self, layout: Layout, pages: usize) -> Cells<'_> {
        Cells {
            dump: self.dump,
            layout,
            pages,
            words: &self.words,
            wrong: self.wrong,
        }
    }

    /// Start: no page is added any more. A refused start changes nothing.
    pub fn start(&mut self, lent: Lent, seed: u32) -> Result<(), Refusal> {
        let tests = self.opened(lent.layout, lent.k).and_then(|opened| {
            let short = self.short_index(lent.words, opened.1);
            refuse(&[(Refusal::ShortIndex, short)], self.wrong).map(|()| opened)
        });
        if let (Err(_), Wrong::RefusedStartForgets, Some(added)) =
            (tests, self.wrong, &mut self.added)
        {
            added.pages.fill(false);
        }
        let (layout, pages) = tests?;
        match &self.added {
            Some(added) if self.wrong == Wrong::StartKeepsAdditions && added.layout == layout => {}
            _ => {
                let pages = vec![false; pages];
                self.added = Some(Added { layout, pages });
            }
        }
        let end = match self.wrong {
            Wrong::StartClearsAllLent => lent.words as usize,
            _ => need(pages),
        };
        for (at, word) in self.words.iter_mut().enumerate().take(end) {
            if self.wrong != Wrong::StartLeavesUnused || !unused(at, pages) {
                *word = 0;
            }
        }
        if self.wrong != Wrong::SeedNotKept {
            self.words[SEED] = seed;
        }
        Ok(())
    }

    /// The layout of a call that is lent the index and names a page.
    fn paged(&self, lent: Lent, page: u64) -> Result<(Layout, usize), Refusal> {
        let (layout, pages) = self.opened(lent.layout, lent.k)?;
        let tests = [
            (Refusal::ShortIndex, self.short_index(lent.words, pages)),
            (Refusal::BadPage, page >= pages as u64),
        ];
        refuse(&tests, self.wrong).map(|()| (layout, pages))
    }

    /// Which pages are records older than the one on page `before`: none where
    /// that is no record.
    pub(super) fn older(&self, layout: Layout, pages: usize, before: usize) -> Vec<bool> {
        let sees = |page| match kind(self.dump, layout, page, self.wrong) {
            Kind::Record(record) => Some(record),
            _ => None,
        };
        let Some(before) = sees(before) else {
            return vec![self.wrong == Wrong::OlderThanNoRecord; pages];
        };
        let older = |record: Record| {
            let (one, other) = (age(&record, self.wrong), age(&before, self.wrong));
            match self.wrong {
                Wrong::OlderWithItself => one <= other,
                Wrong::OlderByPage => record.page < before.page,
                Wrong::OlderBySequenceAlone => record.sequence < before.sequence,
                Wrong::OlderOfOneObject => one < other && record.object == before.object,
                Wrong::EveryPageOlder => true,
                _ => one < other,
            }
        };
        let all = (0..pages).map(|page| match sees(page) {
            Some(record) => older(record),
            None => self.wrong == Wrong::OlderWithoutRecords,
        });
        all.collect()
    }

    /// Add those of a run of pages that are records older than the one on page
    /// `before`, until one is refused: then this page is given too.
    pub fn add_older(
        &mut self,
        lent: Lent,
        run: Range<u64>,
        before: u64,
    ) -> Result<(), (Refusal, u64)> {
        let paged = self.paged(lent, before);
        let (layout, pages) = paged.map_err(|refusal| (refusal, run.start))?;
        let older = self.older(layout, pages, before as usize);
        let run = run.start..run.end.min(pages as u64);
        let pages = run.filter(|&page| older[page as usize]);
        let pages: Vec<u64> = pages.collect();
        pages.into_iter().try_for_each(|page| {
            let added = self.add(lent, page);
            match self.wrong {
                Wrong::RunPassesRefused => Ok(()),
                _ => added.map_err(|refusal| (refusal, page)),
            }
        })
    }

    /// Add a page, record or not.
    pub fn add(&mut self, lent: Lent, page: u64) -> Result<(), Refusal> {
        let (layout, pages) = self.paged(lent, page)?;
        let page = page as usize;
        let mut addition = self.cells(layout, pages).add(page);
        let kind = kind(self.dump, layout, page, self.wrong);
        let record = matches!(kind, Kind::Record(_));
        let own = self.added.as_mut().filter(|added| added.layout == layout);
        if let Some(added) = &own {
            addition.damaged = false;
            addition.again = added.pages[page];
        }
        let again = match self.wrong {
            Wrong::NonRecordAddedAgain => addition.again && record,
            Wrong::EveryPageAddedAgain => false,
            _ => addition.again,
        };
        let tests = [
            (Refusal::IndexDamaged, addition.damaged),
            (Refusal::AlreadyAdded, again),
        ];
        refuse(&tests, self.wrong)?;
        match own {
            Some(added) => added.pages[page] = true,
            None => self.added = None,
        }
        for (at, word) in addition.writes {
            self.words[at] = word;
        }
        Ok(())
    }

    /// The words were overwritten: from here on they are not our calls'.
    pub fn fill(&mut self, word: u32) {
        self.words.fill(word);
        self.added = None;
    }

    pub fn poke(&mut self, at: usize, word: u32) {
        self.words[at] = word;
        self.added = None;
    }

    /// The layout of a lookup and where it finds records, after the tests of
    /// layout, length, index words, and the `asked` tests.
    pub(super) fn seen(
        &self,
        over: Over,
        asked: &[(Refusal, bool)],
    ) -> Result<(Layout, Seen), Refusal> {
        let (named, k) = match over {
            Over::Dump(layout, k) => (layout, k),
            Over::Index(lent) => (lent.layout, lent.k),
        };
        let (layout, pages) = self.opened(named, k)?;
        let short = match over {
            Over::Dump(..) => false,
            Over::Index(lent) => self.short_index(lent.words, pages),
        };
        let mut tests = asked.to_vec();
        tests.push((Refusal::ShortIndex, short));
        refuse(&tests, self.wrong)?;
        let seen = match (over, &self.added) {
            (Over::Dump(..), _) => Seen::Pages(vec![true; pages]),
            (_, Some(added)) if added.layout == layout => Seen::Pages(added.pages.clone()),
            _ => Seen::Cells(pages),
        };
        Ok((layout, seen))
    }

    /// The objects that a listing or a count goes over, ascending by id.
    fn objects_seen(&self, layout: Layout, seen: Seen) -> Vec<Object> {
        let mut objects: Vec<Object> = match seen {
            Seen::Pages(added) => {
                let records = records(self.dump, layout, &added, self.wrong);
                let mut ids = ids(&records);
                if self.wrong == Wrong::ListUnsorted {
                    let first = |id| records.iter().position(|r| r.object == id);
                    ids.sort_by_key(|&id| first(id));
                }
                let among = |&id| Object::among(&records, id, layout, self.wrong);
                ids.iter().map(among).collect()
            }
            Seen::Cells(pages) => {
                let cells = self.cells(layout, pages);
                let keys = cells.keys().into_iter();
                keys.map(|key| Object::chained(cells, key)).collect()
            }
        };
        if self.wrong != Wrong::ListUnsorted {
            objects.sort_by_key(|object| object.id);
        }
        objects
    }

    /// Whether a listing or a count of these objects meets a damaged link: one
    /// above an object's newest header.
    fn damaged(&self, objects: &[Object]) -> bool {
        let met = |object: &Object| object.broken && object.newest_header().is_none();
        match self.wrong {
            Wrong::EveryLinkMet => objects.iter().any(|object| object.broken),
            _ => objects.iter().any(met),
        }
    }

    /// How many objects have a record.
    pub fn objects(&self, over: Over) -> Result<usize, Refusal> {
        let (layout, seen) = self.seen(over, &[])?;
        let mut objects = self.objects_seen(layout, seen);
        let damaged = self.damaged(&objects) && self.wrong != Wrong::CountPassesDamage;
        refuse(&[(Refusal::IndexDamaged, damaged)], self.wrong)?;
        objects.retain(|object| match self.wrong {
            Wrong::CountOfLive => object.live(),
            Wrong::CountOfKeys => true,
            Wrong::CountOfHeaders => object.newest_header().is_some(),
            _ => !object.records.is_empty(),
        });
        Ok(objects.len())
    }

    /// The live objects, written ascending into the buffer.
    pub fn list(&self, over: Over, buffer: &mut [u32]) -> Result<Vec<u32>, Refused> {
        let (layout, seen) = self.seen(over, &[])?;
        let mut objects = self.objects_seen(layout, seen);
        let damaged = self.damaged(&objects) && self.wrong != Wrong::ListPassesDamage;
        objects.retain(Object::live);
        let ids: Vec<u32> = objects.iter().map(|object| object.id).collect();
        let short = buffer.len() < ids.len();
        let damaged = damaged && !(short && self.wrong == Wrong::ListShortBufferFirst);
        let tests = [
            (Refusal::IndexDamaged, damaged),
            (Refusal::ShortBuffer, short),
        ];
        refuse(&tests, self.wrong).map_err(|refusal| Refused {
            need: (refusal == Refusal::ShortBuffer).then_some(ids.len() as u64),
            ..refusal.into()
        })?;
        buffer[..ids.len()].copy_from_slice(&ids);
        Ok(ids)
    }
}
