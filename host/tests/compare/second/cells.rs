//! The words of an index on any cells, as docs/CELLS.md gives them meaning:
//! links, slots, chains, and what an addition writes.

use super::layout::Layout;
use super::page::{kind, Kind, Record, LAST_OBJECT};
use super::records::age;
use super::wrong::Wrong;

/// The words for the whole index, and those of each page.
const SHARED: usize = 16;
const PER_PAGE: usize = 4;

/// Where the seed stands.
pub const SEED: usize = 0;

/// How many words so many pages need.
pub fn need(pages: usize) -> usize {
    SHARED + PER_PAGE * pages
}

/// The link of a page: the first of its words.
pub fn link_of(page: usize) -> usize {
    need(page)
}

/// How many slots there are for so many pages.
pub fn slots(pages: usize) -> usize {
    pages + pages / 2
}

/// The slots lie one behind the other, two words each, in the words of the pages
/// that are no links.
fn of_slots(number: usize) -> usize {
    let (page, place) = (number / (PER_PAGE - 1), number % (PER_PAGE - 1));
    link_of(page) + 1 + place
}

pub fn key_of(slot: usize) -> usize {
    of_slots(2 * slot)
}

pub fn first_of(slot: usize) -> usize {
    of_slots(2 * slot + 1)
}

/// Whether a word of the index of so many pages is read by no rule.
pub fn unused(at: usize, pages: usize) -> bool {
    let links = (0..pages).map(link_of);
    let of_slots = (0..2 * slots(pages)).map(of_slots);
    !links.chain(of_slots).chain([SEED]).any(|used| used == at)
}

/// The number by which the home of an object is told among the slots: its id, to
/// which a seed that is not 0 adds what nobody can foresee.
pub fn mixed(seed: u32, id: u32, wrong: Wrong) -> u64 {
    let word = |number: u64| u64::from(number as u32);
    let (seed, id) = (u64::from(seed), u64::from(id));
    let middle = word((seed * id) >> 14);
    let square = word((middle * middle) >> 16);
    match wrong {
        Wrong::SeedIgnored => id,
        Wrong::SeedAdded => id + seed,
        Wrong::MixedWithoutSquare => id + middle,
        Wrong::MixedWithoutId => square,
        _ => id + square,
    }
}

/// The link to a page; 0 and 1 lead nowhere.
pub fn link_to(page: usize) -> u32 {
    page as u32 + 2
}

/// The lent words beside the dump whose pages they speak of.
#[derive(Clone, Copy)]
pub struct Cells<'c> {
    pub dump: &'c [u8],
    pub layout: Layout,
    pub pages: usize,
    pub words: &'c [u32],
    pub wrong: Wrong,
}

/// The records that an object's links lead to, newest first, and whether the
/// link below the last of them is damaged.
pub struct Chain {
    slot: usize,
    pub records: Vec<Record>,
    pub broken: bool,
}

impl Chain {
    /// The word that leads, or would lead, to the record at a place.
    fn link(&self, place: usize) -> usize {
        match place.checked_sub(1) {
            Some(above) => link_of(self.records[above].page),
            None => first_of(self.slot),
        }
    }
}

/// What comes of an addition: whether it meets a damaged link, whether the
/// page is there already, and else the words written.
#[derive(Default)]
pub struct Addition {
    pub damaged: bool,
    pub again: bool,
    pub writes: Vec<(usize, u32)>,
}

impl Cells<'_> {
    fn key(&self, slot: usize) -> u32 {
        self.words[key_of(slot)]
    }

    /// How many slots there are.
    fn slots(&self) -> usize {
        match self.wrong {
            Wrong::SlotForEachPage => self.pages,
            _ => slots(self.pages),
        }
    }

    /// The slot of an object: free or its own, from its home down, then from
    /// the last one down; its home where none is.
    fn slot(&self, id: u32) -> usize {
        let count = self.slots();
        let home = (mixed(self.words[SEED], id, self.wrong) % count as u64) as usize;
        let mut slots: Vec<usize> = (0..count).collect();
        slots.reverse();
        slots.rotate_left(count - 1 - home);
        if self.wrong == Wrong::SlotsSearchedUpwards {
            slots[1..].reverse();
        }
        let free = |slot| self.key(slot) == 0 && self.wrong != Wrong::FreeSlotPassed;
        let own = |slot| self.key(slot) == id;
        let found = slots.iter().copied().find(|&s| free(s) || own(s));
        found.unwrap_or(match self.wrong {
            Wrong::FullTableTakesSlotZero => 0,
            _ => home,
        })
    }

    /// The ids whose stored first records a listing goes over.
    pub fn keys(&self) -> Vec<u32> {
        let own = |slot: &usize| {
            let key = self.key(*slot);
            let high = u64::from(key) > LAST_OBJECT;
            match self.wrong {
                Wrong::ListOfEverySlot => key != 0,
                Wrong::ListWithoutHighKeys if high => false,
                _ => key != 0 && self.slot(key) == *slot,
            }
        };
        let slots = (0..self.slots()).filter(own);
        slots.map(|slot| self.key(slot)).collect()
    }

    /// The record that a link leads to, if it may: in the dump, the object's,
    /// and older than the one before.
    fn lead(&self, page: usize, id: u32, before: Option<&Record>) -> Option<Record> {
        if page >= self.pages {
            return None;
        }
        let Kind::Record(record) = kind(self.dump, self.layout, page, self.wrong) else {
            return None;
        };
        let own = record.object == id || self.wrong == Wrong::LinkToOtherObjectTaken;
        let (age, before) = (age(&record, self.wrong), before.map(|r| age(r, self.wrong)));
        let older = before.is_none_or(|before| match self.wrong {
            Wrong::LinkToNewerTaken => true,
            Wrong::LinkToItselfTaken => age <= before,
            _ => age < before,
        });
        (own && older).then_some(record)
    }

    /// The chain of an object.
    pub fn chain(&self, id: u32) -> Chain {
        let slot = self.slot(id);
        let mut chain = Chain {
            slot,
            records: Vec::new(),
            broken: false,
        };
        if self.key(slot) != id && self.wrong != Wrong::KeyNotCompared {
            return chain;
        }
        loop {
            let link = self.words[chain.link(chain.records.len())];
            let Some(page) = link.checked_sub(2) else {
                return chain;
            };
            let page = page as usize;
            let unmarked = |page| self.words[link_of(page)] == 0;
            let ends = match self.wrong {
                Wrong::LinkOutsideEnds => page >= self.pages,
                Wrong::LookupsReadMarks => page < self.pages && unmarked(page),
                // where a loop is followed, it has an end
                _ => chain.records.len() > self.pages,
            };
            if ends {
                return chain;
            }
            match self.lead(page, id, chain.records.last()) {
                Some(record) => chain.records.push(record),
                None => {
                    chain.broken = self.wrong != Wrong::DamageIsAnEnd;
                    return chain;
                }
            }
        }
    }

    /// The addition of a page.
    pub fn add(&self, page: usize) -> Addition {
        let marked = self.words[link_of(page)] != 0;
        let Kind::Record(record) = kind(self.dump, self.layout, page, self.wrong) else {
            return Addition {
                again: marked,
                writes: vec![(link_of(page), 1)],
                ..Addition::default()
            };
        };
        let chain = self.chain(record.object);
        let not_newer = |r: &Record| age(r, self.wrong) <= age(&record, self.wrong);
        let place = chain.records.iter().position(not_newer);
        let itself = place.is_some_and(|place| chain.records[place].page == page);
        Addition {
            damaged: match self.wrong {
                Wrong::AddMeetsEveryLink => chain.broken,
                Wrong::AddMeetsNoDamage => false,
                _ => chain.broken && place.is_none(),
            },
            again: match self.wrong {
                Wrong::UnmarkedAddedAgain => marked,
                Wrong::MarkOfRecordIgnored => itself,
                _ => marked || itself,
            },
            writes: self.put(&record, &chain, place.unwrap_or(chain.records.len())),
        }
    }

    /// The words that put a record into its chain at a place: the slot's, if it
    /// is not yet the object's, then the record's link and the one to it.
    fn put(&self, record: &Record, chain: &Chain, place: usize) -> Vec<(usize, u32)> {
        let mut writes = Vec::new();
        let at = chain.link(place);
        let mut next = self.words[at];
        if self.key(chain.slot) != record.object {
            writes.push((key_of(chain.slot), record.object));
            if self.wrong != Wrong::ClaimKeepsFirst {
                next = 0;
            }
        }
        let mark = match self.wrong {
            Wrong::LastRecordUnmarked => 0,
            _ => 1,
        };
        writes.push((link_of(record.page), next.max(mark)));
        writes.push((at, link_to(record.page)));
        writes
    }
}
