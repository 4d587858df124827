//! The shown copies of a file, by the index.

use super::index::{Lent, Over, Reader, Refused};
use super::page::{Body, LAST_CHUNK};
use super::refusal::Refusal;
use super::rules::Object;
use super::wrong::Wrong;

/// A shown copy: chunk, page and valid length.
pub type Copy = [u64; 3];

/// What the copies of a file come to.
pub struct Copies {
    pub size: u64,
    pub copies: Vec<Copy>,
    /// Whether the lookup of a chunk is refused, by a damaged link.
    pub damaged: bool,
}

/// The bits of a page number and of a valid length in a row.
const PAGE_BITS: u32 = 21;
const VALID_BITS: u32 = 15;

/// A copy as one number.
pub fn packed([chunk, page, valid]: Copy, wrong: Wrong) -> u64 {
    match wrong {
        Wrong::RowByPage => page << (PAGE_BITS + VALID_BITS) | chunk << VALID_BITS | valid,
        _ => (chunk << PAGE_BITS | page) << VALID_BITS | valid,
    }
}

/// The copy that a number tells.
pub fn unpacked(row: u64, wrong: Wrong) -> Copy {
    let low = |number: u64, bits: u32| number & ((1 << bits) - 1);
    let above = row >> VALID_BITS;
    let page = match wrong {
        Wrong::PageOfRowCut => low(above, PAGE_BITS - 1),
        _ => low(above, PAGE_BITS),
    };
    [above >> PAGE_BITS, page, low(row, VALID_BITS)]
}

impl Object {
    /// The chunk that the record at a place holds a copy of, if the file has that
    /// chunk and no cut hides the copy; an older one of the chunk may be met too.
    fn met(&self, place: usize, size: u64, wrong: Wrong) -> Option<u64> {
        let Body::Data { chunk, .. } = self.records[place].body else {
            return None;
        };
        let n = u64::from(chunk);
        let inside = self.start(n) < size;
        let shows = match wrong {
            Wrong::CopiesWithHidden => inside,
            Wrong::CopiesPastEnd => !inside || !self.hidden(place, n),
            _ => inside && !self.hidden(place, n),
        };
        ((1..=LAST_CHUNK).contains(&n) && shows).then_some(n)
    }

    /// The copies that are met, by chunk and place.
    fn all_met(&self, wrong: Wrong) -> Vec<(u64, usize)> {
        let size = self.size().unwrap_or(0);
        let all = 0..self.records.len();
        all.filter_map(|place| Some((self.met(place, size, wrong)?, place)))
            .collect()
    }
}

impl Reader<'_> {
    /// How many copies of a file are met.
    pub fn met(&self, over: Over, object: u64) -> usize {
        let seen = self.seen(over, &[Self::bad_object(object)]);
        seen.map_or(0, |(layout, seen)| {
            self.object(layout, &seen, object).all_met(self.wrong).len()
        })
    }

    /// The shown copies of a file, which are written to the rows. There must be room
    /// for two rows of each that is met.
    pub fn copies(&self, lent: Lent, object: u64, rows: &mut [u64]) -> Result<Copies, Refused> {
        let over = Over::Index(lent);
        let (layout, seen) = self.seen(over, &[Self::bad_object(object)])?;
        let found = self.object(layout, &seen, object);
        let size = found.size().unwrap_or(0);
        let mut met = found.all_met(self.wrong);
        let room = 2 * met.len();
        let need = match self.wrong {
            Wrong::CopiesNeedOneEach => met.len() as u64,
            _ => room as u64,
        };
        let short = rows.len() < room;
        let asked = self.refuse_object(&found, false, &[(Refusal::ShortBuffer, short)]);
        asked.map_err(|refused| Refused {
            need: (refused.refusal == Refusal::ShortBuffer).then_some(need),
            ..refused.refusal.into()
        })?;
        if self.wrong != Wrong::CopiesWithOlder {
            met.retain(|&(n, place)| found.newest_data(n) == Some(place));
        }
        match self.wrong {
            Wrong::CopiesByPage => met.sort_by_key(|&(_, place)| found.records[place].page),
            Wrong::CopiesAsMet => met.reverse(),
            _ => met.sort_unstable(),
        }
        let copies = met.iter().map(|&(n, place)| {
            let valid = match self.wrong {
                Wrong::CopiesHaveShown => found.shown(n),
                _ => found.valid(place, n),
            };
            [n, found.records[place].page as u64, valid]
        });
        let copies: Vec<Copy> = copies.collect();
        for (row, copy) in rows.iter_mut().zip(&copies) {
            *row = packed(*copy, self.wrong);
        }
        match self.wrong {
            Wrong::CopiesLeaveRoom => {}
            Wrong::CopiesClearAll => rows[copies.len()..].fill(0),
            _ => rows[copies.len()..room].fill(0),
        }
        // a chunk without a copy is looked for down to the end of the chain
        let chunks = size.div_ceil(layout.data as u64).min(LAST_CHUNK);
        let damaged = match self.wrong {
            Wrong::BrokenIsDamaged => found.broken,
            Wrong::NeverDamaged => false,
            _ => found.broken && (copies.len() as u64) < chunks,
        };
        Ok(Copies {
            size,
            copies,
            damaged,
        })
    }
}
