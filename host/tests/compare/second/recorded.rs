//! The records of an object, by the index.

use super::index::{Lent, Over, Reader, Refused};
use super::refusal::{refuse, Refusal};
use super::wrong::Wrong;

impl Reader<'_> {
    /// The pages of an object's records, the newest first, which are written to the
    /// words.
    pub fn records(&self, lent: Lent, object: u64, words: &mut [u32]) -> Result<Vec<u32>, Refused> {
        let over = Over::Index(lent);
        let (layout, seen) = self.seen(over, &[Self::bad_object(object)])?;
        let found = self.object(layout, &seen, object);
        let mut pages: Vec<u32> = found.records.iter().map(|r| r.page as u32).collect();
        match self.wrong {
            Wrong::RecordsByPage => pages.sort_unstable(),
            Wrong::RecordsOldestFirst => {}
            _ => pages.reverse(),
        }
        if self.wrong == Wrong::RecordsFromHeader {
            let below = found.newest_header().unwrap_or(0);
            pages.truncate(pages.len() - below);
        }
        let short = words.len() < pages.len();
        let damaged = found.broken && self.wrong != Wrong::RecordsPassDamage;
        let tests = [
            (Refusal::IndexDamaged, damaged),
            (Refusal::NoObject, pages.is_empty()),
            (Refusal::ShortBuffer, short),
        ];
        refuse(&tests, self.wrong).map_err(|refusal| Refused {
            need: (refusal == Refusal::ShortBuffer).then_some(pages.len() as u64),
            ..refusal.into()
        })?;
        words[..pages.len()].copy_from_slice(&pages);
        Ok(pages)
    }
}
