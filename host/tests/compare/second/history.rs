//! What a file was after each of its records, on the dump alone.

use super::index::{Reader, Refused};
use super::page::{Body, Record};
use super::refusal::Refusal;
use super::rules::Object;
use super::why::Past;
use super::wrong::Wrong;

/// What a size lookup answers.
pub type Told = Result<u64, Refusal>;

impl Object {
    /// The object as it was after the record at a place: with no newer ones.
    fn after(&self, place: usize) -> Object {
        let mut records = self.records.clone();
        let own = records[place].page;
        match self.wrong {
            Wrong::HistoryBeforeEach => records.truncate(place),
            Wrong::HistorySeesLowerPages => records.retain(|record| record.page <= own),
            _ => records.truncate(place + 1),
        }
        Object { records, ..*self }
    }

    /// The largest end of data from a place on.
    fn reach(&self, from: usize) -> u64 {
        let ends = (from..self.records.len()).filter_map(|place| self.end(place));
        ends.max().unwrap_or(0)
    }
}

impl Reader<'_> {
    /// What a size lookup answers of an object as it was, being what it is `now`.
    fn told(&self, then: &Object, now: &Object) -> Told {
        let judged = match self.wrong {
            Wrong::HistoryTypeOfNewest => now,
            _ => then,
        };
        let refused = self.refuse_object(judged, false, &[]).err();
        let size = then.size().unwrap_or(0);
        let last = then.records.len().saturating_sub(1);
        match (self.wrong, refused.map(|refused| refused.refusal)) {
            (Wrong::HistoryHeaderlessAbsent, Some(Refusal::NoHeader)) => Err(Refusal::NoObject),
            (Wrong::HistoryHeaderlessSized, Some(Refusal::NoHeader)) => Ok(then.reach(0)),
            (Wrong::HistoryDeletedEmpty, Some(Refusal::Deleted)) => Ok(0),
            (Wrong::HistoryDeletedSized, Some(Refusal::Deleted)) => Ok(size),
            (Wrong::HistoryTypesSized, Some(Refusal::NotAFile)) => Ok(size),
            (Wrong::HistoryDataRevives, Some(_)) if then.newest_header() < Some(last) => Ok(size),
            (_, Some(refusal)) => Err(refusal),
            (Wrong::HistoryOwnEnd, None) => Ok(then.end(last).unwrap_or(size)),
            _ => Ok(size),
        }
    }

    /// What is told after a record, where `last` was told before it.
    fn told_next(&self, record: &Record, last: Option<Told>, told: Told) -> Told {
        let unmarked = matches!(record.body, Body::Header { shrink: false, .. });
        match (self.wrong, last, told) {
            (Wrong::HistoryNeverFalls, Some(Ok(last)), Ok(size)) => Ok(last.max(size)),
            (Wrong::HistoryUnmarkedKeeps, Some(Ok(last)), Ok(size)) if unmarked => {
                Ok(last.max(size))
            }
            (Wrong::HistoryDeletedStays, Some(Err(Refusal::Deleted)), _) => Err(Refusal::Deleted),
            _ => told,
        }
    }

    /// What a size lookup answers after each record of an object, from the oldest to
    /// the newest, with its page.
    pub fn history(&self, on: Past, object: u64) -> Result<Vec<(usize, Told)>, Refused> {
        let object = self.stood(on, object)?;
        if self.wrong == Wrong::HistoryRefusedAsSize {
            self.refuse_object(&object, false, &[])?;
        }
        let mut rows: Vec<(usize, Told)> = Vec::new();
        for (place, record) in object.records.iter().enumerate() {
            if self.wrong == Wrong::HistoryOfHeaders && object.end(place).is_some() {
                continue;
            }
            let last = rows.last().map(|&(_, told)| told);
            let told = self.told(&object.after(place), &object);
            rows.push((record.page, self.told_next(record, last, told)));
        }
        match self.wrong {
            Wrong::HistoryByPage => rows.sort_by_key(|&(page, _)| page),
            Wrong::HistoryNewestFirst => rows.reverse(),
            Wrong::HistoryOfChanges => rows.dedup_by_key(|&mut (_, told)| told),
            _ => {}
        }
        Ok(rows)
    }
}
