//! How each record of an object stands, on the dump alone.

use super::index::{Reader, Refused};
use super::page::Body;
use super::refusal::{refuse, Refusal};
use super::rules::Object;
use super::why::Past;
use super::wrong::Wrong;

/// How a record stands: with the page of the copy that supersedes it or of the
/// header that cuts it, or with the bytes of the file that it gives.
#[derive(Clone, Copy, Debug, PartialEq, Eq)]
pub enum Standing {
    NewestHeader,
    OlderHeader,
    Superseded { by: usize },
    Cut { by: usize },
    Holds { from: u64, until: u64 },
    NoFile,
}

impl Standing {
    pub fn name(self) -> &'static str {
        match self {
            Standing::NewestHeader => "newest header",
            Standing::OlderHeader => "older header",
            Standing::Superseded { .. } => "superseded",
            Standing::Cut { .. } => "cut",
            Standing::Holds { .. } => "holds",
            Standing::NoFile => "no file",
        }
    }

    /// The page that supersedes or cuts it, and where its bytes begin and end: 0
    /// where it has none.
    pub fn row(self) -> [u64; 3] {
        match self {
            Standing::Superseded { by } | Standing::Cut { by } => [by as u64, 0, 0],
            Standing::Holds { from, until } => [0, from, until],
            _ => [0; 3],
        }
    }
}

impl Object {
    /// How the record at a place stands.
    fn standing(&self, place: usize) -> Standing {
        let Body::Data { chunk, .. } = self.records[place].body else {
            return match self.top() == Some(place) {
                true => Standing::NewestHeader,
                false => Standing::OlderHeader,
            };
        };
        let n = u64::from(chunk);
        let mut tests = [
            self.superseded(place, n),
            self.cut_off(place, n),
            self.no_file(),
        ];
        match self.wrong {
            Wrong::StandsCutFirst => tests.swap(0, 1),
            Wrong::StandsNoFileBeforeCut => tests.swap(1, 2),
            Wrong::StandsNoFileFirst => tests.rotate_right(1),
            _ => {}
        }
        let first = tests.into_iter().flatten().next();
        first.unwrap_or_else(|| self.holds(place, n))
    }

    /// The place of the header that stands as the newest.
    fn top(&self) -> Option<usize> {
        let newest = self.newest_header();
        let all = 0..self.records.len();
        let mut headers = all.filter(|&place| self.end(place).is_none());
        match self.wrong {
            Wrong::StandsTopByPage => headers.max_by_key(|&place| self.records[place].page),
            Wrong::StandsTopOfFiles => headers.rfind(|&place| self.is_file(place)),
            Wrong::StandsTopLive => headers.rfind(|&place| !self.deletes(place)),
            Wrong::StandsTopOfRecords => newest.filter(|&top| top + 1 == self.records.len()),
            _ => newest,
        }
    }

    /// Superseded, where it is not the newest copy of its chunk.
    fn superseded(&self, place: usize, n: u64) -> Option<Standing> {
        let newer = self.newest_data(n).filter(|&copy| copy != place);
        let on_page = |&copy: &usize| self.records[copy].page;
        let copy = match self.wrong {
            Wrong::StandsByNextCopy => self.data_of(n).find(|&copy| copy > place),
            Wrong::StandsByCopyOnPage => {
                let highest = self.data_of(n).max_by_key(on_page);
                highest.filter(|&copy| copy != place)
            }
            Wrong::StandsCutSupersedesNot => newer.filter(|&copy| !self.hidden(copy, n)),
            Wrong::StandsShorterSupersedesNot => {
                newer.filter(|&copy| self.end(copy) >= self.end(place))
            }
            _ => newer,
        };
        let by = self.records[copy?].page;
        Some(Standing::Superseded { by })
    }

    /// Cut, where a later header cuts at or below the begin of its chunk.
    fn cut_off(&self, place: usize, n: u64) -> Option<Standing> {
        let begin = self.start(n);
        let at = match self.wrong {
            Wrong::StandsCutAtEnd => begin + self.layout.data as u64,
            Wrong::StandsCutInside => self.end(place)? - 1,
            _ => begin,
        };
        let header = self.cutter(place, at)?;
        let cuts = match self.wrong {
            Wrong::StandsDeletionNoCut => !self.deletes(header),
            Wrong::StandsNewestNoCut => self.newest_header() != Some(header),
            _ => true,
        };
        let by = self.records[header].page;
        cuts.then_some(Standing::Cut { by })
    }

    /// No file, where the object is no live file.
    fn no_file(&self) -> Option<Standing> {
        let file_type = self.file_type();
        let file = match self.wrong {
            Wrong::StandsHeaderlessHolds => matches!(file_type, None | Some(1)),
            Wrong::StandsOtherTypesHold => file_type.is_some(),
            Wrong::StandsOnceAFile => (0..self.records.len()).any(|place| self.is_file(place)),
            _ => file_type == Some(1),
        };
        let live = !self.deleted() || self.wrong == Wrong::StandsDeletedHolds;
        (!(file && live)).then_some(Standing::NoFile)
    }

    /// Holds: its valid bytes, by their positions in the file.
    fn holds(&self, place: usize, n: u64) -> Standing {
        let (from, valid) = (self.start(n), self.valid(place, n));
        let until = from + valid;
        let [from, until] = match self.wrong {
            Wrong::StandsHoldsPage => [from, from + self.layout.data as u64],
            Wrong::StandsHoldsShown => [from, from + self.shown(n)],
            Wrong::StandsHoldsPastSize => [from, self.end_by_older(place).unwrap_or(until)],
            Wrong::StandsHoldsWraps => [from, until].map(|at| at as u32 as u64),
            Wrong::StandsHoldsLength => [from, valid],
            Wrong::StandsHoldsInPage => [0, valid],
            Wrong::StandsHoldsToLast => [from, until - 1],
            _ => [from, until],
        };
        Standing::Holds { from, until }
    }

    /// Where the bytes of a record would end, but for the newest header.
    fn end_by_older(&self, place: usize) -> Option<u64> {
        let later = place + 1..self.records.len();
        let older = later.filter(|&later| self.newest_header() != Some(later));
        let cuts = older.filter_map(|later| self.cut(later));
        cuts.chain(self.end(place)).min()
    }
}

impl Reader<'_> {
    /// An object that has records, on the dump alone.
    pub(super) fn stood(&self, on: Past, object: u64) -> Result<Object, Refused> {
        let (_, mut found) = self.alone(on, object)?;
        if self.wrong == Wrong::StandsAsItStands {
            (_, found) = self.alone(Past { before: None, ..on }, object)?;
        }
        refuse(&[(Refusal::NoObject, found.records.is_empty())], self.wrong)?;
        Ok(found)
    }

    /// How each record of an object stands, from the oldest to the newest, with its
    /// page.
    pub fn stands(&self, on: Past, object: u64) -> Result<Vec<(usize, Standing)>, Refused> {
        let object = self.stood(on, object)?;
        if self.wrong == Wrong::StandsRefusedAsSize {
            self.refuse_object(&object, false, &[])?;
        }
        let records = object.records.iter().enumerate();
        let mut rows: Vec<_> = records
            .map(|(place, record)| (record.page, object.standing(place)))
            .collect();
        match self.wrong {
            Wrong::StandsByPage => rows.sort_by_key(|&(page, _)| page),
            Wrong::StandsNewestFirst => rows.reverse(),
            Wrong::StandsFromHeader => rows = rows.split_off(object.newest_header().unwrap_or(0)),
            _ => {}
        }
        Ok(rows)
    }
}
