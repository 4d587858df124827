//! The rules of one object: newest, cuts, size, copy, hidden, shown, valid and
//! visits. A record is named by its place in the object's sorted list, so that
//! a higher place is a newer record.

use super::cells::Cells;
use super::layout::Layout;
use super::page::{Body, Record};
use super::wrong::Wrong;

/// One object's records, from oldest to newest. It is broken if what lies
/// below the oldest cannot be known, by a damaged link.
pub struct Object {
    pub id: u32,
    pub records: Vec<Record>,
    pub broken: bool,
    pub(super) layout: Layout,
    pub(super) wrong: Wrong,
}

impl Object {
    /// The records of one id among all.
    pub fn among(records: &[Record], id: u32, layout: Layout, wrong: Wrong) -> Object {
        let mut records = records.to_vec();
        if wrong != Wrong::EveryObjectsRecords {
            records.retain(|record| record.object == id);
        }
        Object {
            id,
            records,
            broken: false,
            layout,
            wrong,
        }
    }

    /// The records of one id that its links lead to.
    pub fn chained(cells: Cells<'_>, id: u32) -> Object {
        let mut chain = cells.chain(id);
        chain.records.reverse();
        Object {
            id,
            records: chain.records,
            broken: chain.broken,
            layout: cells.layout,
            wrong: cells.wrong,
        }
    }

    /// Whether it is listed: its newest header's parent is neither 3 nor 4.
    pub fn live(&self) -> bool {
        let header = self.newest_header().is_some();
        match self.wrong {
            Wrong::ListWithDeleted => header,
            Wrong::ListWithHeaderless => !self.deleted(),
            Wrong::ListOfFiles => self.file_type() == Some(1) && !self.deleted(),
            _ => header && !self.deleted(),
        }
    }

    /// The place of the newest header.
    pub fn newest_header(&self) -> Option<usize> {
        self.records
            .iter()
            .rposition(|r| matches!(r.body, Body::Header { .. }))
    }

    /// Whether the record at this place is a header of a file.
    pub(super) fn is_file(&self, place: usize) -> bool {
        let body = self.records[place].body;
        matches!(body, Body::Header { file_type: 1, .. })
    }

    /// The type, which the newest header alone gives.
    pub fn file_type(&self) -> Option<u32> {
        match self.records[self.newest_header()?].body {
            Body::Header { file_type, .. } => Some(file_type),
            Body::Data { .. } => None,
        }
    }

    /// Whether the newest header stands under unlinked or deleted.
    pub fn deleted(&self) -> bool {
        self.newest_header()
            .is_some_and(|place| self.deletes(place))
    }

    pub(super) fn deletes(&self, place: usize) -> bool {
        match self.records[place].body {
            Body::Header { parent, .. } => match self.wrong {
                Wrong::ParentFourLive => parent == 3,
                Wrong::ParentThreeLive => parent == 4,
                _ => parent == 3 || parent == 4,
            },
            Body::Data { .. } => false,
        }
    }

    /// Where the record at this place cuts, if it does.
    pub(super) fn cut(&self, place: usize) -> Option<u64> {
        let Body::Header {
            file_type,
            size,
            shrink,
            ..
        } = self.records[place].body
        else {
            return None;
        };
        let newest = match self.wrong {
            Wrong::NewestOfFilesCuts => (0..self.records.len()).rfind(|&later| self.is_file(later)),
            _ => self.newest_header(),
        };
        let newest = newest == Some(place);
        if self.deletes(place) {
            let cuts = match self.wrong {
                Wrong::DirectoryDeletionNoCut => file_type != 3,
                Wrong::OldDeletionNoCut => newest,
                _ => true,
            };
            return cuts.then_some(0);
        }
        let cuts = match self.wrong {
            Wrong::OldBytesComeBack => newest,
            Wrong::EveryHeaderCuts => true,
            Wrong::NewestHeaderNoCut => shrink,
            _ => shrink || newest,
        };
        let file = file_type == 1 || self.wrong == Wrong::MarkCutsEveryType;
        (file && cuts).then_some(size as u64)
    }

    /// The cuts of headers newer than the record at this place.
    fn later_cuts(&self, place: usize) -> Vec<u64> {
        let from = match self.wrong {
            Wrong::EarlierCutsCount => 0,
            _ => place + 1,
        };
        (from..self.records.len())
            .filter_map(|later| self.cut(later))
            .collect()
    }

    /// Where chunk n begins in the file.
    pub fn start(&self, n: u64) -> u64 {
        (n - 1) * self.layout.data as u64
    }

    /// Where the data of the record at this place end in the file; headers have none.
    pub(super) fn end(&self, place: usize) -> Option<u64> {
        match self.records[place].body {
            Body::Data { chunk, count } => Some(self.start(chunk.into()) + u64::from(count)),
            Body::Header { .. } => None,
        }
    }

    /// The size: the newest header's, or what newer data reaches to.
    pub fn size(&self) -> Option<u64> {
        let place = self.newest_header()?;
        let Body::Header { size, .. } = self.records[place].body else {
            return None;
        };
        let from = match self.wrong {
            Wrong::SizeOfAllData => 0,
            Wrong::SizeOfHeaderAlone => self.records.len(),
            _ => place,
        };
        let ends = (from..self.records.len()).filter_map(|place| self.end(place));
        let end = ends.max().unwrap_or(0);
        let end = match self.wrong {
            Wrong::SizeWraps => end as u32 as u64,
            _ => end,
        };
        Some(end.max(size as u64))
    }

    /// The places of the data records with number n, from oldest to newest.
    pub(super) fn data_of(&self, n: u64) -> impl DoubleEndedIterator<Item = usize> + '_ {
        let is_n = move |place: &usize| match self.records[*place].body {
            Body::Data { chunk, .. } => u64::from(chunk) == n,
            Body::Header { .. } => false,
        };
        (0..self.records.len()).filter(is_n)
    }

    /// The place of the copy of chunk n: its newest data record, hidden or not.
    pub fn newest_data(&self, n: u64) -> Option<usize> {
        match self.wrong {
            Wrong::OldestCopyWins => self.data_of(n).next(),
            _ => self.data_of(n).next_back(),
        }
    }

    /// Whether a later cut hides the copy of chunk n at this place.
    pub fn hidden(&self, place: usize, n: u64) -> bool {
        let start = self.start(n);
        self.later_cuts(place).iter().any(|&cut| match self.wrong {
            Wrong::HiddenOnlyBelow => cut < start,
            _ => cut <= start,
        })
    }

    /// The place of the copy of chunk n, or nothing for a hole.
    pub fn copy(&self, n: u64) -> Option<usize> {
        self.newest_data(n).filter(|&place| !self.hidden(place, n))
    }

    /// The shown length of chunk n, which begins below the size.
    pub fn shown(&self, n: u64) -> u64 {
        let data = self.layout.data as u64;
        let left = self.size().unwrap_or(0).saturating_sub(self.start(n));
        match self.wrong {
            Wrong::ShownNotLimited => data,
            _ => data.min(left),
        }
    }

    /// The valid length of the copy of chunk n at this place.
    pub fn valid(&self, place: usize, n: u64) -> u64 {
        let Body::Data { count, .. } = self.records[place].body else {
            return 0;
        };
        let whole = self.shown(n).min(count as u64);
        let cuts = self.later_cuts(place);
        let mut ends = cuts.iter().map(|cut| cut.saturating_sub(self.start(n)));
        let end = match self.wrong {
            Wrong::ValidNotCut => None,
            Wrong::ValidToNewestCut => ends.rfind(|&end| end < u64::from(count)),
            _ => ends.min(),
        };
        end.map_or(whole, |end| end.min(whole))
    }

    /// Visits from the newest record down to the one at this place.
    fn down_to(&self, place: usize) -> u64 {
        let visits = self.records.len() - place;
        let visits = match self.wrong {
            Wrong::VisitsWithoutLast => visits - 1,
            Wrong::VisitsOneFurther => (visits + 1).min(self.records.len()),
            _ => visits,
        };
        visits as u64
    }

    /// Visits of a hole and of NoHeader: every record.
    pub fn visits_of_all(&self) -> u64 {
        match self.wrong {
            Wrong::HoleVisitsToHeader => self.visits_to_header(),
            _ => self.records.len() as u64,
        }
    }

    /// Visits of a size, and of the refusals that the newest header decides.
    pub fn visits_to_header(&self) -> u64 {
        self.newest_header().map_or(0, |place| self.down_to(place))
    }

    /// Visits of a copy found: down to the older of copy and newest header.
    pub fn visits_to_copy(&self, place: usize) -> u64 {
        let header = self.newest_header().unwrap_or(place);
        match self.wrong {
            Wrong::CopyVisitsToCopy => self.down_to(place),
            Wrong::CopyVisitsToHeader => self.down_to(header),
            _ => self.down_to(place.min(header)),
        }
    }

    /// Bytes that an older copy would put behind the newest one: none, unless
    /// the rule is made wrong.
    pub fn behind(&self, place: usize, n: u64) -> Option<Record> {
        if self.wrong != Wrong::OlderCopyFillsIn {
            return None;
        }
        let older = self.data_of(n).rfind(|&older| older < place);
        older.map(|older| self.records[older])
    }
}
