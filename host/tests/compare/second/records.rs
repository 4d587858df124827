//! The records of a dump and their order.

use super::layout::Layout;
use super::page::{kind, Kind, Record};
use super::wrong::Wrong;

/// Where a record stands in the order: by sequence, then by page.
pub fn age(record: &Record, wrong: Wrong) -> (i64, i64) {
    let (sequence, page) = (i64::from(record.sequence), record.page as i64);
    match wrong {
        Wrong::OrderByPageAlone => (0, page),
        Wrong::LowerSequenceNewer => (-sequence, page),
        Wrong::LowerPageNewer => (sequence, -page),
        Wrong::SequenceSigned => (i64::from(record.sequence as i32), page),
        _ => (sequence, page),
    }
}

/// All records among the added pages of a dump, from oldest to newest.
pub fn records(dump: &[u8], layout: Layout, added: &[bool], wrong: Wrong) -> Vec<Record> {
    let mut records = Vec::new();
    for (page, &added) in added.iter().enumerate() {
        if !added && wrong != Wrong::PagesNotAddedSeen {
            continue;
        }
        if let Kind::Record(record) = kind(dump, layout, page, wrong) {
            records.push(record);
        }
    }
    records.sort_by_key(|record| age(record, wrong));
    records
}

/// The distinct ids among records, ascending.
pub fn ids(records: &[Record]) -> Vec<u32> {
    let mut ids: Vec<u32> = records.iter().map(|r| r.object).collect();
    ids.sort_unstable();
    ids.dedup();
    ids
}
