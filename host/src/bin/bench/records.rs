//! How the records of an object stand and what its file was after each, in plain
//! Rust: one pass over the dump for the records, which are sorted by age; the newest
//! copy of each chunk in a map, and for each record the lowest cut of it and those
//! newer.

use std::collections::HashMap;

use super::plain::LAYOUTS;
use super::spans::{self, Record, Says};

/// The numbers of the standings.
const NEWEST_HEADER: u32 = 1;
const OLDER_HEADER: u32 = 2;
const SUPERSEDED: u32 = 3;
const CUT: u32 = 4;
const HOLDS: u32 = 5;
const NO_FILE: u32 = 6;

const NO_HEADER: u32 = 7;
const DELETED: u32 = 8;
const NOT_A_FILE: u32 = 9;

/// A record: its page, how it stands, by which page, and which bytes it holds.
pub type Standing = (u32, u32, u32, u64, u64);

/// A record: its page, and the size, or the number of the refusal.
pub type After = (u32, Result<u64, u32>);

/// How each record of an object stands, the oldest first.
pub fn stands(dump: &[u8], layout: u32, object: u32) -> Vec<Standing> {
    let data = LAYOUTS[layout as usize].0 as u64;
    let records = by_age(dump, layout, object);
    let mut size = Err(NO_HEADER);
    for record in &records {
        size = with(size, record.says, data);
    }
    let mut newest = None;
    let mut copies = HashMap::new();
    for (i, record) in records.iter().enumerate() {
        match record.says {
            Says::Header { .. } => newest = Some(i),
            Says::Data { chunk, .. } => {
                copies.insert(chunk, i);
            }
        }
    }
    let lows = lows(&records, newest);
    let mut standings = Vec::with_capacity(records.len());
    for (i, record) in records.iter().enumerate() {
        let (stands, by, from, until) = match record.says {
            Says::Header { .. } if newest == Some(i) => (NEWEST_HEADER, 0, 0, 0),
            Says::Header { .. } => (OLDER_HEADER, 0, 0, 0),
            Says::Data { chunk, .. } if copies[&chunk] != i => {
                (SUPERSEDED, records[copies[&chunk]].page, 0, 0)
            }
            Says::Data { chunk, count } => {
                let base = (chunk - 1) * data;
                match size {
                    _ if lows[i] <= base => {
                        let by = lows.partition_point(|&low| low <= base) - 1;
                        (CUT, records[by].page, 0, 0)
                    }
                    Err(_) => (NO_FILE, 0, 0, 0),
                    Ok(size) => (HOLDS, 0, base, (base + count).min(lows[i]).min(size)),
                }
            }
        };
        standings.push((record.page, stands, by, from, until));
    }
    standings
}

/// What a file was after each of its records, the oldest first.
pub fn history(dump: &[u8], layout: u32, object: u32) -> Vec<After> {
    let data = LAYOUTS[layout as usize].0 as u64;
    let mut after = Err(NO_HEADER);
    let records = by_age(dump, layout, object);
    let told = records.iter().map(|record| {
        after = with(after, record.says, data);
        (record.page, after)
    });
    told.collect()
}

fn by_age(dump: &[u8], layout: u32, object: u32) -> Vec<Record> {
    let mut records = spans::records(dump, layout, object);
    records.sort_unstable_by_key(|record| record.age);
    records
}

/// The lowest cut of each record and those newer.
fn lows(records: &[Record], newest: Option<usize>) -> Vec<u64> {
    let mut low = u64::MAX;
    let mut lows = vec![low; records.len()];
    for (i, record) in records.iter().enumerate().rev() {
        match record.says {
            Says::Header { gone: true, .. } => low = 0,
            Says::Header {
                file: true,
                shrink,
                size,
                ..
            } if shrink || newest == Some(i) => low = low.min(size),
            _ => {}
        }
        lows[i] = low;
    }
    lows
}

/// What a file is with one record more.
fn with(after: Result<u64, u32>, says: Says, data: u64) -> Result<u64, u32> {
    match says {
        Says::Header { gone: true, .. } => Err(DELETED),
        Says::Header { file: false, .. } => Err(NOT_A_FILE),
        Says::Header { size, .. } => Ok(size),
        Says::Data { chunk, count } => after.map(|size| size.max((chunk - 1) * data + count)),
    }
}
