//! The runs of a file in plain Rust: one pass over the dump for the object's
//! records, and a sweep over the places where a reason can change.

use super::plain::{bad_type, claim_of, word, Claim, LAYOUTS};

/// The numbers of the reasons.
const HELD: u32 = 1;
const NO_COPY: u32 = 2;
const CUT: u32 = 3;
const COUNT: u32 = 4;

/// A run: where it begins, the number of its reason, and its page.
pub type Span = (u64, u32, u32);

/// A record: its place in the order, its page, and what it says.
pub struct Record {
    pub age: u64,
    pub page: u32,
    pub says: Says,
}

#[derive(Clone, Copy)]
pub enum Says {
    Header {
        gone: bool,
        file: bool,
        shrink: bool,
        size: u64,
    },
    Data {
        chunk: u64,
        count: u64,
    },
}

/// The runs of a live file, ascending.
pub fn spans(dump: &[u8], layout: u32, object: u32) -> Option<Vec<Span>> {
    let data = LAYOUTS[layout as usize].0 as u64;
    let records = records(dump, layout, object);
    let header = |r: &&Record| matches!(r.says, Says::Header { .. });
    let newest = records.iter().filter(header).max_by_key(|r| r.age)?;
    let Says::Header {
        gone: false,
        file: true,
        size: claimed,
        ..
    } = newest.says
    else {
        return None;
    };
    let mut size = claimed;
    let mut marks = vec![(0, usize::MAX)];
    for (i, record) in records.iter().enumerate() {
        match record.says {
            Says::Header { gone: true, .. } => marks.push((0, i)),
            Says::Header {
                file: true,
                shrink,
                size,
                ..
            } if shrink || record.age == newest.age => {
                marks.push((size, i));
            }
            Says::Header { .. } => {}
            Says::Data { chunk, count } => {
                let base = (chunk - 1) * data;
                marks.push((base, i));
                if count < data {
                    marks.push((base + count, usize::MAX));
                }
                marks.push((base + data, usize::MAX));
                if record.age > newest.age {
                    size = size.max(base + count);
                }
            }
        }
    }
    marks.sort_unstable();
    Some(sweep(&records, &marks, data, size))
}

/// A run for each place behind whose last mark the reason is another.
fn sweep(records: &[Record], marks: &[(u64, usize)], data: u64, size: u64) -> Vec<Span> {
    let mut spans: Vec<Span> = Vec::new();
    let (mut cut, mut copy): (Option<&Record>, Option<(u64, &Record)>) = (None, None);
    for (j, &(place, i)) in marks.iter().enumerate() {
        match records.get(i).map(|record| (record, record.says)) {
            Some((record, Says::Header { .. })) => {
                cut = cut.filter(|old| old.age > record.age).or(Some(record));
            }
            Some((record, Says::Data { chunk, .. })) => {
                let newer = |old: &(u64, &Record)| old.0 == chunk && old.1.age > record.age;
                copy = copy.filter(newer).or(Some((chunk, record)));
            }
            None => {}
        }
        if marks.get(j + 1).is_some_and(|next| next.0 == place) || place >= size {
            continue;
        }
        let (reason, page) = reason(cut, copy, place, data);
        if spans
            .last()
            .is_none_or(|last| (last.1, last.2) != (reason, page))
        {
            spans.push((place, reason, page));
        }
    }
    spans
}

fn reason(cut: Option<&Record>, copy: Option<(u64, &Record)>, place: u64, data: u64) -> (u32, u32) {
    let Some((_, copy)) = copy.filter(|(chunk, _)| *chunk == place / data + 1) else {
        return (NO_COPY, 0);
    };
    if let Some(header) = cut.filter(|header| header.age > copy.age) {
        return (CUT, header.page);
    }
    match copy.says {
        Says::Data { count, .. } if place % data < count => (HELD, copy.page),
        _ => (COUNT, copy.page),
    }
}

/// The records of an object, by page.
pub fn records(dump: &[u8], layout: u32, object: u32) -> Vec<Record> {
    let (data, spare, tag) = LAYOUTS[layout as usize];
    let mut records = Vec::new();
    for (page, bytes) in dump.chunks_exact(data + spare).enumerate() {
        let tags = &bytes[data + tag..data + tag + 16];
        let (sequence, id, chunk) = (word(tags, 0), word(tags, 4), word(tags, 8));
        let own = if chunk >= 1 << 31 {
            id & 0x0FFF_FFFF
        } else {
            id
        };
        if own != object {
            continue;
        }
        let says = match claim_of(tags, sequence, data) {
            Claim::Header if !bad_type(bytes, data, tag) => Says::Header {
                gone: matches!(word(bytes, 4), 3 | 4),
                file: word(bytes, 0) == 1,
                shrink: word(bytes, 0x1FC) != 0,
                size: word(bytes, 0x124).into(),
            },
            Claim::Data => Says::Data {
                chunk: chunk.into(),
                count: word(tags, 12).into(),
            },
            _ => continue,
        };
        records.push(Record {
            age: u64::from(sequence) << 32 | page as u64,
            page: page as u32,
            says,
        });
    }
    records
}
