//! Two dumps compared in plain Rust: of each the records in one pass, sorted by object
//! and age; then object by object, with bytes as slices.

use std::io::Write as _;

use super::plain::{bad_type, claim_of, word, Claim, LAYOUTS};

const STRETCH: u64 = 512;

/// Where each field of a header begins that is compared, and where it ends.
const FIELDS: [(usize, usize); 18] = [
    (0x0, 0x4),
    (0x4, 0x8),
    (0xA, 0x10A),
    (0x10C, 0x110),
    (0x110, 0x114),
    (0x114, 0x118),
    (0x118, 0x11C),
    (0x11C, 0x120),
    (0x120, 0x124),
    (0x124, 0x128),
    (0x128, 0x12C),
    (0x12C, 0x1CC),
    (0x1CC, 0x1D0),
    (0x1D0, 0x1D8),
    (0x1D8, 0x1E0),
    (0x1E0, 0x1E8),
    (0x1F8, 0x1FC),
    (0x1FC, 0x200),
];

/// The bytes of a header.
const HEADER: usize = 0x200;

/// A record, in the order of objects and of age; a header has chunk 0.
#[derive(Clone, Copy, PartialEq, Eq, PartialOrd, Ord)]
pub struct Record {
    pub object: u32,
    sequence: u32,
    pub page: u32,
    chunk: u32,
    count: u32,
}

/// A dump with its layout.
#[derive(Clone, Copy)]
pub struct Cut<'d> {
    pub dump: &'d [u8],
    pub layout: u32,
}

impl<'d> Cut<'d> {
    fn page(self, number: u32) -> &'d [u8] {
        let (data, spare, _) = LAYOUTS[self.layout as usize];
        &self.dump[number as usize * (data + spare)..][..data + spare]
    }

    fn data(self) -> u64 {
        LAYOUTS[self.layout as usize].0 as u64
    }

    /// What a page is a record of, if it is one.
    pub fn record(self, number: u32) -> Option<Record> {
        let (data, _, tag) = LAYOUTS[self.layout as usize];
        let page = self.page(number);
        let tags = &page[data + tag..data + tag + 16];
        let sequence = word(tags, 0);
        let chunk = match claim_of(tags, sequence, data) {
            Claim::Header if !bad_type(page, data, tag) => 0,
            Claim::Data => word(tags, 8),
            _ => return None,
        };
        Some(Record {
            // every form has the id in these bits
            object: word(tags, 4) & 0x0FFF_FFFF,
            sequence,
            page: number,
            chunk,
            count: word(tags, 12),
        })
    }

    /// The records of a dump, by object and then from the oldest on.
    pub fn records(self) -> Vec<Record> {
        let (data, spare, _) = LAYOUTS[self.layout as usize];
        let pages = self.dump.len() / (data + spare);
        let mut records: Vec<Record> = (0..pages as u32)
            .filter_map(|page| self.record(page))
            .collect();
        records.sort_unstable();
        records
    }
}

/// The lines of two dumps.
pub fn text(first: Cut<'_>, second: Cut<'_>) -> Vec<u8> {
    let (one, other) = (first.records(), second.records());
    let (mut one, mut other) = (&one[..], &other[..]);
    let mut text = Vec::new();
    while let Some(object) = next(one, other) {
        let own = |records: &[Record]| records.partition_point(|r| r.object == object);
        let (first_own, second_own) = (own(one), own(other));
        let versions = [(first, &one[..first_own]), (second, &other[..second_own])];
        report(object, versions, &mut text);
        (one, other) = (&one[first_own..], &other[second_own..]);
    }
    text
}

fn next(one: &[Record], other: &[Record]) -> Option<u32> {
    let first = |records: &[Record]| records.first().map(|record| record.object);
    first(one).into_iter().chain(first(other)).min()
}

/// What one dump says of an object.
struct Version<'d> {
    cut: Cut<'d>,
    header: Option<&'d [u8]>,
    deleted: bool,
    /// The size of a live file.
    size: Option<u64>,
}

/// A copy that a file shows: where it begins, and its valid bytes.
type Copy<'d> = (u64, &'d [u8]);

impl<'d> Version<'d> {
    fn of(cut: Cut<'d>, records: &[Record]) -> Version<'d> {
        let newest = records.iter().rposition(|record| record.chunk == 0);
        let header = newest.map(|at| cut.page(records[at].page));
        let deleted = header.is_some_and(|header| matches!(word(header, 4), 3 | 4));
        let file = header.filter(|header| !deleted && word(header, 0) == 1);
        let size = file.map(|header| {
            let newer = &records[newest.map_or(0, |at| at + 1)..];
            let ends = newer
                .iter()
                .map(|r| u64::from(r.chunk - 1) * cut.data() + u64::from(r.count));
            ends.max().unwrap_or(0).max(word(header, 0x124).into())
        });
        Version {
            cut,
            header,
            deleted,
            size,
        }
    }

    /// The copies that a file of this size shows, ascending.
    fn copies(&self, records: &[Record], size: u64) -> Vec<Copy<'d>> {
        let (mut cut, mut newest) = (size, true);
        let mut met: Vec<(u32, usize, u32, u64)> = Vec::with_capacity(records.len());
        for (place, record) in records.iter().rev().enumerate() {
            if record.chunk == 0 {
                let header = self.cut.page(record.page);
                if matches!(word(header, 4), 3 | 4) {
                    cut = 0;
                } else if word(header, 0) == 1 && (newest || word(header, 0x1FC) != 0) {
                    cut = cut.min(word(header, 0x124).into());
                }
                newest = false;
                continue;
            }
            let left = cut.saturating_sub(u64::from(record.chunk - 1) * self.cut.data());
            met.push((
                record.chunk,
                place,
                record.page,
                left.min(record.count.into()),
            ));
        }
        met.sort_unstable();
        met.dedup_by_key(|copy| copy.0);
        let shown = met.into_iter().filter(|copy| copy.3 > 0);
        shown
            .map(|(chunk, _, page, valid)| {
                let start = u64::from(chunk - 1) * self.cut.data();
                (start, &self.cut.page(page)[..valid as usize])
            })
            .collect()
    }
}

/// The lines of an object, by its records on each side.
pub fn report(object: u32, versions: [(Cut<'_>, &[Record]); 2], text: &mut Vec<u8>) {
    let begin = text.len();
    let _ = writeln!(text, "object={object}");
    let named = text.len();
    let [(first, one), (second, other)] = versions;
    match (one.is_empty(), other.is_empty()) {
        (false, true) => text.extend_from_slice(b"only=1\n"),
        (true, false) => text.extend_from_slice(b"only=2\n"),
        _ => {
            let versions = [Version::of(first, one), Version::of(second, other)];
            differences(&versions, [one, other], text);
        }
    }
    if text.len() == named {
        text.truncate(begin);
    }
}

fn differences(versions: &[Version<'_>; 2], records: [&[Record]; 2], text: &mut Vec<u8>) {
    let [first, second] = versions;
    let mut side = |key: &str, one: bool, other: bool| {
        if one != other {
            let _ = writeln!(text, "{key}={}", if one { 1 } else { 2 });
        }
    };
    side("deleted", first.deleted, second.deleted);
    side("noheader", first.header.is_none(), second.header.is_none());
    if let (Some(one), Some(other)) = (first.header, second.header) {
        if one[..HEADER] != other[..HEADER] {
            for (at, end) in FIELDS {
                if one[at..end] != other[at..end] {
                    let _ = writeln!(text, "field={at}");
                }
            }
        }
    }
    let (Some(one), Some(other)) = (first.size, second.size) else {
        return;
    };
    if one != other {
        let _ = writeln!(text, "size={one}\nsize={other}");
    }
    let copies = [
        first.copies(records[0], one),
        second.copies(records[1], other),
    ];
    stretches([&copies[0], &copies[1]], one.min(other), text);
}

/// The stretches below the smaller size in which the copies differ.
fn stretches(copies: [&[Copy<'_>]; 2], end: u64, text: &mut Vec<u8>) {
    let [mut one, mut other] = copies;
    let mut from = 0;
    loop {
        // copies that end before this stretch are done with
        let left = |copies: &[Copy<'_>]| {
            copies.partition_point(|(start, bytes)| start + bytes.len() as u64 <= from)
        };
        one = &one[left(&one[..one.len().min(2)])..];
        other = &other[left(&other[..other.len().min(2)])..];
        let starts = [one, other].map(|copies| copies.first().map(|copy| copy.0));
        let Some(start) = starts.into_iter().flatten().min() else {
            return;
        };
        from = from.max(start / STRETCH * STRETCH);
        if from >= end {
            return;
        }
        // most copies are the same on both sides
        if let (Some(first), Some(second)) = (one.first(), other.first()) {
            if first == second && first.0 == from && first.0 + first.1.len() as u64 <= end {
                from += first.1.len() as u64;
                continue;
            }
        }
        let to = end.min((from / STRETCH + 1) * STRETCH);
        let [first, second] = [one, other].map(|copies| held(copies, from / STRETCH * STRETCH, to));
        let common = first.len().min(second.len());
        let is_zero = |bytes: &[u8]| bytes.iter().all(|&byte| byte == 0);
        let alike = first[..common] == second[..common]
            && is_zero(&first[common..])
            && is_zero(&second[common..]);
        if !alike {
            let _ = writeln!(text, "stretch={}", from / STRETCH);
        }
        from = (from / STRETCH + 1) * STRETCH;
    }
}

/// The bytes of the first copy that stand in a stretch.
fn held<'d>(copies: &[Copy<'d>], from: u64, to: u64) -> &'d [u8] {
    let Some(&(start, bytes)) = copies.first() else {
        return &[];
    };
    if start > from {
        return &[];
    }
    let end = (to - start).min(bytes.len() as u64) as usize;
    bytes.get((from - start) as usize..end).unwrap_or(&[])
}
