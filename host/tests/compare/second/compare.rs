//! Two dumps of one controller compared, each by its own layout and K: which objects
//! are in one of them alone, and what differs of those that are in both.

use std::collections::BTreeSet;
use std::fmt::{self, Write as _};

use super::find::find;
use super::layout::{opened, Layout, Named};
use super::page::{data, fields, Body, Field, Record, FIELDS, LAST_CHUNK};
use super::records::{age, ids, records};
use super::refusal::{refuse, Refusal};
use super::rules::Object;
use super::wrong::Wrong;

/// The bytes of a stretch.
const STRETCH: u64 = 512;

/// The fields that are called unused, in-band, unread or reserved.
const LEFT_OUT: [&str; 6] = [
    "unused1",
    "unused2",
    "inband_shadow",
    "inband_shrink",
    "size_high",
    "reserved",
];

/// One of the two dumps: its bytes, its layout where that is named, and K.
#[derive(Clone, Copy)]
pub struct Side<'d> {
    pub dump: &'d [u8],
    pub layout: Option<Named>,
    pub k: u64,
}

impl<'d> Side<'d> {
    /// The layout that was named or is found, or refusal 1, 2 or 3.
    fn layout(self, wrong: Wrong) -> Result<Layout, Refusal> {
        let Side { dump, layout, k } = self;
        match layout {
            Some(named) => Ok(opened(named, k, dump.len() as u64, wrong)?.0),
            None => find(dump, k, wrong),
        }
    }

    /// The dump with its records.
    fn read(self, layout: Layout, data: usize, wrong: Wrong) -> Read<'d> {
        let pages = self.dump.len() / layout.page();
        let records = records(self.dump, layout, &vec![true; pages], wrong);
        Read {
            dump: self.dump,
            layout,
            counted: Layout { data, ..layout },
            records,
            wrong,
        }
    }
}

/// A dump that is not refused: its records from oldest to newest, and the layout by
/// which chunks are counted.
struct Read<'d> {
    dump: &'d [u8],
    layout: Layout,
    counted: Layout,
    records: Vec<Record>,
    wrong: Wrong,
}

impl Read<'_> {
    fn ids(&self) -> Vec<u32> {
        let mut ids = ids(&self.records);
        let object = |id: u32| Object::among(&self.records, id, self.layout, self.wrong);
        match self.wrong {
            Wrong::CompareIdsOfLive => ids.retain(|&id| object(id).live()),
            Wrong::CompareIdsWithHeaders => ids.retain(|&id| object(id).newest_header().is_some()),
            Wrong::CompareIdsOfFiles => ids.retain(|&id| object(id).file_type() == Some(1)),
            _ => {}
        }
        ids
    }

    /// What there is of an object, if there is anything.
    fn version(&self, id: u32) -> Option<Version<'_>> {
        let object = Object::among(&self.records, id, self.counted, self.wrong);
        let is_there = match self.wrong {
            Wrong::CompareDeletedAbsent => !object.deleted(),
            Wrong::CompareHeaderlessAbsent => object.newest_header().is_some(),
            _ => true,
        };
        (is_there && !object.records.is_empty()).then_some(Version { read: self, object })
    }
}

/// An object as one of the dumps has it.
struct Version<'r> {
    read: &'r Read<'r>,
    object: Object,
}

impl Version<'_> {
    fn is_headerless(&self) -> bool {
        self.object.newest_header().is_none()
    }

    fn is_deleted(&self) -> bool {
        match self.read.wrong {
            Wrong::CompareHeaderlessDeleted => self.object.deleted() || self.is_headerless(),
            _ => self.object.deleted(),
        }
    }

    fn is_live_file(&self) -> bool {
        let is_file = self.object.file_type() == Some(1);
        match self.read.wrong {
            Wrong::CompareDeletedFilesToo => is_file,
            Wrong::CompareEveryTypeToo => !self.is_headerless() && !self.object.deleted(),
            Wrong::CompareLinksToo => {
                [Some(1), Some(4)].contains(&self.object.file_type()) && !self.object.deleted()
            }
            _ => is_file && !self.object.deleted(),
        }
    }

    /// The page of the header whose fields are compared: the newest.
    fn header(&self) -> Option<usize> {
        let records = &self.object.records;
        let is_header = |record: &&Record| matches!(record.body, Body::Header { .. });
        let header = match self.read.wrong {
            Wrong::CompareOldestHeaders => records.iter().find(is_header),
            Wrong::CompareHeadersByTime => records.iter().filter(is_header).max_by_key(|record| {
                let moment = word(data(self.read.dump, self.read.layout, record.page), 0x11C);
                (moment, age(record, self.read.wrong))
            }),
            _ => records.iter().rfind(is_header),
        };
        header.map(|record| record.page)
    }

    /// The size, of an object that has a header.
    fn size(&self) -> u64 {
        if self.read.wrong == Wrong::CompareOthersEmpty && !self.is_live_file() {
            return 0;
        }
        let header = self.object.newest_header();
        match (
            self.read.wrong,
            header.map(|place| self.object.records[place].body),
        ) {
            (Wrong::CompareSizeOfHeader, Some(Body::Header { size, .. })) => size.into(),
            _ => self.object.size().unwrap_or(0),
        }
    }

    /// The page that holds chunk n, and how many of its bytes are shown.
    fn held(&self, n: u64) -> Option<(usize, u64)> {
        let n = match self.read.wrong {
            Wrong::CompareLowBitsOfChunk => n & LAST_CHUNK,
            _ => n,
        };
        let place = match self.read.wrong {
            Wrong::CompareHiddenShown => self.object.newest_data(n),
            _ if n == 0 => None,
            _ => self.object.copy(n),
        }?;
        let record = self.object.records[place];
        let count = match record.body {
            Body::Data { count, .. } => u64::from(count),
            Body::Header { .. } => 0,
        };
        let length = match self.read.wrong {
            Wrong::CompareHiddenShown | Wrong::CompareCutsNoBytes => {
                self.object.shown(n).min(count)
            }
            Wrong::CompareCountsIgnored => self.object.shown(n),
            _ => self.object.valid(place, n),
        };
        Some((record.page, length))
    }

    /// The shown bytes from one position to before another, as zeros where nothing is
    /// held.
    fn bytes(&self, from: u64, to: u64) -> Vec<u8> {
        let data_size = self.object.layout.data as u64;
        let mut bytes = vec![0; (to - from) as usize];
        for n in from / data_size + 1..=(to - 1) / data_size + 1 {
            let start = self.object.start(n);
            let mut put = |end: u64, byte: &dyn Fn(usize) -> u8| {
                for at in from.max(start)..to.min(end) {
                    bytes[(at - from) as usize] = byte((at - start) as usize);
                }
            };
            match self.held(n) {
                Some((page, length)) => {
                    let page = data(self.read.dump, self.read.layout, page);
                    let byte = |at: usize| page.get(at).copied().unwrap_or(0);
                    put(start + length, &byte);
                }
                None if self.read.wrong == Wrong::CompareHolesErased => {
                    put(start + data_size, &|_| 0xFF);
                }
                None => {}
            }
        }
        bytes
    }

    /// Whether something is held at a position.
    fn holds(&self, position: u64) -> bool {
        self.held(position / self.object.layout.data as u64 + 1)
            .is_some()
    }

    /// The stretches of this length in which bytes are held: in no other one can a
    /// byte be shown that is not 0.
    fn stretches(&self, length: u64) -> BTreeSet<u64> {
        let mut stretches = BTreeSet::new();
        for record in &self.object.records {
            let Body::Data { chunk, .. } = record.body else {
                continue;
            };
            let start = self.object.start(chunk.into());
            if let Some((_, held)) = self.held(chunk.into()) {
                stretches.extend(start / length..(start + held).div_ceil(length));
                if self.read.wrong == Wrong::CompareLowBitsOfChunk {
                    let again = self.object.start(LAST_CHUNK + 2);
                    stretches.extend([(start + again) / length]);
                }
            }
        }
        stretches
    }
}

fn word(bytes: &[u8], at: usize) -> u32 {
    u32::from_le_bytes([0, 1, 2, 3].map(|byte| bytes[at + byte]))
}

/// What is reported of an object, its lines in this order. Sides are 1 and 2.
#[derive(Clone, Debug, Default, PartialEq, Eq)]
pub struct Differences {
    pub only: Option<u8>,
    pub deleted: Vec<u8>,
    pub headerless: Vec<u8>,
    pub fields: Vec<usize>,
    pub sizes: Vec<u64>,
    pub stretches: Vec<u64>,
}

/// An object that differs, and how.
#[derive(Clone, Debug, PartialEq, Eq)]
pub struct Differing {
    pub object: u32,
    pub differences: Differences,
    wrong: Wrong,
}

impl fmt::Display for Differing {
    fn fmt(&self, f: &mut fmt::Formatter<'_>) -> fmt::Result {
        let Differences {
            only,
            deleted,
            headerless,
            fields,
            sizes,
            stretches,
        } = &self.differences;
        let mut lines = String::new();
        let mut put = |key: &str, values: &mut dyn Iterator<Item = u64>| {
            for value in values {
                let _ = match (self.wrong, key) {
                    (Wrong::CompareOffsetsHex, "field") => writeln!(lines, "{key}={value:x}"),
                    _ => writeln!(lines, "{key}={value}"),
                };
            }
        };
        let mut sides = [("deleted", deleted), ("noheader", headerless)];
        if self.wrong == Wrong::CompareNoHeaderFirst {
            sides.reverse();
        }
        put("object", &mut [self.object.into()].into_iter());
        put("only", &mut only.iter().map(|&side| side.into()));
        for (key, sides) in sides {
            put(key, &mut sides.iter().map(|&side| side.into()));
        }
        let fields = |put: &mut dyn FnMut(&str, &mut dyn Iterator<Item = u64>)| {
            put("field", &mut fields.iter().map(|&at| at as u64));
        };
        match self.wrong {
            Wrong::CompareSizesBeforeFields => {
                put("size", &mut sizes.iter().copied());
                fields(&mut put);
            }
            _ => {
                fields(&mut put);
                put("size", &mut sizes.iter().copied());
            }
        }
        put("stretch", &mut stretches.iter().copied());
        f.write_str(&lines)
    }
}

/// The objects that differ between two dumps, ascending by id, or the refusal that
/// the order of the table gives over both.
pub fn compare(sides: [Side<'_>; 2], wrong: Wrong) -> Result<Vec<Differing>, Refusal> {
    let [first, mut second] = sides;
    match wrong {
        Wrong::CompareBlockOfFirst => second.k = first.k,
        Wrong::CompareLayoutOfFirst => {
            second.layout = first.layout(wrong).ok().map(Named::from).or(first.layout);
        }
        _ => {}
    }
    let layouts = [first.layout(wrong), second.layout(wrong)];
    let refused = layouts.iter().filter_map(|layout| layout.as_ref().err());
    let mut refused: Vec<Refusal> = refused.copied().collect();
    match wrong {
        Wrong::CompareFirstRefusedFirst => refused.truncate(1),
        Wrong::CompareSecondRefusedFirst => {
            refused.reverse();
            refused.truncate(1);
        }
        _ => {}
    }
    let tests: Vec<(Refusal, bool)> = refused.into_iter().map(|r| (r, true)).collect();
    refuse(&tests, wrong)?;
    let [one, other] = [layouts[0]?, layouts[1]?];
    let counted = match wrong {
        Wrong::CompareDataSizeOfFirst => one.data,
        _ => other.data,
    };
    let reads = [
        first.read(one, one.data, wrong),
        second.read(other, counted, wrong),
    ];
    Ok(differing(&reads, wrong))
}

/// The records of a dump, ascending by object and the newest first in each, as numbers
/// of object and page; or its refusal.
pub fn order(side: Side<'_>, wrong: Wrong) -> Result<Vec<u64>, Refusal> {
    let layout = side.layout(wrong)?;
    let mut records = side.read(layout, layout.data, wrong).records;
    records.reverse();
    records.sort_by_key(|record| record.object);
    let words = records.iter();
    Ok(words
        .map(|record| u64::from(record.object) << 32 | record.page as u64)
        .collect())
}

/// The lines of all of them.
pub fn text(differing: &[Differing]) -> String {
    differing.iter().map(Differing::to_string).collect()
}

fn differing(reads: &[Read<'_>; 2], wrong: Wrong) -> Vec<Differing> {
    let [first, second] = [reads[0].ids(), reads[1].ids()];
    let mut ids = match wrong {
        Wrong::CompareIdsOfFirst => first,
        Wrong::CompareIdsOfSecond => second,
        Wrong::CompareIdsOfBoth => {
            let both = first.into_iter().filter(|id| second.contains(id));
            both.collect()
        }
        _ => [first, second].concat(),
    };
    match wrong {
        // those that are in the second alone behind all others
        Wrong::CompareIdsAsMet => {
            let mut met = BTreeSet::new();
            ids.retain(|&id| met.insert(id));
        }
        _ => ids.sort_unstable(),
    }
    ids.dedup();
    if wrong == Wrong::CompareIdsDescending {
        ids.reverse();
    }
    let all = ids.into_iter().map(|object| {
        let versions = [reads[0].version(object), reads[1].version(object)];
        let differences = match &versions {
            [Some(first), Some(second)] => between([first, second], wrong),
            [Some(only), None] => only_in(1, only, wrong),
            [None, Some(only)] => only_in(2, only, wrong),
            [None, None] => Differences::default(),
        };
        Differing {
            object,
            differences,
            wrong,
        }
    });
    all.filter(|found| {
        found.differences != Differences::default() || wrong == Wrong::CompareAlikeNamed
    })
    .collect()
}

fn only_in(side: u8, version: &Version<'_>, wrong: Wrong) -> Differences {
    let mut found = Differences {
        only: Some(match wrong {
            Wrong::CompareOnlyOfOther => 3 - side,
            _ => side,
        }),
        ..Differences::default()
    };
    match wrong {
        Wrong::CompareOnlyNotTold => found.only = None,
        Wrong::CompareOnlyWithDeleted if version.is_deleted() => found.deleted.push(side),
        Wrong::CompareOnlyWithNoHeader if version.is_headerless() => found.headerless.push(side),
        Wrong::CompareOnlyWithSize if version.is_live_file() => found.sizes.push(version.size()),
        _ => {}
    }
    found
}

/// What differs of an object that is in both.
fn between(versions: [&Version<'_>; 2], wrong: Wrong) -> Differences {
    let [first, second] = versions;
    let mut found = Differences::default();
    let have_headers = !first.is_headerless() && !second.is_headerless();
    let deleted = versions.map(Version::is_deleted);
    let headerless = versions.map(Version::is_headerless);
    found.deleted = match wrong {
        Wrong::CompareDeletedNotTold => Vec::new(),
        Wrong::CompareDeletedOnBoth => sides(deleted, |_| true),
        Wrong::CompareDeletedOfOther => sides([deleted[1], deleted[0]], |both| !both),
        Wrong::CompareDeletedOfSecond => sides([false, deleted[1]], |_| !deleted[0]),
        Wrong::CompareDeletedNeedsHeaders => sides(deleted, |both| !both && have_headers),
        _ => sides(deleted, |both| !both),
    };
    found.headerless = match wrong {
        Wrong::CompareNoHeaderNotTold => Vec::new(),
        Wrong::CompareNoHeaderOnBoth => sides(headerless, |_| true),
        Wrong::CompareNoHeaderOfOther => sides([headerless[1], headerless[0]], |both| !both),
        Wrong::CompareNoHeaderOfSecond => sides([false, headerless[1]], |_| !headerless[0]),
        Wrong::CompareNoHeaderUnlessDeleted => sides(headerless, |both| {
            !both && !first.is_deleted() && !second.is_deleted()
        }),
        _ => sides(headerless, |both| !both),
    };
    let is_live = |version: &Version<'_>| !version.object.deleted();
    let compares_fields = match wrong {
        Wrong::CompareFieldsOfLive => have_headers && is_live(first) && is_live(second),
        Wrong::CompareFieldsUnlessDeleted => have_headers && deleted[0] == deleted[1],
        Wrong::CompareFieldsOfFiles => first.is_live_file() && second.is_live_file(),
        Wrong::CompareFieldsOfNoHeader => headerless != [true; 2],
        _ => have_headers,
    };
    if compares_fields {
        found.fields = fields_between(versions, wrong);
    }
    let files = versions.map(Version::is_live_file);
    let compares_bytes = match wrong {
        Wrong::CompareFilesByFirst => have_headers && files[0],
        Wrong::CompareFilesBySecond => have_headers && files[1],
        Wrong::CompareOthersEmpty => files != [false; 2],
        _ => files == [true; 2],
    };
    if compares_bytes {
        let sizes = [first.size(), second.size()];
        found.stretches = stretches_between(versions, sizes, wrong);
        let differ = sizes[0] != sizes[1];
        let are_told = match wrong {
            Wrong::CompareSizesThoughEqual => differ || found != Differences::default(),
            Wrong::CompareSizesNotTold => false,
            Wrong::CompareSizesOrStretches => differ && found.stretches.is_empty(),
            _ => differ,
        };
        if are_told {
            found.sizes = match wrong {
                Wrong::CompareSizesExchanged => vec![sizes[1], sizes[0]],
                Wrong::CompareSizeOfFirst => vec![sizes[0]],
                Wrong::CompareSizeOfSecond => vec![sizes[1]],
                _ => sizes.to_vec(),
            };
        }
    }
    found
}

/// The sides that are so, unless it is left out by whether both are.
fn sides(are: [bool; 2], told: impl Fn(bool) -> bool) -> Vec<u8> {
    let is_told = told(are == [true; 2]);
    let sides = [1, 2].into_iter().zip(are);
    sides
        .filter(|&(_, is)| is && is_told)
        .map(|(side, _)| side)
        .collect()
}

/// The offsets of the fields of the newest headers that differ, ascending.
fn fields_between(versions: [&Version<'_>; 2], wrong: Wrong) -> Vec<usize> {
    let of = |version: &Version<'_>| -> Vec<Vec<u8>> {
        let Some(page) = version.header() else {
            let zeros = |is_number, width| vec![0; if is_number { 8 } else { width }];
            let fields = FIELDS.iter();
            return fields
                .map(|&(_, _, width, is_number)| zeros(is_number, width))
                .collect();
        };
        let fields = fields(version.read.dump, version.read.layout, page, wrong);
        let fields = fields.into_iter();
        fields
            .map(|(name, field)| value(name, field, wrong))
            .collect()
    };
    let all = FIELDS
        .iter()
        .zip(of(versions[0]).into_iter().zip(of(versions[1])));
    let compared = all.filter(|((name, at, ..), _)| is_compared(name, *at, wrong));
    let differing = compared.filter(|(_, (one, other))| one != other);
    let mut offsets: Vec<usize> = match wrong {
        Wrong::CompareFieldsByPlace => {
            let places = FIELDS.iter().map(|(_, at, ..)| *at);
            let places: Vec<usize> = places.collect();
            let place = |at: usize| places.iter().position(|&other| other == at).unwrap_or(0);
            differing.map(|((_, at, ..), _)| place(*at)).collect()
        }
        _ => differing.map(|((_, at, ..), _)| *at).collect(),
    };
    match wrong {
        Wrong::CompareFieldsDescending => offsets.reverse(),
        Wrong::CompareFirstFieldAlone => offsets.truncate(1),
        _ => {}
    }
    offsets
}

/// What is compared of a field: its bytes as they are.
fn value(name: &str, field: Field<'_>, wrong: Wrong) -> Vec<u8> {
    let to_zero = |text: &[u8]| {
        let end = text.iter().position(|&byte| byte == 0);
        text[..end.unwrap_or(text.len())].to_vec()
    };
    match (wrong, name, field) {
        (Wrong::CompareNamesToZero, "name", Field::Bytes(text)) => to_zero(text),
        (Wrong::CompareAliasesToZero, "alias", Field::Bytes(text)) => to_zero(text),
        (Wrong::CompareNamesShort, "name", Field::Bytes(text)) => text[..255].to_vec(),
        (Wrong::CompareAliasesShort, "alias", Field::Bytes(text)) => text[..159].to_vec(),
        (Wrong::CompareNamesAnyCase, "name", Field::Bytes(text)) => text.to_ascii_lowercase(),
        (_, _, Field::Bytes(text)) => text.to_vec(),
        (Wrong::CompareShrinkAsMark, "shrink", Field::Number(mark)) => vec![u8::from(mark != 0)],
        (Wrong::CompareNumbersLow, _, Field::Number(number)) => {
            (number as u32).to_le_bytes().to_vec()
        }
        (Wrong::CompareModeBits, "mode", Field::Number(mode)) => {
            (mode as u32 & 0o7777).to_le_bytes().to_vec()
        }
        (_, _, Field::Number(number)) => number.to_le_bytes().to_vec(),
    }
}

/// Whether a field is compared, by its name and offset.
fn is_compared(name: &str, at: usize, wrong: Wrong) -> bool {
    let without = match wrong {
        Wrong::CompareWithoutType => Some(0x0),
        Wrong::CompareWithoutParent => Some(0x4),
        Wrong::CompareWithoutName => Some(0xA),
        Wrong::CompareWithoutMode => Some(0x10C),
        Wrong::CompareWithoutUid => Some(0x110),
        Wrong::CompareWithoutGid => Some(0x114),
        Wrong::CompareWithoutAccessed => Some(0x118),
        Wrong::CompareWithoutModified => Some(0x11C),
        Wrong::CompareWithoutCreated => Some(0x120),
        Wrong::CompareWithoutFileSize => Some(0x124),
        Wrong::CompareWithoutEquivalent => Some(0x128),
        Wrong::CompareWithoutAlias => Some(0x12C),
        Wrong::CompareWithoutRdev => Some(0x1CC),
        Wrong::CompareWithoutWinCreated => Some(0x1D0),
        Wrong::CompareWithoutWinAccessed => Some(0x1D8),
        Wrong::CompareWithoutWinModified => Some(0x1E0),
        Wrong::CompareWithoutShadowed => Some(0x1F8),
        Wrong::CompareWithoutShrink => Some(0x1FC),
        _ => None,
    };
    let with = match wrong {
        Wrong::CompareUnused1 => Some("unused1"),
        Wrong::CompareUnused2 => Some("unused2"),
        Wrong::CompareInBandShadow => Some("inband_shadow"),
        Wrong::CompareInBandShrink => Some("inband_shrink"),
        Wrong::CompareSizeHigh => Some("size_high"),
        Wrong::CompareReserved => Some("reserved"),
        _ => None,
    };
    without != Some(at) && (with == Some(name) || !LEFT_OUT.contains(&name))
}

/// The stretches whose shown bytes differ, up to the smaller size.
fn stretches_between(versions: [&Version<'_>; 2], sizes: [u64; 2], wrong: Wrong) -> Vec<u64> {
    let length = match wrong {
        Wrong::CompareStretchOf256 => 256,
        Wrong::CompareStretchOf1024 => 1024,
        Wrong::CompareStretchOfPage => versions[0].object.layout.data as u64,
        _ => STRETCH,
    };
    let end = match wrong {
        Wrong::CompareToLarger => sizes[0].max(sizes[1]),
        Wrong::CompareToSizeOfFirst => sizes[0],
        Wrong::CompareToSizeOfSecond => sizes[1],
        _ => sizes[0].min(sizes[1]),
    };
    if wrong == Wrong::CompareBytesOfEqualSizes && sizes[0] != sizes[1] {
        return Vec::new();
    }
    if wrong == Wrong::CompareBytesOfOtherSizes && sizes[0] == sizes[1] {
        return Vec::new();
    }
    let [one, other] = versions.map(|version| version.stretches(length));
    let held = match wrong {
        Wrong::CompareHeldInFirst => one,
        Wrong::CompareHeldInSecond => other,
        _ => one.union(&other).copied().collect(),
    };
    let differs = |&stretch: &u64| {
        let from = stretch * length;
        let to = match wrong {
            Wrong::CompareLastWhole => from + length,
            Wrong::CompareLastLeftOut if from + length > end => from,
            _ => end.min(from + length),
        };
        let hold = versions.map(|version| version.holds(from));
        from < to
            && from < end
            && match wrong {
                Wrong::CompareHeldInBoth if hold != [true; 2] => false,
                Wrong::CompareHolesDiffer if hold[0] != hold[1] => true,
                _ => versions[0].bytes(from, to) != versions[1].bytes(from, to),
            }
    };
    let mut stretches: Vec<u64> = held.into_iter().filter(differs).collect();
    match wrong {
        Wrong::CompareStretchesFromOne => stretches.iter_mut().for_each(|n| *n += 1),
        Wrong::CompareStretchesByByte => stretches.iter_mut().for_each(|n| *n *= length),
        Wrong::CompareStretchesDescending => stretches.reverse(),
        Wrong::CompareFirstStretchAlone => stretches.truncate(1),
        Wrong::CompareLastStretchAlone => {
            stretches.drain(..stretches.len().saturating_sub(1));
        }
        _ => {}
    }
    stretches
}
