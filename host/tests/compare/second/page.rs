//! Tags, page kinds, and the fields of a header page.

use super::layout::Layout;
use super::wrong::Wrong;

/// The largest object id and the largest chunk number.
pub const LAST_OBJECT: u64 = 0x0FFF_FFFF;
pub const LAST_CHUNK: u64 = 0xF_FFFF;

/// The four tag words of a page.
#[derive(Clone, Copy, Debug)]
pub struct Tags {
    pub sequence: u32,
    pub object: u32,
    pub chunk: u32,
    pub count: u32,
}

/// A header or data page that passed every test.
#[derive(Clone, Copy, Debug, PartialEq, Eq)]
pub struct Record {
    pub page: usize,
    pub sequence: u32,
    pub object: u32,
    pub body: Body,
}

/// What a record says.
#[derive(Clone, Copy, Debug, PartialEq, Eq)]
pub enum Body {
    Header {
        file_type: u32,
        parent: u32,
        size: u32,
        shrink: bool,
    },
    Data {
        chunk: u32,
        count: u32,
    },
}

/// The kind of a page.
#[derive(Clone, Copy, Debug, PartialEq, Eq)]
pub enum Kind {
    Blank,
    Foreign,
    Damaged,
    Record(Record),
}

/// A little-endian number of up to eight bytes.
fn number(bytes: &[u8]) -> u64 {
    bytes.iter().rev().fold(0, |n, &byte| n << 8 | byte as u64)
}

fn word(bytes: &[u8], at: usize) -> u32 {
    number(&bytes[at..at + 4]) as u32
}

/// The data bytes of a page.
pub fn data(dump: &[u8], layout: Layout, page: usize) -> &[u8] {
    &dump[page * layout.page()..][..layout.data]
}

/// The tag words of a page: T bytes into its spare.
pub fn tags(dump: &[u8], layout: Layout, page: usize) -> Tags {
    let spare = &dump[page * layout.page() + layout.data..][..layout.spare];
    let at = layout.tag;
    Tags {
        sequence: word(spare, at),
        object: word(spare, at + 4),
        chunk: word(spare, at + 8),
        count: word(spare, at + 12),
    }
}

impl Tags {
    /// Kind 1: blank.
    pub fn blank(&self) -> bool {
        self.sequence == 0xFFFF_FFFF
    }

    /// Kind 2: foreign, by the limits of the sequence.
    pub fn foreign(&self, wrong: Wrong) -> bool {
        let (mut first, mut last) = (0x1000, 0xEFFF_FF00);
        match wrong {
            Wrong::LowestSequenceForeign => first += 1,
            Wrong::SequenceBelowLowestTaken => first -= 1,
            Wrong::HighestSequenceForeign => last -= 1,
            Wrong::SequenceAboveHighestTaken => last += 1,
            _ => {}
        }
        !self.blank() && !(first..=last).contains(&self.sequence)
    }

    fn top_bit(&self) -> bool {
        self.chunk & 0x8000_0000 != 0
    }

    /// Kind 3: header, in either form; what is neither blank nor foreign nor
    /// header is data.
    pub fn header(&self) -> bool {
        self.top_bit() || self.chunk == 0
    }

    /// The object id that the tags name.
    pub fn id(&self, wrong: Wrong) -> u32 {
        if self.top_bit() || wrong == Wrong::IdMasked && self.chunk == 0 {
            self.object & 0x0FFF_FFFF
        } else {
            self.object
        }
    }

    /// The Damaged tests that read tags alone.
    pub fn damaged(&self, layout: Layout, wrong: Wrong) -> bool {
        let id = self.id(wrong) as u64;
        id == 0 || id > LAST_OBJECT || !self.header() && self.damaged_data(layout, wrong)
    }

    fn damaged_data(&self, layout: Layout, wrong: Wrong) -> bool {
        let mut counts = 1..=layout.data as u64;
        match wrong {
            Wrong::FullCountDamaged => counts = 1..=layout.data as u64 - 1,
            Wrong::CountAbovePageTaken => counts = 1..=layout.data as u64 + 1,
            Wrong::CountZeroTaken => counts = 0..=layout.data as u64,
            _ => {}
        }
        self.chunk as u64 > LAST_CHUNK || !counts.contains(&(self.count as u64))
    }

    /// The Damaged tests of a header that read its page data: the page type,
    /// and the tag type where the tag has one.
    fn wrong_type(&self, file_type: u32, wrong: Wrong) -> bool {
        let compared = self.top_bit() && wrong != Wrong::TagTypeNotCompared;
        !(1..=5).contains(&file_type) || compared && self.object >> 28 != file_type
    }
}

/// The kind of a page, first match.
pub fn kind(dump: &[u8], layout: Layout, page: usize, wrong: Wrong) -> Kind {
    let tags = tags(dump, layout, page);
    if tags.blank() {
        return Kind::Blank;
    }
    if tags.foreign(wrong) {
        return Kind::Foreign;
    }
    if tags.damaged(layout, wrong) {
        return Kind::Damaged;
    }
    let body = if tags.header() {
        let data = data(dump, layout, page);
        let file_type = match wrong {
            Wrong::TypeOfOneByte => data[0] as u32,
            _ => word(data, 0),
        };
        if tags.wrong_type(file_type, wrong) {
            return Kind::Damaged;
        }
        Body::Header {
            file_type,
            parent: word(data, 4),
            size: file_size(data, wrong),
            shrink: shrink_mark(data, wrong),
        }
    } else {
        Body::Data {
            chunk: tags.chunk,
            count: tags.count,
        }
    };
    Kind::Record(Record {
        page,
        sequence: tags.sequence,
        object: tags.id(wrong),
        body,
    })
}

/// The size that a header gives a file.
fn file_size(data: &[u8], wrong: Wrong) -> u32 {
    match (wrong, word(data, 0x1F0)) {
        (Wrong::SizeHighRead, 1..=0xFFFF_FFFE) => 0xFFFF_FFFF,
        _ => word(data, 0x124),
    }
}

/// Whether the shrink word of a header is set.
fn shrink_mark(data: &[u8], wrong: Wrong) -> bool {
    let mark = match wrong {
        Wrong::ShrinkAtOldPlace => word(data, 0x1DC),
        Wrong::ShrinkInBand => word(data, 0x1EC),
        _ => word(data, 0x1FC),
    };
    match wrong {
        Wrong::ShrinkMarkOnlyOne => mark == 1,
        _ => mark != 0,
    }
}

/// A header field: its value, or its bytes where it is no number.
pub enum Field<'d> {
    Number(u64),
    Bytes(&'d [u8]),
}

/// The header table, up to a header's last byte: name, offset, width, and
/// whether the field is a number.
pub const FIELDS: [(&str, usize, usize, bool); 24] = [
    ("type", 0x0, 4, true),
    ("parent", 0x4, 4, true),
    ("unused1", 0x8, 2, true),
    ("name", 0xA, 256, false),
    ("unused2", 0x10A, 2, true),
    ("mode", 0x10C, 4, true),
    ("uid", 0x110, 4, true),
    ("gid", 0x114, 4, true),
    ("accessed", 0x118, 4, true),
    ("modified", 0x11C, 4, true),
    ("created", 0x120, 4, true),
    ("file_size", 0x124, 4, true),
    ("equivalent_id", 0x128, 4, true),
    ("alias", 0x12C, 160, false),
    ("rdev", 0x1CC, 4, true),
    ("win_created", 0x1D0, 8, true),
    ("win_accessed", 0x1D8, 8, true),
    ("win_modified", 0x1E0, 8, true),
    ("inband_shadow", 0x1E8, 4, true),
    ("inband_shrink", 0x1EC, 4, true),
    ("size_high", 0x1F0, 4, true),
    ("reserved", 0x1F4, 4, false),
    ("shadowed_id", 0x1F8, 4, true),
    ("shrink", 0x1FC, 4, true),
];

/// The fields of a header page, in the order of the table.
pub fn fields(
    dump: &[u8],
    layout: Layout,
    page: usize,
    wrong: Wrong,
) -> Vec<(&'static str, Field<'_>)> {
    let data = data(dump, layout, page);
    FIELDS
        .iter()
        .map(|&(name, at, width, is_number)| {
            let (at, width) = place(name, at, width, wrong);
            let bytes = &data[at..at + width];
            let field = match is_number {
                true => Field::Number(number(bytes)),
                false => Field::Bytes(bytes),
            };
            (name, field)
        })
        .collect()
}

/// Where a field stands and how many bytes it has.
fn place(name: &str, at: usize, width: usize, wrong: Wrong) -> (usize, usize) {
    match (wrong, name) {
        (Wrong::AliasCutShort, "alias") => (at, 128),
        (Wrong::AliasOverRdev, "alias") => (at, 164),
        (Wrong::FieldsAtOldPlaces, _) if at >= 0x1CC => (at - 32, width),
        (Wrong::ReservedWithSizeHigh, "reserved") => (0x1F0, 8),
        (Wrong::SizeHighOfInBandShrink, "size_high") => (0x1EC, width),
        _ => (at, width),
    }
}
