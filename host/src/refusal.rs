//! The names of the refusals, and what each means for whoever asked.

use std::ops::RangeInclusive;

use crate::ffi::{self, Answer as _, Geometry, KindAnswer, LayoutAnswer};
use crate::looks;
use crate::reasons::Reasons;
use crate::records::newest_header;
use crate::typed::Typed;

/// The table's names, from refusal 1 on.
const NAMES: [&str; 16] = [
    "BadLayout",
    "BadLength",
    "NoLayout",
    "BadObject",
    "BadChunk",
    "NoObject",
    "NoHeader",
    "Deleted",
    "NotAFile",
    "PastEnd",
    "ShortBuffer",
    "ShortIndex",
    "IndexDamaged",
    "BadPage",
    "AlreadyAdded",
    "NotHeader",
];

/// Refusals that a command acts on or gives.
pub const BAD_CHUNK: u32 = 5;
pub const NO_HEADER: u32 = 7;
pub const DELETED: u32 = 8;
pub const NOT_A_FILE: u32 = 9;
pub const SHORT_BUFFER: u32 = 11;
pub const INDEX_DAMAGED: u32 = 13;

/// NoObject to PastEnd: what is refused by the records of an object.
const OF_RECORDS: RangeInclusive<u32> = 6..=10;

/// The name of a refusal.
pub fn name(refusal: u32) -> &'static str {
    let name = NAMES.get((refusal as usize).wrapping_sub(1));
    name.copied().unwrap_or("unknown")
}

/// What was asked, as far as a refusal may speak of it. `layout` is the one
/// that was taken, once there is one; `end` is where the object's file ends, and
/// `before` the page of the record before which the dump is read.
#[derive(Clone, Copy)]
pub struct Asked<'a> {
    pub dump: &'a [u8],
    pub named: Option<&'a Typed>,
    pub layout: Option<LayoutAnswer>,
    pub block: &'a Typed,
    pub page: &'a Typed,
    pub object: &'a Typed,
    pub chunk: &'a Typed,
    pub end: u64,
    pub before: Option<&'a Typed>,
}

impl<'a> Asked<'a> {
    /// What is asked of a dump before a layout is taken.
    pub fn dump(dump: &'a [u8], named: Option<&'a Typed>, block: &'a Typed) -> Self {
        Asked {
            dump,
            named,
            layout: None,
            block,
            page: Typed::NOTHING,
            object: Typed::NOTHING,
            chunk: Typed::NOTHING,
            end: 0,
            before: None,
        }
    }

    /// The same asked of an object.
    pub fn of(self, object: &'a Typed) -> Self {
        Asked { object, ..self }
    }

    /// The layout that was taken, and K.
    fn geometry(self) -> Geometry {
        Geometry {
            layout: self.layout.map_or(u32::MAX, |layout| layout.number),
            block: self.block.number,
        }
    }

    /// The reasons of the dump, as it is asked.
    fn reasons(self) -> Reasons<'a> {
        Reasons {
            dump: self.dump,
            on: self.geometry(),
            before: self.before.map(|page| page.number),
        }
    }
}

/// One sentence on why a request was refused, and what to ask next.
pub fn meaning(refusal: u32, asked: Asked<'_>) -> String {
    let Asked {
        page,
        object,
        chunk,
        end,
        ..
    } = asked;
    let sentence = match name(refusal) {
        "BadLayout" => bad_layout(asked),
        "BadLength" => bad_length(asked),
        "NoLayout" => no_layout(asked),
        "BadObject" => format!("no object has the id {object}: they go from 1 to 0x0FFFFFFF"),
        "BadChunk" => format!("no chunk has the number {chunk}: they go from 1 to 0xFFFFF"),
        "NoObject" => format!("no page of the dump is a record of object {object}"),
        "NoHeader" => format!("object {object} has data pages and no header"),
        "Deleted" => format!("the newest header of object {object} says that it is deleted"),
        "NotAFile" => not_a_file(asked),
        "PastEnd" => format!("object {object} ends at byte {end}, before chunk {chunk}"),
        "BadPage" => bad_page(asked),
        "NotHeader" => format!("page {page} is no header: it is {}", kind_of(asked)),
        "IndexDamaged" => "the memory of the command was changed while it ran".to_string(),
        _ => "the command lent the library too little, which is a mistake of its own".to_string(),
    };
    let stood = match asked.before.filter(|_| OF_RECORDS.contains(&refusal)) {
        Some(before) => format!(", as the dump stood before page {before}"),
        None => String::new(),
    };
    let next = match name(refusal) {
        "NoObject" => "; lohenarr list has the ids of the live objects".to_string(),
        "NoHeader" => "; lohenarr records shows them".to_string(),
        "Deleted" => before_deleted(asked),
        _ => String::new(),
    };
    format!("{sentence}{stood}{next}")
}

/// What an object is that is no file, by its newest header.
fn not_a_file(asked: Asked<'_>) -> String {
    let Asked { dump, object, .. } = asked;
    let records = asked.reasons().stands(object.number);
    let page = records.and_then(|records| newest_header(&records));
    let kind = page.map(|page| ffi::kind(dump, asked.geometry(), page).page_type);
    let other = match kind {
        Ok(2) => " but a symbolic link",
        Ok(3) => " but a directory",
        Ok(4) => " but a hard link",
        Ok(5) => " but a special file",
        _ => "",
    };
    format!("object {object} is no file{other}")
}

/// When a deleted object was last a file, and how that is read.
fn before_deleted(asked: Asked<'_>) -> String {
    let history = asked.reasons().history(asked.object.number);
    let history = history.unwrap_or_default();
    let last = history.windows(2).rfind(|pair| pair[0].refusal == 0);
    match last.map(|pair| (pair[0].size, pair[1].page)) {
        Some((0, page)) => format!("; before page {page} it was a file without bytes"),
        Some((1, page)) => format!("; --before {page} reads the 1 byte that it had"),
        Some((size, page)) => format!("; --before {page} reads the {size} bytes that it had"),
        None => "; lohenarr records shows what there is of it".to_string(),
    }
}

/// The layouts of the table.
fn table() -> impl Iterator<Item = LayoutAnswer> {
    (0..).map_while(|number| ffi::layout(number).given().ok())
}

/// Layouts, one behind the other.
fn listed(layouts: impl Iterator<Item = LayoutAnswer>) -> String {
    let layouts: Vec<_> = layouts.map(|layout| layout.to_string()).collect();
    layouts.join(", ")
}

fn bad_layout(asked: Asked<'_>) -> String {
    match asked.named {
        Some(named) if ffi::layout(named.number).given().is_err() => {
            let table = listed(table());
            format!("the table has no layout {named}; it has {table}")
        }
        _ => format!("a block has 1 to 256 pages, and not {}", asked.block),
    }
}

/// Either the length is wrong, for every K or for this one, or the tags are.
fn no_layout(asked: Asked<'_>) -> String {
    let Asked { dump, block, .. } = asked;
    let dividing = |block| {
        let divides = move |layout: &LayoutAnswer| {
            let layout = layout.number;
            ffi::pages(dump, Geometry { layout, block }).given().is_ok()
        };
        listed(table().filter(divides))
    };
    let length = dump.len();
    let with_k = dividing(block.number);
    let (reason, asking) = if dividing(1).is_empty() {
        let reason =
            format!("{length} bytes are no whole pages of any layout, so that no K divides them");
        (
            reason,
            "was it cut short, or taken without the spare bytes?",
        )
    } else if with_k.is_empty() {
        return format!(
            "{length} bytes are no whole blocks of {block} pages of any layout; try another --block"
        );
    } else {
        let reason = format!(
            "no tags make sense under the layouts that divide the dump with K = {block}: {with_k}"
        );
        (reason, "is it blank, or taken without the spare bytes?")
    };
    match looks::like(dump) {
        Some(name) => format!("{reason}; the dump looks like {name}"),
        None => format!("{reason}; {asking}"),
    }
}

fn bad_length(asked: Asked<'_>) -> String {
    let (len, most) = (asked.dump.len(), ffi::most_bytes());
    if len == 0 {
        return "the dump is empty".to_string();
    }
    if len > most {
        return format!("the dump is longer than {most} bytes");
    }
    let block = match asked.block.number {
        1 => "pages".to_string(),
        _ => format!("blocks of {} pages", asked.block),
    };
    match asked.layout {
        Some(layout) => {
            let page = u64::from(layout.data) + u64::from(layout.spare);
            let each = page * u64::from(asked.block.number);
            format!("{len} bytes are no whole {block} of {layout}, each of which has {each} bytes")
        }
        None => format!("{len} bytes are no whole {block}"),
    }
}

fn bad_page(asked: Asked<'_>) -> String {
    let pages = ffi::pages(asked.dump, asked.geometry()).pages;
    let last = pages.saturating_sub(1);
    format!("the dump has pages 0 to {last}, and no page {}", asked.page)
}

fn kind_of(asked: Asked<'_>) -> &'static str {
    kind_name(ffi::kind(asked.dump, asked.geometry(), asked.page.number).kind)
}

/// The name of a page kind.
pub fn kind_name(kind: u32) -> &'static str {
    match kind {
        KindAnswer::BLANK => "blank",
        KindAnswer::FOREIGN => "foreign",
        KindAnswer::DAMAGED => "damaged",
        KindAnswer::HEADER => "header",
        KindAnswer::DATA => "data",
        _ => "unknown",
    }
}
