//! Reasons as sentences, for whoever certifies a byte. What they say of a page is
//! what the library says of it.

use std::fmt;

use crate::ffi::{self, KindAnswer, WhyAnswer};
use crate::reasons::Reasons;
use crate::refusal::BAD_CHUNK;

/// Under which parents a header says that its object is gone.
pub const UNLINKED: u32 = 3;
pub const DELETED: u32 = 4;

impl Reasons<'_> {
    /// Why the byte at a position is what it is, by the library's answer.
    pub fn because(self, object: u32, position: u64, answer: WhyAnswer) -> String {
        let n = position / self.data() + 1;
        let page = self.told(answer.page);
        let reason = match answer.reason {
            WhyAnswer::HELD => held(&page, n, answer.byte),
            WhyAnswer::NO_COPY => self.no_copy(object, n),
            WhyAnswer::CUT => cut(&page, n),
            WhyAnswer::COUNT => count(&page, n),
            WhyAnswer::PAST_END => self.sets_size(answer.page),
            _ => "the reason is unknown".to_string(),
        };
        let byte = match answer.reason {
            WhyAnswer::PAST_END => "is past the end".to_string(),
            _ => format!("reads {}", answer.value),
        };
        let stood = match self.before {
            Some(page) => format!(", as the dump stood before page {page}"),
            None => String::new(),
        };
        format!("byte {position} of object {object} {byte}: {reason}{stood}.")
    }

    /// A page with what it says.
    pub fn told(self, number: u32) -> Page {
        let says = ffi::kind(self.dump, self.on, number);
        Page { number, says }
    }

    /// The data bytes of a page, which are those of a chunk.
    fn data(self) -> u64 {
        ffi::layout(self.on.layout).data.into()
    }

    fn no_copy(self, object: u32, n: u64) -> String {
        let number = u32::try_from(n).unwrap_or(u32::MAX);
        let chunk = ffi::dump_chunk(self.dump, self.on, object, number);
        let none = match chunk.refusal {
            BAD_CHUNK => "chunks have numbers up to 0xFFFFF, so that no page can be a copy of it",
            _ => "no page is a copy of that chunk",
        };
        format!("it is in chunk {n}, and {none}")
    }

    /// How a page sets the size: it is the newest header, or newer data.
    pub fn sets_size(self, page: u32) -> String {
        let page = self.told(page);
        let KindAnswer { chunk, count, .. } = page.says;
        if page.says.kind == KindAnswer::HEADER {
            let size = page.says.size;
            return format!(
                "{page} is the newest header and sets the size to {size}, \
                 and no newer page reaches further"
            );
        }
        let end = u64::from(chunk.saturating_sub(1)) * self.data() + u64::from(count);
        let bytes = if count == 1 { "byte" } else { "bytes" };
        format!(
            "{page} is newer than the newest header and holds {count} {bytes} of chunk {chunk}, \
             which sets the size to {end}"
        )
    }
}

/// A page with what the library says of it.
pub struct Page {
    pub number: u32,
    pub says: KindAnswer,
}

impl fmt::Display for Page {
    fn fmt(&self, f: &mut fmt::Formatter<'_>) -> fmt::Result {
        write!(f, "page {} (sequence {})", self.number, self.says.sequence)
    }
}

fn held(page: &Page, n: u64, byte: u32) -> String {
    let count = page.says.count;
    format!(
        "it is data byte {byte} of {page}, the newest copy of chunk {n}, \
         whose byte count of {count} reaches it, \
         and no newer header cuts the file at or below it"
    )
}

fn cut(page: &Page, n: u64) -> String {
    let KindAnswer {
        parent,
        size,
        shrink,
        ..
    } = page.says;
    let cuts = match (parent, shrink) {
        (UNLINKED, _) => "as it unlinks the object it cuts the file at 0".to_string(),
        (DELETED, _) => "as it deletes the object it cuts the file at 0".to_string(),
        (_, 0) => format!("as the newest header it cuts the file at its size of {size}"),
        _ => format!("being shrink-marked it cuts the file at its size of {size}"),
    };
    format!("{page} is a header newer than every copy of chunk {n}, and {cuts}")
}

fn count(page: &Page, n: u64) -> String {
    let count = page.says.count;
    format!("{page} is the newest copy of chunk {n}, and its byte count of {count} ends before it")
}
