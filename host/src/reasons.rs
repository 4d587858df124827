//! Why bytes of a file are what they are: the library's reasons, with the memory
//! that it is lent for them. `records` has how the records of an object stand.

use crate::ffi::{self, Answer as _, Geometry, SpanAnswer, SpansAnswer, WhyAnswer, AS_IT_STANDS};
use crate::fields::Field;
use crate::refusal::SHORT_BUFFER;

/// Words that are mostly enough for the marks of a file, so that one call is. Those
/// that are not written cost nothing: the system gives zeroed memory as it is touched.
const SOME_WORDS: usize = 1 << 18;

/// The reasons of a dump, by its layout and K: as it stands, or as it stood before
/// the record on a page was written.
#[derive(Clone, Copy)]
pub struct Reasons<'d> {
    pub dump: &'d [u8],
    pub on: Geometry,
    pub before: Option<u32>,
}

impl Reasons<'_> {
    /// Why the byte at a position is what it is.
    pub fn why(self, object: u32, position: u64) -> WhyAnswer {
        let ask = |rows: &mut [u64]| {
            ffi::dump_why(self.dump, self.on, self.page(), object, position, rows)
        };
        let answer = ask(&mut vec![0; SOME_WORDS]);
        match answer.refusal {
            SHORT_BUFFER => ask(&mut vec![0; answer.need as usize]),
            _ => answer,
        }
    }

    /// The runs of a file, a row for each.
    pub fn spans(self, object: u32) -> (SpansAnswer, Vec<u64>) {
        let ask = |rows: &mut [u64]| ffi::dump_spans(self.dump, self.on, self.page(), object, rows);
        let mut rows = vec![0; SOME_WORDS];
        let mut answer = ask(&mut rows);
        if answer.refusal == SHORT_BUFFER {
            rows = vec![0; answer.need as usize];
            answer = ask(&mut rows);
        }
        rows.truncate(answer.count as usize);
        (answer, rows)
    }

    /// The page that sets the size of a file: it is named past the end, where the last
    /// of all positions lies whatever the size.
    pub fn setter(self, object: u32) -> Result<u32, u32> {
        Ok(self.why(object, u64::MAX).given()?.page)
    }

    /// The page before which the dump is read, as the library takes it.
    pub fn page(self) -> u32 {
        self.before.unwrap_or(AS_IT_STANDS)
    }
}

/// The runs that rows tell, each with where it ends: where the next one begins, and the
/// last one at the size.
pub fn runs(on: Geometry, rows: &[u64], size: u64) -> impl Iterator<Item = (SpanAnswer, u64)> + '_ {
    let mut runs = rows.iter().map(move |&row| ffi::span(on, row)).peekable();
    std::iter::from_fn(move || {
        let run = runs.next()?;
        let until = runs.peek().map_or(size, |next| next.from);
        Some((run, until))
    })
}

/// A reason: its number, and what it names where it does.
#[derive(Clone, Copy, Debug, PartialEq, Eq)]
pub struct Reason {
    pub number: u32,
    page: u32,
    byte: u32,
}

impl From<WhyAnswer> for Reason {
    fn from(answer: WhyAnswer) -> Reason {
        let WhyAnswer { page, byte, .. } = answer;
        let number = answer.reason;
        Reason { number, page, byte }
    }
}

impl From<SpanAnswer> for Reason {
    fn from(answer: SpanAnswer) -> Reason {
        let SpanAnswer { page, byte, .. } = answer;
        let number = answer.reason;
        Reason { number, page, byte }
    }
}

impl Reason {
    pub fn name(self) -> &'static str {
        match self.number {
            WhyAnswer::HELD => "held",
            WhyAnswer::NO_COPY => "no copy",
            WhyAnswer::CUT => "cut",
            WhyAnswer::COUNT => "count",
            WhyAnswer::PAST_END => "past end",
            _ => "unknown",
        }
    }

    /// The page that it names: a hole has none.
    pub fn page(self) -> Option<u32> {
        (self.number != WhyAnswer::NO_COPY).then_some(self.page)
    }

    /// Which data byte of the page is held.
    pub fn byte(self) -> Option<u32> {
        (self.number == WhyAnswer::HELD).then_some(self.byte)
    }

    /// The reason and what it names.
    pub fn fields(self) -> Vec<Field<'static>> {
        let mut fields = vec![("reason", self.name().into())];
        fields.extend(self.page().map(|page| ("page", page.into())));
        fields.extend(self.byte().map(|byte| ("byte", byte.into())));
        fields
    }
}
