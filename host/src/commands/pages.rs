//! `pages DUMP`: a line for each page.

use super::Opened;
use crate::failure::Failure;
use crate::ffi::{self, Geometry, KindAnswer};
use crate::fields::{Field, Printer};
use crate::progress::Progress;
use crate::refusal::kind_name;

pub fn pages(opened: &Opened, out: &mut Printer<'_>) -> Result<(), Failure> {
    let on = opened.geometry();
    let progress = Progress::beside_output("printing pages", opened.pages.into());
    for page in 0..opened.pages {
        out.line(&line(&opened.dump, on, page))?;
        progress.add(1);
    }
    opened.check_length()
}

/// The line of a page.
pub fn line(dump: &[u8], on: Geometry, page: u32) -> Vec<Field<'static>> {
    let kind = ffi::kind(dump, on, page);
    let mut fields = vec![("page", page.into()), ("kind", kind_name(kind.kind).into())];
    fields.extend(kind.fields());
    fields
}

impl KindAnswer {
    /// What the page says, beside its kind.
    pub fn fields(&self) -> Vec<Field<'static>> {
        match self.kind {
            KindAnswer::HEADER => vec![
                ("sequence", self.sequence.into()),
                ("object", self.object.into()),
                ("type", self.page_type.into()),
                ("parent", self.parent.into()),
                ("size", self.size.into()),
                ("shrink", self.shrink.into()),
            ],
            KindAnswer::DATA => vec![
                ("sequence", self.sequence.into()),
                ("object", self.object.into()),
                ("chunk", self.chunk.into()),
                ("count", self.count.into()),
            ],
            _ => Vec::new(),
        }
    }
}
