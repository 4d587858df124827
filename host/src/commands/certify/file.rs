//! The second part: which file it is, and how long.

use std::io;

use super::document::Document;
use super::gathered::{Gathered, Way};
use crate::ffi;
use crate::fields::Value;
use crate::refusal::DELETED;
use crate::tree::reason_name;

impl Gathered<'_> {
    pub fn file(&self, to: &mut Document<'_>) -> io::Result<()> {
        to.part("file", "Which file is it, and how long?")?;
        to.fields(&[("object", self.object.into())])?;
        match &self.way {
            Way::Path(path) => to.fields(&[("path", Value::Text(path))])?,
            Way::Nowhere(reason) => to.fields(&[("no_path", reason_name(*reason).into())])?,
            Way::Root => to.fields(&[("no_path", "root".into())])?,
        }
        self.header(to)?;
        to.fields(&[
            ("size", self.size.into()),
            ("size_page", self.setter.into()),
            (
                "size_because",
                self.opened.reasons().sets_size(self.setter).into(),
            ),
            ("sha256", self.file_sum.as_str().into()),
        ])?;
        self.now(to)
    }

    /// What the file is as the dump stands, where it is read as it stood.
    fn now(&self, to: &mut Document<'_>) -> io::Result<()> {
        let opened = self.opened;
        let Some(page) = opened.before() else {
            return Ok(());
        };
        let now = ffi::dump_size(&opened.dump, opened.geometry(), self.object);
        let now = match now.refusal {
            0 if now.size == 1 => "the file has 1 byte".to_string(),
            0 => format!("the file has {} bytes", now.size),
            DELETED => "the object is deleted".to_string(),
            refusal => format!("the object is no file (refusal {refusal})"),
        };
        to.note(format!(
            "this is the file as it was before page {page}; as the dump stands, {now}"
        ))
    }

    /// What the newest header says: it is a file's, as nothing else is certified.
    fn header(&self, to: &mut Document<'_>) -> io::Result<()> {
        let (dump, on, page) = (&self.opened.dump, self.opened.geometry(), self.header);
        let header = ffi::header(dump, on, page);
        let name = ffi::header_name(dump, on, page).of(dump);
        to.fields(&[
            ("type", header.page_type.into()),
            ("type_is", "file".into()),
            ("header", page.into()),
            ("header_sequence", ffi::kind(dump, on, page).sequence.into()),
            ("name", Value::Text(name)),
            ("parent", header.parent.into()),
            ("accessed", header.accessed.into()),
            ("modified", header.modified.into()),
            ("created", header.created.into()),
        ])?;
        to.note("the three times are what the header says; they decide nothing".to_string())
    }
}
