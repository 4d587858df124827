//! The first part: the dump, and how it is read.

use std::ffi::OsStr;
use std::io;
use std::os::unix::ffi::OsStrExt;
use std::path::Path;

use super::document::Document;
use super::gathered::Gathered;
use crate::block::Fitting;
use crate::ffi;
use crate::fields::Value;

/// What this version reads: no option names another one, and none is looked for.
const EDITION: u32 = 1;

/// What a reader has to know of how the dump is read.
const OF_LAYOUT: &str = "layout= is the data bytes of a page, its spare bytes, and where in the \
    spare its tags begin; block= is the pages of a block, and decides nothing of what a page \
    says; found: worked out of the dump itself; named: told by whoever asked";

/// What a reader has to know of pages.
const OF_PAGES: &str = "a page is written as a whole; of two pages the one with the higher \
    sequence was written later, and of one sequence the one with the higher number; foreign and \
    damaged pages are set aside and say nothing of any file";

impl Gathered<'_> {
    pub fn evidence(&self, to: &mut Document<'_>) -> io::Result<()> {
        let opened = self.opened;
        to.part("evidence", "What is the evidence?")?;
        to.fields(&[
            ("version", env!("CARGO_PKG_VERSION").into()),
            ("dump", Value::Text(last(opened.dump.name()).as_bytes())),
            ("length", (opened.dump.len() as u64).into()),
            ("sha256", self.dump_sum.as_str().into()),
            ("layout", opened.layout.to_string().into()),
            ("layout_is", how(opened.named.is_some())),
            ("block", opened.geometry().block.into()),
            ("block_is", how(opened.fitting.is_none())),
        ])?;
        let fits = opened.fitting.as_ref().map_or(&[][..], Fitting::others);
        if !fits.is_empty() {
            let fits = fits.iter().map(|&k| k.into()).collect();
            to.fields(&[("block_fits", Value::Numbers(fits))])?;
        }
        to.fields(&[
            ("edition", EDITION.into()),
            ("edition_is", "default".into()),
            ("pages", opened.pages.into()),
            ("blank", self.counts.blank.into()),
            ("foreign", self.counts.foreign.into()),
            ("damaged", self.counts.damaged.into()),
            ("headers", self.counts.headers.into()),
            ("data", self.counts.data.into()),
        ])?;
        to.note(OF_LAYOUT.to_string())?;
        to.note(OF_PAGES.to_string())?;
        self.before(to)
    }

    /// The record before which the dump is read.
    fn before(&self, to: &mut Document<'_>) -> io::Result<()> {
        let opened = self.opened;
        let Some(page) = opened.before() else {
            return Ok(());
        };
        let sequence = ffi::kind(&opened.dump, opened.geometry(), page).sequence;
        to.fields(&[
            ("before", page.into()),
            ("before_sequence", sequence.into()),
        ])?;
        to.note(format!(
            "from here on the dump is read as it stood before page {page} was written: \
             that record and all newer ones count as blank"
        ))
    }
}

/// How a dump comes to be read so.
fn how(is_named: bool) -> Value<'static> {
    if is_named { "named" } else { "found" }.into()
}

/// The last word of a path: a certificate is the same wherever the dump lies.
fn last(name: &OsStr) -> &OsStr {
    Path::new(name).file_name().unwrap_or(name)
}
