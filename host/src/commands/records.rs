//! `records DUMP OBJECT`: every record of an object, the newest first, and how it stands.

use super::{pages, Opened};
use crate::failure::Failure;
use crate::ffi::{Geometry, StandingAnswer};
use crate::fields::{Field, Printer};
use crate::paths::Named;
use crate::progress::Progress;

pub fn records(opened: &Opened, object: &Named, out: &mut Printer<'_>) -> Result<(), Failure> {
    let object = &opened.object(object)?;
    let progress = Progress::new("going over the pages", None);
    let records = opened.reasons().stands(object.number);
    let records = opened.done(records, opened.asked().of(object))?;
    drop(progress);
    let on = opened.geometry();
    let progress = Progress::beside_output("printing records", records.len() as u64);
    for record in records.iter().rev() {
        out.line(&line(&opened.dump, on, record))?;
        progress.add(1);
    }
    opened.check_length()
}

/// The line of a record: that of its page, and how it stands.
pub fn line(dump: &[u8], on: Geometry, record: &StandingAnswer) -> Vec<Field<'static>> {
    let mut fields = pages::line(dump, on, record.page);
    fields.extend(record.fields());
    fields
}
