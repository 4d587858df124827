//! `history DUMP OBJECT`: what a file was after each of its records, the oldest first.

use super::Opened;
use crate::failure::Failure;
use crate::ffi;
use crate::fields::Printer;
use crate::paths::Named;
use crate::progress::Progress;
use crate::refusal::kind_name;

pub fn history(opened: &Opened, object: &Named, out: &mut Printer<'_>) -> Result<(), Failure> {
    let object = &opened.object(object)?;
    let progress = Progress::new("going over the pages", None);
    let history = opened.reasons().history(object.number);
    let history = opened.done(history, opened.asked().of(object))?;
    drop(progress);
    let on = opened.geometry();
    let progress = Progress::beside_output("printing records", history.len() as u64);
    for after in history {
        let record = ffi::kind(&opened.dump, on, after.page);
        out.line(&[
            ("page", after.page.into()),
            ("sequence", record.sequence.into()),
            ("kind", kind_name(record.kind).into()),
            match after.refusal {
                0 => ("size", after.size.into()),
                number => ("refusal", number.into()),
            },
        ])?;
        progress.add(1);
    }
    opened.check_length()
}
