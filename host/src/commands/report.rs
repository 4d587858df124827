//! `report DUMP`: layout, page kinds and objects, in ten lines.

use super::Opened;
use crate::failure::Failure;
use crate::ffi;
use crate::fields::Printer;

pub fn report(opened: &Opened, out: &mut Printer<'_>) -> Result<(), Failure> {
    let (objects, asked) = opened.objects()?;
    let on = opened.geometry();
    let counts = opened.given(ffi::counts(&opened.dump, on), asked)?;
    let live = opened.done(objects.list(), asked)?.len();
    let objects = opened.given(objects.count(), asked)?.count;
    let fields = [
        ("layout", opened.layout.to_string().into()),
        ("block", on.block.into()),
        ("pages", opened.pages.into()),
        ("blank", counts.blank.into()),
        ("foreign", counts.foreign.into()),
        ("damaged", counts.damaged.into()),
        ("headers", counts.headers.into()),
        ("data", counts.data.into()),
        ("objects", objects.into()),
        ("live", (live as u64).into()),
    ];
    Ok(out.lines(&fields)?)
}
