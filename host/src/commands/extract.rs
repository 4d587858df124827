//! `extract DUMP [OBJECT]`: which pages hold a file, or every live file.

use super::Opened;
use crate::failure::Failure;
use crate::ffi;
use crate::fields::Printer;
use crate::paths::Named;
use crate::refusal::NOT_A_FILE;

pub fn extract(
    opened: &Opened,
    object: Option<&Named>,
    out: &mut Printer<'_>,
) -> Result<(), Failure> {
    let object = object.map(|object| opened.object(object)).transpose()?;
    let (objects, asked) = opened.objects()?;
    let mut memory = Vec::new();
    if let Some(object) = &object {
        let rows = objects.copies(object.number, &mut memory);
        let rows = opened.done(rows, asked.of(object))?;
        return copies(rows, object.number, out);
    }
    for object in opened.done(objects.list(), asked)? {
        let rows = objects.copies(object, &mut memory);
        if rows == Err(NOT_A_FILE) {
            continue;
        }
        let rows = opened.done(rows, asked.of(&object.into()))?;
        copies(rows, object, out)?;
    }
    Ok(())
}

/// The four lines of each shown copy of a live file.
fn copies(rows: &[u64], object: u32, out: &mut Printer<'_>) -> Result<(), Failure> {
    for &row in rows {
        let copy = ffi::copy(row);
        out.lines(&[
            ("object", object.into()),
            ("chunk", copy.chunk.into()),
            ("page", copy.page.into()),
            ("valid", copy.valid.into()),
        ])?;
    }
    Ok(())
}
