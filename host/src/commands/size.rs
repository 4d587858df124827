//! `size DUMP OBJECT`: the size of a file, and with `--long` which pages say so.

use super::Opened;
use crate::failure::Failure;
use crate::fields::Printer;
use crate::paths::Named;
use crate::records::newest_header;

pub fn size(
    opened: &Opened,
    object: &Named,
    is_long: bool,
    out: &mut Printer<'_>,
) -> Result<(), Failure> {
    let object = &opened.object(object)?;
    let (objects, asked) = opened.objects()?;
    let size = opened
        .given(objects.size(object.number), asked.of(object))?
        .size;
    let mut fields = vec![("size", size.into())];
    if is_long {
        let reasons = opened.reasons();
        let records = opened.done(reasons.stands(object.number), asked.of(object))?;
        let header = opened.done(newest_header(&records), asked.of(object))?;
        let page = opened.done(reasons.setter(object.number), asked.of(object))?;
        fields.extend([("header", header.into()), ("page", page.into())]);
    }
    Ok(out.lines(&fields)?)
}
