//! `chunk DUMP OBJECT N`: where a chunk stands.

use super::Opened;
use crate::failure::Failure;
use crate::fields::{Printer, Value};
use crate::paths::Named;
use crate::refusal::Asked;
use crate::typed::Typed;

pub fn chunk(
    opened: &Opened,
    object: &Named,
    n: &Typed,
    out: &mut Printer<'_>,
) -> Result<(), Failure> {
    let object = &opened.object(object)?;
    let (objects, asked) = opened.objects()?;
    let asked = Asked {
        chunk: n,
        end: objects.size(object.number).size,
        ..asked.of(object)
    };
    let chunk = opened.given(objects.chunk(object.number, n.number), asked)?;
    let place = match chunk.page() {
        Some(page) => ("page", page.into()),
        None => ("hole", Value::Nothing),
    };
    let fields = [
        place,
        ("valid", chunk.valid.into()),
        ("shown", chunk.shown.into()),
        ("visits", chunk.visits.into()),
    ];
    Ok(out.lines(&fields)?)
}
