//! `list DUMP`: the live objects, by their ids or with type, size and path.

use super::Opened;
use crate::failure::Failure;
use crate::ffi;
use crate::fields::{Printer, Value};
use crate::progress::Progress;
use crate::refusal::NOT_A_FILE;
use crate::standard::remark;
use crate::tree::{PathBuffer, Place, Row};

/// What a list without a line says.
const NONE: &str = "no object is live";

pub fn list(opened: &Opened, is_long: bool, out: &mut Printer<'_>) -> Result<(), Failure> {
    if is_long {
        return long(opened, out);
    }
    let (objects, asked) = opened.objects()?;
    let live = opened.done(objects.list(), asked)?;
    if live.is_empty() {
        remark(NONE);
    }
    for object in live {
        out.line(&[("object", object.into())])?;
    }
    Ok(())
}

/// A line for each object. The tree has the newest header of each but the root.
fn long(opened: &Opened, out: &mut Printer<'_>) -> Result<(), Failure> {
    let (objects, asked) = opened.objects()?;
    let live = opened.done(objects.list(), asked)?;
    if live.is_empty() {
        remark(NONE);
    }
    let tree = opened.tree()?;
    let mut rows: Vec<(u32, Row)> = tree
        .rows()
        .map(|row| (tree.header(row).object, row))
        .collect();
    rows.sort_unstable_by_key(|(object, _)| *object);
    let progress = Progress::beside_output("printing objects", live.len() as u64);
    let mut buffer = PathBuffer::default();
    for object in live {
        let id = object.into();
        let row = rows.binary_search_by_key(&object, |(object, _)| *object);
        let row = row.ok().map(|at| rows[at].1);
        let page = match row {
            Some(row) => row.page,
            None => opened.done(objects.newest_header(object), asked.of(&id))?,
        };
        let header = ffi::kind(&opened.dump, opened.geometry(), page);
        let mut fields = vec![("object", object.into()), ("type", header.page_type.into())];
        let size = objects.size(object);
        if size.refusal != NOT_A_FILE {
            let size = opened.given(size, asked.of(&id))?.size;
            fields.push(("size", size.into()));
        }
        if let Some(row) = row.filter(|row| matches!(row.place, Place::In(_))) {
            let path = tree.path(row, &mut buffer);
            fields.push(("path", Value::Text(path)));
        }
        out.line(&fields)?;
        progress.add(1);
    }
    opened.check_length()
}
