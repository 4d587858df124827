//! `export DUMP DIR`: every live file and directory, in a new folder.

use std::ffi::OsStr;
use std::os::unix::ffi::OsStrExt;
use std::path::Path;

use super::Opened;
use crate::arguments::On;
use crate::export::{self, word, Source};
use crate::failure::Failure;
use crate::fields::{Field, Printer};
use crate::new_folder::NewFolder;
use crate::sums;

/// The root of the tree, which the tree does not list.
const ROOT: u32 = 1;

pub fn export(on: &On, name: &OsStr, out: &mut Printer<'_>) -> Result<(), Failure> {
    let unwritten = |error| Failure::unwritten(name, &error);
    let opened = Opened::on(on)?;
    let (objects, asked) = opened.objects()?;
    let tree = opened.tree()?;
    let live = opened.done(objects.list(), asked)?;
    let root = match live.first() {
        Some(&ROOT) => Some(opened.done(objects.newest_header(ROOT), asked)?),
        _ => None,
    };
    let source = Source {
        dump: &opened.dump,
        on: opened.geometry(),
        objects: &objects,
        tree: &tree,
        root,
    };
    let new = NewFolder::create(name.as_ref()).map_err(unwritten)?;
    let dump = evidence(&opened, &on.source.dump);
    let counts = export::export(source, &new.folder, &dump).map_err(unwritten)?;
    opened.check_length()?;
    new.finish().map_err(unwritten)?;
    Ok(out.lines(&[
        ("files", counts.files.into()),
        ("directories", counts.directories.into()),
        ("bytes", counts.bytes.into()),
        ("renamed", counts.renamed.into()),
        ("lost", counts.lost.into()),
    ])?)
}

/// Which dump it is: its name without the folders that lead to it.
fn evidence(opened: &Opened, name: &OsStr) -> Vec<Field<'static>> {
    let name = Path::new(name).file_name().unwrap_or(name);
    vec![
        ("dump", word(name.as_bytes())),
        ("length", (opened.dump.len() as u64).into()),
        ("sha256", sums::of_bytes(&opened.dump).into()),
        ("layout", opened.layout.to_string().into()),
        ("block", opened.block.number.into()),
    ]
}
