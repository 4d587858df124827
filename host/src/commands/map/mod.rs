//! `map DUMP --out FILE [--object OBJECT]`: a picture of the pages.
//!
//! - `classes`: what pages are shown as.
//! - `grid`: where they are shown.
//! - `head`: the title and the legend above them.
//! - `picture`: all of it.
//! - `svg`, `style.css`, `patterns.xml`: shapes and colours, light and dark.

mod classes;
mod grid;
mod head;
mod picture;
mod svg;

use std::ffi::OsStr;
use std::io::{self, Write};

use super::Opened;
use crate::failure::Failure;
use crate::fields::Printer;
use crate::new_file::NewFile;
use crate::paths::Named;
use crate::progress::Progress;
use crate::sums::Summed;
use picture::{Picture, Shown};

pub fn map(
    opened: &Opened,
    object: Option<&Named>,
    name: &OsStr,
    out: &mut Printer<'_>,
) -> Result<(), Failure> {
    let shown = object.map(|object| shown(opened, object)).transpose()?;
    let picture = Picture::of(opened, shown).drawn();
    opened.check_length()?;
    if name == "-" {
        return Ok(out.raw().write_all(picture.as_bytes())?);
    }
    let unwritten = |error| Failure::unwritten(name, &error);
    let new = NewFile::create(name.as_ref()).map_err(unwritten)?;
    let (size, sum) = fill(&new, &picture).map_err(unwritten)?;
    new.finish().map_err(unwritten)?;
    Ok(out.lines(&[("size", size.into()), ("sha256", sum.into())])?)
}

/// The object that is shown, and how its records stand.
fn shown(opened: &Opened, object: &Named) -> Result<Shown, Failure> {
    let object = &opened.object(object)?;
    let _progress = Progress::new("going over the pages", None);
    let records = opened.reasons().stands(object.number);
    let records = opened.done(records, opened.asked().of(object))?;
    Ok(Shown {
        object: object.number,
        records,
    })
}

/// Fills a new file, and gives its size and SHA-256.
fn fill(new: &NewFile, picture: &str) -> io::Result<(u64, String)> {
    let mut out = Summed::new(&new.file);
    out.write_all(picture.as_bytes())?;
    Ok(out.told())
}
