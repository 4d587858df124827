//! `certify DUMP OBJECT [--out FILE]`: the certificate of a file.
//!
//! - `gathered`: the library's answers that it is made of.
//! - `evidence`, `file`, `runs`, `others`, `behind`: its parts, a question each.
//! - `plain`: reasons for whoever never heard of pages.
//! - `document`: how parts are written.

mod behind;
mod document;
mod evidence;
mod file;
mod gathered;
mod others;
mod plain;
mod runs;

use std::ffi::OsStr;
use std::io::{self, BufWriter, Write};

use super::Opened;
use crate::failure::Failure;
use crate::fields::Printer;
use crate::new_file::NewFile;
use crate::paths::Named;
use crate::sums::Summed;
use document::Document;
use gathered::Gathered;

pub fn certify(
    opened: &Opened,
    object: &Named,
    name: Option<&OsStr>,
    out: &mut Printer<'_>,
) -> Result<(), Failure> {
    let object = &opened.object(object)?;
    let gathered = Gathered::of(opened, object)?;
    let json = out.is_json();
    let Some(name) = name.filter(|name| *name != "-") else {
        write(&gathered, out.raw(), json)?;
        return opened.check_length();
    };
    let unwritten = |error| Failure::unwritten(name, &error);
    let new = NewFile::create(name.as_ref()).map_err(unwritten)?;
    let (size, sum) = fill(&gathered, &new, json).map_err(unwritten)?;
    opened.check_length()?;
    new.finish().map_err(unwritten)?;
    Ok(out.lines(&[("size", size.into()), ("sha256", sum.into())])?)
}

/// Fills a new file, and gives the size of the certificate and its SHA-256.
fn fill(gathered: &Gathered<'_>, new: &NewFile, json: bool) -> io::Result<(u64, String)> {
    let mut out = Summed::new(BufWriter::new(&new.file));
    write(gathered, &mut out, json)?;
    out.flush()?;
    Ok(out.told())
}

/// The whole certificate.
fn write(gathered: &Gathered<'_>, out: &mut dyn Write, json: bool) -> io::Result<()> {
    let mut document = Document::begin(out, json)?;
    gathered.evidence(&mut document)?;
    gathered.file(&mut document)?;
    gathered.runs(&mut document)?;
    gathered.others(&mut document)?;
    gathered.behind(&mut document)?;
    document.end()
}
