//! `read DUMP OBJECT [--out FILE]`: the bytes of a file as they stand.

use std::ffi::OsStr;

use super::Opened;
use crate::arguments::Past;
use crate::failure::Failure;
use crate::fields::Printer;
use crate::new_file::NewFile;
use crate::paths::Named;
use crate::progress::Progress;
use crate::writing;

pub fn read(
    on: &Past,
    object: &Named,
    name: Option<&OsStr>,
    out: &mut Printer<'_>,
) -> Result<(), Failure> {
    let name = name.filter(|name| *name != "-");
    if out.is_json() && name.is_none() {
        let alone =
            "read --json wants --out with the name of a file: bytes on standard output are no JSON";
        return Err(Failure::Usage(alone.to_string()));
    }
    let opened = Opened::past(on)?;
    let object = &opened.object(object)?;
    let (objects, asked) = opened.objects()?;
    let table = opened.done(objects.table(object.number), asked.of(object))?;
    let Some(name) = name else {
        let progress = Progress::beside_output("reading", table.size);
        writing::write(&objects, &table, out.raw(), &progress)?;
        return opened.check_length();
    };
    let unwritten = |error| Failure::unwritten(name, &error);
    let new = NewFile::create(name.as_ref()).map_err(unwritten)?;
    let progress = Progress::new("reading", Some(table.size));
    let sum = writing::fill(&new.file, &objects, &table, &progress).map_err(unwritten)?;
    drop(progress);
    opened.check_length()?;
    new.finish().map_err(unwritten)?;
    Ok(out.lines(&[("size", table.size.into()), ("sha256", sum.into())])?)
}
