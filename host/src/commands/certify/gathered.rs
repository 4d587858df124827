//! What a certificate is made of: answers of the library, and two sums.

use crate::commands::Opened;
use crate::failure::Failure;
use crate::ffi::{self, CountsAnswer, HistoryAnswer, StandingAnswer};
use crate::progress::Progress;
use crate::records::newest_header;
use crate::sums;
use crate::tree::{PathBuffer, Place};
use crate::typed::Typed;

pub struct Gathered<'o> {
    pub opened: &'o Opened,
    pub object: u32,
    pub dump_sum: String,
    pub counts: CountsAnswer,
    pub way: Way,
    /// The page of the newest header.
    pub header: u32,
    pub size: u64,
    /// The page that sets the size.
    pub setter: u32,
    pub file_sum: String,
    /// A row for each run of bytes with one reason.
    pub runs: Vec<u64>,
    /// The records, the oldest first, and what the file was after each.
    pub records: Vec<StandingAnswer>,
    pub history: Vec<HistoryAnswer>,
}

/// The way from the root to an object.
pub enum Way {
    Path(Vec<u8>),
    /// There is none, for the reason with this number.
    Nowhere(u32),
    /// The object is the root.
    Root,
}

impl<'o> Gathered<'o> {
    /// All of it, or why there is no such file.
    pub fn of(opened: &'o Opened, object: &Typed) -> Result<Gathered<'o>, Failure> {
        let id = object.number;
        let (objects, asked) = opened.objects()?;
        let asked = asked.of(object);
        let table = opened.done(objects.table(id), asked)?;
        let file_sum = sums::of_file(&objects, &table);
        drop(objects);
        let dump_sum = sums::of_bytes(&opened.dump);
        let way = way(opened, id)?;
        let _progress = Progress::new("going over the pages", None);
        let reasons = opened.reasons();
        let records = opened.done(reasons.stands(id), asked)?;
        let (spans, runs) = reasons.spans(id);
        let size = opened.given(spans, asked)?.size;
        Ok(Gathered {
            opened,
            object: id,
            dump_sum,
            counts: opened.given(ffi::counts(&opened.dump, opened.geometry()), asked)?,
            way,
            header: opened.done(newest_header(&records), asked)?,
            size,
            setter: opened.done(reasons.setter(id), asked)?,
            file_sum,
            runs,
            records,
            history: opened.done(reasons.history(id), asked)?,
        })
    }
}

/// The way to a live object, by the tree.
fn way(opened: &Opened, object: u32) -> Result<Way, Failure> {
    let tree = opened.tree()?;
    let row = tree.rows().find(|&row| tree.header(row).object == object);
    Ok(match row.map(|row| (row, row.place)) {
        Some((row, Place::In(_))) => Way::Path(tree.path(row, &mut PathBuffer::default()).to_vec()),
        Some((_, Place::Nowhere(reason))) => Way::Nowhere(reason),
        None => Way::Root,
    })
}
