//! The tree of a dump: the live objects that have a path from the root, and why the
//! others have none, as the library tells it.

use crate::ffi::{self, Answer as _, Geometry, KindAnswer, RowAnswer, AS_IT_STANDS};
use crate::refusal::SHORT_BUFFER;

/// Bytes that are enough for every path: of each step a slash and a name.
const LONGEST: usize = 32 * 257;

/// Bytes for each object that are mostly enough for the text, so that one call is.
/// Those that are not written cost nothing: the system gives zeroed memory as it is
/// touched.
const SOME_BYTES: u64 = 256;

/// The tree of a dump: a row for each live object other than 1, those that have a path
/// first.
pub struct Tree<'d> {
    dump: &'d [u8],
    on: Geometry,
    rows: Vec<u64>,
    listed: u32,
}

/// What a row tells of its object.
#[derive(Clone, Copy, Debug, PartialEq, Eq)]
pub struct Row {
    pub number: u32,
    /// The page of the newest header.
    pub page: u32,
    pub place: Place,
}

/// Where an object stands: in a directory, whose row this is unless it is the root,
/// or nowhere, for the reason with this number.
#[derive(Clone, Copy, Debug, PartialEq, Eq)]
pub enum Place {
    In(Option<u32>),
    Nowhere(u32),
}

impl<'d> Tree<'d> {
    /// The tree as it stands, or as it stood before the record on a page was written;
    /// or the number of the refusal. There are no more headers than pages, and words
    /// that stay zeros take no memory.
    pub fn of(dump: &'d [u8], on: Geometry, before: Option<u32>) -> Result<Tree<'d>, u32> {
        let pages = ffi::pages(dump, on).given()?.pages as usize;
        let [mut rows, mut heads, mut work] = [(); 3].map(|()| vec![0; pages]);
        let before = before.unwrap_or(AS_IT_STANDS);
        let answer = ffi::dump_tree(dump, on, before, &mut rows, &mut heads, &mut work).given()?;
        rows.truncate((answer.listed + answer.others) as usize);
        rows.shrink_to_fit();
        let listed = answer.listed;
        Ok(Tree {
            dump,
            on,
            rows,
            listed,
        })
    }

    /// How many objects have a path.
    pub fn listed(&self) -> u32 {
        self.listed
    }

    /// How many have none.
    pub fn others(&self) -> u32 {
        self.rows.len() as u32 - self.listed
    }

    /// The rows, in the order of both lists.
    pub fn rows(&self) -> impl Iterator<Item = Row> + '_ {
        (0..).zip(&self.rows).map(|(number, &row)| {
            let RowAnswer { key, page } = ffi::tree_row(row);
            let place = match number < self.listed {
                true => Place::In(key.checked_sub(1)),
                false => Place::Nowhere(key),
            };
            Row {
                number,
                page,
                place,
            }
        })
    }

    /// What the newest header of a row's object says.
    pub fn header(&self, row: Row) -> KindAnswer {
        ffi::kind(self.dump, self.on, row.page)
    }

    /// The path of a row that has one.
    pub fn path<'b>(&self, row: Row, buffer: &'b mut PathBuffer) -> &'b [u8] {
        let bytes = &mut buffer.0;
        let answer = ffi::tree_path(self.dump, self.on, &self.rows, row.number, bytes);
        &bytes[..answer.length as usize]
    }

    /// The text of both lists, if it has no more than so many bytes and there is
    /// memory for it.
    pub fn text(&self, most: u64) -> Option<Vec<u8>> {
        let write =
            |bytes: &mut [u8]| ffi::tree_text(self.dump, self.on, &self.rows, self.listed, bytes);
        let some = (SOME_BYTES * self.rows.len() as u64).min(most);
        let mut text = vec![0; some as usize];
        let mut answer = write(&mut text);
        if answer.refusal == SHORT_BUFFER {
            if answer.need > most {
                return None;
            }
            let length = answer.need as usize;
            text = Vec::new();
            text.try_reserve_exact(length).ok()?;
            text.resize(length, 0);
            answer = write(&mut text);
        }
        text.truncate(answer.given().ok()?.length as usize);
        Some(text)
    }
}

/// Memory for a path.
pub struct PathBuffer([u8; LONGEST]);

impl Default for PathBuffer {
    fn default() -> PathBuffer {
        PathBuffer([0; LONGEST])
    }
}

/// The name of the reason with a number.
pub fn reason_name(number: u32) -> &'static str {
    match number {
        RowAnswer::TOO_DEEP => "too deep",
        RowAnswer::LOOP => "loop",
        RowAnswer::MISSING => "missing",
        RowAnswer::DELETED => "deleted",
        RowAnswer::NON_DIRECTORY => "non-directory",
        _ => "unknown",
    }
}
