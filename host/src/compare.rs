//! Two dumps compared, object by object, as the library tells it.

use crate::ffi::{self, Answer as _, Geometry, NextAnswer, Side};
use crate::refusal::SHORT_BUFFER;

/// Bytes that are mostly enough for the report of one object.
const SOME_BYTES: usize = 1 << 16;

/// The library writes a report without measuring it where it is lent so many bytes and so
/// many for each stretch; more than the last are not lent for that.
const PLAIN_BYTES: usize = 1024;
const LINE_BYTES: usize = 29;
const MOST_BYTES: usize = 1 << 27;
/// The bytes of a stretch.
const STRETCH: usize = 512;

/// A dump that was prepared to be compared.
pub struct Prepared<'d> {
    dump: &'d [u8],
    on: Geometry,
    order: Vec<u64>,
    copies: Vec<u64>,
}

impl<'d> Prepared<'d> {
    /// Goes over a dump, or gives the number of the refusal. There are no more records
    /// than pages, and words that stay zeros take no memory.
    pub fn of(dump: &'d [u8], on: Geometry) -> Result<Prepared<'d>, u32> {
        let pages = ffi::pages(dump, on).given()?.pages as usize;
        let [mut order, mut copies] = [(); 2].map(|()| vec![0; pages]);
        let mut work = vec![0; 2 * pages];
        let answer = ffi::compare_prepare(dump, on, &mut order, &mut copies, &mut work);
        let records = answer.given()?.records as usize;
        order.truncate(records);
        copies.truncate(records);
        Ok(Prepared {
            dump,
            on,
            order,
            copies,
        })
    }

    /// How many records there are.
    pub fn records(&self) -> u64 {
        self.order.len() as u64
    }

    fn side(&self) -> Side<'_> {
        Side {
            dump: self.dump,
            on: self.on,
            order: &self.order,
            copies: &self.copies,
        }
    }
}

/// What is told of an object: its lines, none where nothing differs, and how many records
/// both dumps have of it.
pub struct Report<'c> {
    pub object: u32,
    pub text: &'c [u8],
    pub records: u64,
}

/// The objects of two dumps that are left to be compared.
pub struct Comparison<'p> {
    first: Side<'p>,
    second: Side<'p>,
    buffer: Vec<u8>,
}

impl<'p> Comparison<'p> {
    pub fn of(first: &'p Prepared<'_>, second: &'p Prepared<'_>) -> Comparison<'p> {
        Comparison {
            first: first.side(),
            second: second.side(),
            buffer: vec![0; SOME_BYTES],
        }
    }

    /// The report of the next object, ascending by id, or the number of the refusal;
    /// nothing behind the last one.
    pub fn next_object(&mut self) -> Result<Option<Report<'_>>, u32> {
        let NextAnswer {
            object,
            first,
            second,
        } = ffi::compare_next(self.first.order, self.second.order);
        if object == 0 {
            return Ok(None);
        }
        let one = taken(&mut self.first, first as usize);
        let other = taken(&mut self.second, second as usize);
        let room = room(one).max(room(other)).min(MOST_BYTES);
        if self.buffer.len() < room {
            self.buffer = vec![0; room];
        }
        let write = |bytes: &mut [u8]| ffi::compare_object(one, other, object, bytes);
        let mut answer = write(&mut self.buffer);
        if answer.refusal == SHORT_BUFFER {
            self.buffer.resize(answer.need as usize, 0);
            answer = write(&mut self.buffer);
        }
        let length = answer.given()?.length as usize;
        Ok(Some(Report {
            object,
            text: &self.buffer[..length],
            records: first + second,
        }))
    }

    /// The lines of all objects that are left, or the number of the refusal.
    pub fn text(&self) -> Result<Vec<u8>, u32> {
        let write = |bytes: &mut [u8]| ffi::compare(self.first, self.second, bytes);
        let mut text = vec![0; SOME_BYTES];
        let mut answer = write(&mut text);
        if answer.refusal == SHORT_BUFFER {
            text = vec![0; answer.need as usize];
            answer = write(&mut text);
        }
        text.truncate(answer.given()?.length as usize);
        Ok(text)
    }
}

/// The bytes of the longest report of a file that has as many chunks as the side has
/// records.
fn room(side: Side<'_>) -> usize {
    let chunk = ffi::layout(side.on.layout).data as usize;
    PLAIN_BYTES + side.order.len() * chunk.div_ceil(STRETCH) * LINE_BYTES
}

/// Takes so many words from the front of a side.
fn taken<'p>(side: &mut Side<'p>, words: usize) -> Side<'p> {
    let (order, orders) = side.order.split_at(words);
    let (copies, others) = side.copies.split_at(words);
    let taken = Side {
        order,
        copies,
        ..*side
    };
    (side.order, side.copies) = (orders, others);
    taken
}
