//! Lookups by object: size, chunk, read and borrowed part.

use super::index::{Over, Reader, Refused, Seen};
use super::layout::Layout;
use super::page::{self, LAST_CHUNK, LAST_OBJECT};
use super::records::records;
use super::refusal::{refuse, Refusal};
use super::rules::Object;
use super::wrong::Wrong;

/// A chunk answered: the page of its copy, or nothing for a hole.
#[derive(Clone, Copy, Debug, PartialEq, Eq)]
pub struct Chunk {
    pub page: Option<usize>,
    pub valid: u64,
    pub shown: u64,
    pub visits: u64,
}

impl<'d> Reader<'d> {
    /// The tests of an object id and of a chunk number.
    pub(super) fn bad_object(object: u64) -> (Refusal, bool) {
        (Refusal::BadObject, object == 0 || object > LAST_OBJECT)
    }

    fn bad_chunk(n: u64) -> (Refusal, bool) {
        (Refusal::BadChunk, n == 0 || n > LAST_CHUNK)
    }

    pub(super) fn object(&self, layout: Layout, seen: &Seen, object: u64) -> Object {
        let id = object as u32;
        match seen {
            Seen::Pages(added) => {
                let records = records(self.dump, layout, added, self.wrong);
                Object::among(&records, id, layout, self.wrong)
            }
            Seen::Cells(pages) => Object::chained(self.cells(layout, *pages), id),
        }
    }

    /// The refusals of an object, with their visits. A lookup that goes to the
    /// end of the chain meets a damaged link there.
    pub(super) fn refuse_object(
        &self,
        object: &Object,
        to_end: bool,
        more: &[(Refusal, bool)],
    ) -> Result<(), Refused> {
        let header = object.newest_header();
        let to_end = to_end || header.is_none() || self.wrong == Wrong::EveryLinkMet;
        let mut tests = vec![
            (Refusal::IndexDamaged, object.broken && to_end),
            (Refusal::NoObject, object.records.is_empty()),
            (
                Refusal::NoHeader,
                !object.records.is_empty() && header.is_none(),
            ),
            (Refusal::Deleted, object.deleted()),
            (
                Refusal::NotAFile,
                header.is_some() && object.file_type() != Some(1),
            ),
        ];
        tests.extend_from_slice(more);
        refuse(&tests, self.wrong).map_err(|refusal| Refused {
            visits: match refusal {
                Refusal::NoHeader => object.visits_of_all(),
                Refusal::IndexDamaged if self.wrong == Wrong::DamagedVisitsCounted => {
                    object.visits_of_all()
                }
                Refusal::Deleted | Refusal::NotAFile | Refusal::PastEnd => {
                    object.visits_to_header()
                }
                _ => 0,
            },
            ..refusal.into()
        })
    }

    /// The size of an object, and the visits.
    pub fn size(&self, over: Over, object: u64) -> Result<(u64, u64), Refused> {
        let (layout, seen) = self.seen(over, &[Self::bad_object(object)])?;
        let object = self.object(layout, &seen, object);
        self.refuse_object(&object, false, &[])?;
        Ok((object.size().unwrap_or(0), object.visits_to_header()))
    }

    /// Chunk n of an object, for a buffer of this length if it is to be read.
    fn looked_up(
        &self,
        over: Over,
        object: u64,
        n: u64,
        buffer: Option<u64>,
    ) -> Result<(Layout, Object, Chunk), Refused> {
        let asked = [Self::bad_object(object), Self::bad_chunk(n)];
        let (layout, seen) = self.seen(over, &asked)?;
        let object = self.object(layout, &seen, object);
        let past = object.size().is_some_and(|size| object.start(n) >= size);
        let copy = object.copy(n);
        let chunk = Chunk {
            page: copy.map(|place| object.records[place].page),
            valid: copy.map_or(0, |place| object.valid(place, n)),
            shown: object.shown(n),
            visits: match copy {
                Some(place) => object.visits_to_copy(place),
                None => object.visits_of_all(),
            },
        };
        let need = match (self.wrong, copy) {
            (Wrong::ShortBufferBeforePastEnd, _) if past => layout.data as u64,
            (Wrong::HoleNeedsNoBuffer, None) => 0,
            (Wrong::BufferOneByteMore, _) => chunk.shown + 1,
            _ => chunk.shown,
        };
        let short = buffer.is_some_and(|length| length < need);
        let more = [(Refusal::PastEnd, past), (Refusal::ShortBuffer, short)];
        let file = object.file_type() == Some(1) && !object.deleted();
        let hole = file && !past && copy.is_none();
        let hidden = object.newest_data(n).is_some();
        let to_end = hole && !(hidden && self.wrong == Wrong::HiddenCopyEndsWalk);
        match self.refuse_object(&object, to_end, &more) {
            Err(refused) if refused.refusal == Refusal::ShortBuffer => Err(Refused {
                visits: match self.wrong {
                    Wrong::ShortBufferVisitsNone => 0,
                    _ => chunk.visits,
                },
                need: Some(need),
                ..refused
            }),
            Err(refused) => Err(refused),
            Ok(()) => Ok((layout, object, chunk)),
        }
    }

    /// Where chunk n of an object stands.
    pub fn chunk(&self, over: Over, object: u64, n: u64) -> Result<Chunk, Refused> {
        Ok(self.looked_up(over, object, n, None)?.2)
    }

    /// Read chunk n: the valid bytes, then zeros up to the shown length.
    pub fn read(
        &self,
        over: Over,
        object: u64,
        n: u64,
        buffer: &mut [u8],
    ) -> Result<Chunk, Refused> {
        let length = buffer.len() as u64;
        let (layout, object, chunk) = self.looked_up(over, object, n, Some(length))?;
        let end = match self.wrong {
            Wrong::ReadClearsBuffer => buffer.len(),
            _ => buffer.len().min(chunk.shown as usize),
        };
        buffer[..end].fill(0);
        let Some(copy) = object.copy(n) else {
            return Ok(chunk);
        };
        let mut put = |page, length: u64| {
            let length = end.min(length as usize).min(layout.data);
            buffer[..length].copy_from_slice(&page::data(self.dump, layout, page)[..length]);
        };
        if let Some(older) = object.behind(copy, n) {
            put(older.page, chunk.shown);
        }
        put(object.records[copy].page, chunk.valid);
        Ok(chunk)
    }

    /// The valid bytes of chunk n as a place in the dump: offset and bytes.
    pub fn part(&self, over: Over, object: u64, n: u64) -> Option<(usize, &'d [u8])> {
        let (layout, _, chunk) = self.looked_up(over, object, n, None).ok()?;
        let offset = chunk.page? * layout.page();
        let length = (chunk.valid as usize).min(layout.data);
        Some((offset, &self.dump[offset..offset + length]))
    }
}
