//! The table of a file: a row of two words for each chunk, by what the chunk's
//! own lookup answers, and the bytes that a row names.

use super::cells::link_to;
use super::index::{Lent, Over, Reader, Refused};
use super::layout::Named;
use super::page::LAST_CHUNK;
use super::refusal::Refusal;
use super::wrong::Wrong;

/// A row: where the copy is, and its valid length.
pub type Row = [u32; 2];

const HOLE: Row = [0, 0];
const DAMAGED: Row = [1, 0];

impl<'d> Reader<'d> {
    /// The size of a file and its rows, which are written to the words.
    pub fn table(
        &self,
        lent: Lent,
        object: u64,
        words: &mut [u32],
    ) -> Result<(u64, Vec<Row>), Refused> {
        let over = Over::Index(lent);
        let (layout, seen) = self.seen(over, &[Self::bad_object(object)])?;
        let found = self.object(layout, &seen, object);
        let size = found.size().unwrap_or(0);
        let chunks = self.chunks_in(size, layout.data as u64);
        let need = match self.wrong {
            Wrong::TableNeedInRows => chunks,
            Wrong::TableOneWordMore => 2 * chunks + 1,
            _ => 2 * chunks,
        };
        let short = (words.len() as u64) < need.max(2 * chunks);
        if short && self.wrong == Wrong::ShortTableCleared {
            words.fill(0);
        }
        let more = [(Refusal::ShortBuffer, short)];
        let asked = self.refuse_object(&found, false, &more);
        asked.map_err(|refused| Refused {
            need: (refused.refusal == Refusal::ShortBuffer).then_some(need),
            ..refused.refusal.into()
        })?;
        let rows: Vec<Row> = (1..=chunks)
            .map(|n| self.table_row(over, object, n))
            .collect();
        let (front, rest) = words.split_at_mut(2 * rows.len());
        for (words, row) in front.chunks_exact_mut(2).zip(&rows) {
            if *row != HOLE || self.wrong != Wrong::HoleRowUnwritten {
                words.copy_from_slice(row);
            }
        }
        if self.wrong == Wrong::TableClearsRest {
            rest.fill(0);
        }
        let damaged = rows.contains(&DAMAGED) && self.wrong == Wrong::DamagedRowRefuses;
        match damaged {
            true => Err(Refusal::IndexDamaged.into()),
            false => Ok((size, rows)),
        }
    }

    /// How many chunks a file of a size has, of those that have numbers.
    fn chunks_in(&self, size: u64, data: u64) -> u64 {
        match self.wrong {
            Wrong::TableWithoutBrokenChunk => (size / data).min(LAST_CHUNK),
            Wrong::TableOneRowMore => (size / data + 1).min(LAST_CHUNK),
            Wrong::TableBeyondNumbers => size.div_ceil(data),
            _ => size.div_ceil(data).min(LAST_CHUNK),
        }
    }

    /// The row of chunk n, by its lookup.
    fn table_row(&self, over: Over, object: u64, n: u64) -> Row {
        let Ok(chunk) = self.chunk(over, object, n) else {
            return match self.wrong {
                Wrong::DamagedRowIsHole => HOLE,
                _ => DAMAGED,
            };
        };
        let Some(page) = chunk.page else {
            return HOLE;
        };
        match self.wrong {
            Wrong::RowNamesPage => [page as u32, chunk.valid as u32],
            Wrong::RowHasShown => [link_to(page), chunk.shown as u32],
            _ => [link_to(page), chunk.valid as u32],
        }
    }

    /// The bytes that a row names, as a place in the dump: offset and bytes.
    pub fn row(&self, layout: Named, place: u64, valid: u64) -> Option<(usize, &'d [u8])> {
        let layout = layout.layout()?;
        let page = match self.wrong {
            Wrong::RowOfPage => place,
            _ => place.checked_sub(2)?,
        };
        let most = match self.wrong {
            Wrong::RowReachesSpare => layout.page() as u64,
            _ => layout.data as u64,
        };
        let pages = (self.dump.len() / layout.page()) as u64;
        let given = page < pages && (1..=most).contains(&valid);
        let offset = given.then(|| page as usize * layout.page())?;
        Some((offset, &self.dump[offset..offset + valid as usize]))
    }
}
