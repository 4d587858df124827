//! The records of an object: how each stands, and what the file was after each, as the
//! library tells them, with the memory that it is lent.

use crate::ffi::{self, Answer as _, HistoryAnswer, RecordsAnswer, StandingAnswer};
use crate::fields::Field;
use crate::reasons::Reasons;
use crate::refusal::NO_HEADER;

impl Reasons<'_> {
    /// How each record of an object stands, the oldest first, or the number of the
    /// refusal.
    pub fn stands(self, object: u32) -> Result<Vec<StandingAnswer>, u32> {
        let (dump, on, before) = (self.dump, self.on, self.page());
        let rows = self.lent(|[rows, details, work]| {
            ffi::dump_stands(dump, on, before, object, rows, details, work)
        });
        let [rows, details, _] = rows?;
        let rows = rows.iter().zip(&details);
        Ok(rows
            .map(|(&row, &detail)| ffi::standing(on, row, detail))
            .collect())
    }

    /// What a size lookup answers after each record of an object, the oldest first, or
    /// the number of the refusal.
    pub fn history(self, object: u32) -> Result<Vec<HistoryAnswer>, u32> {
        let (dump, on, before) = (self.dump, self.on, self.page());
        let rows =
            self.lent(|[rows, sizes]| ffi::dump_history(dump, on, before, object, rows, sizes));
        let [rows, sizes] = rows?;
        let rows = rows.iter().zip(&sizes);
        Ok(rows
            .map(|(&row, &size)| ffi::history_row(row, size))
            .collect())
    }

    /// Asks with a word of each memory for each page, so that one call is enough; what
    /// is not written to costs nothing.
    fn lent<const N: usize>(
        self,
        ask: impl FnOnce(&mut [Vec<u64>; N]) -> RecordsAnswer,
    ) -> Result<[Vec<u64>; N], u32> {
        let pages = ffi::pages(self.dump, self.on).pages as usize;
        let mut memory = [(); N].map(|()| vec![0; pages]);
        let count = ask(&mut memory).given()?.count as usize;
        memory.iter_mut().for_each(|words| words.truncate(count));
        Ok(memory)
    }
}

/// The page of the newest header among the records of an object.
pub fn newest_header(records: &[StandingAnswer]) -> Result<u32, u32> {
    let mut stands = records.iter().rev();
    let newest = stands.find(|record| record.stands == StandingAnswer::NEWEST_HEADER);
    newest.map(|record| record.page).ok_or(NO_HEADER)
}

/// The name of how a record stands, by its number.
pub fn standing_name(stands: u32) -> &'static str {
    match stands {
        StandingAnswer::NEWEST_HEADER => "newest header",
        StandingAnswer::OLDER_HEADER => "older header",
        StandingAnswer::SUPERSEDED => "superseded",
        StandingAnswer::CUT => "cut",
        StandingAnswer::HOLDS => "holds",
        StandingAnswer::NO_FILE => "no file",
        _ => "unknown",
    }
}

impl StandingAnswer {
    /// How it stands, with the page or the bytes that this names.
    pub fn fields(&self) -> Vec<Field<'static>> {
        let mut fields = vec![("stands", standing_name(self.stands).into())];
        match self.stands {
            StandingAnswer::SUPERSEDED | StandingAnswer::CUT => {
                fields.push(("by", self.by.into()));
            }
            StandingAnswer::HOLDS => {
                fields.push(("from", self.from.into()));
                fields.push(("until", self.until.into()));
            }
            _ => {}
        }
        fields
    }
}
