//! The third part: what the file holds.

use std::io;

use super::document::Document;
use super::gathered::Gathered;
use crate::commands::why::line;
use crate::reasons::runs;

impl Gathered<'_> {
    pub fn runs(&self, to: &mut Document<'_>) -> io::Result<()> {
        let reasons = self.opened.reasons();
        to.part("holds", "What does it hold, and which pages say so?")?;
        to.list("runs")?;
        for (run, until) in runs(self.opened.geometry(), &self.runs, self.size) {
            let because = reasons.plain(run);
            to.row(line(run, until), Some(because))?;
        }
        if self.runs.is_empty() {
            let sets = reasons.sets_size(self.setter);
            to.note(format!("the file has no bytes: {sets}"))?;
        }
        Ok(())
    }
}
