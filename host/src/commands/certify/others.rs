//! The fourth part: the records that hold nothing of the file.

use std::collections::BTreeSet;
use std::io;

use super::document::Document;
use super::gathered::Gathered;
use super::plain::standing;
use crate::commands::records::line;
use crate::commands::Opened;
use crate::ffi::StandingAnswer;
use crate::records::standing_name;

impl Gathered<'_> {
    pub fn others(&self, to: &mut Document<'_>) -> io::Result<()> {
        let (dump, on) = (&self.opened.dump, self.opened.geometry());
        let holds = |record: &&StandingAnswer| record.stands == StandingAnswer::HOLDS;
        let (holding, others): (Vec<_>, Vec<_>) = self.records.iter().rev().partition(holds);
        to.part("others", "Which records of it hold nothing, and why?")?;
        to.fields(&[
            ("in_all", (self.records.len() as u64).into()),
            ("holding", (holding.len() as u64).into()),
        ])?;
        to.list("records")?;
        for record in &others {
            to.row(line(dump, on, record), None)?;
        }
        let kinds: BTreeSet<u32> = others.iter().map(|record| record.stands).collect();
        for stands in kinds {
            to.note(format!("{}: {}", standing_name(stands), standing(stands)))?;
        }
        self.earlier(to)
    }

    /// What was there before each header that cut something off, and how to read it.
    fn earlier(&self, to: &mut Document<'_>) -> io::Result<()> {
        let records = self.records.iter();
        let cut = records.filter(|record| record.stands == StandingAnswer::CUT);
        let cutting: BTreeSet<u32> = cut.map(|record| record.by).collect();
        // a header that cuts has an older record before it
        let before = self.history.windows(2).rev();
        for pair in before.filter(|pair| cutting.contains(&pair[1].page)) {
            let (was, header) = (pair[0], pair[1].page);
            let (was, command) = match was.refusal {
                0 if was.size == 1 => ("the file had 1 byte".to_string(), "read"),
                0 => (format!("the file had {} bytes", was.size), "read"),
                _ => ("the object was no live file".to_string(), "records"),
            };
            to.note(format!(
                "before page {header} was written {was}: lohenarr {command} DUMP {} --before {header}{}",
                self.object,
                self.named()
            ))?;
        }
        to.note(format!(
            "what the file was after each of its records: lohenarr history DUMP {}{}",
            self.object,
            self.named()
        ))
    }

    /// The options by which the dump is read so, where they were named.
    fn named(&self) -> String {
        let Opened { layout, named, .. } = self.opened;
        let layout = named.as_ref().map(|_| format!(" --layout {layout}"));
        let is_named = self.opened.fitting.is_none();
        let block = self.opened.geometry().block;
        let block = is_named.then(|| format!(" --block {block}"));
        [layout, block].into_iter().flatten().collect()
    }
}
