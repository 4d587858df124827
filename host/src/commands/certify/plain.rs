//! Reasons in plain words, for whoever never heard of chunks and tags.

use crate::because::{DELETED, UNLINKED};
use crate::ffi::{SpanAnswer, StandingAnswer, WhyAnswer};
use crate::reasons::Reasons;

impl Reasons<'_> {
    /// Why the bytes of a run are what they are.
    pub fn plain(self, run: SpanAnswer) -> String {
        let page = self.told(run.page);
        match run.reason {
            WhyAnswer::HELD => {
                format!(
                    "these bytes stand on {page}, the last one written for this part of the file"
                )
            }
            WhyAnswer::COUNT => format!(
                "{page}, the last one written for this part of the file, ends before these bytes, \
                 so that they read as zeros"
            ),
            WhyAnswer::CUT => {
                let then = match page.says.parent {
                    UNLINKED => "was unlinked then".to_string(),
                    DELETED => "was deleted then".to_string(),
                    _ => format!("ended at byte {} then", page.says.size),
                };
                format!(
                    "{page}, written after all that was written for these bytes, \
                     says that the file {then}, so that they read as zeros"
                )
            }
            _ => "the dump has no page for these bytes, so that they read as zeros".to_string(),
        }
    }
}

/// What it means that a record stands so.
pub fn standing(stands: u32) -> &'static str {
    match stands {
        StandingAnswer::NEWEST_HEADER => {
            "the last page that says what the object is; its name, parent and type count, and its \
             size unless a page written later reaches further"
        }
        StandingAnswer::OLDER_HEADER => {
            "a header written later has taken its place; what it cut off stays cut off"
        }
        StandingAnswer::SUPERSEDED => {
            "the page that by= names was written later for the same part of the file"
        }
        StandingAnswer::CUT => {
            "the header on the page that by= names was written later and says that the file ended at or \
             before the begin of this part; its bytes are no longer in the file, but still on the page"
        }
        StandingAnswer::HOLDS => "it holds the bytes of the file from from= to before until=",
        _ => "the object is no live file",
    }
}
