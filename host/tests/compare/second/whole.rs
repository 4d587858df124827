//! The calls that read the dump whatever was added: finding, page count, the
//! five counts, the kind of a page and its header fields.

use super::find;
use super::index::Reader;
use super::layout::{Layout, Named};
use super::page::{self, fields, kind, Body, Field, Kind};
use super::refusal::{refuse, Refusal};
use super::wrong::Wrong;

/// How many pages there are of each kind.
#[derive(Clone, Copy, Debug, Default, PartialEq, Eq)]
pub struct Counts {
    pub blank: usize,
    pub foreign: usize,
    pub damaged: usize,
    pub headers: usize,
    pub data: usize,
}

impl<'d> Reader<'d> {
    pub fn find(&self, k: u64) -> Result<Layout, Refusal> {
        find::find(self.dump, k, self.wrong)
    }

    pub fn pages(&self, layout: Named, k: u64) -> Result<usize, Refusal> {
        Ok(self.opened(layout, k)?.1)
    }

    /// The five counts.
    pub fn counts(&self, layout: Named, k: u64) -> Result<Counts, Refusal> {
        let (layout, pages) = self.opened(layout, k)?;
        let mut counts = Counts::default();
        for page in 0..pages {
            match kind(self.dump, layout, page, self.wrong) {
                Kind::Blank => counts.blank += 1,
                Kind::Foreign => counts.foreign += 1,
                Kind::Damaged => counts.damaged += 1,
                Kind::Record(record) => match record.body {
                    Body::Header { .. } => counts.headers += 1,
                    Body::Data { .. } => counts.data += 1,
                },
            }
        }
        Ok(counts)
    }

    /// The kind of one page.
    pub fn kind(&self, layout: Named, k: u64, page: u64) -> Result<Kind, Refusal> {
        let (layout, pages) = self.opened(layout, k)?;
        refuse(&[(Refusal::BadPage, page >= pages as u64)], self.wrong)?;
        Ok(kind(self.dump, layout, page as usize, self.wrong))
    }

    /// The header fields of one page.
    #[allow(clippy::type_complexity)]
    pub fn header(
        &self,
        layout: Named,
        k: u64,
        page: u64,
    ) -> Result<Vec<(&'static str, Field<'d>)>, Refusal> {
        let kind = self.kind(layout, k, page)?;
        let (layout, _) = self.opened(layout, k)?;
        let page = page as usize;
        let header = match kind {
            Kind::Record(record) => matches!(record.body, Body::Header { .. }),
            Kind::Damaged if self.wrong == Wrong::DamagedHeaderGiven => {
                page::tags(self.dump, layout, page).header()
            }
            _ => false,
        };
        refuse(&[(Refusal::NotHeader, !header)], self.wrong)?;
        Ok(fields(self.dump, layout, page, self.wrong))
    }
}
