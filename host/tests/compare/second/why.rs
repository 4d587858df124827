//! Why a byte of a file is what it is, on the dump alone: the reason of a
//! position, up to where it holds, and the runs of a whole file.

use super::index::{Reader, Refused, Seen};
use super::layout::{Layout, Named};
use super::page::{data, Body, LAST_CHUNK};
use super::refusal::{refuse, Refusal};
use super::rules::Object;
use super::wrong::Wrong;

/// Why a byte is what it is, with the page that says so: the one that holds it,
/// the header that cuts it, the copy whose byte count ends before it, or the
/// page that sets the size.
#[derive(Clone, Copy, Debug, PartialEq, Eq)]
pub enum Reason {
    Held(usize),
    NoCopy,
    Cut(usize),
    Count(usize),
    PastEnd(usize),
}

impl Reason {
    pub fn name(self) -> &'static str {
        match self {
            Reason::Held(_) => "held",
            Reason::NoCopy => "no copy",
            Reason::Cut(_) => "cut",
            Reason::Count(_) => "count",
            Reason::PastEnd(_) => "past end",
        }
    }

    pub fn page(self) -> Option<usize> {
        match self {
            Reason::NoCopy => None,
            Reason::Held(page)
            | Reason::Cut(page)
            | Reason::Count(page)
            | Reason::PastEnd(page) => Some(page),
        }
    }
}

/// What is said of a position: its reason, for a byte that is held which of its
/// page's data bytes it is, the byte that a read shows, and the first later
/// position with another reason or page.
#[derive(Clone, Copy, Debug, PartialEq, Eq)]
pub struct Why {
    pub reason: Reason,
    pub byte: Option<u64>,
    pub value: u8,
    pub until: u64,
}

/// The runs of a whole file: where each begins, and why. A run ends where the
/// next begins, and the last with the file.
pub struct Spans {
    pub size: u64,
    pub runs: Vec<(u64, Reason)>,
    data: u64,
}

impl Spans {
    /// With which data byte of its page each run begins, 0 where none is held.
    pub fn bytes(&self) -> Vec<u32> {
        let bytes = self.runs.iter().map(|(from, reason)| match reason {
            Reason::Held(_) => (from % self.data) as u32,
            _ => 0,
        });
        bytes.collect()
    }
}

/// A dump by layout and K, as it stands or as it stood before the record on a
/// page was written.
#[derive(Clone, Copy, Debug, PartialEq, Eq)]
pub struct Past {
    pub layout: Named,
    pub k: u64,
    pub before: Option<u64>,
}

impl Object {
    /// The reason of a position.
    fn reason(&self, position: u64, size: u64) -> Reason {
        let past = match self.wrong {
            Wrong::WhySizeInside => position > size,
            _ => position >= size,
        };
        match past {
            true => Reason::PastEnd(self.records[self.setter(size)].page),
            false => self.inside(position),
        }
    }

    /// The place of the newest record that sets the size: the newest header, or
    /// data newer than it.
    fn setter(&self, size: u64) -> usize {
        let header = self.newest_header().unwrap_or(0);
        let sets = |place: usize| match self.records[place].body {
            Body::Header { size: own, .. } => place == header && u64::from(own) == size,
            Body::Data { .. } => place > header && self.end(place) == Some(size),
        };
        let mut all = 0..self.records.len();
        let setter = match self.wrong {
            Wrong::WhyHeaderSets => None,
            Wrong::WhyOldestSets => all.find(|&place| sets(place)),
            Wrong::WhyOlderDataSets => all.rfind(|&place| self.end(place) == Some(size)),
            _ => all.rfind(|&place| sets(place)),
        };
        setter.unwrap_or(header)
    }

    /// The reason of a position inside the file.
    fn inside(&self, position: u64) -> Reason {
        let data = self.layout.data as u64;
        let n = position / data + 1;
        let copy = match self.wrong {
            Wrong::WhyLowBitsOfChunk => self.newest_data(n & LAST_CHUNK),
            _ if n > LAST_CHUNK => None,
            _ => self.newest_data(n),
        };
        let hidden = |place| self.wrong == Wrong::WhyHiddenIsNoCopy && self.hidden(place, n);
        let Some(copy) = copy.filter(|&place| !hidden(place)) else {
            return Reason::NoCopy;
        };
        let Body::Data { count, .. } = self.records[copy].body else {
            return Reason::NoCopy;
        };
        let page = self.records[copy].page;
        let ended = position % data >= u64::from(count);
        match self.cutter(copy, position) {
            Some(_) if ended && self.wrong == Wrong::WhyCountBeforeCut => Reason::Count(page),
            Some(header) => Reason::Cut(self.records[header].page),
            None if ended => Reason::Count(page),
            None => Reason::Held(page),
        }
    }

    /// The place of the newest header that is newer than a copy and cuts at or
    /// below a position.
    pub(super) fn cutter(&self, copy: usize, position: u64) -> Option<usize> {
        let from = match self.wrong {
            Wrong::WhyEarlierCuts => 0,
            _ => copy + 1,
        };
        let cuts = |&place: &usize| match (self.cut(place), self.wrong) {
            (Some(cut), Wrong::WhyCutOnlyBelow) => cut < position,
            (Some(cut), _) => cut <= position,
            (None, _) => false,
        };
        let mut cutting = (from..self.records.len()).filter(cuts);
        match self.wrong {
            Wrong::WhyOldestCuts => cutting.next(),
            Wrong::WhyLowestCuts => cutting.min_by_key(|&place| self.cut(place)),
            Wrong::WhyNewestHeaderCuts => cutting.next().and(self.newest_header()),
            Wrong::WhyHighestPageCuts => cutting.max_by_key(|&place| self.records[place].page),
            _ => cutting.next_back(),
        }
    }

    /// The positions at which a reason can change, ascending: where a chunk that
    /// data is of begins and ends, where a byte count does, where a header cuts,
    /// and where chunks have no numbers any more.
    fn turns(&self) -> Vec<u64> {
        let data = self.layout.data as u64;
        let mut turns = vec![0, LAST_CHUNK * data];
        for (place, record) in self.records.iter().enumerate() {
            turns.extend(self.cut(place));
            turns.extend(self.end(place));
            if let Body::Data { chunk, .. } = record.body {
                let start = self.start(chunk.into());
                turns.extend([start, start + data]);
            }
        }
        turns.sort_unstable();
        turns.dedup();
        turns
    }

    /// Whether two positions with these reasons are of one run.
    fn alike(&self, one: Reason, other: Reason) -> bool {
        let zero = |reason| !matches!(reason, Reason::Held(_));
        one == other
            || match self.wrong {
                Wrong::WhyCutsAreOne => matches!((one, other), (Reason::Cut(_), Reason::Cut(_))),
                Wrong::WhyZerosAreOne => zero(one) && zero(other),
                _ => false,
            }
    }

    /// The first position above this one whose reason is another, or the size.
    fn until(&self, position: u64, size: u64) -> u64 {
        let here = self.reason(position, size);
        if let Reason::PastEnd(_) = here {
            return match self.wrong {
                Wrong::WhyPastEndUntilSize => size,
                _ => u64::MAX,
            };
        }
        let (end, reason): (u64, &dyn Fn(u64) -> Reason) = match self.wrong {
            Wrong::WhyRunBeyondSize => (u64::MAX, &|position| self.inside(position)),
            _ => (size, &|position| self.reason(position, size)),
        };
        let turns = self.turns();
        let later = turns
            .iter()
            .filter(|&&turn| position < turn && turn < end)
            .find(|&&turn| !self.alike(here, reason(turn)));
        let until = later.copied().unwrap_or(end);
        let data = self.layout.data as u64;
        let next = position - position % data + data;
        match (self.wrong, here) {
            (Wrong::WhyUntilOneTooFar, _) => until + 1,
            (Wrong::WhyHoleByChunk, Reason::NoCopy) => until.min(next),
            (Wrong::WhyCutByChunk, Reason::Cut(_)) => until.min(next),
            (Wrong::WhyHeldOverCut, Reason::Held(page)) => {
                let held = self.records.iter().position(|record| record.page == page);
                held.and_then(|place| self.end(place)).unwrap_or(until)
            }
            _ => until,
        }
    }

    /// Where each run of the file begins, and its reason.
    fn runs(&self, size: u64) -> Vec<(u64, Reason)> {
        let turns = self.turns().into_iter().filter(|&turn| turn < size);
        let mut runs: Vec<_> = turns.map(|turn| (turn, self.reason(turn, size))).collect();
        runs.dedup_by(|next, last| self.alike(next.1, last.1));
        match self.wrong {
            Wrong::SpansWithoutHoles => runs.retain(|(_, reason)| *reason != Reason::NoCopy),
            Wrong::SpansWithEnd => runs.push((size, self.reason(size, size))),
            Wrong::SpansByPage => runs.sort_by_key(|(_, reason)| reason.page()),
            _ => {}
        }
        runs
    }
}

impl Reader<'_> {
    /// An object on the dump alone, after the tests that come before those of
    /// its records.
    pub(super) fn alone(&self, on: Past, object: u64) -> Result<(Layout, Object), Refusal> {
        let (layout, pages) = self.opened(on.layout, on.k)?;
        let bad_page = on.before.is_some_and(|page| page >= pages as u64);
        let tests = [(Refusal::BadPage, bad_page), Self::bad_object(object)];
        refuse(&tests, self.wrong)?;
        let seen = match on.before {
            Some(page) => self.older(layout, pages, page as usize),
            None => vec![true; pages],
        };
        Ok((layout, self.object(layout, &Seen::Pages(seen), object)))
    }

    /// Why the byte at a position of a file is what it is.
    pub fn why(&self, on: Past, object: u64, position: u64) -> Result<Why, Refused> {
        let (layout, object) = self.alone(on, object)?;
        let size = object.size();
        let past = size.is_some_and(|size| position >= size);
        if !(past && self.wrong == Wrong::WhyPastEndFirst) {
            self.refuse_object(&object, false, &[])?;
        }
        let size = size.unwrap_or(0);
        let reason = object.reason(position, size);
        let byte = match self.wrong {
            Wrong::WhyByteOfFile => position,
            _ => position % layout.data as u64,
        };
        let byte = matches!(reason, Reason::Held(_)).then_some(byte);
        let at = (position % layout.data as u64) as usize;
        let shown = match (self.wrong, reason) {
            (_, Reason::Held(page)) => Some(page),
            (Wrong::WhyCountedShown, Reason::Count(page)) => Some(page),
            _ => None,
        };
        Ok(Why {
            reason,
            byte,
            value: shown.map_or(0, |page| data(self.dump, layout, page)[at]),
            until: object.until(position, size),
        })
    }

    /// Why each byte of a file is what it is, by runs.
    pub fn spans(&self, on: Past, object: u64) -> Result<Spans, Refused> {
        let (layout, object) = self.alone(on, object)?;
        self.refuse_object(&object, false, &[])?;
        let size = object.size().unwrap_or(0);
        Ok(Spans {
            size,
            runs: object.runs(size),
            data: layout.data as u64,
        })
    }

    /// Positions of an object that are worth asking for: where reasons may change
    /// inside its file, and its size at the end.
    pub fn turns(&self, on: Past, object: u64) -> Vec<u64> {
        let alone = self.alone(on, object);
        let sized = alone.ok().and_then(|(_, object)| {
            let size = object.size()?;
            Some((object, size))
        });
        sized.map_or(Vec::new(), |(object, size)| {
            let turns = object.turns().into_iter();
            turns.filter(|&turn| turn < size).chain([size]).collect()
        })
    }
}
