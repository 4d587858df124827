//! A script's requests put to the library, with the memory that its calls are
//! lent.

use super::line;
use super::request::{Lent, Over, Request};
use crate::commands::header::Header;
use crate::failure::Failure;
use crate::ffi::{self, Answer as _, Geometry, StandingAnswer};
use crate::reasons::Reasons;
use crate::tree::{Place, Tree};

/// What a buffer holds before a call, and the index words before the first.
const BYTE: u8 = 0xA5;
const WORD: u32 = 0xA5A5_A5A5;
const ROW: u64 = 0xA5A5_A5A5_A5A5_A5A5;

/// The dump, the index words, and what the last accepted start was given.
pub struct Runner<'d> {
    dump: &'d [u8],
    pub index: Vec<u32>,
    started: Option<(Geometry, usize)>,
}

/// An answer: its line, and the lent buffer as the call left it. What a line leaves
/// out stands there too: the byte of a position, the data byte with which each run
/// of a file begins, of each record the three numbers that say how it stands or the
/// size after it, and of a tree its text and two words for each object.
#[derive(Debug, Default, PartialEq, Eq)]
pub struct Answer {
    pub line: String,
    pub bytes: Vec<u8>,
    pub words: Vec<u32>,
    pub rows: Vec<u64>,
}

/// A layout and a K that every call refuses: those of no start.
const NONE: Geometry = Geometry {
    layout: u32::MAX,
    block: 0,
};

impl<'d> Runner<'d> {
    /// A runner with index memory for the most words that a request names.
    pub fn new(dump: &'d [u8], requests: &[Request]) -> Result<Runner<'d>, Failure> {
        let words = requests.iter().filter_map(Request::words).max();
        Ok(Runner {
            dump,
            index: filled(words.unwrap_or(0), WORD)?,
            started: None,
        })
    }

    /// Puts a request to the library.
    pub fn answer(&mut self, request: &Request) -> Result<Answer, Failure> {
        let mut answer = Answer::default();
        answer.line = match *request {
            Request::Fill { word } => {
                self.index.fill(word);
                line::done(0)
            }
            Request::Poke { at, word } => {
                *self.cell(at)? = word;
                line::done(0)
            }
            Request::Peek { at } => format!("word={}", self.cell(at)?),
            Request::Start { on, words, seed } => self.start(on, words, seed),
            Request::Add { lent, page } => self.add(lent, page),
            Request::Older {
                lent,
                from,
                to,
                before,
            } => {
                let (on, words) = self.given(lent);
                let cells = &mut self.index[..words];
                line::run(ffi::add_older(self.dump, on, cells, from..to, before))
            }
            Request::Size { over, object } => self.size(over, object),
            Request::Chunk { over, object, n } => self.chunk(over, object, n),
            Request::Read {
                over,
                object,
                n,
                length,
            } => {
                answer.bytes = filled(length, BYTE)?;
                self.read(over, object, n, &mut answer.bytes)
            }
            Request::Part { over, object, n } => self.part(over, object, n),
            Request::List { over, length } => {
                answer.words = filled(length, WORD)?;
                self.list(over, &mut answer.words)
            }
            Request::Objects { over } => self.objects(over),
            Request::Records {
                lent,
                object,
                length,
            } => {
                answer.words = filled(length, WORD)?;
                self.records(lent, object, &mut answer.words)
            }
            Request::Table {
                lent,
                object,
                length,
            } => {
                answer.words = filled(length, WORD)?;
                self.table(lent, object, &mut answer.words)
            }
            Request::Copies {
                lent,
                object,
                length,
            } => {
                answer.rows = filled(length, ROW)?;
                self.copies(lent, object, &mut answer.rows)
            }
            Request::Copy { row } => line::copy(ffi::copy(row)),
            Request::Why {
                on,
                before,
                object,
                position,
            } => {
                let why = self.reasons(on, before).why(object, position);
                answer.bytes.extend(why.given().map(|why| why.value as u8));
                line::why(why)
            }
            Request::Spans { on, before, object } => {
                let (spans, rows) = self.reasons(on, before).spans(object);
                let runs: Vec<_> = rows.iter().map(|&row| ffi::span(on, row)).collect();
                answer.words = runs.iter().map(|run| run.byte).collect();
                line::spans(spans, &runs)
            }
            Request::Stands { on, before, object } => {
                let records = self.reasons(on, before).stands(object);
                let row = |r: &StandingAnswer| [r.by.into(), r.from, r.until];
                answer.rows = records.iter().flatten().flat_map(row).collect();
                records.map_or_else(line::number, |records| line::stands(&records))
            }
            Request::History { on, before, object } => {
                let records = self.reasons(on, before).history(object);
                answer.rows = records.iter().flatten().map(|r| r.size).collect();
                records.map_or_else(line::number, |records| line::history(&records))
            }
            Request::Tree { on, before } => match Tree::of(self.dump, on, before) {
                Ok(tree) => {
                    let text = tree.text(u64::MAX);
                    answer.bytes = text.ok_or_else(|| scarce("the text of the tree"))?;
                    answer.words = rows(&tree);
                    line::tree(&tree, &answer.bytes)
                }
                Err(number) => line::refused(number, 0, 0),
            },
            Request::Row {
                layout,
                place,
                valid,
            } => {
                // a row names a page, whatever its block
                let on = Geometry { layout, block: 1 };
                line::part(ffi::row(self.dump, on, place, valid), self.dump)
            }
            _ => self.whole(request),
        };
        Ok(answer)
    }

    /// The requests about the dump as a whole or one of its pages.
    fn whole(&self, request: &Request) -> String {
        let dump = self.dump;
        let line = match *request {
            Request::Find { k } => ffi::find(dump, k)
                .given()
                .map(|found| format!("layout={found}")),
            Request::Pages { on } => ffi::pages(dump, on)
                .given()
                .map(|answer| format!("pages={}", answer.pages)),
            Request::Counts { on } => ffi::counts(dump, on).given().map(line::counts),
            Request::Kind { on, page } => ffi::kind(dump, on, page).given().map(line::kind),
            Request::Header { on, page } => {
                let header = Header::of(dump, on, page);
                header.numbers.given().map(|_| header.line())
            }
            _ => unreachable!("not about the dump as a whole"),
        };
        line.unwrap_or_else(line::done)
    }

    /// What a call on the index is given: layout and K, and how many words.
    fn given(&self, lent: Lent) -> (Geometry, usize) {
        let (on, words) = self.started.unwrap_or((NONE, self.index.len()));
        let layout = lent.layout.unwrap_or(on.layout);
        let block = lent.k.unwrap_or(on.block);
        (Geometry { layout, block }, lent.words.unwrap_or(words))
    }

    fn start(&mut self, on: Geometry, words: usize, seed: u32) -> String {
        let cells = &mut self.index[..words];
        let refusal = ffi::start(self.dump, on, cells, seed);
        if refusal == 0 {
            self.started = Some((on, words));
        }
        line::done(refusal)
    }

    fn add(&mut self, lent: Lent, page: u32) -> String {
        let (on, words) = self.given(lent);
        let cells = &mut self.index[..words];
        line::done(ffi::add(self.dump, on, cells, page))
    }

    fn size(&self, over: Over, object: u32) -> String {
        line::size(match over {
            Over::Dump(on) => ffi::dump_size(self.dump, on, object),
            Over::Index(lent) => {
                let (on, words) = self.given(lent);
                ffi::size(self.dump, on, &self.index[..words], object)
            }
        })
    }

    fn chunk(&self, over: Over, object: u32, n: u32) -> String {
        line::chunk(match over {
            Over::Dump(on) => ffi::dump_chunk(self.dump, on, object, n),
            Over::Index(lent) => {
                let (on, words) = self.given(lent);
                ffi::chunk(self.dump, on, &self.index[..words], object, n)
            }
        })
    }

    fn read(&self, over: Over, object: u32, n: u32, buffer: &mut [u8]) -> String {
        let answer = match over {
            Over::Dump(on) => ffi::dump_read(self.dump, on, object, n, buffer),
            Over::Index(lent) => {
                let (on, words) = self.given(lent);
                let cells = &self.index[..words];
                ffi::read(self.dump, on, cells, object, n, buffer)
            }
        };
        line::read(answer, buffer)
    }

    fn part(&self, over: Over, object: u32, n: u32) -> String {
        let place = match over {
            Over::Dump(on) => ffi::dump_part(self.dump, on, object, n),
            Over::Index(lent) => {
                let (on, words) = self.given(lent);
                ffi::part(self.dump, on, &self.index[..words], object, n)
            }
        };
        line::part(place, self.dump)
    }

    fn list(&self, over: Over, words: &mut [u32]) -> String {
        let answer = match over {
            Over::Dump(on) => ffi::dump_list(self.dump, on, words),
            Over::Index(lent) => {
                let (on, count) = self.given(lent);
                ffi::list(self.dump, on, &self.index[..count], words)
            }
        };
        line::list(answer, words)
    }

    fn objects(&self, over: Over) -> String {
        line::objects(match over {
            Over::Dump(on) => ffi::dump_objects(self.dump, on),
            Over::Index(lent) => {
                let (on, words) = self.given(lent);
                ffi::objects(self.dump, on, &self.index[..words])
            }
        })
    }

    fn records(&self, lent: Lent, object: u32, words: &mut [u32]) -> String {
        let (on, count) = self.given(lent);
        let cells = &self.index[..count];
        let answer = ffi::records(self.dump, on, cells, object, words);
        line::records(answer, words)
    }

    fn copies(&self, lent: Lent, object: u32, rows: &mut [u64]) -> String {
        let (on, count) = self.given(lent);
        let cells = &self.index[..count];
        let answer = ffi::copies(self.dump, on, cells, object, rows);
        line::copies(answer, rows)
    }

    fn table(&self, lent: Lent, object: u32, words: &mut [u32]) -> String {
        let (on, count) = self.given(lent);
        let cells = &self.index[..count];
        let answer = ffi::table(self.dump, on, cells, object, words);
        line::table(answer, words)
    }

    /// The reasons of the dump as it stood before the record on a page, if one is
    /// named.
    fn reasons(&self, on: Geometry, before: Option<u32>) -> Reasons<'d> {
        let dump = self.dump;
        Reasons { dump, on, before }
    }

    /// A word of the index memory.
    fn cell(&mut self, at: usize) -> Result<&mut u32, Failure> {
        let words = self.index.len();
        let outside = || Failure::Usage(format!("the index has {words} words and no word {at}"));
        self.index.get_mut(at).ok_or_else(outside)
    }
}

/// Page and key of each row of a tree.
fn rows(tree: &Tree<'_>) -> Vec<u32> {
    let rows = tree.rows().flat_map(|row| match row.place {
        Place::In(directory) => [row.page, directory.map_or(0, |row| row + 1)],
        Place::Nowhere(reason) => [row.page, reason],
    });
    rows.collect()
}

/// Memory with the same value throughout.
fn filled<T: Copy>(length: usize, value: T) -> Result<Vec<T>, Failure> {
    let mut memory = Vec::new();
    let scarce = |_| scarce(&format!("a length of {length}"));
    memory.try_reserve_exact(length).map_err(scarce)?;
    memory.resize(length, value);
    Ok(memory)
}

fn scarce(what: &str) -> Failure {
    Failure::File(format!("there is no memory for {what}"))
}
