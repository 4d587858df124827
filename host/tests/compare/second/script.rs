//! Requests, as lines of the command's script, and their answer lines.

use std::fmt;

use crc32fast::hash as crc32;

use super::copies::{unpacked, Copies, Copy};
use super::history::Told;
use super::index::{Lent, Over, Reader, Refused};
use super::layout::{Layout, Named};
use super::lookup::Chunk;
use super::page::{Body, Field, Kind};
use super::refusal::Refusal;
use super::stands::Standing;
use super::tree::Tree;
use super::why::{Past, Spans, Why};

/// One request with everything that its call is given. Lookups are over the
/// dump alone or over the index; `buffer` counts bytes for a read, rows for copies
/// and else words.
#[derive(Clone, Copy, Debug, PartialEq, Eq)]
pub enum Request {
    Find {
        k: u64,
    },
    Pages {
        layout: Named,
        k: u64,
    },
    Counts {
        layout: Named,
        k: u64,
    },
    Kind {
        layout: Named,
        k: u64,
        page: u64,
    },
    Header {
        layout: Named,
        k: u64,
        page: u64,
    },
    Start {
        lent: Lent,
        seed: u32,
    },
    Add {
        lent: Lent,
        page: u64,
    },
    Older {
        lent: Lent,
        from: u64,
        to: u64,
        before: u64,
    },
    Size {
        over: Over,
        object: u64,
    },
    Chunk {
        over: Over,
        object: u64,
        n: u64,
    },
    Read {
        over: Over,
        object: u64,
        n: u64,
        buffer: usize,
    },
    Part {
        over: Over,
        object: u64,
        n: u64,
    },
    List {
        over: Over,
        buffer: usize,
    },
    Objects {
        over: Over,
    },
    Table {
        lent: Lent,
        object: u64,
        buffer: usize,
    },
    Row {
        layout: Named,
        place: u64,
        valid: u64,
    },
    Copies {
        lent: Lent,
        object: u64,
        buffer: usize,
    },
    Copy {
        row: u64,
    },
    Records {
        lent: Lent,
        object: u64,
        buffer: usize,
    },
    Why {
        on: Past,
        object: u64,
        position: u64,
    },
    Spans {
        on: Past,
        object: u64,
    },
    Stands {
        on: Past,
        object: u64,
    },
    History {
        on: Past,
        object: u64,
    },
    Tree {
        on: Past,
    },
    Fill {
        word: u32,
    },
    Poke {
        at: usize,
        word: u32,
    },
}

/// An answer: its line, and the lent buffer as the call left it. What a line leaves
/// out stands there too: the byte of a position, the data byte with which each run
/// of a file begins, of each record the three numbers that say how it stands or the
/// size after it, and of a tree its text and two words for each object.
#[derive(Clone, Debug, Default, PartialEq, Eq)]
pub struct Answer {
    pub line: String,
    pub bytes: Vec<u8>,
    pub words: Vec<u32>,
    pub rows: Vec<u64>,
}

impl Request {
    /// The words that the request names: those of the index that its call is
    /// lent, and those of a buffer for words.
    pub fn words(&self) -> u64 {
        let lent = |over| match over {
            Over::Index(lent) => lent.words,
            Over::Dump(..) => 0,
        };
        match *self {
            Request::Start { lent, .. }
            | Request::Add { lent, .. }
            | Request::Older { lent, .. }
            | Request::Copies { lent, .. } => lent.words,
            Request::Size { over, .. }
            | Request::Chunk { over, .. }
            | Request::Read { over, .. }
            | Request::Part { over, .. }
            | Request::Objects { over } => lent(over),
            Request::List { over, buffer } => lent(over).max(buffer as u64),
            Request::Table { lent, buffer, .. } | Request::Records { lent, buffer, .. } => {
                lent.words.max(buffer as u64)
            }
            _ => 0,
        }
    }
}

/// How many words the index of a list of requests has: the most that any names.
pub fn index_words(requests: &[Request]) -> u64 {
    requests.iter().map(Request::words).max().unwrap_or(0)
}

impl fmt::Display for Layout {
    fn fmt(&self, f: &mut fmt::Formatter<'_>) -> fmt::Result {
        write!(f, "{}/{}/{}", self.data, self.spare, self.tag)
    }
}

impl fmt::Display for Named {
    fn fmt(&self, f: &mut fmt::Formatter<'_>) -> fmt::Result {
        match self {
            Named::Number(number) => write!(f, "{number}"),
            Named::Sizes(p, s, t) => write!(f, "{p}/{s}/{t}"),
        }
    }
}

/// A lookup's line: by layout and K ahead of the arguments for the dump
/// alone, by options behind them for the index.
fn lookup(f: &mut fmt::Formatter<'_>, name: &str, over: Over, arguments: &str) -> fmt::Result {
    match over {
        Over::Dump(layout, k) => write!(f, "d{name} {layout} {k} {arguments}"),
        Over::Index(lent) => write!(f, "{name} {arguments} {}", options(lent)),
    }
}

/// A request about the dump alone, perhaps as it once stood.
fn past(f: &mut fmt::Formatter<'_>, name: &str, on: Past, arguments: &str) -> fmt::Result {
    let Past { layout, k, before } = on;
    write!(f, "{name} {layout} {k}")?;
    if !arguments.is_empty() {
        write!(f, " {arguments}")?;
    }
    match before {
        Some(page) => write!(f, " before={page}"),
        None => Ok(()),
    }
}

/// The options that give one call its own K, index words and layout.
fn options(lent: Lent) -> String {
    format!("k={} words={} layout={}", lent.k, lent.words, lent.layout)
}

impl fmt::Display for Request {
    fn fmt(&self, f: &mut fmt::Formatter<'_>) -> fmt::Result {
        match *self {
            Request::Find { k } => write!(f, "find {k}"),
            Request::Pages { layout, k } => write!(f, "pages {layout} {k}"),
            Request::Counts { layout, k } => write!(f, "counts {layout} {k}"),
            Request::Kind { layout, k, page } => write!(f, "kind {layout} {k} {page}"),
            Request::Header { layout, k, page } => write!(f, "header {layout} {k} {page}"),
            Request::Start { lent, seed } => {
                write!(f, "start {} {} {}", lent.layout, lent.k, lent.words)?;
                match seed {
                    0 => Ok(()),
                    _ => write!(f, " seed={seed:#x}"),
                }
            }
            Request::Add { lent, page } => write!(f, "add {page} {}", options(lent)),
            Request::Older {
                lent,
                from,
                to,
                before,
            } => write!(f, "older {from} {to} {before} {}", options(lent)),
            Request::Size { over, object } => lookup(f, "size", over, &object.to_string()),
            Request::Chunk { over, object, n } => {
                lookup(f, "chunk", over, &format!("{object} {n}"))
            }
            Request::Read {
                over,
                object,
                n,
                buffer,
            } => lookup(f, "read", over, &format!("{object} {n} {buffer}")),
            Request::Part { over, object, n } => lookup(f, "part", over, &format!("{object} {n}")),
            Request::List { over, buffer } => lookup(f, "list", over, &buffer.to_string()),
            Request::Objects {
                over: Over::Dump(layout, k),
            } => write!(f, "dobjects {layout} {k}"),
            Request::Objects {
                over: Over::Index(lent),
            } => write!(f, "objects {}", options(lent)),
            Request::Table {
                lent,
                object,
                buffer,
            } => write!(f, "table {object} {buffer} {}", options(lent)),
            Request::Row {
                layout,
                place,
                valid,
            } => write!(f, "row {layout} {place} {valid}"),
            Request::Copies {
                lent,
                object,
                buffer,
            } => write!(f, "copies {object} {buffer} {}", options(lent)),
            Request::Copy { row } => write!(f, "copy {row:#x}"),
            Request::Records {
                lent,
                object,
                buffer,
            } => write!(f, "records {object} {buffer} {}", options(lent)),
            Request::Why {
                on,
                object,
                position,
            } => past(f, "dwhy", on, &format!("{object} {position}")),
            Request::Spans { on, object } => past(f, "dspans", on, &object.to_string()),
            Request::Stands { on, object } => past(f, "dstands", on, &object.to_string()),
            Request::History { on, object } => past(f, "dhistory", on, &object.to_string()),
            Request::Tree { on } => past(f, "dtree", on, ""),
            Request::Fill { word } => write!(f, "fill {word:#x}"),
            Request::Poke { at, word } => write!(f, "poke {at} {word:#x}"),
        }
    }
}

/// The answer of the reader to one request.
pub fn answer(reader: &mut Reader<'_>, request: &Request) -> Answer {
    let mut answer = Answer::default();
    let line = match *request {
        Request::Find { k } => reader
            .find(k)
            .map(|layout| format!("layout={layout}"))
            .map_err(Refused::from),
        Request::Pages { layout, k } => reader
            .pages(layout, k)
            .map(|pages| format!("pages={pages}"))
            .map_err(Refused::from),
        Request::Counts { layout, k } => counts_line(reader, layout, k),
        Request::Kind { layout, k, page } => reader
            .kind(layout, k, page)
            .map(kind_line)
            .map_err(Refused::from),
        Request::Header { layout, k, page } => reader
            .header(layout, k, page)
            .map(|fields| header_line(&fields))
            .map_err(Refused::from),
        Request::Start { lent, seed } => done(reader.start(lent, seed)),
        Request::Add { lent, page } => done(reader.add(lent, page)),
        Request::Older {
            lent,
            from,
            to,
            before,
        } => Ok(run_line(reader.add_older(lent, from..to, before))),
        Request::Size { over, object } => reader
            .size(over, object)
            .map(|(size, visits)| format!("size={size} visits={visits}")),
        Request::Chunk { over, object, n } => reader.chunk(over, object, n).map(chunk_line),
        Request::Read {
            over,
            object,
            n,
            buffer,
        } => {
            answer.bytes = vec![0xA5; buffer];
            let read = reader.read(over, object, n, &mut answer.bytes);
            let crc = crc32(&answer.bytes);
            read.map(|chunk| format!("{} buffer={buffer}/{crc:08x}", chunk_line(chunk)))
        }
        Request::Part { over, object, n } => Ok(part_line(reader.part(over, object, n))),
        Request::List { over, buffer } => {
            answer.words = vec![0xA5A5_A5A5; buffer];
            let list = reader.list(over, &mut answer.words);
            list.map(|ids| format!("ids={} words={buffer}", joined(&ids)))
        }
        Request::Objects { over } => reader
            .objects(over)
            .map(|objects| format!("objects={objects}"))
            .map_err(Refused::from),
        Request::Table {
            lent,
            object,
            buffer,
        } => {
            answer.words = vec![0xA5A5_A5A5; buffer];
            let table = reader.table(lent, object, &mut answer.words);
            table.map(|(size, rows)| {
                let rows: Vec<String> = rows.iter().map(|[p, v]| format!("{p}:{v}")).collect();
                format!("size={size} rows={} words={buffer}", rows.join(","))
            })
        }
        Request::Row {
            layout,
            place,
            valid,
        } => Ok(part_line(reader.row(layout, place, valid))),
        Request::Copies {
            lent,
            object,
            buffer,
        } => {
            answer.rows = vec![0xA5A5_A5A5_A5A5_A5A5; buffer];
            let copies = reader.copies(lent, object, &mut answer.rows);
            copies.map(|copies| copies_line(&copies, buffer))
        }
        Request::Copy { row } => {
            let [chunk, page, valid] = unpacked(row, reader.wrong);
            Ok(format!("chunk={chunk} page={page} valid={valid}"))
        }
        Request::Records {
            lent,
            object,
            buffer,
        } => {
            answer.words = vec![0xA5A5_A5A5; buffer];
            let records = reader.records(lent, object, &mut answer.words);
            records.map(|pages| format!("records={} words={buffer}", joined(&pages)))
        }
        Request::Why {
            on,
            object,
            position,
        } => {
            let why = reader.why(on, object, position);
            answer.bytes.extend(why.map(|why| why.value));
            Ok(why.map_or_else(number_line, why_line))
        }
        Request::Spans { on, object } => {
            let spans = reader.spans(on, object);
            if let Ok(spans) = &spans {
                answer.words = spans.bytes();
            }
            Ok(spans.map_or_else(number_line, spans_line))
        }
        Request::Stands { on, object } => {
            let stands = reader.stands(on, object);
            if let Ok(stands) = &stands {
                answer.rows = stands.iter().flat_map(|(_, s)| s.row()).collect();
            }
            Ok(stands.map_or_else(number_line, stands_line))
        }
        Request::History { on, object } => {
            let history = reader.history(on, object);
            if let Ok(history) = &history {
                answer.rows = history.iter().map(|(_, told)| told.unwrap_or(0)).collect();
            }
            Ok(history.map_or_else(number_line, history_line))
        }
        Request::Tree { on } => {
            let tree = reader.tree(on);
            if let Ok(tree) = &tree {
                (answer.bytes, answer.words) = (tree.text(), tree.rows());
            }
            let text = &answer.bytes;
            tree.map(|tree| tree_line(&tree, text))
                .map_err(Refused::from)
        }
        Request::Fill { word } => {
            reader.fill(word);
            done(Ok(()))
        }
        Request::Poke { at, word } => {
            reader.poke(at, word);
            done(Ok(()))
        }
    };
    answer.line = line.unwrap_or_else(refusal_line);
    answer
}

/// Numbers with commas between them.
fn joined(numbers: &[u32]) -> String {
    let numbers: Vec<String> = numbers.iter().map(u32::to_string).collect();
    numbers.join(",")
}

fn run_line(run: Result<(), (Refusal, u64)>) -> String {
    match run {
        Ok(()) => "done".to_string(),
        Err((refusal, page)) => format!("{} page={page}", refusal_line(refusal.into())),
    }
}

fn copies_line(copies: &Copies, buffer: usize) -> String {
    let copy = |[chunk, page, valid]: &Copy| format!("{chunk}:{page}:{valid}");
    let all: Vec<String> = copies.copies.iter().map(copy).collect();
    let (size, damaged) = (copies.size, u8::from(copies.damaged));
    let all = all.join(",");
    format!("size={size} copies={all} damaged={damaged} rows={buffer}")
}

/// A refusal by its number alone.
fn number_line(refused: Refused) -> String {
    format!("refusal={}", refused.refusal as u8)
}

fn why_line(why: Why) -> String {
    let field = |name: &str, value: Option<u64>| match value {
        Some(value) => format!(" {name}={value}"),
        None => String::new(),
    };
    let page = field("page", why.reason.page().map(|page| page as u64));
    let (name, byte) = (why.reason.name(), field("byte", why.byte));
    format!("reason={name}{page}{byte} until={}", why.until)
}

fn spans_line(spans: Spans) -> String {
    let runs = spans.runs.iter().map(|(from, reason)| {
        let name = reason.name();
        match reason.page() {
            Some(page) => format!("{from}:{name}:{page}"),
            None => format!("{from}:{name}"),
        }
    });
    let runs: Vec<String> = runs.collect();
    format!("size={} spans={}", spans.size, runs.join(","))
}

/// Records with how they stand, and what that names.
fn stands_line(stands: Vec<(usize, Standing)>) -> String {
    let records = stands.iter().map(|(page, standing)| {
        let name = standing.name();
        match standing {
            Standing::Superseded { by } | Standing::Cut { by } => format!("{page}:{name}:{by}"),
            Standing::Holds { from, until } => format!("{page}:{name}:{from}:{until}"),
            _ => format!("{page}:{name}"),
        }
    });
    let records: Vec<String> = records.collect();
    format!("stands={}", records.join(","))
}

/// Records with the size or the refusal after each.
fn history_line(history: Vec<(usize, Told)>) -> String {
    let records = history.iter().map(|(page, told)| match told {
        Ok(size) => format!("{page}:size:{size}"),
        Err(refusal) => format!("{page}:refusal:{}", *refusal as u8),
    });
    let records: Vec<String> = records.collect();
    format!("history={}", records.join(","))
}

fn tree_line(tree: &Tree, text: &[u8]) -> String {
    let (listed, others) = (tree.listed.len(), tree.others.len());
    let (length, crc) = (text.len(), crc32(text));
    format!("listed={listed} others={others} text={length}/{crc:08x}")
}

fn done(result: Result<(), Refusal>) -> Result<String, Refused> {
    result.map(|()| "done".to_string()).map_err(Refused::from)
}

fn refusal_line(refused: Refused) -> String {
    let line = format!(
        "refusal={} visits={}",
        refused.refusal as u8, refused.visits
    );
    match refused.need {
        Some(need) => format!("{line} need={need}"),
        None => line,
    }
}

fn counts_line(reader: &Reader<'_>, layout: Named, k: u64) -> Result<String, Refused> {
    let c = reader.counts(layout, k)?;
    Ok(format!(
        "blank={} foreign={} damaged={} headers={} data={}",
        c.blank, c.foreign, c.damaged, c.headers, c.data
    ))
}

fn part_line(part: Option<(usize, &[u8])>) -> String {
    match part {
        Some((at, bytes)) => format!("part={at}+{}/{:08x}", bytes.len(), crc32(bytes)),
        None => "part=empty".to_string(),
    }
}

fn kind_line(kind: Kind) -> String {
    let record = match kind {
        Kind::Blank => return "blank".to_string(),
        Kind::Foreign => return "foreign".to_string(),
        Kind::Damaged => return "damaged".to_string(),
        Kind::Record(record) => record,
    };
    let tags = format!("sequence={} object={}", record.sequence, record.object);
    match record.body {
        Body::Header {
            file_type,
            parent,
            size,
            shrink,
        } => {
            let shrink = u8::from(shrink);
            format!("header {tags} type={file_type} parent={parent} size={size} shrink={shrink}")
        }
        Body::Data { chunk, count } => format!("data {tags} chunk={chunk} count={count}"),
    }
}

fn header_line(fields: &[(&str, Field<'_>)]) -> String {
    let shown: Vec<String> = fields
        .iter()
        .map(|(name, field)| match field {
            Field::Number(number) => format!("{name}={number}"),
            Field::Bytes(bytes) => format!("{name}={}", hex(bytes)),
        })
        .collect();
    shown.join(" ")
}

fn hex(bytes: &[u8]) -> String {
    bytes.iter().map(|byte| format!("{byte:02x}")).collect()
}

fn chunk_line(chunk: Chunk) -> String {
    let place = match chunk.page {
        Some(page) => format!("page={page}"),
        None => "hole".to_string(),
    };
    format!(
        "{place} valid={} shown={} visits={}",
        chunk.valid, chunk.shown, chunk.visits
    )
}
