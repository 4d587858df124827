//! Measures the proved library against plain Rust that does the same by the
//! same rules over the same mapped dump, and prints ratios.
//!
//!     cargo run --release --bin bench -- [MIB] [ROUNDS]
//!
//! The dump is written to a file of the system's temporary folder, mapped,
//! and read once before anything is timed. The two take turns, each going
//! first as often as the other. Shown are best and median of each, the ratio of
//! the bests, and the median of the ratios of neighbouring turns.
//!
//! `find 0`, `find 2` and `find 30` are the finding on dumps with their tags at
//! that offset, and those with `all` on as much of the dump as every layout
//! divides into blocks. `touch` beside each has in place of plain Rust one word
//! read of each page of the dump's own layout: the least that a scan costs. The
//! other rows are on the dump with its tags at 0.
//!
//! Plain Rust has the same index words, filled in the same order, and tries
//! each link that it meets. `table` is the rows of the long file, by one walk on
//! both sides, and `copies` its shown copies; `read` is every short file and
//! `long` the long one, each by its table, and both sides copy each piece of the
//! dump to the same buffer. `spans` is why each byte of the long file is what it
//! is, and `spans short` of a short one, from the dump alone: plain Rust goes over
//! it once, and keeps the object's records. `records` is how each record of the long
//! file stands, and `history` what the file was after each, in the same way. `tree` is the text of the tree, and
//! `tree full` the same on a dump in which every page is the header of an object of
//! its own: plain Rust sorts what the library does. `compare` is what differs between
//! the dump and the same with a few pages in a hundred changed, object by object: plain
//! Rust sorts the records of both, and compares bytes as slices.
//!
//! `bench compare EVENING MORNING` times the whole command on two files beside `cmp -l`,
//! and `bench hostile` measures the commands on dumps that are made to be slow.

mod compare;
mod dump;
mod find;
mod find_rows;
mod forest;
mod hostile;
mod index;
mod plain;
mod records;
mod sleuthkit;
mod spans;
mod timing;
mod tree;
mod whole;

use std::cell::RefCell;
use std::convert::Infallible;
use std::env;
use std::fmt;
use std::fs;
use std::hint::black_box;
use std::path::{Path, PathBuf};
use std::process::{self, ExitCode};

use lohenarr::compare::{Comparison, Prepared};
use lohenarr::dump::Dump;
use lohenarr::ffi::{self, Geometry};
use lohenarr::objects::Objects;
use lohenarr::reasons::Reasons;
use lohenarr::tree::Tree;

use dump::LONG;
use index::Index;

const BLOCK: u32 = 64;
/// How many times over the sizes of all files are asked for: once is too short
/// to be timed.
const TIMES: usize = 10;

fn main() -> ExitCode {
    match env::args_os().nth(1) {
        Some(word) if word == "hostile" => return ended(hostile::measure(env::args_os().skip(2))),
        Some(word) if word == "compare" => return ended(whole::measure(env::args_os().skip(2))),
        _ => {}
    }
    let mut numbers = env::args().skip(1).map(|word| word.parse::<usize>());
    let mib = numbers.next().unwrap_or(Ok(256));
    let rounds = numbers.next().unwrap_or(Ok(15));
    let (Ok(mib @ 1..=1024), Ok(rounds @ 1..)) = (mib, rounds) else {
        eprintln!(
            "usage: bench [MIB, at most 1024] [ROUNDS], bench compare EVENING MORNING [OPTIONS], \
             or bench hostile [FOLDER] [PROGRAM]"
        );
        return ExitCode::from(2);
    };
    ended(measure(mib, rounds))
}

fn ended(measured: Result<(), String>) -> ExitCode {
    match measured {
        Ok(()) => ExitCode::SUCCESS,
        Err(error) => {
            eprintln!("{error}");
            ExitCode::from(2)
        }
    }
}

/// All rows. A dump is gone before the next one is written; the one with its
/// tags at 0 comes last and serves all other rows.
fn measure(mib: usize, rounds: usize) -> Result<(), String> {
    timing::head();
    full(mib, rounds)?;
    for tag in [30, 2] {
        let file = Temporary::new("dump");
        find_rows::measure(&generated(&file, mib, tag)?, tag, rounds);
    }
    let file = Temporary::new("dump");
    let out = Temporary::new("out");
    let dump = generated(&file, mib, 0)?;
    find_rows::measure(&dump, 0, rounds);
    pages(&dump, rounds);
    compared(&dump, rounds)?;
    sleuthkit::compare(&file.0, &out.0, &[LONG + 1, LONG]);
    Ok(())
}

/// A dump with its tags at this offset, written to the file and mapped.
fn generated(file: &Temporary, mib: usize, tag: u32) -> Result<Dump, String> {
    let path = &file.0;
    dump::write(path, mib, tag as usize)
        .map_err(|error| format!("cannot write {}: {error}", path.display()))?;
    Dump::open(path.as_os_str(), false)
}

/// The row of a dump whose pages are all headers.
fn full(mib: usize, rounds: usize) -> Result<(), String> {
    let file = Temporary::new("dump");
    let path = &file.0;
    forest::write(path, mib)
        .map_err(|error| format!("cannot write {}: {error}", path.display()))?;
    let dump = Dump::open(path.as_os_str(), false)?;
    let layout = ffi::find(&dump, BLOCK);
    assert_eq!(layout.refusal, 0, "the generated dump has a layout");
    let on = Geometry {
        layout: layout.number,
        block: BLOCK,
    };
    tree("tree full", &dump, on, rounds);
    Ok(())
}

/// The text of a tree, by the library and in plain Rust.
fn tree(name: &str, dump: &[u8], on: Geometry, rounds: usize) {
    timing::compare(
        name,
        rounds,
        || Tree::of(dump, on, None).map(|tree| Bytes(tree.text(u64::MAX).unwrap_or_default())),
        || Ok(Bytes(tree::text(dump, on.layout))),
    );
}

/// The row of a dump beside the same with a few pages changed.
fn compared(dump: &[u8], rounds: usize) -> Result<(), String> {
    let file = Temporary::new("other");
    let path = &file.0;
    dump::rewrite(dump, path)
        .map_err(|error| format!("cannot write {}: {error}", path.display()))?;
    let other = Dump::open(path.as_os_str(), false)?;
    let layout = ffi::find(dump, BLOCK);
    assert_eq!(layout.refusal, 0, "the generated dump has a layout");
    let on = Geometry {
        layout: layout.number,
        block: BLOCK,
    };
    let cut = |dump| compare::Cut {
        dump,
        layout: on.layout,
    };
    timing::compare(
        "compare",
        rounds,
        || differences(dump, &other, on).map(Bytes),
        || Ok(Bytes(compare::text(cut(dump), cut(&other)))),
    );
    Ok(())
}

/// What differs between two dumps, by the library.
fn differences(first: &[u8], second: &[u8], on: Geometry) -> Result<Vec<u8>, u32> {
    let (first, second) = (Prepared::of(first, on)?, Prepared::of(second, on)?);
    let mut left = Comparison::of(&first, &second);
    let mut text = Vec::new();
    while let Some(report) = left.next_object()? {
        text.extend_from_slice(report.text);
    }
    Ok(text)
}

/// Bytes that are not shown where they differ.
#[derive(PartialEq)]
struct Bytes(Vec<u8>);

impl fmt::Debug for Bytes {
    fn fmt(&self, f: &mut fmt::Formatter<'_>) -> fmt::Result {
        write!(f, "{} bytes", self.0.len())
    }
}

/// The rows of the dump that are not about its layout.
fn pages(dump: &[u8], rounds: usize) {
    let layout = ffi::find(dump, BLOCK);
    assert_eq!(layout.refusal, 0, "the generated dump has a layout");
    let on = Geometry {
        layout: layout.number,
        block: BLOCK,
    };
    timing::compare(
        "counts",
        rounds,
        || {
            let c = ffi::counts(dump, on);
            [c.blank, c.foreign, c.damaged, c.headers, c.data]
        },
        || plain::counts(dump, on.layout),
    );
    for (name, object) in [("spans", LONG), ("spans short", LONG + 1)] {
        timing::compare(
            name,
            rounds,
            || reasons(dump, on, object),
            || spans::spans(dump, on.layout, object),
        );
    }
    timing::compare(
        "records",
        rounds,
        || stands(dump, on, LONG),
        || Ok(records::stands(dump, on.layout, LONG)),
    );
    timing::compare(
        "history",
        rounds,
        || history(dump, on, LONG),
        || Ok(records::history(dump, on.layout, LONG)),
    );
    tree("tree", dump, on, rounds);
    lookups(dump, on, rounds);
}

/// What is asked of the dump alone, as it stands.
fn as_it_stands(dump: &[u8], on: Geometry) -> Reasons<'_> {
    let before = None;
    Reasons { dump, on, before }
}

/// How the records of an object stand, by the library.
fn stands(dump: &[u8], on: Geometry, object: u32) -> Result<Vec<records::Standing>, u32> {
    let rows = as_it_stands(dump, on).stands(object)?;
    let rows = rows.iter();
    Ok(rows
        .map(|row| (row.page, row.stands, row.by, row.from, row.until))
        .collect())
}

/// What a file was after each of its records, by the library.
fn history(dump: &[u8], on: Geometry, object: u32) -> Result<Vec<records::After>, u32> {
    let told = |row: &ffi::HistoryAnswer| match row.refusal {
        0 => (row.page, Ok(row.size)),
        refusal => (row.page, Err(refusal)),
    };
    let rows = as_it_stands(dump, on).history(object)?;
    Ok(rows.iter().map(told).collect())
}

/// The runs of a live file, by the library.
fn reasons(dump: &[u8], on: Geometry, object: u32) -> Option<Vec<spans::Span>> {
    let (answer, rows) = as_it_stands(dump, on).spans(object);
    let spans = rows.into_iter().map(|row| ffi::span(on, row));
    (answer.refusal == 0).then(|| spans.map(|s| (s.from, s.reason, s.page)).collect())
}

/// The index of every page, and lookups by it.
fn lookups(dump: &[u8], on: Geometry, rounds: usize) {
    let anonymous = memory("RssAnon");
    let library = Objects::of(dump, on).expect("the dump is accepted");
    let anonymous = memory("RssAnon").saturating_sub(anonymous);
    let plain = Index::of(dump, on);
    timing::compare(
        "index",
        rounds,
        || Objects::of(dump, on).map(|objects| objects.size(LONG).size),
        || Ok(Index::of(dump, on).size(LONG).unwrap_or(0)),
    );
    let files = || LONG..LONG + dump::SHORT;
    let often = || (0..TIMES).flat_map(|_| files());
    timing::compare(
        "size",
        rounds,
        || often().map(|object| library.size(object).size).sum::<u64>(),
        || often().filter_map(|object| plain.size(object)).sum::<u64>(),
    );
    let chunks = || (1..200).map(|i| i * 100);
    timing::compare(
        "chunk",
        rounds,
        || {
            chunks()
                .map(|n| copy(library.chunk(LONG, n)))
                .collect::<Vec<_>>()
        },
        || chunks().map(|n| plain.chunk(LONG, n)).collect(),
    );
    timing::compare("list", rounds, || library.list(), || Ok(plain.list()));
    timing::compare(
        "objects",
        rounds,
        || library.count().count,
        || plain.objects(),
    );
    contents(&library, &plain, rounds);
    let pages = ffi::pages(dump, on).pages;
    println!("dump: {} bytes, {pages} pages, mapped", dump.len());
    println!("files: the long one has {} bytes", library.size(LONG).size);
    println!(
        "memory: the index has {} bytes a page; at most {} KiB in all, {} of them mapped",
        anonymous * 1024 / u64::from(pages),
        memory("VmHWM"),
        memory("RssFile")
    );
    for object in files() {
        let (mut one, mut other) = (Vec::new(), Vec::new());
        read(&library, object, |piece| one.extend_from_slice(piece));
        plain.contents(object, |piece| other.extend_from_slice(piece));
        assert!(one == other, "object {object}: the two differ");
    }
}

/// Tables, and files read whole.
fn contents(library: &Objects<'_>, plain: &Index<'_>, rounds: usize) {
    let short = || LONG + 1..LONG + dump::SHORT;
    timing::compare(
        "table",
        rounds,
        || library.table(LONG).ok().map(|table| table.size),
        || plain.table(LONG).map(|(size, _)| size),
    );
    let memory = RefCell::new(Vec::new());
    timing::compare(
        "copies",
        rounds,
        || {
            let mut memory = memory.borrow_mut();
            let rows = library.copies(LONG, &mut memory).ok()?;
            let copies = rows.iter().map(|&row| ffi::copy(row));
            Some(copies.map(|c| (c.chunk, c.page, c.valid)).collect())
        },
        || plain.copies(LONG),
    );
    let buffer = RefCell::new(vec![0; 1 << 16]);
    let put = |piece: &[u8]| {
        let mut buffer = buffer.borrow_mut();
        buffer[..piece.len()].copy_from_slice(piece);
        black_box(&buffer);
    };
    timing::compare(
        "read",
        rounds,
        || short().for_each(|object| read(library, object, put)),
        || short().for_each(|object| plain.contents(object, put)),
    );
    timing::compare(
        "long",
        rounds,
        || read(library, LONG, put),
        || plain.contents(LONG, put),
    );
}

/// Hands on the pieces of a live file.
fn read(library: &Objects<'_>, object: u32, mut hand_on: impl FnMut(&[u8])) {
    if let Ok(table) = library.table(object) {
        let taken = library.hand_on(&table, |piece| {
            piece.parts().for_each(&mut hand_on);
            Ok::<_, Infallible>(())
        });
        let Ok(()) = taken;
    }
}

/// Page and valid length of a copy.
fn copy(chunk: ffi::ChunkAnswer) -> Option<(u32, u32)> {
    chunk.page().map(|page| (page, chunk.valid))
}

/// A line of what the system says of this process's memory, in KiB.
fn memory(name: &str) -> u64 {
    let status = fs::read_to_string("/proc/self/status").unwrap_or_default();
    let line = status
        .lines()
        .find_map(|line| line.strip_prefix(name)?.strip_prefix(':'));
    let number = line.and_then(|line| line.split_whitespace().next());
    number.and_then(|number| number.parse().ok()).unwrap_or(0)
}

/// The name of a file that goes when this does.
struct Temporary(PathBuf);

impl Temporary {
    fn new(name: &str) -> Temporary {
        Temporary::within(&env::temp_dir(), name)
    }

    fn within(folder: &Path, name: &str) -> Temporary {
        Temporary(folder.join(format!("lohenarr-bench-{}-{name}", process::id())))
    }
}

impl Drop for Temporary {
    fn drop(&mut self) {
        let _ = fs::remove_file(&self.0);
    }
}
