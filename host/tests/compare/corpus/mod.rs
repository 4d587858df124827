//! Dumps that a YAFFS2 driver wrote, and what the driver shows of them.
//!
//! - `command`: what the command reads of them.
//! - `certify`: the certificates of their files.
//! - `records`: how the records of their files stand.
//! - `tree`: their paths.
//! - `compare`: an evening's beside the morning's.
//! - `export`: what is exported of them.
//!
//! What the second reader makes of them is among its own tests.

mod certify;
mod command;
mod compare;
mod export;
mod records;
mod tree;

use std::fs;
use std::path::{Path, PathBuf};

/// A dump with what the driver shows.
pub struct Case {
    pub name: String,
    pub dump: Vec<u8>,
    pub layout: String,
    pub block: String,
    /// The ids of all objects, and the files among them.
    pub objects: Vec<u32>,
    pub files: Vec<File>,
    pub paths: Vec<Shown>,
}

/// An object as the driver shows it.
#[derive(Clone, Debug, PartialEq, Eq, PartialOrd, Ord)]
pub struct Shown {
    pub object: u32,
    pub file_type: u32,
    pub path: String,
}

pub struct File {
    pub object: u32,
    pub size: u64,
    pub sha256: String,
}

/// The ids that the driver gives itself: the root and lost+found, which may
/// have no page or not be shown.
pub const DRIVERS_OWN: u32 = 2;

/// The cases in the repository, or in another folder that the environment
/// names.
pub fn cases() -> Vec<Case> {
    let folder = match std::env::var_os("LOHENARR_CORPUS") {
        Some(folder) => folder.into(),
        None => Path::new(env!("CARGO_MANIFEST_DIR")).join("tests/corpus"),
    };
    let entries = fs::read_dir(&folder).unwrap_or_else(|e| panic!("{}: {e}", folder.display()));
    let mut texts: Vec<PathBuf> = entries.map(|entry| entry.unwrap().path()).collect();
    texts.retain(|path| path.extension().is_some_and(|e| e == "txt"));
    texts.sort();
    assert!(!texts.is_empty(), "no case in {}", folder.display());
    texts.iter().map(|text| case(text)).collect()
}

/// The cases of each controller, an evening's and the morning's behind it.
pub fn nights() -> Vec<[Case; 2]> {
    let mut nights = Vec::new();
    let mut evening: Option<Case> = None;
    for case in cases() {
        match (case.name.strip_suffix("-morning"), evening.take()) {
            (Some(name), Some(evening)) if evening.name == format!("{name}-evening") => {
                nights.push([evening, case]);
            }
            _ => evening = Some(case),
        }
    }
    assert!(!nights.is_empty(), "no evening with its morning");
    nights
}

fn case(path: &Path) -> Case {
    let text = fs::read_to_string(path).unwrap();
    let (first, shown) = text.split_once('\n').unwrap();
    let object = |line| value(line, "object").parse().unwrap();
    let file = |line| File {
        object: object(line),
        size: value(line, "size").parse().unwrap(),
        sha256: value(line, "sha256").to_string(),
    };
    let shown_as = |line| Shown {
        object: object(line),
        file_type: value(line, "type").parse().unwrap(),
        path: value(line, "path").to_string(),
    };
    let files = shown.lines().filter(|line| value(line, "type") == "1");
    Case {
        name: path.file_stem().unwrap().to_string_lossy().into_owned(),
        dump: dump(path),
        layout: value(first, "layout").to_string(),
        block: value(first, "block").to_string(),
        objects: shown.lines().map(object).collect(),
        files: files.map(file).collect(),
        paths: shown.lines().map(shown_as).collect(),
    }
}

/// The value of `key=` in a line of words, which must have it.
fn value<'l>(line: &'l str, key: &str) -> &'l str {
    let mut words = line.split_whitespace();
    let value = words.find_map(|word| word.strip_prefix(key)?.strip_prefix('='));
    value.unwrap_or_else(|| panic!("no {key}= in: {line}"))
}

/// The dump beside a text, kept as runs or as it is.
fn dump(text: &Path) -> Vec<u8> {
    match fs::read_to_string(text.with_extension("runs")) {
        Ok(runs) => runs.split_whitespace().flat_map(run).collect(),
        Err(_) => fs::read(text.with_extension("bin")).unwrap(),
    }
}

/// The bytes of a word: in hex, or `HH*N` for N times the byte HH.
fn run(word: &str) -> Vec<u8> {
    let (digits, times) = word.split_once('*').unwrap_or((word, "1"));
    let pairs = digits.as_bytes().chunks(2);
    let byte = |pair| u8::from_str_radix(str::from_utf8(pair).unwrap(), 16).unwrap();
    let bytes: Vec<u8> = pairs.map(byte).collect();
    bytes.repeat(times.parse().unwrap())
}
