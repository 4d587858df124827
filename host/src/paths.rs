//! Objects as they are typed: by an id, or by a path from the root, which the tree
//! answers for. Names and rows are the library's; a path is compared with them word by
//! word.

use std::collections::HashMap;
use std::ffi::OsString;
use std::os::unix::ffi::OsStringExt;

use clap::builder::{OsStringValueParser, TypedValueParser};

use crate::fields::text;
use crate::tree::{PathBuffer, Place, Row, Tree};
use crate::typed::Typed;

/// The type of a directory.
const DIRECTORY: u32 = 3;

/// So many ids are said where a path names more than one object.
const MANY: usize = 100;

/// An object as it was typed.
#[derive(Clone, Debug)]
pub enum Named {
    Id(Typed),
    Path(Path),
}

impl Named {
    /// Reads an id or a path, whatever its bytes.
    pub fn parser() -> impl TypedValueParser<Value = Named> {
        OsStringValueParser::new().try_map(Named::read)
    }

    /// An id or a path, or what it has to be.
    pub fn read(word: OsString) -> Result<Named, &'static str> {
        let word = word.into_vec();
        if word.starts_with(b"/") {
            return Ok(Named::Path(Path(word)));
        }
        let number = str::from_utf8(&word)
            .ok()
            .and_then(|text| Typed::number(text).ok());
        let id = number.map(Named::Id);
        id.ok_or("an id, decimal or with 0x, or a path that begins with /")
    }
}

/// A path as it was typed: it begins with a slash.
#[derive(Clone, Debug)]
pub struct Path(Vec<u8>);

impl Path {
    /// The one object of a tree with this path, or in half a sentence why there is none,
    /// and in the other what to ask instead.
    pub fn object(&self, tree: &Tree<'_>) -> Result<u32, [String; 2]> {
        let path = text(&self.0);
        let (inner, directory) = self.inner();
        if inner.is_empty() {
            let root = "/ is the root, object 1, which is reached by its id";
            return Err([root.to_string(), self.shown(tree)]);
        }
        let words: Vec<&[u8]> = inner.split(|&byte| byte == b'/').collect();
        if words
            .iter()
            .any(|word| [&b""[..], b".", b".."].contains(word))
        {
            let no_word = "a word between its slashes is empty, . or ..";
            let none = format!("no object has the path {path}: {no_word}");
            return Err([none, self.shown(tree)]);
        }
        let found = found(tree, &words);
        let mut named = found[words.len()].clone();
        if directory {
            named.retain(|&row| tree.header(row).page_type == DIRECTORY);
        }
        match named[..] {
            [row] => Ok(tree.header(row).object),
            [] => {
                let there = there(tree, &words, &found);
                let none = format!("no object has the path {path}: {there}");
                let mut next = self.shown(tree);
                if next.is_empty() {
                    next += "; lohenarr tree shows the paths there are";
                }
                Err([none, next])
            }
            _ => {
                let (count, ids) = (named.len(), ids(tree, &named));
                let several = format!("{count} objects have the path {path}: {ids}");
                Err([several, "; name one by its id".to_string()])
            }
        }
    }

    /// What has the same bytes as its path, by names that are no words of one.
    fn shown(&self, tree: &Tree<'_>) -> String {
        let mut buffer = PathBuffer::default();
        let listed = tree.rows().take(tree.listed() as usize);
        let shown: Vec<Row> = listed
            .filter(|&row| tree.path(row, &mut buffer) == self.0)
            .collect();
        let ids = ids(tree, &shown);
        match shown.len() {
            0 => String::new(),
            1 => format!("; object {ids} is shown so, and is reached by its id"),
            _ => format!("; objects {ids} are shown so, and are reached by their ids"),
        }
    }

    /// What stands between the first slash and the last one, and whether that one asks
    /// for a directory.
    fn inner(&self) -> (&[u8], bool) {
        let inner = &self.0[1..];
        match inner.strip_suffix(b"/") {
            Some(rest) if !rest.is_empty() => (rest, true),
            _ => (inner, false),
        }
    }
}

/// For each number of words, from none on, the rows whose paths are so many of the
/// first words: one word a name. A directory stands before its entries.
fn found(tree: &Tree<'_>, words: &[&[u8]]) -> Vec<Vec<Row>> {
    let mut found = vec![Vec::new(); words.len() + 1];
    // how many words a directory's path is, and how many bytes
    let mut directories: HashMap<u32, (usize, usize)> = HashMap::new();
    let mut buffer = PathBuffer::default();
    for row in tree.rows() {
        let (depth, length) = match row.place {
            Place::In(None) => (0, 0),
            Place::In(Some(directory)) => match directories.get(&directory) {
                Some(&at) => at,
                None => continue,
            },
            Place::Nowhere(_) => break,
        };
        let Some(&word) = words.get(depth) else {
            continue;
        };
        let path = tree.path(row, &mut buffer);
        if path.get(length + 1..) == Some(word) {
            directories.insert(row.number, (depth + 1, path.len()));
            found[depth + 1].push(row);
        }
    }
    found
}

/// Which part of a path is there, and where it ends.
fn there(tree: &Tree<'_>, words: &[&[u8]], found: &[Vec<Row>]) -> String {
    let depth = found.iter().rposition(|rows| !rows.is_empty());
    let Some(depth) = depth else {
        return format!("the root has no entry {}", text(words[0]));
    };
    let rows = &found[depth];
    let part: String = words[..depth]
        .iter()
        .map(|word| format!("/{}", text(word)))
        .collect();
    let is_directory = |row: &Row| tree.header(*row).page_type == DIRECTORY;
    let one = rows.len() == 1;
    let end = match (words.get(depth), rows.iter().any(is_directory)) {
        (Some(word), true) if one => format!("which has no entry {}", text(word)),
        (Some(word), true) => format!("which have no entry {}", text(word)),
        _ if one => "which is no directory".to_string(),
        _ => "which are no directories".to_string(),
    };
    let is = if one { "is object" } else { "are objects" };
    format!("{part} {is} {}, {end}", ids(tree, rows))
}

/// The ids of rows, as a person would list them.
fn ids(tree: &Tree<'_>, rows: &[Row]) -> String {
    let mut ids: Vec<u32> = rows.iter().map(|&row| tree.header(row).object).collect();
    ids.sort_unstable();
    let more = ids.len().saturating_sub(MANY);
    let mut ids: Vec<String> = ids.iter().take(MANY).map(u32::to_string).collect();
    if more > 0 {
        ids.push(format!("{more} more"));
    }
    match &ids[..] {
        [ids @ .., last] if !ids.is_empty() => format!("{} and {last}", ids.join(", ")),
        _ => ids.concat(),
    }
}
