//! The vectors of the program `replay`, and the second reader's answers to
//! them. The program is given the stored vectors and must print the stored
//! answers; `LOHENARR_BLESS=1` stores both anew.

mod vectors;

use std::{env, fs};

use crate::second::cells::link_of;
use crate::second::index::{Lent, Over, Reader};
use crate::second::layout::Layout;
use crate::second::page::LAST_CHUNK;
use crate::second::refusal::Refusal;
use crate::second::report::{report, LONGEST_INPUT};
use crate::second::script::{answer, Request};
use crate::second::wrong::Wrong;
use vectors::{vectors, Vector, ALWAYS};

/// The last chunk that each object is asked for.
const CHUNKS: u64 = 6;

/// The words that the program lends: to the index, a list and a table.
const INDEX: u64 = 512;
const IDS: usize = 128;
const TABLE: u64 = 64;

#[test]
fn the_stored_vectors_and_answers_are_these() {
    let vectors = vectors();
    let input: Vec<u8> = vectors.iter().flat_map(bytes).collect();
    assert!(input.len() <= LONGEST_INPUT, "{} bytes", input.len());
    let numbered = vectors.iter().enumerate();
    let output: String = numbered
        .map(|(number, vector)| format!("vector={number}\n{}", lines(vector)))
        .collect();
    stored("stdin", &input);
    stored("stdout", output.as_bytes());
}

/// Holds a file of the program to these bytes.
fn stored(name: &str, bytes: &[u8]) {
    let path = format!("{}/../crates/replay/{name}", env!("CARGO_MANIFEST_DIR"));
    if env::var_os("LOHENARR_BLESS").is_some() {
        fs::write(&path, bytes).unwrap();
    }
    assert!(
        fs::read(&path).unwrap() == bytes,
        "crates/replay/{name} differs"
    );
}

/// A vector as the program reads it: K, three bytes of length, the dump.
fn bytes(vector: &Vector) -> Vec<u8> {
    let length = (vector.dump.len() as u32).to_le_bytes();
    [&[vector.k], &length[..3], &vector.dump].concat()
}

/// What the program prints for a vector behind its number.
fn lines(vector: &Vector) -> String {
    let k = vector.k.into();
    let mut lines = report(&vector.dump, k);
    let mut reader = Reader::lent(&vector.dump, INDEX, Wrong::None);
    let Ok(found) = reader.find(k) else {
        return lines;
    };
    let (layout, words) = (found.into(), INDEX);
    let lent = Lent { layout, k, words };
    let over = Over::Index(lent);
    reader.start(lent, 0).unwrap();
    let pages = vector.dump.len() / found.page();
    for page in (0..pages).rev() {
        reader.add(lent, page as u64).unwrap();
    }
    lines.extend((0..pages).map(|page| cell(&reader.words, page)));
    let live = reader.list(over, &mut [0; IDS]).unwrap();
    for id in live.into_iter().chain([ALWAYS]) {
        let object = id.into();
        let chunks = (1..=CHUNKS).map(|n| Request::Chunk { over, object, n });
        lines += &format!("object={id}\n");
        for request in [Request::Size { over, object }].into_iter().chain(chunks) {
            lines += &(answer(&mut reader, &request).line + "\n");
        }
        lines += &table(&reader, found, over, object);
    }
    lines
}

/// The line of a page's link and of the three words of the table behind it.
fn cell(words: &[u32], page: usize) -> String {
    let [link, a, b, c] = [0, 1, 2, 3].map(|behind| words[link_of(page) + behind]);
    format!("link={link} table={a}/{b}/{c}\n")
}

/// The lines of a file's table: a row for each chunk, by its lookup.
fn table(reader: &Reader<'_>, layout: Layout, over: Over, object: u64) -> String {
    let size = match reader.size(over, object) {
        Ok((size, _)) => size,
        Err(refused) => return format!("refusal={} need=0\n", refused.refusal as u8),
    };
    let count = size.div_ceil(layout.data as u64).min(LAST_CHUNK);
    if 2 * count > TABLE {
        return format!(
            "refusal={} need={}\n",
            Refusal::ShortBuffer as u8,
            2 * count
        );
    }
    let row = |n| {
        let chunk = reader.chunk(over, object, n).unwrap();
        let place = chunk.page.map_or(0, |page| page + 2);
        format!("row={place}/{}\n", chunk.valid)
    };
    (1..=count).map(row).collect()
}
