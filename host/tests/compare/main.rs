//! The proved library and a second reader, which shares no code with it, on
//! the same dumps and requests: they must agree on every answer.
//!
//! - `second`: the second reader, written from the documents alone.
//! - `generator`: dumps and requests from a seed.
//! - `library`: the library's answers to the same requests.
//! - `lent`, `lent_records`, `lent_tree`: what reasons, records and trees leave in the
//!   memory that they are lent.
//! - `corpus`: dumps that the YAFFS2 driver wrote.
//! - `pairs`: two dumps compared.
//! - `paths`: objects by their paths.
//! - `replay`: the vectors that the program of that name is held to.
//! - `scores`: the scores of layouts, by which K is found.
//! - `unread`: what stands beside all tags decides no layout.
//!
//! `LOHENARR_SEEDS=N` compares N dumps instead of the usual number.

#[cfg(test)]
mod corpus;
mod generator;
#[cfg(test)]
mod lent;
#[cfg(test)]
mod lent_records;
#[cfg(test)]
mod lent_tree;
mod library;
#[cfg(test)]
mod pairs;
#[cfg(test)]
mod paths;
#[cfg(test)]
mod replay;
#[cfg(test)]
mod scores;
mod second;
#[cfg(test)]
mod unread;

use std::env;

use lohenarr::ffi;
use sha2::{Digest, Sha256};

use generator::case;
use library::Library;
use second::wrong::Wrong;

const SEEDS: u64 = 3000;

#[test]
fn the_library_and_the_second_reader_agree() {
    let seeds = env::var("LOHENARR_SEEDS").map_or(SEEDS, |n| n.parse().unwrap());
    let mut answers = 0;
    for seed in 0..seeds {
        let case = case(seed);
        let expected = case.answers(Wrong::None);
        let mut library = Library::new(&case.dump.bytes, &case.requests);
        for (request, (expected, index)) in case.requests.iter().zip(expected) {
            let answer = library.answer(request);
            let place = || format!("seed {}: {request}", case.seed);
            assert_eq!(answer.line, expected.line, "{}", place());
            assert!(answer.bytes == expected.bytes, "{}: the buffer", place());
            assert!(answer.words == expected.words, "{}: the words", place());
            assert!(answer.rows == expected.rows, "{}: the rows", place());
            assert!(library.index() == index, "{}: the index", place());
            answers += 1;
        }
    }
    println!("{answers} answers on {seeds} dumps");
    assert!(answers > 50 * seeds, "too few answers to compare");
}

#[test]
fn an_index_has_the_words_it_needs() {
    for pages in [0, 1, 8, 2_033_601, u32::MAX] {
        assert_eq!(ffi::cells(pages), second::cells::need(pages as usize));
    }
}

#[test]
fn the_shelf_dump_is_the_builders() {
    assert_eq!(
        include_bytes!("../data/W")[..],
        generator::shelf::shelf().bytes
    );
}

/// The SHA-256 of bytes, in hex.
fn sha256(bytes: &[u8]) -> String {
    format!("{:x}", Sha256::digest(bytes))
}
