//! What the library leaves in the memory that it is lent for a tree and its text: too
//! little is refused and left alone, working words are cleared, and behind what is
//! needed nothing is written.

use lohenarr::ffi::{self, Geometry, AS_IT_STANDS};
use lohenarr::refusal::SHORT_BUFFER;

use crate::generator::case;
use crate::library;
use crate::second::script::Request;
use crate::second::wrong::Wrong;

const DUMPS: u64 = 600;

/// What the memory holds before a call.
const WORD: u64 = 0xA5A5_A5A5_A5A5_A5A5;
const BYTE: u8 = 0xA5;

/// A dump as a tree is asked of it.
struct Asked<'d> {
    dump: &'d [u8],
    on: Geometry,
    before: u32,
    place: String,
}

impl Asked<'_> {
    /// A call on slices of so many words, and these afterwards.
    fn called(&self, lengths: [usize; 3]) -> (ffi::TreeAnswer, [Vec<u64>; 3]) {
        let mut slices = lengths.map(|length| vec![WORD; length]);
        let [rows, heads, work] = &mut slices;
        let answer = ffi::dump_tree(self.dump, self.on, self.before, rows, heads, work);
        (answer, slices)
    }

    /// The call is refused so and writes nothing.
    fn refused(&self, lengths: [usize; 3], refusal: u32) -> ffi::TreeAnswer {
        let (answer, slices) = self.called(lengths);
        let place = &self.place;
        assert_eq!(answer.refusal, refusal, "{place}: {lengths:?}");
        let kept = slices.iter().flatten().all(|&word| word == WORD);
        assert!(kept, "{place}: {lengths:?}: refused and written");
        answer
    }

    /// The call with as many words as there are headers, and with more; and with one
    /// fewer in any slice. Gives the rows, and how many of them have a path.
    fn answered(&self, headers: usize) -> (Vec<u64>, u32) {
        for short in (0..3).filter(|_| headers > 0) {
            let mut lengths = [headers + 3; 3];
            lengths[short] = headers - 1;
            let answer = self.refused(lengths, SHORT_BUFFER);
            assert_eq!(answer.need as usize, headers, "{}", self.place);
        }
        let mut rows = Vec::new();
        let mut listed = 0;
        for more in [[0, 0, 0], [5, 3, 1], [0, 7, 9]] {
            let lengths = more.map(|more| headers + more);
            let (answer, slices) = self.called(lengths);
            let place = format!("{}: {lengths:?}", self.place);
            assert_eq!(answer.refusal, 0, "{place}");
            let count = (answer.listed + answer.others) as usize;
            let behind = slices[0][count..].iter();
            assert!(behind.copied().all(|word| word == WORD), "{place}: rows");
            for words in &slices[1..] {
                let (needed, behind) = words.split_at(headers);
                assert!(needed.iter().all(|&word| word == 0), "{place}: cleared");
                assert!(behind.iter().all(|&word| word == WORD), "{place}: behind");
            }
            rows = slices[0][..count].to_vec();
            listed = answer.listed;
        }
        (rows, listed)
    }
}

/// A text is written whole and no further, and not at all where one byte is missing.
pub fn holds(place: &str, text: &[u8], write: impl Fn(&mut [u8]) -> ffi::TextAnswer) {
    if let Some(short) = text.len().checked_sub(1) {
        let mut buffer = vec![BYTE; short];
        let answer = write(&mut buffer);
        assert_eq!(answer.refusal, SHORT_BUFFER, "{place}");
        assert_eq!(answer.need, text.len() as u64, "{place}");
        assert!(buffer.iter().all(|&byte| byte == BYTE), "{place}: short");
    }
    for more in [0, 4] {
        let mut buffer = vec![BYTE; text.len() + more];
        let answer = write(&mut buffer);
        assert_eq!(answer.refusal, 0, "{place}");
        assert_eq!(answer.length, text.len() as u64, "{place}");
        let (written, behind) = buffer.split_at(text.len());
        assert!(written == text, "{place}");
        assert!(behind.iter().all(|&byte| byte == BYTE), "{place}: behind");
    }
}

#[test]
fn trees_keep_to_the_memory_that_they_need() {
    let (mut trees, mut paths) = (0, 0);
    for case in (0..DUMPS).map(case) {
        let dump = &case.dump.bytes;
        let reader = case.reader(Wrong::None);
        for request in &case.requests {
            let Request::Tree { on: past } = *request else {
                continue;
            };
            let lohenarr::script::request::Request::Tree { on, before } = library::read(request)
            else {
                panic!("{request} is read as something else");
            };
            let asked = Asked {
                dump,
                on,
                before: before.unwrap_or(AS_IT_STANDS),
                place: format!("seed {}: {request}", case.seed),
            };
            let tree = match reader.tree(past) {
                Ok(tree) => tree,
                Err(refusal) => {
                    asked.refused([0; 3], refusal as u32);
                    asked.refused([9; 3], refusal as u32);
                    continue;
                }
            };
            let (rows, listed) = asked.answered(tree.headers);
            let place = &asked.place;
            holds(place, &tree.text(), |buf| {
                ffi::tree_text(dump, on, &rows, listed, buf)
            });
            for (row, entry) in (0..).zip(&tree.listed) {
                holds(place, &entry.path, |buf| {
                    ffi::tree_path(dump, on, &rows, row, buf)
                });
                paths += 1;
            }
            trees += 1;
        }
    }
    println!("{trees} trees, {paths} paths");
    assert!(trees > DUMPS && paths > DUMPS, "too few trees");
}

/// A dump that cannot be read has no texts either.
#[test]
fn texts_are_refused_as_dumps_are() {
    let dump = include_bytes!("../data/W");
    let on = |layout, block| Geometry { layout, block };
    for (on, refusal) in [(on(13, 1), 1), (on(6, 0), 1), (on(6, 3), 2)] {
        let mut buffer = [BYTE; 99];
        for rows in [&[][..], &[0, 1 << 32]] {
            let text = ffi::tree_text(dump, on, rows, rows.len() as u32, &mut buffer);
            let path = ffi::tree_path(dump, on, rows, 0, &mut buffer);
            assert_eq!([text.refusal, path.refusal], [refusal; 2], "{on:?}");
        }
        assert!(buffer == [BYTE; 99]);
    }
}

/// A row may be any number, and rows that no tree has make some text.
#[test]
fn every_row_tells_something() {
    let dump = include_bytes!("../data/W");
    let on = Geometry {
        layout: 6,
        block: 4,
    };
    let mut buffer = vec![0; 1 << 16];
    for bit in 0..64 {
        for row in [1 << bit, u64::MAX >> bit, !(1 << bit)] {
            assert_eq!(ffi::tree_row(row), ffi::tree_row(row));
            for rows in [&[row][..], &[row, row], &[0, row, u64::MAX]] {
                for listed in [0, 1, 2, u32::MAX] {
                    ffi::tree_text(dump, on, rows, listed, &mut buffer);
                    ffi::tree_path(dump, on, rows, listed, &mut buffer);
                }
            }
        }
    }
}
