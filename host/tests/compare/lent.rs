//! What the library leaves in the memory that it is lent for reasons. How much it
//! needs is its own choice, so that no second reader says it: too little is
//! refused and left alone, and behind what is needed nothing is written.

use lohenarr::ffi::{self, Geometry, AS_IT_STANDS};
use lohenarr::refusal::SHORT_BUFFER;
use lohenarr::script::request::Request;

use crate::generator::case;
use crate::library::read;

const DUMPS: u64 = 600;

/// What the memory holds before a call.
const WORD: u64 = 0xA5A5_A5A5_A5A5_A5A5;

/// How a call ended: its refusal, what it needs, and how many rows it wrote.
type Ended = (u32, u32, usize);

/// A call on memory of so many words: how it ended, and the memory afterwards.
fn called(words: usize, call: impl Fn(&mut [u64]) -> Ended) -> (Ended, Vec<u64>) {
    let mut memory = vec![WORD; words];
    let ended = call(&mut memory);
    (ended, memory)
}

/// Whether the call was answered, with as much memory as it needs.
fn holds(place: &str, call: impl Fn(&mut [u64]) -> Ended) -> bool {
    let ((refusal, need, _), _) = called(0, &call);
    let need = match refusal {
        0 | SHORT_BUFFER => need as usize,
        // the memory decides no other refusal, and none writes
        _ => {
            let (again, memory) = called(9, &call);
            assert_eq!(again.0, refusal, "{place}");
            assert!(memory == [WORD; 9], "{place}: refused and written");
            return false;
        }
    };
    if refusal == SHORT_BUFFER {
        let (short, memory) = called(need - 1, &call);
        assert_eq!((short.0, short.1 as usize), (refusal, need), "{place}");
        assert!(memory.iter().all(|&word| word == WORD), "{place}: short");
    }
    for more in [0, 5] {
        let ((refusal, _, rows), memory) = called(need + more, &call);
        assert_eq!(refusal, 0, "{place}");
        let (front, rest) = memory.split_at(need);
        assert!(rest.iter().all(|&word| word == WORD), "{place}: behind");
        assert!(front[rows..].iter().all(|&word| word == 0), "{place}: rest");
    }
    true
}

#[test]
fn reasons_keep_to_the_memory_that_they_need() {
    let mut answered = 0;
    for case in (0..DUMPS).map(case) {
        let dump = &case.dump.bytes;
        for request in &case.requests {
            let place = format!("seed {}: {request}", case.seed);
            let is_answered = match read(request) {
                Request::Why {
                    on,
                    before,
                    object,
                    position,
                } => holds(&place, |rows| {
                    let before = before.unwrap_or(AS_IT_STANDS);
                    let a = ffi::dump_why(dump, on, before, object, position, rows);
                    (a.refusal, a.need, 0)
                }),
                Request::Spans { on, before, object } => holds(&place, |rows| {
                    let before = before.unwrap_or(AS_IT_STANDS);
                    let a = ffi::dump_spans(dump, on, before, object, rows);
                    (a.refusal, a.need, a.count as usize)
                }),
                _ => continue,
            };
            answered += u64::from(is_answered);
        }
    }
    println!("{answered} reasons");
    assert!(answered > DUMPS, "too few reasons");
}

/// A row may be any number.
#[test]
fn every_row_tells_something() {
    for layout in 0..=13 {
        let on = Geometry { layout, block: 1 };
        for bit in 0..64 {
            for row in [1 << bit, u64::MAX >> bit, !(1 << bit)] {
                let run = ffi::span(on, row);
                assert_eq!(ffi::span(on, row), run);
            }
        }
    }
}
