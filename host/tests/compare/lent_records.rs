//! What the library leaves in the memory that it is lent for the records of an object:
//! too little is refused and left alone, rows and sizes stand in front, working words
//! are cleared, and behind what is needed nothing is written.

use std::array;

use lohenarr::ffi::{self, Geometry, RecordsAnswer, AS_IT_STANDS};
use lohenarr::refusal::SHORT_BUFFER;
use lohenarr::script::request::Request as Typed;

use crate::generator::{case, Case};
use crate::library::read;
use crate::second::index::Refused;
use crate::second::script::Request;
use crate::second::wrong::Wrong;

const DUMPS: u64 = 600;

/// What the memory holds before a call.
const WORDS: [u64; 2] = [0xA5A5_A5A5_A5A5_A5A5, 0];

/// A call that is lent N slices, the first `kept` of which hold its answer.
struct Call<A, const N: usize> {
    place: String,
    kept: usize,
    ask: A,
}

impl<A: Fn(&mut [Vec<u64>; N]) -> RecordsAnswer, const N: usize> Call<A, N> {
    /// The call on slices of so many words, each of which holds this, and the slices
    /// afterwards.
    fn called(&self, lengths: [usize; N], word: u64) -> (RecordsAnswer, [Vec<u64>; N]) {
        let mut slices = lengths.map(|length| vec![word; length]);
        let answer = (self.ask)(&mut slices);
        (answer, slices)
    }

    /// The call is refused so and writes nothing.
    fn refused(&self, lengths: [usize; N], refusal: u32) -> RecordsAnswer {
        let (answer, slices) = self.called(lengths, WORDS[0]);
        let place = format!("{}: {lengths:?}", self.place);
        assert_eq!(answer.refusal, refusal, "{place}");
        let kept = slices.iter().flatten().all(|&word| word == WORDS[0]);
        assert!(kept, "{place}: refused and written");
        answer
    }

    /// The call with as many words as there are records, and with more; and with one
    /// fewer in any slice. Its answer is the same whatever the memory held.
    fn answered(&self, records: usize) {
        for short in 0..N {
            let mut lengths = [records + 3; N];
            lengths[short] = records - 1;
            let answer = self.refused(lengths, SHORT_BUFFER);
            assert_eq!(answer.need as usize, records, "{}", self.place);
        }
        let mut answers = Vec::new();
        for (more, word) in [(0, WORDS[0]), (2, WORDS[0]), (1, WORDS[1])] {
            let lengths = array::from_fn(|slice| records + more * (slice + 1));
            let (answer, mut slices) = self.called(lengths, word);
            let place = format!("{}: {lengths:?}", self.place);
            assert_eq!(
                (answer.refusal, answer.count as usize),
                (0, records),
                "{place}"
            );
            for words in &mut slices {
                let behind = words.split_off(records);
                assert!(behind.iter().all(|&other| other == word), "{place}: behind");
            }
            let mut working = slices[self.kept..].iter().flatten();
            assert!(working.all(|&word| word == 0), "{place}: cleared");
            answers.push(slices);
        }
        let same = answers.iter().all(|answer| *answer == answers[0]);
        assert!(same, "{}: by what the memory held", self.place);
    }

    /// The call is answered or refused as it must be. Whether it was answered.
    fn holds(&self, records: Result<usize, Refused>) -> bool {
        match records {
            Ok(records) => self.answered(records),
            Err(Refused { refusal, .. }) => {
                self.refused([0; N], refusal as u32);
                self.refused([9; N], refusal as u32);
            }
        }
        records.is_ok()
    }
}

/// Whether a request was answered; none where it is about something else.
fn asked(case: &Case, request: &Request) -> Option<bool> {
    let (dump, reader) = (&case.dump.bytes, case.reader(Wrong::None));
    let records = match *request {
        Request::Stands { on, object } => reader.stands(on, object).map(|rows| rows.len()),
        Request::History { on, object } => reader.history(on, object).map(|rows| rows.len()),
        _ => return None,
    };
    let place = format!("seed {}: {request}", case.seed);
    let page = |before: Option<u32>| before.unwrap_or(AS_IT_STANDS);
    Some(match read(request) {
        Typed::Stands { on, before, object } => {
            let ask = |[rows, details, work]: &mut [Vec<u64>; 3]| {
                ffi::dump_stands(dump, on, page(before), object, rows, details, work)
            };
            let kept = 2;
            Call { place, kept, ask }.holds(records)
        }
        Typed::History { on, before, object } => {
            let ask = |[rows, sizes]: &mut [Vec<u64>; 2]| {
                ffi::dump_history(dump, on, page(before), object, rows, sizes)
            };
            let kept = 2;
            Call { place, kept, ask }.holds(records)
        }
        _ => panic!("{place} is read as something else"),
    })
}

#[test]
fn records_keep_to_the_memory_that_they_need() {
    let mut answered = 0;
    for case in (0..DUMPS).map(case) {
        let asked = case
            .requests
            .iter()
            .filter_map(|request| asked(&case, request));
        answered += asked.filter(|&answered| answered).count() as u64;
    }
    println!("{answered} answers about records");
    assert!(answered > DUMPS, "too few answers");
}

/// A row may be any number: its page is in its upper half, and what it tells of that in
/// the lower one.
#[test]
fn every_row_tells_of_its_page() {
    for layout in 0..=13 {
        let on = Geometry { layout, block: 1 };
        for bit in 0..64 {
            for row in [1 << bit, u64::MAX >> bit, !(1 << bit)] {
                let (page, told) = ((row >> 32) as u32, row as u32);
                let standing = ffi::standing(on, row, !row);
                let stands = if (1..=5).contains(&told) { told } else { 6 };
                assert_eq!((standing.page, standing.stands), (page, stands));
                let after = ffi::history_row(row, !row);
                assert_eq!((after.page, after.refusal, after.size), (page, told, !row));
            }
        }
    }
}
