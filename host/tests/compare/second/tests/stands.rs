//! How records stand against the other rules: what they hold is what reasons say, and
//! a history is the sizes that the dump once had.

use crate::generator::case;
use crate::generator::shelf::{shelf, BLOCK, LAYOUT, OBJECT};
use crate::second::index::Reader;
use crate::second::layout::Named;
use crate::second::script::{answer, Request};
use crate::second::stands::Standing;
use crate::second::why::{Past, Reason};
use crate::second::wrong::Wrong;

const DUMPS: u64 = 400;

#[test]
fn the_records_of_the_shelf_dump() {
    let w = shelf();
    let mut reader = Reader::new(&w.bytes, Wrong::None);
    let (layout, k, object) = (Named::from(LAYOUT), BLOCK, OBJECT);
    let mut lines = |before| {
        let on = Past { layout, k, before };
        [
            Request::Stands { on, object },
            Request::History { on, object },
        ]
        .map(|request| answer(&mut reader, &request).line)
    };
    let expected = [
        (
            None,
            "stands=0:older header,1:superseded:5,2:cut:4,3:older header,4:newest header,\
             5:holds:0:300,6:holds:1024:1034",
            "history=0:size:0,1:size:512,2:size:612,3:size:612,4:size:300,5:size:300,6:size:1034",
        ),
        (
            Some(5),
            "stands=0:older header,1:holds:0:300,2:cut:4,3:older header,4:newest header",
            "history=0:size:0,1:size:512,2:size:612,3:size:612,4:size:300",
        ),
        (
            Some(4),
            "stands=0:older header,1:holds:0:512,2:holds:512:612,3:newest header",
            "history=0:size:0,1:size:512,2:size:612,3:size:612",
        ),
        (
            Some(2),
            "stands=0:newest header,1:holds:0:512",
            "history=0:size:0,1:size:512",
        ),
        (Some(0), "refusal=6", "refusal=6"),
        (Some(8), "refusal=14", "refusal=14"),
    ];
    for (before, stands, history) in expected {
        assert_eq!(lines(before), [stands, history], "{before:?}");
    }
}

#[test]
fn records_hold_what_reasons_say_is_held() {
    let mut holding = 0;
    for case in (0..DUMPS).map(case) {
        let reader = case.reader(Wrong::None);
        for request in &case.requests {
            let Request::Stands { on, object } = *request else {
                continue;
            };
            let Ok(records) = reader.stands(on, object) else {
                continue;
            };
            let place = format!("seed {}: {request}", case.seed);
            let held = records
                .iter()
                .filter_map(|&(page, standing)| match standing {
                    Standing::Holds { from, until } => Some((from, until, page)),
                    _ => None,
                });
            let mut held: Vec<_> = held.collect();
            held.sort_unstable();
            let spans = reader.spans(on, object);
            let runs = spans.iter().flat_map(|spans| {
                let froms = spans.runs.iter().map(|&(from, _)| from);
                let ends = froms.skip(1).chain([spans.size]);
                spans.runs.iter().zip(ends)
            });
            let runs = runs.filter_map(|(&(from, reason), until)| match reason {
                Reason::Held(page) => Some((from, until, page)),
                _ => None,
            });
            assert_eq!(held, runs.collect::<Vec<_>>(), "{place}");
            let none = records.iter().any(|&(_, s)| s == Standing::NoFile);
            assert!(!none || spans.is_err(), "{place}: no file");
            holding += held.len();
        }
    }
    println!("{holding} records hold");
    assert!(holding as u64 > DUMPS, "too few that hold");
}

#[test]
fn a_history_is_of_the_sizes_before_each_next_record() {
    let mut sizes = 0;
    for case in (0..DUMPS).map(case) {
        let reader = case.reader(Wrong::None);
        for request in &case.requests {
            let Request::History { on, object } = *request else {
                continue;
            };
            let Ok(history) = reader.history(on, object) else {
                continue;
            };
            let nexts = history.iter().skip(1);
            let befores = nexts.map(|&(page, _)| Some(page as u64)).chain([on.before]);
            for (&(page, told), before) in history.iter().zip(befores) {
                let spans = reader.spans(Past { before, ..on }, object);
                let size = spans.map(|spans| spans.size).map_err(|r| r.refusal);
                assert_eq!(told, size, "seed {}: {request}: page {page}", case.seed);
                sizes += 1;
            }
        }
    }
    println!("{sizes} sizes");
    assert!(sizes > 5 * DUMPS, "too few sizes");
}
