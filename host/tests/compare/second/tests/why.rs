//! Reasons against the other rules: the byte that a read shows follows from its
//! reason, and the runs of a file are the reasons of its bytes.

use crate::generator::case;
use crate::second::index::Over;
use crate::second::script::Request;
use crate::second::why::Reason;
use crate::second::wrong::Wrong;

const DUMPS: u64 = 400;

#[test]
fn a_read_shows_the_byte_of_its_reason() {
    let mut read = 0;
    for case in (0..DUMPS).map(case) {
        let reader = case.reader(Wrong::None);
        for request in &case.requests {
            let Request::Why {
                on,
                object,
                position,
            } = *request
            else {
                continue;
            };
            let (Ok(why), None) = (reader.why(on, object, position), on.before) else {
                continue;
            };
            let place = format!("seed {}: {request}", case.seed);
            let data = on.layout.layout().unwrap().data as u64;
            let (n, at) = (position / data + 1, position % data);
            let over = Over::Dump(on.layout, on.k);
            let mut buffer = vec![0xA5; data as usize];
            let shown = reader.read(over, object, n, &mut buffer);
            let past = matches!(why.reason, Reason::PastEnd(_));
            match shown {
                Ok(chunk) => {
                    assert_eq!(past, at >= chunk.shown, "{place}");
                    if !past {
                        assert_eq!(buffer[at as usize], why.value, "{place}");
                        read += 1;
                    }
                }
                // past the end, or a chunk that has no number
                Err(_) => assert!(past || why.reason == Reason::NoCopy, "{place}"),
            }
        }
    }
    println!("{read} bytes");
    assert!(read > DUMPS, "too few bytes");
}

#[test]
fn runs_are_the_reasons_of_their_bytes() {
    let mut runs = 0;
    for case in (0..DUMPS).map(case) {
        let reader = case.reader(Wrong::None);
        for request in &case.requests {
            let Request::Spans { on, object } = *request else {
                continue;
            };
            let Ok(spans) = reader.spans(on, object) else {
                continue;
            };
            let place = format!("seed {}: {request}", case.seed);
            let froms = spans.runs.iter().map(|&(from, _)| from);
            let ends: Vec<u64> = froms.skip(1).chain([spans.size]).collect();
            for (&(from, reason), until) in spans.runs.iter().zip(ends) {
                for position in [from, from + (until - from) / 2, until - 1] {
                    let why = reader.why(on, object, position).unwrap();
                    assert_eq!((why.reason, why.until), (reason, until), "{place}");
                }
                runs += 1;
            }
        }
    }
    println!("{runs} runs");
    assert!(runs > DUMPS, "too few runs");
}
