//! Two dumps compared by the library: its reports are the second reader's, object by object
//! and whole, and it keeps to the memory that it is lent.

use std::collections::BTreeMap;
use std::env;

use lohenarr::compare::{Comparison, Prepared};
use lohenarr::ffi::{self, Answer as _, Geometry, NextAnswer, PreparedAnswer};
use lohenarr::refusal::SHORT_BUFFER;

use crate::generator::pairs::{pair, Pair};
use crate::lent_tree::holds;
use crate::second::compare::{order, text, Side};
use crate::second::layout::Named;
use crate::second::wrong::Wrong;
use crate::SEEDS;

/// What the memory holds before a call.
const WORD: u64 = 0xA5A5_A5A5_A5A5_A5A5;
const BYTE: u8 = 0xA5;

/// How the library is told to read a dump, or why no layout is found.
fn geometry(side: Side<'_>) -> Result<Geometry, u32> {
    let small = |number: u64| u32::try_from(number).unwrap_or(u32::MAX);
    let block = small(side.k);
    let layout = match side.layout {
        None => ffi::find(side.dump, block).given()?.number,
        Some(Named::Number(number)) => small(number),
        Some(Named::Sizes(p, s, t)) => ffi::layout_sized(small(p), small(s), small(t)).number,
    };
    Ok(Geometry { layout, block })
}

/// A call that prepares a dump, on slices of so many words, and these afterwards.
fn called(dump: &[u8], on: Geometry, lengths: [usize; 3]) -> (PreparedAnswer, [Vec<u64>; 3]) {
    let mut slices = lengths.map(|length| vec![WORD; length]);
    let [order, copies, work] = &mut slices;
    let answer = ffi::compare_prepare(dump, on, order, copies, work);
    (answer, slices)
}

/// The call is refused so and writes nothing.
fn refused(place: &str, dump: &[u8], on: Geometry, lengths: [usize; 3]) -> PreparedAnswer {
    let (answer, slices) = called(dump, on, lengths);
    let kept = slices.iter().flatten().all(|&word| word == WORD);
    assert!(kept, "{place}: {lengths:?}: refused and written");
    assert_ne!(answer.refusal, 0, "{place}: {lengths:?}");
    answer
}

/// A dump with these records is prepared by as much memory as it needs, and no more of
/// it is written.
fn prepares(place: &str, dump: &[u8], on: Geometry, order: &[u64]) {
    let records = order.len();
    let needed = [records, records, 2 * records];
    for short in (0..3).filter(|_| records > 0) {
        let mut lengths = needed.map(|length| length + 3);
        lengths[short] = needed[short] - 1;
        let answer = refused(place, dump, on, lengths);
        let told = (answer.refusal, answer.need as usize);
        assert_eq!(told, (SHORT_BUFFER, records), "{place}");
    }
    let mut copies = None;
    for more in [[0, 0, 0], [5, 3, 1], [0, 7, 9]] {
        let lengths = [0, 1, 2].map(|slice| needed[slice] + more[slice]);
        let (answer, slices) = called(dump, on, lengths);
        assert_eq!((answer.refusal, answer.records as usize), (0, records));
        for (words, needed) in slices.iter().zip(needed) {
            let behind = words[needed..].iter();
            assert!(behind.copied().all(|word| word == WORD), "{place}: behind");
        }
        assert!(slices[0][..records] == *order, "{place}: the order");
        let work = slices[2][..2 * records].iter();
        assert!(work.copied().all(|word| word == 0), "{place}: cleared");
        let these = slices[1][..records].to_vec();
        let same = copies.get_or_insert_with(|| these.clone());
        assert!(*same == these, "{place}: the copies");
    }
}

/// The library's refusal over both dumps.
fn refuses(pair: &Pair, ons: [Result<Geometry, u32>; 2]) -> u32 {
    let place = format!("seed {}", pair.seed);
    let of = |side: usize| match ons[side] {
        Ok(on) => called(&pair.dumps[side], on, [0; 3]).0.refusal,
        Err(number) => number,
    };
    // that no memory is there is no matter of the dump
    let refusals = [of(0), of(1)].map(|number| if number == SHORT_BUFFER { 0 } else { number });
    // 1, 2 and 3 come in this order
    let first = refusals.into_iter().filter(|&number| number > 0).min();
    let first = first.unwrap_or(0);
    if let [Ok(one), Ok(other)] = ons {
        let mut buffer = [BYTE; 99];
        let side = |side: usize, on| ffi::Side {
            dump: &pair.dumps[side],
            on,
            order: &[],
            copies: &[],
        };
        let sides = [side(0, one), side(1, other)];
        let whole = ffi::compare(sides[0], sides[1], &mut buffer);
        let object = ffi::compare_object(sides[0], sides[1], 257, &mut buffer);
        if first > 0 {
            assert_eq!([whole.refusal, object.refusal], [first; 2], "{place}");
            assert!(buffer == [BYTE; 99], "{place}: refused and written");
        }
    }
    first
}

#[test]
fn reports_are_those_of_the_second_reader() {
    let seeds = env::var("LOHENARR_SEEDS").map_or(SEEDS, |n| n.parse().unwrap());
    let (mut compared, mut differ) = (0, 0);
    for pair in (0..seeds).map(pair) {
        let place = format!("seed {}", pair.seed);
        let ons = pair.sides().map(geometry);
        let expected = match pair.answer(Wrong::None) {
            Ok(found) => found,
            Err(refusal) => {
                assert_eq!(refuses(&pair, ons), refusal as u32, "{place}");
                continue;
            }
        };
        let ons = ons.map(|on| on.expect("a layout"));
        assert_eq!(refuses(&pair, ons.map(Ok)), 0, "{place}");
        let orders = pair.sides().map(|side| order(side, Wrong::None).unwrap());
        for side in 0..2 {
            prepares(&place, &pair.dumps[side], ons[side], &orders[side]);
        }
        let prepared = [0, 1].map(|side| Prepared::of(&pair.dumps[side], ons[side]).unwrap());
        let mut left = Comparison::of(&prepared[0], &prepared[1]);
        assert!(
            left.text().unwrap() == text(&expected).as_bytes(),
            "{place}"
        );
        let reports = expected
            .iter()
            .map(|found| (found.object, found.to_string()));
        let reports: BTreeMap<u32, String> = reports.collect();
        let ids = orders.iter().flatten().map(|word| (word >> 32) as u32);
        let counts = ids.fold(BTreeMap::<u32, u64>::new(), |mut counts, id| {
            *counts.entry(id).or_default() += 1;
            counts
        });
        for (object, records) in counts {
            let report = left.next_object().unwrap().expect("an object");
            assert_eq!(
                (report.object, report.records),
                (object, records),
                "{place}"
            );
            let expected = reports.get(&object).map_or("", String::as_str);
            assert_eq!(str::from_utf8(report.text), Ok(expected), "{place}");
            compared += 1;
        }
        assert!(left.next_object().unwrap().is_none(), "{place}");
        differ += reports.len();
    }
    println!("{differ} of {compared} objects differ in {seeds} pairs");
    assert!(differ as u64 > seeds / 3, "too few differ");
}

/// A report is written whole and no further, and not at all where one byte is missing.
#[test]
fn reports_keep_to_the_memory_that_they_need() {
    let mut texts = 0;
    for pair in (0..600).map(pair) {
        let (Ok(found), place) = (pair.answer(Wrong::None), format!("seed {}", pair.seed)) else {
            continue;
        };
        let ons = pair.sides().map(|side| geometry(side).expect("a layout"));
        let slices = [0, 1].map(|side| {
            let room = pair.dumps[side].len() / 512 + 1;
            let (answer, slices) = called(&pair.dumps[side], ons[side], [room, room, 2 * room]);
            let [order, copies, _] = slices;
            let cut = |mut words: Vec<u64>| {
                words.truncate(answer.records as usize);
                words
            };
            (cut(order), cut(copies))
        });
        let whole = [0, 1].map(|side| ffi::Side {
            dump: &pair.dumps[side],
            on: ons[side],
            order: &slices[side].0,
            copies: &slices[side].1,
        });
        holds(&place, text(&found).as_bytes(), |buf| {
            ffi::compare(whole[0], whole[1], buf)
        });
        let mut left = whole;
        loop {
            let NextAnswer {
                object,
                first,
                second,
            } = ffi::compare_next(left[0].order, left[1].order);
            if object == 0 {
                assert_eq!((first, second), (0, 0), "{place}");
                break;
            }
            let mut own = left;
            for (side, words) in [first, second].into_iter().enumerate() {
                let words = words as usize;
                (own[side].order, left[side].order) = left[side].order.split_at(words);
                (own[side].copies, left[side].copies) = left[side].copies.split_at(words);
            }
            let report = found.iter().find(|found| found.object == object);
            let report = report.map_or(String::new(), ToString::to_string);
            holds(&place, report.as_bytes(), |buf| {
                ffi::compare_object(own[0], own[1], object, buf)
            });
            texts += 1;
        }
    }
    println!("{texts} texts");
    assert!(texts > 600, "too few texts");
}

/// Words may be any numbers, and those that no dump has make some text.
#[test]
fn every_word_tells_something() {
    let dump = include_bytes!("../data/W");
    let on = Geometry {
        layout: 6,
        block: 4,
    };
    let mut buffer = vec![0; 1 << 16];
    let all = (0..64).flat_map(|bit| [1 << bit, u64::MAX >> bit, !(1 << bit)]);
    for word in all {
        for words in [
            &[][..],
            &[word],
            &[word, word],
            &[257 << 32, word],
            &[word, 0],
        ] {
            for order in [words, &[257 << 32 | 4, 257 << 32 | 5][..words.len().min(2)]] {
                let side = ffi::Side {
                    dump,
                    on,
                    order,
                    copies: &words[..order.len()],
                };
                ffi::compare_next(order, words);
                for object in [0, 257, u32::MAX] {
                    ffi::compare_object(side, side, object, &mut buffer);
                }
                ffi::compare(side, side, &mut buffer);
            }
        }
    }
}
