//! The generator looks where rules bite.

use std::collections::BTreeMap;

use super::pairs::{pair, Pair};
use super::{case, Case};
use crate::second::compare::text;
use crate::second::find::find;
use crate::second::script::{answer, Request};
use crate::second::wrong::{Wrong, WRONG_COMPARING, WRONG_RULES};
use crate::SEEDS;

/// Dumps that every wrong rule must be noticed within.
const DUMPS: u64 = 1000;

/// Every one of these rules must be noticed: by what is made of some seed, beside what
/// the right rules make of it.
fn all_noticed<C, R>(
    rules: &[Wrong],
    made: impl Fn(u64) -> (C, R),
    differs: impl Fn(&C, &R, Wrong) -> bool,
) {
    let mut left = rules.to_vec();
    for seed in 1..=DUMPS {
        let (case, right) = made(seed);
        left.retain(|&wrong| {
            let differs = differs(&case, &right, wrong);
            if differs {
                println!("{wrong:?}: {seed}");
            }
            !differs
        });
        if left.is_empty() {
            break;
        }
    }
    assert!(left.is_empty(), "not noticed: {left:?}");
}

#[test]
fn every_wrong_rule_is_noticed() {
    let made = |seed| {
        let case = case(seed);
        let right: Vec<_> = case.answers(Wrong::None).collect();
        (case, right)
    };
    all_noticed(WRONG_RULES, made, |case, right, wrong| {
        case.answers(wrong).zip(right).any(|(a, r)| a != *r)
    });
}

/// Rules that how records stand must show by itself, and those that histories must.
const SHOWN_BY_STANDS: [Wrong; 31] = [
    Wrong::BlockIgnored,
    Wrong::LowestSequenceForeign,
    Wrong::IdMasked,
    Wrong::CountAbovePageTaken,
    Wrong::TagTypeNotCompared,
    Wrong::ShrinkMarkOnlyOne,
    Wrong::EveryObjectsRecords,
    Wrong::OrderByPageAlone,
    Wrong::LowerPageNewer,
    Wrong::SequenceSigned,
    Wrong::OldBytesComeBack,
    Wrong::EveryHeaderCuts,
    Wrong::NewestHeaderNoCut,
    Wrong::NewestOfFilesCuts,
    Wrong::MarkCutsEveryType,
    Wrong::EarlierCutsCount,
    Wrong::DirectoryDeletionNoCut,
    Wrong::OldDeletionNoCut,
    Wrong::ParentFourLive,
    Wrong::OldestCopyWins,
    Wrong::ValidNotCut,
    Wrong::ValidToNewestCut,
    Wrong::OlderWithItself,
    Wrong::OlderThanNoRecord,
    Wrong::WhyOldestCuts,
    Wrong::WhyLowestCuts,
    Wrong::WhyNewestHeaderCuts,
    Wrong::WhyHighestPageCuts,
    Wrong::WhyCutOnlyBelow,
    Wrong::WhyEarlierCuts,
    Wrong::BadObjectBeforeBadPage,
];
const SHOWN_BY_HISTORIES: [Wrong; 16] = [
    Wrong::BlockIgnored,
    Wrong::HighestSequenceForeign,
    Wrong::FullCountDamaged,
    Wrong::TypeOfOneByte,
    Wrong::EveryObjectsRecords,
    Wrong::OrderByPageAlone,
    Wrong::LowerSequenceNewer,
    Wrong::SequenceSigned,
    Wrong::SizeOfHeaderAlone,
    Wrong::SizeOfAllData,
    Wrong::SizeWraps,
    Wrong::ParentThreeLive,
    Wrong::OlderBySequenceAlone,
    Wrong::OlderThanNoRecord,
    Wrong::BadObjectBeforeBadPage,
    Wrong::NotAFileBeforeDeleted,
];

#[test]
fn records_alone_show_what_they_rest_on() {
    let asks_stands = |request: &Request| matches!(request, Request::Stands { .. });
    let asks_history = |request: &Request| matches!(request, Request::History { .. });
    noticed_by(&SHOWN_BY_STANDS, asks_stands);
    noticed_by(&SHOWN_BY_HISTORIES, asks_history);
}

/// Every one of these rules must be noticed by such requests alone.
fn noticed_by(rules: &[Wrong], asks: impl Fn(&Request) -> bool) {
    let answers = |case: &Case, wrong| {
        let mut reader = case.reader(wrong);
        let requests = case.requests.iter().filter(|request| asks(request));
        let answers = requests.map(|request| answer(&mut reader, request));
        answers.collect::<Vec<_>>()
    };
    let made = |seed| {
        let case = case(seed);
        let right = answers(&case, Wrong::None);
        (case, right)
    };
    all_noticed(rules, made, |case, right, wrong| {
        answers(case, wrong) != *right
    });
}

/// Rules about one dump that two dumps compared must show as well: of page kinds, newest,
/// size, cuts and fields.
const SHOWN_BY_PAIRS: [Wrong; 18] = [
    Wrong::BlockIgnored,
    Wrong::BadLengthBeforeBadLayout,
    Wrong::LowestSequenceForeign,
    Wrong::CountAbovePageTaken,
    Wrong::AliasCutShort,
    Wrong::FieldsAtOldPlaces,
    Wrong::OrderByPageAlone,
    Wrong::SequenceSigned,
    Wrong::SizeOfAllData,
    Wrong::SizeWraps,
    Wrong::OldBytesComeBack,
    Wrong::EveryHeaderCuts,
    Wrong::NewestHeaderNoCut,
    Wrong::OldDeletionNoCut,
    Wrong::ParentFourLive,
    Wrong::ParentThreeLive,
    Wrong::OldestCopyWins,
    Wrong::ValidNotCut,
];

#[test]
fn every_wrong_rule_of_comparing_is_noticed() {
    let rules = [WRONG_COMPARING, &SHOWN_BY_PAIRS].concat();
    let answer = |pair: &Pair, wrong| pair.answer(wrong).map(|found| text(&found));
    let made = |seed| {
        let pair = pair(seed);
        let right = answer(&pair, Wrong::None);
        (pair, right)
    };
    all_noticed(&rules, made, |pair, right, wrong| {
        answer(pair, wrong) != *right
    });
}

#[test]
fn every_difference_and_refusal_occurs() {
    let mut shapes: BTreeMap<String, usize> = BTreeMap::new();
    for seed in 1..=DUMPS {
        let lines = match pair(seed).answer(Wrong::None) {
            Ok(found) if found.is_empty() => "alike".to_string(),
            Ok(found) => text(&found),
            Err(refusal) => format!("refusal={}", refusal as u8),
        };
        for line in lines.lines() {
            let shape = match line.split_once('=') {
                Some((key @ ("object" | "size" | "stretch"), _)) => key,
                _ => line,
            };
            *shapes.entry(shape.to_string()).or_default() += 1;
        }
    }
    println!("{shapes:#?}");
    let offsets = "0 4 10 268 272 276 280 284 288 292 296 300 460 464 472 480 504 508";
    let fields = offsets.split(' ').map(|at| format!("field={at}"));
    let others =
        "alike object size stretch only=1 only=2 deleted=1 deleted=2 noheader=1 noheader=2 \
                  refusal=1 refusal=2 refusal=3";
    let all: Vec<String> = fields.chain(others.split(' ').map(String::from)).collect();
    for shape in &all {
        assert!(shapes.contains_key(shape), "{shape}");
    }
    assert_eq!(shapes.len(), all.len(), "{shapes:?}");
}

/// What an answer line begins with: its word, or for a refusal its number and for
/// a reason its name. Of records, how each stands or what was told after it.
fn shapes(line: &str) -> Vec<String> {
    let reason = || line.split(" until=").next()?.split(" page=").next();
    let shape = match line.split_once('=') {
        Some(("refusal", _)) => line.split(' ').next().unwrap_or(line),
        Some(("reason", _)) => reason().unwrap_or(line),
        Some((word @ "stands", records)) => return told(word, records, 1),
        Some((word @ "history", records)) => return told(word, records, 2),
        _ => line.split(['=', ' ']).next().unwrap_or(line),
    };
    vec![shape.to_string()]
}

/// What is told of each record behind its page: so many words of it, but for sizes.
fn told(word: &str, records: &str, words: usize) -> Vec<String> {
    let records = records.split(',').map(|record| {
        let told: Vec<&str> = record.split(':').skip(1).take(words).collect();
        match told[0] {
            "size" => format!("{word}=size"),
            _ => format!("{word}={}", told.join(":")),
        }
    });
    records.collect()
}

#[test]
fn every_answer_and_refusal_occurs() {
    let mut seen: BTreeMap<String, usize> = BTreeMap::new();
    for seed in 1..=300 {
        for (answer, _) in case(seed).answers(Wrong::None) {
            for shape in shapes(&answer.line) {
                *seen.entry(shape).or_default() += 1;
            }
        }
    }
    println!("{seen:#?}");
    for number in 1..=16 {
        assert!(seen.contains_key(&format!("refusal={number}")), "{number}");
    }
    let others =
        "done size page hole part ids layout pages blank foreign damaged header data type objects listed";
    let lists = [
        ("reason", "held,no copy,cut,count,past end"),
        (
            "stands",
            "newest header,older header,superseded,cut,holds,no file",
        ),
        ("history", "size,refusal:7,refusal:8,refusal:9"),
    ];
    let listed = lists.iter().flat_map(|(word, names)| {
        let names = names.split(',');
        names.map(move |name| format!("{word}={name}"))
    });
    for shape in others.split(' ').map(String::from).chain(listed) {
        assert!(seen.contains_key(&shape), "{shape}");
    }
}

/// Rules that differ where two scores are equal, and where the last block
/// decides whether a candidate fits.
const CLOSE: [Wrong; 2] = [Wrong::ClearWinnerNeeded, Wrong::LastBlockNotCounted];

#[test]
fn close_finds_occur_with_each_sort_of_k() {
    let sorts: [fn(u64) -> bool; 3] = [|k| k == 1, |k| k > 1 && k % 2 == 1, |k| k == 256];
    let mut seen = [[0; CLOSE.len()]; 3];
    for case in (0..SEEDS).map(case) {
        for k in case.finds() {
            let answer = |wrong| find(&case.dump.bytes, k, wrong);
            let differs = CLOSE.map(|wrong| answer(wrong) != answer(Wrong::None));
            for (seen, _) in seen.iter_mut().zip(sorts).filter(|(_, sort)| sort(k)) {
                for (seen, differs) in seen.iter_mut().zip(differs) {
                    *seen += u32::from(differs);
                }
            }
        }
    }
    println!("{seen:?}");
    assert!(!seen.as_flattened().contains(&0), "{seen:?}");
}

#[test]
fn equal_seeds_give_equal_cases() {
    for seed in 1..=20 {
        let (one, other) = (case(seed), case(seed));
        assert!(one.dump.bytes == other.dump.bytes);
        assert_eq!(one.script(), other.script());
        assert!(pair(seed).dumps == pair(seed).dumps);
    }
}
