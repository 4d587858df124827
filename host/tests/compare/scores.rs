//! The score of a layout and a K, by which K is found: the library's against the
//! second reader's, however much of it is needed.

use lohenarr::ffi::{self, Geometry};

use crate::generator::case;
use crate::second::find::score;
use crate::second::layout::table;
use crate::second::wrong::Wrong;

const DUMPS: u64 = 300;

#[test]
fn scores_are_those_of_the_second_reader() {
    let (asked, differ) = compared(Wrong::None);
    println!("{asked} scores");
    assert!(asked > 10 * DUMPS);
    assert_eq!(differ, 0);
}

#[test]
fn wrong_scores_are_noticed() {
    for wrong in [
        Wrong::BlockIgnored,
        Wrong::HalfNotNeeded,
        Wrong::MoreThanHalfNeeded,
        Wrong::BlankCountedNotBlank,
    ] {
        assert_ne!(compared(wrong).1, 0, "{wrong:?}");
    }
}

/// The command says so without asking: half of a K that keeps the score of K = 1
/// keeps it too.
#[test]
fn half_of_a_k_that_fits_does_so_too() {
    let mut kept = 0;
    for seed in 1..=DUMPS {
        let dump = &case(seed).dump.bytes;
        for layout in 0..13 {
            let score = |block| ffi::score(dump, Geometry { layout, block }, 1);
            let keeps = |block| score(1) > 0 && score(block) == score(1);
            for block in [256, 128, 64, 32, 16, 8, 4, 2]
                .into_iter()
                .filter(|&k| keeps(k))
            {
                kept += 1;
                assert!(keeps(block / 2), "seed {seed}, layout {layout}, K {block}");
            }
        }
    }
    println!("{kept} times");
    assert!(kept > DUMPS / 2);
}

/// How many scores were asked for, and how many of the answers differ.
fn compared(wrong: Wrong) -> (u64, u64) {
    let (mut asked, mut differ) = (0, 0);
    for seed in 1..=DUMPS {
        let case = case(seed);
        let dump = &case.dump.bytes;
        for &k in case.finds().range(0..=300) {
            for (number, layout) in (0..).zip(table()) {
                let expected = score(dump, layout, k, wrong) as u32;
                let on = Geometry {
                    layout: number,
                    block: k as u32,
                };
                for need in [0, 1, expected, expected + 1, u32::MAX] {
                    let given = if expected < need { 0 } else { expected };
                    asked += 1;
                    differ += u64::from(ffi::score(dump, on, need) != given);
                }
            }
        }
    }
    (asked, differ)
}
