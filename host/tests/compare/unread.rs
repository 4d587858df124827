//! Finding the layout reads the tags of those candidates that divide the dump,
//! and no other byte: dumps of one length that agree there have one answer.

use lohenarr::ffi;

use crate::generator::case;
use crate::generator::rng::Rng;
use crate::second::find::find;
use crate::second::wrong::Wrong;

const DUMPS: u64 = 500;

/// How many bytes of a dump are changed one at a time.
const SINGLE: usize = 20;

/// Data size, spare size and tag offsets of document 01's layouts.
const LAYOUTS: [(usize, usize, &[usize]); 5] = [
    (2048, 64, &[0, 2, 30]),
    (4096, 128, &[0, 2, 30]),
    (512, 16, &[0]),
    (8192, 224, &[0, 2, 30]),
    (16384, 448, &[0, 2, 30]),
];

/// Four words.
const TAGS: usize = 16;

/// Bytes in the tags of a layout that divides the dump, or all others.
#[derive(Clone, Copy, PartialEq, Eq)]
enum Bytes {
    Tags,
    Others,
}

#[test]
fn tags_alone_decide_the_layout() {
    assert_eq!(altered(Bytes::Others, ffi::find), []);
    let by_tags = altered(Bytes::Tags, ffi::find).len();
    println!("{by_tags} answers hang on tags");
    assert!(by_tags as u64 > DUMPS / 2);
}

#[test]
fn a_reader_of_page_types_is_noticed() {
    let typed = |dump: &[u8], k: u32| find(dump, k.into(), Wrong::FindReadsTypes);
    assert_ne!(altered(Bytes::Others, typed), []);
}

/// The finds, by seed and K, whose answer is another once such bytes change.
fn altered<A: PartialEq>(bytes: Bytes, find: impl Fn(&[u8], u32) -> A) -> Vec<(u64, u64)> {
    let mut altered = Vec::new();
    for seed in 1..=DUMPS {
        let case = case(seed);
        let dump = &case.dump.bytes;
        for &k in case.finds().range(1..=256) {
            let places = places(bytes, dump.len(), k as usize);
            let find = |dump: &[u8]| find(dump, k as u32);
            if is_altered(&mut Rng::new(seed), dump, &places, find) {
                altered.push((seed, k));
            }
        }
    }
    altered
}

/// Whether other bytes at some or all of these places make another answer.
fn is_altered<A: PartialEq>(
    rng: &mut Rng,
    dump: &[u8],
    places: &[usize],
    find: impl Fn(&[u8]) -> A,
) -> bool {
    let answer = find(dump);
    let mut other = dump.to_vec();
    let mut altered = false;
    for _ in 0..SINGLE.min(places.len()) {
        let at = rng.pick(places);
        other[at] ^= rng.between(1, 0xFF) as u8;
        altered |= find(&other) != answer;
        other[at] = dump[at];
    }
    for fill in [Some(0), Some(0xFF), None] {
        for &at in places {
            other[at] = fill.unwrap_or(rng.word() as u8);
        }
        altered |= find(&other) != answer;
    }
    altered
}

/// The places of such bytes in a dump of this length with blocks of k pages.
fn places(bytes: Bytes, length: usize, k: usize) -> Vec<usize> {
    let mut is_tag = vec![false; length];
    for (data, spare, offsets) in LAYOUTS {
        let page = data + spare;
        if length.is_multiple_of(k * page) {
            for spare in (data..length).step_by(page) {
                for offset in offsets {
                    is_tag[spare + offset..][..TAGS].fill(true);
                }
            }
        }
    }
    let wanted = bytes == Bytes::Tags;
    (0..length).filter(|&at| is_tag[at] == wanted).collect()
}
