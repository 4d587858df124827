//! The rows of the finding. A dump is taken whole, as long as a device of its
//! pages would be, and then as far as every layout divides it into blocks, so
//! that all are candidates.

use lohenarr::ffi;

use super::dump::gcd;
use super::find::find;
use super::plain::{touch, LAYOUTS};
use super::timing::{row, run, turns};
use super::BLOCK;

/// Prints the rows of a dump that has its tags at this offset.
pub fn measure(dump: &[u8], tag: u32, rounds: usize) {
    rows(&tag.to_string(), dump, tag, rounds);
    let common = common_length();
    match dump.len() / common {
        0 => println!("find {tag} all: left out, as the shortest such dump has {common} bytes"),
        times => rows(&format!("{tag} all"), &dump[..times * common], tag, rounds),
    }
}

/// The library against plain Rust, and against the least that a scan costs.
fn rows(name: &str, dump: &[u8], tag: u32, rounds: usize) {
    let found = ffi::find(dump, BLOCK);
    assert_eq!((found.refusal, found.tag), (0, tag), "find {name}");
    assert_eq!(found.number, find(dump, BLOCK as usize), "find {name}");
    let [library, plain, floor] = turns(
        rounds,
        [
            &|| run(|| ffi::find(dump, BLOCK)),
            &|| run(|| find(dump, BLOCK as usize)),
            &|| run(|| touch(dump, found.number)),
        ],
    );
    row(&format!("find {name}"), &library, &plain);
    row(&format!("touch {name}"), &library, &floor);
}

/// The fewest bytes that every layout divides into whole blocks.
fn common_length() -> usize {
    let blocks = LAYOUTS.map(|(data, spare, _)| BLOCK as usize * (data + spare));
    blocks.into_iter().fold(1, |a, b| a / gcd(a, b) * b)
}
