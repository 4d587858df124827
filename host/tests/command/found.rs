//! K where `--block` does not name it: the one that is taken, and what is said.

use serde_json::Value;

use super::dumps::{self, W};
use super::{run, said};

const OF_W: &str =
    "lohenarr: K is 4 pages a block, and 2 and 1 would fit as well; --block names it\n";

/// The commands that take K, on W, but for a certificate: it says whether K was named.
const COMMANDS: [&[&str]; 12] = [
    &["report", "W"],
    &["find", "W"],
    &["pages", "W"],
    &["header", "W", "4"],
    &["list", "W"],
    &["size", "W", "257"],
    &["chunk", "W", "257", "3"],
    &["read", "W", "257"],
    &["extract", "W", "257"],
    &["records", "W", "257"],
    &["history", "W", "257"],
    &["why", "W", "257"],
];

/// Beside what is said, a command answers as with the K that was found.
#[test]
fn every_command_finds_k() {
    let folder = dumps::folder();
    for typed in COMMANDS {
        let found = run(folder.path(), typed, b"");
        let named = run(folder.path(), &[typed, &["--block", "4"]].concat(), b"");
        assert_eq!((said(&found), said(&named)), (OF_W, ""), "{typed:?}");
        assert!(found.status.success(), "{typed:?}");
        assert!(!found.stdout.is_empty(), "{typed:?}");
        assert_eq!(found.stdout, named.stdout, "{typed:?}");
    }
}

#[test]
fn k_of_standard_input() {
    let folder = dumps::folder();
    for typed in COMMANDS {
        let mapped = run(folder.path(), typed, b"");
        let mut typed = typed.to_vec();
        typed[1] = "-";
        let piped = run(folder.path(), &typed, W);
        assert_eq!(said(&piped), OF_W, "{typed:?}");
        assert_eq!(piped.stdout, mapped.stdout, "{typed:?}");
    }
}

/// A line that is no JSON would not be read.
#[test]
fn json_stands_alone() {
    let folder = dumps::folder();
    for typed in COMMANDS {
        let out: &[&str] = match typed[0] {
            "read" => &["--json", "--out", "new"],
            _ => &["--json"],
        };
        let output = run(folder.path(), &[typed, out].concat(), b"");
        assert_eq!(said(&output), OF_W, "{typed:?}");
        let printed = str::from_utf8(&output.stdout).unwrap();
        for line in printed.lines() {
            let value: Value = serde_json::from_str(line).unwrap();
            assert!(value.is_object(), "{typed:?}: {line}");
        }
    }
}

/// 256 pages of one sequence, of which each K that is said to fit makes whole
/// blocks; of one page less none but 1 does.
#[test]
fn every_k_that_fits_is_said() {
    let folder = dumps::folder();
    for (chunks, sentence) in [
        (
            255,
            "K is 256 pages a block, and 128, 64, 32, 16, 8, 4, 2 and 1 would fit as well",
        ),
        (254, "K is 1 page a block, as no larger power of two fits"),
    ] {
        let output = run(folder.path(), &["find", "-"], &dumps::long(chunks));
        assert_eq!(output.stdout, b"layout=512/16/0\n");
        let sentence = format!("lohenarr: {sentence}; --block names it\n");
        assert_eq!(said(&output), sentence);
    }
}

/// A refusal says why, and nothing of a K that was not taken.
#[test]
fn nothing_is_said_beside_a_refused_dump() {
    let folder = dumps::folder();
    for typed in [
        &["find", "blank"][..],
        &["find", "one-byte-short"],
        &["list", "empty"],
        &["list", "W", "--layout", "13"],
        &["list", "W", "--layout", "7"],
    ] {
        let output = run(folder.path(), typed, b"");
        assert!(said(&output).starts_with("refused: "), "{typed:?}");
        assert_eq!(said(&output).lines().count(), 1, "{typed:?}");
        assert_eq!(output.status.code(), Some(1), "{typed:?}");
    }
}
