//! An evening's and a morning's dump, compared by the command: its lines are those of the
//! second reader, which are held to what the driver shows of both.

use std::fs;
use std::process::Command;

use super::nights;
use crate::second::compare::{compare, text, Side};
use crate::second::layout::Named;
use crate::second::wrong::Wrong;

/// Layout and K, which nobody names, are found for each dump.
#[test]
fn the_command_compares_nights() {
    let folder = tempfile::tempdir().unwrap();
    let [evening, morning] = ["evening", "morning"].map(|name| folder.path().join(name));
    let mut lines = 0;
    let nights = nights();
    let beside = nights.windows(2).map(|pair| [&pair[0][0], &pair[1][1]]);
    for night in nights.iter().map(|[one, other]| [one, other]).chain(beside) {
        fs::write(&evening, &night[0].dump).unwrap();
        fs::write(&morning, &night[1].dump).unwrap();
        let mut command = Command::new(env!("CARGO_BIN_EXE_lohenarr"));
        let output = command.arg("compare").args([&evening, &morning]).output();
        let output = output.unwrap();
        let sides = night.map(|case| {
            let sizes: Vec<u64> = case.layout.split('/').map(|n| n.parse().unwrap()).collect();
            Side {
                dump: &case.dump,
                layout: Some(Named::Sizes(sizes[0], sizes[1], sizes[2])),
                k: case.block.parse().unwrap(),
            }
        });
        let expected = text(&compare(sides, Wrong::None).unwrap());
        let printed = String::from_utf8(output.stdout).unwrap();
        assert_eq!(printed, expected, "{} {}", night[0].name, night[1].name);
        assert_eq!(output.status.code(), Some(0));
        lines += printed.lines().count();
    }
    println!("{lines} lines");
    assert!(lines > 300, "too few lines: {lines}");
}
