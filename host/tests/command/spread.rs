//! Dumps that are long enough for a second thread, which works on a guess: they
//! are answered as without it, and lose bytes as others do.

use std::fs;
use std::process::Stdio;
use std::thread::sleep;
use std::time::Duration;

use super::dumps;
use super::shortened::shorten;
use super::{lohenarr, run, said};

/// Every command is answered as on standard input, which has no second thread;
/// so many objects are listed.
fn answers_alike(dump: &[u8], objects: usize) {
    let folder = tempfile::tempdir().unwrap();
    fs::write(folder.path().join("long"), dump).unwrap();
    for typed in [
        &["list"][..],
        &["list", "--block", "64"],
        &["list", "--block", "32"],
        &["list", "--layout", "2048/64/0"],
        &["find"],
        &["report"],
        &["extract", "600"],
        &["why", "600"],
        &["tree"],
        &["list", "--long"],
    ] {
        let [mapped, piped] = ["long", "-"].map(|name| {
            let typed = [&typed[..1], &[name], &typed[1..]].concat();
            run(folder.path(), &typed, if name == "-" { dump } else { b"" })
        });
        assert_eq!(said(&mapped), said(&piped), "{typed:?}");
        assert!(mapped.stdout == piped.stdout, "{typed:?}");
        assert!(mapped.status.success(), "{typed:?}: {}", said(&mapped));
        if typed[0] == "list" {
            let lines = mapped.stdout.split(|byte| *byte == b'\n').count() - 1;
            assert_eq!(lines, objects, "{typed:?}");
        }
    }
}

#[test]
fn a_guess_that_is_right() {
    answers_alike(&dumps::spread(0, 0), 512);
}

/// The middle 64th has another layout than the whole.
#[test]
fn a_guess_that_is_wrong() {
    answers_alike(&dumps::spread(2, 0), 504);
}

/// The middle 64th has no layout.
#[test]
fn no_guess() {
    let mut dump = dumps::spread(0, 0);
    let part = dump.len() / 64;
    dump[32 * part..33 * part].fill(0xFF);
    answers_alike(&dump, 504);
}

/// Whenever the bytes go, and whichever thread misses them, one sentence says so,
/// or the answer was whole before.
#[test]
fn a_long_dump_that_is_shortened() {
    let folder = tempfile::tempdir().unwrap();
    let path = folder.path().join("long");
    let dump = dumps::spread(0, 0);
    let mut lost = 0;
    for delay in 0..12 {
        fs::write(&path, &dump).unwrap();
        let mut command = lohenarr(folder.path());
        command.args(["list", "long"]).stdin(Stdio::null());
        command.stdout(Stdio::piped()).stderr(Stdio::piped());
        let child = command.spawn().unwrap();
        sleep(Duration::from_millis(delay));
        shorten(&path, 4096);
        let output = child.wait_with_output().unwrap();
        let said = said(&output);
        let is_of_k = |line: &&str| line.starts_with("lohenarr: K is 64 pages a block, ");
        let others: Vec<&str> = said.lines().filter(|line| !is_of_k(line)).collect();
        match (output.status.code(), &others[..]) {
            (Some(0), []) => (),
            // it was short before it was opened
            (Some(1), [refused]) => assert!(refused.starts_with("refused: "), "{said}"),
            (Some(2), [sentence]) => {
                assert!(sentence.starts_with("lohenarr: cannot read long: "));
                lost += 1;
            }
            (code, _) => panic!("{code:?}: {said}"),
        }
    }
    assert!(lost > 0, "no run was met while it read");
}
