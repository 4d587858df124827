//! Two dumps compared: from standard input, of any length, and what a person is told.

use std::fs;
use std::process::Stdio;

use super::dumps::{self, W};
use super::{lohenarr, printed, run, said, terminal};

const DIFFERS: &str = "object=257\nfield=292\nfield=508\nstretch=1\n";

/// Standard input is either of the two.
#[test]
fn a_dump_from_standard_input() {
    let folder = dumps::folder();
    let morning = fs::read(folder.path().join("morning")).unwrap();
    for (typed, input) in [(["-", "morning"], W), (["W", "-"], &morning)] {
        let typed = ["compare", typed[0], typed[1], "-b", "4"];
        let output = run(folder.path(), &typed, input);
        assert_eq!((printed(&output), said(&output)), (DIFFERS, ""));
        assert_eq!(output.status.code(), Some(0));
    }
}

/// How many objects there were and how many differ is said on a terminal alone.
#[test]
fn a_person_is_told_how_many_differ() {
    let folder = dumps::folder();
    let shown = |typed: &[&str]| {
        let mut command = lohenarr(folder.path());
        command.args(typed).stdout(Stdio::null());
        let (shown, status) =
            terminal::shown(command, |command, terminal| command.stderr(terminal));
        assert!(status.success(), "{shown}");
        shown
    };
    for (typed, told) in [
        (["W", "morning", "-b4"], "1, that differ: 1"),
        (["W", "W", "-b4"], "1, that differ: 0"),
        (["forest", "forest", "-b8"], "21, that differ: 0"),
        (["blank", "blank", "--layout=6"], "0, that differ: 0"),
    ] {
        let typed = [&["compare"][..], &typed, &["--block2=1"]].concat();
        let summary = format!("lohenarr: objects compared: {told}\r\n");
        let shown = shown(&typed);
        assert!(shown.ends_with(&summary), "{typed:?}: {shown:?}");
        let output = run(folder.path(), &typed, b"");
        assert!(!said(&output).contains("compared"), "{typed:?}");
    }
}

/// One object whose lines are more than are lent at first.
#[test]
fn a_long_report_of_one_object() {
    const CHUNKS: u32 = 9000;
    let folder = dumps::folder();
    let mut dump = W[..528].to_vec();
    for chunk in 1..=CHUNKS {
        let at = dump.len();
        dump.extend_from_slice(&W[528..2 * 528]);
        dump[at + 520..at + 524].copy_from_slice(&chunk.to_le_bytes());
    }
    fs::write(folder.path().join("one"), &dump).unwrap();
    for page in dump.chunks_mut(528).skip(1) {
        page[511] = 0;
    }
    fs::write(folder.path().join("other"), &dump).unwrap();
    let output = run(folder.path(), &["compare", "one", "other", "-b1"], b"");
    let stretches = (0..CHUNKS).map(|n| format!("stretch={n}\n"));
    let expected = format!("object=257\n{}", stretches.collect::<String>());
    assert!(expected.len() > 1 << 16);
    assert!(printed(&output) == expected);
}

/// Dumps that are long enough for a second thread are compared as copies of them are.
#[test]
fn long_dumps() {
    let folder = tempfile::tempdir().unwrap();
    let mut dump = dumps::spread(0, 0);
    fs::write(folder.path().join("one"), &dump).unwrap();
    for at in (0..dump.len()).step_by(999 * 2112) {
        dump[at + 500] ^= 1;
    }
    fs::write(folder.path().join("other"), &dump).unwrap();
    for names in [["one", "other"], ["other", "one"], ["one", "one"]] {
        let typed = ["compare", names[0], names[1]];
        let mapped = run(folder.path(), &typed, b"");
        let copied = run(folder.path(), &[&typed[..], &["--copy"]].concat(), b"");
        assert_eq!(said(&mapped), said(&copied), "{names:?}");
        assert!(mapped.stdout == copied.stdout, "{names:?}");
        assert_eq!(mapped.status.code(), Some(0), "{}", said(&mapped));
        assert_eq!(mapped.stdout.is_empty(), names[0] == names[1], "{names:?}");
    }
}
