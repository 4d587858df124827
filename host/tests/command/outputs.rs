//! Standard output that is closed, full, or that nobody reads any more; and answers
//! without a line.

use std::fs::File;
use std::io::Write;
use std::os::unix::process::ExitStatusExt;
use std::process::{Command, Stdio};

use super::dumps::{self, W};
use super::{lohenarr, run, said, terminal};

/// The dump is fed after the reader of the output is gone, so that nothing
/// can have been written before.
#[test]
fn a_closed_pipe_ends_by_its_signal() {
    let folder = dumps::folder();
    for typed in [
        &["pages", "-"][..],
        &["read", "-", "257"],
        &["tree", "-"],
        &["certify", "-", "257"],
    ] {
        let mut command = lohenarr(folder.path());
        command.args(typed).args(["--block", "4"]);
        command.stdin(Stdio::piped()).stdout(Stdio::piped());
        let mut child = command.stderr(Stdio::piped()).spawn().unwrap();
        drop(child.stdout.take());
        child.stdin.take().unwrap().write_all(W).unwrap();
        let output = child.wait_with_output().unwrap();
        assert_eq!(said(&output), "", "{typed:?}");
        assert_eq!(output.status.signal(), Some(libc::SIGPIPE), "{typed:?}");
    }
}

#[test]
fn an_output_that_is_full() {
    let folder = dumps::folder();
    let typed = [
        (&["pages", "W", "-b4"][..], false),
        (&["pages", "empty", "-b4"], true),
        (&["tree", "forest", "-b8"], false),
        (&["records", "W", "257", "-b4"], false),
        (&["certify", "W", "257", "-b4"], false),
        (&["tree", "forest", "-b8", "--json"], false),
        (&["compare", "W", "morning", "-b4"], false),
        (&["export", "W", "new", "-b4"], false),
        (&["map", "W", "-o-", "-b4"], false),
        (&["map", "empty", "-o-", "-b4"], true),
        (&["completions", "bash"], false),
        (&["help", "size"], false),
    ];
    for (typed, refused) in typed {
        let full = File::create("/dev/full").unwrap();
        let mut command = lohenarr(folder.path());
        command.args(typed).stdout(full);
        let output = command.output().unwrap();
        let said = said(&output);
        assert!(said.contains("lohenarr: cannot write the answer"), "{said}");
        assert_eq!(said.contains("refused: "), refused, "{said}");
        assert_eq!(output.status.code(), Some(2), "{typed:?}");
    }
}

/// Rust's runtime would put /dev/null in its place, and the answer be lost.
#[test]
fn a_closed_standard_output() {
    let folder = dumps::folder();
    for typed in [
        "size W 257 --block 4",
        "read W 257 --block 4 --out new",
        "help",
    ] {
        let mut shell = Command::new("sh");
        let command = format!("exec \"$0\" {typed} >&-");
        shell.args(["-c", &command, env!("CARGO_BIN_EXE_lohenarr")]);
        let output = shell.current_dir(&folder).output().unwrap();
        let closed = "lohenarr: cannot write the answer: standard output is closed\n";
        assert_eq!(said(&output), closed, "{typed}");
        assert_eq!(output.status.code(), Some(2), "{typed}");
    }
    assert!(!folder.path().join("new").exists());
}

/// Nothing is printed, and a person at a terminal is told why.
#[test]
fn an_empty_answer_is_told_on_a_terminal() {
    let folder = dumps::folder();
    let no_bytes = "the file has no bytes: page 0 (sequence 4097) is the newest header \
                    and sets the size to 0, and no newer page reaches further";
    for (typed, told) in [
        (&["why", "newline", "257"][..], no_bytes),
        (&["list", "unlinked"], "no object is live"),
        (&["list", "unlinked", "--long"], "no object is live"),
        (&["tree", "unlinked"], "the tree is empty"),
    ] {
        let typed = [typed, &["-b1"]].concat();
        let mut command = lohenarr(folder.path());
        command.args(&typed).stdout(Stdio::null());
        let (shown, status) =
            terminal::shown(command, |command, terminal| command.stderr(terminal));
        assert!(status.success(), "{typed:?}");
        assert_eq!(shown, format!("lohenarr: {told}\r\n"), "{typed:?}");
        let output = run(folder.path(), &typed, b"");
        assert!(
            output.stdout.is_empty() && output.stderr.is_empty(),
            "{typed:?}"
        );
    }
}
