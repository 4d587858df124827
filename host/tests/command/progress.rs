//! How far a command is: shown where standard error is a terminal and the work
//! takes long.

use std::process::Stdio;

use super::{dumps, lohenarr, terminal};

/// What a command writes to a terminal as its standard error.
fn shown(typed: &[&str]) -> String {
    let folder = dumps::folder();
    let mut command = lohenarr(folder.path());
    command.args(typed).stdout(Stdio::null());
    let (shown, status) = terminal::shown(command, |command, terminal| command.stderr(terminal));
    assert!(status.success());
    shown
}

#[test]
fn long_work_shows_how_far_it_is() {
    let shown = shown(&["read", "4-gib", "257", "-b", "1", "--out", "new"]);
    let parts: Vec<&str> = shown.split("reading ").skip(1).collect();
    let percent = parts.iter().map(|part| part.split_once('%').unwrap().0);
    let percent: Vec<u32> = percent.map(|number| number.parse().unwrap()).collect();
    assert!(percent.len() > 3, "{shown:?}");
    assert!(percent.is_sorted(), "{percent:?}");
    assert!(percent[0] > 0, "half a second is over");
}

#[test]
fn short_work_shows_nothing() {
    assert_eq!(shown(&["pages", "W", "-b", "4"]), "");
    assert_eq!(shown(&["read", "W", "257", "-b", "4", "--out", "new"]), "");
}
