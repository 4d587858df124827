//! The tree: names on a terminal and elsewhere, and paths of any bytes as arguments.

use std::ffi::OsStr;
use std::fs;
use std::os::unix::ffi::OsStrExt;
use std::process::Stdio;

use super::dumps::{self, header};
use super::{lohenarr, printed, run, said, terminal};

/// What `tree` shows on a terminal.
fn on_terminal(typed: &[&str]) -> String {
    let folder = dumps::folder();
    let mut command = lohenarr(folder.path());
    command.args(typed).stderr(Stdio::null());
    let (shown, status) = terminal::shown(command, |command, terminal| command.stdout(terminal));
    assert!(status.success(), "{shown}");
    // a terminal ends lines in its own way
    shown.replace("\r\n", "\n")
}

#[test]
fn a_terminal_is_shown_escaped_names() {
    let shown = on_terminal(&["tree", "forest", "-b", "8"]);
    assert!(shown.contains("object=267\npath=/a\\x0Aobject=1\nobject=274\npath=/\\xC3\\xA4\\\\\n"));
    let ours = shown.lines().filter(|line| line.starts_with("object="));
    assert_eq!(ours.count(), 19, "{shown}");
    let newest = on_terminal(&["tree", "W", "-b", "4"]);
    assert_eq!(
        newest,
        format!("object=257\npath=/{}\n", "\\xFF".repeat(256))
    );
}

/// But for names it is what goes to a file.
#[test]
fn a_terminal_is_shown_the_same_objects() {
    let folder = dumps::folder();
    let raw = run(folder.path(), &["tree", "forest", "-b", "8"], b"");
    let escaped = printed(&raw)
        .replace("a\nobject", "a\\x0Aobject")
        .replace("\u{e4}\\", "\\xC3\\xA4\\\\");
    assert_eq!(on_terminal(&["tree", "forest", "-b", "8"]), escaped);
    let json = run(folder.path(), &["tree", "forest", "-b", "8", "--json"], b"");
    let shown = on_terminal(&["tree", "forest", "-b", "8", "--json"]);
    assert_eq!(shown, printed(&json));
}

/// Names are raw bytes where the output is none: 256 of them, none a zero.
#[test]
fn a_file_gets_the_bytes() {
    let folder = dumps::folder();
    let output = run(folder.path(), &["tree", "W", "-b", "4"], b"");
    let expected = [&b"object=257\npath=/"[..], &[0xFF; 256], b"\n"].concat();
    assert!(output.stdout == expected);
}

/// Whatever its bytes, a path that was typed is compared with those of names.
#[test]
fn paths_have_any_bytes() {
    let folder = dumps::folder();
    let size = |dump: &str, path: &[u8]| {
        let mut command = lohenarr(folder.path());
        command.args(["size", dump, "-b", "1"]);
        command.arg(OsStr::from_bytes(path));
        command.output().unwrap()
    };
    let whole = [&b"/"[..], &[0xFF; 256]].concat();
    assert_eq!(printed(&size("W", &whole)), "size=1034\n");
    let short = size("W", &whole[..256]);
    let name = "\\xFF".repeat(255);
    assert_eq!(
        said(&short),
        format!(
            "lohenarr: no object has the path /{name}: the root has no entry {name}; \
             lohenarr tree shows the paths there are\n"
        )
    );
    assert_eq!(short.status.code(), Some(2));
    assert_eq!(printed(&size("forest", "/ä\\".as_bytes())), "size=0\n");
    assert_eq!(printed(&size("forest", b"/a\nobject=1")), "size=0\n");
    let number = size("forest", b"2\xFF");
    let what = "OBJECT is an id, decimal or with 0x, or a path that begins with /";
    assert!(
        said(&number).starts_with(&format!("lohenarr: {what}; 2")),
        "{}",
        said(&number)
    );
    assert_eq!(number.status.code(), Some(2));
}

/// Every command that takes an object takes its path, and answers alike.
#[test]
fn a_path_answers_as_its_id() {
    let folder = dumps::folder();
    for (path, id) in [
        ("/pass1.log", "259"),
        ("/old/pass1.log", "258"),
        ("/old", "257"),
    ] {
        for typed in [
            &["size"][..],
            &["chunk", "1"],
            &["read"],
            &["extract"],
            &["why"],
            &["why", "5"],
            &["size", "--before", "3"],
            &["size", "--json"],
            &["why", "--json"],
        ] {
            let [by_path, by_id] = [path, id].map(|object| {
                let on = ["forest", object];
                let typed = [&typed[..1], &on, &typed[1..], &["-b", "8"]].concat();
                run(folder.path(), &typed, b"")
            });
            assert_eq!(said(&by_path), said(&by_id), "{typed:?} {path}");
            assert!(by_path.stdout == by_id.stdout, "{typed:?} {path}");
            assert_eq!(by_path.status, by_id.status, "{typed:?} {path}");
        }
    }
}

/// Every path of the tree is that of its object, unless two have it or it has names
/// that are no words.
#[test]
fn every_path_is_found() {
    let folder = dumps::folder();
    let text = run(folder.path(), &["list", "forest", "-b", "8", "--long"], b"");
    let mut found = 0;
    for line in printed(&text).lines() {
        let (Some((object, _)), Some((_, path))) =
            (line.split_once(' '), line.split_once(" path="))
        else {
            continue;
        };
        let path = path.replace("\\x0A", "\n").replace("\\xC3\\xA4\\\\", "ä\\");
        let output = run(
            folder.path(),
            &["extract", "forest", &path, "-b", "8", "--json"],
            b"",
        );
        let is_word = !["/log", "/a/b", "/..", "/../up", "/"].contains(&&path[..]);
        assert_eq!(
            is_word,
            output.status.code() != Some(2),
            "{object}: {}",
            said(&output)
        );
        found += u32::from(is_word);
    }
    assert_eq!(found, 8);
}

/// Where so many objects have a path that nobody would read all ids, some are said.
#[test]
fn many_objects_of_one_name() {
    let folder = tempfile::tempdir().unwrap();
    let pages: Vec<u8> = (0..128)
        .flat_map(|at| header(300 + at, 1, 1, b"same"))
        .collect();
    fs::write(folder.path().join("same"), pages).unwrap();
    let output = run(folder.path(), &["size", "same", "/same", "-b", "8"], b"");
    let said = said(&output);
    assert!(said.starts_with("lohenarr: 128 objects have the path /same: 300, 301, "));
    assert!(
        said.ends_with(", 399 and 28 more; name one by its id\n"),
        "{said}"
    );
}
