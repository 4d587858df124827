//! Folders that `export` writes: whole or not at all, with nothing outside of them and
//! nothing written over, whatever names and links the dump has.

use std::fs::{self, File};
use std::os::unix::ffi::OsStrExt;
use std::os::unix::fs::{symlink, MetadataExt};
use std::os::unix::process::ExitStatusExt;
use std::path::Path;
use std::process::{Command, Output};
use std::thread::sleep;
use std::time::Duration;

use tempfile::TempDir;

use super::dumps::{self, first_chunk, header, symbolic, with, SIZE};
use super::out::{begun_to_write, names, on_full_disk, send, SIGNALS};
use super::{printed, run, said};

const FILE: u32 = 1;
const DIRECTORY: u32 = 3;

/// Everything below a folder, sorted: a directory has a slash behind it, and a link its
/// target.
fn below(folder: &Path) -> Vec<String> {
    let mut all = Vec::new();
    let mut left = vec![folder.to_path_buf()];
    while let Some(next) = left.pop() {
        for entry in fs::read_dir(next).unwrap() {
            let entry = entry.unwrap();
            let path = entry.path();
            let name = path.strip_prefix(folder).unwrap().as_os_str();
            let name = name.as_bytes().escape_ascii();
            let file_type = entry.file_type().unwrap();
            all.push(match fs::read_link(&path) {
                Ok(target) => format!("{name} -> {}", target.display()),
                Err(_) if file_type.is_dir() => format!("{name}/"),
                Err(_) => name.to_string(),
            });
            if file_type.is_dir() {
                left.push(path);
            }
        }
    }
    all.sort();
    all
}

/// What sha256sum says of an export, which must be that all is well.
fn checked(folder: &Path) -> String {
    let mut sums = Command::new("sha256sum");
    sums.args(["--check", "--strict", "SHA256SUMS"]);
    let output = sums.current_dir(folder).output().unwrap();
    assert!(output.status.success(), "{}", said(&output));
    assert_eq!(said(&output), "");
    String::from_utf8_lossy(&output.stdout).into_owned()
}

/// A dump of these pages in a folder with another file, exported there as `out`.
fn exported(pages: &[Vec<u8>]) -> (TempDir, Output) {
    let folder = tempfile::tempdir().unwrap();
    fs::create_dir(folder.path().join("in")).unwrap();
    fs::write(folder.path().join("in/dump"), pages.concat()).unwrap();
    fs::write(folder.path().join("beside"), "theirs").unwrap();
    let typed = ["export", "dump", "out", "--block", "1"];
    let output = run(&folder.path().join("in"), &typed, b"");
    assert_eq!((said(&output), output.status.code()), ("", Some(0)));
    assert_eq!(names(folder.path()), ["beside", "in"]);
    assert_eq!(names(&folder.path().join("in")), ["dump", "out"]);
    checked(&folder.path().join("in/out"));
    (folder, output)
}

fn out(folder: &TempDir) -> std::path::PathBuf {
    folder.path().join("in/out")
}

/// The line of the manifest on an object, behind its id.
fn told(folder: &TempDir, object: u32) -> String {
    let manifest = fs::read_to_string(out(folder).join("manifest.txt")).unwrap();
    let begin = format!("object={object} ");
    let lines: Vec<&str> = manifest
        .lines()
        .filter_map(|line| line.strip_prefix(&begin))
        .collect();
    assert_eq!(lines.len(), 1, "{object} in {manifest}");
    lines[0].to_string()
}

/// What the manifest says of an empty file.
const EMPTY: &str =
    "size=0 sha256=e3b0c44298fc1c149afbf4c8996fb92427ae41e4649b934ca495991b7852b855";

#[test]
fn names_that_lead_elsewhere() {
    let longest = [b'x'; 255];
    let (folder, output) = exported(&[
        header(300, DIRECTORY, 1, b".."),
        header(301, FILE, 300, b"beside"),
        header(302, FILE, 1, b"."),
        header(303, FILE, 1, b""),
        header(304, FILE, 1, b"../beside"),
        header(305, FILE, 1, b"/etc/passwd"),
        header(306, FILE, 1, &[b'y'; 256]),
        header(307, FILE, 1, &longest),
        header(308, DIRECTORY, 1, b"a b"),
        header(309, FILE, 308, b"..."),
        header(310, FILE, 1, b"up/\x1B[2J/."),
    ]);
    assert_eq!(
        printed(&output),
        "files=9\ndirectories=2\nbytes=0\nrenamed=7\nlost=0\n"
    );
    let y = "y".repeat(64);
    let x = "x".repeat(255);
    assert_eq!(
        below(&out(&folder)),
        [
            "SHA256SUMS",
            "a b/",
            "a b/...",
            "manifest.txt",
            "object-300-../",
            "object-300-../beside",
            "object-302-.",
            "object-303-",
            "object-304-..%2Fbeside",
            "object-305-%2Fetc%2Fpasswd",
            &format!("object-306-{y}"),
            "object-310-up%2F%1B%5B2J%2F.",
            &x,
        ]
    );
    assert_eq!(fs::read(folder.path().join("beside")).unwrap(), b"theirs");
    let lines = [
        (300, "type=3 path=/.. written=./object-300-.. reason=its name is that of another folder"),
        (301, &format!("type=1 path=/../beside {EMPTY} written=./object-300-../beside reason=its folder has another name")),
        (303, &format!("type=1 path=/ {EMPTY} written=./object-303- reason=its name is empty")),
        (304, &format!("type=1 path=/../beside {EMPTY} written=./object-304-..%2Fbeside reason=its name has a slash in it")),
        (306, &format!("type=1 path=/{} {EMPTY} written=./object-306-{y} reason=its name is longer than 255 bytes", "y".repeat(256))),
        (307, &format!("type=1 path=/{x} {EMPTY}")),
        (308, "type=3 path=/a\\x20b"),
        (309, &format!("type=1 path=/a\\x20b/... {EMPTY}")),
    ];
    for (object, line) in lines {
        assert_eq!(told(&folder, object), line);
    }
}

#[test]
fn names_that_are_taken() {
    let (folder, output) = exported(&[
        header(300, FILE, 1, b"manifest.txt"),
        header(301, FILE, 1, b"SHA256SUMS"),
        header(302, FILE, 1, b"log"),
        header(303, DIRECTORY, 1, b"log"),
        header(304, FILE, 303, b"log"),
        header(305, FILE, 303, b"manifest.txt"),
        header(306, FILE, 1, b"object-303-log"),
        header(307, FILE, 1, b"lost"),
        header(308, FILE, 99, b"log"),
        symbolic(309, 1, b"log", b"log"),
        header(310, 4, 1, b"log"),
        first_chunk(302, 512),
    ]);
    assert_eq!(
        printed(&output),
        "files=8\ndirectories=1\nbytes=512\nrenamed=6\nlost=1\n"
    );
    assert_eq!(
        below(&out(&folder)),
        [
            "SHA256SUMS",
            "log",
            "lost/",
            "lost/object-308-log",
            "manifest.txt",
            "object-300-manifest.txt",
            "object-301-SHA256SUMS",
            "object-303-log/",
            "object-303-log/log",
            "object-303-log/manifest.txt",
            "object-306-object-303-log",
            "object-307-lost",
            "object-309-log -> log",
        ]
    );
    assert_eq!(fs::metadata(out(&folder).join("log")).unwrap().len(), 512);
    let lines = [
        (303, "type=3 path=/log written=./object-303-log reason=its name is taken in its folder"),
        (306, &format!("type=1 path=/object-303-log {EMPTY} written=./object-306-object-303-log reason=its name begins as one that is made up")),
        (308, &format!("type=1 name=log parent=99 {EMPTY} written=./lost/object-308-log reason=it has no path: a parent has no header")),
        (309, "type=2 path=/log target=log written=./object-309-log reason=its name is taken in its folder"),
        (310, "type=4 path=/log equivalent_id=4294967295 written=none reason=no rule follows hard links"),
    ];
    for (object, line) in lines {
        assert_eq!(told(&folder, object), line);
    }
}

/// Names of any other bytes are kept, and sha256sum reads them.
#[test]
fn names_of_any_bytes() {
    let names: [&[u8]; 11] = [
        b"a\nb",
        b"a\\b",
        b"\\",
        b"a\r",
        b"\r\n",
        b"-",
        b" *a ",
        b"\xFF\xFE",
        "\u{e4}".as_bytes(),
        b"a size=1 written=none",
        b"#",
    ];
    let pages: Vec<Vec<u8>> = (300..)
        .zip(names)
        .map(|(id, name)| header(id, FILE, 1, name))
        .collect();
    let (folder, output) = exported(&pages);
    assert!(printed(&output).ends_with("\nrenamed=0\nlost=0\n"));
    assert_eq!(below(&out(&folder)).len(), names.len() + 2);
    assert_eq!(told(&folder, 300), format!("type=1 path=/a\\x0Ab {EMPTY}"));
    let forged = format!("type=1 path=/a\\x20size=1\\x20written=none {EMPTY}");
    assert_eq!(told(&folder, 309), forged);
    // as sha256sum would write it
    let sums = fs::read(out(&folder).join("SHA256SUMS")).unwrap();
    let again = Command::new("sha256sum")
        .args([
            "./a\nb", "./a\\b", "./\\", "./a\r", "./\r\n", "./-", "./ *a ",
        ])
        .current_dir(out(&folder))
        .output()
        .unwrap();
    assert!(sums.starts_with(&again.stdout));
}

#[test]
fn links_that_stay_inside() {
    let (folder, _) = exported(&[
        header(300, DIRECTORY, 1, b"d"),
        header(301, DIRECTORY, 300, b"e"),
        symbolic(302, 301, b"up", b"../.."),
        symbolic(303, 301, b"upper", b"../../.."),
        symbolic(304, 1, b"through", b"d/e/up/../beside"),
        symbolic(305, 1, b"beyond", b"d/e/up/beside"),
        symbolic(306, 1, b"absolute", b"/etc/passwd"),
        symbolic(307, 1, b"relative", b"../../etc/passwd"),
        symbolic(308, 300, b"back", b"a/../../b"),
        symbolic(309, 300, b"missing", b"../nowhere"),
        symbolic(310, 1, b"empty", b""),
        symbolic(311, 1, b"longest", &[b'l'; 160]),
        // a directory where a link has the name
        symbolic(312, 1, b"same", b"d"),
        header(313, DIRECTORY, 1, b"same"),
        header(314, FILE, 313, b"in"),
        symbolic(315, 99, b"gone", b"d"),
    ]);
    assert_eq!(
        below(&out(&folder)),
        [
            "SHA256SUMS",
            "absolute",
            "beyond -> d/e/up/beside",
            "d/",
            "d/back",
            "d/e/",
            "d/e/up -> ../..",
            "d/e/upper",
            "d/missing -> ../nowhere",
            "empty",
            &format!("longest -> {}", "l".repeat(160)),
            "manifest.txt",
            "object-313-same/",
            "object-313-same/in",
            "relative",
            "same -> d",
            "through",
        ]
    );
    let texts = [
        ("absolute", "/etc/passwd"),
        ("relative", "../../etc/passwd"),
        ("through", "d/e/up/../beside"),
        ("d/back", "a/../../b"),
        ("d/e/upper", "../../.."),
        ("empty", ""),
    ];
    for (name, target) in texts {
        assert_eq!(fs::read_to_string(out(&folder).join(name)).unwrap(), target);
    }
    let told = |object| told(&folder, object);
    assert_eq!(told(302), "type=2 path=/d/e/up target=../..");
    assert_eq!(
        told(306),
        "type=2 path=/absolute target=/etc/passwd \
         reason=its target may lead outside: it is written as a text"
    );
    assert_eq!(
        told(315),
        "type=2 name=gone parent=99 written=none reason=it has no path: a parent has no header"
    );
}

/// Every live file is written, also those without a path; the root too where it is one.
#[test]
fn files_without_a_path() {
    let (folder, output) = exported(&[
        header(1, FILE, 1, b"root"),
        first_chunk(1, 100),
        header(300, DIRECTORY, 300, b"circle"),
        header(301, FILE, 300, b"../x"),
        header(302, DIRECTORY, 4, b"gone"),
        header(303, FILE, 302, b"x"),
        header(304, FILE, 301, b"x"),
        header(305, 5, 1, b"tty"),
        first_chunk(304, 7),
    ]);
    assert_eq!(
        printed(&output),
        "files=4\ndirectories=0\nbytes=107\nrenamed=0\nlost=4\n"
    );
    assert_eq!(
        below(&out(&folder)),
        [
            "SHA256SUMS",
            "lost/",
            "lost/object-1-root",
            "lost/object-301-..%2Fx",
            "lost/object-303-x",
            "lost/object-304-x",
            "manifest.txt",
        ]
    );
    let ends = [
        (
            1,
            "written=./lost/object-1-root reason=it is the root and a file",
        ),
        (
            300,
            "written=none reason=it has no path: its parents lead round in a circle",
        ),
        (303, "reason=it has no path: a parent is deleted"),
        (304, "reason=it has no path: a parent is no directory"),
        (
            305,
            "path=/tty written=none reason=a special file has no bytes",
        ),
    ];
    for (object, end) in ends {
        let line = told(&folder, object);
        assert!(line.ends_with(end), "{line}");
    }
}

#[test]
fn a_root_that_is_a_file_alone() {
    let (folder, _) = exported(&[header(1, FILE, 1, b"root")]);
    let all = ["SHA256SUMS", "lost/", "lost/object-1-root", "manifest.txt"];
    assert_eq!(below(&out(&folder)), all);
}

/// Names of 255 bytes, 32 steps deep: every file can be opened by its path.
#[test]
fn a_path_that_is_very_long() {
    let mut pages = Vec::new();
    for step in 0..40 {
        let parent = if step == 0 { 1 } else { 299 + step };
        let name = [b'a' + step as u8 % 26; 255];
        pages.push(header(300 + step, DIRECTORY, parent, &name));
        pages.push(header(400 + step, FILE, 300 + step, &name));
    }
    let (folder, output) = exported(&pages);
    assert_eq!(
        printed(&output),
        "files=40\ndirectories=32\nbytes=0\nrenamed=50\nlost=9\n"
    );
    let sums = checked(&out(&folder));
    assert_eq!(sums.lines().count(), 41);
    let longest = sums.lines().map(str::len).max().unwrap();
    assert!(3000 < longest && longest < 4095, "{longest}");
    let line = told(&folder, 307);
    assert!(
        line.ends_with(" reason=its path is longer than 2000 bytes"),
        "{line}"
    );
    let line = told(&folder, 432);
    assert!(line.contains(" written=./lost/object-432-"), "{line}");
}

#[test]
fn what_is_there_stays() {
    let folder = dumps::folder();
    let path = |name: &str| folder.path().join(name);
    fs::create_dir(path("full")).unwrap();
    fs::write(path("full/mine"), "mine").unwrap();
    fs::create_dir(path("bare")).unwrap();
    symlink("nowhere", path("dangling")).unwrap();
    let before = below(folder.path());
    for name in [
        "full",
        "full/",
        "bare",
        "W",
        "dangling",
        "dangling/",
        ".",
        "..",
        "",
        "/",
        "no/new",
        "no/..",
    ] {
        let output = run(folder.path(), &["export", "forest", name, "-b", "8"], b"");
        let shown = if name.is_empty() { "''" } else { name };
        let begin = format!("lohenarr: cannot write {shown}: ");
        assert!(
            said(&output).starts_with(&begin),
            "{name}: {}",
            said(&output)
        );
        assert_eq!(
            (printed(&output), output.status.code()),
            ("", Some(2)),
            "{name}"
        );
    }
    assert_eq!(below(folder.path()), before);
    for name in ["new/", "./newer/.", "full/new"] {
        let output = run(folder.path(), &["export", "forest", name, "-b", "8"], b"");
        assert_eq!(
            (said(&output), output.status.code()),
            ("", Some(0)),
            "{name}"
        );
        checked(&path(name));
    }
    assert_eq!(names(&path("full")), ["mine", "new"]);
    assert_eq!(below(&path("new")), below(&path("newer")));
}

#[test]
fn a_refused_export_makes_no_folder() {
    let folder = dumps::folder();
    let before = names(folder.path());
    let output = run(folder.path(), &["export", "empty", "new"], b"");
    assert_eq!(printed(&output), "refusal=2\n");
    assert_eq!(output.status.code(), Some(1));
    assert_eq!(names(folder.path()), before);
}

#[test]
fn an_export_twice_is_the_same() {
    let folder = dumps::folder();
    for (name, dump) in [("one", "forest"), ("two", "./forest")] {
        run(folder.path(), &["export", dump, name, "-b", "8"], b"");
    }
    let [one, two] = ["one", "two"].map(|name| folder.path().join(name));
    assert_eq!(below(&one), below(&two));
    for text in ["manifest.txt", "SHA256SUMS"] {
        assert!(fs::read(one.join(text)).unwrap() == fs::read(two.join(text)).unwrap());
    }
    let piped = ["export", "-", "three", "-b", "8", "--json"];
    let dump = fs::read(folder.path().join("forest")).unwrap();
    let output = run(folder.path(), &piped, &dump);
    assert_eq!(
        printed(&output),
        "{\"files\":13,\"directories\":4,\"bytes\":612,\"renamed\":5,\"lost\":3}\n"
    );
}

/// Two directories and a file below them, and then one that takes a while.
fn long(folder: &Path, size: u32) {
    let pages = [
        header(300, DIRECTORY, 1, b"one"),
        header(301, DIRECTORY, 300, b"two"),
        header(302, FILE, 301, b"short"),
        symbolic(303, 300, b"link", b"two"),
        with(&header(304, FILE, 1, b"long"), SIZE, size),
        first_chunk(302, 512),
    ];
    fs::write(folder.join("long"), pages.concat()).unwrap();
}

const LONG: [&str; 5] = ["export", "long", "new", "--block", "1"];

#[test]
fn holes_are_sparse() {
    let folder = tempfile::tempdir().unwrap();
    long(folder.path(), 1 << 29);
    let output = run(folder.path(), &LONG, b"");
    assert!(
        printed(&output).contains("\nbytes=536871424\n"),
        "{}",
        said(&output)
    );
    let metadata = fs::metadata(folder.path().join("new/long")).unwrap();
    assert_eq!(metadata.len(), 1 << 29);
    assert!(metadata.blocks() < 100, "{} of 512", metadata.blocks());
}

/// The limit is met by the texts, by a file and by a hole's end.
#[test]
fn a_full_disk_leaves_nothing() {
    let folder = tempfile::tempdir().unwrap();
    long(folder.path(), 1 << 20);
    for limit in [300, 2000, 1 << 19] {
        let output = on_full_disk(folder.path(), &LONG, limit);
        let full = "lohenarr: cannot write new: File too large\n";
        assert_eq!((said(&output), output.status.code()), (full, Some(2)));
        assert_eq!(names(folder.path()), ["long"]);
    }
    let output = on_full_disk(folder.path(), &LONG, 1 << 20);
    assert_eq!((said(&output), output.status.code()), ("", Some(0)));
}

#[test]
fn an_interrupted_export_leaves_nothing() {
    let folder = tempfile::tempdir().unwrap();
    long(folder.path(), u32::MAX);
    for signal in SIGNALS {
        let child = begun_to_write(folder.path(), &LONG, libc::SIG_DFL);
        let long = folder
            .path()
            .join(format!(".lohenarr-{}.part/long", child.id()));
        while !long.exists() {
            sleep(Duration::from_millis(1));
        }
        send(&child, signal);
        let output = child.wait_with_output().unwrap();
        assert_eq!(output.status.signal(), Some(signal));
        assert_eq!(names(folder.path()), ["long"]);
    }
}

/// The dump is shortened while the hole before the last chunk is gone over.
#[test]
fn a_byte_that_is_gone_leaves_nothing() {
    let folder = dumps::folder();
    let before = names(folder.path());
    let typed = ["export", "far", "new", "--block", "1"];
    let child = begun_to_write(folder.path(), &typed, libc::SIG_DFL);
    File::create(folder.path().join("far")).unwrap();
    let output = child.wait_with_output().unwrap();
    let lost = "lohenarr: cannot read far: byte ";
    assert!(said(&output).starts_with(lost), "{}", said(&output));
    assert_eq!(output.status.code(), Some(2));
    assert_eq!(names(folder.path()), before);
}

/// Somebody else takes the name meanwhile: what they have stays.
#[test]
fn a_name_that_is_taken_meanwhile() {
    let folder = tempfile::tempdir().unwrap();
    long(folder.path(), 1 << 29);
    let child = begun_to_write(folder.path(), &LONG, libc::SIG_DFL);
    fs::create_dir(folder.path().join("new")).unwrap();
    let output = child.wait_with_output().unwrap();
    assert_eq!(output.status.code(), Some(2));
    assert_eq!(below(folder.path()), ["long", "new/"]);
}
