//! Files that `read --out` writes: whole or not at all, with their holes sparse.

use std::fs::{self, File};
use std::os::unix::fs::{FileExt, MetadataExt};
use std::os::unix::process::{CommandExt, ExitStatusExt};
use std::path::Path;
use std::process::{Child, Output, Stdio};
use std::thread::sleep;
use std::time::Duration;

use sha2::{Digest, Sha256};

use super::dumps::{self, W};
use super::{lohenarr, run, said};

/// The file of W: what the marked cases say of its chunks.
fn file() -> Vec<u8> {
    let page = |i: usize, valid: usize| &W[528 * i..528 * i + valid];
    [page(5, 300), &[0; 212], &[0; 512], page(6, 10)].concat()
}

const OF_FILE: &str = "size=1034\n\
    sha256=054278936172af82c9b165e053052272ba798e66ab2f0f22b91af07999b9aa8d\n";

/// The names in a folder.
pub fn names(folder: &Path) -> Vec<String> {
    let entries = fs::read_dir(folder).unwrap();
    let name = |entry: fs::DirEntry| entry.file_name().into_string().unwrap();
    let mut names: Vec<String> = entries.map(|entry| name(entry.unwrap())).collect();
    names.sort();
    names
}

#[test]
fn a_file_is_read() {
    let folder = dumps::folder();
    let read = |more: &[&str]| {
        let typed = [&["read", "W", "257", "--block", "4"], more].concat();
        run(folder.path(), &typed, b"")
    };
    for stdout in [&[][..], &["--out", "-"], &["-o-"]] {
        let output = read(stdout);
        assert_eq!((&output.stdout, said(&output)), (&file(), ""));
        assert_eq!(output.status.code(), Some(0));
    }
    for (name, more) in [("new", "--copy"), ("newer", "--layout=6")] {
        let output = read(&["--out", name, more]);
        assert_eq!(
            (str::from_utf8(&output.stdout), said(&output)),
            (Ok(OF_FILE), "")
        );
        assert_eq!(fs::read(folder.path().join(name)).unwrap(), file());
    }
    let output = read(&["--json", "-o", "newest"]);
    assert!(output
        .stdout
        .starts_with(b"{\"size\":1034,\"sha256\":\"054278"));
}

#[test]
fn nothing_is_written_over() {
    let folder = dumps::folder();
    let before = names(folder.path());
    for (name, why) in [("W", "it is there already"), ("no/new", "No such file")] {
        let typed = ["read", "W", "257", "--block", "4", "--out", name];
        let output = run(folder.path(), &typed, b"");
        let sentence = format!("lohenarr: cannot write {name}: {why}");
        assert!(said(&output).starts_with(&sentence), "{}", said(&output));
        assert_eq!(output.status.code(), Some(2));
    }
    assert_eq!(fs::read(folder.path().join("W")).unwrap(), W);
    assert_eq!(names(folder.path()), before);
}

#[test]
fn a_refused_read_makes_no_file() {
    let folder = dumps::folder();
    let before = names(folder.path());
    let typed = ["read", "W", "258", "--block", "4", "--out", "new"];
    assert_eq!(run(folder.path(), &typed, b"").status.code(), Some(1));
    assert_eq!(names(folder.path()), before);
}

/// The last chunk that has a number behind a hole of half a GiB, and a header
/// alone that says half a GiB.
#[test]
fn holes_are_sparse() {
    let folder = dumps::folder();
    let last = &W[528..528 + 512];
    for (dump, hole, end) in [("far", 0xF_FFFE * 512, last), ("half-gib", 1 << 29, &[])] {
        let new = format!("{dump}-read");
        let typed = ["read", dump, "257", "-b", "1", "-o", &new];
        let output = run(folder.path(), &typed, b"");
        let printed = format!("size={}\nsha256={}\n", hole + end.len(), sum(hole, end));
        assert_eq!(str::from_utf8(&output.stdout), Ok(&*printed));
        let file = File::open(folder.path().join(new)).unwrap();
        let metadata = file.metadata().unwrap();
        assert_eq!(metadata.len(), (hole + end.len()) as u64);
        assert!(metadata.blocks() < 100, "{} of 512", metadata.blocks());
        let mut bytes = vec![0; end.len()];
        file.read_exact_at(&mut bytes, hole as u64).unwrap();
        assert_eq!(bytes, end);
    }
}

/// The SHA-256 of so many zeros, in pieces of 1,024, and what comes behind.
fn sum(zeros: usize, end: &[u8]) -> String {
    let mut sum = Sha256::new();
    (0..zeros / 1024).for_each(|_| sum.update([0; 1024]));
    sum.update(end);
    format!("{:x}", sum.finalize())
}

/// A command on a disk that is full, for which a limit of a file's length stands.
pub fn on_full_disk(folder: &Path, typed: &[&str], limit: u64) -> Output {
    let mut command = lohenarr(folder);
    command.args(typed);
    // SAFETY: between fork and exec a limit is set, by one call of the system, and nothing else.
    unsafe {
        command.pre_exec(move || {
            let (rlim_cur, rlim_max) = (limit, limit);
            let limit = libc::rlimit { rlim_cur, rlim_max };
            libc::setrlimit(libc::RLIMIT_FSIZE, &limit);
            Ok(())
        });
    }
    command.output().unwrap()
}

#[test]
fn a_full_disk_leaves_nothing() {
    let folder = dumps::folder();
    let before = names(folder.path());
    for (dump, block) in [("W", "4"), ("half-gib", "1")] {
        let typed = ["read", dump, "257", "--block", block, "--out", "new"];
        let output = on_full_disk(folder.path(), &typed, 1000);
        assert_eq!(
            said(&output),
            "lohenarr: cannot write new: File too large\n"
        );
        assert_eq!(output.status.code(), Some(2));
        assert_eq!(names(folder.path()), before);
    }
}

/// Begins to read a long file, which takes a while.
fn begun(folder: &Path, dump: &str, signals: libc::sighandler_t) -> Child {
    let typed = ["read", dump, "257", "--block", "1", "--out", "new"];
    begun_to_write(folder, &typed, signals)
}

/// Begins a command that writes a file or a folder, and waits until that stands beside
/// its name. Signals do as they are told, whatever they do in this process.
pub fn begun_to_write(folder: &Path, typed: &[&str], signals: libc::sighandler_t) -> Child {
    let mut command = lohenarr(folder);
    command.args(typed);
    command.stdout(Stdio::null()).stderr(Stdio::piped());
    // SAFETY: between fork and exec it is set what signals do, which a handler may do too.
    unsafe {
        command.pre_exec(move || {
            for signal in SIGNALS {
                libc::signal(signal, signals);
            }
            Ok(())
        });
    }
    let mut child = command.spawn().unwrap();
    let beside = folder.join(format!(".lohenarr-{}.part", child.id()));
    while !beside.exists() {
        assert_eq!(child.try_wait().unwrap(), None, "it ended too soon");
        sleep(Duration::from_millis(1));
    }
    child
}

pub const SIGNALS: [i32; 3] = [libc::SIGINT, libc::SIGTERM, libc::SIGHUP];

pub fn send(child: &Child, signal: i32) {
    // SAFETY: takes no memory; the process has not been waited for, so that the number is its own.
    unsafe { libc::kill(child.id() as i32, signal) };
}

#[test]
fn an_interrupted_read_leaves_nothing() {
    let folder = dumps::folder();
    let before = names(folder.path());
    for signal in SIGNALS {
        let child = begun(folder.path(), "4-gib", libc::SIG_DFL);
        send(&child, signal);
        let output = child.wait_with_output().unwrap();
        assert_eq!(output.status.signal(), Some(signal));
        assert_eq!(names(folder.path()), before);
    }
}

/// As under nohup, or in the background of a script.
#[test]
fn signals_that_are_ignored_stay_so() {
    let folder = dumps::folder();
    let child = begun(folder.path(), "half-gib", libc::SIG_IGN);
    SIGNALS.iter().for_each(|signal| send(&child, *signal));
    let output = child.wait_with_output().unwrap();
    assert_eq!(output.status.code(), Some(0));
    assert!(folder.path().join("new").exists());
}

/// The dump is shortened while the hole before the last chunk is gone over.
#[test]
fn a_byte_that_is_gone_leaves_nothing() {
    let folder = dumps::folder();
    let before = names(folder.path());
    let child = begun(folder.path(), "far", libc::SIG_DFL);
    fs::write(folder.path().join("far"), b"").unwrap();
    let output = child.wait_with_output().unwrap();
    let lost = "lohenarr: cannot read far: byte 528 is not there: ";
    assert!(said(&output).starts_with(lost), "{}", said(&output));
    assert_eq!(output.status.code(), Some(2));
    assert_eq!(names(folder.path()), before);
}

/// Somebody else makes a file of that name meanwhile: it stays.
#[test]
fn a_name_that_is_taken_meanwhile() {
    let folder = dumps::folder();
    let child = begun(folder.path(), "half-gib", libc::SIG_DFL);
    fs::write(folder.path().join("new"), "theirs").unwrap();
    let before = names(folder.path()).len() - 1;
    let output = child.wait_with_output().unwrap();
    assert_eq!(output.status.code(), Some(2));
    assert_eq!(fs::read(folder.path().join("new")).unwrap(), b"theirs");
    assert_eq!(names(folder.path()).len(), before);
}
