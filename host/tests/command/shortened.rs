//! Dumps that lose bytes while they are read: a sentence that says where, and
//! status 2, never a signal.

use std::env;
use std::fs::{self, File};
use std::hint::black_box;
use std::io::{Read, Write};
use std::path::Path;
use std::process::{Child, Command, Output, Stdio};
use std::sync::Barrier;
use std::thread::{self, sleep};
use std::time::Duration;

use lohenarr::dump::Dump;
use lohenarr::signals;

use super::dumps::{self, W};
use super::{lohenarr, said};

/// Begins a script on W, and waits until that is mapped.
fn begun(folder: &Path) -> Child {
    let mut command = lohenarr(folder);
    command.args(["script", "W"]).stdin(Stdio::piped());
    command.stdout(Stdio::piped()).stderr(Stdio::piped());
    let mut child = command.spawn().unwrap();
    let maps = format!("/proc/{}/maps", child.id());
    let dump = fs::canonicalize(folder.join("W")).unwrap();
    let is_mapped = || {
        fs::read_to_string(&maps)
            .unwrap()
            .contains(dump.to_str().unwrap())
    };
    while !is_mapped() {
        assert_eq!(child.try_wait().unwrap(), None, "it ended too soon");
        sleep(Duration::from_millis(1));
    }
    child
}

/// Feeds the script, and waits for the end.
fn ended(mut child: Child, script: &str) -> Output {
    let mut stdin = child.stdin.take().unwrap();
    stdin.write_all(script.as_bytes()).unwrap();
    drop(stdin);
    child.wait_with_output().unwrap()
}

pub fn shorten(dump: &Path, length: u64) {
    let file = File::options().write(true).open(dump).unwrap();
    file.set_len(length).unwrap();
}

/// The tags of page 0 begin at byte 512.
#[test]
fn a_byte_that_is_gone() {
    let folder = dumps::folder();
    let child = begun(folder.path());
    shorten(&folder.path().join("W"), 0);
    let output = ended(child, "kind 6 4 0");
    let lost = "lohenarr: cannot read W: byte 512 is not there: \
                the file was shortened meanwhile, or its medium fails\n";
    assert_eq!(said(&output), lost);
    assert_eq!(output.status.code(), Some(2));
}

/// The system fills up the last page of a file with zeros, and nothing tells.
#[test]
fn bytes_of_the_last_page_that_are_gone() {
    let folder = dumps::folder();
    let child = begun(folder.path());
    shorten(&folder.path().join("W"), W.len() as u64 - 1);
    let output = ended(child, "kind 6 4 0");
    let lost = "lohenarr: cannot read W: it was shortened to 4223 bytes while it was read\n";
    assert_eq!(said(&output), lost);
    assert_eq!(output.status.code(), Some(2));
}

/// The file is longer than a pipe holds, so that the command still writes when
/// the dump is shortened: then it is the system that cannot read.
#[test]
fn a_byte_that_the_system_cannot_read() {
    let folder = dumps::folder();
    let dump = folder.path().join("long");
    fs::write(&dump, dumps::long(4000)).unwrap();
    let mut command = lohenarr(folder.path());
    command.args(["read", "long", "257", "--block", "1"]);
    command.stdout(Stdio::piped()).stderr(Stdio::piped());
    let mut child = command.spawn().unwrap();
    let mut stdout = child.stdout.take().unwrap();
    stdout.read_exact(&mut [0]).unwrap();
    shorten(&dump, 4096);
    stdout.read_to_end(&mut Vec::new()).unwrap();
    let output = child.wait_with_output().unwrap();
    let lost = "lohenarr: cannot read long: byte ";
    assert!(said(&output).starts_with(lost), "{}", said(&output));
    assert_eq!(output.status.code(), Some(2));
}

/// Two threads miss a byte at once, in a process of their own.
#[test]
#[ignore = "it ends the process; the next test runs it"]
fn two_threads() {
    signals::set();
    let dump = Dump::open("W".as_ref(), false).unwrap();
    shorten(Path::new("W"), 0);
    let (bytes, both): (&[u8], _) = (&dump, Barrier::new(2));
    thread::scope(|scope| {
        for at in [0, 4096] {
            let both = &both;
            scope.spawn(move || {
                both.wait();
                black_box(bytes[at])
            });
        }
    });
}

#[test]
fn one_sentence_of_two_threads() {
    let folder = dumps::folder();
    for _ in 0..50 {
        fs::write(folder.path().join("W"), W).unwrap();
        let mut command = Command::new(env::current_exe().unwrap());
        command.args(["--exact", "--ignored", "shortened::two_threads"]);
        let output = command.current_dir(&folder).output().unwrap();
        let said = said(&output);
        let lost = [0, 4096].map(|byte| format!("lohenarr: cannot read W: byte {byte} is not"));
        assert!(lost.iter().any(|lost| said.starts_with(lost)), "{said}");
        assert_eq!(said.matches("lohenarr").count(), 1, "{said}");
        assert_eq!(output.status.code(), Some(2));
    }
}
