//! Dumps and scripts that are no plain files, and dumps that stay as they were.

use std::fs::{self, File};
use std::io::{Seek, SeekFrom};
use std::process::Stdio;

use super::dumps::{self, W};
use super::{lohenarr, run, said};

#[test]
fn a_dump_from_standard_input() {
    let folder = dumps::folder();
    let output = run(folder.path(), &["size", "-", "257", "--block", "4"], W);
    assert_eq!(output.stdout, b"size=1034\n");
    assert_eq!(output.status.code(), Some(0));
    let output = run(folder.path(), &["find", "-"], b"");
    assert_eq!(output.stdout, b"refusal=2\n");
    assert_eq!(output.status.code(), Some(1));
}

/// Standard input is read on from where it stands.
#[test]
fn a_dump_behind_something_else() {
    let folder = dumps::folder();
    let path = folder.path().join("behind");
    fs::write(&path, [b"something else", W].concat()).unwrap();
    let mut file = File::open(path).unwrap();
    file.seek(SeekFrom::End(-(W.len() as i64))).unwrap();
    let mut command = lohenarr(folder.path());
    command.args(["size", "-", "257", "-b", "4"]).stdin(file);
    assert_eq!(command.output().unwrap().stdout, b"size=1034\n");
}

/// The fewest pages of 512/16 that are too long; the file has no blocks on disk.
#[test]
fn a_dump_that_is_too_long() {
    let folder = dumps::folder();
    let file = File::create(folder.path().join("long")).unwrap();
    file.set_len(1_073_741_856).unwrap();
    let output = run(folder.path(), &["find", "long", "--block", "1"], b"");
    assert_eq!(output.stdout, b"refusal=2\n");
    assert_eq!(output.status.code(), Some(1));
}

/// A device that never ends is no dump, by whatever name it comes.
#[test]
fn an_endless_device_is_no_dump() {
    let folder = dumps::folder();
    for (name, shown) in [("/dev/zero", "/dev/zero"), ("-", "standard input")] {
        let mut command = lohenarr(folder.path());
        command.args(["find", name]);
        command.stdin(File::open("/dev/zero").unwrap());
        let output = command.output().unwrap();
        let no_length = format!("lohenarr: cannot read {shown}: it is a device without");
        assert!(said(&output).starts_with(&no_length), "{}", said(&output));
        assert_eq!(output.status.code(), Some(2));
    }
}

#[test]
fn an_endless_script_is_not_read_to_its_end() {
    let folder = dumps::folder();
    let output = run(folder.path(), &["script", "W", "/dev/zero"], b"");
    let longest = "lohenarr: cannot read /dev/zero: a script has at most 67108864 bytes\n";
    assert_eq!(said(&output), longest);
    assert_eq!(output.status.code(), Some(2));
}

/// Rust's runtime would put /dev/null in its place, which is empty.
#[test]
fn a_closed_standard_input_is_no_dump() {
    let folder = dumps::folder();
    let mut shell = std::process::Command::new("sh");
    let command = "exec \"$0\" find - <&-";
    shell.args(["-c", command, env!("CARGO_BIN_EXE_lohenarr")]);
    let output = shell.current_dir(&folder).stdin(Stdio::null()).output();
    let output = output.unwrap();
    let closed = "lohenarr: cannot read standard input: it is closed\n";
    assert_eq!(said(&output), closed);
    assert_eq!(output.status.code(), Some(2));
}

/// Reading changes neither a dump's bytes nor when it was last written.
#[test]
fn a_dump_stays_as_it_was() {
    let folder = dumps::folder();
    let dump = folder.path().join("W");
    let mut access = fs::metadata(&dump).unwrap().permissions();
    access.set_readonly(true);
    fs::set_permissions(&dump, access).unwrap();
    let written = fs::metadata(&dump).unwrap().modified().unwrap();
    for command in ["report", "pages", "list", "extract"] {
        let output = run(folder.path(), &[command, "W", "--block", "4"], b"");
        assert_eq!(output.status.code(), Some(0), "{command}");
    }
    let output = run(folder.path(), &["certify", "W", "257"], b"");
    assert_eq!(output.status.code(), Some(0));
    assert_eq!(fs::read(&dump).unwrap(), W);
    assert_eq!(fs::metadata(&dump).unwrap().modified().unwrap(), written);
}
