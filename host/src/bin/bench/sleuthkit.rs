//! The whole commands, from opening the dump on, beside the Sleuth Kit's `fls`
//! and `icat` on the same dump, where that is installed. Both write to a file.

use std::ffi::{OsStr, OsString};
use std::fs::File;
use std::io::{BufWriter, Write};
use std::path::Path;
use std::process::{Command, Stdio};
use std::time::{Duration, Instant};

use lohenarr::arguments::{Arguments, Parsed};
use lohenarr::commands;

/// A run that is not repeated.
const LONG: Duration = Duration::from_secs(3);

/// Prints how many times faster a command is, for a listing and for files.
/// What each writes goes to a file of this name.
pub fn compare(dump: &Path, out: &Path, objects: &[u32]) {
    let dump = dump.as_os_str();
    let list = [OsStr::new("list"), dump];
    row("list", &list, "fls", &[OsStr::new("-r"), dump], out);
    for object in objects {
        let name = format!("read {object}");
        let object = OsString::from(object.to_string());
        let read = [OsStr::new("read"), dump, &object];
        row(&name, &read, "icat", &[dump, &object], out);
    }
}

fn row(name: &str, ours: &[&OsStr], program: &str, theirs: &[&OsStr], out: &Path) {
    let Some(theirs) = best(out, |file| run(program, theirs, file)) else {
        println!("{program}: not installed, or it does not take the dump");
        return;
    };
    let Some(ours) = best(out, |file| command(ours, file)) else {
        println!("lohenarr {name}: refused");
        return;
    };
    let times = theirs.as_secs_f64() / ours.as_secs_f64();
    println!("lohenarr {name}: {ours:.1?}, {program}: {theirs:.1?}, {times:.1} times as long");
}

/// The shortest of three runs into a new file, if they succeed; a long one is
/// enough.
fn best(out: &Path, work: impl Fn(File) -> Option<Duration>) -> Option<Duration> {
    let mut best = Duration::MAX;
    for _ in 0..3 {
        best = best.min(work(File::create(out).ok()?)?);
        if best > LONG {
            break;
        }
    }
    Some(best)
}

/// A command as typed.
fn command(words: &[&OsStr], out: File) -> Option<Duration> {
    let start = Instant::now();
    let mut out = BufWriter::new(out);
    let Ok(Parsed::Run(arguments)) = Arguments::parse(words.iter().map(OsString::from)) else {
        return None;
    };
    commands::run(&arguments, &mut out).ok()?;
    out.flush().ok()?;
    Some(start.elapsed())
}

fn run(program: &str, words: &[&OsStr], out: File) -> Option<Duration> {
    let start = Instant::now();
    let mut command = Command::new(program);
    command.args(["-f", "yaffs2"]).args(words);
    let status = command.stdout(out).stderr(Stdio::null()).status();
    status.ok()?.success().then(|| start.elapsed())
}
