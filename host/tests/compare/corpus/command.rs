//! What the command reads of each dump, against what the driver shows.

use std::ffi::OsString;
use std::fs;
use std::path::{Path, PathBuf};
use std::process::Command;

use lohenarr::arguments::{Arguments, Parsed};
use lohenarr::commands;
use tempfile::TempDir;

use super::{cases, value, Case, DRIVERS_OWN};
use crate::sha256;

/// What the command writes.
pub fn run(command: &str, dump: &Path, rest: &[&str]) -> Vec<u8> {
    let words = [OsString::from(command), dump.into()].into_iter();
    let words = words.chain(rest.iter().map(OsString::from));
    let Ok(Parsed::Run(arguments)) = Arguments::parse(words) else {
        panic!("{command} {rest:?} is no command");
    };
    let mut out = Vec::new();
    let done = commands::run(&arguments, &mut out);
    assert!(done.is_ok(), "{command} {} {rest:?}", dump.display());
    out
}

pub fn lines(command: &str, dump: &Path, rest: &[&str]) -> String {
    String::from_utf8(run(command, dump, rest)).unwrap()
}

/// The dump of a case as a file in a test's own folder.
pub fn written(case: &Case, folder: &TempDir) -> PathBuf {
    let path = folder.path().join("dump");
    fs::write(&path, &case.dump).unwrap();
    path
}

/// Layout and K, which nobody names, are those that the driver had.
#[test]
fn the_command_finds_what_the_driver_had() {
    let folder = tempfile::tempdir().unwrap();
    for case in cases() {
        let mut report = Command::new(env!("CARGO_BIN_EXE_lohenarr"));
        report.arg("report").arg(written(&case, &folder));
        let output = report.output().unwrap();
        let printed = String::from_utf8(output.stdout).unwrap();
        let (name, layout, block) = (&case.name, &case.layout, &case.block);
        let found = format!("layout={layout}\nblock={block}\n");
        assert!(printed.starts_with(&found), "{name}: {printed}");
        let said = String::from_utf8(output.stderr).unwrap();
        let taken = format!("lohenarr: K is {block} pages a block, ");
        assert!(said.starts_with(&taken), "{name}: {said}");
    }
}

#[test]
fn the_command_reads_what_the_driver_shows() {
    let folder = tempfile::tempdir().unwrap();
    for case in cases() {
        let (dump, name) = (written(&case, &folder), &case.name);
        let block = ["--block", &case.block];
        let found = lines("find", &dump, &block);
        assert_eq!(found, format!("layout={}\n", case.layout), "{name}");
        let live = lines("list", &dump, &block);
        let live = live
            .lines()
            .map(|line| line.strip_prefix("object=").unwrap());
        let mut live: Vec<u32> = live.map(|id| id.parse().unwrap()).collect();
        live.retain(|&id| id > DRIVERS_OWN);
        let mut shown = case.objects.clone();
        shown.retain(|&id| id > DRIVERS_OWN);
        assert_eq!(live, shown, "{name}: the live objects");
        for file in &case.files {
            let object = file.object.to_string();
            let bytes = run("read", &dump, &[&object, block[0], block[1]]);
            assert_eq!(bytes.len() as u64, file.size, "{name}: object {object}");
            assert_eq!(sha256(&bytes), file.sha256, "{name}: object {object}");
        }
    }
}

/// A run of a file's bytes, as `why` prints it.
struct Run {
    from: usize,
    until: usize,
    /// Where the dump has these bytes, if a page holds them.
    held: Option<usize>,
}

/// The runs of a file, which must follow one another.
fn runs(case: &Case, dump: &Path, object: &str) -> Vec<Run> {
    let printed = lines("why", dump, &[object, "--block", &case.block]);
    let sizes = case.layout.split('/').map(|size| size.parse().unwrap());
    let [data, spare, _]: [usize; 3] = sizes.collect::<Vec<_>>().try_into().unwrap();
    let number = |line, key| value(line, key).parse::<usize>().unwrap();
    let run = |line| Run {
        from: number(line, "from"),
        until: number(line, "until"),
        held: (value(line, "reason") == "held")
            .then(|| number(line, "page") * (data + spare) + number(line, "byte")),
    };
    let runs: Vec<Run> = printed.lines().map(run).collect();
    for (one, next) in runs.iter().zip(runs.iter().skip(1)) {
        assert_eq!(one.until, next.from, "{}: object {object}", case.name);
    }
    runs
}

/// The runs of each file go from 0 to its size, and what they say is held is all
/// that the driver shows: with zeros everywhere else the bytes are its own.
#[test]
fn every_byte_of_the_driver_has_its_reason() {
    let folder = tempfile::tempdir().unwrap();
    let (mut files, mut counted) = (0, 0);
    for case in cases() {
        let dump = written(&case, &folder);
        for file in &case.files {
            let (name, object) = (&case.name, file.object.to_string());
            let runs = runs(&case, &dump, &object);
            let ends = [
                runs.first().map(|run| run.from),
                runs.last().map(|run| run.until),
            ];
            let whole = (file.size > 0).then_some([Some(0), Some(file.size as usize)]);
            assert_eq!(ends, whole.unwrap_or_default(), "{name}: object {object}");
            let mut bytes = vec![0; file.size as usize];
            for run in &runs {
                if let Some(at) = run.held {
                    let length = run.until - run.from;
                    bytes[run.from..run.until].copy_from_slice(&case.dump[at..at + length]);
                }
            }
            assert_eq!(sha256(&bytes), file.sha256, "{name}: object {object}");
            (files, counted) = (files + 1, counted + runs.len());
        }
    }
    println!("{counted} runs in {files} files");
}

/// The pages of headers whose word at 1FC is set, by the bytes alone.
fn marked(case: &Case) -> Vec<usize> {
    let sizes = case.layout.split('/').map(|size| size.parse().unwrap());
    let [data, spare, tag]: [usize; 3] = sizes.collect::<Vec<_>>().try_into().unwrap();
    let word = |page: &[u8], at| u32::from_le_bytes(page[at..at + 4].try_into().unwrap());
    let is_marked = |page: &[u8]| {
        let written = (0x1000..=0xEFFF_FF00).contains(&word(page, data + tag));
        let chunk = word(page, data + tag + 8);
        written && (chunk == 0 || chunk >> 31 == 1) && word(page, 0x1FC) != 0
    };
    let pages = case.dump.chunks(data + spare).enumerate();
    pages
        .filter(|(_, page)| is_marked(page))
        .map(|(number, _)| number)
        .collect()
}

/// The headers that are shown as shrink-marked are those in which the driver set
/// the word at 1FC. They are few.
#[test]
fn the_command_shows_the_marks_that_the_driver_set() {
    let folder = tempfile::tempdir().unwrap();
    let mut counts = [0, 0];
    for case in cases() {
        let block = ["--block", &case.block];
        let pages = lines("pages", &written(&case, &folder), &block);
        let headers: Vec<&str> = pages
            .lines()
            .filter(|line| line.contains(" kind=header "))
            .collect();
        let shown = headers.iter().filter(|line| line.ends_with(" shrink=1"));
        let shown: Vec<usize> = shown
            .map(|line| value(line, "page").parse().unwrap())
            .collect();
        assert_eq!(shown, marked(&case), "{}", case.name);
        println!(
            "{}: {} of {} headers",
            case.name,
            shown.len(),
            headers.len()
        );
        counts = [counts[0] + shown.len(), counts[1] + headers.len()];
    }
    let [marked, headers] = counts;
    println!("{marked} of {headers} headers are marked");
    assert!(0 < marked && marked < headers, "{marked} of {headers}");
}
