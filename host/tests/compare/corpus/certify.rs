//! The certificate of every file, and the records of every object, against the second
//! reader and what the driver shows.

use std::collections::BTreeMap;
use std::fs;
use std::path::Path;

use super::command::{lines, run, written};
use super::{case, cases, Case, File};
use crate::second::history::Told;
use crate::second::index::Reader;
use crate::second::page::data;
use crate::second::records::{ids, records};
use crate::second::stands::Standing;
use crate::second::why::{Past, Reason};
use crate::second::wrong::Wrong;
use crate::sha256;

/// A dump with what the second reader makes of it, and the lines of its pages.
struct Read<'c> {
    case: &'c Case,
    reader: Reader<'c>,
    on: Past,
    pages: Vec<String>,
}

impl<'c> Read<'c> {
    fn of(case: &'c Case, dump: &Path) -> Read<'c> {
        let reader = Reader::new(&case.dump, Wrong::None);
        let k = case.block.parse().unwrap();
        let layout = reader.find(k).expect("a layout").into();
        let before = None;
        let pages = lines("pages", dump, &["--block", &case.block]);
        Read {
            case,
            reader,
            on: Past { layout, k, before },
            pages: pages.lines().map(str::to_string).collect(),
        }
    }

    /// The ids of all objects, live or not.
    fn ids(&self) -> Vec<u32> {
        let layout = self.reader.find(self.on.k).expect("a layout");
        let added = vec![true; self.pages.len()];
        ids(&records(&self.case.dump, layout, &added, Wrong::None))
    }

    /// The lines of an object's records, the newest first.
    fn records(&self, object: u32) -> Vec<(Standing, String)> {
        let stands = self.reader.stands(self.on, object.into()).unwrap();
        let line = |&(page, standing): &(usize, Standing)| {
            let (page, name) = (&self.pages[page], standing.name());
            let line = match standing {
                Standing::Superseded { by } | Standing::Cut { by } => {
                    format!("{page} stands={name} by={by}")
                }
                Standing::Holds { from, until } => {
                    format!("{page} stands={name} from={from} until={until}")
                }
                _ => format!("{page} stands={name}"),
            };
            (standing, line)
        };
        stands.iter().rev().map(line).collect()
    }

    /// The lines of an object's history, the oldest first.
    fn history(&self, object: u32) -> Vec<String> {
        let history = self.reader.history(self.on, object.into()).unwrap();
        let line = |&(page, told): &(usize, Told)| {
            let words: Vec<&str> = self.pages[page].split(' ').collect();
            let [number, kind, sequence] = [words[0], words[1], words[2]];
            let told = match told {
                Ok(size) => format!("size={size}"),
                Err(refusal) => format!("refusal={}", refusal as u32),
            };
            format!("{number} {sequence} {kind} {told}")
        };
        history.iter().map(line).collect()
    }

    /// The lines of a file's runs.
    fn runs(&self, object: u32) -> Vec<String> {
        let spans = self.reader.spans(self.on, object.into()).unwrap();
        let ends = spans.runs.iter().skip(1).map(|run| run.0);
        let ends = ends.chain([spans.size]);
        let runs = spans.runs.iter().zip(ends).zip(spans.bytes());
        let line = |((&(from, reason), until), byte): ((&(u64, Reason), u64), u32)| {
            let page = reason.page().map(|page| format!(" page={page}"));
            let held = matches!(reason, Reason::Held(_));
            let byte = held.then(|| format!(" byte={byte}"));
            let rest = [page, byte].into_iter().flatten().collect::<String>();
            format!("from={from} until={until} reason={}{rest}", reason.name())
        };
        runs.map(line).collect()
    }
}

/// A certificate: the lines of each of its parts.
struct Certificate<'t>(Vec<Vec<&'t str>>);

impl<'t> Certificate<'t> {
    fn of(text: &'t str) -> Certificate<'t> {
        let parts = text.split("\n\n").skip(2).step_by(2);
        let parts: Vec<Vec<&str>> = parts.map(|part| part.lines().collect()).collect();
        assert_eq!(parts.len(), 5, "{text}");
        Certificate(parts)
    }

    /// The one value under a key in a part.
    fn value(&self, part: usize, key: &str) -> &'t str {
        let lines = self.0[part - 1].iter();
        let mut values = lines.filter_map(|line| line.strip_prefix(key)?.strip_prefix('='));
        let value = values.next().unwrap_or_else(|| panic!("no {key}="));
        assert_eq!(values.next(), None, "{key}");
        value
    }

    /// The lines of a part that begin so.
    fn rows(&self, part: usize, begin: &str) -> Vec<&'t str> {
        let mut rows = self.0[part - 1].clone();
        rows.retain(|line| line.starts_with(begin));
        rows
    }
}

/// Parts 1 and 2: the dump, and what the driver shows of the file.
fn check_file(read: &Read<'_>, file: &File, certificate: &Certificate<'_>) {
    let Read {
        case, reader, on, ..
    } = read;
    let (name, object) = (&case.name, file.object);
    let mut paths = case.paths.iter();
    let path = &paths.find(|shown| shown.object == object).unwrap().path;
    let setter = reader.why(*on, object.into(), u64::MAX).unwrap();
    let setter = setter.reason.page().unwrap();
    let newest = reader.stands(*on, object.into()).unwrap();
    let newest = newest.iter().find(|(_, s)| *s == Standing::NewestHeader);
    for (part, key, value) in [
        (1, "length", case.dump.len().to_string()),
        (1, "sha256", sha256(&case.dump)),
        (1, "layout", case.layout.clone()),
        (1, "layout_is", "found".to_string()),
        (1, "block", case.block.clone()),
        (1, "block_is", "named".to_string()),
        (2, "object", object.to_string()),
        (2, "path", path.clone()),
        (2, "header", newest.unwrap().0.to_string()),
        (2, "size", file.size.to_string()),
        (2, "size_page", setter.to_string()),
        (2, "sha256", file.sha256.clone()),
    ] {
        let stated = certificate.value(part, key);
        assert_eq!(stated, value, "{name}: object {object}: {key}");
    }
}

/// Part 3: the runs go from 0 to the size, and what they say is held is all that the
/// driver shows. The pages that hold, each with where its bytes begin and end, are given.
fn check_runs(read: &Read<'_>, file: &File, rows: &[&str]) -> BTreeMap<usize, (u64, u64)> {
    let place = format!("{}: object {}", read.case.name, file.object);
    assert_eq!(rows, read.runs(file.object), "{place}");
    let layout = read.reader.find(read.on.k).expect("a layout");
    let mut bytes = vec![0; file.size as usize];
    let mut holding = BTreeMap::new();
    let mut done = 0;
    for row in rows {
        let number = |key: &str| -> u64 { super::value(row, key).parse().unwrap() };
        let (from, until) = (number("from"), number("until"));
        assert_eq!(from, done, "{place}: {row}");
        assert!(from < until, "{place}: {row}");
        done = until;
        if row.contains(" reason=held ") {
            let (page, byte) = (number("page") as usize, number("byte") as usize);
            let held = &mut bytes[from as usize..until as usize];
            held.copy_from_slice(&data(&read.case.dump, layout, page)[byte..][..held.len()]);
            assert_eq!(holding.insert(page, (from, until)), None, "{place}: {row}");
        }
    }
    assert_eq!(done, file.size, "{place}");
    assert_eq!(sha256(&bytes), file.sha256, "{place}");
    holding
}

/// Part 4, and part 3 beside it: every record of the object is there once.
fn check_records(
    read: &Read<'_>,
    file: &File,
    certificate: &Certificate<'_>,
    mut holding: BTreeMap<usize, (u64, u64)>,
) -> usize {
    let place = format!("{}: object {}", read.case.name, file.object);
    let all = read.records(file.object);
    let count = |part: usize| certificate.rows(4, ["in_all=", "holding="][part])[0].to_string();
    assert_eq!(count(0), format!("in_all={}", all.len()), "{place}");
    assert_eq!(count(1), format!("holding={}", holding.len()), "{place}");
    let mut others = Vec::new();
    for (standing, line) in &all {
        let page = super::value(line, "page").parse().unwrap();
        match *standing {
            Standing::Holds { from, until } => {
                assert_eq!(
                    holding.remove(&page),
                    Some((from, until)),
                    "{place}: {line}"
                );
            }
            _ => others.push(line.as_str()),
        }
    }
    assert!(holding.is_empty(), "{place}: {holding:?}");
    assert_eq!(certificate.rows(4, "page="), others, "{place}");
    all.len()
}

#[test]
fn every_file_has_its_certificate() {
    let folder = tempfile::tempdir().unwrap();
    let (mut files, mut runs, mut records) = (0, 0, 0);
    for case in cases() {
        let dump = written(&case, &folder);
        let read = Read::of(&case, &dump);
        for file in &case.files {
            let typed = [&file.object.to_string(), "--block", &case.block];
            let text = lines("certify", &dump, &typed);
            assert_eq!(text, lines("certify", &dump, &typed), "{}", case.name);
            let certificate = Certificate::of(&text);
            check_file(&read, file, &certificate);
            let rows = certificate.rows(3, "from=");
            let holding = check_runs(&read, file, &rows);
            records += check_records(&read, file, &certificate, holding);
            (files, runs) = (files + 1, runs + rows.len());
        }
    }
    println!("{files} files, {runs} runs, {records} records");
}

/// Objects that are no live files have records too.
#[test]
fn every_object_has_its_records() {
    let folder = tempfile::tempdir().unwrap();
    let (mut objects, mut counted) = (0, 0);
    for case in cases() {
        let dump = written(&case, &folder);
        let read = Read::of(&case, &dump);
        for object in read.ids() {
            let place = format!("{}: object {object}", case.name);
            let typed = [&object.to_string(), "--block", &case.block];
            let records: Vec<String> = read.records(object).into_iter().map(|r| r.1).collect();
            let printed = lines("records", &dump, &typed);
            assert!(printed.lines().eq(&records), "{place}: {printed}");
            let printed = lines("history", &dump, &typed);
            assert!(
                printed.lines().eq(read.history(object)),
                "{place}: {printed}"
            );
            (objects, counted) = (objects + 1, counted + records.len());
        }
    }
    println!("{counted} records of {objects} objects");
}

/// A log that was rotated to nothing: the certificate names the page that says so, and
/// how to read what stood before it, and by which pages that is.
#[test]
fn a_log_that_was_rotated_to_nothing() {
    let folder = tempfile::tempdir().unwrap();
    let tests = Path::new(env!("CARGO_MANIFEST_DIR")).join("tests");
    let case = case(&tests.join("corpus/case000-morning.txt"));
    let dump = written(&case, &folder);
    let text = lines("certify", &dump, &["/pass0.log"]);
    let certificate = Certificate::of(&text);
    for (key, value) in [
        ("object", "259"),
        ("header", "93"),
        ("size", "0"),
        ("size_page", "93"),
    ] {
        assert_eq!(certificate.value(2, key), value, "{key}");
    }
    let none = "the file has no bytes: page 93 (sequence 4102) is the newest header";
    assert!(certificate.value(3, "note").starts_with(none));
    let before = "note=before page 93 was written the file had 20450 bytes: \
                  lohenarr read DUMP 259 --before 93";
    assert_eq!(certificate.rows(4, "note=before"), [before]);
    let bytes = run("read", &dump, &["259", "--before", "93"]);
    assert_eq!(bytes.len(), 20450);
    let text = lines("certify", &dump, &["259", "--before", "93"]);
    let certificate = Certificate::of(&text);
    assert_eq!(certificate.value(2, "sha256"), sha256(&bytes));
    let mut held = certificate.rows(3, "from=");
    held.retain(|row| row.contains(" reason=held "));
    let pages: Vec<&str> = held.iter().map(|row| super::value(row, "page")).collect();
    assert_eq!(pages, ["79", "80", "81", "29", "30", "31"]);
}

/// The certificates that docs/CERTIFY.md shows are those that the command gives.
#[test]
fn the_guide_has_the_certificates() {
    let root = Path::new(env!("CARGO_MANIFEST_DIR"));
    let guide = fs::read_to_string(root.join("../docs/CERTIFY.md")).unwrap();
    let folder = tempfile::tempdir().unwrap();
    let night = folder.path().join("case000-evening.bin");
    let case = case(&root.join("tests/corpus/case000-evening.txt"));
    fs::write(&night, &case.dump).unwrap();
    let shelf = root.join("tests/data/W");
    let shown: [(&Path, &str, &[&str]); 4] = [
        (&shelf, "certify", &["257"]),
        (&night, "certify", &["/pass0.log"]),
        (&night, "certify", &["/pass0.log", "--before", "93"]),
        (&night, "history", &["/pass0.log"]),
    ];
    for (dump, command, rest) in shown {
        let text = lines(command, dump, rest);
        let line = |line: &str| match line {
            "" => "\n".to_string(),
            _ => format!("    {line}\n"),
        };
        let text: String = text.lines().map(line).collect();
        let place = format!("{command} {} {rest:?}", dump.display());
        assert!(guide.contains(&format!("\n\n{text}\n")), "{place}");
    }
}

/// What docs/CERTIFY.md has to be typed without the command, by a shell and `od`, gives
/// what stands below it.
#[test]
fn the_guide_can_be_followed_by_hand() {
    let root = Path::new(env!("CARGO_MANIFEST_DIR"));
    let guide = fs::read_to_string(root.join("../docs/CERTIFY.md")).unwrap();
    let folder = tempfile::tempdir().unwrap();
    let case = case(&root.join("tests/corpus/case000-evening.txt"));
    fs::write(folder.path().join("case000-evening.bin"), &case.dump).unwrap();
    let blocks: Vec<&str> = guide.split("\n\n").collect();
    let mut ran = 0;
    for pair in blocks.windows(2) {
        let typed = pair[0].trim_start();
        if !["od ", "for n "]
            .iter()
            .any(|begin| typed.starts_with(begin))
        {
            continue;
        }
        let mut shell = std::process::Command::new("sh");
        shell.args(["-c", typed]).current_dir(folder.path());
        let output = String::from_utf8(shell.output().unwrap().stdout).unwrap();
        let lines: Vec<String> = output.lines().map(|line| format!("    {line}")).collect();
        assert_eq!(lines.join("\n"), pair[1], "{typed}");
        ran += 1;
    }
    assert_eq!(ran, 3);
}
