//! Certificates: the same bytes each time, as text and as JSON, and nothing in them that
//! a name could forge.

use std::fs;
use std::path::Path;

use serde_json::Value;
use sha2::{Digest, Sha256};

use super::dumps::{self, W};
use super::{printed, run, said};

/// The certificate that is typed so.
fn certified(folder: &Path, typed: &str) -> String {
    let typed: Vec<&str> = typed.split(' ').collect();
    let output = run(folder, &[&["certify"], &typed[..]].concat(), b"");
    assert!(output.status.success(), "{typed:?}: {}", said(&output));
    printed(&output).to_string()
}

/// Neither the folder, nor how the object is named, nor how the dump is read into memory
/// makes another one.
#[test]
fn the_same_bytes_each_time() {
    let folder = dumps::folder();
    let deeper = folder.path().join("deeper");
    fs::create_dir(&deeper).unwrap();
    for dump in ["W", "forest"] {
        fs::copy(folder.path().join(dump), deeper.join(dump)).unwrap();
    }
    for (from, typed) in [
        (&*deeper, "W 257"),
        (folder.path(), "W 0x101"),
        (folder.path(), "deeper/W 257"),
        (folder.path(), "W 257 --copy"),
        (folder.path(), "W 257 --out -"),
    ] {
        assert_eq!(
            certified(from, typed),
            certified(folder.path(), "W 257"),
            "{typed}"
        );
    }
    for typed in ["forest /old/pass1.log", "deeper/forest 258"] {
        let one = certified(folder.path(), "forest 258");
        assert_eq!(certified(folder.path(), typed), one, "{typed}");
    }
    let by_json = || certified(folder.path(), "W 257 --json");
    assert_eq!(by_json(), by_json());
}

/// Another byte of the dump, whatever it is of, makes another certificate.
#[test]
fn another_dump_has_another_one() {
    let folder = dumps::folder();
    let one = certified(folder.path(), "W 257");
    fs::write(folder.path().join("W"), [&W[..W.len() - 1], b"\0"].concat()).unwrap();
    let other = certified(folder.path(), "W 257");
    let differ = one.lines().zip(other.lines()).filter(|(a, b)| a != b);
    let differ: Vec<_> = differ.collect();
    assert_eq!(differ.len(), 1, "{differ:?}");
    assert!(differ[0].0.starts_with("sha256=91ce"), "{differ:?}");
}

#[test]
fn a_certificate_is_a_new_file() {
    let folder = dumps::folder();
    let new = folder.path().join("new");
    for form in ["W 257", "W 257 --json"] {
        let shown = certified(folder.path(), form);
        let told = certified(folder.path(), &format!("{form} -o new"));
        assert_eq!(fs::read_to_string(&new).unwrap(), shown);
        let (size, sum) = (shown.len(), format!("{:x}", Sha256::digest(&shown)));
        let expected = match form.ends_with("--json") {
            true => format!("{{\"size\":{size},\"sha256\":\"{sum}\"}}\n"),
            false => format!("size={size}\nsha256={sum}\n"),
        };
        assert_eq!(told, expected);
        let again = run(folder.path(), &["certify", "W", "257", "-b4", "-onew"], b"");
        let exists = "lohenarr: cannot write new: it is there already";
        assert!(said(&again).starts_with(exists), "{}", said(&again));
        assert_eq!(again.status.code(), Some(2));
        assert_eq!(fs::read_to_string(&new).unwrap(), shown);
        fs::remove_file(&new).unwrap();
    }
    let typed = ["certify", "unlinked", "257", "-b1", "--out", "new"];
    let refused = run(folder.path(), &typed, b"");
    assert_eq!(printed(&refused), "refusal=8\n");
    assert_eq!(refused.status.code(), Some(1));
    assert!(!new.exists());
}

/// A certificate of an earlier time says what has become of the file since.
#[test]
fn what_the_file_is_now_is_told() {
    let folder = dumps::folder();
    for (typed, now) in [
        ("deleted 257 --before 7", "the object is deleted"),
        ("deleted 257 --before 6", "the object is deleted"),
        ("W 257 --before 4", "the file has 1034 bytes"),
    ] {
        let certificate = certified(folder.path(), typed);
        let told = certificate.lines().filter(|line| line.ends_with(now));
        assert_eq!(told.count(), 1, "{typed}");
    }
}

/// What is printed of a value: a line, or one for each of several.
fn lines(key: &str, value: &Value) -> Vec<String> {
    match value {
        Value::Array(several) => several.iter().flat_map(|one| lines(key, one)).collect(),
        Value::String(word) => vec![format!("{key}={word}")],
        other => vec![format!("{key}={other}")],
    }
}

/// Holds a row of a list to its line and the reason below it.
fn same_row(row: &Value, text: &mut Vec<&str>) {
    let row = row.as_object().unwrap();
    let because = row.get("because").map(|because| lines("because", because));
    let at = text.iter().position(|line| {
        let words = row.iter().filter(|(key, _)| *key != "because");
        let words: Vec<String> = words.flat_map(|(key, value)| lines(key, value)).collect();
        let length: usize = words.iter().map(|word| word.len() + 1).sum();
        length == line.len() + 1 && words.iter().all(|word| line.contains(word))
    });
    let at = at.unwrap_or_else(|| panic!("no line for {row:?}"));
    text.remove(at);
    if let Some(because) = because {
        assert_eq!(text.remove(at), because[0]);
    }
}

/// Every line of the text is in the JSON, and nothing else but names in hex.
#[test]
fn json_says_the_same() {
    let folder = dumps::folder();
    for typed in [
        "W 257",
        "W 257 --before 4 --block 4",
        "newline 257",
        "far 257 --layout 6",
        "forest 269",
        "deleted-and-anew 257 --block 2",
    ] {
        let text = certified(folder.path(), typed);
        let json = certified(folder.path(), &format!("{typed} --json"));
        let json: Value = serde_json::from_str(&json).unwrap();
        let parts: Vec<&str> = text.split("\n\n").skip(1).collect();
        let questions = parts.iter().step_by(2);
        assert!(questions.eq([
            "1. What is the evidence?",
            "2. Which file is it, and how long?",
            "3. What does it hold, and which pages say so?",
            "4. Which records of it hold nothing, and why?",
            "5. What stands behind this?",
        ]
        .iter()));
        let names = ["evidence", "file", "holds", "others", "behind"];
        assert_eq!(json.as_object().unwrap().len(), names.len());
        for (name, part) in names.iter().zip(parts.iter().skip(1).step_by(2)) {
            let mut left: Vec<&str> = part.lines().collect();
            for (key, value) in json[name].as_object().unwrap() {
                if ["runs", "records", "rules"].contains(&key.as_str()) {
                    let rows = value.as_array().unwrap();
                    rows.iter().for_each(|row| same_row(row, &mut left));
                } else if !key.ends_with("_hex") {
                    for line in lines(key, value) {
                        let at = left.iter().position(|left| *left == line);
                        left.remove(at.unwrap_or_else(|| panic!("{typed}: {line}")));
                    }
                }
            }
            assert!(left.is_empty(), "{typed}: {left:?}");
        }
    }
}

/// A line behind a newline in the name of the dump, and in that of the file.
#[test]
fn no_name_makes_a_line() {
    let folder = dumps::folder();
    let name = "a\nobject=1";
    fs::copy(folder.path().join("forest"), folder.path().join(name)).unwrap();
    let output = run(folder.path(), &["certify", name, "267"], b"");
    let text = printed(&output);
    let lines = |key: &str| -> Vec<&str> {
        let own = text.lines().filter(|line| line.starts_with(key));
        own.collect()
    };
    assert_eq!(lines("object="), ["object=267"]);
    assert_eq!(lines("dump="), ["dump=a\\x0Aobject=1"]);
    assert_eq!(lines("path="), ["path=/a\\x0Aobject=1"]);
    assert_eq!(lines("name="), ["name=a\\x0Aobject=1"]);
}

/// Where the tree does not list the file, it is said why.
#[test]
fn a_file_without_a_path() {
    let folder = dumps::folder();
    let root = dumps::header(1, 1, 1, b"root");
    fs::write(folder.path().join("root"), root).unwrap();
    for (typed, why) in [
        ("forest 269", "missing"),
        ("forest 271", "deleted"),
        ("forest 272", "non-directory"),
        ("root 1", "root"),
    ] {
        let text = certified(folder.path(), typed);
        assert!(text.contains(&format!("\nno_path={why}\n")), "{typed}");
        assert!(!text.contains("\npath="), "{typed}");
    }
}

/// The notes of a certificate that give a command, each with what comes of it.
fn given(folder: &Path, dump: &str, text: &str) -> Vec<(String, Vec<u8>)> {
    let notes = text
        .lines()
        .filter_map(|line| line.strip_prefix("note=")?.split_once(": lohenarr "));
    let run = |(note, command): (&str, &str)| {
        let typed = command.replace("DUMP", dump);
        let typed: Vec<&str> = typed.split(' ').collect();
        let output = run(folder, &typed, b"");
        assert!(output.status.success(), "{typed:?}: {}", said(&output));
        (note.to_string(), output.stdout)
    };
    notes.map(run).collect()
}

/// What was cut off is read by the command that is given for it.
#[test]
fn what_was_cut_off_is_read() {
    let folder = dumps::folder();
    let text = certified(folder.path(), "W 257 --layout 6 -b 0x4");
    let read = "DUMP 257 --before 4 --layout 512/16/0 --block 4";
    assert!(text.contains(&format!(": lohenarr read {read}\n")));
    let given = |dump, text: &str| given(folder.path(), dump, text);
    let [(before, bytes), (after, history)] = &given("W", &text)[..] else {
        panic!("no two commands in {text}");
    };
    assert_eq!(before, "before page 4 was written the file had 612 bytes");
    assert!(*bytes == [&W[528..528 + 512], &W[1056..1056 + 100]].concat());
    assert_eq!(after, "what the file was after each of its records");
    assert_eq!(history.iter().filter(|&&byte| byte == b'\n').count(), 7);
    let text = certified(folder.path(), "W 257 --before 4");
    assert_eq!(given("W", &text).len(), 1, "nothing was cut off then");
}

/// Before a deletion there was data without a header, which cannot be read.
#[test]
fn what_was_no_file_is_shown_by_its_records() {
    let folder = dumps::folder();
    let text = certified(folder.path(), "deleted-and-anew 257 -b 2");
    let given = given(folder.path(), "deleted-and-anew", &text);
    let (before, records) = &given[0];
    assert_eq!(
        before,
        "before page 1 was written the object was no live file"
    );
    assert!(records.ends_with(b" stands=no file\n"));
}
