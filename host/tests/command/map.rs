//! Pictures that `map` draws: well-formed, small enough, and with the counts that other
//! commands print.

use std::fs::{self, File};
use std::os::unix::fs::FileExt;
use std::path::Path;

use super::dumps::{self, first_chunk, header, W};
use super::out::names;
use super::{printed, run, said};

/// The longest picture, in bytes, that a browser shows well.
const MOST: usize = 2_000_000;

/// Draws a picture, which must be well-formed.
fn drawn(folder: &Path, typed: &[&str]) -> String {
    let picture = folder.join("picture.svg");
    let _ = fs::remove_file(&picture);
    let typed = [&["map"], typed, &["--out", "picture.svg"]].concat();
    let output = run(folder, &typed, b"");
    assert_eq!((said(&output), output.status.code()), ("", Some(0)));
    let text = fs::read_to_string(picture).unwrap();
    assert!(printed(&output).starts_with(&format!("size={}\nsha256=", text.len())));
    check(&text);
    text
}

/// Checks that a text is an XML document of one element, in which nothing is fetched and
/// nothing runs.
fn check(text: &str) {
    assert!(text.len() < MOST, "{} bytes", text.len());
    let rest = text
        .strip_prefix("<?xml version=\"1.0\" encoding=\"UTF-8\"?>\n")
        .unwrap();
    let mut open: Vec<&str> = Vec::new();
    let mut parts = rest.split('<');
    assert_eq!(parts.next(), Some(""));
    for part in parts {
        let (tag, behind) = part
            .split_once('>')
            .unwrap_or_else(|| panic!("no end: {part}"));
        match (tag.strip_prefix('/'), tag.strip_suffix('/')) {
            (Some(name), _) => assert_eq!(open.pop(), Some(name)),
            (None, Some(alone)) => check_attributes(alone),
            (None, None) => {
                check_attributes(tag);
                open.push(tag.split(' ').next().unwrap());
            }
        }
        check_text(behind);
        assert!(
            !open.is_empty() || behind == "\n",
            "behind the end: {behind}"
        );
    }
    assert!(open.is_empty(), "left open: {open:?}");
    assert_eq!(text.matches("http").count(), 1, "the name of SVG alone");
    for word in ["<script", "href", "@import"] {
        assert!(!text.contains(word), "{word}");
    }
}

/// Of an element: its name, and names with values in quotes, none twice.
fn check_attributes(tag: &str) {
    let mut quoted = tag.split('"');
    let mut names = Vec::new();
    let first = quoted.next().unwrap();
    let mut before = first.split_once(' ').map_or("", |(_, name)| name);
    while let Some(value) = quoted.next() {
        let name = before
            .trim()
            .strip_suffix('=')
            .unwrap_or_else(|| panic!("in <{tag}>"));
        let is_plain = name.chars().all(|c| c.is_ascii_alphanumeric() || c == '-');
        assert!(
            is_plain && !name.starts_with("on") && !names.contains(&name),
            "{tag}"
        );
        names.push(name);
        check_text(value);
        before = quoted
            .next()
            .unwrap_or_else(|| panic!("an open quote in <{tag}>"));
    }
    assert_eq!(before.trim(), "", "in <{tag}>");
}

/// Text has no entities but these.
fn check_text(text: &str) {
    for behind in text.split('&').skip(1) {
        let known = ["amp;", "lt;", "gt;", "quot;"];
        assert!(
            known.iter().any(|entity| behind.starts_with(entity)),
            "&{behind}"
        );
    }
    let is_plain = |c: char| c == '\n' || (' '..='~').contains(&c);
    assert!(text.chars().all(is_plain), "{text}");
}

/// How many pages of a class the legend says there are.
fn count(picture: &str, class: &str) -> u32 {
    let begin = format!(">{class} <tspan class=\"count\">");
    let (_, behind) = picture
        .split_once(&begin)
        .unwrap_or_else(|| panic!("no {class}"));
    behind.split('<').next().unwrap().parse().unwrap()
}

/// The legend counts what `report` does.
fn counts_as_report(folder: &Path, dump: &str, rest: &[&str]) -> String {
    let typed = [&[dump], rest].concat();
    let picture = drawn(folder, &typed);
    let report = run(folder, &[&["report"], &typed[..]].concat(), b"");
    let mut counted = 0;
    for line in printed(&report).lines() {
        let (name, number) = line.split_once('=').unwrap();
        let class = if name == "headers" { "header" } else { name };
        if ["blank", "foreign", "damaged", "header", "data"].contains(&class) {
            assert_eq!(
                count(&picture, class).to_string(),
                number,
                "{dump}: {class}"
            );
            counted += 1;
        }
    }
    assert_eq!(counted, 5);
    picture
}

/// 64 pages with each kind among them, a title for each.
#[test]
fn a_short_dump() {
    let folder = dumps::folder();
    let mut pages: Vec<Vec<u8>> = (300..340).map(|id| header(id, 1, 1, b"name")).collect();
    pages.extend((300..315).map(|id| first_chunk(id, 512)));
    pages.extend((300..303).map(|id| first_chunk(id, 513)));
    pages.extend([vec![0; 528], vec![0; 528]]);
    pages.extend([(); 4].map(|()| vec![0xFF; 528]));
    fs::write(folder.path().join("64"), pages.concat()).unwrap();
    let picture = counts_as_report(folder.path(), "64", &["-b", "16"]);
    assert_eq!(count(&picture, "damaged"), 3);
    assert!(picture.contains("layout 512/16/0, K = 16, 64 pages in 4 blocks"));
    assert!(picture.contains("Each cell is a page, and each row a block."));
    // of the picture, and of each page
    assert_eq!(picture.matches("<title>").count(), 65);
    let line = "<title>page=40 kind=data sequence=4097 object=300 chunk=1 count=512</title>";
    assert!(picture.contains(line));
    assert!(picture.contains("<title>page=63 kind=blank</title>"));
    for rest in [
        &["-b", "1"][..],
        &["-b", "64"],
        &["-b", "4", "--layout", "6"],
    ] {
        counts_as_report(folder.path(), "64", rest);
    }
    for dump in ["forest", "W", "far", "blank"] {
        counts_as_report(folder.path(), dump, &["-b", "1", "--layout", "6"]);
    }
}

/// A dump of so many pages of zeros, with W in front: the file takes no room.
fn sparse(folder: &Path, pages: u64) {
    let file = File::create(folder.join("sparse")).unwrap();
    file.set_len(pages * 528).unwrap();
    file.write_all_at(W, 0).unwrap();
}

#[test]
fn a_long_dump_is_gathered() {
    let folder = tempfile::tempdir().unwrap();
    let folder = folder.path();
    sparse(folder, 500_032);
    let picture = counts_as_report(folder, "sparse", &["--layout", "6", "-b", "64"]);
    assert_eq!(count(&picture, "foreign"), 500_024);
    assert!(picture.contains("Each cell is 2 blocks, split from the left"));
    assert_eq!(picture.matches("<title>").count(), 1 + 3907);
    let first = "<title>pages 0 to 127: 3 header, 4 data, 1 blank, 120 foreign</title>";
    assert!(picture.contains(first));
    assert!(picture.contains("<title>pages 499968 to 500031: 64 foreign</title>"));
    let typed = ["sparse", "--layout", "6", "-b", "64", "--object", "257"];
    let picture = drawn(folder, &typed);
    assert!(picture.contains("A cell with pages of the object shows these alone."));
    assert_eq!(count(&picture, "cut"), 1);
    assert_eq!(count(&picture, "other foreign"), 500_024);
    let picture = counts_as_report(folder, "sparse", &["--layout", "6", "-b", "1"]);
    assert!(picture.contains("Each cell is 128 blocks, split from the left"));
}

/// The most pages that have a cell each, no two of a kind side by side.
#[test]
fn the_longest_picture() {
    let folder = tempfile::tempdir().unwrap();
    let two = [header(300, 1, 1, b"name"), first_chunk(300, 512)].concat();
    fs::write(folder.path().join("by-turns"), two.repeat(1 << 15)).unwrap();
    for block in ["1", "2", "32", "256"] {
        let rest = ["--layout", "6", "-b", block];
        let picture = counts_as_report(folder.path(), "by-turns", &rest);
        assert!(picture.len() > MOST / 2, "{}", picture.len());
    }
}

/// Each record is counted as `records` says it stands.
#[test]
fn pages_of_an_object() {
    let folder = dumps::folder();
    let objects = [
        ("W", "257"),
        ("forest", "259"),
        ("forest", "/pass1.log"),
        ("forest", "270"),
        ("deleted-and-anew", "257"),
        ("unlinked", "257"),
        ("directory", "257"),
        ("data-alone", "257"),
    ];
    for (dump, object) in objects {
        let on = [dump, "--layout", "6", "-b", "1"];
        let picture = drawn(folder.path(), &[&on[..], &["--object", object]].concat());
        let typed = [&["records", dump, object], &on[1..]].concat();
        let records = run(folder.path(), &typed, b"");
        let mut lines = Vec::new();
        for class in [
            "newest header",
            "older header",
            "holds",
            "superseded",
            "cut",
            "no file",
        ] {
            let stands = format!(" stands={class}");
            let of_class = printed(&records)
                .lines()
                .filter(|line| line.contains(&stands));
            let before = lines.len();
            lines.extend(of_class);
            let counted = (lines.len() - before) as u32;
            assert_eq!(count(&picture, class), counted, "{dump} {object}: {class}");
        }
        assert_eq!(lines.len(), printed(&records).lines().count());
        for line in lines {
            assert!(
                picture.contains(&format!("<title>{line}</title>")),
                "{line}"
            );
        }
    }
}

#[test]
fn names_are_escaped() {
    let folder = tempfile::tempdir().unwrap();
    let name = "a<b>&\"'\u{e4}\n]]>";
    let page = header(300, 1, 1, b"</text><script>&amp;\"\x01");
    fs::write(folder.path().join(name), page).unwrap();
    let picture = drawn(folder.path(), &[name, "-b", "1", "--object", "300"]);
    assert!(picture.contains("<title>Map of a&lt;b&gt;&amp;&quot;'\\xC3\\xA4\\x0A]]&gt;</title>"));
    let object = "object 300, &lt;/text&gt;&lt;script&gt;&amp;amp;&quot;\\x01: its pages";
    assert!(picture.contains(object));
}

#[test]
fn pictures_are_new_files() {
    let folder = dumps::folder();
    let map = |more: &[&str]| {
        run(
            folder.path(),
            &[&["map", "W", "-b", "4"], more].concat(),
            b"",
        )
    };
    let before = names(folder.path());
    let [first, second] = ["-o-", "--out=-"].map(|out| map(&[out]));
    assert!(first.stdout == second.stdout && first.stdout.starts_with(b"<?xml"));
    let taken = map(&["--out", "morning"]);
    let exists =
        "lohenarr: cannot write morning: it is there already, and nothing is written over\n";
    assert_eq!((said(&taken), taken.status.code()), (exists, Some(2)));
    let refused = map(&["--out", "new", "--object", "258"]);
    assert_eq!(
        (printed(&refused), refused.status.code()),
        ("refusal=6\n", Some(1))
    );
    assert_eq!(names(folder.path()), before);
    assert_eq!(map(&["--out", "new"]).status.code(), Some(0));
    assert!(fs::read(folder.path().join("new")).unwrap() == first.stdout);
}
