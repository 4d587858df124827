//! docs/RULES.md says for each rule, and docs/TRACE.md for each sentence of the
//! papers, where it is defined, what proves it and what is refused or tried.
//! What they name must be there: each file, each name in the file that is named
//! before it, and each rule. So must decisions of docs/DECISIONS.md, which have
//! numbers too, and the paths in all documents.

use std::collections::BTreeSet;
use std::fs;
use std::path::{Path, PathBuf};

fn root() -> PathBuf {
    Path::new(env!("CARGO_MANIFEST_DIR")).join("..")
}

/// The file of a path, before which TRACE leaves out `crates/`.
fn file(path: &str) -> Option<PathBuf> {
    let paths = [root().join(path), root().join("crates").join(path)];
    paths.into_iter().find(|path| path.is_file())
}

fn is_path(quoted: &str) -> bool {
    quoted.contains('/') || file(quoted).is_some()
}

/// A document of entries, which begin with their rules in bold letters, each with
/// a line of places.
struct Document {
    text: String,
}

impl Document {
    fn open(path: &str) -> Self {
        let text = fs::read_to_string(root().join(path)).unwrap();
        Document { text }
    }

    fn rules() -> Self {
        Document::open("docs/RULES.md")
    }

    fn trace() -> Self {
        Document::open("docs/TRACE.md")
    }

    /// Each entry behind its rules: up to the next one, or to an empty line.
    fn entries(&self) -> Vec<(&str, &str)> {
        let entries = self.text.split("\n- **").skip(1);
        let entries = entries.map(|entry| entry.split("\n\n").next().unwrap());
        let entries = entries.map(|entry| entry.split_once("** ").expect("an entry has a rule"));
        let entries = entries.map(|(rules, entry)| (rules.trim_end_matches('.'), entry));
        entries.collect()
    }

    /// The words that stand for a file, by the document's own table of them.
    fn words(&self) -> Vec<(&str, &str)> {
        let table = self.text.split("\n| Word | File |").nth(1);
        let rows = table.iter().flat_map(|table| table.lines().skip(2));
        let rows = rows.take_while(|row| row.starts_with("| "));
        let cells = rows.map(|row| row.split(['|', '`']).collect::<Vec<_>>());
        cells.map(|cells| (cells[1].trim(), cells[3])).collect()
    }

    /// What stands in backquotes in an entry's line of places: each file, or word
    /// that stands for one, with the names behind it.
    fn places<'a>(&'a self, entry: &'a str) -> Vec<(&'a str, Vec<&'a str>)> {
        let mut places: Vec<(&str, Vec<&str>)> = Vec::new();
        let words = self.words();
        let line = entry.split_once("\n  - ").map_or("", |(_, line)| line);
        for (n, part) in line.split('`').enumerate() {
            match places.last_mut() {
                _ if n % 2 == 0 => {
                    let part = part.split_whitespace().collect::<Vec<_>>().join(" ");
                    let found = words.iter().map(|(word, file)| (part.rfind(word), *file));
                    if let Some((Some(_), file)) = found.max() {
                        places.push((file, Vec::new()));
                    }
                }
                _ if is_path(part) => places.push((part, Vec::new())),
                Some((_, names)) => names.push(part),
                None => panic!("{part}: no file before it"),
            }
        }
        places
    }

    /// What of the places is not where it says, if each name is looked up as
    /// `spelt` has it.
    fn missing(&self, spelt: impl Fn(&str) -> String) -> Vec<String> {
        let mut missing = Vec::new();
        for (rules, entry) in self.entries() {
            for (path, names) in self.places(entry) {
                let Some(text) = file(path).map(|path| fs::read_to_string(path).unwrap()) else {
                    missing.push(format!("{rules}: no file {path}"));
                    continue;
                };
                let lacks = names.iter().filter(|name| !has(path, &text, &spelt(name)));
                missing.extend(lacks.map(|name| format!("{rules}: no {name} in {path}")));
            }
        }
        missing
    }
}

/// Whether a file of this path and text has a name: `Type::name` has both.
fn has(path: &str, text: &str, name: &str) -> bool {
    let declares = match path.rsplit_once('.').map(|(_, ending)| ending) {
        Some("antt") => declares_in_antt,
        Some("rt" | "rs") => declares_in_code,
        Some("md") => return text.contains(&format!("`{name}`")),
        _ => return text.contains(name),
    };
    let mut names = name.split("::");
    names.all(|name| text.lines().any(|line| declares(line, name)))
}

/// A definition, a law, a type, or a case or field of one.
fn declares_in_antt(line: &str, name: &str) -> bool {
    let words = line.split_whitespace();
    let words = words.skip_while(|word| ["pub", "pattern", "abbrev", "unfoldable"].contains(word));
    match words.collect::<Vec<_>>()[..] {
        ["record" | "data", first, ..] | [first, ":", ..] => first == name,
        _ => false,
    }
}

/// A function, a constant, a type or a case of one; a word that is matched, as a
/// request of a script is.
fn declares_in_code(line: &str, name: &str) -> bool {
    let words = line.split_whitespace();
    let words = words.skip_while(|word| ["pub", "pub(crate)", "extern", "\"C\""].contains(word));
    match words.collect::<Vec<_>>()[..] {
        ["fn" | "const" | "struct" | "enum" | "type" | "impl", first, ..] => {
            let end = |c: char| !(c.is_alphanumeric() || c == '_');
            first.split(end).next() == Some(name)
        }
        [first, "=>", ..] => first == format!("{name:?}"),
        [first, ..] if name.starts_with(char::is_uppercase) && line.ends_with(',') => {
            let case = first.strip_prefix(name);
            case.is_some_and(|rest| rest == "," || rest.starts_with('('))
        }
        _ => false,
    }
}

fn is_rule(word: &str) -> bool {
    let digits = word.strip_prefix(|c: char| c.is_ascii_uppercase());
    digits.is_some_and(|digits| digits.parse::<u32>().is_ok())
}

#[test]
fn what_the_documents_name_is_there() {
    for document in [Document::rules(), Document::trace()] {
        let missing = document.missing(str::to_string);
        assert!(missing.is_empty(), "{}", missing.join("\n"));
    }
}

/// Each of the names is looked up, and whole.
#[test]
fn a_misspelt_name_is_noticed() {
    for (document, least) in [(Document::rules(), 300), (Document::trace(), 900)] {
        let entries = document.entries().into_iter();
        let places = entries.flat_map(|(_, entry)| document.places(entry));
        let count: usize = places.map(|(_, names)| names.len()).sum();
        assert!(count > least, "only {count} names are read");
        assert_eq!(document.missing(|name| format!("{name}0")).len(), count);
        assert_eq!(document.missing(|name| format!("x{name}")).len(), count);
    }
}

/// Each rule has a definition, and numbers rise within a group, so that none is
/// given twice.
#[test]
fn rules_are_numbered() {
    let document = Document::rules();
    let mut last = ("", 0);
    for (number, rule) in document.entries() {
        let (letter, digits) = number.split_at(1);
        let digits: u32 = digits.parse().expect(number);
        assert!(letter != last.0 || digits > last.1, "{number}");
        assert!(rule.contains("\n  - Defined: "), "{number}");
        assert!(!document.places(rule).is_empty(), "{number}");
        last = (letter, digits);
    }
}

/// A rule that is cited by its number is there, and TRACE, which says of each
/// sentence which rules it became, has every rule.
#[test]
fn cited_rules_are_there() {
    let (rules, trace) = (Document::rules(), Document::trace());
    let numbers: BTreeSet<&str> = rules.entries().iter().map(|(number, _)| *number).collect();
    for (cited, entry) in rules.entries().into_iter().chain(trace.entries()) {
        let words = entry.split(|c: char| !c.is_alphanumeric());
        for word in words.filter(|word| is_rule(word)) {
            assert!(numbers.contains(word), "{cited}: {word}");
        }
    }
    let mut traced = BTreeSet::new();
    for (cited, entry) in trace.entries() {
        let cited = cited.split(", ").filter(|cited| *cited != "—");
        cited.for_each(|number| {
            assert!(numbers.contains(number), "{number}: {entry}");
            traced.insert(number);
        });
    }
    let left: Vec<_> = numbers.difference(&traced).collect();
    assert!(left.is_empty(), "no sentence became {left:?}");
}

/// README and the documents, but for the notes of landings, which tell what was, and a
/// patch, which names what it brings.
fn documents() -> Vec<PathBuf> {
    let documents = fs::read_dir(root().join("docs")).unwrap();
    let documents = documents.map(|entry| entry.unwrap().path());
    let documents = documents.filter(|path| path.extension().is_some_and(|end| end == "md"));
    documents.chain([root().join("README.md")]).collect()
}

/// Every path that a document names is there, but for those of no crate in
/// particular.
#[test]
fn paths_are_there() {
    let mut count = 0;
    for document in documents() {
        let text = fs::read_to_string(&document).unwrap();
        let words = text.split(|c: char| !(c.is_alphanumeric() || "_./-".contains(c)));
        let folders = ["docs/", "crates/", "host/", "include/", ".ci/"];
        let paths = words.filter(|word| folders.iter().any(|folder| word.starts_with(folder)));
        for path in paths.filter(|path| !path.contains("NAME")) {
            let there = root().join(path.trim_end_matches('.')).exists();
            assert!(there, "{}: {path}", document.display());
            count += 1;
        }
    }
    assert!(count > 500, "only {count} paths are read");
}

/// Decisions are numbered by their parts, none twice; the table on top has each
/// part, with how many there are; and one that a document cites is there.
#[test]
fn decisions_are_numbered() {
    let Document { text } = Document::open("docs/DECISIONS.md");
    let mut numbers = BTreeSet::new();
    for (part, body) in text
        .split("\n## ")
        .skip(1)
        .zip(1..)
        .map(|(body, n)| (n, body))
    {
        let (title, body) = body.split_once('\n').unwrap();
        let title = title.strip_prefix(&format!("{part}. ")).expect(title);
        let decisions = body.split("\n**").skip(1);
        let decisions = decisions.map(|decision| decision.split(' ').next().unwrap());
        let decisions: Vec<&str> = decisions.collect();
        for number in &decisions {
            assert!(number.starts_with(&format!("{part}.")), "{number}");
            assert!(numbers.insert(*number), "{number} is given twice");
        }
        let begin = format!("\n| {part} | {title} | ");
        let row = text.split(&begin).nth(1).expect(title).lines().next();
        let count = format!(" | {} |", decisions.len());
        assert!(row.unwrap().ends_with(&count), "{title}:{count}");
    }
    for document in documents() {
        let text = fs::read_to_string(&document).unwrap();
        let words: Vec<&str> = text.split_whitespace().collect();
        let cited = words
            .windows(2)
            .filter(|words| words[0].ends_with("decision"));
        let cited = cited.map(|words| words[1].trim_matches(|c: char| !c.is_ascii_digit()));
        for cited in cited.filter(|cited| cited.contains('.')) {
            assert!(numbers.contains(cited), "{}: {cited}", document.display());
        }
    }
}
