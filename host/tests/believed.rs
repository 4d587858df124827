//! What must be read to know what is proved: the definitions that the contracts
//! of the exports and of the report rest on, and those of demand 3.
//! docs/TRUST.md lists their files. Neither a contract nor a definition cites
//! anything that is in no file of definitions, so that a proof can alter no
//! statement; and every public function has a contract, and no premise.

use std::collections::{BTreeMap, BTreeSet};
use std::fs;
use std::path::{Path, PathBuf};

/// A file of definitions: its crate and its name.
type File = (String, String);

fn root() -> PathBuf {
    Path::new(env!("CARGO_MANIFEST_DIR")).join("..")
}

fn trust() -> String {
    fs::read_to_string(root().join("docs/TRUST.md")).unwrap()
}

/// The files of one folder of every crate, each with its text.
fn files(folder: &str) -> BTreeMap<File, String> {
    let mut files = BTreeMap::new();
    for of_crate in fs::read_dir(root().join("crates")).unwrap() {
        let path = of_crate.unwrap().path();
        let Ok(entries) = fs::read_dir(path.join(folder)) else {
            continue;
        };
        for file in entries.map(|entry| entry.unwrap().path()) {
            let stem = |path: &Path| path.file_stem().unwrap().to_str().unwrap().to_string();
            files.insert(
                (stem(&path), stem(&file)),
                fs::read_to_string(file).unwrap(),
            );
        }
    }
    files
}

/// What an import line brings: the module, and each name with the one that it
/// has there. A whole module under another name brings that name.
fn import(line: &str) -> Option<(&str, Vec<(&str, &str)>)> {
    let marks = ["ghost ", "pub "];
    let marked = marks.iter().find_map(|mark| line.strip_prefix(mark));
    let line = marked.unwrap_or(line);
    let line = line.strip_prefix("use ")?.trim_end_matches(';');
    let renamed = |name| str::split_once(name, " as ").unwrap_or((name, name));
    match line.split_once(".{") {
        Some((module, names)) => {
            let names = names.trim_end_matches('}').split(", ");
            Some((module, names.map(renamed).collect()))
        }
        None => Some((renamed(line).0, vec![renamed(line)])),
    }
}

/// The crate of the repository of whose definitions a module is a part, and which
/// part. The checker's libraries are none.
fn of_definitions(module: &str) -> Option<(&str, &str)> {
    let (of_crate, part) = module.strip_prefix("Rattle.")?.split_once(".specs.")?;
    let is_ours = root().join("crates").join(of_crate).is_dir();
    is_ours.then_some((of_crate, part))
}

/// The file of definitions that a module is. The types that are made of the
/// sources are none.
fn file_of(module: &str) -> Option<File> {
    let (of_crate, file) = of_definitions(module)?;
    (!file.starts_with("declared.")).then(|| (of_crate.to_string(), file.to_string()))
}

/// The words of a text that can be names.
fn words(text: &str) -> impl Iterator<Item = &str> {
    let inside = |c: char| c.is_alphanumeric() || "-_'".contains(c);
    text.split(move |c| !inside(c))
        .filter(|word| !word.is_empty())
}

#[derive(Default)]
struct Definitions {
    /// each name that an import line brings, with its file and its name there
    imported: BTreeMap<String, (File, String)>,
    /// each definition with its lines
    lines: BTreeMap<String, String>,
    /// each case or field with its type
    within: BTreeMap<String, String>,
}

impl Definitions {
    fn of(text: &str) -> Definitions {
        let mut all = Definitions::default();
        // the definition that a line belongs to, how far it is indented, and whether it is a type
        let mut now: Option<(String, usize, bool)> = None;
        for line in text.lines() {
            all.import(line);
            let code = line.trim_start();
            if code.is_empty() || code.starts_with("--") || line.starts_with("use ") {
                continue;
            }
            let indented = line.len() - code.len();
            let inside = now
                .clone()
                .filter(|(_, from, is_type)| *is_type && indented > *from);
            let marks = ["pub", "pattern", "abbrev", "unfoldable"];
            let mut rest = code
                .split_whitespace()
                .skip_while(|word| marks.contains(word));
            let first = rest.next().unwrap();
            if let Some((of, ..)) = inside {
                all.within.insert(first.to_string(), of);
            } else if marks
                .iter()
                .any(|mark| code.starts_with(&format!("{mark} ")))
            {
                let is_type = ["record", "data"].contains(&first);
                let name = if is_type { rest.next().unwrap() } else { first };
                now = Some((name.to_string(), indented, is_type));
            } else if first == "module" {
                now = None;
            }
            if let Some((name, ..)) = &now {
                let lines = all.lines.entry(name.clone()).or_default();
                lines.push_str(line);
                lines.push('\n');
            }
        }
        all
    }

    fn import(&mut self, line: &str) {
        let Some((module, names)) = import(line) else {
            return;
        };
        for (there, here) in names {
            if let Some(file) = file_of(module) {
                self.imported
                    .insert(here.to_string(), (file, there.to_string()));
            }
        }
    }
}

/// The public functions of a source file: name, parameters and clauses.
fn public(source: &str) -> impl Iterator<Item = &str> {
    let public = source.split("pub ").skip(1);
    let public = public.map(|text| text.trim_start_matches("extern \"C\" "));
    let functions = public.filter_map(|text| text.strip_prefix("fn "));
    functions.map(|text| {
        let bodies = [" {\n", "\n{\n", "\n    {\n"];
        let body = bodies.iter().filter_map(|body| text.find(body)).min();
        &text[..body.expect("a function has a body")]
    })
}

/// What clauses of a source file's public functions cite.
fn cited(source: &str) -> Vec<(File, String)> {
    let mut imported = Definitions::default();
    source.lines().for_each(|line| imported.import(line));
    let names = public(source).flat_map(words);
    names
        .filter_map(|name| imported.imported.get(name).cloned())
        .collect()
}

/// All definitions that these rest on, with their number of lines.
fn believed(mut from: Vec<(File, String)>) -> BTreeMap<(File, String), usize> {
    let specs = files("specs").into_iter();
    let specs: BTreeMap<_, _> = specs
        .map(|(file, text)| (file, Definitions::of(&text)))
        .collect();
    let mut found = BTreeMap::new();
    while let Some((file, name)) = from.pop() {
        let of = specs
            .get(&file)
            .unwrap_or_else(|| panic!("no file {file:?}"));
        // a whole module under another name brings all that it has
        if name == format!("Rattle.{}.specs.{}", file.0, file.1) {
            from.extend(of.lines.keys().map(|name| (file.clone(), name.clone())));
            continue;
        }
        let name = of
            .within
            .get(&name)
            .filter(|_| !of.lines.contains_key(&name))
            .cloned()
            .unwrap_or(name);
        let lines = of
            .lines
            .get(&name)
            .unwrap_or_else(|| panic!("no {name} in {file:?}"));
        if found
            .insert((file.clone(), name), lines.lines().count())
            .is_some()
        {
            continue;
        }
        for word in words(lines) {
            if of.lines.contains_key(word) || of.within.contains_key(word) {
                from.push((file.clone(), word.to_string()));
            } else {
                from.extend(of.imported.get(word).cloned());
            }
        }
    }
    found
}

/// What a reader starts with: the contracts of the exports and of the report,
/// and demand 3.
fn stated() -> Vec<(File, String)> {
    let sources = files("src").into_iter();
    let sources =
        sources.filter(|((of_crate, _), _)| ["capi_c", "report"].contains(&of_crate.as_str()));
    let mut stated: Vec<_> = sources.flat_map(|(_, text)| cited(&text)).collect();
    for (of_crate, file) in [("index", "Demand"), ("report", "Printed")] {
        let file = (of_crate.to_string(), file.to_string());
        let names = Definitions::of(&files("specs")[&file]).lines.into_keys();
        stated.extend(names.map(|name| (file.clone(), name)));
    }
    stated
}

#[test]
fn trust_lists_what_must_be_believed() {
    let believed = believed(stated());
    let of_them: BTreeSet<&File> = believed.keys().map(|(file, _)| file).collect();
    let mut rows: BTreeMap<String, [String; 2]> = BTreeMap::new();
    for file in files("specs").keys().filter(|(_, name)| name != "Lib") {
        let row = rows.entry(file.0.clone()).or_default();
        let place = &mut row[usize::from(!of_them.contains(file))];
        *place += &format!("{}{}", if place.is_empty() { "" } else { " " }, file.1);
    }
    let rows = rows
        .iter()
        .map(|(of_crate, [yes, no])| format!("| `{of_crate}` | {yes} | {no} |"));
    let rows: BTreeSet<String> = rows.map(|row| row.replace("|  |", "| |")).collect();
    let count = format!(
        "{} definitions in {} files, {} lines",
        believed.len(),
        of_them.len(),
        believed.values().sum::<usize>()
    );
    let text = trust();
    let listed: BTreeSet<String> = text
        .lines()
        .filter(|line| rows.contains(*line))
        .map(str::to_string)
        .collect();
    let missing: Vec<_> = rows.difference(&listed).collect();
    assert!(
        missing.is_empty() && text.contains(&count),
        "docs/TRUST.md lacks {missing:#?}, or: {count}"
    );
}

#[test]
fn what_is_stated_cites_definitions_alone() {
    let text = trust();
    for ((of_crate, file), source) in files("specs").into_iter().chain(files("src")) {
        for (module, _) in source.lines().filter_map(import) {
            let is_own = of_definitions(module).is_some();
            // a `use` of a source file, and not of a contract, names Rattle code
            let is_code = module.contains("::") || !module.contains('.');
            assert!(
                is_own || is_code || text.contains(&format!("`{module}`")),
                "{of_crate}, {file}: {module}"
            );
        }
    }
}

#[test]
fn public_functions_have_a_contract_and_no_premise() {
    let mut count = 0;
    for ((of_crate, file), source) in files("src") {
        for function in public(&source) {
            let name = function.split('(').next().unwrap();
            // behind the word a clause may have a star and a name
            let clause = |clause| {
                let mut words = function.split_whitespace();
                words.any(|word| word.trim_end_matches('*') == clause)
            };
            assert!(
                !clause("requires") && clause("ensures"),
                "{of_crate}, {file}: {name}"
            );
            count += 1;
        }
    }
    assert!(count > 150, "only {count} functions are read");
}
