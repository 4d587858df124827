//! Runs every line of the transcript that begins with `$`, and holds what
//! comes of it to the lines below: standard output, standard error behind
//! `! `, and the exit status behind `= `. Lines behind `< ` are its input.
//! `LOHENARR_BLESS=1` stores what comes of it anew: read the difference.

use std::path::Path;
use std::{env, fs};

use clap::CommandFactory;
use lohenarr::arguments::Arguments;

use super::{dumps, printed, run, said};

const TRANSCRIPT: &str = include_str!("transcript.txt");

/// The lines that a typed line and its input come to.
fn lines(folder: &Path, typed: &str, input: &str) -> String {
    let typed: Vec<&str> = typed.split(' ').collect();
    let output = run(folder, &typed, input.as_bytes());
    let said: String = said(&output)
        .lines()
        .map(|line| format!("! {line}\n"))
        .collect();
    let printed = str::from_utf8(&output.stdout).unwrap();
    format!("{printed}{said}= {}\n", output.status.code().unwrap())
}

#[test]
fn commands_print_what_is_stored() {
    let folder = dumps::folder();
    let mut parts = TRANSCRIPT.split("\n$ ");
    let mut anew = parts.next().unwrap().to_string();
    let mut differences = String::new();
    let mut ran = 0;
    for part in parts {
        let (typed, stored) = part.split_once('\n').unwrap();
        let input = stored.lines().filter(|line| line.starts_with("< "));
        let shown: String = input.clone().map(|line| format!("{line}\n")).collect();
        let input: String = input.map(|line| format!("{}\n", &line[2..])).collect();
        let expected = stored.lines().filter(|line| !line.starts_with("< "));
        let expected: String = expected.map(|line| format!("{line}\n")).collect();
        let came = lines(folder.path(), typed, &input);
        anew += &format!("\n$ {typed}\n{shown}{came}");
        if came != expected {
            differences += &format!("$ {typed}\n{came}\n");
        }
        ran += 1;
    }
    if env::var_os("LOHENARR_BLESS").is_some() {
        let path = concat!(env!("CARGO_MANIFEST_DIR"), "/tests/command/transcript.txt");
        return fs::write(path, anew).unwrap();
    }
    assert!(differences.is_empty(), "not as stored:\n{differences}");
    assert!(ran > 50, "only {ran} commands");
}

#[test]
fn every_command_occurs() {
    for command in Arguments::command().get_subcommands() {
        let typed = format!("\n$ {} ", command.get_name());
        assert!(TRANSCRIPT.contains(&typed), "{typed}");
    }
}

#[test]
fn every_refusal_occurs() {
    let refusals = TRANSCRIPT.split("refusal=").skip(1);
    let mut numbers: Vec<u32> = refusals
        .filter_map(|text| text.split_whitespace().next()?.parse().ok())
        .collect();
    numbers.sort_unstable();
    numbers.dedup();
    assert_eq!(numbers, (1..=16).collect::<Vec<_>>());
}

/// Behind each `$ lohenarr` docs/COMMAND.md shows what is printed, and then what is
/// said.
#[test]
fn the_reference_shows_what_is_printed() {
    let reference = concat!(env!("CARGO_MANIFEST_DIR"), "/../docs/COMMAND.md");
    let reference = fs::read_to_string(reference).unwrap();
    let folder = dumps::folder();
    let mut ran = 0;
    for part in reference.split("\n    $ lohenarr ").skip(1) {
        let (typed, shown) = part.split_once('\n').unwrap();
        let shown = shown.lines().map_while(|line| line.strip_prefix("    "));
        let typed: Vec<&str> = typed.split(' ').collect();
        let output = run(folder.path(), &typed, b"");
        let came = printed(&output).lines().chain(said(&output).lines());
        assert!(shown.eq(came), "{typed:?}");
        ran += 1;
    }
    assert!(ran > 8, "only {ran} commands");
}

/// What README shows of the first run is what is printed, and its night what the guide
/// has.
#[test]
fn the_readme_shows_what_is_printed() {
    let text = |name: &str| {
        let path = Path::new(env!("CARGO_MANIFEST_DIR")).join("..").join(name);
        fs::read_to_string(path).unwrap()
    };
    let (readme, guide) = (text("README.md"), text("docs/CERTIFY.md"));
    let folder = dumps::folder();
    let pages = run(folder.path(), &["pages", "W"], b"");
    let lines = printed(&pages).lines().map(|line| format!("    {line}\n"));
    let lines: String = lines.collect();
    assert!(readme.contains(&format!("\n\n{lines}\n")));
    let (_, night) = readme.split_once("\n    sha256=").unwrap();
    let night: Vec<&str> = night.lines().take_while(|line| !line.is_empty()).collect();
    assert!(night.len() > 3);
    for line in &night[1..] {
        assert!(guide.contains(&format!("\n{line}\n")), "{line}");
    }
    assert!(guide.contains(&format!("\n    sha256={}\n", night[0])));
}
