//! The commands on dumps that are made to be slow, each kind at four lengths:
//! marked is what grows by more than pages × log pages as the pages double twice,
//! and what is cut off.
//!
//!     cargo run --release --bin bench -- hostile [FOLDER] [PROGRAM]
//!
//! The dumps of a kind are written to the folder, or to the system's temporary
//! one, and go when the next kind is written. The program is the `lohenarr` that
//! was built beside this one. Lengths and commands take turns; shown are the
//! best times, and the growth from each length to the next. That is judged over
//! two doublings, since a dump that no longer fits into the memory close by makes
//! one of them larger.

pub mod kinds;
pub mod runs;

use std::env;
use std::ffi::{OsStr, OsString};
use std::path::{Path, PathBuf};
use std::time::Duration;

use super::Temporary;
use kinds::{Kind, KINDS};

/// The lengths, each twice the one before.
const MIB: [usize; 4] = [8, 16, 32, 64];

/// How often each command is run, and from which time on once is enough.
const ROUNDS: usize = 15;
const LONG: Duration = Duration::from_secs(2);

/// What grows to a shorter time is not judged, and a growth may be so much larger
/// than that of pages × log pages: memory that is not close by is slower, the more
/// so beside other programs.
const SHORT: Duration = Duration::from_millis(20);
const NOISE: f64 = 1.5;

/// The commands, with what stands behind the dump: `OBJECT` is that of its last
/// page, which is `LAST`; `ITSELF` is the dump again, and `OTHER` the same with a byte
/// of every page changed.
const COMMANDS: [&[&str]; 19] = [
    &["report"],
    &["find"],
    &["pages"],
    &["list"],
    &["list", "--before", "LAST"],
    &["list", "--long"],
    &["tree"],
    &["size", "OBJECT"],
    &["chunk", "OBJECT", "1"],
    &["read", "OBJECT"],
    &["extract"],
    &["why", "OBJECT"],
    &["why", "OBJECT", "1"],
    &["records", "OBJECT"],
    &["history", "OBJECT"],
    &["certify", "OBJECT"],
    &["map", "--out", "-", "--object", "OBJECT"],
    &["compare", "ITSELF"],
    &["compare", "OTHER"],
];

/// A dump that was written.
struct Made {
    file: Temporary,
    other: Temporary,
    pages: u32,
    object: String,
    last: String,
}

/// What a command took on a dump.
#[derive(Clone, Copy)]
enum Took {
    /// The best time of this many runs.
    Time(Duration, usize),
    /// Longer than a run may take.
    TooLong,
    /// Not run, since a shorter dump took too long.
    Skipped,
}

/// Measures every kind and prints a line for each command.
pub fn measure(mut words: impl Iterator<Item = OsString>) -> Result<(), String> {
    let folder = words.next().map_or_else(env::temp_dir, PathBuf::from);
    let program = match words.next() {
        Some(program) => PathBuf::from(program),
        None => beside().map_err(|error| format!("no program: {error}"))?,
    };
    head();
    let mut marked = 0;
    for kind in &KINDS {
        let made: Vec<Made> = MIB
            .into_iter()
            .map(|mib| make(kind, mib, &folder))
            .collect::<Result<_, _>>()?;
        for (command, took) in COMMANDS.into_iter().zip(turns(&program, &made)?) {
            marked += usize::from(row(kind, &command.join(" "), &made, &took));
        }
    }
    println!("{marked} lines are marked: more than pages x log pages, or cut off");
    Ok(())
}

/// The program that was built beside this one.
pub fn beside() -> std::io::Result<PathBuf> {
    Ok(env::current_exe()?.with_file_name("lohenarr"))
}

/// Writes the dump of a kind and a length, and the same changed.
fn make(kind: &Kind, mib: usize, folder: &Path) -> Result<Made, String> {
    let pages = kinds::pages(mib);
    let written = |name: &str, is_changed: bool| {
        let file = Temporary::within(folder, &format!("{}-{mib}{name}", kind.name));
        let unwritten = |error| format!("cannot write {}: {error}", file.0.display());
        kind.write(&file.0, pages, is_changed).map_err(unwritten)?;
        Ok::<_, String>(file)
    };
    Ok(Made {
        file: written("", false)?,
        other: written("-other", true)?,
        pages,
        object: kind.object(pages).to_string(),
        last: (pages - 1).to_string(),
    })
}

/// What each command took on each of the dumps, which take turns.
fn turns(program: &Path, made: &[Made]) -> Result<Vec<Vec<Took>>, String> {
    let mut all = vec![vec![Took::Time(Duration::MAX, 0); made.len()]; COMMANDS.len()];
    for _ in 0..ROUNDS {
        for (command, took) in COMMANDS.into_iter().zip(&mut all) {
            for (i, made) in made.iter().enumerate() {
                let shorter = i.checked_sub(1).map(|i| took[i]);
                took[i] = again(program, command, made, took[i], shorter)?;
            }
        }
    }
    Ok(all)
}

/// A command run once more, unless it is known what it takes.
fn again(
    program: &Path,
    command: &[&str],
    made: &Made,
    took: Took,
    shorter: Option<Took>,
) -> Result<Took, String> {
    match (took, shorter) {
        (Took::Time(_, 0), Some(Took::TooLong | Took::Skipped)) => Ok(Took::Skipped),
        (Took::Time(best, runs), _) if runs == 0 || best < LONG => {
            let behind = command[1..].iter().map(|&word| match word {
                "OBJECT" => OsStr::new(&made.object),
                "LAST" => OsStr::new(&made.last),
                "ITSELF" => made.file.0.as_os_str(),
                "OTHER" => made.other.0.as_os_str(),
                word => OsStr::new(word),
            });
            let mut words = vec![OsStr::new(command[0]), made.file.0.as_os_str()];
            words.extend(behind);
            Ok(match runs::run(program, &words)? {
                Some(time) => Took::Time(best.min(time), runs + 1),
                None => Took::TooLong,
            })
        }
        _ => Ok(took),
    }
}

fn head() {
    let lengths = MIB.map(|mib| format!("{:>12}", format!("{mib} MiB")));
    println!("{:32}{}   growth", "", lengths.concat());
}

/// Prints a line of times and growths, and says whether one of these is marked.
fn row(kind: &Kind, command: &str, made: &[Made], took: &[Took]) -> bool {
    let mut line = format!("{:12}{command:20}", kind.name);
    let mut marked = false;
    for took in took {
        line += &match took {
            Took::Time(best, _) => format!("{:>12}", millis(*best)),
            Took::TooLong => format!("{:>12}", format!("> {} s*", runs::LIMIT.as_secs())),
            Took::Skipped => format!("{:>12}", "-"),
        };
        marked |= matches!(took, Took::TooLong);
    }
    line += "  ";
    for i in 1..took.len() {
        let Some(last) = growth(took[i - 1], took[i]) else {
            break;
        };
        let is_marked = i > 1 && is_too_much([&made[i - 2], &made[i]], [took[i - 2], took[i]]);
        let mark = if is_marked { "*" } else { " " };
        line += &format!(" {last:5.2}{mark}");
        marked |= is_marked;
    }
    println!("{line}");
    marked
}

/// How many times as long one took, where both ended.
fn growth(one: Took, other: Took) -> Option<f64> {
    match (one, other) {
        (Took::Time(one, _), Took::Time(other, _)) => Some(other.as_secs_f64() / one.as_secs_f64()),
        _ => None,
    }
}

/// Whether what a command took on two dumps is judged, and grows by more than it
/// may.
fn is_too_much(made: [&Made; 2], took: [Took; 2]) -> bool {
    let cost = |made: &Made| f64::from(made.pages) * f64::from(made.pages).log2();
    let most = NOISE * cost(made[1]) / cost(made[0]);
    let is_long = matches!(took[1], Took::Time(time, _) if time >= SHORT);
    is_long && growth(took[0], took[1]).is_some_and(|growth| growth > most)
}

fn millis(time: Duration) -> String {
    format!("{:.1} ms", time.as_secs_f64() * 1000.0)
}
