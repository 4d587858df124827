//! The whole command `compare` on two files, beside `cmp -l`, which goes over all of their
//! bytes too. Both print to a null device.
//!
//!     cargo run --release --bin bench -- compare EVENING MORNING [OPTIONS]

use std::ffi::{OsStr, OsString};
use std::path::Path;
use std::time::Duration;

use super::hostile::{beside, runs};

/// How often each is run, in turn.
const ROUNDS: usize = 7;

/// `cmp` through both files: it would stop at the first difference if nobody read it.
const CMP: &str = "cmp -l \"$0\" \"$1\" | cat >/dev/null";

/// Times the command with these words behind it, of which the first two are the files.
pub fn measure(words: impl Iterator<Item = OsString>) -> Result<(), String> {
    let words: Vec<OsString> = words.collect();
    let [evening, morning, ..] = &words[..] else {
        return Err("usage: bench compare EVENING MORNING [OPTIONS]".to_string());
    };
    let program = beside().map_err(|error| format!("no program: {error}"))?;
    let mut ours = vec![OsStr::new("compare")];
    ours.extend(words.iter().map(OsString::as_os_str));
    let theirs = [OsStr::new("-c"), OsStr::new(CMP), evening, morning];
    let mut times = [const { Vec::new() }; 2];
    for _ in 0..ROUNDS {
        times[0].extend(runs::run(&program, &ours)?);
        // where there is no such program, nothing is said of it
        times[1].extend(runs::run(Path::new("sh"), &theirs).ok().flatten());
    }
    for (name, times) in ["lohenarr compare", "cmp -l"].into_iter().zip(&mut times) {
        times.sort();
        match (times.first(), times.get(times.len() / 2)) {
            (Some(best), Some(median)) => println!("{name}: {}, {}", shown(best), shown(median)),
            _ => println!("{name}: did not end, or is not installed"),
        }
    }
    Ok(())
}

fn shown(time: &Duration) -> String {
    format!("{:.1} ms", time.as_secs_f64() * 1000.0)
}
