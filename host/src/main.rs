//! The command `lohenarr`.

use std::env;
use std::io::{self, BufWriter, Write};
use std::process::ExitCode;

use lohenarr::arguments::{Arguments, Parsed};
use lohenarr::commands;
use lohenarr::failure::Failure;
use lohenarr::fields::Printer;
use lohenarr::refusal::name;
use lohenarr::signals;
use lohenarr::standard::{self, say};
use lohenarr::usage;

/// Exit status: 0 answered, 1 refused, 2 bad usage or a file that fails.
fn main() -> ExitCode {
    signals::set();
    let reason = match answer() {
        Ok(()) => return ExitCode::SUCCESS,
        Err(Failure::Refused(..)) => return ExitCode::from(1),
        Err(Failure::Usage(reason)) => {
            let command = usage::command(env::args_os().nth(1));
            format!("{reason}\ntry: lohenarr help{command}")
        }
        Err(Failure::Path(reason) | Failure::File(reason)) => reason,
    };
    say(&format!("lohenarr: {reason}"));
    ExitCode::from(2)
}

/// Prints what was asked for; a refusal too is printed when this ends.
fn answer() -> Result<(), Failure> {
    let mut out = BufWriter::new(standard::output()?);
    let parsed = Arguments::parse(env::args_os().skip(1)).map_err(Failure::Usage)?;
    let done = match &parsed {
        Parsed::Tell(text) => Ok(out.write_all(text.as_bytes())?),
        Parsed::Run(arguments) => {
            let done = commands::run(arguments, &mut out);
            if let Err(Failure::Refused(number, meaning)) = &done {
                refused(arguments, *number, meaning, &mut out)?;
            }
            done
        }
    };
    out.flush()?;
    done
}

/// The one line of a refusal, and on standard error what it means here. What
/// is evidence is not mixed with either.
fn refused(
    asked: &Arguments,
    number: u32,
    meaning: &str,
    out: &mut dyn Write,
) -> Result<(), Failure> {
    let line = [("refusal", number.into())];
    let written = match asked.prints_evidence() {
        true => Printer::new(&mut io::stderr(), asked.json()).line(&line),
        false => Printer::new(out, asked.json()).line(&line),
    };
    say(&format!("refused: {number} {}: {meaning}", name(number)));
    Ok(written.and_then(|()| out.flush())?)
}
