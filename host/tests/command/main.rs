//! The command, run: what it prints, what it says, and its exit status.
//!
//! - `dumps`: W, and dumps made of it.
//! - `transcript`: every command on W, every refusal and every habit, with stored output.
//! - `before`: dumps as they once stood.
//! - `certify`: certificates.
//! - `compare`: two dumps.
//! - `crowded`: trees of very many objects.
//! - `export`: folders that `export` writes.
//! - `found`: K where it is not named.
//! - `map`: pictures that `map` draws.
//! - `inputs`: dumps and scripts that are no plain files.
//! - `spread`: dumps that are long enough for a second thread.
//! - `shortened`: dumps that lose bytes while they are read.
//! - `outputs`: standard output that is closed, full or left.
//! - `out`: files that `read --out` writes.
//! - `progress`: what is shown of long work.
//! - `tree`: names and paths.
//! - `terminal`: a terminal for some of these.

mod before;
mod certify;
mod compare;
mod crowded;
mod dumps;
mod export;
mod found;
mod inputs;
mod map;
mod out;
mod outputs;
mod progress;
mod shortened;
mod spread;
mod terminal;
mod transcript;
mod tree;

use std::path::Path;
use std::process::{Command, Output};

/// The command, to be run in a folder.
fn lohenarr(folder: &Path) -> Command {
    let mut command = Command::new(env!("CARGO_BIN_EXE_lohenarr"));
    command.current_dir(folder);
    command
}

/// Runs what is typed in a folder, on what is given as its standard input.
fn run(folder: &Path, typed: &[&str], input: &[u8]) -> Output {
    let mut command = lohenarr(folder);
    command.args(typed);
    let mut command = assert_cmd::Command::from_std(command);
    command.write_stdin(input).output().unwrap()
}

/// What was printed, where that is text.
fn printed(output: &Output) -> &str {
    str::from_utf8(&output.stdout).unwrap()
}

/// What was said on standard error.
fn said(output: &Output) -> &str {
    str::from_utf8(&output.stderr).unwrap()
}
