//! `completions SHELL`: a script that completes what is typed.

use clap::CommandFactory;
use clap_complete::Shell;

use crate::arguments::Arguments;
use crate::failure::Failure;
use crate::fields::Printer;

pub fn completions(shell: Shell, out: &mut Printer<'_>) -> Result<(), Failure> {
    // to memory first: clap panics where it cannot write
    let mut script = Vec::new();
    clap_complete::generate(shell, &mut Arguments::command(), "lohenarr", &mut script);
    Ok(out.raw().write_all(&script)?)
}
