//! The commands, a file for each.

mod certify;
mod chunk;
mod compare;
mod completions;
mod export;
mod extract;
mod find;
mod guess;
pub mod header;
mod history;
mod list;
mod map;
mod opened;
mod pages;
mod read;
mod records;
mod report;
mod script;
mod size;
mod tree;
mod why;

use std::io::Write;

use crate::arguments::{Arguments, Command};
use crate::failure::Failure;
use crate::fields::Printer;
use opened::Opened;

/// Carries out the command that was typed.
pub fn run(arguments: &Arguments, out: &mut dyn Write) -> Result<(), Failure> {
    let out = &mut Printer::new(out, arguments.json());
    match &arguments.command {
        Command::Report { on } => report::report(&Opened::on(on)?, out),
        Command::Find { source, block, .. } => find::find(&Opened::open(source, None, block)?, out),
        Command::Pages { on } => pages::pages(&Opened::on(on)?, out),
        Command::Header { on, page } => header::header(&Opened::on(on)?, page, out),
        Command::List { on, long } => list::list(&Opened::past(on)?, *long, out),
        Command::Tree { on } => tree::tree(&Opened::past(on)?, out),
        Command::Size { on, of, long } => size::size(&Opened::past(on)?, &of.object, *long, out),
        Command::Chunk { on, of, n } => chunk::chunk(&Opened::past(on)?, &of.object, n, out),
        Command::Read { on, of, out: name } => read::read(on, &of.object, name.as_deref(), out),
        Command::Extract { on, object } => {
            extract::extract(&Opened::past(on)?, object.as_ref(), out)
        }
        Command::Records { on, of } => records::records(&Opened::past(on)?, &of.object, out),
        Command::History { on, of } => history::history(&Opened::on(on)?, &of.object, out),
        Command::Why { on, of, position } => {
            why::why(&Opened::past(on)?, &of.object, *position, out)
        }
        Command::Certify { on, of, out: name } => {
            certify::certify(&Opened::past(on)?, &of.object, name.as_deref(), out)
        }
        Command::Export { on, dir } => export::export(on, dir, out),
        Command::Map {
            on,
            object,
            out: name,
        } => map::map(&Opened::on(on)?, object.as_ref(), name, out),
        Command::Compare { on } => compare::compare(on, out),
        Command::Script { source, script } => script::script(source, script, out),
        Command::Completions { shell } => completions::completions(*shell, out),
    }
}
