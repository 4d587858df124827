//! `script DUMP [SCRIPT]`: an answer line for each request of a script.

use std::ffi::OsStr;
use std::fs::File;
use std::io::{self, Read};

use crate::arguments::Source;
use crate::dump::{input, unread, Dump};
use crate::failure::Failure;
use crate::fields::Printer;
use crate::script::request;
use crate::script::runner::Runner;
use crate::standard;

/// The longest script, in bytes: some millions of requests.
const LONGEST: u64 = 1 << 26;

pub fn script(source: &Source, name: &OsStr, out: &mut Printer<'_>) -> Result<(), Failure> {
    if source.dump == "-" && name == "-" {
        let both = "dump and script cannot both be standard input";
        return Err(Failure::Usage(both.to_string()));
    }
    let dump = Dump::open(&source.dump, source.copy).map_err(Failure::File)?;
    let not_read = |error| Failure::File(unread(name, &error));
    let wrong = |wrong| Failure::Usage(format!("{}, {wrong}", input(name)));
    let requests = request::parse(&text(name).map_err(not_read)?).map_err(wrong)?;
    let mut runner = Runner::new(&dump, &requests)?;
    for request in &requests {
        writeln!(out.raw(), "{}", runner.answer(request)?.line)?;
    }
    dump.check_length().map_err(Failure::File)
}

/// The text of a script that is not too long.
fn text(name: &OsStr) -> io::Result<String> {
    let file = match name == "-" {
        true => standard::input()?,
        false => File::open(name)?,
    };
    let mut bytes = Vec::new();
    file.take(LONGEST + 1).read_to_end(&mut bytes)?;
    if bytes.len() as u64 > LONGEST {
        let long = format!("a script has at most {LONGEST} bytes");
        return Err(io::Error::other(long));
    }
    String::from_utf8(bytes).map_err(|_| io::Error::other("it is no text: a byte is not UTF-8"))
}
