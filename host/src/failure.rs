//! Why a command ends without its whole answer.

use std::ffi::OsStr;
use std::io;

#[derive(Debug)]
pub enum Failure {
    /// The library refused: the number, and what it means here.
    Refused(u32, String),
    /// What was typed is no command.
    Usage(String),
    /// A path that names no object, or more than one.
    Path(String),
    /// A file that cannot be read or written.
    File(String),
}

impl Failure {
    /// The sentence on a file that cannot be written.
    pub fn unwritten(name: &OsStr, why: &io::Error) -> Failure {
        Failure::File(format!("cannot write {}: {}", shown(name), reason(why)))
    }
}

impl From<io::Error> for Failure {
    /// An error of writing the answer.
    fn from(error: io::Error) -> Failure {
        Failure::File(format!("cannot write the answer: {}", reason(&error)))
    }
}

/// A name in a sentence, in which an empty one is seen too.
pub fn shown(name: &OsStr) -> String {
    match name.is_empty() {
        true => "''".to_string(),
        false => name.display().to_string(),
    }
}

/// What the system says of an error, without its number.
pub fn reason(error: &io::Error) -> String {
    let said = error.to_string();
    match error.raw_os_error() {
        Some(libc::EEXIST) => "it is there already, and nothing is written over".to_string(),
        Some(number) => said.replace(&format!(" (os error {number})"), ""),
        None => said,
    }
}
