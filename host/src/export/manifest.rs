//! The two texts of an export: `manifest.txt`, a line for each object, and
//! `SHA256SUMS`, as sha256sum reads it.

use std::fs::File;
use std::io::{self, BufWriter, Write};

use crate::fields::{line, text, Field, Value};
use crate::folder::Folder;
use crate::sums::Summed;

const MANIFEST: &str = "manifest.txt";
const SUMS: &str = "SHA256SUMS";

const HEAD: &str = "\
# What lohenarr exported of a dump. First the dump, then a line for each live object:
# type= 1 file, 2 symbolic link, 3 directory, 4 hard link, 5 special file
# path= as the dump has it; name= and parent= of an object that has none
# size= and sha256= of a file's bytes, target= of a symbolic link, equivalent_id= of a
# hard link
# written= under which name of this folder, where that is not the path, or none
# reason= why that is so
# In names \\\\ is a backslash, and \\xHH a space or a byte that is not printable ASCII.
# Modes, owners and times of the dump are not applied: they decide nothing.
# SHA256SUMS has the sum of every file that was written, of this one too.
";

pub struct Manifest {
    lines: BufWriter<Summed<File>>,
    sums: BufWriter<File>,
}

impl Manifest {
    /// Begins both texts in a folder; a line about the dump comes first.
    pub fn begin(folder: &Folder, dump: &[Field<'_>]) -> io::Result<Manifest> {
        let summed = Summed::new(folder.file(MANIFEST.as_bytes())?);
        let sums = BufWriter::new(folder.file(SUMS.as_bytes())?);
        let mut lines = BufWriter::new(summed);
        lines.write_all(HEAD.as_bytes())?;
        let mut manifest = Manifest { lines, sums };
        manifest.line(dump)?;
        Ok(manifest)
    }

    pub fn line(&mut self, fields: &[Field<'_>]) -> io::Result<()> {
        writeln!(self.lines, "{}", line(fields))
    }

    /// The sum of a file that was written under a path.
    pub fn sum(&mut self, path: &[u8], sum: &str) -> io::Result<()> {
        self.sums.write_all(&sum_line(path, sum))
    }

    /// Ends both texts.
    pub fn end(mut self) -> io::Result<()> {
        let (_, sum) = self.lines.into_inner()?.told();
        let path = format!("./{MANIFEST}");
        self.sums.write_all(&sum_line(path.as_bytes(), &sum))?;
        self.sums.flush()
    }
}

/// A name as a field: a word without spaces, so that no name looks like other fields.
pub fn word(bytes: &[u8]) -> Value<'static> {
    text(bytes).replace(' ', "\\x20").into()
}

/// A line as sha256sum writes it: where a path has a backslash, a newline or a carriage
/// return, these are escaped, and a backslash comes first.
fn sum_line(path: &[u8], sum: &str) -> Vec<u8> {
    let mut escaped = Vec::with_capacity(path.len());
    for &byte in path {
        match byte {
            b'\\' => escaped.extend(b"\\\\"),
            b'\n' => escaped.extend(b"\\n"),
            b'\r' => escaped.extend(b"\\r"),
            _ => escaped.push(byte),
        }
    }
    let first = if escaped == path { "" } else { "\\" };
    let begin = format!("{first}{sum}  ");
    [begin.as_bytes(), &escaped, b"\n"].concat()
}
