//! A certificate as it is written: as text, each part below its question, or as one JSON
//! object with a member for each part. A line of the text is the title, a question, or
//! begins with `name=`; no name of a file can break it, as no byte of one ends a line.

use std::io::{self, Write};
use std::slice::from_ref;

use crate::fields::{line, object, word, Field};

const TITLE: &str = "Certificate of a file in a raw NAND dump";

pub struct Document<'w> {
    out: &'w mut dyn Write,
    json: bool,
    parts: u32,
    /// Whether the part has a member, and whether its list has a row, once that is
    /// begun.
    has_member: bool,
    has_row: Option<bool>,
    /// The notes of the part, which are its last member.
    notes: Vec<String>,
}

impl<'w> Document<'w> {
    pub fn begin(out: &'w mut dyn Write, json: bool) -> io::Result<Document<'w>> {
        match json {
            true => write!(out, "{{")?,
            false => writeln!(out, "{TITLE}")?,
        }
        Ok(Document {
            out,
            json,
            parts: 0,
            has_member: false,
            has_row: None,
            notes: Vec::new(),
        })
    }

    /// Begins a part, which answers a question.
    pub fn part(&mut self, name: &str, question: &str) -> io::Result<()> {
        self.end_part()?;
        self.parts += 1;
        if !self.json {
            return writeln!(self.out, "\n{}. {question}\n", self.parts);
        }
        let comma = if self.parts > 1 { "," } else { "" };
        write!(self.out, "{comma}\"{name}\":{{")
    }

    /// Fields of the part itself, a line each.
    pub fn fields(&mut self, fields: &[Field<'_>]) -> io::Result<()> {
        for field in fields {
            match self.json {
                true => self.member(object(from_ref(field)).trim_matches(['{', '}']))?,
                false => writeln!(self.out, "{}", word(field, "\n"))?,
            }
        }
        Ok(())
    }

    /// Begins the one list of a part.
    pub fn list(&mut self, name: &str) -> io::Result<()> {
        if self.json {
            self.member(&format!("\"{name}\":["))?;
        }
        self.has_row = Some(false);
        Ok(())
    }

    /// A row of the list on a line, and below it why it is so.
    pub fn row(&mut self, mut fields: Vec<Field<'_>>, because: Option<String>) -> io::Result<()> {
        let because = because.map(|because| ("because", because.into()));
        if !self.json {
            writeln!(self.out, "{}", line(&fields))?;
            return self.fields(because.as_slice());
        }
        if self.has_row.replace(true) == Some(true) {
            write!(self.out, ",")?;
        }
        fields.extend(because);
        write!(self.out, "{}", object(&fields))
    }

    /// A sentence beside what is said.
    pub fn note(&mut self, sentence: String) -> io::Result<()> {
        match self.json {
            true => self.notes.push(sentence),
            false => writeln!(self.out, "note={sentence}")?,
        }
        Ok(())
    }

    pub fn end(mut self) -> io::Result<()> {
        self.end_part()?;
        match self.json {
            true => writeln!(self.out, "}}"),
            false => Ok(()),
        }
    }

    fn end_part(&mut self) -> io::Result<()> {
        if self.json && self.parts > 0 {
            if self.has_row.take().is_some() {
                write!(self.out, "]")?;
            }
            let notes = std::mem::take(&mut self.notes);
            if !notes.is_empty() {
                let notes = serde_json::to_string(&notes)?;
                self.member(&format!("\"note\":{notes}"))?;
            }
            self.has_member = false;
            write!(self.out, "}}")?;
        }
        Ok(())
    }

    /// A member of the part, or its begin.
    fn member(&mut self, text: &str) -> io::Result<()> {
        let comma = if self.has_member { "," } else { "" };
        self.has_member = true;
        write!(self.out, "{comma}{text}")
    }
}
