//! How an object is written: as what, under which name, and what the manifest says.

use std::fs::File;
use std::io::{self, Write};

use sha2::{Digest, Sha256};

use super::manifest::word;
use super::{links, names, Export};
use crate::ffi::{self, KindAnswer};
use crate::fields::{before_zero, hex, Field};
use crate::folder::Folder;
use crate::new_file::is_unsupported;

use crate::writing;

pub const FILE: u32 = 1;
const LINK: u32 = 2;
pub const DIRECTORY: u32 = 3;
const HARD_LINK: u32 = 4;

/// An object of the dump: its newest header and the page of that, its path if it has
/// one, and its name.
#[derive(Clone, Copy)]
pub struct Object<'p> {
    pub header: KindAnswer,
    pub page: u32,
    pub path: Option<&'p [u8]>,
    pub name: &'p [u8],
}

/// Where an object is written, if it is, why not under its path, and what else the
/// manifest says of it.
pub struct Written {
    pub at: Option<Vec<u8>>,
    reasons: Vec<&'static str>,
    fields: Vec<Field<'static>>,
}

impl Written {
    pub fn at(path: Vec<u8>) -> Written {
        Written {
            at: Some(path),
            reasons: Vec::new(),
            fields: Vec::new(),
        }
    }

    pub fn nowhere(reason: &'static str) -> Written {
        Written {
            at: None,
            reasons: vec![reason],
            fields: Vec::new(),
        }
    }
}

impl Export<'_, '_> {
    /// Writes what is no directory.
    pub fn entry(&mut self, object: &Object<'_>) -> io::Result<Written> {
        match object.header.page_type {
            FILE => {
                let (file, written) = self.make(object, Folder::file)?;
                self.fill(object, &file, written)
            }
            LINK => self.link(object),
            HARD_LINK => {
                let header = ffi::header(self.source.dump, self.source.on, object.page);
                let mut written = Written::nowhere("no rule follows hard links");
                written.fields = vec![("equivalent_id", header.equivalent_id.into())];
                Ok(written)
            }
            _ => Ok(Written::nowhere("a special file has no bytes")),
        }
    }

    /// Writes a file that has no path where those are.
    pub fn lost_file(&mut self, object: &Object<'_>, why: &'static str) -> io::Result<Written> {
        let lost = self.lost.as_ref().expect("made where a file is lost");
        let name = names::made_up(object.header.object, object.name);
        let file = lost.folder.file(&name)?;
        let mut written = Written::at(below(&lost.written, &name));
        written.reasons.push(why);
        self.counts.lost += 1;
        self.fill(object, &file, written)
    }

    /// Makes an entry of the directory that is gone through, under its own name or, where
    /// that is unfit or taken, under one that is made up.
    pub fn make<T>(
        &mut self,
        object: &Object<'_>,
        make: impl Fn(&Folder, &[u8]) -> io::Result<T>,
    ) -> io::Result<(T, Written)> {
        let open = self.last();
        let mut reason = names::unfit(object.name, open.written.len());
        if reason.is_none() {
            match make(&open.folder, object.name) {
                Ok(made) => return Ok((made, Written::at(below(&open.written, object.name)))),
                Err(error) => reason = Some(names::untaken(error)?),
            }
        }
        let name = names::made_up(object.header.object, object.name);
        let made = make(&open.folder, &name)?;
        let mut written = Written::at(below(&open.written, &name));
        written.reasons.extend(reason);
        self.counts.renamed += 1;
        Ok((made, written))
    }

    /// Fills a new file with the bytes of its object.
    fn fill(&mut self, object: &Object<'_>, file: &File, written: Written) -> io::Result<Written> {
        let table = self.source.objects.table(object.header.object);
        let table = table.map_err(|refusal| io::Error::other(format!("refusal {refusal}")))?;
        let sum = writing::fill(file, self.source.objects, &table, &self.progress)?;
        self.counts.files += 1;
        self.counts.bytes += table.size;
        let fields = vec![("size", table.size.into()), ("sha256", sum.clone().into())];
        self.summed(Written { fields, ..written }, &sum)
    }

    /// A link is one if it stays inside, and else a text.
    fn link(&mut self, object: &Object<'_>) -> io::Result<Written> {
        let alias = ffi::header_alias(self.source.dump, self.source.on, object.page);
        let target = before_zero(alias.of(self.source.dump));
        // the top is open too
        let depth = self.open.len() - 1;
        let fields = vec![("target", word(target))];
        let why = match links::stays_inside(target, depth) {
            false => "its target may lead outside: it is written as a text",
            true => match self.make(object, |folder, name| folder.link(name, target)) {
                Err(error) if is_unsupported(&error) => {
                    "the file system has no links: it is written as a text"
                }
                made => return made.map(|((), written)| Written { fields, ..written }),
            },
        };
        let (mut file, mut written) = self.make(object, Folder::file)?;
        file.write_all(target)?;
        written.reasons.push(why);
        self.summed(Written { fields, ..written }, &hex(&Sha256::digest(target)))
    }

    /// Notes the sum of a file that was written.
    fn summed(&mut self, written: Written, sum: &str) -> io::Result<Written> {
        let at = written.at.as_deref().unwrap_or_default();
        self.manifest.sum(at, sum)?;
        Ok(written)
    }

    /// The line of an object.
    pub fn tell(&mut self, object: &Object<'_>, written: Written) -> io::Result<()> {
        let Written {
            at,
            mut reasons,
            fields: more,
        } = written;
        let header = &object.header;
        let mut fields = vec![
            ("object", header.object.into()),
            ("type", header.page_type.into()),
        ];
        match object.path {
            Some(path) => fields.push(("path", word(path))),
            None => fields.extend([
                ("name", word(object.name)),
                ("parent", header.parent.into()),
            ]),
        }
        fields.extend(more);
        let own = object.path.map(|path| [b".", path].concat());
        match at {
            None => fields.push(("written", "none".into())),
            Some(at) if Some(&at) != own.as_ref() => {
                if reasons.is_empty() {
                    reasons.push("its folder has another name");
                }
                fields.push(("written", word(&at)));
            }
            Some(_) => (),
        }
        if !reasons.is_empty() {
            fields.push(("reason", reasons.join("; ").into()));
        }
        self.manifest.line(&fields)
    }
}

/// The path of an entry.
fn below(folder: &[u8], name: &[u8]) -> Vec<u8> {
    [folder, b"/", name].concat()
}
