//! Every live file and directory of a dump in a new folder. What stands where is the
//! library's answer; here are the names and links that a file system can take.
//!
//! - `entry`: how an object is written.
//! - `names`: under which name.
//! - `links`: which symbolic links are written as such.
//! - `manifest`: what is said of all of that.

mod entry;
mod links;
mod manifest;
mod names;

use std::io;

use crate::ffi::{self, Geometry, RowAnswer};
use crate::fields::{before_zero, Field};
use crate::folder::Folder;
use crate::objects::Objects;
use crate::progress::Progress;
use crate::tree::{PathBuffer, Place, Tree};
use entry::{Object, Written, DIRECTORY, FILE};
pub use manifest::word;
use manifest::Manifest;

/// The folder of the files that have no path.
const LOST: &[u8] = b"lost";

/// What is exported.
pub struct Source<'a, 'd> {
    pub dump: &'d [u8],
    pub on: Geometry,
    pub objects: &'a Objects<'d>,
    pub tree: &'a Tree<'d>,
    /// The page of the newest header of the root, which the tree does not list, if it
    /// is live.
    pub root: Option<u32>,
}

/// What was written.
#[derive(Default)]
pub struct Counts {
    pub files: u64,
    pub directories: u64,
    pub bytes: u64,
    /// Objects with a path that have another name.
    pub renamed: u64,
    /// Files that have no path.
    pub lost: u64,
}

/// A folder in which entries are written: of which row of the tree, how long its path
/// is in the dump, and where it is written.
struct Open {
    row: Option<u32>,
    length: usize,
    written: Vec<u8>,
    folder: Folder,
}

struct Export<'a, 'd> {
    source: Source<'a, 'd>,
    /// The directory that is gone through, below those that lead to it.
    open: Vec<Open>,
    lost: Option<Open>,
    manifest: Manifest,
    counts: Counts,
    progress: Progress,
}

/// Fills a new folder. The first line of the manifest says which dump it is of.
pub fn export(source: Source<'_, '_>, top: &Folder, dump: &[Field<'_>]) -> io::Result<Counts> {
    let manifest = Manifest::begin(top, dump)?;
    let open = |written: &[u8], folder| Open {
        row: None,
        length: 0,
        written: written.to_vec(),
        folder,
    };
    let lost = match source.has_lost() {
        true => Some(open(b"./lost", top.folder(LOST)?)),
        false => None,
    };
    let progress = Progress::new("exporting", Some(source.parts()));
    let mut export = Export {
        source,
        open: vec![open(b".", top.again()?)],
        lost,
        manifest,
        counts: Counts::default(),
        progress,
    };
    export.root()?;
    export.rows()?;
    export.manifest.end()?;
    Ok(export.counts)
}

impl<'d> Source<'_, 'd> {
    /// Whether a live file has no path.
    fn has_lost(&self) -> bool {
        let is_file = |page| ffi::kind(self.dump, self.on, page).page_type == FILE;
        let mut others = self.tree.rows().skip(self.tree.listed() as usize);
        self.root.is_some_and(is_file) || others.any(|row| is_file(row.page))
    }

    /// Objects, and bytes of files, to be gone through.
    fn parts(&self) -> u64 {
        let rows = self.tree.rows().map(|row| {
            let object = self.tree.header(row).object;
            1 + self.objects.size(object).size
        });
        rows.sum()
    }

    /// An object without a path, by the page of its newest header.
    fn object(&self, page: u32) -> Object<'d> {
        let name = ffi::header_name(self.dump, self.on, page).of(self.dump);
        Object {
            header: ffi::kind(self.dump, self.on, page),
            page,
            path: None,
            name: before_zero(name),
        }
    }
}

impl Export<'_, '_> {
    /// The root stands for the whole folder; a file that it is too is lost.
    fn root(&mut self) -> io::Result<()> {
        let Some(page) = self.source.root else {
            return Ok(());
        };
        let object = self.source.object(page);
        let written = match object.header.page_type {
            FILE => self.lost_file(&object, "it is the root and a file")?,
            _ => Written::at(b"./".to_vec()),
        };
        let object = Object {
            path: Some(b"/"),
            ..object
        };
        self.tell(&object, written)
    }

    fn rows(&mut self) -> io::Result<()> {
        let tree = self.source.tree;
        let mut buffer = PathBuffer::default();
        for row in tree.rows() {
            let object = self.source.object(row.page);
            match row.place {
                Place::In(directory) => {
                    // a directory's entries come right behind it
                    while self.last().row != directory {
                        self.open.pop();
                    }
                    let path = tree.path(row, &mut buffer);
                    let object = Object {
                        path: Some(path),
                        name: &path[self.last().length + 1..],
                        ..object
                    };
                    self.listed(&object, row.number)?;
                }
                Place::Nowhere(reason) => {
                    let written = match object.header.page_type {
                        FILE => self.lost_file(&object, no_path(reason))?,
                        _ => Written::nowhere(no_path(reason)),
                    };
                    self.tell(&object, written)?;
                }
            }
            self.progress.add(1);
        }
        Ok(())
    }

    /// The directory that is gone through.
    fn last(&self) -> &Open {
        self.open.last().expect("the root stays open")
    }

    /// Writes an object that has a path; the entries of a directory come next.
    fn listed(&mut self, object: &Object<'_>, row: u32) -> io::Result<()> {
        let written = match object.header.page_type {
            DIRECTORY => {
                let (folder, written) = self.make(object, Folder::folder)?;
                self.counts.directories += 1;
                self.open.push(Open {
                    row: Some(row),
                    length: object.path.map_or(0, <[u8]>::len),
                    written: written.at.clone().unwrap_or_default(),
                    folder,
                });
                written
            }
            _ => self.entry(object)?,
        };
        self.tell(object, written)
    }
}

/// Why an object has no path, in plain words.
fn no_path(reason: u32) -> &'static str {
    match reason {
        RowAnswer::TOO_DEEP => "it has no path: it is more than 32 steps below the root",
        RowAnswer::LOOP => "it has no path: its parents lead round in a circle",
        RowAnswer::MISSING => "it has no path: a parent has no header",
        RowAnswer::DELETED => "it has no path: a parent is deleted",
        RowAnswer::NON_DIRECTORY => "it has no path: a parent is no directory",
        _ => "it has no path",
    }
}
