//! `tree DUMP`: the live objects with their paths from the root, then those that have
//! none, with the reason.

use std::io::{self, IsTerminal};

use super::Opened;
use crate::failure::Failure;
use crate::fields::{Printer, Value};
use crate::progress::Progress;
use crate::standard::remark;
use crate::tree::{reason_name, PathBuffer, Place, Tree};

/// A text of no more bytes is made at once, a longer one object by object.
const MOST: u64 = 1 << 28;

pub fn tree(opened: &Opened, out: &mut Printer<'_>) -> Result<(), Failure> {
    let tree = opened.tree()?;
    if tree.listed() + tree.others() == 0 {
        remark("the tree is empty");
    }
    // names are evidence, but may not speak to a terminal
    let is_raw = !out.is_json() && !io::stdout().is_terminal();
    let text = is_raw.then(|| tree.text(MOST)).flatten();
    match text {
        Some(text) => {
            opened.check_length()?;
            Ok(out.raw().write_all(&text)?)
        }
        None => {
            print(&tree, is_raw, out)?;
            opened.check_length()
        }
    }
}

/// Prints the tree object by object, names as they are or escaped.
fn print(tree: &Tree<'_>, is_raw: bool, out: &mut Printer<'_>) -> io::Result<()> {
    let rows = tree.listed() + tree.others();
    let progress = Progress::beside_output("printing the tree", rows.into());
    let mut buffer = PathBuffer::default();
    for row in tree.rows() {
        let object = ("object", tree.header(row).object.into());
        match row.place {
            Place::In(_) if is_raw => {
                out.lines(&[object])?;
                let path = tree.path(row, &mut buffer);
                let to = out.raw();
                to.write_all(b"path=")?;
                to.write_all(path)?;
                to.write_all(b"\n")?;
            }
            Place::In(_) => {
                let path = tree.path(row, &mut buffer);
                out.lines(&[object, ("path", Value::Text(path))])?;
            }
            Place::Nowhere(reason) => {
                out.lines(&[object, ("reason", reason_name(reason).into())])?;
            }
        }
        progress.add(1);
    }
    Ok(())
}

#[cfg(test)]
mod tests {
    use super::*;
    use crate::ffi::Geometry;

    /// W's file in a directory, one with a parent that is missing, and a loop: object
    /// by object it is the same text.
    #[test]
    fn object_by_object_it_is_the_same_text() {
        let header = &include_bytes!("../../tests/data/W")[..528];
        let page = |id: u32, file_type: u32, parent: u32| {
            let mut page = header.to_vec();
            page[..4].copy_from_slice(&file_type.to_le_bytes());
            page[4..8].copy_from_slice(&parent.to_le_bytes());
            page[516..520].copy_from_slice(&(file_type << 28 | id).to_le_bytes());
            page
        };
        let pages = [
            page(257, 1, 258),
            page(258, 3, 1),
            page(259, 1, 99),
            page(260, 3, 260),
        ];
        let dump = pages.concat();
        let on = Geometry {
            layout: 6,
            block: 1,
        };
        let tree = Tree::of(&dump, on, None).unwrap();
        let mut printed = Vec::new();
        print(&tree, true, &mut Printer::new(&mut printed, false)).unwrap();
        let text = tree.text(MOST).unwrap();
        assert!(printed == text);
        assert!(text.ends_with(b"object=259\nreason=missing\nobject=260\nreason=loop\n"));
        assert_eq!(tree.text(text.len() as u64 - 1), None, "too long");
    }
}
