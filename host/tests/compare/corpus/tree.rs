//! The paths of each dump, against those that the driver shows. Its lost+found (2) is
//! left out: it stands on no page. Nothing else is, and no object is without a path.

use super::command::{lines, run, written};
use super::{cases, Case, Shown, DRIVERS_OWN};
use crate::second::index::Reader;
use crate::second::layout::Named;
use crate::second::page::{kind, Body, Kind};
use crate::second::why::Past;
use crate::second::wrong::Wrong;
use crate::sha256;

/// What the driver shows of objects that stand on pages, by id.
fn shown(case: &Case) -> Vec<Shown> {
    let mut shown = case.paths.clone();
    shown.retain(|shown| shown.object > DRIVERS_OWN);
    shown.sort();
    shown
}

#[test]
fn the_tree_is_that_of_the_driver() {
    let folder = tempfile::tempdir().unwrap();
    let (mut dumps, mut paths) = (0, 0);
    for case in cases() {
        let (dump, name) = (written(&case, &folder), &case.name);
        let block = ["--block", &case.block];
        let text = lines("tree", &dump, &block);
        let mut tree = text.lines();
        let mut listed = Vec::new();
        while let (Some(object), Some(path)) = (tree.next(), tree.next()) {
            let object = object.strip_prefix("object=").expect("an object");
            let path = path.strip_prefix("path=").expect("a path: nothing is lost");
            listed.push((object.parse().unwrap(), path.to_string()));
        }
        let mut sorted = listed.clone();
        sorted.sort();
        let shown = shown(&case);
        let expected: Vec<(u32, String)> = shown
            .iter()
            .map(|shown| (shown.object, shown.path.clone()))
            .collect();
        assert_eq!(sorted, expected, "{name}");
        let long = lines("list", &dump, &[block[0], block[1], "--long"]);
        for Shown {
            object,
            file_type,
            path,
        } in &shown
        {
            let line = format!("object={object} type={file_type} ");
            let line = long.lines().find(|long| long.starts_with(&line));
            let line = line.unwrap_or_else(|| panic!("{name}: {object} in {long}"));
            assert!(line.ends_with(&format!(" path={path}")), "{name}: {line}");
        }
        (dumps, paths) = (dumps + 1, paths + listed.len());
    }
    println!("{paths} paths in {dumps} dumps");
}

/// A path of the driver gives its file.
#[test]
fn files_are_read_by_their_paths() {
    let folder = tempfile::tempdir().unwrap();
    let mut read = 0;
    for case in cases() {
        let dump = written(&case, &folder);
        for file in &case.files {
            let mut paths = case.paths.iter();
            let path = paths.find(|shown| shown.object == file.object).unwrap();
            let bytes = run("read", &dump, &[&path.path, "--block", &case.block]);
            assert_eq!(sha256(&bytes), file.sha256, "{}: {path:?}", case.name);
            read += 1;
        }
    }
    println!("{read} files");
}

#[test]
fn the_second_reader_has_the_tree_of_the_driver() {
    for case in cases() {
        let reader = Reader::new(&case.dump, Wrong::None);
        let k = case.block.parse().unwrap();
        let layout = reader.find(k).expect("a layout");
        let on = Past {
            layout: Named::from(layout),
            k,
            before: None,
        };
        let tree = reader.tree(on).unwrap();
        assert!(tree.others.is_empty(), "{}", case.name);
        let file_type = |page| match kind(&case.dump, layout, page, Wrong::None) {
            Kind::Record(record) => match record.body {
                Body::Header { file_type, .. } => file_type,
                Body::Data { .. } => panic!("no header"),
            },
            _ => panic!("no record"),
        };
        let listed = tree.listed.iter().map(|entry| Shown {
            object: entry.object,
            file_type: file_type(entry.page),
            path: String::from_utf8(entry.path.clone()).unwrap(),
        });
        let mut listed: Vec<Shown> = listed.collect();
        listed.sort();
        assert_eq!(listed, shown(&case), "{}", case.name);
    }
}
