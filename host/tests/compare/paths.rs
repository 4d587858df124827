//! Objects by their paths: what a person types, compared with the names of the second
//! reader's tree one by one.

use std::ffi::OsString;
use std::os::unix::ffi::OsStringExt;

use lohenarr::paths::Named;
use lohenarr::script::request;
use lohenarr::tree::Tree;

use crate::generator::case;
use crate::library;
use crate::second;
use crate::second::script::Request;
use crate::second::wrong::Wrong;

const DUMPS: u64 = 600;

/// The names of the steps of each listed object, in the order of the list.
fn names(tree: &second::tree::Tree) -> Vec<Vec<&[u8]>> {
    let mut names: Vec<Vec<&[u8]>> = Vec::new();
    for entry in &tree.listed {
        let above = entry
            .directory
            .map(|row| (&tree.listed[row].path, &names[row]));
        let (length, mut own) =
            above.map_or((0, Vec::new()), |(path, names)| (path.len(), names.clone()));
        own.push(&entry.path[length + 1..]);
        names.push(own);
    }
    names
}

/// The words of a path that was typed, and whether it asks for a directory; none where
/// one of them is no name.
fn words(typed: &[u8]) -> Option<(Vec<&[u8]>, bool)> {
    let inner = typed.strip_prefix(b"/")?;
    let whole = inner.strip_suffix(b"/");
    let words: Vec<&[u8]> = whole.unwrap_or(inner).split(|&byte| byte == b'/').collect();
    let is_name = |word: &&[u8]| ![&b""[..], b".", b".."].contains(word);
    words
        .iter()
        .all(is_name)
        .then_some((words, whole.is_some()))
}

/// Paths that a person might type: those of the tree, and some beside them.
fn typed(tree: &second::tree::Tree) -> Vec<Vec<u8>> {
    let mut typed: Vec<Vec<u8>> = ["/", "//", "/a", "/a/", "/a/a", "/.", "/../a", "/a//b"]
        .map(|path| path.as_bytes().to_vec())
        .to_vec();
    for entry in &tree.listed {
        let path = &entry.path;
        typed.push(path.clone());
        for more in [&b"/"[..], b"//", b"/a", b"a"] {
            typed.push([path, more].concat());
        }
        typed.push([b"/", &path[..]].concat());
        typed.extend(path.strip_suffix(b"g").map(<[u8]>::to_vec));
    }
    // a path that is typed begins with a slash, and has no zero byte
    typed.retain(|path| path.starts_with(b"/"));
    typed
}

#[test]
fn paths_name_what_their_words_do() {
    let mut counts = [0, 0, 0];
    for case in (0..DUMPS).map(case) {
        let reader = case.reader(Wrong::None);
        for request in &case.requests {
            let Request::Tree { on: past } = *request else {
                continue;
            };
            let Ok(tree) = reader.tree(past) else {
                continue;
            };
            let request::Request::Tree { on, before } = library::read(request) else {
                panic!("{request} is read as something else");
            };
            let ours = Tree::of(&case.dump.bytes, on, before).unwrap();
            let layout = past.layout.layout().unwrap();
            let is_directory = |page: usize| case.dump.bytes[page * layout.page()] == 3;
            let names = names(&tree);
            for typed in typed(&tree) {
                let expected = words(&typed).map_or(Vec::new(), |(words, directory)| {
                    let listed = tree.listed.iter().zip(&names);
                    let named = listed.filter(|(entry, names)| {
                        **names == words && (!directory || is_directory(entry.page))
                    });
                    named.map(|(entry, _)| entry.object).collect()
                });
                let Ok(Named::Path(path)) = Named::read(OsString::from_vec(typed.clone())) else {
                    panic!("{typed:?} is a path");
                };
                let place = format!("seed {}: {request}: {}", case.seed, typed.escape_ascii());
                let found = path.object(&ours);
                counts[expected.len().min(2)] += 1;
                match (&expected[..], found) {
                    ([object], found) => assert_eq!(found, Ok(*object), "{place}"),
                    (_, Ok(object)) => panic!("{place}: {object}"),
                    ([], Err([said, _])) => {
                        assert!(!said.contains("objects have the path"), "{place}")
                    }
                    (several, Err([said, _])) => {
                        let begin = format!("{} objects have the path ", several.len());
                        assert!(said.starts_with(&begin), "{place}: {said}");
                        for object in several {
                            assert!(said.contains(&object.to_string()), "{place}: {said}");
                        }
                    }
                }
            }
        }
    }
    println!("paths that name none, one, several: {counts:?}");
    assert!(counts.iter().all(|&count| count > DUMPS / 4), "{counts:?}");
}
