//! The tree by hand, and against the list of live objects.

use crate::generator::build::Builder;
use crate::generator::case;
use crate::generator::shelf::LAYOUT;
use crate::second::index::{Over, Reader};
use crate::second::script::Request;
use crate::second::why::Past;
use crate::second::wrong::Wrong;

const DUMPS: u64 = 400;

/// Id, type, parent and name of a header.
type Header<'n> = (u32, u32, u32, &'n [u8]);

/// A dump of these headers, each on a page and newer than the one before.
fn dump(headers: &[Header<'_>]) -> Vec<u8> {
    let mut dump = Builder::new(LAYOUT, headers.len());
    for (page, &(id, file_type, parent, name)) in headers.iter().enumerate() {
        dump.data(page).fill(0);
        dump.data(page)[0xA..][..name.len()].copy_from_slice(name);
        dump.header(page, [file_type, parent, 0, 0]);
        let sequence = 0x1000 + page as u32;
        dump.tags(page, [sequence, file_type << 28 | id, 0x8000_0001, 0]);
    }
    dump.bytes
}

fn text_before(dump: &[u8], before: Option<u64>) -> String {
    let on = Past {
        layout: LAYOUT.into(),
        k: 1,
        before,
    };
    let tree = Reader::new(dump, Wrong::None).tree(on);
    String::from_utf8(tree.unwrap().text()).unwrap()
}

/// The lines of the tree of these headers, with commas between them.
fn tree(headers: &[Header<'_>]) -> String {
    let text = text_before(&dump(headers), None);
    text.trim_end().replace('\n', ",")
}

#[test]
fn entries_follow_their_directory() {
    let headers: [Header<'_>; 5] = [
        (300, 1, 1, b"z"),
        (260, 1, 257, b"late"),
        (258, 1, 1, b"b"),
        (257, 3, 1, b"a"),
        (259, 3, 257, b"empty"),
    ];
    let listed = "object=257,path=/a,object=259,path=/a/empty,object=260,path=/a/late,\
                  object=258,path=/b,object=300,path=/z";
    assert_eq!(tree(&headers), listed);
}

#[test]
fn names_are_shown_as_they_are() {
    let long = [b'n'; 256];
    let headers: [Header<'_>; 5] = [
        (5, 3, 1, b"a/b"),
        (6, 3, 5, b".."),
        (7, 3, 6, b""),
        (8, 1, 7, b"end\0more"),
        (9, 1, 1, &long),
    ];
    let long = "n".repeat(256);
    let listed = format!(
        "object=5,path=/a/b,object=6,path=/a/b/..,object=7,path=/a/b/../,\
         object=8,path=/a/b/..//end,object=9,path=/{long}"
    );
    assert_eq!(tree(&headers), listed);
}

/// Each reason, and what comes first where two would do.
#[test]
fn where_parents_stop() {
    let headers: [Header<'_>; 12] = [
        (5, 1, 5, b"a file that is its own parent"),
        (6, 3, 7, b"loop"),
        (7, 3, 6, b"loop"),
        (8, 1, 7, b"into a loop"),
        (9, 1, 0, b"no id"),
        (10, 1, 0x1000_0001, b"no id"),
        (11, 1, 99, b"no header"),
        (12, 1, 4, b"deleted"),
        (13, 1, 12, b"in a deleted file"),
        (14, 1, 1, b"file"),
        (15, 3, 14, b"in a file"),
        (16, 1, 15, b"further down"),
    ];
    let lists = "object=14,path=/file,object=5,reason=loop,object=6,reason=loop,\
                 object=7,reason=loop,object=8,reason=loop,object=9,reason=missing,\
                 object=10,reason=missing,object=11,reason=missing,object=13,reason=deleted,\
                 object=15,reason=non-directory,object=16,reason=non-directory";
    assert_eq!(tree(&headers), lists);
}

/// A file is on a loop that for its directories ends there.
#[test]
fn a_loop_through_a_file() {
    let headers: [Header<'_>; 3] = [
        (5, 1, 6, b"file"),
        (6, 3, 7, b"in"),
        (7, 3, 5, b"in a file"),
    ];
    let reasons = "object=5,reason=loop,object=6,reason=non-directory,\
                   object=7,reason=non-directory";
    assert_eq!(tree(&headers), reasons);
}

/// Object 1 is the root as a deleted file, and as the entry of its own entry.
#[test]
fn the_root_stands_whatever_its_header_says() {
    for (file_type, parent) in [(3, 1), (1, 4), (2, 3), (3, 5), (5, 0)] {
        let headers: [Header<'_>; 2] = [(5, 3, 1, b"a"), (1, file_type, parent, b"root")];
        assert_eq!(tree(&headers), "object=5,path=/a");
    }
}

#[test]
fn depth_32_is_the_last() {
    let chain: Vec<Header<'_>> = (0..34)
        .map(|at| (100 + at, 3, if at == 0 { 1 } else { 99 + at }, &b"d"[..]))
        .collect();
    let text = tree(&chain);
    let last = format!("object=131,path={},", "/d".repeat(32));
    assert!(text.contains(&last), "{text}");
    assert!(
        text.ends_with(",object=132,reason=too deep,object=133,reason=too deep"),
        "{text}"
    );
}

/// The newest header decides, and before it was written the one below.
#[test]
fn what_was_moved_stood_elsewhere_before() {
    let headers: [Header<'_>; 4] = [
        (5, 3, 1, b"old"),
        (6, 1, 1, b"log"),
        (6, 1, 5, b"log.1"),
        (6, 1, 3, b"unlinked"),
    ];
    let dump = dump(&headers);
    let at = |before| text_before(&dump, before);
    assert_eq!(at(None), "object=5\npath=/old\n");
    assert_eq!(
        at(Some(3)),
        "object=5\npath=/old\nobject=6\npath=/old/log.1\n"
    );
    assert_eq!(at(Some(2)), "object=5\npath=/old\nobject=6\npath=/log\n");
    assert_eq!(at(Some(0)), "");
}

/// Every live object but 1 is in one list; an entry's path goes on from that of its
/// directory, which stands before it.
#[test]
fn every_live_object_is_in_one_list() {
    let (mut listed, mut others) = (0, 0);
    for case in (0..DUMPS).map(case) {
        let reader = case.reader(Wrong::None);
        for request in &case.requests {
            let Request::Tree { on } = *request else {
                continue;
            };
            let (Ok(tree), None) = (reader.tree(on), on.before) else {
                continue;
            };
            let place = format!("seed {}: {request}", case.seed);
            let mut ids: Vec<u32> = tree.listed.iter().map(|entry| entry.object).collect();
            ids.extend(tree.others.iter().map(|other| other.object));
            ids.sort_unstable();
            let over = Over::Dump(on.layout, on.k);
            let mut live = reader.list(over, &mut vec![0; tree.headers]).unwrap();
            live.retain(|&id| id != 1);
            assert_eq!(ids, live, "{place}");
            for (row, entry) in tree.listed.iter().enumerate() {
                let above = entry.directory.map(|above| {
                    assert!(above < row, "{place}");
                    &tree.listed[above].path[..]
                });
                let begin = [above.unwrap_or_default(), b"/"].concat();
                assert!(entry.path.starts_with(&begin), "{place}");
            }
            listed += tree.listed.len() as u64;
            others += tree.others.len() as u64;
        }
    }
    println!("{listed} listed, {others} not");
    assert!(listed.min(others) > DUMPS, "too few objects");
}
