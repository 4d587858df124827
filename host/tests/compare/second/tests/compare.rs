//! Two dumps compared, by hand: every line as the document foresees it.

use crate::generator::build::Builder;
use crate::generator::pairs::pair;
use crate::generator::shelf::{shelf, without, BLOCK, LAYOUT};
use crate::second::compare::{compare, text, Side};
use crate::second::layout::{Layout, Named};
use crate::second::page::FIELDS;
use crate::second::refusal::Refusal;
use crate::second::wrong::Wrong;

/// Pages of 2048 bytes, four times as long as those of W.
const LONG: Layout = Layout {
    data: 2048,
    spare: 64,
    tag: 30,
};

/// A page: a header of type, parent, file size and shrink word, or a chunk with bytes.
enum Page<'b> {
    Header([u32; 4]),
    Data(u32, &'b [u8]),
}

use Page::{Data, Header};

/// A live file of some size.
fn file<'b>(size: u32) -> Page<'b> {
    Header([1, 1, size, 0])
}

/// A dump of these objects' pages, each newer than the one before, in blocks of one.
fn dump_of(layout: Layout, pages: &[(u32, Page<'_>)]) -> Vec<u8> {
    let mut dump = Builder::new(layout, pages.len());
    for (place, (id, page)) in pages.iter().enumerate() {
        let sequence = 0x1000 + place as u32;
        dump.data(place).fill(0);
        let tags = match page {
            Header(words) => {
                dump.header(place, *words);
                [sequence, words[0] << 28 | id, 0x8000_0001, 0]
            }
            Data(chunk, bytes) => {
                dump.data(place)[..bytes.len()].copy_from_slice(bytes);
                [sequence, *id, *chunk, bytes.len() as u32]
            }
        };
        dump.tags(place, tags);
    }
    dump.bytes
}

fn dump(pages: &[(u32, Page<'_>)]) -> Vec<u8> {
    dump_of(LAYOUT, pages)
}

fn side(dump: &[u8], layout: Layout, k: u64) -> Side<'_> {
    let layout = Some(layout.into());
    Side { dump, layout, k }
}

/// The lines of two dumps, with commas between them.
fn lines(sides: [Side<'_>; 2]) -> String {
    let text = text(&compare(sides, Wrong::None).unwrap());
    assert!(text.is_empty() || text.ends_with('\n'));
    text.trim_end().replace('\n', ",")
}

/// The lines of two dumps in blocks of one small page.
fn differences(first: &[u8], second: &[u8]) -> String {
    lines([first, second].map(|dump| side(dump, LAYOUT, 1)))
}

#[test]
fn nothing_is_said_where_nothing_differs() {
    let pages = [
        (5, file(700)),
        (5, Data(1, b"one")),
        (6, Header([3, 1, 0, 0])),
    ];
    let dump = dump(&pages);
    assert_eq!(differences(&dump, &dump), "");
}

/// Objects of one dump alone, whatever is there of them, and no other line.
#[test]
fn only() {
    let first = dump(&[(9, file(3)), (2, Header([1, 4, 0, 0])), (7, Data(1, b"x"))]);
    let second = dump(&[(9, file(3)), (8, Header([3, 1, 0, 0])), (1, Data(1, b"x"))]);
    let told = "object=1,only=2,object=2,only=1,object=7,only=1,object=8,only=2";
    assert_eq!(differences(&first, &second), told);
}

/// A page that is no record names no object.
#[test]
fn ids_are_of_records() {
    let first = dump(&[(9, file(3)), (8, Header([6, 1, 0, 0])), (7, Data(1, b""))]);
    let second = dump(&[(9, file(3))]);
    assert_eq!(differences(&first, &second), "");
}

/// The side that is deleted or without a header while the other is not.
#[test]
fn deleted_and_without_a_header() {
    let live = || file(0);
    let gone = |parent| Header([1, parent, 0, 0]);
    let bytes = || Data(1, b"x");
    let first = dump(&[
        (11, gone(3)),
        (12, live()),
        (13, gone(3)),
        (14, bytes()),
        (15, live()),
        (16, bytes()),
        (17, gone(4)),
        (18, bytes()),
    ]);
    let second = dump(&[
        (11, live()),
        (12, gone(4)),
        (13, gone(4)),
        (14, live()),
        (15, bytes()),
        (16, Data(1, b"other")),
        (17, bytes()),
        (18, gone(3)),
    ]);
    let told = "object=11,deleted=1,field=4,object=12,deleted=2,field=4,object=13,field=4,\
                object=14,noheader=1,object=15,noheader=2,object=17,deleted=1,noheader=2,\
                object=18,deleted=2,noheader=1";
    assert_eq!(differences(&first, &second), told);
}

/// Each field by itself, by its last byte: those that are left out make no difference.
#[test]
fn fields() {
    let named = "type parent name mode uid gid accessed modified created file_size equivalent_id \
                 alias rdev win_created win_accessed win_modified shadowed_id shrink";
    let mut told = 0;
    for (name, at, width, _) in FIELDS {
        let first = dump(&[(5, Header([3, 2, 0, 0]))]);
        let mut second = first.clone();
        match name {
            // the tags say the type too
            "type" => {
                second[0] = 5;
                second[516 + 3] = 0x50;
            }
            _ => second[at + width - 1] ^= 0x80,
        }
        let is_told = named.split_whitespace().any(|other| other == name);
        let expected = match is_told {
            true => format!("object=5,field={at}"),
            false => String::new(),
        };
        assert_eq!(differences(&first, &second), expected, "{name}");
        told += usize::from(is_told);
    }
    assert_eq!(told, 18);
    let left_out = [
        0x8, 0x9, 0x10A, 0x10B, 0x1E8, 0x1EF, 0x1F0, 0x1F3, 0x1F4, 0x1F7,
    ];
    let first = dump(&[(5, file(0))]);
    let mut second = first.clone();
    for at in left_out {
        second[at] = 7;
    }
    assert_eq!(differences(&first, &second), "");
}

/// Names whole, behind a zero byte too; ascending, and by the newest header.
#[test]
fn fields_are_those_of_the_newest_headers() {
    let mut first = dump(&[(5, file(0)), (5, file(0))]);
    let mut second = first.clone();
    second[0x10C] = 1;
    assert_eq!(differences(&first, &second), "", "an older header");
    let newest = LAYOUT.page();
    for at in [0x1FC, 0x109, 0x118] {
        second[newest + at] = 1;
    }
    let told = "object=5,field=10,field=280,field=508";
    assert_eq!(differences(&first, &second), told);
    // both deleted
    for dump in [&mut first, &mut second] {
        dump[newest + 4] = 4;
    }
    assert_eq!(differences(&first, &second), told);
}

/// Sizes where they differ, first dump's first, and bytes up to the smaller one.
#[test]
fn sizes_and_stretches() {
    let bytes = [7; 512];
    let mut other = bytes;
    other[300] = 8;
    let three = |size, middle| {
        dump(&[
            (5, file(size)),
            (5, Data(1, &bytes)),
            (5, Data(2, middle)),
            (5, Data(3, &bytes[..100])),
        ])
    };
    let whole = three(0, &bytes);
    assert_eq!(differences(&whole, &three(0, &other)), "object=5,stretch=1");
    let longer = three(2000, &other);
    let told = "object=5,field=292,size=1124,size=2000,stretch=1";
    assert_eq!(differences(&whole, &longer), told);
    let told = "object=5,field=292,size=2000,size=1124,stretch=1";
    assert_eq!(differences(&longer, &whole), told);
    // what differs at byte 812 is cut off
    let cut =
        |size, middle: &[u8]| dump(&[(5, Data(1, &bytes)), (5, Data(2, middle)), (5, file(size))]);
    for (size, told) in [
        (812, "object=5,field=292,size=1124,size=812"),
        (813, "object=5,field=292,size=1124,size=813,stretch=1"),
        (512, "object=5,field=292,size=1124,size=512"),
        (0, "object=5,size=1124,size=0"),
    ] {
        assert_eq!(differences(&whole, &cut(size, &other)), told, "{size}");
    }
}

/// A hole is as zeros; a copy is shown up to its byte count.
#[test]
fn holes_are_zeros() {
    let zeros = dump(&[(5, Data(1, &[0; 512])), (5, file(1024))]);
    let hole = dump(&[(5, file(1024))]);
    assert_eq!(differences(&zeros, &hole), "");
    let mut noise = dump(&[(5, Data(2, b"\0\0")), (5, file(1024))]);
    noise[10..512].fill(9);
    assert_eq!(differences(&noise, &hole), "");
    let end = dump(&[(5, Data(2, b"\0\x01")), (5, file(1024))]);
    assert_eq!(differences(&hole, &end), "object=5,stretch=1");
    assert_eq!(differences(&end, &hole), "object=5,stretch=1");
}

/// Only live files on both sides have sizes and bytes.
#[test]
fn what_is_no_live_file_has_no_bytes() {
    for (first, second, told) in [
        ([3, 1], [3, 1], "object=5,field=292"),
        ([1, 4], [1, 4], "object=5,field=292"),
        ([1, 1], [3, 1], "object=5,field=0,field=292"),
        ([1, 1], [1, 3], "object=5,deleted=2,field=4,field=292"),
        (
            [1, 1],
            [1, 2],
            "object=5,field=4,field=292,size=600,size=700,stretch=0",
        ),
    ] {
        let one = |words: [u32; 2], size, bytes| {
            let header = Header([words[0], words[1], size, 0]);
            dump(&[(5, header), (5, Data(1, bytes))])
        };
        let (one, other) = (one(first, 600, b"one"), one(second, 700, b"two"));
        assert_eq!(differences(&one, &other), told);
    }
}

/// The same file in pages of another size, then with a byte changed.
#[test]
fn each_dump_has_its_own_layout() {
    let mut bytes: Vec<u8> = (0..5000u32).map(|i| (i % 251) as u8).collect();
    let laid = |layout: Layout, bytes: &[u8]| {
        let chunks = (1..).zip(bytes.chunks(layout.data));
        let pages = chunks.map(|(n, bytes)| (5, Data(n, bytes)));
        let pages: Vec<_> = [(5, file(0))].into_iter().chain(pages).collect();
        dump_of(layout, &pages)
    };
    let small = laid(LAYOUT, &bytes);
    let compared = |long: &[u8]| lines([side(&small, LAYOUT, 1), side(long, LONG, 2)]);
    assert_eq!(compared(&laid(LONG, &bytes)), "");
    for at in [0, 2047, 2048, 4999] {
        bytes[at] ^= 1;
    }
    let told = "object=5,stretch=0,stretch=3,stretch=4,stretch=9";
    assert_eq!(compared(&laid(LONG, &bytes)), told);
}

/// Sizes of 4 GiB and more with few copies.
#[test]
fn sizes_that_are_claimed() {
    let last = [(5, file(u32::MAX)), (5, Data(0xF_FFFF, b"end"))];
    let first = dump(&last);
    let second = dump_of(LONG, &last);
    let sides = [side(&first, LAYOUT, 1), side(&second, LONG, 1)];
    // the one's last chunk begins at 512 x 0xFFFFE, the other's at 2048 x 0xFFFFE
    assert_eq!(lines(sides), "object=5,stretch=1048574,stretch=4194296");
    let longer = dump_of(LONG, &[(5, file(0)), (5, Data(0xF_FFFF, &[1; 2048]))]);
    let wide = Layout {
        data: 8192,
        spare: 224,
        tag: 2,
    };
    let longest = dump_of(wide, &[(5, file(0)), (5, Data(0xF_FFFF, b"end"))]);
    let sides = [side(&longer, LONG, 1), side(&longest, wide, 1)];
    let told = "object=5,size=2147481600,size=8589918211,\
                stretch=4194296,stretch=4194297,stretch=4194298,stretch=4194299";
    assert_eq!(lines(sides), told);
}

/// W beside W without some of its pages.
#[test]
fn the_shelf_dump() {
    let w = shelf().bytes;
    let compared = |pages: &[usize]| {
        let other = without(pages).bytes;
        lines([&w, &other].map(|dump| side(dump, LAYOUT, BLOCK)))
    };
    assert_eq!(compared(&[]), "");
    assert_eq!(compared(&[7]), "");
    assert_eq!(compared(&[0, 1, 2, 3]), "");
    assert_eq!(compared(&[5]), "", "page 1 holds the same bytes");
    assert_eq!(compared(&[5, 6]), "object=257,size=1034,size=300");
    assert_eq!(compared(&[6]), "object=257,size=1034,size=300");
    // nothing cuts chunk 2 any more
    let uncut = "object=257,field=292,field=508,stretch=1";
    assert_eq!(compared(&[4]), uncut);
    assert_eq!(compared(&[1, 5]), "object=257,stretch=0");
    assert_eq!(compared(&[0, 3, 4]), "object=257,noheader=2");
    assert_eq!(compared(&[0, 1, 2, 3, 4, 5, 6]), "object=257,only=1");
}

/// BadLayout of either comes before BadLength of either, and that before NoLayout.
#[test]
fn refusals_go_by_the_table() {
    let w = shelf().bytes;
    let good = side(&w, LAYOUT, BLOCK);
    let bad_layout = Side {
        layout: Some(Named::Number(13)),
        ..good
    };
    let bad_block = Side { k: 257, ..good };
    let bad_length = Side { k: 3, ..good };
    let empty = Side { dump: &[], ..good };
    let blank = vec![0xFF; w.len()];
    let no_layout = Side {
        dump: &blank,
        layout: None,
        ..good
    };
    let found = Side {
        layout: None,
        ..good
    };
    let numbered = [
        (good, 0),
        (found, 0),
        (bad_layout, 1),
        (bad_block, 1),
        (bad_length, 2),
        (empty, 2),
        (no_layout, 3),
    ];
    for (first, one) in numbered {
        for (second, other) in numbered {
            let refused = compare([first, second], Wrong::None).err();
            let number = refused.map_or(0, |refusal: Refusal| refusal as u8);
            let expected = match (one, other) {
                (0, number) | (number, 0) => number,
                (one, other) => one.min(other),
            };
            assert_eq!(number, expected, "{one} {other}");
        }
    }
}

/// The other way round each line is that of the other side, and a dump never differs
/// from itself.
#[test]
fn sides_are_alike() {
    let mut found = 0;
    for pair in (0..1000).map(pair) {
        let [first, second] = pair.sides();
        let there = compare([first, second], Wrong::None);
        let back = compare([second, first], Wrong::None);
        let (Ok(there), Ok(back)) = (&there, &back) else {
            assert_eq!(there, back, "seed {}", pair.seed);
            continue;
        };
        let turned = there.iter().map(|found| {
            let mut turned = found.clone();
            let differences = &mut turned.differences;
            differences.sizes.reverse();
            let sides = differences.deleted.iter_mut();
            let sides = sides.chain(&mut differences.headerless);
            for side in sides.chain(&mut differences.only) {
                *side = 3 - *side;
            }
            turned
        });
        assert_eq!(&turned.collect::<Vec<_>>(), back, "seed {}", pair.seed);
        let itself = compare([first, first], Wrong::None);
        assert_eq!(itself, Ok(Vec::new()), "seed {}", pair.seed);
        found += there.len();
    }
    assert!(found > 300, "too few differences: {found}");
}
