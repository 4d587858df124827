//! Requests as script lines, and the longer answer lines.

use crate::generator::shelf::{shelf, BLOCK, LAYOUT};
use crate::second::index::{Lent, Over, Reader};
use crate::second::layout::Named;
use crate::second::page::FIELDS;
use crate::second::script::{answer, index_words, Request};
use crate::second::why::Past;
use crate::second::wrong::Wrong;

const LENT: Lent = Lent {
    layout: Named::Number(6),
    k: BLOCK,
    words: 48,
};

#[test]
fn requests_as_lines() {
    let (layout, k) = (Named::from(LAYOUT), BLOCK);
    let (object, n, page, buffer) = (257, 1, 3, 512);
    let (dump, index, lent) = (Over::Dump(layout, k), Over::Index(LENT), LENT);
    let read = |over| Request::Read {
        over,
        object,
        n,
        buffer,
    };
    let on = |before| Past { layout, k, before };
    let lines = [
        (Request::Find { k }, "find 4"),
        (
            Request::Why {
                on: on(None),
                object,
                position: 400,
            },
            "dwhy 512/16/0 4 257 400",
        ),
        (
            Request::Spans {
                on: on(Some(3)),
                object,
            },
            "dspans 512/16/0 4 257 before=3",
        ),
        (
            Request::Stands {
                on: on(None),
                object,
            },
            "dstands 512/16/0 4 257",
        ),
        (
            Request::History {
                on: on(Some(8)),
                object,
            },
            "dhistory 512/16/0 4 257 before=8",
        ),
        (Request::Counts { layout, k }, "counts 512/16/0 4"),
        (Request::Kind { layout, k, page }, "kind 512/16/0 4 3"),
        (Request::Start { lent, seed: 0 }, "start 6 4 48"),
        (Request::Start { lent, seed: 16 }, "start 6 4 48 seed=0x10"),
        (
            Request::Older {
                lent,
                from: 0,
                to: 8,
                before: 4,
            },
            "older 0 8 4 k=4 words=48 layout=6",
        ),
        (
            Request::Copies {
                lent,
                object,
                buffer: 8,
            },
            "copies 257 8 k=4 words=48 layout=6",
        ),
        (Request::Copy { row: 16 }, "copy 0x10"),
        (
            Request::Records {
                lent,
                object,
                buffer: 7,
            },
            "records 257 7 k=4 words=48 layout=6",
        ),
        (Request::Add { lent, page }, "add 3 k=4 words=48 layout=6"),
        (Request::Size { over: dump, object }, "dsize 512/16/0 4 257"),
        (read(dump), "dread 512/16/0 4 257 1 512"),
        (read(index), "read 257 1 512 k=4 words=48 layout=6"),
        (
            Request::List {
                over: index,
                buffer: 2,
            },
            "list 2 k=4 words=48 layout=6",
        ),
        (Request::Objects { over: dump }, "dobjects 512/16/0 4"),
        (
            Request::Objects { over: index },
            "objects k=4 words=48 layout=6",
        ),
        (
            Request::Table {
                lent,
                object,
                buffer: 6,
            },
            "table 257 6 k=4 words=48 layout=6",
        ),
        (
            Request::Row {
                layout,
                place: 8,
                valid: 10,
            },
            "row 512/16/0 8 10",
        ),
        (Request::Fill { word: 255 }, "fill 0xff"),
        (Request::Poke { at: 17, word: 1 }, "poke 17 0x1"),
    ];
    for (request, line) in &lines {
        assert_eq!(&request.to_string(), line);
    }
    assert_eq!(index_words(&lines.map(|(request, _)| request)), 48);
}

#[test]
fn whole_dump_answers() {
    let w = shelf();
    let mut reader = Reader::new(&w.bytes, Wrong::None);
    let mut ask = |request: Request| answer(&mut reader, &request).line;
    let (layout, k) = (LENT.layout, BLOCK);
    let counts = "blank=1 foreign=0 damaged=0 headers=3 data=4";
    assert_eq!(ask(Request::Counts { layout, k }), counts);
    assert_eq!(ask(Request::Pages { layout, k }), "pages=8");
    assert_eq!(ask(Request::Find { k }), "layout=512/16/0");
    let page = 1;
    assert_eq!(
        ask(Request::Header { layout, k, page }),
        "refusal=16 visits=0"
    );
    let header = ask(Request::Header { layout, k, page: 4 });
    let fields: Vec<&str> = header.split(' ').collect();
    assert_eq!(fields.len(), 24);
    assert_eq!(fields[..3], ["type=1", "parent=1", "unused1=65535"]);
    assert_eq!(fields[3], format!("name={}", "ff".repeat(256)));
    assert_eq!(fields[11], "file_size=300");
    assert_eq!(fields[15], "win_created=18446744073709551615");
    assert_eq!(fields[13], format!("alias={}", "ff".repeat(160)));
    assert_eq!(
        fields[20..22],
        ["size_high=4294967295", "reserved=ffffffff"]
    );
    assert_eq!(fields[23], "shrink=1");
}

#[test]
fn the_fields_are_all_of_a_header() {
    let end = FIELDS.iter().fold(0, |end, &(name, at, width, _)| {
        assert_eq!(at, end, "{name}");
        at + width
    });
    assert_eq!(end, 512);
}

#[test]
fn parts_are_places_in_the_dump() {
    let w = shelf();
    let mut reader = Reader::new(&w.bytes, Wrong::None);
    let over = Over::Dump(LENT.layout, BLOCK);
    let mut part = |object, n| answer(&mut reader, &Request::Part { over, object, n }).line;
    assert!(part(257, 3).starts_with("part=3168+10/"));
    for (object, n) in [(257, 2), (257, 4), (258, 1), (0, 0)] {
        assert_eq!(part(object, n), "part=empty");
    }
}

/// Cells that no start made say what their words say.
#[test]
fn cells_of_no_start() {
    let w = shelf();
    let mut reader = Reader::lent(&w.bytes, LENT.words, Wrong::None);
    let mut ask = |request: Request| answer(&mut reader, &request).line;
    let over = Over::Index(LENT);
    let size = |object| Request::Size { over, object };
    let list = Request::List { over, buffer: 1 };
    assert_eq!(ask(size(257)), "refusal=6 visits=0");
    assert_eq!(ask(size(0)), "refusal=4 visits=0");
    assert_eq!(ask(list), "refusal=13 visits=0");
    ask(Request::Fill { word: 0 });
    assert_eq!(ask(list), "ids= words=1");
    // slot 5 of 12: key 257, first page 6; its link leads to page 5, and that of 5 to itself
    for (at, word) in [(30, 257), (31, 8), (40, 7), (36, 7)] {
        ask(Request::Poke { at, word });
    }
    let chunk = |n| Request::Chunk {
        over,
        object: 257,
        n,
    };
    assert_eq!(ask(chunk(3)), "refusal=13 visits=0");
    ask(Request::Poke { at: 36, word: 6 });
    assert_eq!(ask(chunk(3)), "page=6 valid=10 shown=10 visits=3");
    assert_eq!(ask(chunk(2)), "hole valid=0 shown=512 visits=3");
    assert_eq!(ask(list), "ids=257 words=1");
    let add = |page| Request::Add { lent: LENT, page };
    assert_eq!(ask(add(4)), "refusal=15 visits=0");
    ask(Request::Poke { at: 40, word: 6 });
    ask(Request::Poke { at: 36, word: 0 });
    assert_eq!(ask(add(5)), "done");
    assert_eq!(ask(chunk(1)), "page=5 valid=300 shown=512 visits=3");
}
