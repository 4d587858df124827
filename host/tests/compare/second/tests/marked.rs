//! The twelve marked cases on the shelf dump W, and its report.

use crate::generator::build::Builder;
use crate::generator::shelf::{data, header, shelf, without, BLOCK, LAYOUT, OBJECT};
use crate::second::cells::need;
use crate::second::index::{Lent, Over, Reader};
use crate::second::layout::Named;
use crate::second::report::{report, report_of_input};
use crate::second::script::{answer, Request};
use crate::second::why::Past;
use crate::second::wrong::Wrong;

fn named() -> Named {
    Named::from(LAYOUT)
}

fn over() -> Over {
    Over::Dump(named(), BLOCK)
}

/// The answer line to one request on a dump.
fn line(w: &Builder, request: Request) -> String {
    answer(&mut Reader::new(&w.bytes, Wrong::None), &request).line
}

fn chunk(w: &Builder, n: u64) -> String {
    let (over, object) = (over(), OBJECT);
    line(w, Request::Chunk { over, object, n })
}

fn size(w: &Builder, object: u64) -> String {
    line(
        w,
        Request::Size {
            over: over(),
            object,
        },
    )
}

fn kind(w: &Builder, page: u64) -> String {
    let (layout, k) = (named(), BLOCK);
    line(w, Request::Kind { layout, k, page })
}

#[test]
fn cases_1_to_5_and_12() {
    let w = shelf();
    assert_eq!(size(&w, OBJECT), "size=1034 visits=3");
    assert_eq!(chunk(&w, 1), "page=5 valid=300 shown=512 visits=3");
    assert_eq!(chunk(&w, 2), "hole valid=0 shown=512 visits=7");
    assert_eq!(chunk(&w, 3), "page=6 valid=10 shown=10 visits=3");
    assert_eq!(chunk(&w, 4), "refusal=10 visits=3");
    assert_eq!(size(&w, 258), "refusal=6 visits=0");
}

#[test]
fn cases_6_and_7() {
    let w = without(&[5]);
    assert_eq!(chunk(&w, 1), "page=1 valid=300 shown=512 visits=5");
    let w = without(&[5, 6]);
    assert_eq!(size(&w, OBJECT), "size=300 visits=1");
    assert_eq!(chunk(&w, 2), "refusal=10 visits=1");
}

#[test]
fn cases_8_to_11() {
    let mut w = shelf();
    let header = "header sequence=4097 object=257 type=1 parent=1 size=0 shrink=0";
    w.tags(0, [4097, 0x1000_0101, 0x8000_0001, 0]);
    assert_eq!(kind(&w, 0), header);
    w.tags(0, [4097, 0x0000_0101, 0, 0]);
    assert_eq!(kind(&w, 0), header);
    data(&mut w, 1, 4097, 1, 512);
    assert_eq!(
        kind(&w, 1),
        "data sequence=4097 object=257 chunk=1 count=512"
    );
    data(&mut w, 1, 4097, 1, 513);
    assert_eq!(kind(&w, 1), "damaged");
    data(&mut w, 1, 0xEFFF_FF00, 1, 512);
    assert!(kind(&w, 1).starts_with("data sequence=4026531584 "));
    data(&mut w, 1, 0xEFFF_FF01, 1, 512);
    assert_eq!(kind(&w, 1), "foreign");
}

/// The same cases on an index, pages 5 and 6 added last.
#[test]
fn cases_on_an_index() {
    let w = shelf();
    let (layout, k, words) = (named(), BLOCK, need(8) as u64);
    let mut reader = Reader::lent(&w.bytes, words, Wrong::None);
    let lent = Lent { layout, k, words };
    let (over, object) = (Over::Index(lent), OBJECT);
    let mut ask = |request: Request| answer(&mut reader, &request).line;
    assert_eq!(ask(Request::Start { lent, seed: 0 }), "done");
    for page in [7, 3, 0, 4, 2, 1] {
        assert_eq!(ask(Request::Add { lent, page }), "done");
        assert_eq!(ask(Request::Add { lent, page }), "refusal=15 visits=0");
    }
    assert_eq!(ask(Request::Size { over, object }), "size=300 visits=1");
    ask(Request::Add { lent, page: 6 });
    let one = Request::Chunk { over, object, n: 1 };
    assert_eq!(ask(one), "page=1 valid=300 shown=512 visits=5");
    ask(Request::Add { lent, page: 5 });
    assert_eq!(ask(one), "page=5 valid=300 shown=512 visits=3");
    assert_eq!(ask(Request::List { over, buffer: 2 }), "ids=257 words=2");
    let short = Request::List { over, buffer: 0 };
    assert_eq!(ask(short), "refusal=11 visits=0 need=1");
    let copies = |buffer| Request::Copies {
        lent,
        object,
        buffer,
    };
    // page 1 is met too, below the newer copy of its chunk, and page 2 is hidden
    assert_eq!(ask(copies(5)), "refusal=11 visits=0 need=6");
    let shown = "size=1034 copies=1:5:300,3:6:10 damaged=0 rows=7";
    assert_eq!(ask(copies(7)), shown);
    let records = |buffer| Request::Records {
        lent,
        object,
        buffer,
    };
    assert_eq!(ask(records(6)), "refusal=11 visits=0 need=7");
    assert_eq!(ask(records(7)), "records=6,5,4,3,2,1,0 words=7");
}

/// An index of the records that are older than one.
#[test]
fn records_older_than_one() {
    let w = shelf();
    let (layout, k, words) = (named(), BLOCK, need(8) as u64);
    let mut reader = Reader::lent(&w.bytes, words, Wrong::None);
    let lent = Lent { layout, k, words };
    let (over, object) = (Over::Index(lent), OBJECT);
    let mut ask = |request: Request| answer(&mut reader, &request).line;
    let older = |before| Request::Older {
        lent,
        from: 0,
        to: 8,
        before,
    };
    assert_eq!(ask(Request::Start { lent, seed: 7 }), "done");
    assert_eq!(ask(older(8)), "refusal=14 visits=0 page=0");
    assert_eq!(ask(older(7)), "done", "nothing is older than a blank page");
    assert_eq!(ask(Request::Size { over, object }), "refusal=6 visits=0");
    assert_eq!(ask(older(4)), "done");
    assert_eq!(ask(Request::Size { over, object }), "size=612 visits=1");
    assert_eq!(ask(older(5)), "refusal=15 visits=0 page=0");
    assert_eq!(ask(Request::Objects { over }), "objects=1");
}

/// W, or W as it stood before a page was written.
fn past(before: Option<u64>) -> Past {
    let (layout, k) = (named(), BLOCK);
    Past { layout, k, before }
}

/// Every byte of W's file, and what is behind it.
#[test]
fn why_of_w() {
    let mut w = shelf();
    w.data(6)[..10].copy_from_slice(b"0123456789");
    let why = |before, object, position| {
        let on = past(before);
        let request = Request::Why {
            on,
            object,
            position,
        };
        answer(&mut Reader::new(&w.bytes, Wrong::None), &request)
    };
    let most = u64::MAX;
    let end = format!("reason=past end page=6 until={most}");
    let lines = [
        (0, "reason=held page=5 byte=0 until=300"),
        (299, "reason=held page=5 byte=299 until=300"),
        (300, "reason=count page=5 until=512"),
        (511, "reason=count page=5 until=512"),
        (512, "reason=cut page=4 until=1024"),
        (1023, "reason=cut page=4 until=1024"),
        (1024, "reason=held page=6 byte=0 until=1034"),
        (1033, "reason=held page=6 byte=9 until=1034"),
        (1034, &end),
        (1 << 32, &end),
        (most, &end),
    ];
    for (position, line) in lines {
        assert_eq!(why(None, OBJECT, position).line, line, "{position}");
    }
    let values = [(0, 0xFF), (300, 0), (512, 0), (1024, b'0'), (1033, b'9')];
    for (position, value) in values.into_iter().chain([(1034, 0), (most, 0)]) {
        assert_eq!(why(None, OBJECT, position).bytes, [value], "{position}");
    }
    // before page 6 both the newest header and page 5 end the file at 300
    let past_lines = [
        (1, 0, format!("reason=past end page=0 until={most}")),
        (3, 611, "reason=held page=2 byte=99 until=612".to_string()),
        (3, 612, format!("reason=past end page=2 until={most}")),
        (4, 612, format!("reason=past end page=3 until={most}")),
        (5, 299, "reason=held page=1 byte=299 until=300".to_string()),
        (5, 300, format!("reason=past end page=4 until={most}")),
        (6, 300, format!("reason=past end page=5 until={most}")),
    ];
    for (before, position, line) in past_lines {
        let answered = why(Some(before), OBJECT, position);
        assert_eq!(answered.line, line, "{position} before {before}");
    }
    let refused = [
        (None, 258, "refusal=6"),
        (None, 0, "refusal=4"),
        (Some(0), OBJECT, "refusal=6"),
        (Some(7), OBJECT, "refusal=6"),
        (Some(7), 0, "refusal=4"),
        (Some(8), 0, "refusal=14"),
    ];
    for (before, object, line) in refused {
        assert_eq!(why(before, object, 0).line, line);
    }
}

/// The runs of W's file, now and before.
#[test]
fn spans_of_w() {
    let w = shelf();
    let spans = |before, object| {
        let on = past(before);
        line(&w, Request::Spans { on, object })
    };
    let now = "size=1034 spans=0:held:5,300:count:5,512:cut:4,1024:held:6";
    assert_eq!(spans(None, OBJECT), now);
    let older = "size=612 spans=0:held:1,512:held:2";
    assert_eq!(spans(Some(4), OBJECT), older);
    assert_eq!(spans(Some(1), OBJECT), "size=0 spans=");
    assert_eq!(spans(None, 258), "refusal=6");
}

/// A header that claims 4 GiB: a hole of many chunks is one run, also where
/// chunks have no numbers any more. What a header cuts over several chunks is one
/// run, and a newer header that cuts higher up begins another.
#[test]
fn long_runs() {
    let mut w = Builder::new(LAYOUT, 8);
    data(&mut w, 0, 4097, 1, 512);
    data(&mut w, 1, 4097, 2, 512);
    data(&mut w, 2, 4097, 4, 100);
    header(&mut w, 3, 4097, 200, 1);
    header(&mut w, 4, 4097, 700, 1);
    header(&mut w, 5, 4097, u32::MAX, 0);
    let on = past(None);
    let object = OBJECT;
    let runs = "0:held:0,200:cut:3,700:cut:4,1024:no copy,1536:cut:4,2048:no copy";
    let size = u32::MAX;
    let spans = Request::Spans { on, object };
    assert_eq!(line(&w, spans), format!("size={size} spans={runs}"));
    let why = |position| {
        let request = Request::Why {
            on,
            object,
            position,
        };
        line(&w, request)
    };
    assert_eq!(why(1 << 29), format!("reason=no copy until={size}"));
    assert_eq!(why(600), "reason=cut page=3 until=700");
    let past = format!("reason=past end page=5 until={}", u64::MAX);
    assert_eq!(why(size.into()), past);
}

/// K decides the refusals of its own call and nothing else.
#[test]
fn k_of_each_call() {
    let w = shelf();
    let size = |k| {
        let over = Over::Dump(named(), k);
        line(
            &w,
            Request::Size {
                over,
                object: OBJECT,
            },
        )
    };
    for k in [1, 2, 4, 8] {
        assert_eq!(size(k), "size=1034 visits=3");
    }
    assert_eq!(size(3), "refusal=2 visits=0");
    assert_eq!(size(0), "refusal=1 visits=0");
}

/// A read fills to the shown length and leaves the rest of the buffer.
#[test]
fn reads() {
    let mut w = shelf();
    w.data(6)[..10].copy_from_slice(b"0123456789");
    let mut reader = Reader::new(&w.bytes, Wrong::None);
    let (over, object) = (over(), OBJECT);
    let mut read = |n, buffer| {
        let request = Request::Read {
            over,
            object,
            n,
            buffer,
        };
        answer(&mut reader, &request)
    };
    let third = read(3, 12);
    assert_eq!(third.bytes, b"0123456789\xA5\xA5");
    let place = "page=6 valid=10 shown=10 visits=3 buffer=12/";
    assert!(third.line.starts_with(place));
    let short = read(3, 9);
    assert_eq!(short.line, "refusal=11 visits=3 need=10");
    assert_eq!(short.bytes, [0xA5; 9]);
    let first = read(1, 513);
    assert_eq!(first.bytes[..300], [0xFF; 300]);
    assert_eq!(first.bytes[300..512], [0; 212]);
    assert_eq!(first.bytes[512], 0xA5);
    assert_eq!(read(2, 511).line, "refusal=11 visits=7 need=512");
    assert_eq!(read(4, 0).line, "refusal=10 visits=3");
}

#[test]
fn report_of_w() {
    let lines = "layout=512/16/0\nblock=4\npages=8\nblank=1\nforeign=0\n\
                 damaged=0\nheaders=3\ndata=4\nobjects=1\nlive=1\n";
    let w = shelf().bytes;
    assert_eq!(report_of_input(&w), lines);
    assert_eq!(report(&w, 257), "refusal=1\n");
    assert_eq!(report_of_input(&[]), "refusal=2\n");
    assert_eq!(report_of_input(&vec![0xFF; 65_537]), "refusal=2\n");
    assert_eq!(report_of_input(&vec![0xFF; 65_536]), "refusal=3\n");
}
