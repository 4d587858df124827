//! `include/lohenarr.h`, compiled and called from C and C++ on the shelf dump W.

use std::collections::BTreeSet;
use std::env;
use std::fs::{self, File};
use std::mem::{offset_of, size_of};
use std::path::{Path, PathBuf};
use std::process::Command;

use lohenarr::ffi::*;

const HOST: &str = env!("CARGO_MANIFEST_DIR");

/// Compiles the program with a compiler of a language, every warning an error.
fn compiled(variable: &str, compiler: &str, language: &[&str], name: &str) -> PathBuf {
    let folder = Path::new(env!("CARGO_TARGET_TMPDIR"));
    fs::create_dir_all(folder).unwrap();
    let program = folder.join(name);
    let compiler = env::var_os(variable).unwrap_or_else(|| compiler.into());
    let status = Command::new(&compiler)
        .args(language)
        .args(["-Wall", "-Wextra", "-pedantic", "-Werror"])
        .args(["-I", "../include", "tests/c/calls.c", "-x", "none"])
        .args(["../target/staticlib/libcapi.a", "-o"])
        .arg(&program)
        .current_dir(HOST)
        .status()
        .unwrap_or_else(|error| panic!("{}: {error}", compiler.display()));
    assert!(status.success(), "the program compiles");
    program
}

/// The lines that the C program prints of fields and sizes, as Rust has them.
fn places() -> String {
    let fields = [
        ("geometry.block", offset_of!(Geometry, block)),
        ("layout_answer.tag", offset_of!(LayoutAnswer, tag)),
        ("kind_answer.count", offset_of!(KindAnswer, count)),
        ("header_answer.rdev", offset_of!(HeaderAnswer, rdev)),
        (
            "header_answer.win_created",
            offset_of!(HeaderAnswer, win_created),
        ),
        (
            "header_answer.size_high",
            offset_of!(HeaderAnswer, size_high),
        ),
        ("header_answer.shrink", offset_of!(HeaderAnswer, shrink)),
        ("part_answer.length", offset_of!(PartAnswer, length)),
        ("size_answer.size", offset_of!(SizeAnswer, size)),
        ("chunk_answer.shown", offset_of!(ChunkAnswer, shown)),
        ("place_answer.length", offset_of!(PlaceAnswer, length)),
        ("list_answer.count", offset_of!(ListAnswer, count)),
        ("tally_answer.count", offset_of!(TallyAnswer, count)),
        ("table_answer.size", offset_of!(TableAnswer, size)),
        ("table_answer.rows", offset_of!(TableAnswer, rows)),
        ("copies_answer.size", offset_of!(CopiesAnswer, size)),
        ("copies_answer.damaged", offset_of!(CopiesAnswer, damaged)),
        ("copy_answer.valid", offset_of!(CopyAnswer, valid)),
        ("run_answer.page", offset_of!(RunAnswer, page)),
        ("why_answer.value", offset_of!(WhyAnswer, value)),
        ("why_answer.until", offset_of!(WhyAnswer, until)),
        ("spans_answer.size", offset_of!(SpansAnswer, size)),
        ("spans_answer.count", offset_of!(SpansAnswer, count)),
        ("span_answer.byte", offset_of!(SpanAnswer, byte)),
        ("records_answer.count", offset_of!(RecordsAnswer, count)),
        ("standing_answer.until", offset_of!(StandingAnswer, until)),
        ("standing_answer.by", offset_of!(StandingAnswer, by)),
        ("history_answer.page", offset_of!(HistoryAnswer, page)),
        ("history_answer.refusal", offset_of!(HistoryAnswer, refusal)),
        ("tree_answer.others", offset_of!(TreeAnswer, others)),
        ("row_answer.page", offset_of!(RowAnswer, page)),
        ("text_answer.need", offset_of!(TextAnswer, need)),
        ("text_answer.length", offset_of!(TextAnswer, length)),
        (
            "prepared_answer.records",
            offset_of!(PreparedAnswer, records),
        ),
        ("next_answer.first", offset_of!(NextAnswer, first)),
        ("next_answer.second", offset_of!(NextAnswer, second)),
    ];
    let lines = fields.map(|(field, offset)| format!("lohenarr_{field} {offset}\n"));
    let sizes = [
        size_of::<LayoutAnswer>(),
        size_of::<PagesAnswer>(),
        size_of::<CountsAnswer>(),
        size_of::<KindAnswer>(),
        size_of::<HeaderAnswer>(),
        size_of::<PartAnswer>(),
        size_of::<SizeAnswer>(),
        size_of::<ChunkAnswer>(),
        size_of::<PlaceAnswer>(),
        size_of::<ListAnswer>(),
        size_of::<TallyAnswer>(),
        size_of::<TableAnswer>(),
        size_of::<CopiesAnswer>(),
        size_of::<CopyAnswer>(),
        size_of::<RunAnswer>(),
        size_of::<WhyAnswer>(),
        size_of::<SpansAnswer>(),
        size_of::<SpanAnswer>(),
        size_of::<RecordsAnswer>(),
        size_of::<StandingAnswer>(),
        size_of::<HistoryAnswer>(),
        size_of::<TreeAnswer>(),
        size_of::<RowAnswer>(),
        size_of::<TextAnswer>(),
        size_of::<PreparedAnswer>(),
        size_of::<NextAnswer>(),
    ];
    let sizes = sizes.map(|size| format!(" {size}"));
    format!("{}sizes{}\n", lines.concat(), sizes.concat())
}

/// What the program prints.
fn printed(program: PathBuf) -> String {
    let shelf = File::open(Path::new(HOST).join("tests/data/W")).unwrap();
    let output = Command::new(program).stdin(shelf).output().unwrap();
    String::from_utf8(output.stdout).unwrap()
}

/// What the library answers.
const ANSWERS: &str = "\
layout OK: 6 512/16/0
score 7 0
counts OK: 1 0 0 3 4
header OK: 612 0
name OK: 1594+256
kinds HEADER DATA DATA HEADER HEADER DATA DATA BLANK
refused BAD_PAGE
size OK: 1034, visits 3
live OK: 1, 257 7
cells 48
start OK
add OK
run OK: 0
run ALREADY_ADDED: 6
add OK
read OK: copy 1 page 1 valid 300 shown 512, visits 5
read SHORT_BUFFER: need 512
part 528+300
objects OK: 1
table SHORT_BUFFER: need 6, 7
table OK: size 1034, rows 3: 1/300 hole 6/10 7
row 3168+10
copies SHORT_BUFFER: need 4, 7
copies OK: size 1034, damaged 0: 1/1/300 3/6/10 7
records SHORT_BUFFER: need 6
records OK: 6, 6 to 0
older BAD_PAGE: 0
older OK, size 612
why OK: COUNT, page 5 byte 0 value 0 until 512
why OK: CUT, page 4 byte 0 value 0 until 1024
why OK: HELD, page 6 byte 9 value 255 until 1034
why OK: PAST_END, page 5 byte 0 value 0 until 18446744073709551615
why BAD_PAGE: ?, page 0 byte 0 value 0 until 0
spans SHORT_BUFFER: enough 1, 7
spans OK: size 1034: 0/HELD/5/0 300/COUNT/5/0 512/CUT/4/0 1024/HELD/6/0
stands SHORT_BUFFER: need 7, 7
stands OK: 0/OLDER_HEADER/0/0-0 1/SUPERSEDED/5/0-0 2/CUT/4/0-0 3/OLDER_HEADER/0/0-0 4/NEWEST_HEADER/0/0-0 5/HOLDS/0/0-300 6/HOLDS/0/1024-1034 7 7 0 7
history OK: 0/OK/0 1/OK/512 2/OK/612 3/OK/612
tree SHORT_BUFFER: need 3, 7
tree OK: 1 and 0, 7, 0 7
row 0 of page 4
tree OK: 0 and 1, MISSING
text SHORT_BUFFER: need 274
text OK: 274, object=257
path=
path OK: 257, / 255
prepared SHORT_BUFFER: need 7, 7
prepared OK: 7, 257/6 to 0, 7 7
next 257: 7 and 0
object SHORT_BUFFER: need 18
object OK: object=257
only=1
compared OK: 0
";

#[test]
fn c_calls_the_library() {
    let program = compiled("CC", "cc", &["-std=c99"], "calls");
    assert_eq!(printed(program), format!("{ANSWERS}{}", places()));
}

#[test]
fn cpp_calls_the_library() {
    let program = compiled("CXX", "c++", &["-std=c++11", "-x", "c++"], "calls-cpp");
    assert_eq!(printed(program), format!("{ANSWERS}{}", places()));
}

/// The names of the functions that the header declares.
fn declared(header: &str) -> BTreeSet<&str> {
    let lines = header.lines().filter(|line| line.ends_with(");"));
    let heads = lines.map(|line| line.split_once('(').unwrap().0);
    heads.map(|head| head.rsplit_once(' ').unwrap().1).collect()
}

/// The header says that it has no variables and calls memset alone. It exports what the
/// header declares, and nothing else.
#[test]
fn the_library_stands_by_itself() {
    let mut nm = Command::new("nm");
    nm.args(["-P", "../target/staticlib/libcapi.a"])
        .current_dir(HOST);
    let symbols = String::from_utf8(nm.output().unwrap().stdout).unwrap();
    // each name with a letter: T code, R constants, U another's, and so on
    let symbols = symbols.lines().map(|line| line.split_whitespace());
    let symbols = symbols.filter_map(|mut words| Some((words.next()?, words.next()?)));
    let (others, own): (Vec<_>, Vec<_>) = symbols.partition(|(_, letter)| *letter == "U");
    let exported = own.iter().filter(|(_, letter)| *letter == "T");
    let exported: BTreeSet<&str> = exported.map(|(name, _)| *name).collect();
    let header = fs::read_to_string(Path::new(HOST).join("../include/lohenarr.h")).unwrap();
    assert_eq!(exported, declared(&header));
    assert!(exported.len() > 40);
    let variables = own.iter().find(|(_, letter)| !"TtRr".contains(letter));
    assert_eq!(variables, None);
    assert_eq!(others, [("memset", "U")]);
}
