//! Trees of very many objects: the time grows with objects × log objects, and the
//! stack not at all.

use std::fs;
use std::path::Path;
use std::process::{Command, Output};
use std::thread;
use std::time::{Duration, Instant};

use lohenarr::ffi::{self, Answer as _, Geometry, AS_IT_STANDS};

use super::dumps::header;
use super::printed;

const OBJECTS: u32 = 100_000;

/// The first id; that of each object follows.
const FIRST: u32 = 300;

/// Steps that grow with the square of the objects take several times as long.
const ENOUGH: Duration = Duration::from_secs(8);

/// In KiB.
const STACK: u32 = 128;

/// A dump of one header for each object, by type, parent and name of its number.
fn write(folder: &Path, says: impl Fn(u32) -> (u32, u32, String)) {
    let one = header(FIRST, 1, 1, b"");
    let mut dump = Vec::with_capacity(one.len() * OBJECTS as usize);
    for number in 0..OBJECTS {
        let (file_type, parent, name) = says(number);
        dump.extend(header(FIRST + number, file_type, parent, name.as_bytes()));
    }
    fs::write(folder.join("crowd"), dump).unwrap();
}

/// Runs a command on the dump, with little stack, and not for long.
fn run(folder: &Path, typed: &str) -> Output {
    let program = env!("CARGO_BIN_EXE_lohenarr");
    let [command, rest] = typed.split_once(' ').map_or([typed, ""], Into::into);
    let mut shell = Command::new("sh");
    let line = format!("ulimit -s {STACK} && exec {program} {command} crowd -b 1 {rest}");
    shell.current_dir(folder).args(["-c", &line]);
    let start = Instant::now();
    let output = shell.output().unwrap();
    let time = start.elapsed();
    let said = String::from_utf8_lossy(&output.stderr);
    assert!(time < ENOUGH, "{typed}: {time:?}");
    assert!(
        output.status.code().is_some(),
        "{typed}: {}: {said}",
        output.status
    );
    output
}

/// How many lines begin so.
fn count(output: &Output, begin: &str) -> usize {
    let lines = printed(output).lines();
    lines.filter(|line| line.starts_with(begin)).count()
}

#[test]
fn many_objects_in_one_directory() {
    let folder = tempfile::tempdir().unwrap();
    let folder = folder.path();
    write(folder, |number| match number {
        0 => (3, 1, "all".to_string()),
        _ => (1, FIRST, format!("entry-{number}")),
    });
    let tree = run(folder, "tree");
    assert_eq!(count(&tree, "path=/all/entry-"), OBJECTS as usize - 1);
    let last = format!(
        "object={}\npath=/all/entry-{}\n",
        FIRST + OBJECTS - 1,
        OBJECTS - 1
    );
    assert!(printed(&tree).ends_with(&last));
    let long = run(folder, "list --long");
    assert_eq!(count(&long, "object="), OBJECTS as usize);
    assert_eq!(printed(&run(folder, "size /all/entry-77777")), "size=0\n");
    assert_eq!(run(folder, "size /all/entry-100000").status.code(), Some(2));
}

#[test]
fn a_chain_of_directories() {
    let folder = tempfile::tempdir().unwrap();
    let folder = folder.path();
    write(folder, |number| {
        let parent = if number == 0 { 1 } else { FIRST + number - 1 };
        (3, parent, "d".to_string())
    });
    let tree = run(folder, "tree");
    assert_eq!(count(&tree, "path=/d"), 32);
    assert_eq!(count(&tree, "reason=too deep"), OBJECTS as usize - 32);
    let deepest = "/d".repeat(32);
    assert!(printed(&tree).contains(&format!("path={deepest}\nobject=332\nreason=")));
    // a directory, so that its size is refused
    assert_eq!(
        run(folder, &format!("size {deepest}")).status.code(),
        Some(1)
    );
    assert_eq!(
        run(folder, &format!("size {deepest}/d")).status.code(),
        Some(2)
    );
}

/// The ids rise along the chain or fall: what was found out of one object serves the
/// others whichever is asked first.
#[test]
fn a_chain_that_leads_nowhere() {
    let folder = tempfile::tempdir().unwrap();
    let folder = folder.path();
    for falls in [false, true] {
        write(folder, |number| {
            let parent = match falls {
                true => FIRST + number + 1,
                false => FIRST + number - 1,
            };
            (3, parent, "d".to_string())
        });
        let tree = run(folder, "tree");
        assert_eq!(count(&tree, "reason=missing"), OBJECTS as usize);
    }
}

#[test]
fn loops_of_every_length() {
    let folder = tempfile::tempdir().unwrap();
    let folder = folder.path();
    let ends: Vec<u32> = (1..)
        .scan(0, |end, length| {
            *end += length;
            Some(*end)
        })
        .take_while(|end| *end < OBJECTS)
        .chain([OBJECTS])
        .collect();
    write(folder, |number| {
        let place = ends.partition_point(|&end| end <= number);
        let begin = place.checked_sub(1).map_or(0, |before| ends[before]);
        let next = if number + 1 == ends[place] {
            begin
        } else {
            number + 1
        };
        (3, FIRST + next, "ring".to_string())
    });
    let tree = run(folder, "tree");
    assert_eq!(count(&tree, "reason=loop"), OBJECTS as usize);
    write(folder, |number| {
        (3, FIRST + (number + 1) % OBJECTS, "ring".to_string())
    });
    let tree = run(folder, "tree");
    assert_eq!(count(&tree, "reason=loop"), OBJECTS as usize);
}

/// In bytes: what the C header says of the library. A thread is given a little more.
const LIBRARY_STACK: usize = 16 << 10;

/// Directories in one another as deep as paths go, and objects that a sort halves most
/// often: the calls that wait for others of their kind.
#[test]
fn the_library_takes_little_stack() {
    let chain = (0..40).map(|number| match number {
        0 => header(FIRST, 3, 1, b"d"),
        _ => header(FIRST + number, 3, FIRST + number - 1, b"d"),
    });
    let halved = (1..28).rev().map(|bit| header(1 << bit, 3, 1, b"d"));
    let dumps = [chain.flatten().collect(), halved.flatten().collect()];
    let little = thread::Builder::new().stack_size(LIBRARY_STACK);
    let work = move || dumps.map(|dump: Vec<u8>| paths(&dump));
    let listed = little.spawn(work).unwrap().join().unwrap();
    assert_eq!(listed, [32, 27]);
}

/// How many objects have a path, by calls that go deep.
fn paths(dump: &[u8]) -> u32 {
    let on = Geometry {
        layout: 6,
        block: 1,
    };
    let lent = || vec![0; 80];
    let (mut rows, mut heads, mut work) = (lent(), lent(), lent());
    let tree = ffi::dump_tree(dump, on, AS_IT_STANDS, &mut rows, &mut heads, &mut work);
    let tree = tree.given().unwrap();
    let rows = &rows[..(tree.listed + tree.others) as usize];
    let mut text = vec![0; 1 << 16];
    let text = ffi::tree_text(dump, on, rows, tree.listed, &mut text);
    text.given().unwrap();
    let mut order = lent();
    let prepared = ffi::compare_prepare(dump, on, &mut order, &mut heads, &mut work);
    prepared.given().unwrap();
    tree.listed
}
