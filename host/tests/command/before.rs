//! `--before PAGE`: a dump is answered for as if the records that are not older than
//! that one were blank.

use std::fs;
use std::path::Path;

use super::dumps::{self, W};
use super::{printed, run, said};

const PAGE: usize = 528;
const PAGES: usize = W.len() / PAGE;

/// Where a page has its sequence.
fn sequence(dump: &[u8], page: usize) -> u32 {
    let at = page * PAGE + 512;
    u32::from_le_bytes(dump[at..at + 4].try_into().unwrap())
}

/// The dump with blank pages for those that are not older than this one.
fn blanked(dump: &[u8], before: usize) -> Vec<u8> {
    let mut older = dump.to_vec();
    let age = |page| (sequence(dump, page), page);
    for page in (0..PAGES).filter(|&page| age(page) >= age(before)) {
        older[page * PAGE..][..PAGE].fill(0xFF);
    }
    older
}

/// Every command that reads the past, before each record of the dump.
fn answers_alike(folder: &Path, dump: &[u8], record: impl Fn(usize) -> bool) {
    fs::write(folder.join("whole"), dump).unwrap();
    for page in (0..PAGES).filter(|&page| record(page)) {
        fs::write(folder.join("older"), blanked(dump, page)).unwrap();
        for typed in [
            &["list"][..],
            &["list", "--long"],
            &["tree"],
            &["tree", "--json"],
            &["size", "257"],
            &["size", "257", "--long"],
            &["size", "/none"],
            &["chunk", "257", "1"],
            &["chunk", "257", "2"],
            &["chunk", "257", "3"],
            &["read", "257"],
            &["extract"],
            &["extract", "257"],
            &["records", "257"],
            &["records", "257", "--json"],
            &["certify", "257"],
            &["why", "257"],
            &["why", "257", "0"],
            &["why", "257", "400"],
            &["why", "257", "611"],
            &["why", "257", "1030"],
            &["why", "257", "0", "--json"],
        ] {
            let answer = |dump, more: &[&str]| {
                let on = [dump, "--layout=512/16/0", "--block=4"];
                let typed = [&typed[..1], &on, &typed[1..], more].concat();
                run(folder, &typed, b"")
            };
            let before = page.to_string();
            let [past, older] = [
                answer("whole", &["--before", &before]),
                answer("older", &[]),
            ];
            let what = format!("{typed:?} before {page}");
            let stood = format!(", as the dump stood before page {page}");
            match typed[0] {
                "why" => assert_eq!(
                    printed(&past).replace(&stood, ""),
                    printed(&older),
                    "{what}"
                ),
                // the evidence is another, and what the file is now is told
                "certify" if past.status.success() => {
                    let (_, parts) = printed(&past).split_once("\n2. ").unwrap();
                    let now = format!("note=this is the file as it was before page {page}; ");
                    let (told, others): (Vec<&str>, Vec<&str>) =
                        parts.lines().partition(|line| line.starts_with(&now));
                    assert_eq!(told.len(), 1, "{what}");
                    assert!(told[0].ends_with("the file has 1034 bytes"), "{what}");
                    let (_, parts) = printed(&older).split_once("\n2. ").unwrap();
                    assert_eq!(others, parts.lines().collect::<Vec<_>>(), "{what}");
                }
                _ => assert!(past.stdout == older.stdout, "{what}"),
            }
            assert_eq!(past.status, older.status, "{what}");
            assert_eq!(said(&past).replace(&stood, ""), said(&older), "{what}");
        }
    }
}

#[test]
fn w_before_each_of_its_records() {
    let folder = dumps::folder();
    answers_alike(folder.path(), W, |page| page < 7);
}

/// The second block stands first, so that page numbers and sequences disagree.
#[test]
fn w_with_its_blocks_exchanged() {
    let folder = dumps::folder();
    let (first, second) = W.split_at(W.len() / 2);
    answers_alike(folder.path(), &[second, first].concat(), |page| page != 3);
}

/// A file is written as it once was.
#[test]
fn a_file_of_the_past_is_written() {
    let folder = dumps::folder();
    let typed = "read W 257 --block 4 --before 4 --out new";
    let typed: Vec<&str> = typed.split(' ').collect();
    let output = run(folder.path(), &typed, b"");
    assert!(output.stdout.starts_with(b"size=612\n"));
    let file = fs::read(folder.path().join("new")).unwrap();
    assert!(file == [&W[PAGE..PAGE + 512], &W[2 * PAGE..2 * PAGE + 100]].concat());
}
