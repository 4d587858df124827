//! The records of each dump's files, as the library says that they stand, against what
//! the driver shows.

use lohenarr::ffi::{self, Answer as _, Geometry, StandingAnswer};
use lohenarr::reasons::Reasons;

use super::{cases, Case};
use crate::library::Library;
use crate::second::index::Reader;
use crate::second::page::Kind;
use crate::second::script::{answer, Request};
use crate::second::why::Past;
use crate::second::wrong::Wrong;
use crate::sha256;

/// The records of a case, and the sizes of a page's data and of a page.
fn records(case: &Case) -> (Reasons<'_>, usize, usize) {
    let block = case.block.parse().unwrap();
    let found = ffi::find(&case.dump, block).given().expect("a layout");
    let on = Geometry {
        layout: found.number,
        block,
    };
    let (data, spare) = (found.data as usize, found.spare as usize);
    let (dump, before) = (&case.dump, None);
    (Reasons { dump, on, before }, data, data + spare)
}

/// The records that hold give, with zeros everywhere else, what the driver shows; and
/// after the newest record the file has the driver's size.
#[test]
fn records_hold_what_the_driver_shows() {
    let (mut files, mut counted) = (0, 0);
    for case in cases() {
        let (records, data, page) = records(&case);
        for file in &case.files {
            let place = format!("{}: object {}", case.name, file.object);
            let mut bytes = vec![0; file.size as usize];
            let stands = records.stands(file.object).expect("records");
            let holds = stands.iter().filter(|r| r.stands == StandingAnswer::HOLDS);
            for record in holds {
                let held = &mut bytes[record.from as usize..record.until as usize];
                assert!(held.len() <= data, "{place}: page {}", record.page);
                let at = record.page as usize * page;
                held.copy_from_slice(&case.dump[at..at + held.len()]);
            }
            assert_eq!(sha256(&bytes), file.sha256, "{place}");
            let history = records.history(file.object).expect("records");
            let last = history.last().map(|told| (told.refusal, told.size));
            assert_eq!(last, Some((0, file.size)), "{place}");
            (files, counted) = (files + 1, counted + stands.len());
        }
    }
    println!("{counted} records of {files} files");
}

/// Both readers say the same of the object of every record, as the dump stands and as
/// it stood before that record.
#[test]
fn the_readers_agree_on_the_drivers_records() {
    let mut answers = 0;
    for case in cases() {
        let mut reader = Reader::new(&case.dump, Wrong::None);
        let mut library = Library::new(&case.dump, &[]);
        let k = case.block.parse().unwrap();
        let layout = reader.find(k).expect("a layout");
        for page in 0..(case.dump.len() / layout.page()) as u64 {
            let Ok(Kind::Record(record)) = reader.kind(layout.into(), k, page) else {
                continue;
            };
            let object = record.object.into();
            for before in [None, Some(page)] {
                let layout = layout.into();
                let on = Past { layout, k, before };
                for request in [
                    Request::Stands { on, object },
                    Request::History { on, object },
                ] {
                    let (ours, second) = (library.answer(&request), answer(&mut reader, &request));
                    let place = format!("{}: {request}", case.name);
                    assert_eq!(
                        (ours.line, ours.rows),
                        (second.line, second.rows),
                        "{place}"
                    );
                    answers += 1;
                }
            }
        }
    }
    println!("{answers} answers");
}
