//! What the second reader makes of the dumps that a YAFFS2 driver wrote.

use crate::corpus::cases;
use crate::second::index::{Over, Reader, Refused};
use crate::second::layout::Named;
use crate::second::page::data;
use crate::second::stands::Standing;
use crate::second::why::Past;
use crate::second::wrong::Wrong;
use crate::sha256;

/// The bytes of a whole file, read chunk by chunk.
pub fn whole(
    reader: &Reader<'_>,
    over: Over,
    data: usize,
    object: u64,
) -> Result<Vec<u8>, Refused> {
    let (size, _) = reader.size(over, object)?;
    let mut bytes = Vec::new();
    let mut n = 1;
    while (bytes.len() as u64) < size {
        let mut buffer = vec![0xA5; data];
        let chunk = reader.read(over, object, n, &mut buffer)?;
        bytes.extend_from_slice(&buffer[..chunk.shown as usize]);
        n += 1;
    }
    Ok(bytes)
}

#[test]
fn files_are_as_the_driver_shows_them() {
    for case in cases() {
        let reader = Reader::new(&case.dump, Wrong::None);
        let k = case.block.parse().unwrap();
        let layout = reader.find(k).expect("a layout");
        assert_eq!(layout.to_string(), case.layout, "{}", case.name);
        let over = Over::Dump(Named::from(layout), k);
        for file in &case.files {
            let bytes = whole(&reader, over, layout.data, file.object.into());
            let ours = bytes.map(|bytes| (bytes.len() as u64, sha256(&bytes)));
            let shown = (file.size, file.sha256.clone());
            assert_eq!(ours, Ok(shown), "{}: object {}", case.name, file.object);
        }
    }
}

/// The records that hold give, with zeros everywhere else, what the driver shows; and
/// after the newest record the file has the driver's size.
#[test]
fn records_hold_what_the_driver_shows() {
    let (mut files, mut records) = (0, 0);
    for case in cases() {
        let reader = Reader::new(&case.dump, Wrong::None);
        let k = case.block.parse().unwrap();
        let layout = reader.find(k).expect("a layout");
        let on = Past {
            layout: layout.into(),
            k,
            before: None,
        };
        for file in &case.files {
            let place = format!("{}: object {}", case.name, file.object);
            let mut bytes = vec![0; file.size as usize];
            let stands = reader.stands(on, file.object.into()).expect("records");
            for &(page, standing) in &stands {
                if let Standing::Holds { from, until } = standing {
                    let held = &mut bytes[from as usize..until as usize];
                    held.copy_from_slice(&data(&case.dump, layout, page)[..held.len()]);
                }
            }
            assert_eq!(sha256(&bytes), file.sha256, "{place}");
            let history = reader.history(on, file.object.into()).expect("records");
            let last = history.last().map(|&(_, told)| told);
            assert_eq!(last, Some(Ok(file.size)), "{place}");
            (files, records) = (files + 1, records + stands.len());
        }
    }
    println!("{records} records of {files} files");
}
