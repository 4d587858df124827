//! The report: layout, page kinds and objects of a dump, in ten lines.

use super::index::{Over, Reader};
use super::layout::{Layout, Named};
use super::refusal::Refusal;
use super::wrong::Wrong;

/// The longest input of the report program, in bytes, and its K.
pub const LONGEST_INPUT: usize = 65_536;
const BLOCK: u64 = 4;

/// What the report program prints for its standard input.
pub fn report_of_input(input: &[u8]) -> String {
    match input.len() {
        0..=LONGEST_INPUT => report(input, BLOCK),
        _ => refusal(Refusal::BadLength),
    }
}

/// The report of a dump with blocks of K pages, or the one line of its refusal.
pub fn report(dump: &[u8], k: u64) -> String {
    let reader = Reader::new(dump, Wrong::None);
    reader
        .find(k)
        .and_then(|layout| lines(&reader, layout, k))
        .unwrap_or_else(refusal)
}

fn refusal(refusal: Refusal) -> String {
    format!("refusal={}\n", refusal as u8)
}

fn lines(reader: &Reader<'_>, found: Layout, k: u64) -> Result<String, Refusal> {
    let layout = Named::from(found);
    let pages = reader.pages(layout, k)?;
    let counts = reader.counts(layout, k)?;
    let over = Over::Dump(layout, k);
    let objects = reader.objects(over)?;
    let mut ids = vec![0; objects];
    let live = reader.list(over, &mut ids);
    let live = live.map_err(|refused| refused.refusal)?.len();
    let lines = [
        format!("layout={found}"),
        format!("block={k}"),
        format!("pages={pages}"),
        format!("blank={}", counts.blank),
        format!("foreign={}", counts.foreign),
        format!("damaged={}", counts.damaged),
        format!("headers={}", counts.headers),
        format!("data={}", counts.data),
        format!("objects={objects}"),
        format!("live={live}"),
    ];
    Ok(lines.map(|line| line + "\n").concat())
}
