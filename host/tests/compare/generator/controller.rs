//! A controller in small: it keeps files by their bytes and writes pages of them one
//! behind the other, under any layout. So two dumps can be of the same files.

use std::collections::{BTreeMap, BTreeSet};

use super::build::Builder;
use super::rng::Rng;
use crate::second::layout::Layout;
use crate::second::page::LAST_CHUNK;

/// The bytes of a header.
pub const HEADER: usize = 512;

/// Where a header has its type, parent, file size and shrink word.
pub const TYPE: usize = 0x0;
pub const PARENT: usize = 0x4;
pub const FILE_SIZE: usize = 0x124;
pub const SHRINK: usize = 0x1FC;

/// How many bytes of a file are kept together.
const PIECE: u64 = 512;

/// What a controller is told to do.
#[derive(Clone, Debug)]
pub enum Step {
    /// An object is made, or made anew, with this header.
    Make { id: u32, header: Vec<u8> },
    /// Its header is written again, with other bytes at an offset.
    Change { id: u32, at: usize, bytes: Vec<u8> },
    /// Its header is written again, with another file size and shrink word.
    Resize { id: u32, size: u32, shrink: u32 },
    /// Bytes are written, and no header.
    Write { id: u32, at: u64, bytes: Vec<u8> },
}

/// A page as it was written: a header, or so many bytes of a chunk.
#[derive(Clone, Debug)]
pub struct Page {
    pub object: u32,
    pub says: Says,
}

#[derive(Clone, Debug)]
pub enum Says {
    Header(Vec<u8>),
    Data { chunk: u32, bytes: Vec<u8> },
}

/// A file as it is known to the controller; one that was never made has no header.
#[derive(Default)]
struct File {
    header: Vec<u8>,
    size: u64,
    pieces: BTreeMap<u64, Vec<u8>>,
}

impl File {
    fn is_made(&self) -> bool {
        !self.header.is_empty()
    }

    fn put(&mut self, at: u64, bytes: &[u8]) {
        for (place, &byte) in (at..).zip(bytes) {
            let piece = self.pieces.entry(place / PIECE);
            let piece = piece.or_insert_with(|| vec![0; PIECE as usize]);
            piece[(place % PIECE) as usize] = byte;
        }
        self.size = self.size.max(at + bytes.len() as u64);
    }

    fn get(&self, from: u64, to: u64) -> Vec<u8> {
        let byte = |place: u64| {
            let piece = self.pieces.get(&(place / PIECE));
            piece.map_or(0, |piece| piece[(place % PIECE) as usize])
        };
        (from..to).map(byte).collect()
    }

    fn resize(&mut self, size: u64) {
        self.pieces.retain(|piece, _| piece * PIECE < size);
        if let Some(last) = self.pieces.get_mut(&(size / PIECE)) {
            last[(size % PIECE) as usize..].fill(0);
        }
        self.size = size;
    }
}

/// The pages that are left of these steps where all older ones were collected and erased:
/// of each file its header, and what it holds.
pub fn collected(steps: &[Step], data: usize) -> Vec<Page> {
    let (_, files) = run(steps, data);
    let mut log = Vec::new();
    for (&id, file) in &files {
        if file.is_made() {
            log.push(headed(id, file));
        }
        let data = data as u64;
        let numbers = file.pieces.keys().map(|piece| piece * PIECE / data);
        let numbers: BTreeSet<u64> = numbers.collect();
        for number in numbers {
            log.extend(chunks(id, file, number * data, 1, data));
        }
    }
    log
}

/// The pages that these steps write in chunks of so many bytes, oldest first.
pub fn played(steps: &[Step], data: usize) -> Vec<Page> {
    run(steps, data).0
}

/// The pages of these steps, and the files as they are then.
fn run(steps: &[Step], data: usize) -> (Vec<Page>, BTreeMap<u32, File>) {
    let mut files: BTreeMap<u32, File> = BTreeMap::new();
    let mut log = Vec::new();
    for step in steps {
        match step {
            Step::Make { id, header } => {
                let file = files.entry(*id).or_default();
                *file = File {
                    header: header.clone(),
                    ..File::default()
                };
                log.push(headed(*id, file));
            }
            Step::Change { id, at, bytes } => {
                let Some(file) = files.get_mut(id).filter(|file| file.is_made()) else {
                    continue;
                };
                file.header[*at..*at + bytes.len()].copy_from_slice(bytes);
                log.push(headed(*id, file));
            }
            Step::Resize { id, size, shrink } => {
                let Some(file) = files.get_mut(id).filter(|file| file.is_made()) else {
                    continue;
                };
                file.resize((*size).into());
                file.header[FILE_SIZE..][..4].copy_from_slice(&size.to_le_bytes());
                file.header[SHRINK..][..4].copy_from_slice(&shrink.to_le_bytes());
                log.push(headed(*id, file));
            }
            Step::Write { id, at, bytes } => {
                let file = files.entry(*id).or_default();
                file.put(*at, bytes);
                log.extend(chunks(*id, file, *at, bytes.len() as u64, data as u64));
            }
        }
    }
    (log, files)
}

fn headed(object: u32, file: &File) -> Page {
    let says = Says::Header(file.header.clone());
    Page { object, says }
}

/// The chunks that hold so many bytes from a position on, as far as they have numbers.
fn chunks(object: u32, file: &File, at: u64, length: u64, data: u64) -> Vec<Page> {
    let (first, last) = (at / data + 1, (at + length).div_ceil(data));
    let chunks = (first..=last.min(LAST_CHUNK)).map(|n| {
        let start = (n - 1) * data;
        let bytes = file.get(start, file.size.min(start + data));
        let chunk = n as u32;
        let says = Says::Data { chunk, bytes };
        Page { object, says }
    });
    chunks.collect()
}

/// The dump of these pages, in blocks of K with rising sequences, which stand in any
/// order. What a page does not say is noise.
pub fn laid(rng: &mut Rng, log: &[Page], layout: Layout, k: usize) -> Vec<u8> {
    let blocks = log.len().div_ceil(k).max(1) + rng.below(2) as usize;
    let mut places: Vec<usize> = (0..blocks).collect();
    if rng.chance(60) {
        rng.shuffle(&mut places);
    }
    let first = rng.pick(&[0x1000, 0x1001, 0x7FFF_FFFE, 0xEFFF_F000]);
    let mut builder = Builder::new(layout, blocks * k);
    for (number, page) in log.iter().enumerate() {
        let at = places[number / k] * k + number % k;
        let sequence = first + (number / k) as u32;
        rng.fill(builder.data(at));
        let tags = match &page.says {
            Says::Header(header) => {
                builder.data(at)[..HEADER].copy_from_slice(header);
                let file_type = u32::from(header[TYPE]);
                match rng.chance(75) {
                    true => [sequence, file_type << 28 | page.object, 0x8000_0001, 0],
                    false => [sequence, page.object, 0, 0],
                }
            }
            Says::Data { chunk, bytes } => {
                builder.data(at)[..bytes.len()].copy_from_slice(bytes);
                [sequence, page.object, *chunk, bytes.len() as u32]
            }
        };
        builder.tags(at, tags);
    }
    builder.bytes
}
