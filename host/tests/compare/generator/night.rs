//! What a controller does by the evening, and in the night behind it.

use super::controller::{Page, Says, Step, FILE_SIZE, HEADER, PARENT, SHRINK, TYPE};
use super::rng::Rng;
use crate::second::page::{FIELDS, LAST_CHUNK};

/// Where a header has its name.
const NAME: usize = 0xA;

/// Where the file of these steps may begin or end: at the edges of stretches and of
/// chunks of these sizes, and beside them.
fn place(rng: &mut Rng, sizes: [u64; 2]) -> u64 {
    let data = rng.pick(&sizes);
    let within = rng.below(2048);
    let edge = match rng.below(8) {
        0 => 0,
        1 => data,
        2 => data * rng.below(3),
        _ => 512 * rng.below(6),
    };
    match rng.below(6) {
        0 => edge + 1,
        1 => edge.saturating_sub(1),
        2 => within,
        _ => edge,
    }
}

/// A position as far out as chunks of these sizes have numbers, or about there.
fn far(rng: &mut Rng, sizes: [u64; 2]) -> u64 {
    let last = LAST_CHUNK * rng.pick(&sizes);
    let any = rng.below(last);
    rng.pick(&[last - 512, last - 513, 1 << 32, (1 << 32) - 512, any])
}

/// The header of a new object: type, parent, and bytes that are noise, zeros or erased
/// but for the names.
fn header(rng: &mut Rng, file_type: u32) -> Vec<u8> {
    let mut header = vec![0; HEADER];
    match rng.below(3) {
        0 => header.fill(0xFF),
        1 => rng.fill(&mut header),
        _ => {}
    }
    header[NAME..NAME + 4].copy_from_slice(b"log\0");
    header[0x12C..0x130].copy_from_slice(b"for\0");
    let shrink = rng.pick(&[0, 0, 0, 1]);
    for (at, word) in [
        (TYPE, file_type),
        (PARENT, 1),
        (FILE_SIZE, 0),
        (SHRINK, shrink),
    ] {
        header[at..at + 4].copy_from_slice(&word.to_le_bytes());
    }
    header
}

/// Bytes to be written: noise or zeros.
fn bytes(rng: &mut Rng, length: u64) -> Vec<u8> {
    let mut bytes = vec![0; length as usize];
    if rng.chance(75) {
        rng.fill(&mut bytes);
    }
    bytes
}

fn write(rng: &mut Rng, id: u32, sizes: [u64; 2]) -> Step {
    let at = match rng.chance(6) {
        true => far(rng, sizes),
        false => place(rng, sizes),
    };
    let some = rng.between(1, 1500);
    let length = rng.pick(&[1, 511, 512, 513, 1024, some]);
    let bytes = bytes(rng, length);
    Step::Write { id, at, bytes }
}

fn resize(rng: &mut Rng, id: u32, sizes: [u64; 2]) -> Step {
    let near = place(rng, sizes) as u32;
    let size = match rng.below(12) {
        0 => 0,
        1 => u32::MAX,
        2 => rng.pick(&[0x8000_0000, 0xFFFF_FE00, 0xFFFF_FE01]),
        _ => near,
    };
    let shrink = rng.pick(&[0, 0, 1, 1, 0x100]);
    Step::Resize { id, size, shrink }
}

/// A header with another byte in one field of the table.
fn changed_field(rng: &mut Rng, id: u32) -> Step {
    let texts: Vec<_> = FIELDS.into_iter().filter(|field| field.2 > 8).collect();
    let (_, at, width, _) = match rng.chance(15) {
        true => rng.pick(&texts),
        false => rng.pick(&FIELDS),
    };
    let any = rng.below(width as u64) as usize;
    let byte = rng.pick(&[any, any, width - 1]);
    let number = |at, word: u32| {
        let bytes = word.to_le_bytes().to_vec();
        Step::Change { id, at, bytes }
    };
    match at {
        TYPE => number(at, rng.between(1, 5) as u32),
        PARENT => number(at, rng.pick(&[1, 1, 2, 3, 3, 4, 4, 257, 0x0100_0003])),
        FILE_SIZE => number(at, rng.below(3000) as u32),
        SHRINK => number(at, rng.pick(&[0, 1, 2, 0x0100_0000])),
        NAME if rng.chance(30) => {
            let bytes = rng.pick(&[*b"Log\0", *b"LOG\0", *b"logs"]).to_vec();
            Step::Change { id, at, bytes }
        }
        _ => {
            let bytes = vec![rng.pick(&[0, 1, b'a', b'A', 0xFF])];
            let at = at + byte;
            Step::Change { id, at, bytes }
        }
    }
}

/// A file is written, cut inside its first stretches, and grows again: by its header
/// alone, or by bytes that are written in the same chunk or in a later one.
fn shrunk_and_grown(rng: &mut Rng, id: u32, sizes: [u64; 2]) -> Vec<Step> {
    let size = rng.between(1, 1600);
    let longest = sizes[0].max(sizes[1]);
    let next = (size / longest + 1) * longest;
    let mut steps = Vec::new();
    if rng.chance(70) {
        let bytes = bytes(rng, 2048);
        steps.push(Step::Write { id, at: 0, bytes });
    }
    let shrink = rng.pick(&[0, 1, 1, 1]);
    let resized = |size: u64, shrink| Step::Resize {
        id,
        size: size as u32,
        shrink,
    };
    steps.push(resized(size, shrink));
    match rng.below(3) {
        0 => steps.push(resized(size + rng.between(1, 2000), 0)),
        which => {
            let near = size + rng.pick(&[0, 1, 300, 512]);
            let at = if which == 1 { next } else { near };
            let length = rng.between(1, 600);
            let bytes = bytes(rng, length);
            steps.push(Step::Write { id, at, bytes });
            if rng.chance(30) {
                steps.push(resized(at + length, 0));
            }
        }
    }
    steps
}

/// An object is unlinked or deleted, and now and then made anew.
fn gone(rng: &mut Rng, id: u32) -> Vec<Step> {
    let parent: u32 = rng.pick(&[3, 4]);
    let bytes = parent.to_le_bytes().to_vec();
    let at = PARENT;
    let mut steps = vec![Step::Change { id, at, bytes }];
    if rng.chance(25) {
        let bytes = 1u32.to_le_bytes().to_vec();
        steps.push(Step::Change { id, at, bytes });
        let size = rng.between(500, 2000) as u32;
        let shrink = 0;
        steps.push(Step::Resize { id, size, shrink });
    }
    steps
}

/// Something that happens to an object.
fn happens(rng: &mut Rng, id: u32, sizes: [u64; 2]) -> Vec<Step> {
    match rng.below(24) {
        0..=5 => vec![write(rng, id, sizes)],
        6..=9 => vec![resize(rng, id, sizes)],
        10..=16 => vec![changed_field(rng, id)],
        17..=19 => gone(rng, id),
        20..=22 => shrunk_and_grown(rng, id, sizes),
        _ => {
            let file_type = rng.pick(&[1, 1, 1, 3]);
            let header = header(rng, file_type);
            vec![Step::Make { id, header }]
        }
    }
}

/// The ids of the objects: few, so that much happens to each.
fn ids(rng: &mut Rng) -> Vec<u32> {
    let mut ids = vec![257, 258, 1, 0x0FFF_FFFF, 300];
    rng.shuffle(&mut ids);
    let count = rng.pick(&[1, 1, 1, 2, 2, 3]);
    ids.truncate(count);
    ids
}

/// The steps of a controller up to the evening, and its objects. Chunks of both dumps
/// have these sizes.
pub fn evening(rng: &mut Rng, sizes: [u64; 2]) -> (Vec<u32>, Vec<Step>) {
    let ids = ids(rng);
    let mut steps = Vec::new();
    for &id in &ids {
        if rng.chance(92) {
            let file_type = rng.pick(&[1, 1, 1, 1, 1, 1, 2, 3, 4, 5]);
            let header = header(rng, file_type);
            steps.push(Step::Make { id, header });
        }
        for _ in 0..rng.below(5) {
            steps.push(write(rng, id, sizes));
            if rng.chance(30) {
                steps.push(resize(rng, id, sizes));
            }
        }
    }
    for _ in 0..rng.below(4) {
        let id = rng.pick(&ids);
        steps.extend(happens(rng, id, sizes));
    }
    (ids, steps)
}

/// The steps of the night: mostly about one object, now and then about a new one.
pub fn night(rng: &mut Rng, ids: &[u32], sizes: [u64; 2]) -> Vec<Step> {
    let mut steps = Vec::new();
    let one = rng.pick(ids);
    for _ in 0..rng.pick(&[0, 1, 1, 1, 1, 2, 2, 3, 5]) {
        let other = rng.pick(ids);
        let id = if rng.chance(80) { one } else { other };
        steps.extend(happens(rng, id, sizes));
    }
    if rng.chance(12) {
        let id = rng.pick(&[2, 256, 259, 999]);
        let file_type = rng.pick(&[1, 1, 3]);
        let header = header(rng, file_type);
        steps.push(Step::Make { id, header });
        steps.extend(happens(rng, id, sizes));
    }
    steps
}

/// What is lost or altered on the pages themselves.
pub fn spoil(rng: &mut Rng, log: &mut Vec<Page>, ids: &[u32]) {
    let one = rng.pick(ids);
    let is_header = |page: &Page| matches!(page.says, Says::Header(_));
    match rng.below(8) {
        0 => log.retain(|page| page.object != one || !is_header(page)),
        1 => log.retain(|page| page.object != one),
        2 => log.retain(|page| page.object != one || is_header(page)),
        3 if !log.is_empty() => {
            log.remove(rng.below(log.len() as u64) as usize);
        }
        4 => {
            let own = log.iter_mut().rev().filter(|page| page.object == one);
            let newest = own.filter_map(|page| match &mut page.says {
                Says::Header(header) => Some(header),
                Says::Data { .. } => None,
            });
            if let Some(header) = newest.take(1).next() {
                let (_, at, width, _) = rng.pick(&FIELDS);
                let at = at + rng.below(width as u64) as usize;
                if ![TYPE, TYPE + 1, TYPE + 2, TYPE + 3].contains(&at) {
                    header[at] ^= rng.pick(&[1, 0x20, 0x80]);
                }
            }
        }
        _ => {
            let data = log.iter_mut().filter_map(|page| match &mut page.says {
                Says::Data { bytes, .. } => Some(bytes),
                Says::Header(_) => None,
            });
            let mut data: Vec<_> = data.collect();
            if !data.is_empty() {
                let which = rng.below(data.len() as u64) as usize;
                let at = rng.below(data[which].len() as u64) as usize;
                data[which][at] ^= 1;
            }
        }
    }
}
