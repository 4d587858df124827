//! A generated dump: one long file among many short ones below a root, in
//! blocks that were written in another order than they stand.

use std::fs::File;
use std::io::{self, BufWriter, Write as _};
use std::os::unix::fs::FileExt;
use std::path::Path;

const DATA: usize = 2048;
const PAGE: usize = DATA + 64;
const BLOCK: usize = super::BLOCK as usize * PAGE;
/// The id of the long file; those of the short ones follow.
pub const LONG: u32 = 257;
pub const SHORT: u32 = 1000;
/// The long file's chunks on a dump that has room for them.
const LONG_CHUNKS: u32 = 50_000;

/// So many blocks from the first on have sound pages alone: by these the
/// Sleuth Kit guesses the layout.
const SOUND: usize = 64;

/// Writes a dump of 2048/64 with its tags at this offset and at most so many
/// MiB.
pub fn write(path: &Path, mib: usize, tag: usize) -> io::Result<()> {
    let file = File::create(path)?;
    let blocks = (mib << 20) / BLOCK;
    let mut log = Log::new(tag);
    let mut bytes = vec![0; BLOCK];
    for written in 0..blocks {
        let sequence = 0x1000 + written as u32;
        let unused = written * 20 / blocks == 19;
        let place = written * stride(blocks) % blocks;
        for page in bytes.chunks_exact_mut(PAGE) {
            if unused {
                page.fill(0xFF);
            } else {
                log.page(page, sequence, place < SOUND);
            }
        }
        file.write_all_at(&bytes, (place * BLOCK) as u64)?;
    }
    Ok(())
}

/// Of so many pages one is changed where a dump is written again.
const CHANGED: u64 = 30;

/// Writes such a dump again, with some pages changed: a header has another time, and
/// data another byte.
pub fn rewrite(dump: &[u8], path: &Path) -> io::Result<()> {
    let mut file = BufWriter::new(File::create(path)?);
    let mut log = Log::new(0);
    for page in dump.chunks_exact(PAGE) {
        let mut page = page.to_vec();
        if log.random().is_multiple_of(CHANGED) {
            page[0x11C] ^= 1;
        }
        file.write_all(&page)?;
    }
    file.flush()
}

/// A step that visits every one of n places once.
fn stride(n: usize) -> usize {
    (n * 5 / 8..)
        .find(|&step| step > 0 && gcd(step, n) == 1)
        .unwrap_or(1)
}

/// The greatest common divisor.
pub fn gcd(mut a: usize, mut b: usize) -> usize {
    while b != 0 {
        (a, b) = (b, a % b);
    }
    a
}

/// What has been written so far.
struct Log {
    tag: usize,
    seed: u64,
    chunks: Vec<u32>,
    root: bool,
}

impl Log {
    fn new(tag: usize) -> Log {
        let chunks = vec![0; SHORT as usize + 1];
        Log {
            tag,
            seed: 1,
            chunks,
            root: false,
        }
    }

    /// xorshift64
    fn random(&mut self) -> u64 {
        self.seed ^= self.seed << 13;
        self.seed ^= self.seed >> 7;
        self.seed ^= self.seed << 17;
        self.seed
    }

    /// The next page: mostly data of the long file, then of a short one, then a
    /// header; a few that are none, where not all are to be sound.
    fn page(&mut self, page: &mut [u8], sequence: u32, sound: bool) {
        let chance = self.random() % if sound { 990 } else { 1000 };
        let short = 1 + (self.random() % u64::from(SHORT)) as usize;
        let full = chance < 600 && self.chunks[0] == LONG_CHUNKS;
        let which = match chance {
            600..980 => short,
            _ if full => short,
            _ => 0,
        };
        let object = LONG + which as u32;
        for eight in page[..DATA].chunks_exact_mut(8) {
            eight.copy_from_slice(&self.random().to_le_bytes());
        }
        let tags = match chance {
            _ if !self.root => {
                self.root = true;
                header(page, sequence, 3, 1, 0)
            }
            0..=899 => {
                self.chunks[which] += 1;
                [sequence, object, self.chunks[which], DATA as u32]
            }
            900..=989 => {
                let size = self.chunks[which] * DATA as u32;
                header(page, sequence, 1, object, size)
            }
            990..=994 => [sequence, object, 1, DATA as u32 + 1],
            _ => [7, 7, 7, 7],
        };
        page[DATA..].fill(0xFF);
        put(page, DATA + self.tag, &tags);
    }
}

/// Makes a page a header below the root, and gives its tags.
fn header(page: &mut [u8], sequence: u32, file_type: u32, object: u32, size: u32) -> [u32; 4] {
    let name = format!("object-{object}");
    put(page, 0, &[file_type, 1]);
    page[0x8..0x200].fill(0);
    page[0xA..0xA + name.len()].copy_from_slice(name.as_bytes());
    put(page, 0x124, &[size]);
    [sequence, file_type << 28 | object, 1 << 31 | 1, 0]
}

fn put(page: &mut [u8], at: usize, words: &[u32]) {
    for (i, word) in words.iter().enumerate() {
        page[at + 4 * i..at + 4 * i + 4].copy_from_slice(&word.to_le_bytes());
    }
}
