//! W, and dumps made of it, in a folder of a test's own.

use std::fs;

use tempfile::TempDir;

pub const W: &[u8] = include_bytes!("../data/W");
const PAGE: usize = 528;
const DATA: usize = 512;

/// Where a header has its name, its size and its alias, and the word behind that.
const NAME: usize = 0xA;
pub const SIZE: usize = 0x124;
const ALIAS: usize = 0x12C;
const RDEV: usize = 0x1CC;

/// A new folder with the dumps. It goes when this does.
pub fn folder() -> TempDir {
    let folder = tempfile::tempdir().unwrap();
    let put = |name: &str, bytes: &[u8]| fs::write(folder.path().join(name), bytes).unwrap();
    put("W", W);
    put("-W", W);
    put("empty", b"");
    put("one-byte-short", &W[..W.len() - 1]);
    put("data-alone", page(1));
    put("unlinked", &with(page(0), 4, 3));
    put(
        "directory",
        &with(&with(page(0), 0, 3), DATA + 4, 3 << 28 | 257),
    );
    put("blank", &[0xFF; PAGE]);
    put("text", &b"a line of text\n".repeat(PAGE)[..PAGE]);
    put("gzip", &[b"\x1F\x8B\x08\0", &W[..PAGE - 3]].concat());
    put("newline", &named(b"a\nb"));
    put("backslash", &named(b"a\\x0Ab"));
    put("link", &link());
    put(
        "far",
        &[page(0), &with(page(1), DATA + 8, 0xF_FFFF)].concat(),
    );
    put("deleted", &deleted());
    put("deleted-and-anew", &anew(4));
    put("unlinked-and-anew", &anew(3));
    put("half-gib", &with(page(0), SIZE, 1 << 29));
    put("4-gib", &with(page(0), SIZE, u32::MAX));
    put("forest", &forest());
    put("morning", &morning());
    put("relaid", &relaid());
    folder
}

fn page(number: usize) -> &'static [u8] {
    &W[number * PAGE..(number + 1) * PAGE]
}

/// A page with one of its words changed.
pub fn with(page: &[u8], at: usize, word: u32) -> Vec<u8> {
    let mut page = page.to_vec();
    page[at..at + 4].copy_from_slice(&word.to_le_bytes());
    page
}

/// A header with this name, behind which a zero stands, as behind its alias.
fn named(name: &[u8]) -> Vec<u8> {
    let mut page = page(0).to_vec();
    page[NAME..SIZE].fill(0);
    page[NAME..NAME + name.len()].copy_from_slice(name);
    with(&page, ALIAS, 0)
}

/// W without its page 4, so that nothing cuts its file.
fn morning() -> Vec<u8> {
    let blank = with(page(4), DATA, u32::MAX);
    [&W[..4 * PAGE], &blank, &W[5 * PAGE..]].concat()
}

/// W with one page more that is written, which unlinks its file.
fn deleted() -> Vec<u8> {
    [&W[..7 * PAGE], &with(page(4), 4, 3)].concat()
}

/// The file of W in two pages of 2048/64/2, with the newest header that it has there.
fn relaid() -> Vec<u8> {
    let bytes = [&page(5)[..300], &[0; 724], &page(6)[..10]].concat();
    let long = |data: &[u8], tags: [u32; 4]| {
        let mut long = vec![0xFF; 2048 + 64];
        long[..data.len()].copy_from_slice(data);
        for (at, word) in (2050..).step_by(4).zip(tags) {
            long = with(&long, at, word);
        }
        long
    };
    let header = long(&page(4)[..DATA], [4097, 1 << 28 | 257, 0x8000_0001, 0]);
    let data = long(&bytes, [4097, 257, 1, bytes.len() as u32]);
    [header, data].concat()
}

/// A symbolic link whose target is as long as can be. The words of the header
/// behind it are 1, 2 and so on.
fn link() -> Vec<u8> {
    let mut page = named(b"link");
    page[ALIAS..RDEV - 1].fill(b'a');
    page[RDEV - 1] = 0;
    for (n, at) in (1..).zip((RDEV..DATA).step_by(4)) {
        page = with(&page, at, n);
    }
    with(&with(&page, 0, 2), DATA + 4, 2 << 28 | 257)
}

/// A file that is put under a parent and made anew, with data before and after, and
/// a size that is no mark's but cuts what is older; one byte lies behind that.
fn anew(parent: u32) -> Vec<u8> {
    let (header, data) = (page(0), page(1));
    let last = with(&with(data, DATA + 8, 5), DATA + 12, 1);
    [
        data,
        &with(header, 4, parent),
        header,
        &with(data, DATA + 8, 4),
        &with(header, SIZE, 1600),
        &last,
    ]
    .concat()
}

/// A header page of an object of this type, under a parent, with a name.
pub fn header(id: u32, file_type: u32, parent: u32, name: &[u8]) -> Vec<u8> {
    let page = with(&with(&named(name), 0, file_type), 4, parent);
    with(&page, DATA + 4, file_type << 28 | id)
}

/// A header page of a symbolic link.
pub fn symbolic(id: u32, parent: u32, name: &[u8], target: &[u8]) -> Vec<u8> {
    let mut page = header(id, 2, parent, name);
    page[ALIAS..RDEV].fill(0);
    page[ALIAS..ALIAS + target.len()].copy_from_slice(target);
    page
}

/// A data page with the first chunk of an object, so many bytes.
pub fn first_chunk(id: u32, count: u32) -> Vec<u8> {
    with(&with(page(1), DATA + 4, id), DATA + 12, count)
}

/// 24 pages: directories, files of one name, names that are no words of a path, an
/// object of each sort that has no path, and one that was moved (page 19).
fn forest() -> Vec<u8> {
    const FILE: u32 = 1;
    const LINK: u32 = 2;
    const DIRECTORY: u32 = 3;
    let long = with(&header(259, FILE, 1, b"pass1.log"), SIZE, 612);
    let pages = [
        header(257, DIRECTORY, 1, b"old"),
        header(258, FILE, 257, b"pass1.log"),
        long,
        header(260, FILE, 1, b"log"),
        header(261, FILE, 1, b"log"),
        header(262, DIRECTORY, 1, b"log"),
        header(263, FILE, 262, b"x"),
        header(264, FILE, 1, b"a/b"),
        header(265, DIRECTORY, 1, b".."),
        header(266, FILE, 1, b""),
        header(267, FILE, 1, b"a\nobject=1"),
        header(268, DIRECTORY, 268, b"loop"),
        header(269, FILE, 99, b"missing"),
        header(270, DIRECTORY, 4, b"gone"),
        header(271, FILE, 270, b"deleted"),
        header(272, FILE, 260, b"in-a-file"),
        header(273, LINK, 257, b"link"),
        header(274, FILE, 1, "ä\\".as_bytes()),
        header(275, DIRECTORY, 1, b"was"),
        header(275, DIRECTORY, 257, b"now"),
        header(1, DIRECTORY, 1, b"root"),
        with(page(1), DATA + 4, 259),
        header(276, FILE, 265, b"up"),
        vec![0xFF; PAGE],
    ];
    pages.concat()
}

/// One file of so many whole chunks, each page of which is in a block of its
/// own, header first.
pub fn long(chunks: u32) -> Vec<u8> {
    let size = chunks * DATA as u32;
    let mut dump = with(page(0), SIZE, size);
    for n in 1..=chunks {
        dump.extend(with(page(1), DATA + 8, n));
    }
    dump
}

/// 64 MiB and more: 32,768 pages of 2048/64 in blocks of 64, each block with a
/// file of its own, header first. The tags of the middle 64th stand at one offset
/// of the spare, all others at another.
pub fn spread(middle: usize, rest: usize) -> Vec<u8> {
    let mut dump = vec![0xFF; 32_768 * 2112];
    for (number, to) in (0..).zip(dump.chunks_exact_mut(2112)) {
        let (block, n) = (number / 64, number % 64);
        let is_middle = number / 512 == 32;
        let tags = 2048 + if is_middle { middle } else { rest };
        let mut from = page(n.min(1) as usize).to_vec();
        let word = |at: usize| u32::from_le_bytes(from[at..at + 4].try_into().unwrap());
        let object = word(DATA + 4) + block;
        from = with(&with(&from, DATA, 0x1001 + block), DATA + 4, object);
        if n > 0 {
            from = with(&from, DATA + 8, n);
        }
        to[..DATA].copy_from_slice(&from[..DATA]);
        to[tags..tags + 16].copy_from_slice(&from[DATA..]);
    }
    dump
}
