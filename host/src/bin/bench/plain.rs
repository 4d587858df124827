//! The same rules in plain Rust, as one would write them by hand: page kinds
//! and counts.

/// The table: data size, spare size and tag offset.
pub const LAYOUTS: [(usize, usize, usize); 13] = [
    (2048, 64, 0),
    (2048, 64, 2),
    (2048, 64, 30),
    (4096, 128, 0),
    (4096, 128, 2),
    (4096, 128, 30),
    (512, 16, 0),
    (8192, 224, 0),
    (8192, 224, 2),
    (8192, 224, 30),
    (16384, 448, 0),
    (16384, 448, 2),
    (16384, 448, 30),
];

/// What the tags of a page alone say.
#[derive(Clone, Copy, PartialEq, Eq)]
pub enum Claim {
    Blank,
    Foreign,
    Damaged,
    Header,
    Data,
}

pub fn word(bytes: &[u8], at: usize) -> u32 {
    u32::from_le_bytes(bytes[at..at + 4].try_into().unwrap())
}

/// What the tags say, first match wins.
pub fn claim_of(tags: &[u8], sequence: u32, data: usize) -> Claim {
    if sequence == u32::MAX {
        return Claim::Blank;
    }
    if !(0x1000..=0xEFFF_FF00).contains(&sequence) {
        return Claim::Foreign;
    }
    let (object, chunk) = (word(tags, 4), word(tags, 8));
    let typed = chunk >= 1 << 31;
    let id = if typed { object & 0x0FFF_FFFF } else { object };
    if id == 0 || id > 0x0FFF_FFFF {
        return Claim::Damaged;
    }
    if typed || chunk == 0 {
        return Claim::Header;
    }
    let count = word(tags, 12);
    if chunk > 0xF_FFFF || count == 0 || count as usize > data {
        return Claim::Damaged;
    }
    Claim::Data
}

/// Whether a header by its tags is damaged by its types.
pub fn bad_type(page: &[u8], data: usize, tag: usize) -> bool {
    let page_type = word(page, 0);
    let tags = &page[data + tag..data + tag + 16];
    let typed = word(tags, 8) >= 1 << 31;
    !(1..=5).contains(&page_type) || typed && word(tags, 4) >> 28 != page_type
}

/// Blank, foreign, damaged, headers and data. Each has a counter of its own:
/// an array indexed by the kind is three times slower, since a store whose
/// place hangs on a word not yet read holds up the pages behind it.
pub fn counts(dump: &[u8], layout: u32) -> [u32; 5] {
    let (data, spare, tag) = LAYOUTS[layout as usize];
    let (mut blank, mut foreign, mut damaged, mut headers, mut chunks) = (0, 0, 0, 0, 0);
    for page in dump.chunks_exact(data + spare) {
        let tags = &page[data + tag..data + tag + 16];
        match claim_of(tags, word(tags, 0), data) {
            Claim::Blank => blank += 1,
            Claim::Foreign => foreign += 1,
            Claim::Damaged => damaged += 1,
            Claim::Header if bad_type(page, data, tag) => damaged += 1,
            Claim::Header => headers += 1,
            Claim::Data => chunks += 1,
        }
    }
    [blank, foreign, damaged, headers, chunks]
}

/// One word of each page's tags: what any scan of a mapped dump costs at least.
pub fn touch(dump: &[u8], layout: u32) -> u32 {
    let (data, spare, tag) = LAYOUTS[layout as usize];
    let words = dump.chunks_exact(data + spare);
    words.fold(0, |sum, page| word(page, data + tag).wrapping_add(sum))
}
