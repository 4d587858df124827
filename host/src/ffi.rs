//! The calls of the proved library: each answer, each declaration, and one
//! safe wrapper for it. They are those of `crates/capi`, which `crates/capi_c`
//! exports, and of `include/lohenarr.h`; a test compares them.
//!
//! Every call takes any bytes and numbers. A layout is its number in the
//! table. An answer begins with the refusal's number, 0 where nothing is
//! refused, and its other fields count only then.

use std::fmt;
use std::ops::Range;

/// An answer of the library.
pub trait Answer: Sized {
    fn refusal(&self) -> u32;

    /// The answer, or the number of its refusal.
    fn given(self) -> Result<Self, u32> {
        match self.refusal() {
            0 => Ok(self),
            number => Err(number),
        }
    }
}

macro_rules! answers {
    ($($name:ident)*) => {
        $(impl Answer for $name {
            fn refusal(&self) -> u32 {
                self.refusal
            }
        })*
    };
}

answers! {
    LayoutAnswer PagesAnswer CountsAnswer KindAnswer HeaderAnswer PartAnswer SizeAnswer ChunkAnswer
    ListAnswer TallyAnswer TableAnswer CopiesAnswer RunAnswer WhyAnswer SpansAnswer TreeAnswer
    TextAnswer PreparedAnswer RecordsAnswer
}

/// How a dump is cut into pages and blocks: a layout by its number in the table,
/// and K, the pages of a block.
#[repr(C)]
#[derive(Clone, Copy, Debug, PartialEq, Eq)]
pub struct Geometry {
    pub layout: u32,
    pub block: u32,
}

/// A layout with its number in the table; beside a refusal the number is 13.
#[repr(C)]
#[derive(Clone, Copy, Debug, PartialEq, Eq)]
pub struct LayoutAnswer {
    pub refusal: u32,
    pub number: u32,
    pub data: u32,
    pub spare: u32,
    pub tag: u32,
}

impl fmt::Display for LayoutAnswer {
    fn fmt(&self, f: &mut fmt::Formatter<'_>) -> fmt::Result {
        write!(f, "{}/{}/{}", self.data, self.spare, self.tag)
    }
}

#[repr(C)]
#[derive(Clone, Copy, Debug, PartialEq, Eq)]
pub struct PagesAnswer {
    pub refusal: u32,
    pub pages: u32,
}

#[repr(C)]
#[derive(Clone, Copy, Debug, PartialEq, Eq)]
pub struct CountsAnswer {
    pub refusal: u32,
    pub blank: u32,
    pub foreign: u32,
    pub damaged: u32,
    pub headers: u32,
    pub data: u32,
}

/// What a page is, by `kind`; fields that its kind lacks are 0.
#[repr(C)]
#[derive(Clone, Copy, Debug, PartialEq, Eq)]
pub struct KindAnswer {
    pub refusal: u32,
    pub kind: u32,
    pub sequence: u32,
    pub object: u32,
    pub page_type: u32,
    pub parent: u32,
    pub size: u32,
    pub shrink: u32,
    pub chunk: u32,
    pub count: u32,
}

impl KindAnswer {
    pub const BLANK: u32 = 1;
    pub const FOREIGN: u32 = 2;
    pub const DAMAGED: u32 = 3;
    pub const HEADER: u32 = 4;
    pub const DATA: u32 = 5;
}

/// The header fields that are numbers, in the table's order.
#[repr(C)]
#[derive(Clone, Copy, Debug, PartialEq, Eq)]
pub struct HeaderAnswer {
    pub refusal: u32,
    pub page_type: u32,
    pub parent: u32,
    pub unused1: u32,
    pub unused2: u32,
    pub mode: u32,
    pub uid: u32,
    pub gid: u32,
    pub accessed: u32,
    pub modified: u32,
    pub created: u32,
    pub file_size: u32,
    pub equivalent_id: u32,
    pub rdev: u32,
    pub win_created: u64,
    pub win_accessed: u64,
    pub win_modified: u64,
    pub inband_shadow: u32,
    pub inband_shrink: u32,
    pub size_high: u32,
    pub shadowed_id: u32,
    pub shrink: u32,
}

/// A part of the dump; beside a refusal it is empty.
#[repr(C)]
#[derive(Clone, Copy, Debug, PartialEq, Eq)]
pub struct PartAnswer {
    pub refusal: u32,
    pub offset: usize,
    pub length: usize,
}

impl PartAnswer {
    /// The bytes of the part, in the dump that the call was given.
    pub fn of(self, dump: &[u8]) -> &[u8] {
        &dump[self.offset..self.offset + self.length]
    }
}

/// The size of a file, and the records visited.
#[repr(C)]
#[derive(Clone, Copy, Debug, PartialEq, Eq)]
pub struct SizeAnswer {
    pub refusal: u32,
    pub visits: u32,
    pub size: u64,
}

/// A chunk of a file: a copy on a page where `copy` is 1, or a hole. Beside
/// ShortBuffer `need` is the length needed.
#[repr(C)]
#[derive(Clone, Copy, Debug, PartialEq, Eq)]
pub struct ChunkAnswer {
    pub refusal: u32,
    pub visits: u32,
    pub need: u32,
    pub copy: u32,
    pub page: u32,
    pub valid: u32,
    pub shown: u32,
}

impl ChunkAnswer {
    /// The page that holds the copy, unless it is a hole.
    pub fn page(&self) -> Option<u32> {
        (self.copy == 1).then_some(self.page)
    }
}

/// A part of the dump; empty for a hole or a refusal.
#[repr(C)]
#[derive(Clone, Copy, Debug, PartialEq, Eq)]
pub struct PlaceAnswer {
    pub offset: usize,
    pub length: usize,
}

impl PlaceAnswer {
    /// The bytes of the part, in the dump that the call was given.
    pub fn of(self, dump: &[u8]) -> &[u8] {
        &dump[self.offset..self.offset + self.length]
    }
}

/// How many ids a listing wrote. Beside ShortBuffer `need` is how many words
/// it needs.
#[repr(C)]
#[derive(Clone, Copy, Debug, PartialEq, Eq)]
pub struct ListAnswer {
    pub refusal: u32,
    pub need: u32,
    pub count: u32,
}

/// A number of objects.
#[repr(C)]
#[derive(Clone, Copy, Debug, PartialEq, Eq)]
pub struct TallyAnswer {
    pub refusal: u32,
    pub count: u32,
}

/// How a run of additions ended: with 0 all were done, else the addition of
/// this page was refused, and those before it stand.
#[repr(C)]
#[derive(Clone, Copy, Debug, PartialEq, Eq)]
pub struct RunAnswer {
    pub refusal: u32,
    pub page: u32,
}

/// The size of a file and how many rows its table has. Beside ShortBuffer
/// `need` is how many words it needs.
#[repr(C)]
#[derive(Clone, Copy, Debug, PartialEq, Eq)]
pub struct TableAnswer {
    pub refusal: u32,
    pub need: u32,
    pub size: u64,
    pub rows: u32,
}

/// The size of a file and how many rows its copies are; `damaged` is 1 where a
/// damaged link keeps a chunk from being found. Beside ShortBuffer `need` is how
/// many words it needs.
#[repr(C)]
#[derive(Clone, Copy, Debug, PartialEq, Eq)]
pub struct CopiesAnswer {
    pub refusal: u32,
    pub count: u32,
    pub size: u64,
    pub need: u32,
    pub damaged: u32,
}

/// The copy of a chunk: the page that holds it, and how many of its bytes are
/// valid.
#[repr(C)]
#[derive(Clone, Copy, Debug, PartialEq, Eq)]
pub struct CopyAnswer {
    pub chunk: u32,
    pub page: u32,
    pub valid: u32,
}

/// Why a byte of a file is what it is: the reason, the page that it names, of a byte
/// that is held which data byte of that page it is, the byte that is shown, and
/// the first later position with another reason or page. Beside ShortBuffer `need`
/// is how many words it needs.
#[repr(C)]
#[derive(Clone, Copy, Debug, PartialEq, Eq)]
pub struct WhyAnswer {
    pub refusal: u32,
    pub need: u32,
    pub reason: u32,
    pub page: u32,
    pub byte: u32,
    pub value: u32,
    pub until: u64,
}

impl WhyAnswer {
    pub const HELD: u32 = 1;
    pub const NO_COPY: u32 = 2;
    pub const CUT: u32 = 3;
    pub const COUNT: u32 = 4;
    pub const PAST_END: u32 = 5;
}

/// The size of a file and how many runs of bytes with one reason it has. Beside
/// ShortBuffer `need` is how many words it needs.
#[repr(C)]
#[derive(Clone, Copy, Debug, PartialEq, Eq)]
pub struct SpansAnswer {
    pub refusal: u32,
    pub need: u32,
    pub size: u64,
    pub count: u32,
}

/// A run of bytes: where it begins, its reason, the page that this names, and of
/// bytes that are held with which data byte of that page they begin.
#[repr(C)]
#[derive(Clone, Copy, Debug, PartialEq, Eq)]
pub struct SpanAnswer {
    pub from: u64,
    pub reason: u32,
    pub page: u32,
    pub byte: u32,
}

/// How many live objects other than 1 have a path from the root, and how many have
/// none. Beside ShortBuffer `need` is how many words each of the slices needs.
#[repr(C)]
#[derive(Clone, Copy, Debug, PartialEq, Eq)]
pub struct TreeAnswer {
    pub refusal: u32,
    pub need: u32,
    pub listed: u32,
    pub others: u32,
}

/// A row of the tree: the page of the object's newest header, and of an object that
/// has a path the row of its directory plus 1, or 0 where that is the root; of one
/// that has none the number of the reason.
#[repr(C)]
#[derive(Clone, Copy, Debug, PartialEq, Eq)]
pub struct RowAnswer {
    pub key: u32,
    pub page: u32,
}

impl RowAnswer {
    pub const TOO_DEEP: u32 = 1;
    pub const LOOP: u32 = 2;
    pub const MISSING: u32 = 3;
    pub const DELETED: u32 = 4;
    pub const NON_DIRECTORY: u32 = 5;
}

/// How many bytes a text has that was written. Beside ShortBuffer `need` is how many
/// it needs.
#[repr(C)]
#[derive(Clone, Copy, Debug, PartialEq, Eq)]
pub struct TextAnswer {
    pub refusal: u32,
    pub need: u64,
    pub length: u64,
}

/// How many records a dump has that was prepared to be compared. Beside ShortBuffer
/// `need` is how many words of order and of copies it needs, and half of those of work.
#[repr(C)]
#[derive(Clone, Copy, Debug, PartialEq, Eq)]
pub struct PreparedAnswer {
    pub refusal: u32,
    pub need: u32,
    pub records: u32,
}

/// The next object of two prepared dumps, or 0 where none is left, and how many words
/// at the front of each order are of it.
#[repr(C)]
#[derive(Clone, Copy, Debug, PartialEq, Eq)]
pub struct NextAnswer {
    pub object: u32,
    pub first: u64,
    pub second: u64,
}

/// A dump that was prepared, or as much of it as is of one object: the dump itself, how
/// it is read, and the words of its order and copies.
#[derive(Clone, Copy)]
pub struct Side<'a> {
    pub dump: &'a [u8],
    pub on: Geometry,
    pub order: &'a [u64],
    pub copies: &'a [u64],
}

/// How many records an object has. Beside ShortBuffer `need` is how many words each of
/// the slices needs.
#[repr(C)]
#[derive(Clone, Copy, Debug, PartialEq, Eq)]
pub struct RecordsAnswer {
    pub refusal: u32,
    pub need: u32,
    pub count: u32,
}

/// How the record on a page stands, with the page that supersedes or cuts it, or the
/// bytes of the file that it holds. What does not apply is 0.
#[repr(C)]
#[derive(Clone, Copy, Debug, PartialEq, Eq)]
pub struct StandingAnswer {
    pub from: u64,
    pub until: u64,
    pub page: u32,
    pub stands: u32,
    pub by: u32,
}

impl StandingAnswer {
    pub const NEWEST_HEADER: u32 = 1;
    pub const OLDER_HEADER: u32 = 2;
    pub const SUPERSEDED: u32 = 3;
    pub const CUT: u32 = 4;
    pub const HOLDS: u32 = 5;
    pub const NO_FILE: u32 = 6;
}

/// What a size lookup answers with an object's records up to the one on a page: the
/// size, or 0 beside the number of the refusal.
#[repr(C)]
#[derive(Clone, Copy, Debug, PartialEq, Eq)]
pub struct HistoryAnswer {
    pub size: u64,
    pub page: u32,
    pub refusal: u32,
}

/// Stands for the page before which a dump is read, where it is read as it stands.
pub const AS_IT_STANDS: u32 = u32::MAX;

// SAFETY: the declarations are the library's own: a test compares them. Those that are
// safe take numbers alone, and any numbers.
#[rustfmt::skip]
unsafe extern "C" {
    safe fn lohenarr_most_bytes() -> usize;
    safe fn lohenarr_layout(number: u32) -> LayoutAnswer;
    safe fn lohenarr_layout_sized(data: u32, spare: u32, tag: u32) -> LayoutAnswer;
    fn lohenarr_find(dump: *const u8, len: usize, k: u32) -> LayoutAnswer;
    fn lohenarr_score(dump: *const u8, len: usize, geometry: Geometry, need: u32) -> u32;
    fn lohenarr_pages(dump: *const u8, len: usize, geometry: Geometry) -> PagesAnswer;
    fn lohenarr_counts(dump: *const u8, len: usize, geometry: Geometry) -> CountsAnswer;
    fn lohenarr_kind(dump: *const u8, len: usize, geometry: Geometry, page: u32) -> KindAnswer;
    fn lohenarr_header(dump: *const u8, len: usize, geometry: Geometry, page: u32) -> HeaderAnswer;
    fn lohenarr_header_name(dump: *const u8, len: usize, geometry: Geometry, page: u32) -> PartAnswer;
    fn lohenarr_header_alias(dump: *const u8, len: usize, geometry: Geometry, page: u32) -> PartAnswer;
    fn lohenarr_header_reserved(dump: *const u8, len: usize, geometry: Geometry, page: u32) -> PartAnswer;
    fn lohenarr_dump_size(dump: *const u8, len: usize, geometry: Geometry, object: u32) -> SizeAnswer;
    fn lohenarr_dump_chunk(dump: *const u8, len: usize, geometry: Geometry, object: u32, n: u32) -> ChunkAnswer;
    fn lohenarr_dump_read(dump: *const u8, len: usize, geometry: Geometry, object: u32, n: u32, buffer: *mut u8, buffer_len: usize) -> ChunkAnswer;
    fn lohenarr_dump_part(dump: *const u8, len: usize, geometry: Geometry, object: u32, n: u32) -> PlaceAnswer;
    fn lohenarr_dump_list(dump: *const u8, len: usize, geometry: Geometry, words: *mut u32, words_len: usize) -> ListAnswer;
    fn lohenarr_dump_live(dump: *const u8, len: usize, geometry: Geometry) -> TallyAnswer;
    fn lohenarr_dump_objects(dump: *const u8, len: usize, geometry: Geometry) -> TallyAnswer;
    safe fn lohenarr_cells(pages: u32) -> usize;
    fn lohenarr_start(dump: *const u8, len: usize, geometry: Geometry, cells: *mut u32, cells_len: usize, seed: u32) -> u32;
    fn lohenarr_add(dump: *const u8, len: usize, geometry: Geometry, cells: *mut u32, cells_len: usize, page: u32) -> u32;
    fn lohenarr_add_run(dump: *const u8, len: usize, geometry: Geometry, cells: *mut u32, cells_len: usize, from: u32, to: u32) -> RunAnswer;
    fn lohenarr_add_older(dump: *const u8, len: usize, geometry: Geometry, cells: *mut u32, cells_len: usize, from: u32, to: u32, before: u32) -> RunAnswer;
    fn lohenarr_size(dump: *const u8, len: usize, geometry: Geometry, cells: *const u32, cells_len: usize, object: u32) -> SizeAnswer;
    fn lohenarr_chunk(dump: *const u8, len: usize, geometry: Geometry, cells: *const u32, cells_len: usize, object: u32, n: u32) -> ChunkAnswer;
    fn lohenarr_read(dump: *const u8, len: usize, geometry: Geometry, cells: *const u32, cells_len: usize, object: u32, n: u32, buffer: *mut u8, buffer_len: usize) -> ChunkAnswer;
    fn lohenarr_part(dump: *const u8, len: usize, geometry: Geometry, cells: *const u32, cells_len: usize, object: u32, n: u32) -> PlaceAnswer;
    fn lohenarr_list(dump: *const u8, len: usize, geometry: Geometry, cells: *const u32, cells_len: usize, words: *mut u32, words_len: usize) -> ListAnswer;
    fn lohenarr_records(dump: *const u8, len: usize, geometry: Geometry, cells: *const u32, cells_len: usize, object: u32, words: *mut u32, words_len: usize) -> ListAnswer;
    fn lohenarr_objects(dump: *const u8, len: usize, geometry: Geometry, cells: *const u32, cells_len: usize) -> TallyAnswer;
    fn lohenarr_table(dump: *const u8, len: usize, geometry: Geometry, cells: *const u32, cells_len: usize, object: u32, words: *mut u32, words_len: usize) -> TableAnswer;
    fn lohenarr_row(dump: *const u8, len: usize, geometry: Geometry, place: u32, valid: u32) -> PlaceAnswer;
    fn lohenarr_copies(dump: *const u8, len: usize, geometry: Geometry, cells: *const u32, cells_len: usize, object: u32, rows: *mut u64, rows_len: usize) -> CopiesAnswer;
    safe fn lohenarr_copy(row: u64) -> CopyAnswer;
    fn lohenarr_dump_why(dump: *const u8, len: usize, geometry: Geometry, before: u32, object: u32, position: u64, rows: *mut u64, rows_len: usize) -> WhyAnswer;
    fn lohenarr_dump_spans(dump: *const u8, len: usize, geometry: Geometry, before: u32, object: u32, rows: *mut u64, rows_len: usize) -> SpansAnswer;
    safe fn lohenarr_span(geometry: Geometry, row: u64) -> SpanAnswer;
    fn lohenarr_dump_stands(dump: *const u8, len: usize, geometry: Geometry, before: u32, object: u32, rows: *mut u64, rows_len: usize, details: *mut u64, details_len: usize, work: *mut u64, work_len: usize) -> RecordsAnswer;
    safe fn lohenarr_standing(geometry: Geometry, row: u64, detail: u64) -> StandingAnswer;
    fn lohenarr_dump_history(dump: *const u8, len: usize, geometry: Geometry, before: u32, object: u32, rows: *mut u64, rows_len: usize, sizes: *mut u64, sizes_len: usize) -> RecordsAnswer;
    safe fn lohenarr_history_row(row: u64, size: u64) -> HistoryAnswer;
    fn lohenarr_dump_tree(dump: *const u8, len: usize, geometry: Geometry, before: u32, rows: *mut u64, rows_len: usize, heads: *mut u64, heads_len: usize, work: *mut u64, work_len: usize) -> TreeAnswer;
    safe fn lohenarr_tree_row(row: u64) -> RowAnswer;
    fn lohenarr_tree_text(dump: *const u8, len: usize, geometry: Geometry, rows: *const u64, rows_len: usize, listed: u32, buf: *mut u8, buf_len: usize) -> TextAnswer;
    fn lohenarr_tree_path(dump: *const u8, len: usize, geometry: Geometry, rows: *const u64, rows_len: usize, row: u32, buf: *mut u8, buf_len: usize) -> TextAnswer;
    fn lohenarr_compare_prepare(dump: *const u8, len: usize, geometry: Geometry, order: *mut u64, order_len: usize, copies: *mut u64, copies_len: usize, work: *mut u64, work_len: usize) -> PreparedAnswer;
    fn lohenarr_compare_next(order1: *const u64, order1_len: usize, order2: *const u64, order2_len: usize) -> NextAnswer;
    fn lohenarr_compare_object(dump1: *const u8, dump1_len: usize, geometry1: Geometry, order1: *const u64, order1_len: usize, copies1: *const u64, copies1_len: usize, dump2: *const u8, dump2_len: usize, geometry2: Geometry, order2: *const u64, order2_len: usize, copies2: *const u64, copies2_len: usize, object: u32, buf: *mut u8, buf_len: usize) -> TextAnswer;
    fn lohenarr_compare(dump1: *const u8, dump1_len: usize, geometry1: Geometry, order1: *const u64, order1_len: usize, copies1: *const u64, copies1_len: usize, dump2: *const u8, dump2_len: usize, geometry2: Geometry, order2: *const u64, order2_len: usize, copies2: *const u64, copies2_len: usize, buf: *mut u8, buf_len: usize) -> TextAnswer;
}

/// Calls the library on memory: `[slice]` is lent to be read and `[mut slice]` to be
/// written, each as its address and its length.
macro_rules! call {
    (@ $call:ident() $($given:expr,)*) => {
        // SAFETY: what the header asks of memory, a slice is while it is borrowed: its length
        // of valid, aligned elements with values, no more than `isize::MAX` bytes, that nobody
        // else writes; nor reads, where it is lent to be written, so that it overlaps nothing.
        // An empty one has an address that is not null. Numbers may be any.
        unsafe { $call($($given),*) }
    };
    (@ $call:ident([mut $slice:expr], $($rest:tt)*) $($given:tt)*) => {
        call!(@ $call($($rest)*) $($given)* $slice.as_mut_ptr(), $slice.len(),)
    };
    (@ $call:ident([$slice:expr], $($rest:tt)*) $($given:tt)*) => {
        call!(@ $call($($rest)*) $($given)* $slice.as_ptr(), $slice.len(),)
    };
    (@ $call:ident($value:expr, $($rest:tt)*) $($given:tt)*) => {
        call!(@ $call($($rest)*) $($given)* $value,)
    };
    ($call:ident($($parameters:tt)*)) => {
        call!(@ $call($($parameters)*,))
    };
}

/// The most bytes that a dump has.
pub fn most_bytes() -> usize {
    lohenarr_most_bytes()
}

/// The layout with a number in the table.
pub fn layout(number: u32) -> LayoutAnswer {
    lohenarr_layout(number)
}

/// The layout with these sizes and this tag offset.
pub fn layout_sized(data: u32, spare: u32, tag: u32) -> LayoutAnswer {
    lohenarr_layout_sized(data, spare, tag)
}

/// The layout of a dump in blocks of so many pages.
pub fn find(dump: &[u8], block: u32) -> LayoutAnswer {
    call!(lohenarr_find([dump], block))
}

/// The score of finding the layout, for a dump read so: how many good pages bear
/// their block's sequence. 0 where that is below `need`, where the candidate does
/// not fit, and where the dump is refused.
pub fn score(dump: &[u8], on: Geometry, need: u32) -> u32 {
    call!(lohenarr_score([dump], on, need))
}

/// The page count of a dump.
pub fn pages(dump: &[u8], on: Geometry) -> PagesAnswer {
    call!(lohenarr_pages([dump], on))
}

/// How many pages of a dump are of each kind.
pub fn counts(dump: &[u8], on: Geometry) -> CountsAnswer {
    call!(lohenarr_counts([dump], on))
}

/// The kind of a page.
pub fn kind(dump: &[u8], on: Geometry, page: u32) -> KindAnswer {
    call!(lohenarr_kind([dump], on, page))
}

/// The header fields of a page that are numbers.
pub fn header(dump: &[u8], on: Geometry, page: u32) -> HeaderAnswer {
    call!(lohenarr_header([dump], on, page))
}

/// The name in a header, as a part of the dump.
pub fn header_name(dump: &[u8], on: Geometry, page: u32) -> PartAnswer {
    call!(lohenarr_header_name([dump], on, page))
}

/// The alias in a header, as a part of the dump.
pub fn header_alias(dump: &[u8], on: Geometry, page: u32) -> PartAnswer {
    call!(lohenarr_header_alias([dump], on, page))
}

/// The reserved bytes of a header, as a part of the dump.
pub fn header_reserved(dump: &[u8], on: Geometry, page: u32) -> PartAnswer {
    call!(lohenarr_header_reserved([dump], on, page))
}

/// The size of an object, from the dump alone.
pub fn dump_size(dump: &[u8], on: Geometry, object: u32) -> SizeAnswer {
    call!(lohenarr_dump_size([dump], on, object))
}

/// A chunk of an object, from the dump alone.
pub fn dump_chunk(dump: &[u8], on: Geometry, object: u32, n: u32) -> ChunkAnswer {
    call!(lohenarr_dump_chunk([dump], on, object, n))
}

/// A chunk of an object read into a buffer, from the dump alone.
pub fn dump_read(dump: &[u8], on: Geometry, object: u32, n: u32, buffer: &mut [u8]) -> ChunkAnswer {
    call!(lohenarr_dump_read([dump], on, object, n, [mut buffer]))
}

/// The valid bytes of a chunk, as a part of the dump, from the dump alone.
pub fn dump_part(dump: &[u8], on: Geometry, object: u32, n: u32) -> PlaceAnswer {
    call!(lohenarr_dump_part([dump], on, object, n))
}

/// The ids of the live objects, ascending, from the dump alone.
pub fn dump_list(dump: &[u8], on: Geometry, words: &mut [u32]) -> ListAnswer {
    call!(lohenarr_dump_list([dump], on, [mut words]))
}

/// How many objects are live.
pub fn dump_live(dump: &[u8], on: Geometry) -> TallyAnswer {
    call!(lohenarr_dump_live([dump], on))
}

/// How many objects have records.
pub fn dump_objects(dump: &[u8], on: Geometry) -> TallyAnswer {
    call!(lohenarr_dump_objects([dump], on))
}

/// How many words an index of so many pages has.
pub fn cells(pages: u32) -> usize {
    lohenarr_cells(pages)
}

/// Makes an index empty: the number of the refusal, or 0. The seed says where a
/// search for an object begins; no answer depends on it.
pub fn start(dump: &[u8], on: Geometry, cells: &mut [u32], seed: u32) -> u32 {
    call!(lohenarr_start([dump], on, [mut cells], seed))
}

/// Adds a page to an index: the number of the refusal, or 0.
pub fn add(dump: &[u8], on: Geometry, cells: &mut [u32], page: u32) -> u32 {
    call!(lohenarr_add([dump], on, [mut cells], page))
}

/// Adds the pages from one to before another to an index, until one is refused.
#[rustfmt::skip]
pub fn add_run(dump: &[u8], on: Geometry, cells: &mut [u32], from: u32, to: u32) -> RunAnswer {
    call!(lohenarr_add_run([dump], on, [mut cells], from, to))
}

/// Adds of the pages from one to before another the records that are older than
/// page `before`, until one is refused.
pub fn add_older(
    dump: &[u8],
    on: Geometry,
    cells: &mut [u32],
    pages: Range<u32>,
    before: u32,
) -> RunAnswer {
    let (from, to) = (pages.start, pages.end);
    call!(lohenarr_add_older([dump], on, [mut cells], from, to, before))
}

/// The size of an object, by the index.
pub fn size(dump: &[u8], on: Geometry, cells: &[u32], object: u32) -> SizeAnswer {
    call!(lohenarr_size([dump], on, [cells], object))
}

/// A chunk of an object, by the index.
pub fn chunk(dump: &[u8], on: Geometry, cells: &[u32], object: u32, n: u32) -> ChunkAnswer {
    call!(lohenarr_chunk([dump], on, [cells], object, n))
}

/// A chunk of an object read into a buffer, by the index.
#[rustfmt::skip]
pub fn read(dump: &[u8], on: Geometry, cells: &[u32], object: u32, n: u32, buffer: &mut [u8]) -> ChunkAnswer {
    call!(lohenarr_read([dump], on, [cells], object, n, [mut buffer]))
}

/// The valid bytes of a chunk, as a part of the dump, by the index.
pub fn part(dump: &[u8], on: Geometry, cells: &[u32], object: u32, n: u32) -> PlaceAnswer {
    call!(lohenarr_part([dump], on, [cells], object, n))
}

/// The ids of the live objects, ascending, by the index.
pub fn list(dump: &[u8], on: Geometry, cells: &[u32], words: &mut [u32]) -> ListAnswer {
    call!(lohenarr_list([dump], on, [cells], [mut words]))
}

/// The pages of the records of an object, from the newest to the oldest, by the
/// index.
pub fn records(
    dump: &[u8],
    on: Geometry,
    cells: &[u32],
    object: u32,
    words: &mut [u32],
) -> ListAnswer {
    call!(lohenarr_records([dump], on, [cells], object, [mut words]))
}

/// How many objects have an added record, by the index.
pub fn objects(dump: &[u8], on: Geometry, cells: &[u32]) -> TallyAnswer {
    call!(lohenarr_objects([dump], on, [cells]))
}

/// The chunks of a file, two words for each, by the index.
#[rustfmt::skip]
pub fn table(dump: &[u8], on: Geometry, cells: &[u32], object: u32, words: &mut [u32]) -> TableAnswer {
    call!(lohenarr_table([dump], on, [cells], object, [mut words]))
}

/// The valid bytes of the copy that a row of a table names, as a part of the
/// dump.
pub fn row(dump: &[u8], on: Geometry, place: u32, valid: u32) -> PlaceAnswer {
    call!(lohenarr_row([dump], on, place, valid))
}

/// The copies that a file shows, ascending by chunk, a number for each, by the
/// index.
#[rustfmt::skip]
pub fn copies(dump: &[u8], on: Geometry, cells: &[u32], object: u32, rows: &mut [u64]) -> CopiesAnswer {
    call!(lohenarr_copies([dump], on, [cells], object, [mut rows]))
}

/// The copy that a row of copies tells.
pub fn copy(row: u64) -> CopyAnswer {
    lohenarr_copy(row)
}

/// Why the byte at a position of a file is what it is, from the dump alone, as it
/// stood before the record on page `before` was written. The rows are working
/// memory: those that are needed are cleared.
#[rustfmt::skip]
pub fn dump_why(dump: &[u8], on: Geometry, before: u32, object: u32, position: u64, rows: &mut [u64]) -> WhyAnswer {
    call!(lohenarr_dump_why([dump], on, before, object, position, [mut rows]))
}

/// The runs of bytes of a file that have one reason, ascending, a row for each, from
/// the dump alone, as it stood before the record on page `before` was written.
#[rustfmt::skip]
pub fn dump_spans(dump: &[u8], on: Geometry, before: u32, object: u32, rows: &mut [u64]) -> SpansAnswer {
    call!(lohenarr_dump_spans([dump], on, before, object, [mut rows]))
}

/// The run that a row tells.
pub fn span(on: Geometry, row: u64) -> SpanAnswer {
    lohenarr_span(on, row)
}

/// How each record of an object stands, the oldest first, a row and a second word for
/// each, from the dump alone, as it stood before the record on page `before` was
/// written. `work` is working memory: as many words as are needed are cleared.
#[rustfmt::skip]
pub fn dump_stands(dump: &[u8], on: Geometry, before: u32, object: u32, rows: &mut [u64], details: &mut [u64], work: &mut [u64]) -> RecordsAnswer {
    call!(lohenarr_dump_stands([dump], on, before, object, [mut rows], [mut details], [mut work]))
}

/// What a row of standings tells, with its second word.
pub fn standing(on: Geometry, row: u64, detail: u64) -> StandingAnswer {
    lohenarr_standing(on, row, detail)
}

/// What a size lookup answers after each record of an object, the oldest first, a row
/// and a size for each, from the dump alone, as it stood before the record on page
/// `before` was written.
#[rustfmt::skip]
pub fn dump_history(dump: &[u8], on: Geometry, before: u32, object: u32, rows: &mut [u64], sizes: &mut [u64]) -> RecordsAnswer {
    call!(lohenarr_dump_history([dump], on, before, object, [mut rows], [mut sizes]))
}

/// What a row of a history tells, with its size.
pub fn history_row(row: u64, size: u64) -> HistoryAnswer {
    lohenarr_history_row(row, size)
}

/// The live objects other than 1, a row for each: those that have a path in the order
/// of the tree, then the others ascending by id, as the dump stood before the record
/// on page `before` was written. `heads` and `work` are working memory: as many words
/// as are needed are cleared.
#[rustfmt::skip]
pub fn dump_tree(dump: &[u8], on: Geometry, before: u32, rows: &mut [u64], heads: &mut [u64], work: &mut [u64]) -> TreeAnswer {
    call!(lohenarr_dump_tree([dump], on, before, [mut rows], [mut heads], [mut work]))
}

/// What a row of the tree tells.
pub fn tree_row(row: u64) -> RowAnswer {
    lohenarr_tree_row(row)
}

/// The text of the tree whose rows these are, written to the front of a buffer; so
/// many of them have a path.
pub fn tree_text(
    dump: &[u8],
    on: Geometry,
    rows: &[u64],
    listed: u32,
    buf: &mut [u8],
) -> TextAnswer {
    call!(lohenarr_tree_text([dump], on, [rows], listed, [mut buf]))
}

/// The path of a row that has one, written to the front of a buffer.
pub fn tree_path(dump: &[u8], on: Geometry, rows: &[u64], row: u32, buf: &mut [u8]) -> TextAnswer {
    call!(lohenarr_tree_path([dump], on, [rows], row, [mut buf]))
}

/// Prepares a dump to be compared: in `order` its records, ascending by object and the
/// newest first in each, and in `copies` at the same places those that each object's
/// file shows. `work` is working memory, which is cleared.
#[rustfmt::skip]
pub fn compare_prepare(dump: &[u8], on: Geometry, order: &mut [u64], copies: &mut [u64], work: &mut [u64]) -> PreparedAnswer {
    call!(lohenarr_compare_prepare([dump], on, [mut order], [mut copies], [mut work]))
}

/// The lesser of the objects with which two orders begin.
pub fn compare_next(order1: &[u64], order2: &[u64]) -> NextAnswer {
    call!(lohenarr_compare_next([order1], [order2]))
}

/// The report of one object by its words on each side, written to the front of a buffer.
#[rustfmt::skip]
pub fn compare_object(one: Side<'_>, other: Side<'_>, object: u32, buf: &mut [u8]) -> TextAnswer {
    call!(lohenarr_compare_object(
        [one.dump], one.on, [one.order], [one.copies],
        [other.dump], other.on, [other.order], [other.copies],
        object, [mut buf]
    ))
}

/// The report of all objects of two prepared dumps, written to the front of a buffer.
#[rustfmt::skip]
pub fn compare(one: Side<'_>, other: Side<'_>, buf: &mut [u8]) -> TextAnswer {
    call!(lohenarr_compare(
        [one.dump], one.on, [one.order], [one.copies],
        [other.dump], other.on, [other.order], [other.copies],
        [mut buf]
    ))
}
