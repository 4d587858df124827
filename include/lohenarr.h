/* Lohenarr: reads raw NAND dumps under YAFFS2. The calls of the proved
 * library libcapi.a, which `make library` builds for x86-64 Linux;
 * `make install` puts it in place as liblohenarr.a.
 *
 * A dump is lent as a pointer and a length, and is only read; how it is read is
 * given as its geometry. Other memory is lent to be written. A length counts
 * elements: bytes, words of 32 bits, or words of 64.
 *
 * What a call gives. Every call takes any bytes and any numbers, and ends. It
 * answers a number or a struct by value. Most answers begin with the number of
 * the refusal, LOHENARR_OK where nothing is refused; the other fields count only
 * then, but where their comment says otherwise. A call that is refused writes
 * nothing, but for a run of additions, which stops at the one that is refused.
 * Beside LOHENARR_SHORT_BUFFER, need is how many elements must be lent, of each
 * of several slices as many; so a call with lengths of 0 measures. need is 0 else.
 * A text gets no zero byte at its end.
 *
 * What a caller owes. No call can see whether this is so:
 *
 * - Each pointer leads to as many elements as its length says, for as long as
 *   the call runs: readable, and writable where they are not const; aligned as
 *   their type is, which what malloc gives and arrays of that type are; in all no
 *   more than PTRDIFF_MAX bytes; and each written once before, whatever it holds.
 *   So memory that is lent to be written comes from calloc, or is set first.
 * - No pointer is NULL. With length 0 it may be any other address that is aligned,
 *   such as that of a variable; nothing is read or written there.
 * - What is lent to be written overlaps nothing else that the call is given. A
 *   buffer inside the dump would alter the evidence. What is only read may
 *   overlap: a dump may be compared with itself.
 * - While the call runs nobody else writes to any of it, nor reads what is lent
 *   to be written: no other thread or handler, and where a file is mapped no
 *   other process. A mapped file that is shortened meanwhile ends the program by
 *   SIGBUS, or reads as zeros; if that can happen, read it into memory first.
 * - A number that is wider than its parameter is refused by the caller. C would
 *   cut it off without a word, and the answer be one for another object or page.
 *
 * Where a caller breaks one of these, the call is undefined, as it is in C:
 * nothing that is proved speaks of it.
 *
 * What the library leaves alone. It keeps nothing from one call to the next, has
 * no variables, allocates nothing, takes no lock, opens no file and prints
 * nothing; of other libraries it calls memset alone. So threads may call it at
 * the same time, on one dump too, if none writes to what another is given. It
 * takes less than 16 KiB of stack, whatever the dump holds: that is counted in the
 * compiled code, not proved. */
#ifndef LOHENARR_H
#define LOHENARR_H

#include <stddef.h>
#include <stdint.h>

#ifdef __cplusplus
extern "C" {
#endif

/* Why a call refuses. Answers hold the number as a uint32_t. */
enum lohenarr_refusal {
    LOHENARR_OK = 0,             /* nothing is refused */
    LOHENARR_BAD_LAYOUT = 1,     /* no such layout, or K is not 1 to 256 */
    LOHENARR_BAD_LENGTH = 2,     /* no bytes, too many, or no whole blocks */
    LOHENARR_NO_LAYOUT = 3,      /* no layout fits the dump */
    LOHENARR_BAD_OBJECT = 4,     /* the id is not 1 to 0x0FFFFFFF */
    LOHENARR_BAD_CHUNK = 5,      /* the chunk is not 1 to 0xFFFFF */
    LOHENARR_NO_OBJECT = 6,      /* the object has no records */
    LOHENARR_NO_HEADER = 7,      /* the object has data and no header */
    LOHENARR_DELETED = 8,        /* its newest header says that it is deleted */
    LOHENARR_NOT_A_FILE = 9,     /* the object is no file */
    LOHENARR_PAST_END = 10,      /* the file ends before the chunk */
    LOHENARR_SHORT_BUFFER = 11,  /* too little is lent; need says how much */
    LOHENARR_SHORT_INDEX = 12,   /* the index has fewer words than lohenarr_cells */
    LOHENARR_INDEX_DAMAGED = 13, /* a link of the index is damaged */
    LOHENARR_BAD_PAGE = 14,      /* the dump has no such page */
    LOHENARR_ALREADY_ADDED = 15, /* the page is in the index */
    LOHENARR_NOT_HEADER = 16     /* the page is no header */
};

/* What a page is. Beside a refusal the number is 0. */
enum lohenarr_page_kind {
    LOHENARR_KIND_BLANK = 1,
    LOHENARR_KIND_FOREIGN = 2,
    LOHENARR_KIND_DAMAGED = 3,
    LOHENARR_KIND_HEADER = 4,
    LOHENARR_KIND_DATA = 5
};

/* Why a byte of a file is what it is. Beside a refusal the number is 0. */
enum lohenarr_reason {
    LOHENARR_WHY_HELD = 1,    /* a page holds it */
    LOHENARR_WHY_NO_COPY = 2, /* zero: its chunk has no copy */
    LOHENARR_WHY_CUT = 3,     /* zero: a header cut it */
    LOHENARR_WHY_COUNT = 4,   /* zero: the copy's byte count ends before it */
    LOHENARR_WHY_PAST_END = 5 /* past the end of the file */
};

/* How a record of an object stands. */
enum lohenarr_stands {
    LOHENARR_STANDS_NEWEST_HEADER = 1,
    LOHENARR_STANDS_OLDER_HEADER = 2,
    LOHENARR_STANDS_SUPERSEDED = 3, /* data: its chunk has a newer copy */
    LOHENARR_STANDS_CUT = 4,        /* data: a later header cut it */
    LOHENARR_STANDS_HOLDS = 5,      /* data that holds bytes of the file */
    LOHENARR_STANDS_NO_FILE = 6     /* data of what is no live file */
};

/* Why an object has no path: where the way up its parents stops. */
enum lohenarr_no_path {
    LOHENARR_TREE_TOO_DEEP = 1,     /* at the root, after too many steps */
    LOHENARR_TREE_LOOP = 2,         /* where it has been before */
    LOHENARR_TREE_MISSING = 3,      /* at a parent without a header */
    LOHENARR_TREE_DELETED = 4,      /* at one that is unlinked or deleted */
    LOHENARR_TREE_NON_DIRECTORY = 5 /* at one that is no directory */
};

/* The first word of a row of a table: where the copy of a chunk is. */
enum lohenarr_place {
    LOHENARR_PLACE_HOLE = 0,    /* nowhere */
    LOHENARR_PLACE_DAMAGED = 1, /* a damaged link is met before it */
    LOHENARR_PLACE_PAGES = 2    /* from here on page 0, page 1 and so on */
};

/* Stands for the page before which a dump is read, where it is read as it
 * stands. */
#define LOHENARR_AS_IT_STANDS 0xFFFFFFFFu

/* How a dump is read: the number of its layout in the table, 0 to 12 (any other
 * is refused), and how many pages a block has, K. */
typedef struct {
    uint32_t layout;
    uint32_t block;
} lohenarr_geometry;

/* A layout with its number in the table; beside a refusal the number is 13. */
typedef struct {
    uint32_t refusal;
    uint32_t number;
    uint32_t data;
    uint32_t spare;
    uint32_t tag;
} lohenarr_layout_answer;

typedef struct {
    uint32_t refusal;
    uint32_t pages;
} lohenarr_pages_answer;

/* How many pages are of each kind. */
typedef struct {
    uint32_t refusal;
    uint32_t blank;
    uint32_t foreign;
    uint32_t damaged;
    uint32_t headers;
    uint32_t data;
} lohenarr_counts_answer;

/* What a page is: a lohenarr_page_kind. Fields that its kind lacks are 0. */
typedef struct {
    uint32_t refusal;
    uint32_t kind;
    uint32_t sequence;
    uint32_t object;
    uint32_t page_type;
    uint32_t parent;
    uint32_t size;
    uint32_t shrink;
    uint32_t chunk;
    uint32_t count;
} lohenarr_kind_answer;

/* The header fields that are numbers. No other call reads size_high. */
typedef struct {
    uint32_t refusal;
    uint32_t page_type;
    uint32_t parent;
    uint32_t unused1;
    uint32_t unused2;
    uint32_t mode;
    uint32_t uid;
    uint32_t gid;
    uint32_t accessed;
    uint32_t modified;
    uint32_t created;
    uint32_t file_size;
    uint32_t equivalent_id;
    uint32_t rdev;
    uint64_t win_created;
    uint64_t win_accessed;
    uint64_t win_modified;
    uint32_t inband_shadow;
    uint32_t inband_shrink;
    uint32_t size_high;
    uint32_t shadowed_id;
    uint32_t shrink;
} lohenarr_header_answer;

/* A part of the dump: where it begins and how long it is; empty beside a
 * refusal. */
typedef struct {
    uint32_t refusal;
    size_t offset;
    size_t length;
} lohenarr_part_answer;

/* The size of a file, and the records visited. */
typedef struct {
    uint32_t refusal;
    uint32_t visits;
    uint64_t size;
} lohenarr_size_answer;

/* A chunk of a file: 1 in copy and the page that holds it, or a hole; the valid
 * and the shown length, and the records visited. The visits count beside a
 * refusal too. */
typedef struct {
    uint32_t refusal;
    uint32_t visits;
    uint32_t need;
    uint32_t copy;
    uint32_t page;
    uint32_t valid;
    uint32_t shown;
} lohenarr_chunk_answer;

/* A part of the dump; empty for a hole or a refusal. */
typedef struct {
    size_t offset;
    size_t length;
} lohenarr_place_answer;

/* How many ids or pages a listing wrote. */
typedef struct {
    uint32_t refusal;
    uint32_t need;
    uint32_t count;
} lohenarr_list_answer;

/* A number of objects. */
typedef struct {
    uint32_t refusal;
    uint32_t count;
} lohenarr_tally_answer;

/* How a run of additions ended: with LOHENARR_OK all were done, else the addition of
 * this page was refused, and those before it stand. */
typedef struct {
    uint32_t refusal;
    uint32_t page;
} lohenarr_run_answer;

/* The size of a file and how many rows its table has. */
typedef struct {
    uint32_t refusal;
    uint32_t need;
    uint64_t size;
    uint32_t rows;
} lohenarr_table_answer;

/* The size of a file and how many rows its copies are. damaged is 1 where a
 * damaged link of the index keeps a chunk from being found. */
typedef struct {
    uint32_t refusal;
    uint32_t count;
    uint64_t size;
    uint32_t need;
    uint32_t damaged;
} lohenarr_copies_answer;

/* The copy of a chunk: the page that holds it, and how many of its bytes are
 * valid. */
typedef struct {
    uint32_t chunk;
    uint32_t page;
    uint32_t valid;
} lohenarr_copy_answer;

/* Why a byte of a file is what it is: a lohenarr_reason. page is the one that holds
 * it, the header, the copy, or the page that sets the size, and 0 where no copy exists;
 * byte is which of the page's data bytes is held, and else 0; value is the byte
 * that a read shows, 0 past the end too; until is the first later position where
 * reason or page is another, and 2^64 - 1 past the end. */
typedef struct {
    uint32_t refusal;
    uint32_t need;
    uint32_t reason;
    uint32_t page;
    uint32_t byte;
    uint32_t value;
    uint64_t until;
} lohenarr_why_answer;

/* The size of a file and how many runs of one reason and page it has. */
typedef struct {
    uint32_t refusal;
    uint32_t need;
    uint64_t size;
    uint32_t count;
} lohenarr_spans_answer;

/* A run of a file: where it begins, and its reason, page and first byte as above.
 * It ends where the next begins, and the last one with the file. */
typedef struct {
    uint64_t from;
    uint32_t reason;
    uint32_t page;
    uint32_t byte;
} lohenarr_span_answer;

/* How many records an object has. */
typedef struct {
    uint32_t refusal;
    uint32_t need;
    uint32_t count;
} lohenarr_records_answer;

/* How the record on a page stands: a lohenarr_stands. by is the page of the newest copy
 * of its chunk, which supersedes it, or of the newest of the later headers that cut at or
 * below the begin of its chunk; from and until are the bytes that it holds, the last not
 * included. What does not apply is 0. */
typedef struct {
    uint64_t from;
    uint64_t until;
    uint32_t page;
    uint32_t stands;
    uint32_t by;
} lohenarr_standing_answer;

/* What a size lookup answers with an object's records up to the one on a page: the size,
 * or beside it the number of the refusal, with size 0. */
typedef struct {
    uint64_t size;
    uint32_t page;
    uint32_t refusal;
} lohenarr_history_answer;

/* The tree: how many of the live objects other than 1 have a path from the root,
 * and how many have none. */
typedef struct {
    uint32_t refusal;
    uint32_t need;
    uint32_t listed;
    uint32_t others;
} lohenarr_tree_answer;

/* A row of the tree: the page of the object's newest header, and a key. Of an object
 * that has a path the key is the number of its directory's row plus 1, or 0 where
 * that is the root; of one that has none it is a lohenarr_no_path. */
typedef struct {
    uint32_t key;
    uint32_t page;
} lohenarr_row_answer;

/* The length of a text that was written. */
typedef struct {
    uint32_t refusal;
    uint64_t need;
    uint64_t length;
} lohenarr_text_answer;

/* How many records a dump has that was prepared to be compared. need is of order and of
 * copies; work must have twice as many words. */
typedef struct {
    uint32_t refusal;
    uint32_t need;
    uint32_t records;
} lohenarr_prepared_answer;

/* The next object of two prepared dumps, 0 where none is left, and how many words at the
 * front of each order are of it. */
typedef struct {
    uint32_t object;
    uint64_t first;
    uint64_t second;
} lohenarr_next_answer;

/* The most bytes that a dump has. */
size_t lohenarr_most_bytes(void);

/* The layout with a number. */
lohenarr_layout_answer lohenarr_layout(uint32_t number);

/* The layout with these sizes and this tag offset. */
lohenarr_layout_answer lohenarr_layout_sized(uint32_t data, uint32_t spare, uint32_t tag);

/* The layout of a dump. */
lohenarr_layout_answer lohenarr_find(const uint8_t *dump, size_t len, uint32_t k);

/* The score of finding the layout, for a dump read so: how many good pages bear
 * their block's sequence. 0 where that is below need, where the candidate does
 * not fit, and where the dump is refused. */
uint32_t lohenarr_score(const uint8_t *dump, size_t len, lohenarr_geometry geometry, uint32_t need);

/* The page count of a dump. */
lohenarr_pages_answer lohenarr_pages(const uint8_t *dump, size_t len, lohenarr_geometry geometry);

/* How many pages of a dump are of each kind. */
lohenarr_counts_answer lohenarr_counts(const uint8_t *dump, size_t len, lohenarr_geometry geometry);

/* The kind of a page, numbered from 0. */
lohenarr_kind_answer lohenarr_kind(const uint8_t *dump, size_t len, lohenarr_geometry geometry, uint32_t page);

/* The header fields of a page that are numbers. */
lohenarr_header_answer lohenarr_header(const uint8_t *dump, size_t len, lohenarr_geometry geometry, uint32_t page);

/* The name in a header, 256 bytes. The name ends with the first zero byte, or fills them
 * all. */
lohenarr_part_answer lohenarr_header_name(const uint8_t *dump, size_t len, lohenarr_geometry geometry, uint32_t page);

/* The alias in a header, 160 bytes. */
lohenarr_part_answer lohenarr_header_alias(const uint8_t *dump, size_t len, lohenarr_geometry geometry, uint32_t page);

/* The reserved bytes of a header, 4 bytes. */
lohenarr_part_answer lohenarr_header_reserved(const uint8_t *dump, size_t len, lohenarr_geometry geometry, uint32_t page);

/* The size of an object, from the dump alone. */
lohenarr_size_answer lohenarr_dump_size(const uint8_t *dump, size_t len, lohenarr_geometry geometry, uint32_t object);

/* Chunk n of an object, numbered from 1, from the dump alone. */
lohenarr_chunk_answer lohenarr_dump_chunk(const uint8_t *dump, size_t len, lohenarr_geometry geometry, uint32_t object, uint32_t n);

/* Chunk n of an object, read into a buffer: the valid bytes, then zeros up to the shown length. */
lohenarr_chunk_answer lohenarr_dump_read(const uint8_t *dump, size_t len, lohenarr_geometry geometry, uint32_t object, uint32_t n, uint8_t *buffer, size_t buffer_len);

/* The valid bytes of chunk n of an object, as a part of the dump. */
lohenarr_place_answer lohenarr_dump_part(const uint8_t *dump, size_t len, lohenarr_geometry geometry, uint32_t object, uint32_t n);

/* The ids of the live objects, written in ascending order, from the dump alone. */
lohenarr_list_answer lohenarr_dump_list(const uint8_t *dump, size_t len, lohenarr_geometry geometry, uint32_t *words, size_t words_len);

/* How many objects are live. */
lohenarr_tally_answer lohenarr_dump_live(const uint8_t *dump, size_t len, lohenarr_geometry geometry);

/* How many objects have records. */
lohenarr_tally_answer lohenarr_dump_objects(const uint8_t *dump, size_t len, lohenarr_geometry geometry);

/* How many words an index of so many pages has at least. */
size_t lohenarr_cells(uint32_t pages);

/* An index is lent as words. From its start on nobody but these calls writes to it, and
 * each of them is given the same dump and layout: then its lookups answer as the rules
 * say. Whatever it holds, every call ends.
 *
 * Makes an index empty, whatever its words held: a lohenarr_refusal. The seed is any word. No
 * answer depends on it; with one that nobody knew when the dump was written, no dump can
 * have been made to be slow. */
uint32_t lohenarr_start(const uint8_t *dump, size_t len, lohenarr_geometry geometry, uint32_t *cells, size_t cells_len, uint32_t seed);

/* Adds a page to an index: a lohenarr_refusal. */
uint32_t lohenarr_add(const uint8_t *dump, size_t len, lohenarr_geometry geometry, uint32_t *cells, size_t cells_len, uint32_t page);

/* Adds the pages from one to before another to an index, one after the other,
 * until one is refused. */
lohenarr_run_answer lohenarr_add_run(const uint8_t *dump, size_t len, lohenarr_geometry geometry, uint32_t *cells, size_t cells_len, uint32_t from, uint32_t to);

/* Adds of these pages only the records that are older than a given page: lookups
 * then answer as the dump stood before that was written. A page that the dump
 * does not have is refused. */
lohenarr_run_answer lohenarr_add_older(const uint8_t *dump, size_t len, lohenarr_geometry geometry, uint32_t *cells, size_t cells_len, uint32_t from, uint32_t to, uint32_t before);

/* The lookups by an index answer as if pages that were not added were blank. */
lohenarr_size_answer lohenarr_size(const uint8_t *dump, size_t len, lohenarr_geometry geometry, const uint32_t *cells, size_t cells_len, uint32_t object);
lohenarr_chunk_answer lohenarr_chunk(const uint8_t *dump, size_t len, lohenarr_geometry geometry, const uint32_t *cells, size_t cells_len, uint32_t object, uint32_t n);
lohenarr_chunk_answer lohenarr_read(const uint8_t *dump, size_t len, lohenarr_geometry geometry, const uint32_t *cells, size_t cells_len, uint32_t object, uint32_t n, uint8_t *buffer, size_t buffer_len);
lohenarr_place_answer lohenarr_part(const uint8_t *dump, size_t len, lohenarr_geometry geometry, const uint32_t *cells, size_t cells_len, uint32_t object, uint32_t n);

/* The ids of the live objects, written in ascending order, by an index. */
lohenarr_list_answer lohenarr_list(const uint8_t *dump, size_t len, lohenarr_geometry geometry, const uint32_t *cells, size_t cells_len, uint32_t *words, size_t words_len);

/* The pages of the records of an object, written from the newest to the oldest,
 * by an index. */
lohenarr_list_answer lohenarr_records(const uint8_t *dump, size_t len, lohenarr_geometry geometry, const uint32_t *cells, size_t cells_len, uint32_t object, uint32_t *words, size_t words_len);

/* How many objects have an added record, by an index. */
lohenarr_tally_answer lohenarr_objects(const uint8_t *dump, size_t len, lohenarr_geometry geometry, const uint32_t *cells, size_t cells_len);

/* The chunks of a file from 1 on, by one walk over its records: a row of two
 * words for each. The first says where the copy is, by lohenarr_place. The second
 * is how many of its bytes are valid; behind them a chunk is zeros, up to a
 * page's data or the file's end. Words past the rows stay as they were. */
lohenarr_table_answer lohenarr_table(const uint8_t *dump, size_t len, lohenarr_geometry geometry, const uint32_t *cells, size_t cells_len, uint32_t object, uint32_t *words, size_t words_len);

/* The valid bytes of the copy that a row of a table names, as a part of the dump. */
lohenarr_place_answer lohenarr_row(const uint8_t *dump, size_t len, lohenarr_geometry geometry, uint32_t place, uint32_t valid);

/* The copies that a file shows, ascending by chunk: a row of one number for
 * each, and none for a hole. It takes two words for each copy that the object's
 * records hold, older ones too, whatever size the file claims. The rows come
 * first; the rest of those words is cleared, and words past them stay as they
 * were. */
lohenarr_copies_answer lohenarr_copies(const uint8_t *dump, size_t len, lohenarr_geometry geometry, const uint32_t *cells, size_t cells_len, uint32_t object, uint64_t *rows, size_t rows_len);

/* The copy that a row of copies tells. */
lohenarr_copy_answer lohenarr_copy(uint64_t row);

/* Why the byte at a position of an object is what it is, from the dump alone: as it
 * stood before the record on page before was written, or with LOHENARR_AS_IT_STANDS as
 * it stands. Records that are not older than that one count as blank. The rows are
 * working memory: those that are needed are cleared, and words past them stay. */
lohenarr_why_answer lohenarr_dump_why(const uint8_t *dump, size_t len, lohenarr_geometry geometry, uint32_t before, uint32_t object, uint64_t position, uint64_t *rows, size_t rows_len);

/* The runs of an object from 0 to its size, ascending: a row for each. The rows
 * come first; the rest of the words that are needed is cleared, and words past
 * them stay. It takes words for the object's records, whatever size the file
 * claims. */
lohenarr_spans_answer lohenarr_dump_spans(const uint8_t *dump, size_t len, lohenarr_geometry geometry, uint32_t before, uint32_t object, uint64_t *rows, size_t rows_len);

/* The run that a row tells. */
lohenarr_span_answer lohenarr_span(lohenarr_geometry geometry, uint64_t row);

/* How each record of an object stands, from the dump alone, as it stood before a record
 * or with LOHENARR_AS_IT_STANDS: a row and a second word for each, in the order in
 * which they were written. work is working memory, of which the words that are needed
 * are cleared; words past them stay, as do those behind the rows. Each slice takes a
 * word for each record. */
lohenarr_records_answer lohenarr_dump_stands(const uint8_t *dump, size_t len, lohenarr_geometry geometry, uint32_t before, uint32_t object, uint64_t *rows, size_t rows_len, uint64_t *details, size_t details_len, uint64_t *work, size_t work_len);

/* What a row of standings tells, with its second word. */
lohenarr_standing_answer lohenarr_standing(lohenarr_geometry geometry, uint64_t row, uint64_t detail);

/* What a size lookup answers after each record of an object, with its records up to that
 * one alone: in the same order a row and a size for each. Words behind them stay. */
lohenarr_records_answer lohenarr_dump_history(const uint8_t *dump, size_t len, lohenarr_geometry geometry, uint32_t before, uint32_t object, uint64_t *rows, size_t rows_len, uint64_t *sizes, size_t sizes_len);

/* What a row of a history tells, with its size. */
lohenarr_history_answer lohenarr_history_row(uint64_t row, uint64_t size);

/* The live objects other than 1, from the dump alone, as it stood before a record or
 * with LOHENARR_AS_IT_STANDS: a row for each. Those that have a path from object 1
 * come first, a directory's entries right after it, ascending by id; then those that
 * have none, ascending by id. Each slice takes as many words as the dump has header
 * records. Words behind the rows stay; heads and work are working memory, of which the
 * words that are needed are cleared, and those past them stay. */
lohenarr_tree_answer lohenarr_dump_tree(const uint8_t *dump, size_t len, lohenarr_geometry geometry, uint32_t before, uint64_t *rows, size_t rows_len, uint64_t *heads, size_t heads_len, uint64_t *work, size_t work_len);

/* What a row of the tree tells. */
lohenarr_row_answer lohenarr_tree_row(uint64_t row);

/* The text of the tree: for each row a line object= and a line path=, or reason= for
 * those behind the first listed ones. The rows are those that lohenarr_dump_tree left,
 * and no more. Bytes past the text stay as they were. */
lohenarr_text_answer lohenarr_tree_text(const uint8_t *dump, size_t len, lohenarr_geometry geometry, const uint64_t *rows, size_t rows_len, uint32_t listed, uint8_t *buf, size_t buf_len);

/* The path of one of the first listed rows: for each step down a / and the name up to
 * its first zero byte, as it is. 32 * 257 bytes are enough for every path. */
lohenarr_text_answer lohenarr_tree_path(const uint8_t *dump, size_t len, lohenarr_geometry geometry, const uint64_t *rows, size_t rows_len, uint32_t row, uint8_t *buf, size_t buf_len);

/* Prepares a dump to be compared. The first records words of order are its records,
 * ascending by object and the newest first in each: object * 2^32 + page. Those of
 * copies are, at the same places, the copies that each object's file shows. order and
 * copies take a word for each record, work two, which are cleared; words past these
 * stay. */
lohenarr_prepared_answer lohenarr_compare_prepare(const uint8_t *dump, size_t len, lohenarr_geometry geometry, uint64_t *order, size_t order_len, uint64_t *copies, size_t copies_len, uint64_t *work, size_t work_len);

/* The lesser of the objects of both orders' first words, and how many words at the front
 * of each are of it. */
lohenarr_next_answer lohenarr_compare_next(const uint64_t *order1, size_t order1_len, const uint64_t *order2, size_t order2_len);

/* What differs of one object between two dumps, by its words in the order and the copies
 * of each, as lohenarr_compare_prepare left them, none where a dump has none: the lines
 * object=, only=, deleted= and noheader= (1 or 2), field= (an offset), both size=, and
 * stretch= (of 512 bytes, from 0 on), as far as they apply; no line where nothing differs.
 * Bytes past the text stay as they were. Where 1024 bytes are lent and 29 for each stretch
 * of the smaller file, the text is written in one pass, and else measured first. */
lohenarr_text_answer lohenarr_compare_object(const uint8_t *dump1, size_t dump1_len, lohenarr_geometry geometry1, const uint64_t *order1, size_t order1_len, const uint64_t *copies1, size_t copies1_len, const uint8_t *dump2, size_t dump2_len, lohenarr_geometry geometry2, const uint64_t *order2, size_t order2_len, const uint64_t *copies2, size_t copies2_len, uint32_t object, uint8_t *buf, size_t buf_len);

/* The same of all objects of two prepared dumps, ascending. Of both dumps' refusals the
 * one that is first in the table's order is given. */
lohenarr_text_answer lohenarr_compare(const uint8_t *dump1, size_t dump1_len, lohenarr_geometry geometry1, const uint64_t *order1, size_t order1_len, const uint64_t *copies1, size_t copies1_len, const uint8_t *dump2, size_t dump2_len, lohenarr_geometry geometry2, const uint64_t *order2, size_t order2_len, const uint64_t *copies2, size_t copies2_len, uint8_t *buf, size_t buf_len);

#ifdef __cplusplus
}
#endif

#endif
