/* Calls the library on the dump that standard input holds, by way of
 * lohenarr.h, and prints what it answers and where each field lies. C and C++
 * both take it. */
#include "lohenarr.h"
#include <stdio.h>

#define CASE(prefix, name)                                                                                             \
    case LOHENARR_##prefix##name:                                                                                      \
        return #name
#define FIELD(type, field) printf(#type "." #field " %zu\n", offsetof(type, field))

static uint8_t dump[65536];
static uint8_t buffer[512];
static uint32_t cells[48];
static uint32_t table[7] = {7, 7, 7, 7, 7, 7, 7};
static uint64_t shown[9] = {7, 7, 7, 7, 7, 7, 7, 7, 7};
static uint64_t lent[256];
static uint64_t branches[4] = {7, 7, 7, 7};
static uint64_t heads[4] = {7, 7, 7, 7};
static uint64_t work[4] = {7, 7, 7, 7};
static uint64_t order[8] = {7, 7, 7, 7, 7, 7, 7, 7};
static uint64_t pieces[8] = {7, 7, 7, 7, 7, 7, 7, 7};
static uint64_t words[16];

/* The name of a refusal. */
static const char *refusal(uint32_t number) {
    switch ((enum lohenarr_refusal)number) {
        CASE(, OK);
        CASE(, BAD_LAYOUT);
        CASE(, BAD_LENGTH);
        CASE(, NO_LAYOUT);
        CASE(, BAD_OBJECT);
        CASE(, BAD_CHUNK);
        CASE(, NO_OBJECT);
        CASE(, NO_HEADER);
        CASE(, DELETED);
        CASE(, NOT_A_FILE);
        CASE(, PAST_END);
        CASE(, SHORT_BUFFER);
        CASE(, SHORT_INDEX);
        CASE(, INDEX_DAMAGED);
        CASE(, BAD_PAGE);
        CASE(, ALREADY_ADDED);
        CASE(, NOT_HEADER);
    }
    return "?";
}

static const char *kind(uint32_t number) {
    switch ((enum lohenarr_page_kind)number) {
        CASE(KIND_, BLANK);
        CASE(KIND_, FOREIGN);
        CASE(KIND_, DAMAGED);
        CASE(KIND_, HEADER);
        CASE(KIND_, DATA);
    }
    return "?";
}

static const char *reason(uint32_t number) {
    switch ((enum lohenarr_reason)number) {
        CASE(WHY_, HELD);
        CASE(WHY_, NO_COPY);
        CASE(WHY_, CUT);
        CASE(WHY_, COUNT);
        CASE(WHY_, PAST_END);
    }
    return "?";
}

static const char *stands(uint32_t number) {
    switch ((enum lohenarr_stands)number) {
        CASE(STANDS_, NEWEST_HEADER);
        CASE(STANDS_, OLDER_HEADER);
        CASE(STANDS_, SUPERSEDED);
        CASE(STANDS_, CUT);
        CASE(STANDS_, HOLDS);
        CASE(STANDS_, NO_FILE);
    }
    return "?";
}

static const char *no_path(uint32_t number) {
    switch ((enum lohenarr_no_path)number) {
        CASE(TREE_, TOO_DEEP);
        CASE(TREE_, LOOP);
        CASE(TREE_, MISSING);
        CASE(TREE_, DELETED);
        CASE(TREE_, NON_DIRECTORY);
    }
    return "?";
}

/* Why a byte of W's file is what it is. */
static void why(size_t len, lohenarr_geometry geometry, uint32_t before, uint64_t position) {
    lohenarr_why_answer why = lohenarr_dump_why(dump, len, geometry, before, 257, position, lent, 256);
    printf("why %s: %s, page %u byte %u value %u until %llu\n", refusal(why.refusal), reason(why.reason), why.page, why.byte, why.value,
           (unsigned long long)why.until);
}

int main(void) {
    size_t len = fread(dump, 1, sizeof dump, stdin);
    lohenarr_layout_answer found = lohenarr_find(dump, len, 4);
    printf("layout %s: %u %u/%u/%u\n", refusal(found.refusal), found.number, found.data, found.spare, found.tag);
    lohenarr_geometry geometry = {found.number, 4};
    printf("score %u %u\n", lohenarr_score(dump, len, geometry, 7), lohenarr_score(dump, len, geometry, 8));
    lohenarr_counts_answer counts = lohenarr_counts(dump, len, geometry);
    printf("counts %s: %u %u %u %u %u\n", refusal(counts.refusal), counts.blank, counts.foreign, counts.damaged,
           counts.headers, counts.data);
    lohenarr_header_answer header = lohenarr_header(dump, len, geometry, 3);
    printf("header %s: %u %u\n", refusal(header.refusal), header.file_size, header.shrink);
    lohenarr_part_answer name = lohenarr_header_name(dump, len, geometry, 3);
    printf("name %s: %zu+%zu\n", refusal(name.refusal), name.offset, name.length);
    printf("kinds");
    for (uint32_t page = 0; page < 8; page++)
        printf(" %s", kind(lohenarr_kind(dump, len, geometry, page).kind));
    printf("\nrefused %s\n", refusal(lohenarr_kind(dump, len, geometry, 8).refusal));
    lohenarr_size_answer size = lohenarr_dump_size(dump, len, geometry, 257);
    printf("size %s: %llu, visits %u\n", refusal(size.refusal), (unsigned long long)size.size, size.visits);
    uint32_t ids[2] = {0, 7};
    lohenarr_list_answer live = lohenarr_dump_list(dump, len, geometry, ids, 2);
    printf("live %s: %u, %u %u\n", refusal(live.refusal), live.count, ids[0], ids[1]);
    printf("cells %zu\n", lohenarr_cells(8));
    printf("start %s\n", refusal(lohenarr_start(dump, len, geometry, cells, 48, 0)));
    printf("add %s\n", refusal(lohenarr_add(dump, len, geometry, cells, 48, 6)));
    lohenarr_run_answer run = lohenarr_add_run(dump, len, geometry, cells, 48, 0, 5);
    printf("run %s: %u\n", refusal(run.refusal), run.page);
    run = lohenarr_add_run(dump, len, geometry, cells, 48, 6, 8);
    printf("run %s: %u\n", refusal(run.refusal), run.page);
    printf("add %s\n", refusal(lohenarr_add(dump, len, geometry, cells, 48, 7)));
    lohenarr_chunk_answer chunk = lohenarr_read(dump, len, geometry, cells, 48, 257, 1, buffer, sizeof buffer);
    printf("read %s: copy %u page %u valid %u shown %u, visits %u\n", refusal(chunk.refusal), chunk.copy, chunk.page, chunk.valid,
           chunk.shown, chunk.visits);
    chunk = lohenarr_read(dump, len, geometry, cells, 48, 257, 1, buffer, 511);
    printf("read %s: need %u\n", refusal(chunk.refusal), chunk.need);
    lohenarr_place_answer part = lohenarr_part(dump, len, geometry, cells, 48, 257, 1);
    printf("part %zu+%zu\n", part.offset, part.length);
    lohenarr_tally_answer objects = lohenarr_objects(dump, len, geometry, cells, 48);
    printf("objects %s: %u\n", refusal(objects.refusal), objects.count);
    lohenarr_table_answer rows = lohenarr_table(dump, len, geometry, cells, 48, 257, table, 5);
    printf("table %s: need %u, %u\n", refusal(rows.refusal), rows.need, table[0]);
    rows = lohenarr_table(dump, len, geometry, cells, 48, 257, table, 7);
    printf("table %s: size %llu, rows %u:", refusal(rows.refusal), (unsigned long long)rows.size, rows.rows);
    for (uint32_t i = 0; i < 2 * rows.rows; i += 2)
        if (table[i] == LOHENARR_PLACE_HOLE)
            printf(" hole");
        else if (table[i] == LOHENARR_PLACE_DAMAGED)
            printf(" damaged");
        else
            printf(" %u/%u", table[i] - LOHENARR_PLACE_PAGES, table[i + 1]);
    part = lohenarr_row(dump, len, geometry, table[4], table[5]);
    printf(" %u\nrow %zu+%zu\n", table[6], part.offset, part.length);
    lohenarr_copies_answer copies = lohenarr_copies(dump, len, geometry, cells, 48, 257, shown, 1);
    printf("copies %s: need %u, %llu\n", refusal(copies.refusal), copies.need, (unsigned long long)shown[0]);
    copies = lohenarr_copies(dump, len, geometry, cells, 48, 257, shown, 9);
    printf("copies %s: size %llu, damaged %u:", refusal(copies.refusal), (unsigned long long)copies.size, copies.damaged);
    for (uint32_t i = 0; i < copies.count; i++) {
        lohenarr_copy_answer copy = lohenarr_copy(shown[i]);
        printf(" %u/%u/%u", copy.chunk, copy.page, copy.valid);
    }
    printf(" %llu\n", (unsigned long long)shown[8]);
    live = lohenarr_records(dump, len, geometry, cells, 48, 257, table, 5);
    printf("records %s: need %u\n", refusal(live.refusal), live.need);
    live = lohenarr_records(dump, len, geometry, cells, 48, 257, table, 7);
    printf("records %s: %u, %u to %u\n", refusal(live.refusal), live.count, table[0], table[live.count - 1]);
    lohenarr_start(dump, len, geometry, cells, 48, 7);
    run = lohenarr_add_older(dump, len, geometry, cells, 48, 0, 8, 8);
    printf("older %s: %u\n", refusal(run.refusal), run.page);
    run = lohenarr_add_older(dump, len, geometry, cells, 48, 0, 8, 4);
    size = lohenarr_size(dump, len, geometry, cells, 48, 257);
    printf("older %s, size %llu\n", refusal(run.refusal), (unsigned long long)size.size);
    why(len, geometry, LOHENARR_AS_IT_STANDS, 400);
    why(len, geometry, LOHENARR_AS_IT_STANDS, 600);
    why(len, geometry, LOHENARR_AS_IT_STANDS, 1033);
    why(len, geometry, 6, 300);
    why(len, geometry, 8, 300);
    lent[0] = 7;
    lohenarr_spans_answer spans = lohenarr_dump_spans(dump, len, geometry, LOHENARR_AS_IT_STANDS, 257, lent, 0);
    printf("spans %s: enough %d, %llu\n", refusal(spans.refusal), 0 < spans.need && spans.need <= 256, (unsigned long long)lent[0]);
    spans = lohenarr_dump_spans(dump, len, geometry, LOHENARR_AS_IT_STANDS, 257, lent, 256);
    printf("spans %s: size %llu:", refusal(spans.refusal), (unsigned long long)spans.size);
    for (uint32_t i = 0; i < spans.count; i++) {
        lohenarr_span_answer span = lohenarr_span(geometry, lent[i]);
        printf(" %llu/%s/%u/%u", (unsigned long long)span.from, reason(span.reason), span.page, span.byte);
    }
    printf("\n");
    lohenarr_records_answer records = lohenarr_dump_stands(dump, len, geometry, LOHENARR_AS_IT_STANDS, 257, order, 6, pieces, 8, words, 8);
    printf("stands %s: need %u, %llu\n", refusal(records.refusal), records.need, (unsigned long long)order[0]);
    order[7] = pieces[7] = words[7] = 7;
    records = lohenarr_dump_stands(dump, len, geometry, LOHENARR_AS_IT_STANDS, 257, order, 8, pieces, 8, words, 8);
    printf("stands %s:", refusal(records.refusal));
    for (uint32_t i = 0; i < records.count; i++) {
        lohenarr_standing_answer standing = lohenarr_standing(geometry, order[i], pieces[i]);
        printf(" %u/%s/%u/%llu-%llu", standing.page, stands(standing.stands), standing.by, (unsigned long long)standing.from,
               (unsigned long long)standing.until);
    }
    printf(" %llu %llu %llu %llu\n", (unsigned long long)order[7], (unsigned long long)pieces[7], (unsigned long long)words[6],
           (unsigned long long)words[7]);
    records = lohenarr_dump_history(dump, len, geometry, 4, 257, order, 8, pieces, 8);
    printf("history %s:", refusal(records.refusal));
    for (uint32_t i = 0; i < records.count; i++) {
        lohenarr_history_answer after = lohenarr_history_row(order[i], pieces[i]);
        printf(" %u/%s/%llu", after.page, refusal(after.refusal), (unsigned long long)after.size);
    }
    printf("\n");
    order[0] = 7;
    lohenarr_tree_answer tree = lohenarr_dump_tree(dump, len, geometry, LOHENARR_AS_IT_STANDS, branches, 4, heads, 2, work, 4);
    printf("tree %s: need %u, %llu\n", refusal(tree.refusal), tree.need, (unsigned long long)heads[0]);
    tree = lohenarr_dump_tree(dump, len, geometry, LOHENARR_AS_IT_STANDS, branches, 4, heads, 4, work, 4);
    printf("tree %s: %u and %u, %llu, %llu %llu\n", refusal(tree.refusal), tree.listed, tree.others, (unsigned long long)branches[1],
           (unsigned long long)heads[2], (unsigned long long)heads[3]);
    lohenarr_row_answer row = lohenarr_tree_row(branches[0]);
    printf("row %u of page %u\n", row.key, row.page);
    dump[4 * 528 + 4] = 2;
    tree = lohenarr_dump_tree(dump, len, geometry, LOHENARR_AS_IT_STANDS, heads, 4, work, 4, words, 4);
    printf("tree %s: %u and %u, %s\n", refusal(tree.refusal), tree.listed, tree.others, no_path(lohenarr_tree_row(heads[0]).key));
    dump[4 * 528 + 4] = 1;
    lohenarr_text_answer text = lohenarr_tree_text(dump, len, geometry, branches, 1, 1, buffer, 9);
    printf("text %s: need %llu\n", refusal(text.refusal), (unsigned long long)text.need);
    text = lohenarr_tree_text(dump, len, geometry, branches, 1, 1, buffer, sizeof buffer);
    printf("text %s: %llu, %.16s\n", refusal(text.refusal), (unsigned long long)text.length, buffer);
    text = lohenarr_tree_path(dump, len, geometry, branches, 1, 0, buffer, sizeof buffer);
    printf("path %s: %llu, %c %u\n", refusal(text.refusal), (unsigned long long)text.length, buffer[0], buffer[256]);
    lohenarr_prepared_answer prepared = lohenarr_compare_prepare(dump, len, geometry, order, 6, pieces, 8, words, 16);
    printf("prepared %s: need %u, %llu\n", refusal(prepared.refusal), prepared.need, (unsigned long long)order[0]);
    words[14] = 7;
    prepared = lohenarr_compare_prepare(dump, len, geometry, order, 8, pieces, 8, words, 16);
    printf("prepared %s: %u, %llu/%llu to %llu, %llu %llu\n", refusal(prepared.refusal), prepared.records, (unsigned long long)(order[0] >> 32),
           (unsigned long long)(order[0] & 0xFFFFFFFF), (unsigned long long)(order[6] & 0xFFFFFFFF), (unsigned long long)order[7],
           (unsigned long long)words[14]);
    lohenarr_next_answer next = lohenarr_compare_next(order, 7, order, 0);
    printf("next %u: %llu and %llu\n", next.object, (unsigned long long)next.first, (unsigned long long)next.second);
    text = lohenarr_compare_object(dump, len, geometry, order, 7, pieces, 7, dump, len, geometry, order, 0, pieces, 0, 257, buffer, 9);
    printf("object %s: need %llu\n", refusal(text.refusal), (unsigned long long)text.need);
    text = lohenarr_compare_object(dump, len, geometry, order, 7, pieces, 7, dump, len, geometry, order, 0, pieces, 0, 257, buffer, sizeof buffer);
    printf("object %s: %.*s", refusal(text.refusal), (int)text.length, buffer);
    text = lohenarr_compare(dump, len, geometry, order, 7, pieces, 7, dump, len, geometry, order, 7, pieces, 7, buffer, 0);
    printf("compared %s: %llu\n", refusal(text.refusal), (unsigned long long)text.length);
    FIELD(lohenarr_geometry, block);
    FIELD(lohenarr_layout_answer, tag);
    FIELD(lohenarr_kind_answer, count);
    FIELD(lohenarr_header_answer, rdev);
    FIELD(lohenarr_header_answer, win_created);
    FIELD(lohenarr_header_answer, size_high);
    FIELD(lohenarr_header_answer, shrink);
    FIELD(lohenarr_part_answer, length);
    FIELD(lohenarr_size_answer, size);
    FIELD(lohenarr_chunk_answer, shown);
    FIELD(lohenarr_place_answer, length);
    FIELD(lohenarr_list_answer, count);
    FIELD(lohenarr_tally_answer, count);
    FIELD(lohenarr_table_answer, size);
    FIELD(lohenarr_table_answer, rows);
    FIELD(lohenarr_copies_answer, size);
    FIELD(lohenarr_copies_answer, damaged);
    FIELD(lohenarr_copy_answer, valid);
    FIELD(lohenarr_run_answer, page);
    FIELD(lohenarr_why_answer, value);
    FIELD(lohenarr_why_answer, until);
    FIELD(lohenarr_spans_answer, size);
    FIELD(lohenarr_spans_answer, count);
    FIELD(lohenarr_span_answer, byte);
    FIELD(lohenarr_records_answer, count);
    FIELD(lohenarr_standing_answer, until);
    FIELD(lohenarr_standing_answer, by);
    FIELD(lohenarr_history_answer, page);
    FIELD(lohenarr_history_answer, refusal);
    FIELD(lohenarr_tree_answer, others);
    FIELD(lohenarr_row_answer, page);
    FIELD(lohenarr_text_answer, need);
    FIELD(lohenarr_text_answer, length);
    FIELD(lohenarr_prepared_answer, records);
    FIELD(lohenarr_next_answer, first);
    FIELD(lohenarr_next_answer, second);
    printf("sizes %zu %zu %zu %zu %zu %zu %zu %zu %zu %zu %zu %zu %zu %zu %zu %zu %zu %zu %zu %zu %zu %zu %zu %zu %zu %zu\n", sizeof(lohenarr_layout_answer), sizeof(lohenarr_pages_answer),
           sizeof(lohenarr_counts_answer), sizeof(lohenarr_kind_answer), sizeof(lohenarr_header_answer),
           sizeof(lohenarr_part_answer), sizeof(lohenarr_size_answer), sizeof(lohenarr_chunk_answer),
           sizeof(lohenarr_place_answer), sizeof(lohenarr_list_answer), sizeof(lohenarr_tally_answer),
           sizeof(lohenarr_table_answer), sizeof(lohenarr_copies_answer), sizeof(lohenarr_copy_answer),
           sizeof(lohenarr_run_answer), sizeof(lohenarr_why_answer), sizeof(lohenarr_spans_answer),
           sizeof(lohenarr_span_answer), sizeof(lohenarr_records_answer), sizeof(lohenarr_standing_answer),
           sizeof(lohenarr_history_answer), sizeof(lohenarr_tree_answer), sizeof(lohenarr_row_answer),
           sizeof(lohenarr_text_answer), sizeof(lohenarr_prepared_answer), sizeof(lohenarr_next_answer));
    return 0;
}
