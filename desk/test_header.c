/* What desk.h has beside the exports, in C and in C++: NULL with length 0, results that are not wanted, rows as structs, numbers as text,
 * names for the header's words. That each function asks its export rightly is seen by test_structs.c. desk/run compiles it so that a null
 * pointer handed to an export ends the program. */
#include "desk_exports.h"

#define NO_NULL(export) extern __typeof__(export) export __attribute__((nonnull))
NO_NULL(desk_check);
NO_NULL(desk_insert);
NO_NULL(desk_get_for_ts);
NO_NULL(desk_on_record);
NO_NULL(desk_compare);
NO_NULL(desk_explain);
NO_NULL(desk_check_points);
NO_NULL(desk_get_point);
NO_NULL(desk_on_record_point);
NO_NULL(desk_check_names);
NO_NULL(desk_number_of);
NO_NULL(desk_place_of_name);
NO_NULL(desk_number_text);
NO_NULL(desk_day_of);
NO_NULL(desk_date_of);
NO_NULL(desk_day_start);
NO_NULL(desk_utf8);
NO_NULL(desk_metadata_open);
NO_NULL(desk_metadata_merge);
NO_NULL(desk_metadata_finish);
NO_NULL(desk_build);
NO_NULL(desk_build_points);
NO_NULL(desk_hint_of);
NO_NULL(desk_open);
NO_NULL(desk_next);
NO_NULL(desk_feed_open);
NO_NULL(desk_feed_bytes);
NO_NULL(desk_feed_end);
NO_NULL(desk_feed_next);

#include "desk.h"

#include <stdio.h>
#include <string.h>

static unsigned tried, failed;

static void is(int holds, const char *what, int line) {
    tried++;
    if (holds) return;
    failed++;
    printf("test_header.c:%d: %s\n", line, what);
}
#define IS(what) is((what), #what, __LINE__)
#define IS_NUMBER(number, call) is((call) == (uint32_t)(number), #call " is " #number, __LINE__)
#define DONE(call) IS_NUMBER(DESK_DONE, call)

enum { D1 = 20240228, D2 = 20240229, D3 = 20240301 };
static const uint64_t day = UINT64_C(86400000000000);

static uint8_t bytes[64], table_bytes[4 * DESK_INTERVAL_BYTES], other_bytes[4 * DESK_INTERVAL_BYTES], point_bytes[2 * DESK_POINT_BYTES];
static uint8_t stretch_bytes[8 * DESK_STRETCH_BYTES];
static uint32_t ends[8];

/* ---- Nothing lent: every pointer NULL, every length 0. */

static void test_nulls(void) {
    desk_names names = {NULL, 0, NULL, 0, 0, 0};
    desk_table table = {NULL, 0, 0};
    desk_point_table points = {NULL, 0, 0};
    desk_stretches stretches = {NULL, 0, 7};
    desk_explanation explanation;
    desk_metadata metadata, added;
    desk_interval interval;
    desk_stretch stretch;
    static desk_merge merge;
    desk_record record = {7, 7, 7, 7, 7, 7, 7, NULL};
    desk_damage damage = {7, 7, 7};
    uint32_t symbol = 7, value = 7;
    uint64_t cursor = 7, reason = 7, hint = 7;
    desk_name name = {"as before", 9};

    DONE(desk_names_check(&names));
    IS_NUMBER(DESK_NO_NAME_ROOM, desk_names_add(&names, NULL, 0, &symbol));
    IS_NUMBER(DESK_UNKNOWN_SYMBOL, desk_names_get(&names, 0, &name));
    IS(symbol == 7 && strcmp(name.text, "as before") == 0 && name.len == 9);
    DONE(desk_table_check(&table, &names));
    DONE(desk_table_insert(&table, &names, 1, 5, 5, 0));
    IS_NUMBER(DESK_UNKNOWN_SYMBOL, desk_table_insert(&table, &names, 1, 5, 6, 0));
    DONE(desk_table_get(&table, 1, 5, &cursor, &symbol));
    IS(symbol == DESK_NOTHING && cursor == 7);
    DONE(desk_table_explain(&table, &names, 1, 5, &explanation));
    IS(explanation.reason == DESK_UNKNOWN && explanation.next_end == 0);
    IS_NUMBER(DESK_DAMAGED, desk_table_record(&table, &names, NULL, 0, &reason));
    IS(reason == DESK_SHORT && strcmp(desk_reason_text(reason), "Fewer than 16 bytes are left.") == 0);
    IS(!desk_table_interval(&table, 0, &interval));
    DONE(desk_table_compare(&table, &table, &names, &stretches));
    IS(stretches.count == 0 && !desk_stretches_get(&stretches, 0, &stretch));
    DONE(desk_point_table_check(&points, &names));
    DONE(desk_point_table_get(&points, 1, &symbol));
    IS(symbol == DESK_NOTHING);
    reason = 7;
    IS_NUMBER(DESK_DAMAGED, desk_point_table_record(&points, &names, NULL, 0, &reason));
    IS(reason == DESK_SHORT);
    IS_NUMBER(DESK_NOT_NUMBER, desk_text_number(NULL, 0, &value));
    IS(value == 7);
    DONE(desk_text_check(NULL, 0));

    memset(&metadata, 0, sizeof metadata), memset(&added, 0, sizeof added);
    DONE(desk_metadata_begin(&metadata));
    IS_NUMBER(DESK_UNKNOWN_SYMBOL, desk_metadata_add(&metadata, &added, &names, &value)); /* the dataset is name 0 */
    names.names = 1;
    DONE(desk_metadata_add(&metadata, &added, &names, &value));
    IS(value == 7);
    names.names = 0;
    DONE(desk_metadata_end(&metadata));
    DONE(desk_metadata_hint(&metadata, &hint));
    IS(hint == 0);
    table.used = points.used = 9;
    DONE(desk_table_build(&table, &metadata, &names));
    DONE(desk_point_table_build(&points, &metadata, &names, D1));
    IS(table.used == 0 && points.used == 0);

    IS_NUMBER(DESK_BAD_STREAMS, desk_merge_open(&merge, NULL, 0, NULL, 0, NULL, 0));
    DONE(desk_merge_next(&merge, &record, &damage)); /* of a merge all of 0, which has no stream */
    IS(record.found == 0 && record.stream == 0 && record.length == 0 && record.bytes == NULL && damage.stream == 7);
    {
        static const uint64_t cuts[3] = {0, 0, 0};
        DONE(desk_merge_open(&merge, NULL, 0, cuts, 3, NULL, 0));
        IS(merge.streams == 2 && merge.held == 2);
        DONE(desk_merge_next(&merge, &record, &damage));
        IS(record.found == 0 && merge.held == 0);
    }
}

/* ---- What is lent and not wanted: the same numbers and the same memory, without the results. */

static void begin_names(desk_names *names) {
    static const char *const texts[] = {"", "5", "ES", "NQ"};
    size_t i;
    desk_names fresh = {bytes, sizeof bytes, ends, 8, 0, 0};
    *names = fresh;
    for (i = 0; i < 4; i++) DONE(desk_names_add(names, texts[i], strlen(texts[i]), NULL));
    IS(names->names == 4 && names->name_bytes == 5);
}

static uint8_t streams[40];

static void put(uint8_t *to, int width, uint64_t n) {
    for (; 0 < width--; n >>= 8) *to++ = (uint8_t)n;
}

static void test_unwanted(void) {
    desk_names names;
    desk_table table = {table_bytes, sizeof table_bytes, 0}, other = {other_bytes, sizeof other_bytes, 0};
    desk_point_table points = {point_bytes, sizeof point_bytes, 0};
    desk_stretches stretches = {stretch_bytes, sizeof stretch_bytes, 0};
    desk_mapping mappings[] = {{2, 1}, {3, 1}};
    desk_dates intervals[] = {{D1, D2, 1}, {D2, D3, 1}};
    desk_metadata metadata, added;
    desk_interval interval;
    desk_stretch stretch;
    static desk_merge merge;
    static const uint64_t cuts[] = {0, 19, 35};
    uint32_t symbol = 7;
    uint64_t moment = 7;
    desk_name name;

    begin_names(&names);
    DONE(desk_names_get(&names, 2, NULL));
    DONE(desk_names_get(&names, 2, &name));
    IS(name.len == 2 && memcmp(name.text, "ES", 2) == 0 && name.text == (const char *)bytes + 1);
    DONE(desk_names_get(&names, 0, &name));
    IS(name.len == 0);
    {
        uint32_t one_end[1] = {0};
        desk_names empty = {NULL, 0, one_end, 1, 1, 0}; /* one name, without a byte */
        DONE(desk_names_get(&empty, 0, &name));
        IS(name.len == 0 && name.text != NULL);
    }

    DONE(desk_table_insert(&table, &names, 9, 10, 20, 2));
    DONE(desk_table_insert(&table, &names, 9, 20, UINT64_MAX, 3));
    DONE(desk_table_get(&table, 9, 15, NULL, NULL));
    DONE(desk_table_get(&table, 9, 25, NULL, &symbol));
    IS(symbol == 3);
    DONE(desk_table_get(&table, 9, 5, NULL, &symbol));
    IS(symbol == DESK_NOTHING);
    DONE(desk_table_explain(&table, &names, 9, 15, NULL));
    IS_NUMBER(DESK_DAMAGED, desk_table_record(&table, &names, streams, 0, NULL));
    IS_NUMBER(DESK_DAMAGED, desk_point_table_record(&points, &names, streams, 0, NULL));

    IS(desk_table_interval(&table, 1, NULL) && desk_table_interval(&table, 1, &interval) && !desk_table_interval(&table, 2, &interval));
    IS(interval.instrument == 9 && interval.symbol == 3 && interval.start == 20 && interval.end == UINT64_MAX);
    table.used = SIZE_MAX; /* a row past what is lent is none */
    IS(desk_table_interval(&table, 3, NULL) && !desk_table_interval(&table, 4, NULL) && !desk_table_interval(&table, SIZE_MAX - 1, NULL));
    table.used = 2;

    DONE(desk_table_insert(&other, &names, 9, 10, 15, 3));
    DONE(desk_table_compare(&table, &other, &names, &stretches));
    IS(stretches.count == 3 && desk_stretches_get(&stretches, 1, &stretch) && desk_stretches_get(&stretches, 2, NULL));
    IS(stretch.instrument == 9 && stretch.left == 2 && stretch.right == DESK_NOTHING && stretch.start == 15 && stretch.end == 20);
    IS(desk_stretches_get(&stretches, 0, &stretch) && stretch.left == 2 && stretch.right == 3 && stretch.start == 10 && stretch.end == 15);
    IS(!desk_stretches_get(&stretches, 3, &stretch));
    stretches.count = SIZE_MAX;
    IS(desk_stretches_get(&stretches, 7, NULL) && !desk_stretches_get(&stretches, 8, NULL));

    memset(&metadata, 0, sizeof metadata);
    metadata.mappings = mappings, metadata.mappings_len = 2, metadata.intervals = intervals, metadata.intervals_len = 2;
    metadata.header[DESK_HEADER_MAPPINGS] = 2, metadata.header[DESK_HEADER_START] = 5;
    added = metadata, added.mappings_len = 1, added.header[DESK_HEADER_MAPPINGS] = 0;
    added.header[DESK_HEADER_VERSION] = 1;
    DONE(desk_metadata_begin(&metadata));
    IS_NUMBER(DESK_DIFFER, desk_metadata_add(&metadata, &added, &names, NULL));
    DONE(desk_metadata_hint(&metadata, NULL));
    DONE(desk_table_build(&table, &metadata, &names));
    IS(table.used == 2 && desk_table_interval(&table, 1, &interval) && interval.symbol == 3 && interval.start == 19782 * day);
    DONE(desk_point_table_build(&points, &metadata, &names, D1));
    DONE(desk_point_table_get(&points, 5, NULL));
    DONE(desk_point_table_get(&points, 5, &symbol));
    IS(symbol == 2);
    metadata.mappings_len = SIZE_MAX / 2 + 3; /* twice that is 4 where it is not held to be over every limit */
    IS_NUMBER(DESK_BAD_MEMORY, desk_metadata_begin(&metadata));
    IS_NUMBER(DESK_BAD_MEMORY, desk_table_build(&table, &metadata, &names));

    DONE(desk_date_start(D1, NULL));
    DONE(desk_date_start(D2, &moment));
    IS(moment == 19782 * day);
    IS_NUMBER(DESK_NO_DATE, desk_date_start(20230229, &moment));
    DONE(desk_date_at(0, NULL));
    DONE(desk_date_at(moment - 1, &symbol));
    IS(symbol == D1 && moment == 19782 * day);
    DONE(desk_date_at(UINT64_MAX, &symbol));
    IS(symbol == 25540721);
    DONE(desk_text_number("7", 1, NULL));

    put(streams, 2, 16), put(streams + 4, 4, 7), put(streams + 8, 8, 5);
    put(streams + 19, 2, 16), put(streams + 21, 2, 9), put(streams + 23, 4, 8), put(streams + 27, 8, 6);
    {
        uint64_t page[2 * DESK_RUN_WORDS] = {9, 9, 9, 9, 9, 9};
        size_t calls = 9, written = 9;
        uint32_t last = 9;
        desk_damage damage = {9, 9, 9};
        DONE(desk_merge_open(&merge, streams, 35, cuts, 3, NULL, 0)); /* by runs: a record, damage; a record, the end */
        IS_NUMBER(DESK_BAD_MEMORY, desk_merge_run(&merge, DESK_RUN_CALLS + 1, page, 2, &calls, &written, &last, &damage));
        IS(calls == 9 && written == 9 && last == 9 && damage.stream == 9 && page[0] == 9 && merge.held == 2);
        IS_NUMBER(DESK_DAMAGED, desk_merge_run(&merge, DESK_RUN_CALLS, page, 2, &calls, &written, &last, &damage));
        IS(calls == 2 && written == 1 && last == 9 && damage.stream == 0 && damage.place == 16 && damage.reason == DESK_SHORT);
        IS(page[0] == 0 && page[1] == 0 && page[2] == 5 && page[3] == 9);
        DONE(desk_merge_run(&merge, 1, page, 2, &calls, &written, &last, &damage));
        IS(calls == 1 && written == 1 && last == 1 && page[0] == 1 && page[1] == 0 && page[2] == 6 && damage.place == 16);
        DONE(desk_merge_run(&merge, 5, NULL, 0, &calls, NULL, NULL, NULL)); /* no room: no call */
        IS(calls == 0 && merge.held == 1);
        DONE(desk_merge_run(&merge, 5, page, 2, NULL, &written, &last, NULL));
        IS(written == 0 && last == 0 && merge.held == 0);
    }
    DONE(desk_merge_open(&merge, streams, 35, cuts, 3, NULL, 0));
    DONE(desk_merge_next(&merge, NULL, NULL));
    IS_NUMBER(DESK_DAMAGED, desk_merge_next(&merge, NULL, NULL));
    {
        desk_record record = {0, 0, 0, 0, 0, 0, 0, NULL};
        desk_merge before = merge;
        DONE(desk_merge_next(&merge, &record, NULL));
        IS(record.found == 1 && record.stream == 1 && record.bytes == streams + 19 && record.kind == 9 && record.time == 6);
        DONE(desk_merge_next(&before, NULL, NULL)); /* a copy goes its own way */
        DONE(desk_merge_next(&before, &record, NULL));
        IS(record.found == 0 && record.bytes == NULL && before.held == 0 && merge.held == 1);
        IS_NUMBER(DESK_BAD_STREAMS, desk_merge_open(&merge, streams, 35, cuts, 2, NULL, 0));
        IS(merge.held == 1 && merge.cuts_len == 3 && merge.buffer == streams); /* refused: as before */
        memset(merge.marks, 0, sizeof merge.marks); /* a state that no opening made: no cut of such a stream is read */
        merge.marks[200] = 2, merge.heap[0] = 200, merge.held = 1;
        DONE(desk_merge_next(&merge, &record, NULL));
        IS(record.found == 1 && record.stream == 200 && record.bytes == NULL);
    }
}

/* ---- Streams in portions: nothing lent, nothing wanted, a copy. */

static void test_feed(void) {
    static desk_feed feed, before;
    desk_record record = {7, 7, 7, 7, 7, 7, 7, NULL};
    desk_damage damage = {7, 7, 7};
    size_t taken = 7;
    IS_NUMBER(DESK_BAD_STREAMS, desk_feed_begin(&feed, 0, NULL, 0));
    DONE(desk_feed_read(&feed, &record, &damage)); /* of a feed all of 0, which has no stream */
    IS(record.found == 0 && record.stream == 0 && record.length == 0 && record.bytes == NULL && damage.stream == 7);
    DONE(desk_feed_begin(&feed, 2, NULL, 0));
    IS(feed.held == 2);
    DONE(desk_feed_add(&feed, 0, NULL, 0, &taken));
    IS(taken == 0);
    DONE(desk_feed_add(&feed, 0, NULL, 0, NULL));
    put(streams, 2, 16), put(streams + 2, 2, 9), put(streams + 4, 4, 7), put(streams + 8, 8, 5);
    DONE(desk_feed_add(&feed, 1, streams, 19, NULL));
    DONE(desk_feed_read(&feed, NULL, NULL));
    DONE(desk_feed_read(&feed, &record, &damage));
    IS(record.found == DESK_NEED_MORE && record.stream == 0 && record.bytes == NULL && record.time == 0 && damage.stream == 7);
    DONE(desk_feed_finish(&feed, 0));
    IS_NUMBER(DESK_BAD_STREAMS, desk_feed_finish(&feed, 0));
    taken = 7;
    IS_NUMBER(DESK_BAD_STREAMS, desk_feed_add(&feed, 0, NULL, 0, &taken));
    IS(taken == 7);
    DONE(desk_feed_read(&feed, &record, NULL));
    IS(record.found == 1 && record.stream == 1 && record.kind == 9 && record.bytes == feed.window + DESK_WINDOW);
    IS(memcmp(record.bytes, streams, 16) == 0);
    DONE(desk_feed_finish(&feed, 1));
    before = feed;
    IS_NUMBER(DESK_DAMAGED, desk_feed_read(&feed, NULL, NULL));
    IS_NUMBER(DESK_DAMAGED, desk_feed_read(&before, &record, &damage)); /* a copy goes its own way */
    IS(record.found == 1 && damage.stream == 1 && damage.place == 16 && damage.reason == DESK_SHORT && before.held == 0);
    DONE(desk_feed_read(&feed, &record, &damage));
    IS(record.found == 0 && record.bytes == NULL);
    IS(DESK_WINDOW_BYTES == DESK_STREAMS * DESK_WINDOW && DESK_WINDOW >= DESK_RECORD_BYTES);
}

/* ---- Names of numbers. */

static void test_texts(void) {
    unsigned n, other;
#define NAMED(number) IS(strcmp(desk_refusal_name(number), #number) == 0)
    NAMED(DESK_DONE), NAMED(DESK_REVERSED), NAMED(DESK_NO_ROOM), NAMED(DESK_UNKNOWN_SYMBOL), NAMED(DESK_BAD_NAME);
    NAMED(DESK_NO_NAME_ROOM), NAMED(DESK_DIFFER), NAMED(DESK_CONFLICT), NAMED(DESK_NOT_NUMBER), NAMED(DESK_NO_INSTRUMENT_ID);
    NAMED(DESK_OUTSIDE_QUERY), NAMED(DESK_NO_DATE), NAMED(DESK_BAD_STREAMS), NAMED(DESK_DAMAGED), NAMED(DESK_ILL_FORMED);
    NAMED(DESK_BAD_MEMORY);
    IS(strcmp(desk_refusal_name(16), "DESK_?") == 0 && strcmp(desk_refusal_name(UINT32_MAX), "DESK_?") == 0);
    for (n = 0; n <= 16; n++) {
        const char *text = desk_refusal_text(n);
        IS(10 < strlen(text) && text[strlen(text) - 1] == '.');
        for (other = 0; other < n; other++) IS(strcmp(desk_refusal_text(other), text) != 0);
    }
    IS(strcmp(desk_refusal_text(16), desk_refusal_text(UINT32_MAX)) == 0);
    IS(strcmp(desk_refusal_text(DESK_REVERSED), "The start comes after the end.") == 0);
    IS(strcmp(desk_refusal_text(DESK_BAD_STREAMS), "The stream list is wrong.") == 0);
    IS(strcmp(desk_reason_text(0), desk_reason_text(5)) == 0 && strcmp(desk_reason_text(0), desk_reason_text(UINT64_MAX)) == 0);
    for (n = 0; n < 5; n++)
        for (other = 0; other < n; other++) IS(strcmp(desk_reason_text(other), desk_reason_text(n)) != 0);
    IS(strcmp(desk_version(), "0.1.0") == 0 && DESK_VERSION_MAJOR == 0 && DESK_VERSION_MINOR == 1 && DESK_VERSION_PATCH == 0);
    IS(DESK_HEADER_VERSION == 0 && DESK_HEADER_DATASET == 1 && DESK_HEADER_SCHEMA == 2 && DESK_HEADER_START == 3 && DESK_HEADER_END == 4);
    IS(DESK_HEADER_LIMIT == 5 && DESK_HEADER_STYPE_IN == 6 && DESK_HEADER_STYPE_OUT == 7 && DESK_HEADER_TS_OUT == 8);
    IS(DESK_HEADER_SYMBOL_CSTR_LEN == 9 && DESK_HEADER_SYMBOLS == 10 && DESK_HEADER_PARTIAL == 11 && DESK_HEADER_NOT_FOUND == 12);
    IS(DESK_HEADER_MAPPINGS == 13 && DESK_HEADER_WORDS == 14);
    IS(sizeof(desk_mapping) == 4 * DESK_MAPPING_WORDS && sizeof(desk_dates) == 4 * DESK_INTERVAL_WORDS);
}

int main(void) {
    test_nulls();
    test_unwanted();
    test_feed();
    test_texts();
    printf("%u tried, %u failed\n", tried, failed);
    return failed != 0;
}
