/* Every function of the C door on good and bad input: every refusal that it can give, lengths one off, numbers in use over their
 * room, the largest hints; and after each refusal every byte that was lent is compared with what it was. At the end each sentence
 * of the header on what stands behind the pointers after an answer is read against the code. */
#include "desk.h"

#include <stdio.h>
#include <string.h>

static unsigned tried, failed;

static void is(int holds, const char *what, int line) {
    tried++;
    if (holds) return;
    failed++;
    printf("test.c:%d: %s\n", line, what);
}
#define IS(what) is((what), #what, __LINE__)

/* ---- What is lent, all in one piece, so that one comparison finds any change. */

enum { ROOM = 4, POINTS = 3, NAMES = 4, NAME_ROOM = 300, BUFFER = 96, STRETCHES = 6, RUN_ROOM = 12 };
enum { SYMBOLS, PARTIAL, NOT_FOUND, MAPPINGS, INTERVALS, LISTS }; /* of a metadata */
enum { LIST_ROOM = 24 };                                          /* words of each */

static struct desk {
    uint64_t hint, moment, reason, stream, place, time, index, from, to, next_from, next_to;
    uint64_t times[DESK_STREAMS + 1], places[DESK_STREAMS + 1], heads[DESK_STREAMS + 1], spans[DESK_STREAMS + 1];
    size_t used, points_used, names, name_bytes, first, end, streams, held, count, at, taken, calls, written;
    uint32_t found, last, symbol, day, date, value, instrument, told, next_symbol;
    uint32_t ends[NAMES + 1];
    uint16_t length, kind;
    uint8_t table[(ROOM + 1) * DESK_INTERVAL_BYTES], points[(POINTS + 1) * DESK_POINT_BYTES], bytes[NAME_ROOM + 1];
    uint8_t other[(ROOM + 1) * DESK_INTERVAL_BYTES], stretches[STRETCHES * DESK_STRETCH_BYTES];
    uint8_t marks[DESK_STREAMS + 1], heap[DESK_STREAMS + 1];
    uint64_t header[DESK_HEADER_WORDS + 1], rows[RUN_ROOM];
    uint32_t list[LISTS][LIST_ROOM], field;
} d, was;

/* The call answers the number and leaves everything as it was. */
#define KEEPS(number, call)                                   \
    do {                                                      \
        was = d;                                              \
        is((call) == (number), #call " is " #number, __LINE__); \
        is(memcmp(&d, &was, sizeof d) == 0, #call " changes nothing", __LINE__); \
    } while (0)
#define REFUSES(number, call) KEEPS(number, call)

#define DONE(call) is((call) == DESK_DONE, #call " is done", __LINE__)

static uint8_t pattern = 0xA5;

/* Everything holds something before it is set. */
static void begin(void) {
    memset(&d, pattern, sizeof d);
    d.used = d.points_used = d.names = d.name_bytes = 0;
}

static void put(uint8_t *to, int width, uint64_t n) {
    for (int i = 0; i < width; i++, n >>= 8) to[i] = (uint8_t)n;
}

static void put_interval(uint8_t *table, size_t i, uint32_t instrument, uint32_t symbol, uint64_t start, uint64_t end) {
    uint8_t *row = table + i * DESK_INTERVAL_BYTES;
    put(row, 4, instrument);
    put(row + 4, 4, symbol);
    put(row + 8, 8, start);
    put(row + 16, 8, end);
}

static int interval_is(size_t i, uint32_t instrument, uint32_t symbol, uint64_t start, uint64_t end) {
    uint8_t row[DESK_INTERVAL_BYTES];
    put_interval(row, 0, instrument, symbol, start, end);
    return memcmp(d.table + i * DESK_INTERVAL_BYTES, row, sizeof row) == 0;
}

static int all(const uint8_t *from, size_t len, uint8_t byte) {
    while (len != 0 && *from == byte) from++, len--;
    return len == 0;
}

/* ---- The map over time. */

static const size_t whole = ROOM * DESK_INTERVAL_BYTES;

static uint32_t insert(uint32_t instrument, uint64_t start, uint64_t end, uint32_t symbol) {
    return desk_insert(d.table, whole, &d.used, 2, instrument, start, end, symbol);
}

static void test_check(void) {
    begin();
    DONE(desk_check(d.table, 0, 0, 0));
    DONE(desk_check(d.table, whole, 0, DESK_NAMES));
    put_interval(d.table, 0, 1, 0, 10, 20);
    put_interval(d.table, 1, 1, 1, 20, 30);
    put_interval(d.table, 2, 2, 1, 5, UINT64_MAX);
    DONE(desk_check(d.table, whole, 3, 2));
    REFUSES(DESK_ILL_FORMED, desk_check(d.table, whole, 3, 1));
    REFUSES(DESK_ILL_FORMED, desk_check(d.table, whole, 4, 2));
    REFUSES(DESK_BAD_MEMORY, desk_check(d.table, whole, 5, 2));
    REFUSES(DESK_BAD_MEMORY, desk_check(d.table, whole, SIZE_MAX, 2));
    REFUSES(DESK_BAD_MEMORY, desk_check(d.table, whole - 1, 3, 2));
    REFUSES(DESK_BAD_MEMORY, desk_check(d.table, whole + 1, 3, 2));
    REFUSES(DESK_BAD_MEMORY, desk_check(d.table, whole, 3, DESK_NAMES + 1));
    REFUSES(DESK_BAD_MEMORY, desk_check(d.table, 0, 1, 2));
    put_interval(d.table, 1, 1, 0, 20, 30); /* touches, with the same symbol */
    REFUSES(DESK_ILL_FORMED, desk_check(d.table, whole, 3, 2));
    put_interval(d.table, 1, 1, 1, 19, 30); /* overlaps */
    REFUSES(DESK_ILL_FORMED, desk_check(d.table, whole, 3, 2));
    put_interval(d.table, 1, 1, 1, 25, 25); /* empty */
    REFUSES(DESK_ILL_FORMED, desk_check(d.table, whole, 3, 2));
}

static void test_limits(void) {
    static uint8_t most[(DESK_ROOM + 1) * DESK_INTERVAL_BYTES];
    DONE(desk_check(most, sizeof most - DESK_INTERVAL_BYTES, 0, 0));
    REFUSES(DESK_BAD_MEMORY, desk_check(most, sizeof most, 0, 0));
    DONE(desk_check_points(most, DESK_ROOM * DESK_POINT_BYTES, 0, 0));
    REFUSES(DESK_BAD_MEMORY, desk_check_points(most, (DESK_ROOM + 1) * DESK_POINT_BYTES, 0, 0));
    for (uint32_t i = 0; i < DESK_ROOM; i++) put_interval(most, i, i / 256, i % 2, i % 256 * 2, i % 256 * 2 + 1);
    DONE(desk_check(most, sizeof most - DESK_INTERVAL_BYTES, DESK_ROOM, 2));
    d.used = DESK_ROOM;
    DONE(desk_insert(most, sizeof most - DESK_INTERVAL_BYTES, &d.used, 2, 0, 1, 2, 0));
    IS(d.used == DESK_ROOM);
    REFUSES(DESK_NO_ROOM, desk_insert(most, sizeof most - DESK_INTERVAL_BYTES, &d.used, 2, 300, 1, 2, 0));
}

static void test_insert(void) {
    begin();
    DONE(insert(1, 10, 30, 0));
    IS(d.used == 1 && interval_is(0, 1, 0, 10, 30) && all(d.table + 24, sizeof d.table - 24, 0xA5));
    DONE(insert(1, 15, 18, 1));
    IS(d.used == 3 && interval_is(0, 1, 0, 10, 15) && interval_is(1, 1, 1, 15, 18) && interval_is(2, 1, 0, 18, 30));
    DONE(insert(1, 15, 18, 0));
    IS(d.used == 1 && interval_is(0, 1, 0, 10, 30));
    IS(all(d.table + 24, 48, 0) && all(d.table + 72, sizeof d.table - 72, 0xA5));
    DONE(insert(1, 0, UINT64_MAX, 1));
    IS(d.used == 1 && interval_is(0, 1, 1, 0, UINT64_MAX));
    REFUSES(DESK_DONE, insert(1, 5, 5, 9)); /* done, and changes nothing */
    REFUSES(DESK_REVERSED, insert(1, 6, 5, 9));
    REFUSES(DESK_UNKNOWN_SYMBOL, insert(1, 5, 6, 2));
    REFUSES(DESK_UNKNOWN_SYMBOL, desk_insert(d.table, 24, &d.used, 2, 1, 5, 6, 2));
    REFUSES(DESK_NO_ROOM, desk_insert(d.table, 24, &d.used, 2, 1, 5, 6, 0));
    REFUSES(DESK_NO_ROOM, desk_insert(d.table, 48, &d.used, 2, 1, 5, 6, 0));
    DONE(desk_insert(d.table, 72, &d.used, 2, 1, 5, 6, 0));
    IS(d.used == 3);
    REFUSES(DESK_BAD_MEMORY, desk_insert(d.table, 71, &d.used, 2, 1, 5, 6, 0));
    REFUSES(DESK_BAD_MEMORY, desk_insert(d.table, 73, &d.used, 2, 1, 5, 6, 0));
    REFUSES(DESK_BAD_MEMORY, desk_insert(d.table, 48, &d.used, 2, 1, 5, 6, 0));
    REFUSES(DESK_BAD_MEMORY, desk_insert(d.table, whole, &d.used, DESK_NAMES + 1, 1, 6, 5, 0));
    REFUSES(DESK_ILL_FORMED, desk_insert(d.table, whole, &d.used, 1, 1, 6, 5, 0));
    d.used = ROOM;
    REFUSES(DESK_ILL_FORMED, insert(1, 5, 5, 0));
    d.used = ROOM + 1;
    REFUSES(DESK_BAD_MEMORY, insert(1, 5, 6, 0));
    d.used = SIZE_MAX;
    REFUSES(DESK_BAD_MEMORY, insert(1, 5, 6, 0));
}

/* ---- Two tables side by side: d.table and d.other, 3 names. */

static uint32_t compare(size_t left_used, size_t right_used, size_t room) {
    return desk_compare(d.table, whole, left_used, d.other, whole, right_used, 3, d.stretches, room * DESK_STRETCH_BYTES, &d.count);
}

static int stretch_is(size_t i, uint32_t instrument, uint32_t left, uint32_t right, uint64_t start, uint64_t end) {
    uint8_t row[DESK_STRETCH_BYTES];
    put(row, 4, instrument);
    put(row + 4, 4, left);
    put(row + 8, 4, right);
    put(row + 12, 8, start);
    put(row + 20, 8, end);
    return memcmp(d.stretches + i * DESK_STRETCH_BYTES, row, sizeof row) == 0;
}

static void test_compare(void) {
    const uint32_t nothing = DESK_NOTHING;
    begin();
    DONE(compare(0, 0, 0));
    IS(d.count == 0);
    put_interval(d.table, 0, 7, 0, 10, 30);
    put_interval(d.other, 0, 7, 1, 15, 18);
    REFUSES(DESK_NO_ROOM, compare(1, 1, 0));
    REFUSES(DESK_NO_ROOM, compare(1, 1, 2));
    DONE(compare(1, 1, 3));
    IS(d.count == 3 && stretch_is(0, 7, 0, nothing, 10, 15) && stretch_is(1, 7, 0, 1, 15, 18) && stretch_is(2, 7, 0, nothing, 18, 30));
    IS(all(d.stretches + 3 * DESK_STRETCH_BYTES, sizeof d.stretches - 3 * DESK_STRETCH_BYTES, 0xA5));
    DONE(compare(1, 0, 6)); /* what is past the number in use is not seen; places past the list keep what they held */
    IS(d.count == 1 && stretch_is(0, 7, 0, nothing, 10, 30) && stretch_is(1, 7, 0, 1, 15, 18));
    DONE(compare(0, 1, 1));
    IS(d.count == 1 && stretch_is(0, 7, nothing, 1, 15, 18));
    DONE(desk_compare(d.table, whole, 1, d.table, whole, 1, 3, d.stretches, 0, &d.count));
    IS(d.count == 0);
    put_interval(d.table, 0, 7, 0, 0, 3);
    put_interval(d.table, 1, 7, 0, 4, 7);
    put_interval(d.other, 0, 7, 1, 2, 5);
    DONE(compare(2, 1, DESK_STRETCHES(2, 1)));
    IS(d.count == 5 && stretch_is(0, 7, 0, nothing, 0, 2) && stretch_is(1, 7, 0, 1, 2, 3) && stretch_is(2, 7, nothing, 1, 3, 4));
    IS(stretch_is(3, 7, 0, 1, 4, 5) && stretch_is(4, 7, 0, nothing, 5, 7));
    put_interval(d.other, 0, 4294967295u, 2, 0, UINT64_MAX);
    DONE(compare(2, 1, 3));
    IS(d.count == 3 && stretch_is(0, 7, 0, nothing, 0, 3) && stretch_is(2, 4294967295u, nothing, 2, 0, UINT64_MAX));
    REFUSES(DESK_BAD_MEMORY, desk_compare(d.table, whole, 2, d.other, whole, 1, 3, d.stretches, 83, &d.count));
    REFUSES(DESK_BAD_MEMORY, desk_compare(d.table, whole, 2, d.other, whole, 1, 3, d.stretches, 85, &d.count));
    REFUSES(DESK_BAD_MEMORY, desk_compare(d.table, whole - 1, 2, d.other, whole, 1, 3, d.stretches, 84, &d.count));
    REFUSES(DESK_BAD_MEMORY, desk_compare(d.table, whole, 2, d.other, whole + 1, 1, 3, d.stretches, 84, &d.count));
    REFUSES(DESK_BAD_MEMORY, desk_compare(d.table, whole, ROOM + 1, d.other, whole, 1, 3, d.stretches, 84, &d.count));
    REFUSES(DESK_BAD_MEMORY, desk_compare(d.table, whole, 2, d.other, whole, SIZE_MAX, 3, d.stretches, 84, &d.count));
    REFUSES(DESK_BAD_MEMORY, desk_compare(d.table, whole, 2, d.other, whole, 1, DESK_NAMES + 1, d.stretches, 84, &d.count));
    REFUSES(DESK_ILL_FORMED, desk_compare(d.table, whole, 2, d.other, whole, 1, 2, d.stretches, 0, &d.count));
    REFUSES(DESK_ILL_FORMED, compare(3, 1, 3));
    REFUSES(DESK_ILL_FORMED, compare(2, 2, 0));
}

/* ---- Why there is a symbol, or none: d.table, 3 names. */

static uint32_t explain(size_t used, uint32_t instrument, uint64_t moment) {
    return desk_explain(d.table, whole, used, 3, instrument, moment, &d.told, &d.index, &d.from, &d.to, &d.symbol, &d.next_from, &d.next_to,
                        &d.next_symbol);
}

/* What the call told, and the interval that it named. */
static int tells(uint32_t told, uint64_t index, uint64_t from, uint64_t to, uint32_t symbol) {
    return d.told == told && d.index == index && d.from == from && d.to == to && d.symbol == symbol;
}

static int tells_next(uint64_t from, uint64_t to, uint32_t symbol) {
    return d.next_from == from && d.next_to == to && d.next_symbol == symbol;
}

static void test_explain(void) {
    begin();
    DONE(explain(0, 7, 15));
    IS(tells(DESK_UNKNOWN, 0, 0, 0, 0) && tells_next(0, 0, 0));
    DONE(desk_explain(d.table, 0, 0, 0, 7, 15, &d.told, &d.index, &d.from, &d.to, &d.symbol, &d.next_from, &d.next_to, &d.next_symbol));
    IS(tells(DESK_UNKNOWN, 0, 0, 0, 0) && tells_next(0, 0, 0));
    put_interval(d.table, 0, 1, 2, 5, 9);
    put_interval(d.table, 1, 7, 0, 10, 20);
    put_interval(d.table, 2, 7, 1, 20, 30);
    put_interval(d.table, 3, 7, 0, 40, UINT64_MAX);
    DONE(explain(4, 7, 9));
    IS(tells(DESK_BEFORE, 0, 10, 20, 0) && tells_next(0, 0, 0));
    DONE(explain(4, 7, 10));
    IS(tells(DESK_IN, 0, 10, 20, 0) && tells_next(0, 0, 0));
    DONE(explain(4, 7, 20));
    IS(tells(DESK_IN, 1, 20, 30, 1) && tells_next(0, 0, 0));
    DONE(explain(4, 7, 35));
    IS(tells(DESK_BETWEEN, 1, 20, 30, 1) && tells_next(40, UINT64_MAX, 0));
    DONE(explain(4, 7, UINT64_MAX));
    IS(tells(DESK_AFTER, 2, 40, UINT64_MAX, 0) && tells_next(0, 0, 0));
    DONE(explain(3, 7, 35)); /* what is past the number in use is not seen */
    IS(tells(DESK_AFTER, 1, 20, 30, 1) && tells_next(0, 0, 0));
    DONE(explain(4, 1, 9)); /* the neighbour is another instrument's */
    IS(tells(DESK_AFTER, 0, 5, 9, 2) && tells_next(0, 0, 0));
    DONE(explain(4, 4294967295u, 9));
    IS(tells(DESK_UNKNOWN, 0, 0, 0, 0) && tells_next(0, 0, 0));
    DONE(explain(4, 0, 0));
    IS(tells(DESK_UNKNOWN, 0, 0, 0, 0));
    memset(&d.told, 0xA5, sizeof d.told);
    d.index = d.from = d.to = d.next_from = d.next_to = 77;
    d.symbol = d.next_symbol = 77;
    REFUSES(DESK_BAD_MEMORY, explain(ROOM + 1, 7, 15));
    REFUSES(DESK_BAD_MEMORY, explain(SIZE_MAX, 7, 15));
    REFUSES(DESK_BAD_MEMORY, desk_explain(d.table, whole - 1, 4, 3, 7, 15, &d.told, &d.index, &d.from, &d.to, &d.symbol, &d.next_from,
                                          &d.next_to, &d.next_symbol));
    REFUSES(DESK_BAD_MEMORY, desk_explain(d.table, whole, 4, DESK_NAMES + 1, 7, 15, &d.told, &d.index, &d.from, &d.to, &d.symbol,
                                          &d.next_from, &d.next_to, &d.next_symbol));
    REFUSES(DESK_ILL_FORMED, desk_explain(d.table, whole, 4, 2, 9, 15, &d.told, &d.index, &d.from, &d.to, &d.symbol, &d.next_from,
                                          &d.next_to, &d.next_symbol));
    put_interval(d.table, 3, 7, 1, 30, 40);
    REFUSES(DESK_ILL_FORMED, explain(4, 9, 15));
}

static int finds(uint32_t instrument, uint64_t moment, uint64_t hint, uint32_t found, uint32_t symbol, uint64_t new_hint) {
    d.hint = hint;
    d.found = d.symbol = 77;
    uint32_t number = desk_get_for_ts(d.table, whole, d.used, instrument, moment, &d.hint, &d.found, &d.symbol);
    return number == DESK_DONE && d.found == found && d.symbol == symbol && d.hint == new_hint;
}

static void test_get_for_ts(void) {
    begin();
    put_interval(d.table, 0, 1, 5, 10, 20);
    put_interval(d.table, 1, 1, 6, 30, 40);
    put_interval(d.table, 2, 2, 7, 0, UINT64_MAX);
    d.used = 3;
    static const uint64_t hints[] = {0, 1, 2, 3, 4, 65535, 4294967296u, UINT64_MAX - 1, UINT64_MAX};
    for (size_t i = 0; i < sizeof hints / sizeof hints[0]; i++) {
        uint64_t h = hints[i];
        IS(finds(1, 9, h, 0, 0, h));
        IS(finds(1, 10, h, 1, 5, 0) && finds(1, 19, h, 1, 5, 0));
        IS(finds(1, 20, h, 0, 0, 0) && finds(1, 29, h, 0, 0, 0));
        IS(finds(1, 30, h, 1, 6, 1) && finds(1, 39, h, 1, 6, 1));
        IS(finds(1, 40, h, 0, 0, 1) && finds(1, UINT64_MAX, h, 0, 0, 1));
        IS(finds(2, 0, h, 1, 7, 0) && finds(2, UINT64_MAX - 1, h, 1, 7, 0) && finds(2, UINT64_MAX, h, 0, 0, 0));
        IS(finds(0, 15, h, 0, 0, h) && finds(3, 15, h, 0, 0, h) && finds(UINT32_MAX, 15, h, 0, 0, h));
    }
    REFUSES(DESK_BAD_MEMORY, desk_get_for_ts(d.table, whole - 1, 3, 1, 15, &d.hint, &d.found, &d.symbol));
    REFUSES(DESK_BAD_MEMORY, desk_get_for_ts(d.table, whole + 1, 3, 1, 15, &d.hint, &d.found, &d.symbol));
    REFUSES(DESK_BAD_MEMORY, desk_get_for_ts(d.table, whole, 5, 1, 15, &d.hint, &d.found, &d.symbol));
    REFUSES(DESK_BAD_MEMORY, desk_get_for_ts(d.table, whole, SIZE_MAX, 1, 15, &d.hint, &d.found, &d.symbol));
    d.used = 0;
    IS(finds(1, 15, 3, 0, 0, 3));
    DONE(desk_get_for_ts(d.table, 0, 0, 1, 15, &d.hint, &d.found, &d.symbol));
}

/* ---- Names. */

static uint32_t name(const char *text, size_t len) {
    return desk_number_of(d.bytes, NAME_ROOM, d.ends, NAMES, &d.names, &d.name_bytes, (const uint8_t *)text, len, &d.symbol);
}

static void test_names(void) {
    static char long_name[DESK_NAME_BYTES + 1];
    begin();
    memset(long_name, 'z', sizeof long_name);
    DONE(name("ES", 2));
    IS(d.symbol == 0 && d.names == 1 && d.name_bytes == 2 && d.ends[0] == 2 && memcmp(d.bytes, "ES", 2) == 0);
    DONE(name("", 0));
    IS(d.symbol == 1 && d.names == 2 && d.name_bytes == 2 && d.ends[1] == 2);
    DONE(name("ES", 2));
    IS(d.symbol == 0 && d.names == 2 && d.name_bytes == 2);
    REFUSES(DESK_BAD_NAME, name(long_name, DESK_NAME_BYTES + 1));
    REFUSES(DESK_BAD_NAME, name("\xC3", 1));
    REFUSES(DESK_BAD_NAME, name("\xED\xA0\x80", 3));
    DONE(name(long_name, DESK_NAME_BYTES));
    IS(d.symbol == 2 && d.names == 3 && d.name_bytes == 257);
    REFUSES(DESK_NO_NAME_ROOM, name(long_name, 44));
    DONE(name(long_name, 43));
    IS(d.symbol == 3 && d.names == NAMES && d.name_bytes == NAME_ROOM && d.ends[4] == 0xA5A5A5A5u && d.bytes[NAME_ROOM] == 0xA5);
    REFUSES(DESK_NO_NAME_ROOM, name("q", 1));
    REFUSES(DESK_BAD_NAME, name(long_name, DESK_NAME_BYTES + 1));
    DONE(name("", 0));
    IS(d.symbol == 1);

    DONE(desk_check_names(d.bytes, NAME_ROOM, d.ends, NAMES, d.names, d.name_bytes));
    DONE(desk_check_names(d.bytes, NAME_ROOM, d.ends, NAMES, 1, 2));
    REFUSES(DESK_ILL_FORMED, desk_check_names(d.bytes, NAME_ROOM, d.ends, NAMES, 1, 3));
    REFUSES(DESK_ILL_FORMED, desk_check_names(d.bytes, NAME_ROOM, d.ends, NAMES, 0, 1));
    REFUSES(DESK_BAD_MEMORY, desk_check_names(d.bytes, NAME_ROOM, d.ends, NAMES, NAMES + 1, d.name_bytes));
    REFUSES(DESK_BAD_MEMORY, desk_check_names(d.bytes, NAME_ROOM, d.ends, NAMES, d.names, NAME_ROOM + 1));
    REFUSES(DESK_BAD_MEMORY, desk_check_names(d.bytes, NAME_ROOM, d.ends, NAMES, SIZE_MAX, SIZE_MAX));
    static uint8_t bytes[DESK_NAME_LIST_BYTES + 1];
    static uint32_t ends[DESK_NAMES + 1];
    DONE(desk_check_names(bytes, DESK_NAME_LIST_BYTES, ends, DESK_NAMES, DESK_NAMES, 0));
    REFUSES(DESK_BAD_MEMORY, desk_check_names(bytes, DESK_NAME_LIST_BYTES + 1, ends, DESK_NAMES, 0, 0));
    REFUSES(DESK_BAD_MEMORY, desk_check_names(bytes, DESK_NAME_LIST_BYTES, ends, DESK_NAMES + 1, 0, 0));

    DONE(desk_place_of_name(d.bytes, NAME_ROOM, d.ends, NAMES, d.names, d.name_bytes, 2, &d.first, &d.end));
    IS(d.first == 2 && d.end == 257);
    DONE(desk_place_of_name(d.bytes, NAME_ROOM, d.ends, NAMES, d.names, d.name_bytes, 1, &d.first, &d.end));
    IS(d.first == 2 && d.end == 2);
    REFUSES(DESK_UNKNOWN_SYMBOL, desk_place_of_name(d.bytes, NAME_ROOM, d.ends, NAMES, d.names, d.name_bytes, 4, &d.first, &d.end));
    REFUSES(DESK_UNKNOWN_SYMBOL,
            desk_place_of_name(d.bytes, NAME_ROOM, d.ends, NAMES, d.names, d.name_bytes, UINT32_MAX, &d.first, &d.end));
    REFUSES(DESK_ILL_FORMED, desk_place_of_name(d.bytes, NAME_ROOM, d.ends, NAMES, 3, d.name_bytes, 9, &d.first, &d.end));
    REFUSES(DESK_BAD_MEMORY, desk_place_of_name(d.bytes, NAME_ROOM, d.ends, 3, 4, d.name_bytes, 9, &d.first, &d.end));
    d.ends[1] = 1; /* falls behind the one before it */
    REFUSES(DESK_ILL_FORMED, name("ES", 2));
    REFUSES(DESK_ILL_FORMED, desk_check_names(d.bytes, NAME_ROOM, d.ends, NAMES, d.names, d.name_bytes));
    d.names = NAMES + 1;
    REFUSES(DESK_BAD_MEMORY, name("ES", 2));
    d.names = 4;
    d.name_bytes = NAME_ROOM + 1;
    REFUSES(DESK_BAD_MEMORY, name("ES", 2));
}

/* ---- Mapping records, on both tables. */

static uint8_t record[64];

static size_t mapping(uint16_t kind, uint32_t instrument, uint64_t start, uint64_t end, const char *text) {
    size_t len = 32 + strlen(text);
    put(record, 2, len);
    put(record + 2, 2, kind);
    put(record + 4, 4, instrument);
    put(record + 8, 8, 1);
    put(record + 16, 8, start);
    put(record + 24, 8, end);
    memcpy(record + 32, text, len - 32);
    return len;
}

typedef uint32_t on_record_call(uint8_t *, size_t, size_t *, uint8_t *, size_t, uint32_t *, size_t, size_t *, size_t *,
                                const uint8_t *, size_t, uint64_t *);

static on_record_call *on;
static size_t room;

static uint32_t record_on(size_t len) {
    return on(on == desk_on_record ? d.table : d.points, room, on == desk_on_record ? &d.used : &d.points_used, d.bytes, NAME_ROOM,
              d.ends, NAMES, &d.names, &d.name_bytes, record, len, &d.reason);
}

/* 13 with the reason, which alone is set. */
static void damaged(uint64_t reason, size_t len, int line) {
    was = d;
    is(record_on(len) == DESK_DAMAGED, "13", line);
    is(d.reason == reason, "the reason", line);
    d.reason = was.reason;
    is(memcmp(&d, &was, sizeof d) == 0, "13 changes nothing else", line);
}
#define DAMAGED(reason, len) damaged(reason, len, __LINE__)

static void test_records_of(on_record_call *call, size_t table_len) {
    size_t *in_use = call == desk_on_record ? &d.used : &d.points_used;
    begin();
    on = call;
    room = table_len;
    DONE(record_on(mapping(2, 7, 10, 20, "ESZ4")));
    IS(*in_use == 1 && d.names == 1 && d.name_bytes == 4 && d.ends[0] == 4 && memcmp(d.bytes, "ESZ4", 4) == 0);
    IS(d.reason == UINT64_C(0xA5A5A5A5A5A5A5A5));
    REFUSES(DESK_DONE, record_on(mapping(3, 8, 10, 20, "\xFF")));   /* another kind */
    REFUSES(DESK_DONE, record_on(mapping(258, 8, 10, 20, "\xFF"))); /* both bytes of the kind count */
    size_t len = mapping(2, 8, 10, 20, "ESH5");
    DAMAGED(DESK_SHORT, 0);
    DAMAGED(DESK_SHORT, 15);
    DAMAGED(DESK_PAST_END, len - 1);
    DAMAGED(DESK_PAST_END, len + 1);
    put(record, 2, 15);
    DAMAGED(DESK_BAD_LENGTH, 16);
    put(record, 2, DESK_RECORD_BYTES + 1);
    DAMAGED(DESK_BAD_LENGTH, len);
    put(record, 2, 31);
    DAMAGED(DESK_SHORT_BODY, 31);
    REFUSES(DESK_BAD_NAME, record_on(mapping(2, 8, 10, 20, "\xC3")));
    len = mapping(2, 8, 10, 20, "ESH5");
    d.names = NAMES + 1;
    REFUSES(DESK_BAD_MEMORY, record_on(len));
    d.names = 1;
    d.ends[0] = 3;
    REFUSES(DESK_ILL_FORMED, record_on(len));
    d.ends[0] = 4;
    room = table_len - 1;
    REFUSES(DESK_BAD_MEMORY, record_on(len));
    room = 0;
    REFUSES(DESK_BAD_MEMORY, record_on(len));
    room = table_len;
    *in_use = SIZE_MAX;
    REFUSES(DESK_BAD_MEMORY, record_on(len));
    *in_use = 1;
    DONE(record_on(mapping(2, 8, 10, 20, "ESH5")));
    DONE(record_on(mapping(2, 9, DESK_MISSING, DESK_MISSING, "")));
    IS(*in_use == 3 && d.names == 3 && d.name_bytes == 8);
    DONE(record_on(mapping(2, 9, DESK_MISSING, DESK_MISSING, "X")));
    REFUSES(DESK_NO_NAME_ROOM, record_on(mapping(2, 9, 3, 4, "Y")));
}

static void test_mapping_calls(void) {
    test_records_of(desk_on_record, 3 * DESK_INTERVAL_BYTES);
    IS(interval_is(2, 9, 3, 0, UINT64_MAX));
    REFUSES(DESK_DONE, record_on(mapping(2, 9, 5, 5, "Y"))); /* start = end: no name joins */
    REFUSES(DESK_DONE, record_on(mapping(2, 9, DESK_MISSING, 0, "Y")));
    REFUSES(DESK_REVERSED, record_on(mapping(2, 9, 6, 5, "Y")));
    REFUSES(DESK_NO_ROOM, record_on(mapping(2, 9, 3, 4, "")));
    d.names = 3;
    d.name_bytes = 8;
    REFUSES(DESK_ILL_FORMED, record_on(mapping(2, 9, 3, 4, "")));

    test_records_of(desk_on_record_point, 3 * DESK_POINT_BYTES);
    DONE(record_on(mapping(2, 9, 6, 5, ""))); /* both times are ignored */
    IS(d.points_used == 3 && all(d.points + 24, sizeof d.points - 24, 0xA5));
    REFUSES(DESK_NO_ROOM, record_on(mapping(2, 10, 3, 4, "")));
    d.names = 1;
    d.name_bytes = 4;
    REFUSES(DESK_ILL_FORMED, record_on(mapping(2, 9, 3, 4, "")));
}

static void test_points(void) {
    begin();
    for (uint32_t i = 0; i < 3; i++) put(d.points + i * 8, 4, i * 10), put(d.points + i * 8 + 4, 4, i);
    DONE(desk_check_points(d.points, 24, 3, 3));
    DONE(desk_check_points(d.points, 0, 0, 0));
    REFUSES(DESK_ILL_FORMED, desk_check_points(d.points, 24, 3, 2));
    REFUSES(DESK_BAD_MEMORY, desk_check_points(d.points, 24, 4, 3));
    REFUSES(DESK_BAD_MEMORY, desk_check_points(d.points, 23, 2, 3));
    REFUSES(DESK_BAD_MEMORY, desk_check_points(d.points, 24, 3, DESK_NAMES + 1));
    DONE(desk_get_point(d.points, 24, 3, 20, &d.found, &d.symbol));
    IS(d.found == 1 && d.symbol == 2);
    DONE(desk_get_point(d.points, 24, 3, 15, &d.found, &d.symbol));
    IS(d.found == 0 && d.symbol == 0);
    DONE(desk_get_point(d.points, 24, 3, 0, &d.found, &d.symbol));
    IS(d.found == 1 && d.symbol == 0);
    REFUSES(DESK_BAD_MEMORY, desk_get_point(d.points, 24, 4, 20, &d.found, &d.symbol));
    REFUSES(DESK_BAD_MEMORY, desk_get_point(d.points, 25, 3, 20, &d.found, &d.symbol));
    put(d.points + 8, 4, 0); /* an instrument twice */
    REFUSES(DESK_ILL_FORMED, desk_check_points(d.points, 24, 3, 3));
}

/* ---- Numbers, days. */

static uint32_t text(const char *given) { return desk_number_text((const uint8_t *)given, strlen(given), &d.value); }

static void test_numbers_and_days(void) {
    begin();
    DONE(text("+7"));
    IS(d.value == 7);
    DONE(text("007"));
    IS(d.value == 7);
    DONE(text("4294967295"));
    IS(d.value == UINT32_MAX);
    REFUSES(DESK_NOT_NUMBER, text(""));
    REFUSES(DESK_NOT_NUMBER, text("+"));
    REFUSES(DESK_NOT_NUMBER, text("-0"));
    REFUSES(DESK_NOT_NUMBER, text("4294967296"));
    REFUSES(DESK_NOT_NUMBER, text("7 "));

    IS(desk_utf8((const uint8_t *)"\xE2\x82\xAC", 3) == DESK_DONE && desk_utf8((const uint8_t *)"", 0) == DESK_DONE);
    IS(desk_utf8((const uint8_t *)"\xE2\x82\xAC", 2) == DESK_BAD_NAME && desk_utf8((const uint8_t *)"\xC0\x80", 2) == DESK_BAD_NAME);

    DONE(desk_day_of(19700101, &d.day));
    IS(d.day == 0);
    DONE(desk_day_of(20000229, &d.day));
    IS(d.day == 11016);
    DONE(desk_day_of(25540721, &d.day));
    IS(d.day == DESK_LAST_DAY);
    REFUSES(DESK_NO_DATE, desk_day_of(19691231, &d.day));
    REFUSES(DESK_NO_DATE, desk_day_of(25540722, &d.day));
    REFUSES(DESK_NO_DATE, desk_day_of(21000229, &d.day));
    REFUSES(DESK_NO_DATE, desk_day_of(0, &d.day));
    REFUSES(DESK_NO_DATE, desk_day_of(UINT32_MAX, &d.day));
    DONE(desk_date_of(11016, &d.date));
    IS(d.date == 20000229);
    DONE(desk_date_of(DESK_LAST_DAY, &d.date));
    IS(d.date == 25540721);
    REFUSES(DESK_NO_DATE, desk_date_of(DESK_LAST_DAY + 1, &d.date));
    REFUSES(DESK_NO_DATE, desk_date_of(UINT32_MAX, &d.date));
    DONE(desk_day_start(DESK_LAST_DAY, &d.moment));
    IS(d.moment == UINT64_C(18446659200000000000));
    REFUSES(DESK_NO_DATE, desk_day_start(DESK_LAST_DAY + 1, &d.moment));
}

/* ---- Merging records. */

static uint8_t buffer[BUFFER];

/* The next call; the places of each array, `less` of them missing. */
static uint32_t next(size_t len, const uint64_t *cuts, size_t cuts_len, size_t less) {
    return desk_next(buffer, len, cuts, cuts_len, d.marks, DESK_STREAMS - less, d.times, DESK_STREAMS, d.places, DESK_STREAMS,
                     d.heads, DESK_STREAMS, d.heap, DESK_STREAMS, &d.held, &d.found, &d.stream, &d.place, &d.length, &d.kind,
                     &d.instrument, &d.time, &d.reason);
}

static uint32_t open_with(size_t len, const uint64_t *cuts, size_t cuts_len, const uint64_t *hints, size_t hints_len, size_t marks,
                          size_t times, size_t places, size_t heads, size_t heap) {
    return desk_open(buffer, len, cuts, cuts_len, hints, hints_len, d.marks, marks, d.times, times, d.places, places, d.heads,
                     heads, d.heap, heap, &d.streams, &d.held);
}

static uint32_t open_whole(size_t len, const uint64_t *cuts, size_t cuts_len, const uint64_t *hints, size_t hints_len) {
    return open_with(len, cuts, cuts_len, hints, hints_len, 256, 256, 256, 256, 256);
}

static void test_merge(void) {
    static const uint64_t cuts[] = {0, 19, 35}, none[1];
    begin();
    memset(buffer, 0, sizeof buffer);
    put(buffer, 2, 16), put(buffer + 4, 4, 7), put(buffer + 8, 8, 5);
    put(buffer + 19, 2, 16), put(buffer + 19 + 2, 2, 9), put(buffer + 19 + 4, 4, 8), put(buffer + 19 + 8, 8, 6);

    DONE(open_whole(35, cuts, 3, none, 0));
    IS(d.streams == 2 && d.held == 2);
    IS(d.marks[256] == 0xA5 && d.heap[256] == 0xA5 && d.times[256] == d.places[256] && d.heads[256] == d.places[256]);
    REFUSES(DESK_BAD_MEMORY, next(35, cuts, 3, 1));
    DONE(next(35, cuts, 3, 0));
    IS(d.found == 1 && d.stream == 0 && d.place == 0 && d.length == 16 && d.kind == 0 && d.instrument == 7 && d.time == 5);
    IS(d.reason == UINT64_C(0xA5A5A5A5A5A5A5A5));
    was = d;
    IS(next(35, cuts, 3, 0) == DESK_DAMAGED);
    IS(d.stream == 0 && d.place == 16 && d.reason == DESK_SHORT);
    IS(d.found == was.found && d.length == was.length && d.instrument == was.instrument && d.time == was.time);
    DONE(next(35, cuts, 3, 0));
    IS(d.found == 1 && d.stream == 1 && d.place == 0 && d.length == 16 && d.kind == 9 && d.instrument == 8 && d.time == 6);
    for (int i = 0; i < 3; i++) {
        DONE(next(35, cuts, 3, 0));
        IS(d.found == 0 && d.stream == 0 && d.place == 0 && d.length == 0 && d.kind == 0 && d.instrument == 0 && d.time == 0);
        IS(d.held == 0);
    }
    d.held = DESK_STREAMS + 1;
    REFUSES(DESK_BAD_MEMORY, next(35, cuts, 3, 0));
    d.held = SIZE_MAX;
    REFUSES(DESK_BAD_MEMORY, next(35, cuts, 3, 0));

    static const uint64_t hints[] = {6, 5}, falls[] = {0, 20, 19, 35}, late[] = {1, 35}, many[DESK_STREAMS + 2];
    DONE(open_whole(35, cuts, 3, hints, 2));
    DONE(next(35, cuts, 3, 0)); /* the hint 5 of stream 1 gives its record of 6; stream 0's hint of 6 comes first */
    IS(d.found == 1 && d.stream == 0 && d.time == 5);
    REFUSES(DESK_BAD_STREAMS, open_whole(35, cuts, 3, hints, 1));
    REFUSES(DESK_BAD_STREAMS, open_whole(34, cuts, 3, none, 0));
    REFUSES(DESK_BAD_STREAMS, open_whole(36, cuts, 3, none, 0));
    REFUSES(DESK_BAD_STREAMS, open_whole(0, cuts, 1, none, 0));
    REFUSES(DESK_BAD_STREAMS, open_whole(0, cuts, 0, none, 0));
    REFUSES(DESK_BAD_STREAMS, open_whole(35, falls, 4, none, 0));
    REFUSES(DESK_BAD_STREAMS, open_whole(35, late, 2, none, 0));
    REFUSES(DESK_BAD_STREAMS, open_whole(0, many, DESK_STREAMS + 2, none, 0));
    REFUSES(DESK_BAD_MEMORY, open_with(34, cuts, 3, hints, 1, 255, 256, 256, 256, 256));
    REFUSES(DESK_BAD_MEMORY, open_with(35, cuts, 3, none, 0, 256, 257, 256, 256, 256));
    REFUSES(DESK_BAD_MEMORY, open_with(35, cuts, 3, none, 0, 256, 256, 255, 256, 256));
    REFUSES(DESK_BAD_MEMORY, open_with(35, cuts, 3, none, 0, 256, 256, 256, 0, 256));
    REFUSES(DESK_BAD_MEMORY, open_with(35, cuts, 3, none, 0, 256, 256, 256, 256, 257));
    DONE(open_whole(0, many, DESK_STREAMS + 1, none, 0));
    IS(d.streams == DESK_STREAMS && d.held == DESK_STREAMS);
    DONE(next(0, many, DESK_STREAMS + 1, 0));
    IS(d.found == 0 && d.held == 0);

    begin(); /* a state that no opening made: the call ends, whatever it answers */
    for (size_t held = 0; held <= DESK_STREAMS; held += 64) {
        d.held = held;
        for (int i = 0; i < 3; i++) next(35, cuts, 3, 0);
        IS(d.held <= held && d.marks[256] == 0xA5 && d.heap[256] == 0xA5);
    }
}

/* ---- Streams in portions. The window stands beside `d`, since it is so large. */

static uint8_t window[DESK_WINDOW_BYTES + 1], window_was[DESK_WINDOW_BYTES + 1];
static uint8_t portion[2 * DESK_RECORD_BYTES];

/* Calls with places of each array as they are given. */
static uint32_t feed_open_with(size_t streams, const uint64_t *hints, size_t hints_len, size_t marks, size_t times, size_t places,
                               size_t heads, size_t heap, size_t spans) {
    return desk_feed_open(streams, hints, hints_len, d.marks, marks, d.times, times, d.places, places, d.heads, heads, d.heap, heap,
                          d.spans, spans, &d.held);
}

static uint32_t feed_bytes_with(uint64_t stream, size_t size, size_t marks, size_t places, size_t heads, size_t spans, size_t of_window) {
    return desk_feed_bytes(stream, portion, size, d.marks, marks, d.places, places, d.heads, heads, d.spans, spans, window, of_window,
                           &d.taken);
}

static uint32_t feed_end_with(uint64_t stream, size_t marks, size_t spans) { return desk_feed_end(stream, d.marks, marks, d.spans, spans); }

static uint32_t feed_next_with(size_t of_window, size_t marks, size_t times, size_t places, size_t heads, size_t heap, size_t spans) {
    return desk_feed_next(window, of_window, d.marks, marks, d.times, times, d.places, places, d.heads, heads, d.heap, heap, d.spans,
                          spans, &d.held, &d.found, &d.stream, &d.place, &d.at, &d.length, &d.kind, &d.instrument, &d.time, &d.reason);
}

static uint32_t feed_open(size_t streams) {
    static const uint64_t none[1];
    return feed_open_with(streams, none, 0, 256, 256, 256, 256, 256, 256);
}

static uint32_t feed_bytes(uint64_t stream, size_t size) { return feed_bytes_with(stream, size, 256, 256, 256, 256, DESK_WINDOW_BYTES); }

static uint32_t feed_end(uint64_t stream) { return feed_end_with(stream, 256, 256); }

static uint32_t feed_next(void) { return feed_next_with(DESK_WINDOW_BYTES, 256, 256, 256, 256, 256, 256); }

static void begin_feed(void) {
    begin();
    memset(window, pattern, sizeof window);
    memset(portion, 0, sizeof portion);
}

/* A record's head in the portion, at its byte `at`. */
static void put_head(size_t at, uint16_t length, uint16_t kind, uint32_t instrument, uint64_t time) {
    put(portion + at, 2, length), put(portion + at + 2, 2, kind), put(portion + at + 4, 4, instrument), put(portion + at + 8, 8, time);
}

static int takes(uint64_t stream, size_t size, size_t taken) { return feed_bytes(stream, size) == DESK_DONE && d.taken == taken; }

static int needs(uint64_t stream) { return feed_next() == DESK_DONE && d.found == DESK_NEED_MORE && d.stream == stream; }

static int hands_out(uint64_t stream, uint64_t place, uint64_t time, size_t at) {
    return feed_next() == DESK_DONE && d.found == 1 && d.stream == stream && d.place == place && d.time == time && d.at == at;
}

static int is_over(void) { return feed_next() == DESK_DONE && d.found == 0 && d.held == 0; }

static int breaks(uint64_t stream, uint64_t place, uint64_t reason) {
    return feed_next() == DESK_DAMAGED && d.stream == stream && d.place == place && d.reason == reason;
}

static void test_feed(void) {
    static const uint64_t hints[] = {10, 0};
    begin_feed();
    DONE(feed_open(1)); /* nothing has come; a portion of nothing; the end */
    IS(d.held == 1 && d.spans[256] == d.places[256] && d.marks[256] == 0xA5 && all(window, sizeof window, 0xA5));
    IS(needs(0) && takes(0, 0, 0) && needs(0));
    KEEPS(DESK_DONE, feed_next()); /* asked again without more bytes it changes nothing */
    DONE(feed_end(0));
    REFUSES(DESK_BAD_STREAMS, feed_end(0));
    REFUSES(DESK_BAD_STREAMS, feed_bytes(0, 0));
    IS(is_over() && is_over());
    REFUSES(DESK_BAD_STREAMS, feed_end(0));
    REFUSES(DESK_BAD_STREAMS, feed_bytes(0, 1));

    DONE(feed_open(1)); /* a length is judged once 16 bytes are there */
    IS(takes(0, 15, 15) && needs(0) && takes(0, 1, 1) && breaks(0, 0, DESK_BAD_LENGTH) && is_over());
    put_head(0, 17, 0, 0, 5);
    DONE(feed_open(1));
    IS(takes(0, 16, 16) && needs(0));
    DONE(feed_end(0));
    IS(breaks(0, 0, DESK_PAST_END));

    put_head(0, 1024, 3, 4, 5); /* a record of 1,024 counts until the next call */
    DONE(feed_open(1));
    IS(takes(0, 16, 16) && needs(0));
    memset(portion, 7, sizeof portion);
    IS(takes(0, 2000, 1008) && hands_out(0, 0, 5, 0) && d.length == 1024 && d.kind == 3 && d.instrument == 4);
    IS(takes(0, 10, 0) && needs(0));
    KEEPS(DESK_DONE, feed_next());
    IS(takes(0, 10, 10));
    IS(all(window, 10, 7) && all(window + 1024, sizeof window - 1024, 0xA5));
    DONE(feed_end(0));
    IS(breaks(0, 1024, DESK_SHORT));

    memset(portion, 0, sizeof portion); /* records of 16, then what is kept moves to the front */
    for (size_t at = 0; at < sizeof portion; at += 16) put_head(at, 16, 0, 9, 5);
    DONE(feed_open(1));
    IS(takes(0, 2000, 1024) && hands_out(0, 0, 5, 0) && takes(0, 100, 0) && hands_out(0, 16, 5, 16) && takes(0, 100, 16));

    DONE(feed_open(2)); /* no other record instead of the one that is needed first; a stream that is found ended is closed */
    IS(takes(1, 16, 16) && needs(0) && d.held == 2);
    KEEPS(DESK_DONE, feed_next());
    put_head(0, 16, 0, 9, 7);
    IS(takes(0, 16, 16) && hands_out(1, 0, 5, 1024) && needs(1));
    DONE(feed_end(1));
    IS(hands_out(0, 0, 7, 0) && d.held == 1);
    REFUSES(DESK_BAD_STREAMS, feed_bytes(1, 16));
    REFUSES(DESK_BAD_STREAMS, feed_bytes(2, 16));
    REFUSES(DESK_BAD_STREAMS, feed_bytes(256, 0));
    REFUSES(DESK_BAD_STREAMS, feed_bytes(UINT64_MAX, 16));
    REFUSES(DESK_BAD_STREAMS, feed_end(2));
    REFUSES(DESK_BAD_STREAMS, feed_end(UINT64_MAX));
    IS(needs(0));

    DONE(feed_open_with(2, hints, 2, 256, 256, 256, 256, 256, 256));
    IS(needs(1));
    DONE(feed_end(1));
    IS(needs(0) && d.held == 1);
    DONE(feed_open(1)); /* 2^63 bytes in all: the place is laid */
    d.places[0] = (UINT64_C(1) << 63) - 16;
    put_head(0, 16, 0, 9, 5);
    IS(takes(0, 20, 16) && hands_out(0, (UINT64_C(1) << 63) - 16, 5, 0) && needs(0) && takes(0, 1, 0));
    DONE(feed_end(0));
    IS(is_over());
    DONE(feed_open(DESK_STREAMS)); /* the last stream's part is the window's last */
    memset(window, 0xA5, sizeof window);
    IS(d.held == DESK_STREAMS && takes(255, 2000, 1024) && takes(0, 2000, 1024));
    IS(all(window + 1024, 254 * 1024, 0xA5) && memcmp(window + 255 * 1024, portion, 1024) == 0 && window[DESK_WINDOW_BYTES] == 0xA5);

    REFUSES(DESK_BAD_STREAMS, feed_open(0));
    REFUSES(DESK_BAD_STREAMS, feed_open(257));
    REFUSES(DESK_BAD_STREAMS, feed_open(SIZE_MAX));
    REFUSES(DESK_BAD_STREAMS, feed_open_with(3, hints, 2, 256, 256, 256, 256, 256, 256));
    REFUSES(DESK_BAD_STREAMS, feed_open_with(1, hints, 2, 256, 256, 256, 256, 256, 256));
    memcpy(window_was, window, sizeof window);
    for (int missing = 0; missing < 7; missing++)
        for (int off = -1; off <= 1; off += 2) { /* each array one place off, the window a byte */
            size_t n[7];
            for (int i = 0; i < 7; i++) n[i] = (size_t)(256 + (i == missing ? off : 0));
            n[6] += DESK_WINDOW_BYTES - 256;
            REFUSES(DESK_BAD_MEMORY, feed_next_with(n[6], n[0], n[1], n[2], n[3], n[4], n[5]));
            if (missing != 6) REFUSES(DESK_BAD_MEMORY, feed_open_with(257, hints, 2, n[0], n[1], n[2], n[3], n[4], n[5]));
            if (missing != 1 && missing != 4) REFUSES(DESK_BAD_MEMORY, feed_bytes_with(256, 16, n[0], n[2], n[3], n[5], n[6]));
            if (missing == 0 || missing == 5) REFUSES(DESK_BAD_MEMORY, feed_end_with(256, n[0], n[5]));
        }
    d.held = DESK_STREAMS + 1;
    REFUSES(DESK_BAD_MEMORY, feed_next());
    d.held = SIZE_MAX;
    REFUSES(DESK_BAD_MEMORY, feed_next());
    IS(memcmp(window, window_was, sizeof window) == 0);

    begin_feed(); /* a state that no opening made: the calls end, whatever they answer */
    for (size_t held = 0; held <= DESK_STREAMS; held += 64) {
        d.held = held;
        for (uint64_t i = 0; i < 3; i++) feed_next(), feed_bytes(i, 2000), feed_end(i);
        IS(d.held <= held && d.marks[256] == 0xA5 && d.heap[256] == 0xA5 && window[DESK_WINDOW_BYTES] == 0xA5);
    }
}

/* ---- Many calls at once. */

/* A run of so many calls at most, its list of so many words; `less` places of the marks are missing. */
static uint32_t run(size_t len, const uint64_t *cuts, size_t cuts_len, size_t less, size_t allowance, size_t words) {
    return desk_run(buffer, len, cuts, cuts_len, d.marks, DESK_STREAMS - less, d.times, DESK_STREAMS, d.places, DESK_STREAMS, d.heads,
                    DESK_STREAMS, d.heap, DESK_STREAMS, &d.held, allowance, d.rows, words, &d.calls, &d.written, &d.last, &d.stream,
                    &d.place, &d.reason);
}

/* The row i of the list. */
static int row_is(size_t i, uint64_t stream, uint64_t place, uint64_t time) {
    return d.rows[3 * i] == stream && d.rows[3 * i + 1] == place && d.rows[3 * i + 2] == time;
}

/* What a run counted, and how it stopped. */
static int ran(size_t calls, size_t written, uint32_t last) {
    return d.calls == calls && d.written == written && d.last == last;
}

/* State and list are those of `was`, as a run without a call leaves them. */
static int unmoved(void) {
    return d.held == was.held && memcmp(d.marks, was.marks, sizeof d.marks) == 0 && memcmp(d.times, was.times, sizeof d.times) == 0
        && memcmp(d.places, was.places, sizeof d.places) == 0 && memcmp(d.heads, was.heads, sizeof d.heads) == 0
        && memcmp(d.heap, was.heap, sizeof d.heap) == 0 && memcmp(d.spans, was.spans, sizeof d.spans) == 0
        && memcmp(d.rows, was.rows, sizeof d.rows) == 0;
}

static void test_run(void) {
    static const uint64_t cuts[] = {0, 19, 35}, one[] = {0, 32}, bad[] = {0, 3}, none[1];
    const uint64_t old = UINT64_C(0xA5A5A5A5A5A5A5A5);
    begin();
    memset(buffer, 0, sizeof buffer);
    put(buffer, 2, 16), put(buffer + 8, 8, 5);
    put(buffer + 19, 2, 16), put(buffer + 19 + 8, 8, 6);

    /* the printed example, with room enough: the damage stops it, then the end */
    DONE(open_whole(35, cuts, 3, none, 0));
    was = d;
    IS(run(35, cuts, 3, 0, DESK_RUN_CALLS, RUN_ROOM) == DESK_DAMAGED);
    IS(d.calls == 2 && d.written == 1 && d.last == was.last && row_is(0, 0, 0, 5) && d.rows[3] == old);
    IS(d.stream == 0 && d.place == 16 && d.reason == DESK_SHORT && d.held == 1);
    d.reason = old;
    DONE(run(35, cuts, 3, 0, DESK_RUN_CALLS, RUN_ROOM));
    IS(ran(2, 1, 0) && row_is(0, 1, 0, 6) && d.stream == 0 && d.place == 0 && d.reason == old && d.held == 0);
    DONE(run(35, cuts, 3, 0, DESK_RUN_CALLS, RUN_ROOM));
    IS(ran(1, 0, 0) && row_is(0, 1, 0, 6));
    was = d;
    DONE(run(35, cuts, 3, 0, 0, RUN_ROOM)); /* no call, and nothing moves */
    IS(ran(0, 0, 1) && d.held == 0 && unmoved());
    DONE(open_whole(35, cuts, 3, none, 0));
    was = d;
    DONE(run(35, cuts, 3, 0, 0, RUN_ROOM));
    IS(ran(0, 0, 1) && unmoved());
    DONE(run(35, cuts, 3, 0, 10, 0));
    IS(ran(0, 0, 1) && unmoved());

    /* 15 is judged before any call, and everything is as before */
    DONE(open_whole(35, cuts, 3, none, 0));
    REFUSES(DESK_BAD_MEMORY, run(35, cuts, 3, 0, DESK_RUN_CALLS + 1, RUN_ROOM));
    REFUSES(DESK_BAD_MEMORY, run(35, cuts, 3, 0, DESK_RUN_CALLS + 1, 0));
    REFUSES(DESK_BAD_MEMORY, run(35, cuts, 3, 0, SIZE_MAX, 3));
    REFUSES(DESK_BAD_MEMORY, run(35, cuts, 3, 0, 1, 4));
    REFUSES(DESK_BAD_MEMORY, run(35, cuts, 3, 1, 1, 3));
    d.held = DESK_STREAMS + 1;
    REFUSES(DESK_BAD_MEMORY, run(35, cuts, 3, 0, 1, 3));
    d.held = 2;

    /* a list of one row: it is full before the damage is seen */
    DONE(run(35, cuts, 3, 0, 10, 3));
    IS(ran(1, 1, 1) && row_is(0, 0, 0, 5) && d.stream == 0 && d.place == 0);
    IS(run(35, cuts, 3, 0, 10, 3) == DESK_DAMAGED && d.calls == 1 && d.written == 0 && d.place == 16 && row_is(0, 0, 0, 5));
    DONE(run(35, cuts, 3, 0, 1, RUN_ROOM)); /* an allowance of one: a record, then the end, again and again */
    IS(ran(1, 1, 1) && row_is(0, 1, 0, 6));
    DONE(run(35, cuts, 3, 0, 1, RUN_ROOM));
    IS(ran(1, 0, 0));
    DONE(run(35, cuts, 3, 0, 1, RUN_ROOM));
    IS(ran(1, 0, 0));

    /* no room, no call, whatever would come */
    memcpy(buffer, "xxx", 3);
    DONE(open_whole(3, bad, 2, none, 0));
    DONE(run(3, bad, 2, 0, 10, 0));
    IS(ran(0, 0, 1) && d.held == 1);
    IS(run(3, bad, 2, 0, 10, 3) == DESK_DAMAGED && d.calls == 1 && d.written == 0 && d.stream == 0 && d.place == 0);
    DONE(run(3, bad, 2, 0, 10, 3));
    IS(ran(1, 0, 0));

    /* one stream of two records: the end is seen where a call is left for it */
    memset(buffer, 0, sizeof buffer);
    put(buffer, 2, 16), put(buffer + 8, 8, 1), put(buffer + 16, 2, 16), put(buffer + 24, 8, 2);
    static const size_t of[][5] = {{10, 6, 2, 2, 1}, {2, 9, 2, 2, 1}, {3, 9, 3, 2, 0}, {3, 6, 2, 2, 1}}; /* allowance, words; calls, written, last */
    for (size_t i = 0; i < sizeof of / sizeof *of; i++) {
        DONE(open_whole(32, one, 2, none, 0));
        DONE(run(32, one, 2, 0, of[i][0], of[i][1]));
        IS(ran(of[i][2], of[i][3], (uint32_t)of[i][4]) && row_is(0, 0, 0, 1) && row_is(1, 0, 16, 2));
    }

    /* any division leaves the arrays of single calls, byte for byte */
    for (size_t first = 0; first <= 3; first++) {
        DONE(open_whole(32, one, 2, none, 0));
        for (int i = 0; i < 3; i++) DONE(next(32, one, 2, 0));
        was = d;
        DONE(open_whole(32, one, 2, none, 0));
        DONE(run(32, one, 2, 0, first, RUN_ROOM));
        DONE(run(32, one, 2, 0, 3 - first, RUN_ROOM));
        IS(memcmp(d.marks, was.marks, sizeof d.marks) == 0 && memcmp(d.times, was.times, sizeof d.times) == 0);
        IS(memcmp(d.places, was.places, sizeof d.places) == 0 && memcmp(d.heads, was.heads, sizeof d.heads) == 0);
        IS(memcmp(d.heap, was.heap, sizeof d.heap) == 0 && d.held == was.held);
    }

    /* 5,000 records: a run stops at its allowance, and the next goes on */
    static uint8_t many[5000 * 16];
    static uint64_t list[15000];
    static const uint64_t ends[] = {0, sizeof many};
    for (size_t i = 0; i < 5000; i++) put(many + 16 * i, 2, 16), put(many + 16 * i + 8, 8, i);
    DONE(desk_open(many, sizeof many, ends, 2, none, 0, d.marks, 256, d.times, 256, d.places, 256, d.heads, 256, d.heap, 256, &d.streams,
                   &d.held));
    for (int part = 0; part < 2; part++) {
        DONE(desk_run(many, sizeof many, ends, 2, d.marks, 256, d.times, 256, d.places, 256, d.heads, 256, d.heap, 256, &d.held,
                      DESK_RUN_CALLS, list, 15000, &d.calls, &d.written, &d.last, &d.stream, &d.place, &d.reason));
        if (part == 0) IS(ran(4096, 4096, 1) && list[3 * 4095 + 1] == 16 * 4095 && list[3 * 4095 + 2] == 4095 && list[12288] == 0);
        else IS(ran(905, 904, 0) && list[0] == 0 && list[1] == 65536 && list[2] == 4096);
    }
}

/* ---- Many calls at once of streams in portions. */

/* A run with places of each array as they are given, its list of so many words. */
static uint32_t feed_run_with(size_t of_window, size_t marks, size_t times, size_t places, size_t heads, size_t heap, size_t spans,
                              size_t allowance, size_t words) {
    return desk_feed_run(window, of_window, d.marks, marks, d.times, times, d.places, places, d.heads, heads, d.heap, heap, d.spans, spans,
                         &d.held, allowance, d.rows, words, &d.calls, &d.written, &d.last, &d.stream, &d.place, &d.reason);
}

static uint32_t feed_run(size_t allowance, size_t words) {
    return feed_run_with(DESK_WINDOW_BYTES, 256, 256, 256, 256, 256, 256, allowance, words);
}

/* A run that is done: what it counted, how it stopped, and at which stream. */
static int runs(size_t allowance, size_t words, size_t calls, size_t written, uint32_t last, uint64_t stream) {
    return feed_run(allowance, words) == DESK_DONE && ran(calls, written, last) && d.stream == stream && d.place == 0;
}

static void test_feed_run(void) {
    const uint64_t old = UINT64_C(0xA5A5A5A5A5A5A5A5);
    static uint64_t list[3 * 65];
    begin_feed();
    put_head(0, 16, 0, 0, 5);
    DONE(feed_open(2)); /* no call, and nothing moves */
    was = d;
    IS(runs(0, 9, 0, 0, 1, 0) && runs(5, 0, 0, 0, 1, 0) && unmoved());
    DONE(feed_open(1)); /* a record, and more is needed; asked again; no room, no call; the end */
    IS(takes(0, 16, 16) && runs(5, 9, 2, 1, DESK_NEED_MORE, 0) && row_is(0, 0, 0, 5) && d.rows[3] == old && d.reason == old);
    IS(d.held == 1 && runs(5, 9, 1, 0, DESK_NEED_MORE, 0) && row_is(0, 0, 0, 5) && runs(5, 0, 0, 0, 1, 0) && runs(0, 9, 0, 0, 1, 0));
    DONE(feed_end(0));
    IS(runs(5, 9, 1, 0, 0, 0) && d.held == 0 && runs(5, 9, 1, 0, 0, 0) && d.reason == old);
    DONE(feed_open(1)); /* a list of one row is full before more is needed */
    IS(takes(0, 16, 16) && runs(5, 3, 1, 1, 1, 0) && runs(5, 3, 1, 0, DESK_NEED_MORE, 0));

    /* of 64 records the last alone counts after 64 calls, and none after the call that needs more */
    for (size_t at = 0; at < sizeof portion; at += 16) put_head(at, 16, 0, 0, 5);
    for (size_t allowance = 64; allowance <= 65; allowance++) {
        DONE(feed_open(1));
        IS(takes(0, 1024, 1024));
        DONE(desk_feed_run(window, DESK_WINDOW_BYTES, d.marks, 256, d.times, 256, d.places, 256, d.heads, 256, d.heap, 256, d.spans, 256,
                           &d.held, allowance, list, 3 * 65, &d.calls, &d.written, &d.last, &d.stream, &d.place, &d.reason));
        IS(ran(allowance, 64, allowance == 64 ? 1 : DESK_NEED_MORE) && list[3 * 63 + 1] == 1008);
        IS(takes(0, 2000, allowance == 64 ? 1008 : 1024));
    }

    /* damage, with its place in the stream; the stream that more is needed of */
    put_head(16, 5, 0, 0, 5);
    DONE(feed_open(2));
    IS(takes(0, 32, 32) && runs(4, RUN_ROOM, 1, 0, DESK_NEED_MORE, 1) && takes(1, 16, 16));
    was = d;
    IS(feed_run(4, RUN_ROOM) == DESK_DAMAGED && d.calls == 2 && d.written == 1 && d.last == was.last && row_is(0, 0, 0, 5));
    IS(d.stream == 0 && d.place == 16 && d.reason == DESK_BAD_LENGTH && d.held == 1);
    IS(runs(4, RUN_ROOM, 2, 1, DESK_NEED_MORE, 1) && row_is(0, 1, 0, 5) && d.reason == DESK_BAD_LENGTH);

    /* any division leaves the arrays of single calls, byte for byte */
    for (size_t first = 0; first <= 3; first++) {
        put_head(16, 16, 0, 0, 6);
        DONE(feed_open(1));
        IS(takes(0, 32, 32) && hands_out(0, 0, 5, 0) && hands_out(0, 16, 6, 16) && needs(0));
        was = d;
        DONE(feed_open(1));
        IS(takes(0, 32, 32));
        DONE(feed_run(first, RUN_ROOM));
        DONE(feed_run(3 - first, RUN_ROOM));
        IS(memcmp(d.marks, was.marks, sizeof d.marks) == 0 && memcmp(d.times, was.times, sizeof d.times) == 0);
        IS(memcmp(d.places, was.places, sizeof d.places) == 0 && memcmp(d.heads, was.heads, sizeof d.heads) == 0);
        IS(memcmp(d.heap, was.heap, sizeof d.heap) == 0 && memcmp(d.spans, was.spans, sizeof d.spans) == 0 && d.held == was.held);
    }

    /* 15 is judged before any call, and everything is as before */
    memcpy(window_was, window, sizeof window);
    REFUSES(DESK_BAD_MEMORY, feed_run(DESK_RUN_CALLS + 1, RUN_ROOM));
    REFUSES(DESK_BAD_MEMORY, feed_run(DESK_RUN_CALLS + 1, 0));
    REFUSES(DESK_BAD_MEMORY, feed_run(SIZE_MAX, 3));
    REFUSES(DESK_BAD_MEMORY, feed_run(1, 4));
    for (int missing = 0; missing < 7; missing++)
        for (int off = -1; off <= 1; off += 2) {
            size_t n[7];
            for (int i = 0; i < 7; i++) n[i] = (size_t)(256 + (i == missing ? off : 0));
            n[6] += DESK_WINDOW_BYTES - 256;
            REFUSES(DESK_BAD_MEMORY, feed_run_with(n[6], n[0], n[1], n[2], n[3], n[4], n[5], 1, 3));
        }
    d.held = DESK_STREAMS + 1;
    REFUSES(DESK_BAD_MEMORY, feed_run(1, 3));
    IS(memcmp(window, window_was, sizeof window) == 0);

    begin_feed(); /* a state that no opening made: the run ends, whatever it answers */
    for (size_t held = 0; held <= DESK_STREAMS; held += 64) {
        d.held = held;
        feed_run(4, RUN_ROOM);
        IS(d.held <= held && d.marks[256] == 0xA5 && d.heap[256] == 0xA5 && window[DESK_WINDOW_BYTES] == 0xA5);
    }
}

/* ---- Metadata. A side has its header, its lists in `of` and as many words of each as are lent. */

struct side {
    uint64_t *header;
    size_t header_len;
    uint32_t *of[LISTS];
    size_t len[LISTS];
};

static uint64_t added_header[DESK_HEADER_WORDS + 1];
static uint32_t added_list[LISTS][LIST_ROOM];

static uint32_t open_side(struct side m) {
    return desk_metadata_open(m.header, m.header_len, m.of[0], m.len[0], m.of[1], m.len[1], m.of[2], m.len[2], m.of[3], m.len[3],
                              m.of[4], m.len[4]);
}

static uint32_t finish_side(struct side m) {
    return desk_metadata_finish(m.header, m.header_len, m.of[0], m.len[0], m.of[1], m.len[1], m.of[2], m.len[2], m.of[3],
                                m.len[3], m.of[4], m.len[4]);
}

static uint32_t merge_sides(size_t names, struct side m, struct side a) {
    return desk_metadata_merge(names, m.header, m.header_len, m.of[0], m.len[0], m.of[1], m.len[1], m.of[2], m.len[2], m.of[3],
                               m.len[3], m.of[4], m.len[4], a.header, a.header_len, a.of[0], a.len[0], a.of[1], a.len[1],
                               a.of[2], a.len[2], a.of[3], a.len[3], a.of[4], a.len[4], &d.field);
}

/* Puts words into a list from its front. */
static void put_words(uint32_t *to, const uint32_t *words, size_t len) {
    while (len-- != 0) *to++ = *words++;
}
#define PUT(to, ...) put_words(to, (const uint32_t[]){__VA_ARGS__}, sizeof((const uint32_t[]){__VA_ARGS__}) / 4)

static int words_are(const uint32_t *from, const uint32_t *words, size_t len) { return memcmp(from, words, len * 4) == 0; }
#define WORDS_ARE(from, ...) words_are(from, (const uint32_t[]){__VA_ARGS__}, sizeof((const uint32_t[]){__VA_ARGS__}) / 4)

static void put_header(uint64_t *header, uint64_t symbols, uint64_t partial, uint64_t not_found, uint64_t mappings) {
    const uint64_t words[DESK_HEADER_WORDS] = {3, 0, 4, 50, 0, 7, 1, 0, 1, 71, symbols, partial, not_found, mappings};
    memcpy(header, words, sizeof words);
}

enum { D1 = 20240228, D2 = 20240229, D3 = 20240301, D4 = 20240302 };
#define GARBAGE 0xA5A5A5A5u

/* The gathered side in `d`: symbols 1 2, partial 3, mappings 1:[D1,D2)5 and 2:[D2,D3)6, with room to spare. */
static struct side gathered(void) {
    struct side m = {d.header, DESK_HEADER_WORDS, {0}, {4, 2, 2, 8, 15}};
    begin();
    for (int k = 0; k < LISTS; k++) m.of[k] = d.list[k];
    put_header(d.header, 2, 1, 0, 2);
    PUT(d.list[SYMBOLS], 1, 2);
    PUT(d.list[PARTIAL], 3);
    PUT(d.list[MAPPINGS], 1, 1, 2, 1);
    PUT(d.list[INTERVALS], D1, D2, 5, D2, D3, 6);
    return m;
}

/* The added side: symbols 2 4, not_found 3, mappings 1:[D2,D3)5 and 3:[D1,D4)6. */
static struct side added(void) {
    struct side a = {added_header, DESK_HEADER_WORDS, {0}, {2, 0, 1, 4, 6}};
    for (int k = 0; k < LISTS; k++) a.of[k] = added_list[k];
    put_header(added_header, 2, 0, 1, 2);
    added_header[DESK_SCHEMA] = 5;
    added_header[DESK_START] = 40;
    added_header[DESK_END] = 90;
    PUT(added_list[SYMBOLS], 2, 4);
    PUT(added_list[NOT_FOUND], 3);
    PUT(added_list[MAPPINGS], 1, 1, 3, 1);
    PUT(added_list[INTERVALS], D2, D3, 5, D1, D4, 6);
    return a;
}

/* The merge answers the number, changes nothing in `d`, and nothing of the added side. */
static void merge_refuses(uint32_t number, size_t names, struct side m, struct side a, int line) {
    uint64_t header[DESK_HEADER_WORDS + 1];
    uint32_t list[LISTS][LIST_ROOM];
    memcpy(header, added_header, sizeof header);
    memcpy(list, added_list, sizeof list);
    was = d;
    is(merge_sides(names, m, a) == number, "the merge's number", line);
    is(memcmp(&d, &was, sizeof d) == 0, "a refused merge changes nothing", line);
    is(memcmp(header, added_header, sizeof header) == 0 && memcmp(list, added_list, sizeof list) == 0, "nor what is added", line);
}
#define MERGE_REFUSES(number, names, m, a) merge_refuses(number, names, m, a, __LINE__)

static void test_metadata_open(void) {
    struct side m = gathered();
    put_header(d.header, 4, 1, 0, 3);
    PUT(d.list[SYMBOLS], 2, 1, 2, 2);
    PUT(d.list[MAPPINGS], 1, 1, 2, 1, 1, 0);
    DONE(open_side(m)); /* the last of two mappings with one name counts, at the place of the first */
    IS(d.header[DESK_SYMBOLS] == 2 && d.header[DESK_PARTIAL] == 1 && d.header[DESK_NOT_FOUND] == 0);
    IS(d.header[DESK_MAPPINGS_USED] == 2 && d.header[DESK_LIMIT] == 7 && d.header[DESK_VERSION] == 3);
    IS(WORDS_ARE(d.list[SYMBOLS], 2, 1, 0, 0, GARBAGE) && WORDS_ARE(d.list[PARTIAL], 3, GARBAGE));
    IS(WORDS_ARE(d.list[MAPPINGS], 1, 0, 2, 1, 0, 0, GARBAGE) && WORDS_ARE(d.list[INTERVALS], D2, D3, 6, 0, 0, 0, GARBAGE));
    REFUSES(DESK_DONE, open_side(m)); /* once more changes nothing */
    REFUSES(DESK_DONE, finish_side(m));
}

/* 15 from each call, whichever side the bad memory is. */
static void bad_memory(struct side m, struct side a, int line) {
    was = d;
    is(open_side(m) == DESK_BAD_MEMORY && finish_side(m) == DESK_BAD_MEMORY, "15", line);
    is(memcmp(&d, &was, sizeof d) == 0, "15 changes nothing", line);
    merge_refuses(DESK_BAD_MEMORY, 9, m, a, line);
    merge_refuses(DESK_BAD_MEMORY, 9, a, m, line);
}
#define BAD_MEMORY(change)                \
    do {                                  \
        struct side m = gathered(), a = added(); \
        change;                           \
        bad_memory(m, a, __LINE__);       \
    } while (0)

static void test_metadata_memory(void) {
    BAD_MEMORY(m.header_len = DESK_HEADER_WORDS - 1);
    BAD_MEMORY(m.header_len = DESK_HEADER_WORDS + 1);
    BAD_MEMORY(m.header_len = 0);
    BAD_MEMORY(d.header[DESK_VERSION] = 256);
    BAD_MEMORY(d.header[DESK_DATASET] = UINT64_C(1) << 32);
    BAD_MEMORY(d.header[DESK_SCHEMA] = 65536);
    BAD_MEMORY(d.header[DESK_STYPE_IN] = 256);
    BAD_MEMORY(d.header[DESK_STYPE_OUT] = UINT64_MAX);
    BAD_MEMORY(d.header[DESK_TS_OUT] = 2);
    for (int k = 0; k < 3; k++) {
        BAD_MEMORY(d.header[DESK_SYMBOLS + k] = m.len[k] + 1);
        BAD_MEMORY(d.header[DESK_SYMBOLS + k] = UINT64_MAX);
    }
    BAD_MEMORY(d.header[DESK_MAPPINGS_USED] = 5);
    BAD_MEMORY(d.header[DESK_MAPPINGS_USED] = UINT64_MAX);
    BAD_MEMORY(m.len[MAPPINGS] = 7);
    BAD_MEMORY(m.len[MAPPINGS] = 9);
    BAD_MEMORY(m.len[INTERVALS] = 14);
    BAD_MEMORY(m.len[INTERVALS] = 16);
    BAD_MEMORY(m.len[INTERVALS] = 3);
    BAD_MEMORY(d.list[MAPPINGS][1] = 5);
    BAD_MEMORY(d.list[MAPPINGS][1] = UINT32_MAX);
    MERGE_REFUSES(DESK_BAD_MEMORY, DESK_NAMES + 1, gathered(), added());
    MERGE_REFUSES(DESK_BAD_MEMORY, SIZE_MAX, gathered(), added());
}

static void test_hint_of(void) {
    const uint64_t starts[] = {0, 50, UINT64_MAX};
    begin();
    put_header(d.header, UINT64_MAX, UINT64_MAX, UINT64_MAX, UINT64_MAX); /* whatever is in use of lists that are not lent */
    for (int i = 0; i < 3; i++) {
        d.header[DESK_START] = starts[i];
        d.hint = ~starts[i];
        was = d;
        DONE(desk_hint_of(d.header, DESK_HEADER_WORDS, &d.hint));
        was.hint = starts[i];
        IS(memcmp(&d, &was, sizeof d) == 0); /* *hint is the start, and nothing else changed */
    }
    d.hint = 7;
    REFUSES(DESK_BAD_MEMORY, desk_hint_of(d.header, 0, &d.hint));
    REFUSES(DESK_BAD_MEMORY, desk_hint_of(d.header, DESK_HEADER_WORDS - 1, &d.hint));
    REFUSES(DESK_BAD_MEMORY, desk_hint_of(d.header, DESK_HEADER_WORDS + 1, &d.hint));
    static const struct {
        int word;
        uint64_t most;
    } widths[] = {{DESK_VERSION, 255},  {DESK_DATASET, UINT32_MAX}, {DESK_SCHEMA, DESK_NO_SCHEMA},
                  {DESK_STYPE_IN, 255}, {DESK_STYPE_OUT, 255},      {DESK_TS_OUT, 1}};
    for (size_t i = 0; i < sizeof widths / sizeof widths[0]; i++) {
        uint64_t *word = &d.header[widths[i].word], held = *word;
        *word = widths[i].most;
        d.hint = 7;
        DONE(desk_hint_of(d.header, DESK_HEADER_WORDS, &d.hint));
        IS(d.hint == UINT64_MAX);
        *word = widths[i].most + 1;
        d.hint = 7;
        REFUSES(DESK_BAD_MEMORY, desk_hint_of(d.header, DESK_HEADER_WORDS, &d.hint));
        *word = held;
    }
}

static void test_metadata_merge(void) {
    struct side m = gathered(), a = added();
    a.header[DESK_TS_OUT] = 1;
    DONE(merge_sides(9, m, a));
    IS(d.header[DESK_SCHEMA] == DESK_NO_SCHEMA && d.header[DESK_START] == 40 && d.header[DESK_END] == 90 && d.header[DESK_LIMIT] == 0);
    IS(d.header[DESK_VERSION] == 3 && d.header[DESK_TS_OUT] == 1 && d.header[DESK_SYMBOL_CSTR_LEN] == 71);
    IS(d.header[DESK_SYMBOLS] == 3 && d.header[DESK_PARTIAL] == 1 && d.header[DESK_NOT_FOUND] == 1);
    IS(d.header[DESK_MAPPINGS_USED] == 3 && d.header[DESK_HEADER_WORDS] == UINT64_C(0xA5A5A5A5A5A5A5A5) && d.field == GARBAGE);
    IS(WORDS_ARE(d.list[SYMBOLS], 1, 2, 4, GARBAGE) && WORDS_ARE(d.list[NOT_FOUND], 3, GARBAGE));
    IS(WORDS_ARE(d.list[MAPPINGS], 1, 2, 2, 1, 3, 1, GARBAGE, GARBAGE));
    IS(WORDS_ARE(d.list[INTERVALS], D1, D2, 5, D2, D3, 5, D2, D3, 6, D1, D4, 6, GARBAGE));
    REFUSES(DESK_DONE, finish_side(m));

    static const int compared[] = {DESK_VERSION, DESK_DATASET, DESK_STYPE_IN, DESK_STYPE_OUT, DESK_TS_OUT, DESK_SYMBOL_CSTR_LEN};
    for (uint32_t f = 6; f != 0; f--) { /* with every later field different, too, and a date that is none */
        m = gathered(), a = added();
        a.of[INTERVALS][0] = 20230229;
        for (uint32_t other = f; other <= 6; other++) a.header[compared[other - 1]] ^= 1;
        d.field = 0;
        was = d;
        IS(merge_sides(9, m, a) == DESK_DIFFER && d.field == f);
        d.field = 0;
        IS(memcmp(&d, &was, sizeof d) == 0);
    }
}

/* Each refusal, with every later one earned as well. */
static void test_metadata_refusals(void) {
    for (int number = 0; number < 5; number++) {
        struct side m = gathered(), a = added();
        if (number <= 4) m.len[INTERVALS] = 9;                                           /* 2 */
        if (number <= 3) PUT(added_list[INTERVALS], D1, D3, 6);                          /* 7 */
        if (number <= 2) PUT(added_list[INTERVALS] + 3, D4, D1, 6);                      /* 1 */
        if (number <= 1) added_list[NOT_FOUND][0] = 9;                                   /* 3 */
        if (number <= 0) d.list[INTERVALS][4] = 20230229;                                /* 11 */
        static const uint32_t numbers[] = {DESK_NO_DATE, DESK_UNKNOWN_SYMBOL, DESK_REVERSED, DESK_CONFLICT, DESK_NO_ROOM};
        MERGE_REFUSES(numbers[number], 9, m, a);
    }
    for (int k = 0; k < LISTS; k++) { /* each room one short */
        static const size_t needed[] = {3, 1, 1, 6, 12};
        struct side m = gathered(), a = added();
        added_list[PARTIAL][0] = 3;
        m.len[k] = needed[k];
        DONE(merge_sides(9, m, a));
        m = gathered();
        m.len[k] = needed[k] - (k == MAPPINGS ? 2 : k == INTERVALS ? 3 : 1);
        if (k != PARTIAL) MERGE_REFUSES(DESK_NO_ROOM, 9, m, a);
        else MERGE_REFUSES(DESK_BAD_MEMORY, 9, m, a);
    }
    struct side m = gathered(), a = added();
    MERGE_REFUSES(DESK_UNKNOWN_SYMBOL, 6, m, a); /* the symbol 6 was not handed out */
    d.header[DESK_DATASET] = added_header[DESK_DATASET] = 9;
    MERGE_REFUSES(DESK_UNKNOWN_SYMBOL, 9, m, a);
    d.list[INTERVALS][0] = 25540722; /* open and finish look at no date */
    REFUSES(DESK_DONE, open_side(m));
    REFUSES(DESK_DONE, finish_side(m));
}

/* Metadata at the limits, and one over them. */
static void test_metadata_limits(void) {
    static uint32_t sets[3][DESK_ENTRIES + 1], others[3][DESK_ENTRIES + 1], mappings[2][(DESK_MAPPINGS + 1) * DESK_MAPPING_WORDS];
    static uint32_t intervals[2][(DESK_INTERVALS + 1) * DESK_INTERVAL_WORDS];
    uint64_t header[2][DESK_HEADER_WORDS];
    struct side m = {header[0], DESK_HEADER_WORDS, {sets[0], sets[1], sets[2], mappings[0], intervals[0]}, {0}}, a = m;
    a.header = header[1];
    for (int k = 0; k < 3; k++) a.of[k] = others[k], m.len[k] = a.len[k] = DESK_ENTRIES;
    a.of[MAPPINGS] = mappings[1], a.of[INTERVALS] = intervals[1];
    m.len[MAPPINGS] = a.len[MAPPINGS] = DESK_MAPPINGS * DESK_MAPPING_WORDS;
    m.len[INTERVALS] = a.len[INTERVALS] = DESK_INTERVALS * DESK_INTERVAL_WORDS;
    for (uint32_t i = 0; i < DESK_ENTRIES; i++)
        for (int k = 0; k < 3; k++) sets[k][i] = i, others[k][i] = DESK_ENTRIES - 1 - i;
    for (uint32_t i = 0; i < DESK_MAPPINGS; i++) {
        for (int side = 0; side < 2; side++) mappings[side][2 * i] = i, mappings[side][2 * i + 1] = DESK_INTERVALS / DESK_MAPPINGS;
    }
    for (uint32_t i = 0; i < DESK_INTERVALS; i++)
        for (int side = 0; side < 2; side++) {
            uint32_t day = D1, interval = i % (DESK_INTERVALS / DESK_MAPPINGS);
            desk_date_of(2 * interval, &day);
            intervals[side][3 * i] = day;
            desk_date_of(2 * interval + 1, &day);
            intervals[side][3 * i + 1] = day;
            intervals[side][3 * i + 2] = i % DESK_NAMES;
        }
    for (int side = 0; side < 2; side++) put_header(header[side], DESK_ENTRIES, DESK_ENTRIES, DESK_ENTRIES, DESK_MAPPINGS);
    begin();
    DONE(open_side(m));
    DONE(merge_sides(DESK_NAMES, m, a));
    IS(header[0][DESK_SYMBOLS] == DESK_ENTRIES && header[0][DESK_MAPPINGS_USED] == DESK_MAPPINGS && header[0][DESK_LIMIT] == 0);
    IS(sets[0][DESK_ENTRIES - 1] == DESK_ENTRIES - 1 && memcmp(intervals[0], intervals[1], sizeof intervals[0]) == 0);
    header[1][DESK_LIMIT] = header[0][DESK_LIMIT] = 5;
    mappings[1][1]++; /* one interval more than there are */
    REFUSES(DESK_BAD_MEMORY, merge_sides(DESK_NAMES, m, a));
    mappings[1][1]--;
    uint32_t day = D1; /* one interval of the added side lies beside the others: 65,537 in all */
    desk_date_of(1000, &day);
    intervals[1][3 * (DESK_INTERVALS - 1)] = intervals[1][3 * (DESK_INTERVALS - 1) + 1] = day;
    static uint32_t before[(DESK_INTERVALS + 1) * DESK_INTERVAL_WORDS];
    memcpy(before, intervals[0], sizeof before);
    REFUSES(DESK_NO_ROOM, merge_sides(DESK_NAMES, m, a));
    IS(memcmp(before, intervals[0], sizeof before) == 0 && header[0][DESK_LIMIT] == 5);
    for (int k = 0; k < LISTS; k++) {
        size_t one = k == MAPPINGS ? DESK_MAPPING_WORDS : k == INTERVALS ? DESK_INTERVAL_WORDS : 1;
        m.len[k] += one;
        REFUSES(DESK_BAD_MEMORY, open_side(m));
        REFUSES(DESK_BAD_MEMORY, finish_side(m));
        REFUSES(DESK_BAD_MEMORY, merge_sides(DESK_NAMES, m, a));
        m.len[k] -= one;
        a.len[k] += one;
        REFUSES(DESK_BAD_MEMORY, merge_sides(DESK_NAMES, m, a));
        a.len[k] -= one;
    }
    DONE(finish_side(m));
}

/* ---- Builds. */

enum { NO_NAME, FIVE, A, B, X, UNKNOWN, BUILD_NAMES = UNKNOWN }; /* names: empty, `5`, `A`, `B`, `x`; the next was never handed out */
static const uint8_t build_bytes[] = {'5', 'A', 'B', 'x'};
static const uint32_t build_ends[BUILD_NAMES] = {0, 1, 2, 3, 4};

/* What a build reads, and the table that it is lent. */
struct plan {
    uint64_t header[DESK_HEADER_WORDS];
    uint32_t mappings[4], intervals[9];
    size_t header_len, mappings_len, intervals_len, names, name_bytes, table_len, points_len;
    uint32_t date;
};

/* A:[D1,D2) to 5, then B:[D2,D3) to 5 and [D3,D4) to nothing, for the day D2. */
static struct plan forward(void) {
    struct plan p = {{0}, {A, 1, B, 2}, {D1, D2, FIVE, D2, D3, FIVE, D3, D4, NO_NAME}, DESK_HEADER_WORDS, 4, 9, BUILD_NAMES, 4, whole,
                     POINTS * DESK_POINT_BYTES, D2};
    begin();
    put_header(p.header, 0, 0, 0, 2);
    return p;
}

static uint32_t build(struct plan p) {
    return desk_build(d.table, p.table_len, &d.used, p.header, p.header_len, d.list[0], 1, d.list[1], 2, d.list[2], 3, p.mappings,
                      p.mappings_len, p.intervals, p.intervals_len, build_bytes, sizeof build_bytes, build_ends, BUILD_NAMES,
                      p.names, p.name_bytes);
}

static uint32_t build_points(struct plan p) {
    return desk_build_points(d.points, p.points_len, &d.points_used, p.header, p.header_len, d.list[0], 1, d.list[1], 2, d.list[2],
                             3, p.mappings, p.mappings_len, p.intervals, p.intervals_len, build_bytes, sizeof build_bytes,
                             build_ends, BUILD_NAMES, p.names, p.name_bytes, p.date);
}

/* Both builds, or one of them, answer the number and leave an empty table, every byte 0, and all else as it was. */
static void builds_refuse(uint32_t number, struct plan p, int over_time, int points, int line) {
    begin();
    d.used = d.points_used = 77;
    was = d;
    if (over_time) {
        is(build(p) == number, "the build's number", line);
        memset(was.table, 0, p.table_len);
        was.used = 0;
    }
    if (points) {
        is(build_points(p) == number, "the point-in-time build's number", line);
        memset(was.points, 0, p.points_len);
        was.points_used = 0;
    }
    is(memcmp(&d, &was, sizeof d) == 0, "a refused build leaves an empty table and all else", line);
}
#define BUILDS_REFUSE(number, over_time, points, change) \
    do {                                                 \
        struct plan p = forward();                       \
        change;                                          \
        builds_refuse(number, p, over_time, points, __LINE__); \
    } while (0)

static void test_builds(void) {
    const uint64_t day = UINT64_C(86400000000000), first = 19781; /* D1 */
    struct plan p = forward();
    DONE(build(p));
    IS(d.used == 2 && interval_is(0, 5, A, first * day, (first + 1) * day) && interval_is(1, 5, B, (first + 1) * day, (first + 2) * day));
    IS(all(d.table + 48, whole - 48, 0) && all(d.table + whole, sizeof d.table - whole, 0xA5));
    DONE(build_points(p));
    IS(d.points_used == 1 && all(d.points + 8, p.points_len - 8, 0) && all(d.points + p.points_len, sizeof d.points - p.points_len, 0xA5));
    d.found = d.symbol = 77;
    DONE(desk_get_point(d.points, p.points_len, d.points_used, 5, &d.found, &d.symbol));
    IS(d.found == 1 && d.symbol == B);

    for (int k = 0; k < 3; k++) p.header[DESK_SYMBOLS + k] = (uint64_t)k + 1; /* sets all in use, of which a build reads nothing */
    DONE(build(p));
    DONE(build_points(p));
    IS(d.used == 2 && d.points_used == 1);

    p.header[DESK_STYPE_IN] = 0, p.header[DESK_STYPE_OUT] = 1; /* the other way round */
    p.header[DESK_MAPPINGS_USED] = 1, p.mappings[0] = FIVE, p.intervals[2] = A;
    DONE(build(p));
    IS(d.used == 1 && interval_is(0, 5, A, first * day, (first + 1) * day) && all(d.table + 24, whole - 24, 0));
    p.date = D1;
    DONE(build_points(p));
    IS(d.points_used == 1);
    p.date = D2; /* nothing covers it */
    DONE(build_points(p));
    IS(d.points_used == 0 && all(d.points, p.points_len, 0));

    BUILDS_REFUSE(DESK_BAD_MEMORY, 1, 0, p.table_len = whole - 1);
    BUILDS_REFUSE(DESK_BAD_MEMORY, 1, 0, p.table_len = whole + 1);
    BUILDS_REFUSE(DESK_BAD_MEMORY, 0, 1, p.points_len--);
    BUILDS_REFUSE(DESK_BAD_MEMORY, 0, 1, p.points_len++);
    BUILDS_REFUSE(DESK_BAD_MEMORY, 1, 1, p.header_len--);
    BUILDS_REFUSE(DESK_BAD_MEMORY, 1, 1, p.header[DESK_VERSION] = 256);
    BUILDS_REFUSE(DESK_BAD_MEMORY, 1, 1, p.header[DESK_SYMBOLS] = 2);
    BUILDS_REFUSE(DESK_BAD_MEMORY, 1, 1, p.header[DESK_PARTIAL] = 3);
    BUILDS_REFUSE(DESK_BAD_MEMORY, 1, 1, p.header[DESK_NOT_FOUND] = 4);
    BUILDS_REFUSE(DESK_BAD_MEMORY, 1, 1, p.header[DESK_MAPPINGS_USED] = 3);
    BUILDS_REFUSE(DESK_BAD_MEMORY, 1, 1, p.intervals_len = 6);
    BUILDS_REFUSE(DESK_BAD_MEMORY, 1, 1, p.intervals_len = 8);
    BUILDS_REFUSE(DESK_BAD_MEMORY, 1, 1, p.mappings_len = 3);
    BUILDS_REFUSE(DESK_BAD_MEMORY, 1, 1, p.names = BUILD_NAMES + 1);
    BUILDS_REFUSE(DESK_BAD_MEMORY, 1, 1, p.name_bytes = sizeof build_bytes + 1);
    BUILDS_REFUSE(DESK_ILL_FORMED, 1, 1, p.name_bytes = sizeof build_bytes - 1; p.header[DESK_STYPE_OUT] = 1; p.date = 0);
    BUILDS_REFUSE(DESK_NO_INSTRUMENT_ID, 1, 1, p.header[DESK_STYPE_OUT] = 1; p.intervals[2] = UNKNOWN);
    BUILDS_REFUSE(DESK_UNKNOWN_SYMBOL, 1, 0, p.intervals[5] = UNKNOWN; p.intervals[4] = 0);
    BUILDS_REFUSE(DESK_UNKNOWN_SYMBOL, 0, 1, p.intervals[5] = UNKNOWN; p.mappings[2] = UNKNOWN);
    BUILDS_REFUSE(DESK_UNKNOWN_SYMBOL, 1, 1, p.mappings[2] = UNKNOWN);
    BUILDS_REFUSE(DESK_NOT_NUMBER, 1, 0, p.intervals[5] = X; p.intervals[4] = 0);
    BUILDS_REFUSE(DESK_NOT_NUMBER, 0, 1, p.intervals[5] = X);
    BUILDS_REFUSE(DESK_NO_DATE, 1, 1, p.intervals[3] = 20230229);
    BUILDS_REFUSE(DESK_NO_DATE, 0, 1, p.date = 20230229; p.header[DESK_STYPE_OUT] = 1);
    BUILDS_REFUSE(DESK_REVERSED, 1, 0, p.intervals[4] = D1; p.table_len = 24);
    BUILDS_REFUSE(DESK_NO_ROOM, 1, 0, p.table_len = 24);
    BUILDS_REFUSE(DESK_NO_ROOM, 0, 1, p.points_len = 0);
    BUILDS_REFUSE(DESK_OUTSIDE_QUERY, 0, 1, p.header[DESK_START] = (first + 2) * day; p.intervals[3] = 0);
    BUILDS_REFUSE(DESK_OUTSIDE_QUERY, 0, 1, p.header[DESK_END] = (first + 1) * day);
}

/* ---- What stands behind the pointers afterwards. One function an export reads the header's sentences, first with one pattern, then
 * with another: all that is lent holds the pattern before a call, and after it `d` whole is what it was but for what the sentence
 * of that number says. */

static uint32_t seen; /* the numbers that an export has returned, a bit each */

/* What calls only read and does not stand in `d`. */
static struct {
    uint8_t record[sizeof record], buffer[sizeof buffer];
    uint64_t header[DESK_HEADER_WORDS + 1];
    uint32_t list[LISTS][LIST_ROOM];
} only_read;

/* The numbers that calls hand back hold the pattern, and everything is noted. */
static void note(void) {
    uint64_t n = UINT64_C(0x0101010101010101) * pattern;
    d.hint = d.moment = d.reason = d.stream = d.place = d.time = n;
    d.index = d.from = d.to = d.next_from = d.next_to = n;
    d.streams = d.first = d.end = d.at = d.taken = (size_t)n;
    d.found = d.symbol = d.day = d.date = d.value = d.instrument = d.field = d.told = d.next_symbol = (uint32_t)n;
    d.length = d.kind = (uint16_t)n;
    was = d;
    memcpy(only_read.record, record, sizeof record);
    memcpy(only_read.buffer, buffer, sizeof buffer);
    memcpy(only_read.header, added_header, sizeof added_header);
    memcpy(only_read.list, added_list, sizeof added_list);
}

static int as_noted(void) {
    return memcmp(&d, &was, sizeof d) == 0 && memcmp(record, only_read.record, sizeof record) == 0 &&
           memcmp(buffer, only_read.buffer, sizeof buffer) == 0 &&
           memcmp(added_header, only_read.header, sizeof added_header) == 0 &&
           memcmp(added_list, only_read.list, sizeof added_list) == 0;
}

static int returns(uint32_t number, uint32_t expected) {
    if (number < 32) seen |= 1u << number;
    return number == expected;
}

/* After the number all is as before, but for what the rest says of `was`. */
#define AFTER(number, call, ...)                                                   \
    do {                                                                           \
        note();                                                                    \
        is(returns((call), (number)), #call " is " #number, __LINE__);             \
        __VA_ARGS__;                                                               \
        is(as_noted(), #call ", after " #number ": " #__VA_ARGS__, __LINE__);      \
    } while (0)
#define ALL_AS_BEFORE (void)0

/* The export has returned all of these numbers, and no other. */
static void answered(const uint32_t *numbers, size_t len, int line) {
    uint32_t expected = 0;
    while (len-- != 0) expected |= 1u << *numbers++;
    is(seen == expected, "each number that the header names, and no other", line);
    seen = 0;
}
#define ANSWERED(...) answered((const uint32_t[]){__VA_ARGS__}, sizeof((const uint32_t[]){__VA_ARGS__}) / 4, __LINE__)

static void after_check(void) {
    begin();
    put_interval(d.table, 0, 1, 0, 10, 20);
    AFTER(DESK_DONE, desk_check(d.table, whole, 1, 1), ALL_AS_BEFORE);
    AFTER(DESK_BAD_MEMORY, desk_check(d.table, whole - 1, 1, 1), ALL_AS_BEFORE);
    AFTER(DESK_ILL_FORMED, desk_check(d.table, whole, 2, 1), ALL_AS_BEFORE);
    ANSWERED(DESK_DONE, DESK_BAD_MEMORY, DESK_ILL_FORMED);
}

static void after_insert(void) {
    begin();
    AFTER(DESK_DONE, insert(1, 10, 30, 0), was.used = 1, put_interval(was.table, 0, 1, 0, 10, 30));
    AFTER(DESK_DONE, insert(1, 15, 18, 1), was.used = 3, put_interval(was.table, 0, 1, 0, 10, 15),
          put_interval(was.table, 1, 1, 1, 15, 18), put_interval(was.table, 2, 1, 0, 18, 30));
    AFTER(DESK_DONE, insert(1, 15, 18, 0), was.used = 1, put_interval(was.table, 0, 1, 0, 10, 30), memset(was.table + 24, 0, 48));
    AFTER(DESK_DONE, insert(1, 5, 5, 9), ALL_AS_BEFORE);
    AFTER(DESK_BAD_MEMORY, desk_insert(d.table, whole - 1, &d.used, 2, 1, 5, 6, 1), ALL_AS_BEFORE);
    AFTER(DESK_ILL_FORMED, desk_insert(d.table, whole, &d.used, 0, 1, 5, 6, 1), ALL_AS_BEFORE);
    AFTER(DESK_REVERSED, insert(1, 6, 5, 1), ALL_AS_BEFORE);
    AFTER(DESK_UNKNOWN_SYMBOL, insert(1, 5, 6, 2), ALL_AS_BEFORE);
    AFTER(DESK_NO_ROOM, desk_insert(d.table, 24, &d.used, 2, 1, 15, 18, 1), ALL_AS_BEFORE);
    ANSWERED(DESK_DONE, DESK_BAD_MEMORY, DESK_ILL_FORMED, DESK_REVERSED, DESK_UNKNOWN_SYMBOL, DESK_NO_ROOM);
}

static uint32_t look(size_t table_len, uint32_t instrument, uint64_t moment) {
    return desk_get_for_ts(d.table, table_len, d.used, instrument, moment, &d.hint, &d.found, &d.symbol);
}

static void after_get_for_ts(void) {
    begin();
    put_interval(d.table, 0, 1, 5, 10, 20);
    put_interval(d.table, 1, 1, 6, 30, 40);
    d.used = 2;
    AFTER(DESK_DONE, look(whole, 1, 30), was.found = 1, was.symbol = 6, was.hint = 1);
    AFTER(DESK_DONE, look(whole, 1, 20), was.found = was.symbol = 0, was.hint = 0);
    AFTER(DESK_DONE, look(whole, 1, 9), was.found = was.symbol = 0);  /* before the first interval */
    AFTER(DESK_DONE, look(whole, 2, 30), was.found = was.symbol = 0); /* an unknown instrument */
    AFTER(DESK_BAD_MEMORY, look(whole - 1, 1, 30), ALL_AS_BEFORE);
    put_interval(d.table, 1, 1, 6, 15, 40); /* overlaps: 14 from the check, and the three say nothing */
    AFTER(DESK_DONE, look(whole, 1, 30), was.found = d.found, was.symbol = d.symbol, was.hint = d.hint);
    ANSWERED(DESK_DONE, DESK_BAD_MEMORY);
}

/* An explanation beside a lookup with a hint of 9: a symbol exactly where it is in an interval, and the new hint. */
static void explained_as_looked(size_t used, uint32_t instrument, uint64_t moment) {
    uint64_t hint = 9;
    uint32_t found = 77, symbol = 77;
    DONE(explain(used, instrument, moment));
    DONE(desk_get_for_ts(d.table, whole, used, instrument, moment, &hint, &found, &symbol));
    IS((found == 1) == (d.told == DESK_IN) && (found == 0 || symbol == d.symbol));
    IS(hint == (d.told == DESK_UNKNOWN || d.told == DESK_BEFORE ? 9 : d.index));
}

/* The eight numbers of an answer that names one interval. */
static void telling(uint32_t told, uint64_t index, uint64_t from, uint64_t to, uint32_t symbol) {
    was.told = told;
    was.index = index;
    was.from = from;
    was.to = to;
    was.symbol = symbol;
    was.next_from = was.next_to = 0;
    was.next_symbol = 0;
}

static void after_explain(void) {
    begin();
    put_interval(d.table, 0, 7, 2, 10, 20);
    put_interval(d.table, 1, 7, 1, 30, 40);
    for (uint64_t moment = 0; moment < 50; moment++) explained_as_looked(2, 7, moment), explained_as_looked(2, 8, moment);
    begin();
    put_interval(d.table, 0, 7, 2, 10, 20);
    put_interval(d.table, 1, 7, 1, 30, 40);
    AFTER(DESK_DONE, explain(2, 7, 25), telling(DESK_BETWEEN, 0, 10, 20, 2), was.next_from = 30, was.next_to = 40, was.next_symbol = 1);
    AFTER(DESK_DONE, explain(2, 7, 15), telling(DESK_IN, 0, 10, 20, 2));
    AFTER(DESK_DONE, explain(2, 7, 5), telling(DESK_BEFORE, 0, 10, 20, 2));
    AFTER(DESK_DONE, explain(2, 7, 40), telling(DESK_AFTER, 1, 30, 40, 1));
    AFTER(DESK_DONE, explain(2, 8, 40), telling(DESK_UNKNOWN, 0, 0, 0, 0));
    AFTER(DESK_BAD_MEMORY, explain(ROOM + 1, 7, 25), ALL_AS_BEFORE);
    put_interval(d.table, 1, 7, 3, 30, 40);
    AFTER(DESK_ILL_FORMED, explain(2, 7, 25), ALL_AS_BEFORE);
    ANSWERED(DESK_DONE, DESK_BAD_MEMORY, DESK_ILL_FORMED);
}

/* A name has joined the list. */
static void joins(const char *text) {
    size_t len = strlen(text);
    memcpy(was.bytes + was.name_bytes, text, len);
    was.name_bytes += len;
    was.ends[was.names++] = (uint32_t)was.name_bytes;
}

#define AFTER_RECORD(number, made, ...)                   \
    do {                                                  \
        size_t len = (made);                              \
        AFTER(number, record_on(len), __VA_ARGS__);       \
    } while (0)

/* What both mapping calls leave where they store nothing: two names and at least one row are in use. */
static void after_records_that_store_nothing(void) {
    int over_time = on == desk_on_record;
    uint8_t *symbol = (over_time ? d.table : d.points) + 4, old = *symbol;
    size_t full = over_time ? d.used * DESK_INTERVAL_BYTES : d.points_used * DESK_POINT_BYTES, lent = room;
    AFTER_RECORD(DESK_DONE, mapping(3, 8, 10, 20, "NEW"), ALL_AS_BEFORE); /* another kind */
    AFTER_RECORD(DESK_DAMAGED, (mapping(2, 8, 10, 20, "NEW"), 15), was.reason = DESK_SHORT);
    AFTER_RECORD(DESK_DAMAGED, (mapping(2, 8, 10, 20, "NEW"), put(record, 2, 15), 35), was.reason = DESK_BAD_LENGTH);
    AFTER_RECORD(DESK_DAMAGED, mapping(2, 8, 10, 20, "NEW") + 1, was.reason = DESK_PAST_END);
    AFTER_RECORD(DESK_DAMAGED, (mapping(2, 8, 10, 20, ""), put(record, 2, 31), 31), was.reason = DESK_SHORT_BODY);
    AFTER_RECORD(DESK_BAD_NAME, mapping(2, 8, 10, 20, "\xC3"), ALL_AS_BEFORE);
    room = lent - 1;
    AFTER_RECORD(DESK_BAD_MEMORY, mapping(2, 8, 10, 20, "NEW"), ALL_AS_BEFORE);
    room = full;
    AFTER_RECORD(DESK_NO_ROOM, mapping(2, 8, 10, 20, "NEW"), ALL_AS_BEFORE);
    room = lent;
    *symbol = 9;
    AFTER_RECORD(DESK_ILL_FORMED, mapping(2, 8, 10, 20, "NEW"), ALL_AS_BEFORE);
    *symbol = old;
    d.name_bytes--;
    AFTER_RECORD(DESK_ILL_FORMED, mapping(2, 8, 10, 20, "NEW"), ALL_AS_BEFORE);
    d.name_bytes++;
    DONE(name("a", 1));
    DONE(name("b", 1));
    AFTER_RECORD(DESK_NO_NAME_ROOM, mapping(2, 8, 10, 20, "NEW"), ALL_AS_BEFORE);
}

static void after_on_record(void) {
    begin();
    on = desk_on_record, room = whole;
    AFTER_RECORD(DESK_DONE, mapping(2, 7, 10, 20, "ESZ4"), was.used = 1, put_interval(was.table, 0, 7, 0, 10, 20), joins("ESZ4"));
    AFTER_RECORD(DESK_DONE, mapping(2, 7, 14, 16, "ESH5"), was.used = 3, put_interval(was.table, 0, 7, 0, 10, 14),
                 put_interval(was.table, 1, 7, 1, 14, 16), put_interval(was.table, 2, 7, 0, 16, 20), joins("ESH5"));
    AFTER_RECORD(DESK_DONE, mapping(2, 7, 14, 16, "ESZ4"), was.used = 1, put_interval(was.table, 0, 7, 0, 10, 20),
                 memset(was.table + 24, 0, 48)); /* an old name */
    AFTER_RECORD(DESK_DONE, mapping(2, 7, 5, 5, "NEW"), ALL_AS_BEFORE);
    AFTER_RECORD(DESK_REVERSED, mapping(2, 7, 6, 5, "NEW"), ALL_AS_BEFORE);
    after_records_that_store_nothing();
    ANSWERED(DESK_DONE, DESK_BAD_MEMORY, DESK_ILL_FORMED, DESK_DAMAGED, DESK_BAD_NAME, DESK_REVERSED, DESK_NO_NAME_ROOM,
             DESK_NO_ROOM);
}

static void put_point(uint8_t *points, size_t i, uint32_t instrument, uint32_t symbol) {
    put(points + i * DESK_POINT_BYTES, 4, instrument);
    put(points + i * DESK_POINT_BYTES + 4, 4, symbol);
}

static void after_check_points(void) {
    begin();
    put_point(d.points, 0, 7, 0);
    AFTER(DESK_DONE, desk_check_points(d.points, 24, 1, 1), ALL_AS_BEFORE);
    AFTER(DESK_BAD_MEMORY, desk_check_points(d.points, 23, 1, 1), ALL_AS_BEFORE);
    AFTER(DESK_ILL_FORMED, desk_check_points(d.points, 24, 1, 0), ALL_AS_BEFORE);
    ANSWERED(DESK_DONE, DESK_BAD_MEMORY, DESK_ILL_FORMED);
}

static void after_get_point(void) {
    begin();
    put_point(d.points, 0, 7, 5);
    put_point(d.points, 1, 9, 6);
    AFTER(DESK_DONE, desk_get_point(d.points, 24, 2, 9, &d.found, &d.symbol), was.found = 1, was.symbol = 6);
    AFTER(DESK_DONE, desk_get_point(d.points, 24, 2, 8, &d.found, &d.symbol), was.found = was.symbol = 0);
    AFTER(DESK_BAD_MEMORY, desk_get_point(d.points, 23, 2, 9, &d.found, &d.symbol), ALL_AS_BEFORE);
    put_point(d.points, 0, 9, 5); /* an instrument twice: 14 from the check, and the two say nothing */
    AFTER(DESK_DONE, desk_get_point(d.points, 24, 2, 9, &d.found, &d.symbol), was.found = d.found, was.symbol = d.symbol);
    ANSWERED(DESK_DONE, DESK_BAD_MEMORY);
}

static void after_on_record_point(void) {
    begin();
    on = desk_on_record_point, room = POINTS * DESK_POINT_BYTES;
    AFTER_RECORD(DESK_DONE, mapping(2, 7, 10, 20, "ESZ4"), was.points_used = 1, put_point(was.points, 0, 7, 0), joins("ESZ4"));
    AFTER_RECORD(DESK_DONE, mapping(2, 5, 20, 10, "ESH5"), was.points_used = 2, put_point(was.points, 0, 5, 1),
                 put_point(was.points, 1, 7, 0), joins("ESH5"));
    AFTER_RECORD(DESK_DONE, mapping(2, 7, 5, 5, "ESH5"), put_point(was.points, 1, 7, 1)); /* an old name */
    after_records_that_store_nothing();
    ANSWERED(DESK_DONE, DESK_BAD_MEMORY, DESK_ILL_FORMED, DESK_DAMAGED, DESK_BAD_NAME, DESK_NO_NAME_ROOM, DESK_NO_ROOM);
}

static void after_check_names(void) {
    begin();
    DONE(name("ES", 2));
    AFTER(DESK_DONE, desk_check_names(d.bytes, NAME_ROOM, d.ends, NAMES, 1, 2), ALL_AS_BEFORE);
    AFTER(DESK_BAD_MEMORY, desk_check_names(d.bytes, NAME_ROOM, d.ends, 0, 1, 2), ALL_AS_BEFORE);
    AFTER(DESK_ILL_FORMED, desk_check_names(d.bytes, NAME_ROOM, d.ends, NAMES, 1, 3), ALL_AS_BEFORE);
    ANSWERED(DESK_DONE, DESK_BAD_MEMORY, DESK_ILL_FORMED);
}

static uint32_t name_within(size_t bytes_len) {
    return desk_number_of(d.bytes, bytes_len, d.ends, NAMES, &d.names, &d.name_bytes, (const uint8_t *)"NEW", 3, &d.symbol);
}

static void after_number_of(void) {
    begin();
    AFTER(DESK_DONE, name("ES", 2), was.symbol = 0, joins("ES"));
    AFTER(DESK_DONE, name("", 0), was.symbol = 1, joins(""));
    AFTER(DESK_DONE, name("ES", 2), was.symbol = 0); /* an old name */
    AFTER(DESK_BAD_MEMORY, name_within(1), ALL_AS_BEFORE);
    AFTER(DESK_BAD_NAME, name("\xC3", 1), ALL_AS_BEFORE);
    AFTER(DESK_NO_NAME_ROOM, name_within(4), ALL_AS_BEFORE);
    d.name_bytes = 1;
    AFTER(DESK_ILL_FORMED, name_within(NAME_ROOM), ALL_AS_BEFORE);
    ANSWERED(DESK_DONE, DESK_BAD_MEMORY, DESK_ILL_FORMED, DESK_BAD_NAME, DESK_NO_NAME_ROOM);
}

static uint32_t place_of(uint32_t symbol, size_t size) {
    return desk_place_of_name(d.bytes, NAME_ROOM, d.ends, NAMES, d.names, size, symbol, &d.first, &d.end);
}

static void after_place_of_name(void) {
    begin();
    DONE(name("ES", 2));
    DONE(name("NQM", 3));
    AFTER(DESK_DONE, place_of(1, 5), was.first = 2, was.end = 5);
    AFTER(DESK_BAD_MEMORY, place_of(1, NAME_ROOM + 1), ALL_AS_BEFORE);
    AFTER(DESK_ILL_FORMED, place_of(1, 4), ALL_AS_BEFORE);
    AFTER(DESK_UNKNOWN_SYMBOL, place_of(2, 5), ALL_AS_BEFORE);
    ANSWERED(DESK_DONE, DESK_BAD_MEMORY, DESK_ILL_FORMED, DESK_UNKNOWN_SYMBOL);
}

static void after_day_of(void) {
    begin();
    AFTER(DESK_DONE, desk_day_of(20000229, &d.day), was.day = 11016);
    AFTER(DESK_NO_DATE, desk_day_of(21000229, &d.day), ALL_AS_BEFORE);
    ANSWERED(DESK_DONE, DESK_NO_DATE);
}

static void after_date_of(void) {
    begin();
    AFTER(DESK_DONE, desk_date_of(11016, &d.date), was.date = 20000229);
    AFTER(DESK_NO_DATE, desk_date_of(DESK_LAST_DAY + 1, &d.date), ALL_AS_BEFORE);
    ANSWERED(DESK_DONE, DESK_NO_DATE);
}

static void after_day_start(void) {
    begin();
    AFTER(DESK_DONE, desk_day_start(1, &d.moment), was.moment = UINT64_C(86400000000000));
    AFTER(DESK_NO_DATE, desk_day_start(DESK_LAST_DAY + 1, &d.moment), ALL_AS_BEFORE);
    ANSWERED(DESK_DONE, DESK_NO_DATE);
}

static void after_number_text(void) {
    begin();
    AFTER(DESK_DONE, text("+7"), was.value = 7);
    AFTER(DESK_NOT_NUMBER, text("7x"), ALL_AS_BEFORE);
    ANSWERED(DESK_DONE, DESK_NOT_NUMBER);
}

static void after_utf8(void) {
    begin();
    memcpy(d.bytes, "\xE2\x82\xAC", 3);
    AFTER(DESK_DONE, desk_utf8(d.bytes, 3), ALL_AS_BEFORE);
    AFTER(DESK_BAD_NAME, desk_utf8(d.bytes, 2), ALL_AS_BEFORE);
    ANSWERED(DESK_DONE, DESK_BAD_NAME);
}

static void after_metadata_open(void) {
    struct side m = gathered();
    put_header(d.header, 4, 1, 0, 3);
    PUT(d.list[SYMBOLS], 2, 1, 2, 2);
    PUT(d.list[MAPPINGS], 1, 1, 2, 1, 1, 0);
    AFTER(DESK_DONE, open_side(m), was.header[DESK_SYMBOLS] = 2, was.header[DESK_MAPPINGS_USED] = 2,
          PUT(was.list[SYMBOLS], 2, 1, 0, 0), PUT(was.list[MAPPINGS], 1, 0, 2, 1, 0, 0),
          PUT(was.list[INTERVALS], D2, D3, 6, 0, 0, 0));
    m.len[MAPPINGS]--;
    AFTER(DESK_BAD_MEMORY, open_side(m), ALL_AS_BEFORE);
    ANSWERED(DESK_DONE, DESK_BAD_MEMORY);
}

/* A merge of the two sides, changed. */
#define AFTER_MERGE(number, change, ...)                         \
    do {                                                         \
        struct side m = gathered(), a = added();                 \
        change;                                                  \
        AFTER(number, merge_sides(9, m, a), __VA_ARGS__);        \
    } while (0)

static void after_metadata_merge(void) {
    static const int compared[] = {DESK_VERSION, DESK_DATASET, DESK_STYPE_IN, DESK_STYPE_OUT, DESK_TS_OUT, DESK_SYMBOL_CSTR_LEN};
    AFTER_MERGE(DESK_DONE, (void)0, was.header[DESK_SCHEMA] = DESK_NO_SCHEMA, was.header[DESK_START] = 40,
                was.header[DESK_END] = 90, was.header[DESK_LIMIT] = 0, was.header[DESK_SYMBOLS] = 3,
                was.header[DESK_NOT_FOUND] = 1, was.header[DESK_MAPPINGS_USED] = 3, PUT(was.list[SYMBOLS], 1, 2, 4),
                PUT(was.list[NOT_FOUND], 3), PUT(was.list[MAPPINGS], 1, 2, 2, 1, 3, 1),
                PUT(was.list[INTERVALS], D1, D2, 5, D2, D3, 5, D2, D3, 6, D1, D4, 6));
    AFTER_MERGE(DESK_DONE, /* repeats of a side never opened, and nothing added: places are freed */
                put_header(d.header, 4, 1, 0, 3); put_header(added_header, 0, 0, 0, 0); PUT(d.list[SYMBOLS], 2, 1, 2, 2);
                PUT(d.list[MAPPINGS], 1, 1, 2, 1, 1, 0), was.header[DESK_LIMIT] = 0, was.header[DESK_SYMBOLS] = 2,
                was.header[DESK_MAPPINGS_USED] = 2, PUT(was.list[SYMBOLS], 2, 1, 0, 0),
                PUT(was.list[MAPPINGS], 1, 0, 2, 1, 0, 0), PUT(was.list[INTERVALS], D2, D3, 6, 0, 0, 0));
    for (uint32_t f = 1; f <= 6; f++) AFTER_MERGE(DESK_DIFFER, added_header[compared[f - 1]] ^= 1, was.field = f);
    AFTER_MERGE(DESK_BAD_MEMORY, m.header_len--, ALL_AS_BEFORE);
    AFTER_MERGE(DESK_BAD_MEMORY, a.header_len--, ALL_AS_BEFORE);
    AFTER_MERGE(DESK_NO_DATE, added_list[INTERVALS][0] = 20230229, ALL_AS_BEFORE);
    AFTER_MERGE(DESK_UNKNOWN_SYMBOL, added_list[SYMBOLS][0] = 9, ALL_AS_BEFORE);
    AFTER_MERGE(DESK_REVERSED, added_list[INTERVALS][0] = D4, ALL_AS_BEFORE);
    AFTER_MERGE(DESK_CONFLICT, PUT(added_list[INTERVALS], D1, D3, 6), ALL_AS_BEFORE);
    AFTER_MERGE(DESK_NO_ROOM, m.len[INTERVALS] = 9, ALL_AS_BEFORE);
    ANSWERED(DESK_DONE, DESK_BAD_MEMORY, DESK_DIFFER, DESK_NO_DATE, DESK_UNKNOWN_SYMBOL, DESK_REVERSED, DESK_CONFLICT,
             DESK_NO_ROOM);
}

static void after_metadata_finish(void) {
    struct side m = gathered();
    AFTER(DESK_DONE, finish_side(m), ALL_AS_BEFORE);
    m.header_len--;
    AFTER(DESK_BAD_MEMORY, finish_side(m), ALL_AS_BEFORE);
    ANSWERED(DESK_DONE, DESK_BAD_MEMORY);
}

/* What a build is handed, all in `d`: A:[D1,D2) to 5 and [D2,D3) to nothing; tables and numbers in use hold the pattern. */
static void lend_build(size_t table_len) {
    begin();
    room = table_len;
    memset(&d.used, pattern, sizeof d.used);
    memset(&d.points_used, pattern, sizeof d.points_used);
    memcpy(d.bytes, build_bytes, sizeof build_bytes);
    memcpy(d.ends, build_ends, sizeof build_ends);
    d.names = BUILD_NAMES, d.name_bytes = sizeof build_bytes;
    put_header(d.header, 0, 0, 0, 1);
    PUT(d.list[MAPPINGS], A, 2);
    PUT(d.list[INTERVALS], D1, D2, FIVE, D2, D3, NO_NAME);
}

static uint32_t build_lent(void) {
    return desk_build(d.table, room, &d.used, d.header, DESK_HEADER_WORDS, d.list[0], 1, d.list[1], 1, d.list[2], 1, d.list[3], 4,
                      d.list[4], 9, d.bytes, NAME_ROOM, d.ends, BUILD_NAMES, d.names, d.name_bytes);
}

static uint32_t build_points_lent(uint32_t date) {
    return desk_build_points(d.points, room, &d.points_used, d.header, DESK_HEADER_WORDS, d.list[0], 1, d.list[1], 1, d.list[2], 1,
                             d.list[3], 4, d.list[4], 9, d.bytes, NAME_ROOM, d.ends, BUILD_NAMES, d.names, d.name_bytes, date);
}

static void after_build(void) {
    const uint64_t day = UINT64_C(86400000000000), first = 19781; /* D1 */
#define AFTER_REFUSED(number, change)                                                     \
    do {                                                                                  \
        lend_build(whole);                                                                \
        change;                                                                           \
        AFTER(number, build_lent(), memset(was.table, 0, room), was.used = 0);            \
    } while (0)
    lend_build(whole);
    AFTER(DESK_DONE, build_lent(), memset(was.table, 0, whole), was.used = 1,
          put_interval(was.table, 0, 5, A, first * day, (first + 1) * day));
    AFTER_REFUSED(DESK_BAD_MEMORY, room--);
    AFTER_REFUSED(DESK_BAD_MEMORY, room++);
    AFTER_REFUSED(DESK_BAD_MEMORY, d.header[DESK_VERSION] = 256);
    AFTER_REFUSED(DESK_BAD_MEMORY, d.header[DESK_SYMBOLS] = 2);
    AFTER_REFUSED(DESK_ILL_FORMED, d.name_bytes--);
    AFTER_REFUSED(DESK_NO_INSTRUMENT_ID, d.header[DESK_STYPE_OUT] = 1);
    AFTER_REFUSED(DESK_UNKNOWN_SYMBOL, d.list[INTERVALS][5] = UNKNOWN); /* after an insert, as the next ones */
    AFTER_REFUSED(DESK_NOT_NUMBER, d.list[INTERVALS][5] = X);
    AFTER_REFUSED(DESK_NO_DATE, PUT(d.list[INTERVALS] + 3, D2, 20230229, FIVE));
    AFTER_REFUSED(DESK_REVERSED, PUT(d.list[INTERVALS] + 3, D3, D2, FIVE));
    AFTER_REFUSED(DESK_NO_ROOM, PUT(d.list[INTERVALS] + 3, D3, D4, FIVE); room = DESK_INTERVAL_BYTES);
    ANSWERED(DESK_DONE, DESK_BAD_MEMORY, DESK_ILL_FORMED, DESK_NO_INSTRUMENT_ID, DESK_UNKNOWN_SYMBOL, DESK_NOT_NUMBER,
             DESK_NO_DATE, DESK_REVERSED, DESK_NO_ROOM);
#undef AFTER_REFUSED
}

static void after_build_points(void) {
#define AFTER_REFUSED(number, date, change)                                                            \
    do {                                                                                               \
        lend_build(POINTS * DESK_POINT_BYTES);                                                         \
        change;                                                                                        \
        AFTER(number, build_points_lent(date), memset(was.points, 0, room), was.points_used = 0);      \
    } while (0)
    lend_build(POINTS * DESK_POINT_BYTES);
    AFTER(DESK_DONE, build_points_lent(D1), memset(was.points, 0, room), was.points_used = 1, put_point(was.points, 0, 5, A));
    AFTER(DESK_DONE, build_points_lent(D2), memset(was.points, 0, room), was.points_used = 0); /* to nothing */
    AFTER_REFUSED(DESK_BAD_MEMORY, D1, room--);
    AFTER_REFUSED(DESK_BAD_MEMORY, D1, room++);
    AFTER_REFUSED(DESK_BAD_MEMORY, D1, d.header[DESK_VERSION] = 256);
    AFTER_REFUSED(DESK_BAD_MEMORY, D1, d.header[DESK_SYMBOLS] = 2);
    AFTER_REFUSED(DESK_ILL_FORMED, D1, d.name_bytes--);
    AFTER_REFUSED(DESK_NO_DATE, 20230229, (void)0);
    AFTER_REFUSED(DESK_NO_INSTRUMENT_ID, D1, d.header[DESK_STYPE_OUT] = 1);
    AFTER_REFUSED(DESK_OUTSIDE_QUERY, D1, d.header[DESK_END] = 1);
    AFTER_REFUSED(DESK_NO_DATE, D1, d.list[INTERVALS][1] = 20230229);
    AFTER_REFUSED(DESK_UNKNOWN_SYMBOL, D1, d.list[INTERVALS][2] = UNKNOWN);
    AFTER_REFUSED(DESK_NOT_NUMBER, D1, d.list[INTERVALS][2] = X);
    AFTER_REFUSED(DESK_NO_ROOM, D1, d.header[DESK_MAPPINGS_USED] = 2; d.bytes[1] = '7'; PUT(d.list[MAPPINGS], B, 1, B, 1);
                  PUT(d.list[INTERVALS], D1, D2, FIVE, D1, D2, A); room = DESK_POINT_BYTES); /* the second of two entries */
    ANSWERED(DESK_DONE, DESK_BAD_MEMORY, DESK_ILL_FORMED, DESK_NO_DATE, DESK_NO_INSTRUMENT_ID, DESK_OUTSIDE_QUERY,
             DESK_UNKNOWN_SYMBOL, DESK_NOT_NUMBER, DESK_NO_ROOM);
#undef AFTER_REFUSED
}

/* The heap's first places hold the streams that are not closed, each once, and none that comes after one below it. */
static int heap_is_right(void) {
    size_t not_closed = 0;
    int held[DESK_STREAMS] = {0};
    for (size_t p = 0; p < DESK_STREAMS; p++) not_closed += d.marks[p] != 0;
    if (d.held != not_closed) return 0;
    for (size_t i = 0; i < d.held; i++) {
        uint8_t p = d.heap[i], above = d.heap[i == 0 ? 0 : (i - 1) / 2];
        if (d.marks[p] == 0 || held[p]++) return 0;
        if (d.times[p] < d.times[above] || (d.times[p] == d.times[above] && p < above)) return 0;
    }
    return 1;
}

/* What a state says of a stream. */
static void closed(size_t p) { was.marks[p] = 0; }

static void waits(size_t p, uint64_t time, uint64_t place) {
    was.marks[p] = 1;
    was.times[p] = time;
    was.places[p] = place;
}

static void stands(size_t p, uint64_t time, uint64_t place, uint64_t length, uint64_t kind, uint64_t instrument) {
    was.marks[p] = d.marks[p] > 1 ? d.marks[p] : 2;
    was.times[p] = time;
    was.places[p] = place;
    was.heads[p] = length + kind * 65536 + instrument * 4294967296u;
}

/* So many streams are not closed; what a state does not say is taken as it is. */
static void state_holds(size_t held) {
    was.held = held;
    for (size_t p = 0; p < DESK_STREAMS; p++) {
        if (was.marks[p] == 0) was.times[p] = d.times[p], was.places[p] = d.places[p];
        if (was.marks[p] <= 1) was.heads[p] = d.heads[p];
    }
    memcpy(was.heap, d.heap, DESK_STREAMS);
    IS(heap_is_right());
}

static void opened(size_t streams, const uint64_t *hints) {
    memset(was.marks, 0, DESK_STREAMS), memset(was.heap, 0, DESK_STREAMS);
    for (size_t p = 0; p < DESK_STREAMS; p++) was.times[p] = was.places[p] = was.heads[p] = 0;
    for (size_t p = 0; p < streams; p++) waits(p, hints[p], 0);
    memcpy(was.heap, d.heap, streams);
    was.streams = was.held = streams;
    IS(heap_is_right());
}

/* A record of 16 bytes in the buffer. */
static void put_record(size_t at, uint16_t kind, uint32_t instrument, uint64_t time) {
    put(buffer + at, 2, DESK_RECORD_HEADER);
    put(buffer + at + 2, 2, kind);
    put(buffer + at + 4, 4, instrument);
    put(buffer + at + 8, 8, time);
}

static void after_open(void) {
    static const uint64_t cuts[] = {0, 16, 16, 35}, hints[] = {9, 3, 5}, none[3];
    begin();
    AFTER(DESK_BAD_STREAMS, open_whole(34, cuts, 4, hints, 3), ALL_AS_BEFORE);
    AFTER(DESK_BAD_MEMORY, open_with(35, cuts, 4, hints, 3, 255, 256, 256, 256, 256), ALL_AS_BEFORE);
    AFTER(DESK_DONE, open_whole(35, cuts, 4, hints, 3), opened(3, hints));
    AFTER(DESK_DONE, open_whole(16, cuts, 3, none, 0), opened(2, none));
    ANSWERED(DESK_DONE, DESK_BAD_STREAMS, DESK_BAD_MEMORY);
}

/* A record came, the end came, a stream is damaged. */
static void comes(uint64_t stream, uint64_t place, uint16_t kind, uint32_t instrument, uint64_t time) {
    was.found = 1;
    was.stream = stream, was.place = place, was.length = DESK_RECORD_HEADER, was.kind = kind, was.instrument = instrument;
    was.time = time;
}

static void ends(void) {
    was.found = was.instrument = 0;
    was.stream = was.place = was.time = 0;
    was.length = was.kind = 0;
}

static void breaks_off(uint64_t stream, uint64_t place, uint64_t reason) {
    was.stream = stream, was.place = place, was.reason = reason;
}

static void after_next(void) {
    static const uint64_t cuts[] = {0, 19, 19, 35, 38}, one[] = {0, 16}, none[1];
    begin();
    memset(buffer, 0, sizeof buffer);
    put_record(0, 9, 7, 5), put_record(19, 2, 8, 6);
    DONE(open_whole(38, cuts, 5, none, 0));
    AFTER(DESK_DAMAGED, next(38, cuts, 5, 0), breaks_off(3, 0, DESK_SHORT), stands(0, 5, 0, 16, 9, 7), closed(1),
          stands(2, 6, 0, 16, 2, 8), closed(3), state_holds(2));
    AFTER(DESK_DONE, next(38, cuts, 5, 0), comes(0, 0, 9, 7, 5), waits(0, 5, 16), state_holds(2));
    AFTER(DESK_DAMAGED, next(38, cuts, 5, 0), breaks_off(0, 16, DESK_SHORT), closed(0), state_holds(1));
    AFTER(DESK_BAD_MEMORY, next(38, cuts, 5, 1), ALL_AS_BEFORE);
    AFTER(DESK_DONE, next(38, cuts, 5, 0), comes(2, 0, 2, 8, 6), waits(2, 6, 16), state_holds(1));
    AFTER(DESK_DONE, next(38, cuts, 5, 0), ends(), closed(2), state_holds(0));
    AFTER(DESK_DONE, next(38, cuts, 5, 0), ends(), state_holds(0));
    d.held = DESK_STREAMS + 1;
    AFTER(DESK_BAD_MEMORY, next(38, cuts, 5, 0), ALL_AS_BEFORE);
    put(buffer, 2, 15);
    DONE(open_whole(16, one, 2, none, 0));
    AFTER(DESK_DAMAGED, next(16, one, 2, 0), breaks_off(0, 0, DESK_BAD_LENGTH), closed(0), state_holds(0));
    put(buffer, 2, 17);
    DONE(open_whole(16, one, 2, none, 0));
    AFTER(DESK_DAMAGED, next(16, one, 2, 0), breaks_off(0, 0, DESK_PAST_END), closed(0), state_holds(0));
    ANSWERED(DESK_DONE, DESK_DAMAGED, DESK_BAD_MEMORY);
}

/* Whether each record comes once, by its time, to a caller that goes on with *held as 13 left it, or with the one from before. */
static int each_comes_once(int keeps_the_old) {
    static const uint64_t cuts[] = {0, 1, 17, 49}, none[1];
    unsigned came = 0, at[10] = {0};
    begin();
    memset(buffer, 0, sizeof buffer);
    put_record(1, 9, 7, 5), put_record(17, 9, 8, 3), put_record(33, 9, 8, 9);
    DONE(open_whole(49, cuts, 4, none, 0));
    for (int calls = 0; calls < 20; calls++) {
        size_t held = d.held;
        if (next(49, cuts, 4, 0) == DESK_DAMAGED) {
            if (keeps_the_old) d.held = held;
        } else if (d.found) {
            came++;
            if (d.time < 10) at[d.time]++;
        }
    }
    return came == 3 && at[3] == 1 && at[5] == 1 && at[9] == 1;
}

/* ---- The same of streams in portions: what a state says of a stream, and the window. */

#define AFTER_FEED(number, call, ...)                                                                 \
    do {                                                                                              \
        memcpy(window_was, window, sizeof window);                                                    \
        memcpy(portion_was, portion, sizeof portion);                                                 \
        AFTER(number, call, __VA_ARGS__);                                                             \
        is(memcmp(window, window_was, sizeof window) == 0, #call ", the window: " #__VA_ARGS__, __LINE__); \
        is(memcmp(portion, portion_was, sizeof portion) == 0, #call ", the portion", __LINE__);       \
    } while (0)
static uint8_t portion_was[sizeof portion];

/* The stream waits; so many bytes of the record that it handed out last still count. */
static void waits_on(size_t p, uint64_t time, uint64_t place, uint64_t counting) { waits(p, time, place), was.heads[p] = counting; }

static void keeps(size_t p, uint64_t start, uint64_t fill, uint64_t ended) { was.spans[p] = start + 65536 * fill + 4294967296u * ended; }

/* As state_holds, but that heads of a stream that waits says something. */
static void feed_holds(size_t held) {
    was.held = held;
    for (size_t p = 0; p < DESK_STREAMS; p++)
        if (was.marks[p] == 0) was.times[p] = d.times[p], was.places[p] = d.places[p], was.heads[p] = d.heads[p], was.spans[p] = d.spans[p];
    memcpy(was.heap, d.heap, DESK_STREAMS);
    IS(heap_is_right());
}

static void feed_opened(size_t streams, const uint64_t *hints) {
    size_t before = was.streams;
    opened(streams, hints);
    was.streams = before;
    for (size_t p = 0; p < DESK_STREAMS; p++) was.spans[p] = 0;
}

static void after_feed_open(void) {
    static const uint64_t hints[] = {9, 3, 5}, none[2];
    begin_feed();
    AFTER_FEED(DESK_BAD_STREAMS, feed_open(0), ALL_AS_BEFORE);
    AFTER_FEED(DESK_BAD_MEMORY, feed_open_with(2, none, 0, 256, 256, 256, 256, 256, 255), ALL_AS_BEFORE);
    AFTER_FEED(DESK_DONE, feed_open_with(3, hints, 3, 256, 256, 256, 256, 256, 256), feed_opened(3, hints));
    AFTER_FEED(DESK_DONE, feed_open(2), feed_opened(2, none));
    ANSWERED(DESK_DONE, DESK_BAD_STREAMS, DESK_BAD_MEMORY);
}

/* So many bytes of the portion are taken, behind `kept` bytes that move to the front of the stream's part. */
static void adds(size_t p, size_t start, size_t kept, size_t taken) {
    for (size_t i = 0; i < kept; i++) window_was[DESK_WINDOW * p + i] = window_was[DESK_WINDOW * p + start + i];
    memcpy(window_was + DESK_WINDOW * p + kept, portion, taken);
    for (size_t i = kept + taken; i < DESK_WINDOW; i++) window_was[DESK_WINDOW * p + i] = window[DESK_WINDOW * p + i]; /* says nothing */
    was.taken = taken;
    keeps(p, 0, kept + taken, 0);
}

static void after_feed_bytes(void) {
    begin_feed();
    put_head(0, 16, 9, 7, 5), put_head(16, 20, 9, 7, 6);
    DONE(feed_open(3));
    AFTER_FEED(DESK_DONE, feed_bytes(1, 0), adds(1, 0, 0, 0));
    AFTER_FEED(DESK_DONE, feed_bytes(1, 34), adds(1, 0, 0, 34));
    AFTER_FEED(DESK_DONE, feed_bytes(2, 2), adds(2, 0, 0, 2));
    AFTER_FEED(DESK_DONE, feed_bytes(1, 2), adds(1, 0, 34, 2));
    AFTER_FEED(DESK_BAD_STREAMS, feed_bytes(3, 2), ALL_AS_BEFORE);
    AFTER_FEED(DESK_BAD_MEMORY, feed_bytes_with(3, 2, 256, 256, 256, 256, DESK_WINDOW_BYTES - 1), ALL_AS_BEFORE);
    DONE(feed_end(0)), DONE(feed_end(2));
    AFTER_FEED(DESK_BAD_STREAMS, feed_bytes(2, 2), ALL_AS_BEFORE);
    IS(breaks(2, 0, DESK_SHORT) && hands_out(1, 0, 5, 1024) && hands_out(1, 16, 6, 1040));
    AFTER_FEED(DESK_DONE, feed_bytes(1, 0), adds(1, 16, 20, 0)); /* the record's bytes stand at the front now */
    IS(memcmp(window + 1024, portion + 16, 18) == 0);
    AFTER_FEED(DESK_DONE, feed_bytes(1, 2000), adds(1, 0, 20, 1004));
    AFTER_FEED(DESK_DONE, feed_bytes(1, 2000), adds(1, 0, 1024, 0));
    AFTER_FEED(DESK_BAD_STREAMS, feed_bytes(0, 1), ALL_AS_BEFORE);
    ANSWERED(DESK_DONE, DESK_BAD_STREAMS, DESK_BAD_MEMORY);
}

static void after_feed_end(void) {
    begin_feed();
    DONE(feed_open(2));
    DONE(feed_bytes(1, 3));
    AFTER_FEED(DESK_DONE, feed_end(0), keeps(0, 0, 0, 1));
    AFTER_FEED(DESK_DONE, feed_end(1), keeps(1, 0, 3, 1));
    AFTER_FEED(DESK_BAD_STREAMS, feed_end(1), ALL_AS_BEFORE);
    AFTER_FEED(DESK_BAD_MEMORY, feed_end_with(1, 255, 256), ALL_AS_BEFORE);
    ANSWERED(DESK_DONE, DESK_BAD_STREAMS, DESK_BAD_MEMORY);
}

static void comes_at(uint64_t stream, uint64_t place, uint64_t time, size_t at) { comes(stream, place, 9, 7, time), was.at = at; }

static void ends_fed(void) { ends(), was.at = 0; }

static void asks(uint64_t stream) { ends_fed(), was.found = DESK_NEED_MORE, was.stream = stream; }

static void after_feed_next(void) {
    begin_feed();
    put_head(0, 16, 9, 7, 5), put_head(16, 16, 9, 7, 6);
    DONE(feed_open(4));
    DONE(feed_end(0)), DONE(feed_bytes(1, 34)), DONE(feed_bytes(3, 16)), DONE(feed_end(3));
    AFTER_FEED(DESK_DONE, feed_next(), asks(2), closed(0), stands(1, 5, 0, 16, 9, 7), feed_holds(3));
    AFTER_FEED(DESK_DONE, feed_next(), asks(2), feed_holds(3)); /* asked again: the same, and nothing changes */
    DONE(feed_bytes(2, 3)), DONE(feed_end(2));
    AFTER_FEED(DESK_DAMAGED, feed_next(), breaks_off(2, 0, DESK_SHORT), closed(2), feed_holds(2));
    AFTER_FEED(DESK_DONE, feed_next(), comes_at(1, 0, 5, 1024), waits_on(1, 5, 16, 16), stands(3, 5, 0, 16, 9, 7), feed_holds(2));
    AFTER_FEED(DESK_DONE, feed_next(), comes_at(3, 0, 5, 3072), stands(1, 6, 16, 16, 9, 7), keeps(1, 16, 18, 0), waits_on(3, 5, 16, 16),
               feed_holds(2));
    AFTER_FEED(DESK_BAD_MEMORY, feed_next_with(DESK_WINDOW_BYTES, 256, 256, 256, 256, 256, 255), ALL_AS_BEFORE);
    AFTER_FEED(DESK_DONE, feed_next(), comes_at(1, 16, 6, 1040), waits_on(1, 6, 32, 16), closed(3), feed_holds(1));
    AFTER_FEED(DESK_DONE, feed_next(), asks(1), waits_on(1, 6, 32, 0), keeps(1, 32, 2, 0), feed_holds(1));
    AFTER_FEED(DESK_DONE, feed_next(), asks(1), feed_holds(1));
    DONE(feed_end(1));
    AFTER_FEED(DESK_DAMAGED, feed_next(), breaks_off(1, 32, DESK_SHORT), closed(1), feed_holds(0));
    AFTER_FEED(DESK_DONE, feed_next(), ends_fed(), feed_holds(0));
    put_head(0, 1025, 9, 7, 5);
    DONE(feed_open(1)), DONE(feed_bytes(0, 16)); /* not ended, and bad all the same */
    AFTER_FEED(DESK_DAMAGED, feed_next(), breaks_off(0, 0, DESK_BAD_LENGTH), closed(0), feed_holds(0));
    ANSWERED(DESK_DONE, DESK_DAMAGED, DESK_BAD_MEMORY);
}

static void test_afterwards(void) {
    static const uint8_t patterns[] = {0x5A, 0xA5};
    for (size_t i = 0; i < sizeof patterns; i++) {
        pattern = patterns[i];
        after_check();
        after_insert();
        after_get_for_ts();
        after_explain();
        after_on_record();
        after_check_points();
        after_get_point();
        after_on_record_point();
        after_check_names();
        after_number_of();
        after_place_of_name();
        after_day_of();
        after_date_of();
        after_day_start();
        after_number_text();
        after_utf8();
        after_metadata_open();
        after_metadata_merge();
        after_metadata_finish();
        after_build();
        after_build_points();
        after_open();
        after_next();
        after_feed_open();
        after_feed_bytes();
        after_feed_end();
        after_feed_next();
    }
    IS(each_comes_once(0));
    IS(!each_comes_once(1)); /* the reading that 13 leaves *held: a record comes twice */
}

int main(void) {
    test_check();
    test_limits();
    test_insert();
    test_compare();
    test_explain();
    test_get_for_ts();
    test_names();
    test_mapping_calls();
    test_points();
    test_numbers_and_days();
    test_merge();
    test_feed();
    test_run();
    test_feed_run();
    test_metadata_open();
    test_metadata_memory();
    test_hint_of();
    test_metadata_merge();
    test_metadata_refusals();
    test_metadata_limits();
    test_builds();
    test_afterwards();
    printf("%u tried, %u failed\n", tried, failed);
    return failed != 0;
}
