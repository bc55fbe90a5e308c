/* Answers the oracle's cases through the C door: one case a line on standard input, one line of answers a case on standard
 * output. oracle/README.md has the formats. A case that it can't read, a read or a write that fails: one line on standard error,
 * and status 2. */
#include "desk.h"

#include <stdio.h>
#include <stdlib.h>
#include <string.h>

static size_t cases; /* begun */

static void fail(const char *why) {
    fprintf(stderr, "answer: %s (case %lu)\n", why, (unsigned long)cases);
    exit(2);
}

/* ---- What is printed, in one buffer. */

static char printed[1 << 16];
static size_t printed_len;

static void flush(void) {
    if (fwrite(printed, 1, printed_len, stdout) != printed_len || fflush(stdout) != 0) fail("standard output can't be written");
    printed_len = 0;
}

static void put(const char *text, size_t len) {
    if (sizeof printed - printed_len < len) flush();
    memcpy(printed + printed_len, text, len);
    printed_len += len;
}

static void put_text(const char *text) { put(text, strlen(text)); }

static int line_begun; /* whether a word stands before the next one */

static void put_blank(void) {
    if (line_begun) put(" ", 1);
    line_begun = 1;
}

static void put_word(const char *word) {
    put_blank();
    put_text(word);
}

static void put_number(uint64_t n) {
    char digits[20];
    size_t at = sizeof digits;
    do {
        digits[--at] = (char)('0' + n % 10);
        n /= 10;
    } while (n != 0);
    put_blank();
    put(digits + at, sizeof digits - at);
}

static void put_bytes(const uint8_t *bytes, size_t len) {
    put_blank();
    if (len == 0) put("-", 1);
    for (size_t i = 0; i < len; i++) {
        const char *hex = "0123456789abcdef";
        char two[2] = {hex[bytes[i] / 16], hex[bytes[i] % 16]};
        put(two, 2);
    }
}

static int answers; /* in this line */

static void next_answer(void) {
    if (answers++ != 0) put_word(";");
}

/* ---- What is read: the words of a case, from `at` to `line_end`. */

static const char *at, *line_end;

static int more_words(void) {
    while (at < line_end && *at == ' ') at++;
    return at < line_end;
}

static void next_word(void) {
    if (!more_words()) fail("the case breaks off");
}

static uint64_t number(void) {
    uint64_t n = 0;
    next_word();
    for (; at < line_end && *at != ' '; at++) {
        if (*at < '0' || '9' < *at) fail("no number where one is due");
        n = n * 10 + (uint64_t)(*at - '0');
    }
    return n;
}

static uint8_t digit(char c) {
    if (!('0' <= c && c <= '9') && !('a' <= c && c <= 'f')) fail("no bytes where some are due");
    return (uint8_t)(c <= '9' ? c - '0' : c - 'a' + 10);
}

/* Lent memory of one case; every piece begins at a multiple of eight. */
static uint8_t lent[8 << 20] __attribute__((aligned(8)));
static size_t lent_len;

static void *lend(size_t bytes) {
    uint8_t *piece = lent + lent_len;
    if (sizeof lent - lent_len < 8 || sizeof lent - lent_len - 8 < bytes) fail("the case is too long");
    lent_len += (bytes + 8) / 8 * 8;
    return piece;
}

static uint8_t *bytes(size_t *len) {
    next_word();
    const char *end = at;
    while (end < line_end && *end != ' ') end++;
    *len = *at == '-' ? 0 : (size_t)(end - at) / 2;
    if (*at != '-' && (end - at) % 2 != 0) fail("half a byte");
    uint8_t *piece = lend(*len);
    for (size_t i = 0; i < *len; i++) piece[i] = (uint8_t)(digit(at[2 * i]) * 16 + digit(at[2 * i + 1]));
    at = end;
    return piece;
}

static uint64_t *numbers(size_t *len) {
    *len = number();
    uint64_t *piece = lend(*len * 8);
    for (size_t i = 0; i < *len; i++) piece[i] = number();
    return piece;
}

/* ---- Little-endian fields. */

static uint64_t field(const uint8_t *from, int width) {
    uint64_t n = 0;
    for (int i = width; 0 < i; i--) n = n * 256 + from[i - 1];
    return n;
}

static void put_field(uint8_t *to, int width, uint64_t n) {
    for (int i = 0; i < width; i++, n /= 256) to[i] = (uint8_t)(n % 256);
}

/* ---- The map over time. */

static uint8_t whole_table[DESK_ROOM * DESK_INTERVAL_BYTES];

static void put_rows(const uint8_t *table, size_t used) {
    put_number(used);
    for (size_t i = 0; i < used; i++) {
        const uint8_t *row = table + i * DESK_INTERVAL_BYTES;
        put_number(field(row, 4));
        put_number(field(row + 8, 8));
        put_number(field(row + 16, 8));
        put_number(field(row + 4, 4));
    }
}

static void look_up(size_t used, uint32_t instrument, uint64_t moment, uint64_t hint) {
    uint32_t found = 7, symbol = 7;
    desk_get_for_ts(whole_table, sizeof whole_table, used, instrument, moment, &hint, &found, &symbol);
    next_answer();
    if (found == 1) put_number(symbol);
    else put_word("-");
    put_number(hint);
}

static void map(void) {
    size_t used = 0;
    while (more_words()) {
        char step = *at++;
        uint32_t instrument = (uint32_t)number();
        if (step == 'i') {
            uint64_t start = number(), end = number();
            uint32_t symbol = (uint32_t)number();
            next_answer();
            put_number(desk_insert(whole_table, sizeof whole_table, &used, DESK_NAMES, instrument, start, end, symbol));
            put_rows(whole_table, used);
        } else if (step == 'g') {
            uint64_t moment = number();
            look_up(used, instrument, moment, number());
        } else {
            uint64_t moments = number(), hints = number();
            for (uint64_t moment = 0; moment < moments; moment++) {
                for (uint64_t hint = 0; hint < hints; hint++) look_up(used, instrument, moment, hint);
                look_up(used, instrument, moment, UINT64_MAX);
            }
        }
    }
}

static void check(uint32_t (*call)(const uint8_t *, size_t, size_t, size_t)) {
    size_t len;
    const uint8_t *table = bytes(&len);
    size_t used = number();
    put_number(call(table, len, used, number()));
}

static void insert(void) {
    size_t len;
    uint8_t *table = bytes(&len);
    size_t used = number(), names = number();
    uint32_t instrument = (uint32_t)number();
    uint64_t start = number(), end = number();
    put_number(desk_insert(table, len, &used, names, instrument, start, end, (uint32_t)number()));
    put_number(used);
    put_bytes(table, len);
}

static void get_for_ts(void) {
    size_t len;
    const uint8_t *table = bytes(&len);
    size_t used = number();
    uint32_t instrument = (uint32_t)number(), found = 0, symbol = 0;
    uint64_t moment = number(), hint = number();
    put_number(desk_get_for_ts(table, len, used, instrument, moment, &hint, &found, &symbol));
    put_number(found);
    put_number(symbol);
    put_number(hint);
}

/* Two tables side by side, or one that is lent as both. */
static void compare(int itself) {
    size_t left_len, right_len, list_len;
    const uint8_t *left = bytes(&left_len), *right = left;
    size_t left_used = number(), right_used = left_used;
    right_len = left_len;
    if (!itself) {
        right = bytes(&right_len);
        right_used = number();
    }
    size_t names = number();
    uint8_t *stretches = bytes(&list_len);
    size_t count = number();
    put_number(desk_compare(left, left_len, left_used, right, right_len, right_used, names, stretches, list_len, &count));
    put_number(count);
    put_bytes(stretches, list_len);
}

/* Why there is a symbol, or none; the numbers lent for the answer hold one number before. */
static void explain(void) {
    size_t len;
    const uint8_t *table = bytes(&len);
    size_t used = number(), names = number();
    uint32_t instrument = (uint32_t)number();
    uint64_t moment = number(), held = number();
    uint32_t reason = (uint32_t)held, symbol = (uint32_t)held, next_symbol = (uint32_t)held;
    uint64_t index = held, start = held, end = held, next_start = held, next_end = held;
    put_number(desk_explain(table, len, used, names, instrument, moment, &reason, &index, &start, &end, &symbol, &next_start,
                            &next_end, &next_symbol));
    put_number(reason);
    put_number(index);
    put_number(start);
    put_number(end);
    put_number(symbol);
    put_number(next_start);
    put_number(next_end);
    put_number(next_symbol);
}

static void get_point(void) {
    size_t len;
    const uint8_t *table = bytes(&len);
    size_t used = number();
    uint32_t found = 0, symbol = 0;
    put_number(desk_get_point(table, len, used, (uint32_t)number(), &found, &symbol));
    put_number(found);
    put_number(symbol);
}

/* ---- Names. */

struct names {
    size_t names, name_bytes, bytes_len, ends_len;
    uint8_t *bytes;
    uint32_t *ends;
};

static struct names name_list(void) {
    struct names list;
    list.names = number();
    list.name_bytes = number();
    list.bytes = bytes(&list.bytes_len);
    list.ends_len = number();
    list.ends = lend(list.ends_len * 4);
    for (size_t i = 0; i < list.ends_len; i++) list.ends[i] = (uint32_t)number();
    return list;
}

static void put_names(const struct names *list) {
    put_number(list->names);
    put_number(list->name_bytes);
    put_bytes(list->bytes, list->bytes_len);
    put_number(list->ends_len);
    for (size_t i = 0; i < list->ends_len; i++) put_number(list->ends[i]);
}

static void naming(void) {
    struct names list = name_list();
    size_t len;
    const uint8_t *name = bytes(&len);
    uint32_t symbol = 0;
    put_number(desk_number_of(list.bytes, list.bytes_len, list.ends, list.ends_len, &list.names, &list.name_bytes, name, len, &symbol));
    put_number(symbol);
    put_names(&list);
}

static void place_of(void) {
    struct names list = name_list();
    size_t first = 0, end = 0;
    put_number(desk_place_of_name(list.bytes, list.bytes_len, list.ends, list.ends_len, list.names, list.name_bytes,
                                  (uint32_t)number(), &first, &end));
    put_number(first);
    put_number(end);
}

static void put_name(const struct names *list, uint32_t symbol) {
    size_t first = 0, end = 0;
    desk_place_of_name(list->bytes, list->bytes_len, list->ends, list->ends_len, list->names, list->name_bytes, symbol, &first, &end);
    put_bytes(list->bytes + first, end - first);
}

/* ---- Mapping records. */

typedef uint32_t on_record_call(uint8_t *, size_t, size_t *, uint8_t *, size_t, uint32_t *, size_t, size_t *, size_t *,
                                const uint8_t *, size_t, uint64_t *);

static void put_recorded(on_record_call *call, uint8_t *table, size_t len, size_t *used, struct names *list,
                         const uint8_t *record, size_t record_len) {
    uint64_t reason = 0;
    uint32_t answer = call(table, len, used, list->bytes, list->bytes_len, list->ends, list->ends_len, &list->names,
                           &list->name_bytes, record, record_len, &reason);
    put_number(answer);
    if (answer == DESK_DAMAGED) {
        put_number(0);
        put_number(0);
        put_number(reason);
    }
}

static void on_record(on_record_call *call) {
    size_t len, record_len;
    uint8_t *table = bytes(&len);
    size_t used = number();
    struct names list = name_list();
    const uint8_t *record = bytes(&record_len);
    put_recorded(call, table, len, &used, &list, record, record_len);
    put_number(used);
    put_bytes(table, len);
    put_names(&list);
}

static struct names no_names(size_t bytes_len, size_t ends_len) {
    struct names list = {0, 0, bytes_len, ends_len, lend(bytes_len), lend(ends_len * 4)};
    return list;
}

/* A symbol mapping's bytes, or those of a record of another kind. */
static uint8_t *mapping_record(size_t *len) {
    static const size_t name_at = 32;
    char kind = *at++;
    uint32_t instrument = (uint32_t)number();
    uint64_t start = number(), end = number();
    size_t name_len;
    const uint8_t *name = bytes(&name_len);
    uint8_t *record = lend(name_at + name_len);
    *len = name_at + name_len;
    put_field(record, 2, *len);
    put_field(record + 2, 2, kind == 'o' ? 3 : DESK_SYMBOL_MAPPING);
    put_field(record + 4, 4, instrument);
    put_field(record + 8, 8, 0);
    put_field(record + 16, 8, start);
    put_field(record + 24, 8, end);
    memcpy(record + name_at, name, name_len);
    return record;
}

static void mappings(void) {
    enum { most = 64 };
    uint8_t *records[most];
    size_t lens[most], count = 0, name_bytes = 0;
    while (more_words()) {
        if (count == most) fail("the case is too long");
        records[count] = mapping_record(&lens[count]);
        name_bytes += lens[count++] - 32;
    }
    struct names time_names = no_names(name_bytes, count), point_names = no_names(name_bytes, count);
    size_t time_len = 2 * count * DESK_INTERVAL_BYTES, point_len = count * DESK_POINT_BYTES, time_used = 0, point_used = 0;
    uint8_t *time_table = lend(time_len), *point_table = lend(point_len);
    for (size_t r = 0; r < count; r++) {
        next_answer();
        put_recorded(desk_on_record, time_table, time_len, &time_used, &time_names, records[r], lens[r]);
        put_number(time_used);
        for (size_t i = 0; i < time_used; i++) {
            const uint8_t *row = time_table + i * DESK_INTERVAL_BYTES;
            put_number(field(row, 4));
            put_number(field(row + 8, 8));
            put_number(field(row + 16, 8));
            put_name(&time_names, (uint32_t)field(row + 4, 4));
        }
        next_answer();
        put_recorded(desk_on_record_point, point_table, point_len, &point_used, &point_names, records[r], lens[r]);
        put_number(point_used);
        for (size_t i = 0; i < point_used; i++) {
            put_number(field(point_table + i * DESK_POINT_BYTES, 4));
            put_name(&point_names, (uint32_t)field(point_table + i * DESK_POINT_BYTES + 4, 4));
        }
    }
}

/* ---- Numbers, days. */

static void number_text(void) {
    size_t len;
    const uint8_t *text = bytes(&len);
    uint32_t value = 0, answer = desk_number_text(text, len, &value);
    put_number(answer);
    if (answer == DESK_DONE) put_number(value);
}

static void utf8(void) {
    size_t len;
    const uint8_t *text = bytes(&len);
    put_number(desk_utf8(text, len));
}

static void day(void) {
    uint32_t days = 0, answer = desk_day_of((uint32_t)number(), &days);
    uint64_t moment = 0;
    put_number(answer);
    if (answer != DESK_DONE) return;
    put_number(days);
    desk_day_start(days, &moment);
    put_number(moment);
}

static void date(void) {
    uint32_t written = 0, answer = desk_date_of((uint32_t)number(), &written);
    put_number(answer);
    if (answer == DESK_DONE) put_number(written);
}

/* ---- Merging records. */

static uint8_t marks[DESK_STREAMS], heap[DESK_STREAMS];
static uint64_t times[DESK_STREAMS], places[DESK_STREAMS], heads[DESK_STREAMS];

/* Calls to the second end; `whole` prints all that comes with a record or damage, else a record's number within its stream, its
 * place in records of 16 bytes. */
static void merge(const uint8_t *buffer, size_t len, const uint64_t *cuts, size_t cuts_len, const uint64_t *hints,
                  size_t hints_len, int whole) {
    size_t streams = 0, held = 0;
    uint32_t answer = desk_open(buffer, len, cuts, cuts_len, hints, hints_len, marks, DESK_STREAMS, times, DESK_STREAMS, places,
                                DESK_STREAMS, heads, DESK_STREAMS, heap, DESK_STREAMS, &streams, &held);
    if (answer != DESK_DONE) {
        put_number(answer);
        return;
    }
    for (int ends = 0; ends < 2;) {
        uint32_t found = 0, instrument = 0;
        uint16_t length = 0, kind = 0;
        uint64_t stream = 0, place = 0, time = 0, reason = 0;
        answer = desk_next(buffer, len, cuts, cuts_len, marks, DESK_STREAMS, times, DESK_STREAMS, places, DESK_STREAMS, heads,
                           DESK_STREAMS, heap, DESK_STREAMS, &held, &found, &stream, &place, &length, &kind, &instrument, &time,
                           &reason);
        next_answer();
        if (answer == DESK_DAMAGED) {
            put_word("d");
            if (whole) put_number(stream), put_number(place), put_number(reason);
        } else if (found == 1) {
            put_word("r");
            put_number(stream);
            put_number(whole ? place : place / DESK_RECORD_HEADER);
            if (whole) put_number(length), put_number(kind), put_number(instrument);
            put_number(time);
        } else {
            put_word("e");
            ends++;
        }
    }
}

static void streams(void) {
    size_t len, cuts_len, hints_len;
    const uint8_t *buffer = bytes(&len);
    const uint64_t *cuts = numbers(&cuts_len), *hints = numbers(&hints_len);
    merge(buffer, len, cuts, cuts_len, hints, hints_len, 1);
}

/* What a run is handed: a list of so many words of 9, and numbers that hold 9. */
struct running {
    size_t words, calls, written;
    uint32_t last;
    uint64_t stream, place, reason, *list;
};

static struct running no_run(size_t words) {
    struct running r = {words, 9, 9, 9, 9, 9, 9, lend(words * 8)};
    for (size_t k = 0; k < words; k++) r.list[k] = 9;
    return r;
}

/* What it handed back: the number, the other numbers, the words of its records, and how many words behind them are not 9 any more. */
static void put_run(uint32_t answer, const struct running *r) {
    size_t taken = 0, behind = 0;
    put_number(answer), put_number(r->calls), put_number(r->written), put_number(r->last);
    put_number(r->stream), put_number(r->place), put_number(r->reason);
    if (answer == DESK_BAD_MEMORY) {
        for (size_t k = 0; k < r->words; k++)
            if (r->list[k] != 9) fail("a refused run wrote to its list");
        return;
    }
    put_number(DESK_RUN_WORDS * r->written);
    for (; taken < DESK_RUN_WORDS * r->written && taken < r->words; taken++) put_number(r->list[taken]);
    for (size_t k = taken; k < r->words; k++) behind += r->list[k] != 9;
    put_number(behind);
}

/* Runs one after the other on one opening, each with its allowance and a list of so many words. */
static void runs(void) {
    size_t len, cuts_len, hints_len, asked_len, streams = 0, held = 0;
    const uint8_t *buffer = bytes(&len);
    const uint64_t *cuts = numbers(&cuts_len), *hints = numbers(&hints_len), *asked = numbers(&asked_len);
    uint32_t answer = desk_open(buffer, len, cuts, cuts_len, hints, hints_len, marks, DESK_STREAMS, times, DESK_STREAMS, places,
                                DESK_STREAMS, heads, DESK_STREAMS, heap, DESK_STREAMS, &streams, &held);
    if (answer != DESK_DONE) {
        put_number(answer);
        return;
    }
    for (size_t i = 0; i + 1 < asked_len; i += 2) {
        struct running r = no_run(asked[i + 1]);
        answer = desk_run(buffer, len, cuts, cuts_len, marks, DESK_STREAMS, times, DESK_STREAMS, places, DESK_STREAMS, heads,
                          DESK_STREAMS, heap, DESK_STREAMS, &held, asked[i], r.list, r.words, &r.calls, &r.written, &r.last, &r.stream,
                          &r.place, &r.reason);
        next_answer();
        put_run(answer, &r);
    }
}

/* Each stream's hint in the place of its metadata's start, by the door; the number of the first that is refused. */
static uint32_t starts_to_hints(uint64_t *starts, size_t len) {
    for (size_t p = 0; p < len; p++) {
        uint64_t header[DESK_HEADER_WORDS] = {0}, hint = ~starts[p]; /* never the start */
        header[DESK_START] = starts[p];
        header[DESK_END] = starts[p] + 1;
        uint32_t answer = desk_hint_of(header, DESK_HEADER_WORDS, &hint);
        if (answer != DESK_DONE) return answer;
        starts[p] = hint;
    }
    return DESK_DONE;
}

/* Streams behind their hints, or, for `Decoder::new`, behind the starts of their metadata. */
static void records(int from_metadata) {
    size_t hints_len;
    uint64_t *hints = numbers(&hints_len);
    size_t count = number(), len = 0;
    uint64_t *cuts = lend((count + 1) * 8);
    uint8_t *buffer = lend(0);
    cuts[0] = 0;
    for (size_t p = 0; p < count; p++) {
        uint64_t damaged = number();
        for (uint64_t left = number(); left != 0; left--, len += DESK_RECORD_HEADER) {
            uint8_t *record = buffer + len;
            if (lent + sizeof lent - record < 64) fail("the case is too long");
            put_field(record, 2, DESK_RECORD_HEADER);
            put_field(record + 2, 6, 0);
            put_field(record + 8, 8, number());
        }
        if (damaged) {
            memset(buffer + len, 0, 3);
            len += 3;
        }
        cuts[p + 1] = len;
    }
    uint32_t answer = from_metadata ? starts_to_hints(hints, hints_len) : DESK_DONE;
    if (answer != DESK_DONE) put_number(answer);
    else merge(buffer, len, cuts, count + 1, hints, hints_len, 0);
}

/* ---- Streams in portions. Each number of the script is a stream x 4096 + a size. Before each next call the script's next number says of
 * which stream so many of its bytes that are to come are handed in, unasked, or with 4095 that it has ended, where they have all come. A
 * stream of which more is needed gets as many bytes as the size of the script's next number says, at least one, or the end word. */

static desk_feed feed;

struct arriving {
    const uint8_t *buffer;
    const uint64_t *cuts, *script;
    size_t count, script_len, used;
    uint64_t come[DESK_STREAMS];
};

static void put_portion(struct arriving *s, uint64_t stream, uint64_t size) {
    static const uint8_t none[1];
    size_t taken = 0;
    int there = stream < s->count;
    uint64_t left = there ? s->cuts[stream + 1] - s->cuts[stream] - s->come[stream] : 0;
    const uint8_t *portion = there ? s->buffer + s->cuts[stream] + s->come[stream] : none;
    uint32_t answer;
    next_answer();
    if (size == 4095 && left == 0) {
        put_word("x");
        put_number(desk_feed_finish(&feed, stream));
        return;
    }
    put_word("p");
    answer = desk_feed_add(&feed, stream, portion, size < left ? size : left, &taken);
    put_number(answer);
    if (answer != DESK_DONE) return;
    put_number(taken);
    if (there) s->come[stream] += taken;
}

/* Opens the streams of a case; whether they were opened. */
static int begun(struct arriving *s) {
    size_t len, cuts_len, hints_len;
    const uint64_t *hints;
    uint32_t answer;
    s->buffer = bytes(&len);
    s->cuts = numbers(&cuts_len), hints = numbers(&hints_len), s->script = numbers(&s->script_len);
    if (cuts_len == 0 || s->cuts[cuts_len - 1] != len || s->script_len == 0) fail("the case has no streams or no script");
    s->count = cuts_len - 1;
    answer = desk_feed_begin(&feed, s->count, hints, hints_len);
    if (answer == DESK_DONE) return 1;
    next_answer();
    put_number(answer);
    return 0;
}

static uint64_t scripted(struct arriving *s) { return s->script[s->used++ % s->script_len]; }

/* More of a stream is needed. */
static void put_needed(struct arriving *s, uint64_t stream) {
    uint64_t size = scripted(s) % 4096, left = s->cuts[stream + 1] - s->cuts[stream] - s->come[stream];
    put_portion(s, stream, left == 0 ? 4095 : size == 0 ? 1 : size);
}

/* Calls to the second end. A record's bytes are held to the stream's own. */
static void fed(void) {
    struct arriving s = {NULL, NULL, NULL, 0, 0, 0, {0}};
    if (!begun(&s)) return;
    for (int ends = 0; ends < 2;) {
        uint64_t unasked = scripted(&s);
        desk_record r = {0, 0, 0, 0, 0, 0, 0, NULL};
        desk_damage broken = {0, 0, 0};
        uint32_t answer;
        put_portion(&s, unasked / 4096, unasked % 4096);
        answer = desk_feed_read(&feed, &r, &broken);
        next_answer();
        if (answer == DESK_DAMAGED) {
            put_word("d");
            put_number(broken.stream), put_number(broken.place), put_number(broken.reason), put_number(feed.held);
        } else if (answer != DESK_DONE) {
            put_number(answer);
            return;
        } else if (r.found == DESK_NEED_MORE) {
            put_word("n");
            put_number(r.stream), put_number(feed.held);
            put_needed(&s, r.stream);
        } else if (r.found == 0) {
            put_word("e");
            ends++;
        } else {
            put_word("r");
            put_number(r.stream), put_number(r.place), put_number((uint64_t)(r.bytes - feed.window)), put_number(r.length);
            put_number(r.kind), put_number(r.instrument), put_number(r.time), put_number(feed.held);
            if (memcmp(r.bytes, s.buffer + s.cuts[r.stream] + r.place, r.length) != 0) put_word("other-bytes");
        }
    }
}

/* The same by runs, each with the next allowance and a list of so many words of those asked for, to the second end. Beside each run stand
 * as many single calls from the same state on: all that is lent must be equal afterwards. A run reads the window alone. */
static void fed_by_runs(void) {
    enum { STATE = sizeof feed - sizeof feed.window };
    static uint8_t before[STATE], after[STATE];
    struct arriving s = {NULL, NULL, NULL, 0, 0, 0, {0}};
    int opened = begun(&s);
    size_t asked_len, made = 0;
    const uint64_t *asked = numbers(&asked_len);
    if (!opened) return;
    for (int ends = 0; ends < 2; made += 2) {
        uint64_t unasked = scripted(&s);
        size_t lent_before = lent_len;
        struct running r = no_run(asked[(made + 1) % asked_len]);
        uint32_t answer;
        put_portion(&s, unasked / 4096, unasked % 4096);
        memcpy(before, &feed, STATE);
        answer = desk_feed_run(feed.window, DESK_WINDOW_BYTES, feed.marks, DESK_STREAMS, feed.times, DESK_STREAMS, feed.places,
                               DESK_STREAMS, feed.heads, DESK_STREAMS, feed.heap, DESK_STREAMS, feed.spans, DESK_STREAMS, &feed.held,
                               asked[made % asked_len], r.list, r.words, &r.calls, &r.written, &r.last, &r.stream, &r.place, &r.reason);
        next_answer();
        put_run(answer, &r);
        put_number(feed.held);
        memcpy(after, &feed, STATE), memcpy(&feed, before, STATE);
        for (size_t i = 0; answer != DESK_BAD_MEMORY && i < r.calls; i++) desk_feed_read(&feed, NULL, NULL);
        if (memcmp(after, &feed, STATE) != 0) put_word("other-than-single-calls");
        lent_len = lent_before;
        if (answer == DESK_DONE && r.last == DESK_NEED_MORE) put_needed(&s, r.stream);
        ends += answer == DESK_DONE && r.last == 0;
    }
}

/* ---- Metadata. */

enum { SYMBOLS, PARTIAL, NOT_FOUND, MAPPINGS, INTERVALS, LISTS, SETS = MAPPINGS };

struct metadata {
    uint64_t header[DESK_HEADER_WORDS];
    uint32_t *list[LISTS];
    size_t len[LISTS];
};

static uint32_t *list(size_t *len) {
    *len = number();
    uint32_t *piece = lend(*len * 4);
    for (size_t i = 0; i < *len; i++) piece[i] = (uint32_t)number();
    return piece;
}

static struct metadata lent_metadata(void) {
    struct metadata m;
    for (size_t i = 0; i < DESK_HEADER_WORDS; i++) m.header[i] = number();
    for (size_t k = 0; k < LISTS; k++) m.list[k] = list(&m.len[k]);
    return m;
}

static void put_list(const uint32_t *words, size_t len) {
    put_number(len);
    for (size_t i = 0; i < len; i++) put_number(words[i]);
}

static void put_lent(const struct metadata *m) {
    for (size_t i = 0; i < DESK_HEADER_WORDS; i++) put_number(m->header[i]);
    for (size_t k = 0; k < LISTS; k++) put_list(m->list[k], m->len[k]);
}

static uint32_t opened(struct metadata *m) {
    return desk_metadata_open(m->header, DESK_HEADER_WORDS, m->list[SYMBOLS], m->len[SYMBOLS], m->list[PARTIAL], m->len[PARTIAL],
                              m->list[NOT_FOUND], m->len[NOT_FOUND], m->list[MAPPINGS], m->len[MAPPINGS], m->list[INTERVALS],
                              m->len[INTERVALS]);
}

/* Merges, and prints the number, and behind 6 the field. */
static uint32_t put_merged(size_t names, struct metadata *m, const struct metadata *added) {
    uint32_t field = 0;
    uint32_t answer = desk_metadata_merge(
        names, m->header, DESK_HEADER_WORDS, m->list[SYMBOLS], m->len[SYMBOLS], m->list[PARTIAL], m->len[PARTIAL],
        m->list[NOT_FOUND], m->len[NOT_FOUND], m->list[MAPPINGS], m->len[MAPPINGS], m->list[INTERVALS], m->len[INTERVALS],
        added->header, DESK_HEADER_WORDS, added->list[SYMBOLS], added->len[SYMBOLS], added->list[PARTIAL], added->len[PARTIAL],
        added->list[NOT_FOUND], added->len[NOT_FOUND], added->list[MAPPINGS], added->len[MAPPINGS], added->list[INTERVALS],
        added->len[INTERVALS], &field);
    put_number(answer);
    if (answer == DESK_DIFFER) put_number(field);
    return answer;
}

static void open_metadata(void) {
    struct metadata m = lent_metadata();
    put_number(opened(&m));
    put_lent(&m);
}

static void merge_metadata(void) {
    size_t names = number();
    struct metadata m = lent_metadata(), added = lent_metadata();
    put_merged(names, &m, &added);
    put_lent(&m);
}

/* A metadata as the Rust's is written: its mappings one after the other, each before its intervals. */
static struct metadata whole_metadata(void) {
    struct metadata m;
    for (size_t i = 0; i < DESK_SYMBOLS; i++) m.header[i] = number();
    for (size_t k = 0; k < SETS; k++) {
        m.list[k] = list(&m.len[k]);
        m.header[DESK_SYMBOLS + k] = m.len[k];
    }
    size_t mappings = number(), intervals = 0;
    m.header[DESK_MAPPINGS_USED] = mappings;
    m.len[MAPPINGS] = mappings * DESK_MAPPING_WORDS;
    m.list[MAPPINGS] = lend(m.len[MAPPINGS] * 4);
    m.list[INTERVALS] = lend(0);
    for (size_t i = 0; i < mappings; i++) {
        m.list[MAPPINGS][2 * i] = (uint32_t)number();
        uint32_t count = m.list[MAPPINGS][2 * i + 1] = (uint32_t)number();
        lend(count * DESK_INTERVAL_WORDS * 4); /* behind those before it */
        for (size_t w = 0; w < count * DESK_INTERVAL_WORDS; w++)
            m.list[INTERVALS][intervals * DESK_INTERVAL_WORDS + w] = (uint32_t)number();
        intervals += count;
    }
    m.len[INTERVALS] = intervals * DESK_INTERVAL_WORDS;
    return m;
}

static void sort(uint32_t *words, size_t len) {
    for (size_t i = 1; i < len; i++)
        for (size_t j = i; 0 < j && words[j] < words[j - 1]; j--) {
            uint32_t word = words[j];
            words[j] = words[j - 1];
            words[j - 1] = word;
        }
}

/* Prints a metadata with its sets and mappings sorted by name: dbn's order is a hash's. */
static void put_sorted(const struct metadata *m) {
    for (size_t i = 0; i < DESK_SYMBOLS; i++) put_number(m->header[i]);
    for (size_t k = 0; k < SETS; k++) {
        size_t used = m->header[DESK_SYMBOLS + k];
        uint32_t *set = lend(used * 4);
        memcpy(set, m->list[k], used * 4);
        sort(set, used);
        put_list(set, used);
    }
    size_t used = m->header[DESK_MAPPINGS_USED];
    uint32_t *names = lend(used * 4);
    for (size_t i = 0; i < used; i++) names[i] = m->list[MAPPINGS][2 * i];
    sort(names, used);
    put_number(used);
    for (size_t n = 0; n < used; n++) {
        const uint32_t *mapping = m->list[MAPPINGS], *interval = m->list[INTERVALS];
        for (; mapping[0] != names[n]; mapping += DESK_MAPPING_WORDS) interval += mapping[1] * DESK_INTERVAL_WORDS;
        put_number(mapping[0]);
        put_number(mapping[1]);
        for (size_t w = 0; w < mapping[1] * DESK_INTERVAL_WORDS; w++) put_number(interval[w]);
    }
}

/* The first metadata opened, then one more merged in at a time, up to a refusal; room for all of them together. */
static void merge_all(void) {
    enum { most = 16 };
    struct metadata given[most], m;
    size_t names = number(), len;
    for (size_t i = 0; i < names; i++) bytes(&len);
    size_t count = number();
    if (count == 0 || most < count) fail("the case has no metadata, or too many");
    for (size_t i = 0; i < count; i++) given[i] = whole_metadata();
    m = given[0];
    for (size_t k = 0; k < LISTS; k++) {
        for (size_t i = 1; i < count; i++) m.len[k] += given[i].len[k];
        m.list[k] = lend(m.len[k] * 4);
        memcpy(m.list[k], given[0].list[k], given[0].len[k] * 4);
    }
    for (size_t i = 0; i < count; i++) {
        next_answer();
        if (i == 0) put_number(opened(&m));
        else if (put_merged(names, &m, &given[i]) != DESK_DONE) return;
        put_sorted(&m);
    }
}

/* ---- Builds. */

/* A build for a date, or over time where there is none. */
static uint32_t build(uint8_t *table, size_t len, size_t *used, const struct metadata *m, const struct names *list,
                      const uint32_t *date) {
    return date == NULL
               ? desk_build(table, len, used, m->header, DESK_HEADER_WORDS, m->list[SYMBOLS], m->len[SYMBOLS], m->list[PARTIAL],
                            m->len[PARTIAL], m->list[NOT_FOUND], m->len[NOT_FOUND], m->list[MAPPINGS], m->len[MAPPINGS],
                            m->list[INTERVALS], m->len[INTERVALS], list->bytes, list->bytes_len, list->ends, list->ends_len,
                            list->names, list->name_bytes)
               : desk_build_points(table, len, used, m->header, DESK_HEADER_WORDS, m->list[SYMBOLS], m->len[SYMBOLS],
                                   m->list[PARTIAL], m->len[PARTIAL], m->list[NOT_FOUND], m->len[NOT_FOUND], m->list[MAPPINGS],
                                   m->len[MAPPINGS], m->list[INTERVALS], m->len[INTERVALS], list->bytes, list->bytes_len,
                                   list->ends, list->ends_len, list->names, list->name_bytes, *date);
}

/* A name list of the names of a case, with no room to spare. */
static struct names listed_names(void) {
    size_t count = number(), size = 0, len;
    struct names list = {count, 0, 0, count, lend(0), NULL};
    uint32_t *ends = lend(count * 4);
    const uint8_t *parts[DESK_NAMES];
    if (DESK_NAMES < count) fail("the case has too many names");
    for (size_t i = 0; i < count; i++) {
        parts[i] = bytes(&len);
        size += len;
        ends[i] = (uint32_t)size;
    }
    list.bytes = lend(size);
    list.ends = ends;
    list.name_bytes = list.bytes_len = size;
    for (size_t i = 0, from = 0; i < count; from = ends[i++]) memcpy(list.bytes + from, parts[i], ends[i] - from);
    return list;
}

static void whole_build(int on_day) {
    uint32_t date = on_day ? (uint32_t)number() : 0;
    struct names list = listed_names();
    struct metadata m = whole_metadata();
    size_t used = 7;
    uint32_t answer = build(whole_table, DESK_ROOM * (on_day ? DESK_POINT_BYTES : DESK_INTERVAL_BYTES), &used, &m, &list,
                            on_day ? &date : NULL);
    put_number(answer);
    if (answer != DESK_DONE) return;
    if (!on_day) {
        put_rows(whole_table, used);
        return;
    }
    put_number(used);
    for (size_t i = 0; i < used; i++) {
        put_number(field(whole_table + i * DESK_POINT_BYTES, 4));
        put_number(field(whole_table + i * DESK_POINT_BYTES + 4, 4));
    }
}

static void lent_build(int on_day) {
    size_t len, used = 7;
    uint8_t *table = bytes(&len);
    uint32_t date = on_day ? (uint32_t)number() : 0;
    struct names list = name_list();
    struct metadata m = lent_metadata();
    put_number(build(table, len, &used, &m, &list, on_day ? &date : NULL));
    put_number(used);
    put_bytes(table, len);
}

/* ---- Cases. */

static int is(const char *kind, size_t len, const char *name) { return len == strlen(name) && memcmp(kind, name, len) == 0; }

static void answer_case(void) {
    const char *kind = at;
    while (at < line_end && *at != ' ') at++;
    size_t len = (size_t)(at - kind);
    cases++;
    lent_len = 0;
    line_begun = 0;
    answers = 0;
    if (is(kind, len, "map")) map();
    else if (is(kind, len, "check")) check(desk_check);
    else if (is(kind, len, "insert")) insert();
    else if (is(kind, len, "get_for_ts")) get_for_ts();
    else if (is(kind, len, "compare")) compare(0);
    else if (is(kind, len, "compare_self")) compare(1);
    else if (is(kind, len, "explain")) explain();
    else if (is(kind, len, "check_point")) check(desk_check_points);
    else if (is(kind, len, "get_point")) get_point();
    else if (is(kind, len, "naming")) naming();
    else if (is(kind, len, "place_of")) place_of();
    else if (is(kind, len, "on_record")) on_record(desk_on_record);
    else if (is(kind, len, "on_record_point")) on_record(desk_on_record_point);
    else if (is(kind, len, "mappings")) mappings();
    else if (is(kind, len, "number")) number_text();
    else if (is(kind, len, "utf8")) utf8();
    else if (is(kind, len, "day")) day();
    else if (is(kind, len, "date")) date();
    else if (is(kind, len, "records")) records(0);
    else if (is(kind, len, "decoder")) records(1);
    else if (is(kind, len, "streams")) streams();
    else if (is(kind, len, "feed")) fed();
    else if (is(kind, len, "feed_runs")) fed_by_runs();
    else if (is(kind, len, "runs")) runs();
    else if (is(kind, len, "merge")) merge_all();
    else if (is(kind, len, "open_metadata")) open_metadata();
    else if (is(kind, len, "merge_metadata")) merge_metadata();
    else if (is(kind, len, "build")) whole_build(0);
    else if (is(kind, len, "build_day")) whole_build(1);
    else if (is(kind, len, "lent_build")) lent_build(0);
    else if (is(kind, len, "lent_build_day")) lent_build(1);
    else fail("no such kind");
    if (more_words()) fail("the case has words left over");
    put("\n", 1);
}

int main(void) {
    size_t room = 1 << 20, len = 0, got;
    char *text = malloc(room);
    while (text != NULL && (got = fread(text + len, 1, room - len, stdin)) != 0) {
        len += got;
        if (len == room) text = realloc(text, room *= 2);
    }
    if (text == NULL) fail("no memory");
    if (ferror(stdin)) fail("standard input can't be read");
    if (len != 0 && text[len - 1] != '\n') fail("the last line is cut off");
    for (at = text; at < text + len; at = line_end + 1) {
        for (line_end = at; line_end < text + len && *line_end != '\n'; line_end++) {}
        answer_case();
    }
    flush();
    return 0;
}
