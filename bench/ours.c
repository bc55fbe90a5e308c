/* The desk's side of the benchmark: `ours ROW STEPS` lays the row's inputs out, takes so many steps over them through the C door,
 * and prints a digest of the answers, which theirs.rs prints too. With 0 steps only the inputs are laid out. theirs.rs has the same
 * rows, save those that bench/run names as ours alone, and makes the same inputs with the same generator: a change here is a change
 * there. */
#include <stdint.h>
#include <stdio.h>
#include <stdlib.h>
#include <string.h>

#include "desk.h"

/* A name's number is one less than its length, so that both sides can tell a symbol without reading the name. */
#define NAMES 16
#define SPACING 1000 /* from an interval's start to the next one's */
#define COVERED 900  /* of which the interval covers so much */

static uint64_t state = 1;

/* splitmix64 */
static uint64_t draw(uint64_t below) {
    uint64_t z = state += 0x9e3779b97f4a7c15u;
    z = (z ^ (z >> 30)) * 0xbf58476d1ce4e5b9u;
    z = (z ^ (z >> 27)) * 0x94d049bb133111ebu;
    return (z ^ (z >> 31)) % below;
}

static uint64_t digest;

static void stop(const char *why) {
    fprintf(stderr, "ours: %s\n", why);
    exit(1);
}

static void *room(size_t bytes) {
    void *p = calloc(bytes ? bytes : 1, 1);
    if (!p) stop("no memory");
    return p;
}

static void put(uint8_t *at, uint64_t value, int bytes) {
    for (int i = 0; i < bytes; i++) at[i] = (uint8_t)(value >> (8 * i));
}

static uint32_t instrument(uint64_t i) { return (uint32_t)(1000 + 37 * i); }

static uint32_t symbol(uint64_t k) { return (uint32_t)(k % NAMES); }

/* ---- The map over time. */

static uint8_t *table;
static size_t table_len, used;

/* A table of so many instruments with so many intervals each, in memory for `spare` more. */
static void lay_table(uint64_t instruments, uint64_t intervals, uint64_t spare) {
    table_len = (instruments * intervals + spare) * DESK_INTERVAL_BYTES;
    table = room(table_len);
    for (uint64_t i = 0; i < instruments; i++)
        for (uint64_t k = 0; k < intervals; k++) {
            uint8_t *row = table + used++ * DESK_INTERVAL_BYTES;
            put(row, instrument(i), 4);
            put(row + 4, symbol(k), 4);
            put(row + 8, k * SPACING, 8);
            put(row + 16, k * SPACING + COVERED, 8);
        }
    if (desk_check(table, table_len, used, NAMES) != DESK_DONE) stop("the table is not well-formed");
}

struct question {
    uint64_t moment;
    uint32_t which, instrument;
};

/* Lookups with a cursor for each instrument, the moments drawn, or going ahead from the first to the last interval. */
static void lookups(uint64_t steps, uint64_t most, uint64_t instruments, uint64_t intervals, int ahead) {
    lay_table(instruments, intervals, 0);
    struct question *questions = room(most * sizeof *questions);
    uint64_t *hints = room(instruments * sizeof *hints);
    for (uint64_t i = 0; i < most; i++) {
        questions[i].which = (uint32_t)draw(instruments);
        questions[i].instrument = instrument(questions[i].which);
        uint64_t moment = draw(intervals * SPACING);
        questions[i].moment = ahead ? i * intervals * SPACING / most : moment;
    }
    for (uint64_t i = 0; i < steps; i++) {
        const struct question *q = &questions[i];
        uint32_t found, number;
        if (desk_get_for_ts(table, table_len, used, q->instrument, q->moment, &hints[q->which], &found, &number) != DESK_DONE)
            stop("a lookup was refused");
        digest = digest * 31 + (found ? number + 1 : 0);
    }
}

static void insert(uint32_t instrument, uint64_t start, uint64_t end, uint32_t number) {
    if (desk_insert(table, table_len, &used, NAMES, instrument, start, end, number) != DESK_DONE) stop("an insert was refused");
}

/* From an empty table, so many intervals for each instrument in turn, in order of time. */
static void appends(uint64_t steps, uint64_t most, uint64_t intervals) {
    lay_table(0, 0, most);
    for (uint64_t i = 0; i < steps; i++) {
        uint64_t k = i % intervals;
        insert(instrument(i / intervals), k * SPACING, k * SPACING + COVERED, symbol(k));
    }
    digest = used;
}

/* Inserts inside intervals that are there, with another symbol, so that one becomes three. */
static void middles(uint64_t steps, uint64_t most, uint64_t instruments, uint64_t intervals) {
    lay_table(instruments, intervals, 2 * most);
    for (uint64_t i = 0; i < steps; i++) {
        uint64_t which = draw(instruments), k = draw(intervals), from = k * SPACING + 100 + draw(300);
        insert(instrument(which), from, from + 300, symbol(k + 1));
    }
    digest = used;
}

/* A step is an interval that is checked, in tables of so many. */
static void checks(uint64_t steps, uint64_t instruments, uint64_t intervals) {
    lay_table(instruments, intervals, 0);
    for (uint64_t i = 0; i < steps; i += used) digest += desk_check(table, table_len, used, NAMES) == DESK_DONE;
}

/* Symbol mapping records on so many instruments of one interval each, whose names are known: a step puts an interval in its own place. */
static void mappings(uint64_t steps, uint64_t instruments) {
    lay_table(instruments, 1, 0);
    uint8_t *bytes = room(DESK_NAME_LIST_BYTES);
    uint32_t *ends = room(instruments * sizeof *ends);
    size_t names = instruments, size = 0;
    for (uint64_t i = 0; i < instruments; i++) ends[i] = (uint32_t)(size += (size_t)sprintf((char *)bytes + size, "%u", instrument(i)));
    for (uint64_t i = 0; i < steps; i++) {
        uint64_t which = draw(instruments), reason, from = which ? ends[which - 1] : 0, bytes_of_name = ends[which] - from;
        uint8_t record[DESK_RECORD_HEADER + 16 + 16];
        put(record, DESK_RECORD_HEADER + 16 + bytes_of_name, 2);
        put(record + 2, 2, 2);
        put(record + 4, instrument(which), 4);
        put(record + 8, i, 8);
        put(record + 16, 0, 8);
        put(record + 24, COVERED, 8);
        memcpy(record + 32, bytes + from, bytes_of_name);
        if (desk_on_record(table, table_len, &used, bytes, DESK_NAME_LIST_BYTES, ends, instruments, &names, &size, record,
                           32 + bytes_of_name, &reason) != DESK_DONE)
            stop("a mapping was refused");
        digest += used + names;
    }
}

/* ---- Two tables side by side: `table` on the left, `other` on the right, as long and with as many in use. */

static uint8_t *other, *stretches;
static size_t stretches_len;

/* x86-64 is little-endian, as the tables are. */
static uint64_t get(const uint8_t *at, size_t bytes) {
    uint64_t value = 0;
    memcpy(&value, at, bytes);
    return value;
}

/* Both tables; of each hundred intervals one is another on the right: it has another symbol, starts later or ends earlier. */
static void lay_tables(uint64_t instruments, uint64_t intervals) {
    lay_table(instruments, intervals, 0);
    other = room(table_len);
    memcpy(other, table, table_len);
    for (uint64_t i = 0; i + 100 <= used; i += 100) {
        uint64_t place = i + draw(100), k = place % intervals;
        uint8_t *row = other + place * DESK_INTERVAL_BYTES;
        switch (draw(3)) {
        case 0: put(row + 4, symbol(k + 1), 4); break;
        case 1: put(row + 8, k * SPACING + 100, 8); break;
        default: put(row + 16, k * SPACING + 800, 8);
        }
    }
    if (desk_check(other, table_len, used, NAMES) != DESK_DONE) stop("the right table is not well-formed");
    stretches_len = DESK_STRETCHES(used, used) * DESK_STRETCH_BYTES;
    stretches = room(stretches_len);
}

static size_t compare(void) {
    size_t count;
    if (desk_compare(table, table_len, used, other, table_len, used, NAMES, stretches, stretches_len, &count) != DESK_DONE)
        stop("a comparison was refused");
    return count;
}

/* The checks that a comparison can't do without, and no stretch. */
static size_t check_both(void) {
    if (desk_check(table, table_len, used, NAMES) != DESK_DONE || desk_check(other, table_len, used, NAMES) != DESK_DONE)
        stop("a check was refused");
    return 0;
}

static uint32_t look(const uint8_t *rows, uint32_t instrument, uint64_t moment, uint64_t *hint) {
    uint32_t found, number;
    if (desk_get_for_ts(rows, table_len, used, instrument, moment, hint, &found, &number) != DESK_DONE) stop("a lookup was refused");
    return found ? number : DESK_NOTHING;
}

/* A table's start or end: those of interval k have the places 2k and 2k + 1. */
struct edge {
    uint64_t instrument, moment;
};

static struct edge edge(const uint8_t *rows, size_t place) {
    if (place == 2 * used) return (struct edge){UINT64_MAX, UINT64_MAX};
    const uint8_t *row = rows + place / 2 * DESK_INTERVAL_BYTES;
    return (struct edge){get(row, 4), get(row + (place % 2 ? 16 : 8), 8)};
}

static int before(struct edge x, struct edge y) {
    return x.instrument < y.instrument || (x.instrument == y.instrument && x.moment < y.moment);
}

/* The list of desk_compare by lookups alone: at every start and end of both tables in order, each once, with a cursor for each
 * table, both are asked, and where the two answers are others than before a stretch is over or begins. */
static size_t compare_by_lookups(void) {
    size_t i = 0, j = 0, count = 0;
    uint64_t instrument = UINT64_MAX, left_hint = 0, right_hint = 0;
    uint32_t left = DESK_NOTHING, right = DESK_NOTHING;
    while (i < 2 * used || j < 2 * used) {
        struct edge x = edge(table, i), y = edge(other, j), at = before(y, x) ? y : x;
        i += !before(y, x);
        j += !before(x, y);
        if (at.instrument != instrument) {
            instrument = at.instrument;
            left_hint = right_hint = 0;
        }
        uint32_t l = look(table, (uint32_t)instrument, at.moment, &left_hint);
        uint32_t r = look(other, (uint32_t)instrument, at.moment, &right_hint);
        if (l == left && r == right) continue;
        uint8_t *stretch = stretches + count * DESK_STRETCH_BYTES;
        if (left != right) {
            put(stretch + 20, at.moment, 8);
            stretch += DESK_STRETCH_BYTES;
            count++;
        }
        if (l != r) {
            put(stretch, instrument, 4);
            put(stretch + 4, l, 4);
            put(stretch + 8, r, 4);
            put(stretch + 12, at.moment, 8);
        }
        left = l;
        right = r;
    }
    return count;
}

/* Both tables compared in one of the three ways; the digest is of the list's bytes. */
static void comparisons(uint64_t steps, size_t (*way)(void)) {
    lay_tables(3125, 16);
    for (uint64_t i = 0; i < steps; i++) {
        size_t bytes = way() * DESK_STRETCH_BYTES;
        for (size_t k = 0; k < bytes; k += 4) digest = digest * 31 + get(stretches + k, 4);
    }
}

/* ---- Why there is a symbol, or none: questions at random, each asked in one of three ways. */

static uint32_t explain(uint32_t instrument, uint64_t moment) {
    uint64_t index, start, end, next_start, next_end;
    uint32_t reason, number, next_number;
    if (desk_explain(table, table_len, used, NAMES, instrument, moment, &reason, &index, &start, &end, &number, &next_start, &next_end,
                     &next_number) != DESK_DONE)
        stop("an explanation was refused");
    return reason == DESK_IN ? number : DESK_NOTHING;
}

/* The check that an explanation can't do without, and no reason. */
static uint32_t check_once(uint32_t instrument, uint64_t moment) {
    (void)instrument, (void)moment;
    if (desk_check(table, table_len, used, NAMES) != DESK_DONE) stop("a check was refused");
    return 0;
}

/* The symbol alone, of a table that is not checked, with no hint. */
static uint32_t look_once(uint32_t instrument, uint64_t moment) {
    uint64_t hint = UINT64_MAX;
    return look(table, instrument, moment, &hint);
}

static void explanations(uint64_t steps, uint32_t (*way)(uint32_t, uint64_t)) {
    lay_table(3125, 16, 0);
    for (uint64_t i = 0; i < steps; i++) {
        uint32_t which = instrument(draw(3125));
        digest = digest * 31 + way(which, draw(16 * SPACING));
    }
}

/* ---- The record merge. */

static uint8_t *buffer, marks[DESK_STREAMS], heap[DESK_STREAMS];
static uint64_t *cuts, times[DESK_STREAMS], places[DESK_STREAMS], heads[DESK_STREAMS];

/* So many records in all, each of a stream drawn, with times that never fall within a stream. */
static void lay_streams(uint64_t most, size_t streams) {
    struct record {
        uint64_t stream, time, length;
    } *drawn = room(most * sizeof *drawn);
    uint64_t *ends = room(streams * sizeof *ends), time = 0;
    cuts = room((streams + 1) * sizeof *cuts);
    for (uint64_t i = 0; i < most; i++) {
        drawn[i].stream = draw(streams);
        drawn[i].time = time += draw(3);
        drawn[i].length = DESK_RECORD_HEADER + draw(49);
        cuts[drawn[i].stream + 1] += drawn[i].length;
    }
    for (size_t s = 0; s < streams; s++) ends[s] = cuts[s + 1] += cuts[s];
    buffer = room(cuts[streams]);
    for (uint64_t i = most; i-- > 0;) {
        uint8_t *at = buffer + (ends[drawn[i].stream] -= drawn[i].length);
        put(at, drawn[i].length, 2);
        put(at + 2, 1, 2);
        put(at + 4, i, 4);
        put(at + 8, drawn[i].time, 8);
    }
}

/* Their records, by the heap. */
static void records(uint64_t steps, uint64_t most, size_t streams) {
    lay_streams(most, streams);
    size_t opened, held;
    if (desk_open(buffer, cuts[streams], cuts, streams + 1, cuts, 0, marks, DESK_STREAMS, times, DESK_STREAMS, places, DESK_STREAMS,
                  heads, DESK_STREAMS, heap, DESK_STREAMS, &opened, &held) != DESK_DONE)
        stop("the streams were refused");
    for (uint64_t i = 0; i < steps; i++) {
        uint32_t found, number;
        uint64_t stream, place, at, reason;
        uint16_t length, kind;
        if (desk_next(buffer, cuts[streams], cuts, streams + 1, marks, DESK_STREAMS, times, DESK_STREAMS, places, DESK_STREAMS, heads,
                      DESK_STREAMS, heap, DESK_STREAMS, &held, &found, &stream, &place, &length, &kind, &number, &at, &reason)
                != DESK_DONE || !found)
            stop("a record was not handed out");
        digest = digest * 31 + (at ^ number);
    }
}

/* The same records by runs of 100, as a desktop asks for a page of them. */
static void run_records(uint64_t steps, uint64_t most, size_t streams) {
    static uint64_t list[100 * DESK_RUN_WORDS];
    lay_streams(most, streams);
    size_t opened, held;
    if (desk_open(buffer, cuts[streams], cuts, streams + 1, cuts, 0, marks, DESK_STREAMS, times, DESK_STREAMS, places, DESK_STREAMS,
                  heads, DESK_STREAMS, heap, DESK_STREAMS, &opened, &held) != DESK_DONE)
        stop("the streams were refused");
    for (uint64_t i = 0; i < steps; i += 100) {
        size_t calls, written;
        uint32_t last;
        uint64_t stream, place, reason;
        if (desk_run(buffer, cuts[streams], cuts, streams + 1, marks, DESK_STREAMS, times, DESK_STREAMS, places, DESK_STREAMS, heads,
                     DESK_STREAMS, heap, DESK_STREAMS, &held, 100, list, 100 * DESK_RUN_WORDS, &calls, &written, &last, &stream, &place,
                     &reason) != DESK_DONE || written != 100)
            stop("a page was not handed out");
        for (size_t k = 0; k < written; k++) {
            const uint64_t *row = list + DESK_RUN_WORDS * k;
            const uint8_t *at = buffer + cuts[row[0]] + row[1];
            uint32_t number = at[4] | (uint32_t)at[5] << 8 | (uint32_t)at[6] << 16 | (uint32_t)at[7] << 24;
            digest = digest * 31 + (row[2] ^ number);
        }
    }
}

/* The plain engine's exports (crates/bench_plain), which are in no library and no header. */
uint32_t plain_open(const uint8_t *buffer, size_t buffer_len, const uint64_t *cuts, size_t cuts_len, const uint64_t *hints,
                    size_t hints_len, uint8_t *marks, size_t marks_len, uint64_t *times, size_t times_len, uint64_t *places,
                    size_t places_len, uint64_t *heads, size_t heads_len, size_t *streams);

uint32_t plain_next(const uint8_t *buffer, size_t buffer_len, const uint64_t *cuts, size_t cuts_len, size_t streams, uint8_t *marks,
                    size_t marks_len, uint64_t *times, size_t times_len, uint64_t *places, size_t places_len, uint64_t *heads,
                    size_t heads_len, uint32_t *found, uint64_t *stream, uint64_t *place, uint16_t *length, uint16_t *kind,
                    uint32_t *instrument, uint64_t *time, uint64_t *reason);

/* The same records by the plain engine. */
static void plain_records(uint64_t steps, uint64_t most, size_t streams) {
    lay_streams(most, streams);
    size_t opened;
    if (plain_open(buffer, cuts[streams], cuts, streams + 1, cuts, 0, marks, DESK_STREAMS, times, DESK_STREAMS, places, DESK_STREAMS,
                   heads, DESK_STREAMS, &opened) != DESK_DONE)
        stop("the streams were refused");
    for (uint64_t i = 0; i < steps; i++) {
        uint32_t found, number;
        uint64_t stream, place, at, reason;
        uint16_t length, kind;
        if (plain_next(buffer, cuts[streams], cuts, streams + 1, opened, marks, DESK_STREAMS, times, DESK_STREAMS, places, DESK_STREAMS,
                       heads, DESK_STREAMS, &found, &stream, &place, &length, &kind, &number, &at, &reason)
                != DESK_DONE || !found)
            stop("a record was not handed out");
        digest = digest * 31 + (at ^ number);
    }
}

/* The same records of streams that arrive in portions of so many bytes, each handed in where more is needed, what was not taken again. */
static void fed_records(uint64_t steps, uint64_t most, size_t streams, uint64_t portion) {
    static desk_feed feed;
    static uint64_t come[DESK_STREAMS];
    lay_streams(most, streams);
    if (desk_feed_begin(&feed, streams, NULL, 0) != DESK_DONE) stop("the streams were refused");
    for (uint64_t i = 0; i < steps;) {
        desk_record r;
        if (desk_feed_read(&feed, &r, NULL) != DESK_DONE || r.found == 0) stop("a record was not handed out");
        if (r.found == DESK_NEED_MORE) {
            const uint8_t *at = buffer + cuts[r.stream] + come[r.stream];
            uint64_t left = cuts[r.stream + 1] - cuts[r.stream] - come[r.stream];
            size_t taken = 0;
            if ((left == 0 ? desk_feed_finish(&feed, r.stream)
                           : desk_feed_add(&feed, r.stream, at, left < portion ? left : portion, &taken)) != DESK_DONE)
                stop("a portion or an end was refused");
            come[r.stream] += taken;
            continue;
        }
        digest = digest * 31 + (r.time ^ r.instrument);
        i++;
    }
}

/* The same by runs of 100, in portions of 64 KB; the instrument is read from the stream. */
static void fed_runs(uint64_t steps, uint64_t most, size_t streams) {
    static desk_feed feed;
    static uint64_t come[DESK_STREAMS], list[100 * DESK_RUN_WORDS];
    lay_streams(most, streams);
    if (desk_feed_begin(&feed, streams, NULL, 0) != DESK_DONE) stop("the streams were refused");
    for (uint64_t i = 0; i < steps;) {
        size_t written, taken = 0;
        uint32_t last;
        uint64_t stream;
        if (desk_feed_read_run(&feed, steps - i < 100 ? steps - i : 100, list, 100, NULL, &written, &last, &stream, NULL) != DESK_DONE
            || last == 0)
            stop("a page was not handed out");
        for (size_t k = 0; k < written; k++) {
            const uint64_t *row = list + DESK_RUN_WORDS * k;
            const uint8_t *at = buffer + cuts[row[0]] + row[1];
            uint32_t number = at[4] | (uint32_t)at[5] << 8 | (uint32_t)at[6] << 16 | (uint32_t)at[7] << 24;
            digest = digest * 31 + (row[2] ^ number);
        }
        i += written;
        if (last == DESK_NEED_MORE) {
            uint64_t left = cuts[stream + 1] - cuts[stream] - come[stream];
            if ((left == 0 ? desk_feed_finish(&feed, stream)
                           : desk_feed_add(&feed, stream, buffer + cuts[stream] + come[stream], left < 65536 ? left : 65536, &taken))
                != DESK_DONE)
                stop("a portion or an end was refused");
            come[stream] += taken;
        }
    }
}

/* ---- Metadata. */

struct metadata {
    uint64_t header[DESK_HEADER_WORDS];
    uint32_t symbols[DESK_ENTRIES], partial[1], not_found[1];
    uint32_t mappings[DESK_MAPPINGS * DESK_MAPPING_WORDS], intervals[DESK_INTERVALS * DESK_INTERVAL_WORDS];
};

/* The mappings from number `from` to before `to`, of 16 intervals each; a mapping's name and its intervals' symbol are the text of
 * its instrument. */
static void lay_metadata(struct metadata *m, uint32_t from, uint32_t to) {
    uint32_t *symbol = m->symbols, *mapping = m->mappings, *interval = m->intervals;
    for (uint32_t i = from; i < to; i++) {
        *symbol++ = i;
        *mapping++ = i;
        *mapping++ = 16;
        for (uint32_t k = 0; k < 16; k++) {
            uint32_t month = (2020 + k / 12) * 10000 + (k % 12 + 1) * 100;
            *interval++ = month + 1;
            *interval++ = month + 15;
            *interval++ = i;
        }
    }
    m->header[DESK_SCHEMA] = DESK_NO_SCHEMA;
    m->header[DESK_STYPE_IN] = 1;
    m->header[DESK_SYMBOLS] = m->header[DESK_MAPPINGS_USED] = to - from;
}

#define LISTS(m) \
    (m)->header, DESK_HEADER_WORDS, (m)->symbols, DESK_ENTRIES, (m)->partial, 0, (m)->not_found, 0, (m)->mappings, \
        DESK_MAPPINGS * DESK_MAPPING_WORDS, (m)->intervals, DESK_INTERVALS * DESK_INTERVAL_WORDS

/* The mappings from 0 to before `first`, with those from `from` to before `to` merged in. */
static void merges(uint64_t steps, uint32_t first, uint32_t from, uint32_t to) {
    enum { MOST = 4 };
    struct metadata *given = room(MOST * sizeof *given), *added = room(sizeof *added);
    for (int i = 0; i < MOST; i++) lay_metadata(&given[i], 0, first);
    lay_metadata(added, from, to);
    for (uint64_t i = 0; i < steps; i++) {
        struct metadata *m = &given[i];
        uint32_t field;
        if (desk_metadata_open(LISTS(m)) != DESK_DONE || desk_metadata_merge(DESK_NAMES, LISTS(m), LISTS(added), &field) != DESK_DONE
            || desk_metadata_finish(LISTS(m)) != DESK_DONE)
            stop("a merge was refused");
        digest += m->header[DESK_MAPPINGS_USED];
        for (uint64_t k = 0; k < m->header[DESK_MAPPINGS_USED]; k++) digest += m->mappings[DESK_MAPPING_WORDS * k + 1];
    }
}

/* Mappings one after the other in the order of their instruments, or scattered; built over time, or for a day that each covers. */
static void builds(uint64_t steps, uint32_t mappings, int scattered, int on_day) {
    struct metadata *m = room(sizeof *m);
    uint8_t *bytes = room(DESK_NAME_LIST_BYTES);
    uint32_t *ends = room(mappings * sizeof *ends), size = 0;
    lay_metadata(m, 0, mappings);
    for (uint32_t i = 0; i < mappings; i++) {
        size += (uint32_t)sprintf((char *)bytes + size, "%u", instrument(i));
        ends[i] = size;
    }
    for (uint32_t i = 0; scattered && i < mappings; i++) { /* 1553 is odd: every number once */
        uint32_t name = i * 1553 % mappings;
        m->mappings[DESK_MAPPING_WORDS * i] = name;
        for (uint32_t k = 0; k < 16; k++) m->intervals[DESK_INTERVAL_WORDS * (16 * i + k) + 2] = name;
    }
    table_len = mappings * 16 * DESK_INTERVAL_BYTES;
    table = room(table_len);
    for (uint64_t i = 0; i < steps; i++) {
        uint32_t answer = on_day ? desk_build_points(table, mappings * DESK_POINT_BYTES, &used, LISTS(m), bytes, size, ends, mappings,
                                                     mappings, size, 20200301)
                                 : desk_build(table, table_len, &used, LISTS(m), bytes, size, ends, mappings, mappings, size);
        if (answer != DESK_DONE) stop("a build was refused");
        digest += used;
    }
}

/* ---- UTF-8. */

/* Names of the greatest length, their characters drawn among those of `least` to `most` bytes. */
static void names(uint64_t steps, uint64_t least, uint64_t most) {
    enum { TEXTS = 64 };
    static const uint8_t characters[4][5] = {"a", "\xc3\xa9", "\xe2\x82\xac", "\xf0\x9f\x98\x80"};
    static uint8_t texts[TEXTS][DESK_NAME_BYTES];
    for (int t = 0; t < TEXTS; t++)
        for (uint64_t at = 0; at < DESK_NAME_BYTES;) {
            uint64_t bytes = least + draw(most - least + 1);
            if (bytes > DESK_NAME_BYTES - at) bytes = 1;
            memcpy(texts[t] + at, characters[bytes - 1], bytes);
            at += bytes;
        }
    for (uint64_t i = 0; i < steps; i++) digest += desk_utf8(texts[i % TEXTS], DESK_NAME_BYTES) == DESK_DONE;
}

/* ---- Naming: rows that dbn has not. */

static uint8_t list_bytes[DESK_NAME_LIST_BYTES];
static uint32_t list_ends[DESK_NAMES];
static size_t list_names, list_used;

/* The number of an instrument's name, which is the text of its number. */
static void name_one(uint64_t which) {
    char text[16];
    int size = sprintf(text, "%u", instrument(which));
    uint32_t number;
    if (desk_number_of(list_bytes, sizeof list_bytes, list_ends, DESK_NAMES, &list_names, &list_used, (const uint8_t *)text, (size_t)size,
                       &number) != DESK_DONE || number != which)
        stop("a name was not numbered");
    digest = digest * 31 + number;
}

/* So many names one after the other, from an empty list. */
static void name_all(uint64_t most) {
    list_names = list_used = 0;
    for (uint64_t i = 0; i < most; i++) name_one(i);
}

/* Names drawn among those of a list of so many. */
static void namings(uint64_t steps, uint64_t most) {
    for (uint64_t i = 0; i < most; i++) {
        list_used += (size_t)sprintf((char *)list_bytes + list_used, "%u", instrument(i));
        list_ends[list_names++] = (uint32_t)list_used;
    }
    for (uint64_t i = 0; i < steps; i++) name_one(draw(most));
}

int main(int words, char **word) {
    if (words != 3) stop("a row and a number of steps");
    uint64_t steps = strtoull(word[2], NULL, 10);
    const char *row = word[1];
    if (!strcmp(row, "ahead")) lookups(steps, 1000000, 4096, 16, 1);
    else if (!strcmp(row, "random")) lookups(steps, 1000000, 4096, 16, 0);
    else if (!strcmp(row, "ahead-one")) lookups(steps, 1000000, 1, 50000, 1);
    else if (!strcmp(row, "random-one")) lookups(steps, 1000000, 1, 50000, 0);
    else if (!strcmp(row, "ahead-1024")) lookups(steps, 1000000, 64, 16, 1);
    else if (!strcmp(row, "random-1024")) lookups(steps, 1000000, 64, 16, 0);
    else if (!strcmp(row, "ahead-16384")) lookups(steps, 1000000, 1024, 16, 1);
    else if (!strcmp(row, "random-16384")) lookups(steps, 1000000, 1024, 16, 0);
    else if (!strcmp(row, "check")) checks(steps, 3125, 16);
    else if (!strcmp(row, "check-16384")) checks(steps, 1024, 16);
    else if (!strcmp(row, "check-1024")) checks(steps, 64, 16);
    else if (!strcmp(row, "mapping")) mappings(steps, 1000);
    else if (!strcmp(row, "append")) appends(steps, 4096, 16);
    else if (!strcmp(row, "append-one")) appends(steps, 4096, 4096);
    else if (!strcmp(row, "middle")) middles(steps, 1024, 256, 16);
    else if (!strcmp(row, "middle-one")) middles(steps, 1024, 1, 4096);
    else if (!strcmp(row, "compare")) comparisons(steps, compare);
    else if (!strcmp(row, "compare-checks")) comparisons(steps, check_both);
    else if (!strcmp(row, "compare-lookups")) comparisons(steps, compare_by_lookups);
    else if (!strcmp(row, "explain")) explanations(steps, explain);
    else if (!strcmp(row, "explain-check")) explanations(steps, check_once);
    else if (!strcmp(row, "explain-lookup")) explanations(steps, look_once);
    else if (!strcmp(row, "run-4")) run_records(steps, 200000, 4);
    else if (!strcmp(row, "run-16")) run_records(steps, 200000, 16);
    else if (!strcmp(row, "run-256")) run_records(steps, 200000, 256);
    else if (!strcmp(row, "merge-4") || !strcmp(row, "ready-4")) records(steps, 200000, 4);
    else if (!strcmp(row, "merge-16") || !strcmp(row, "ready-16")) records(steps, 200000, 16);
    else if (!strcmp(row, "merge-256") || !strcmp(row, "ready-256")) records(steps, 200000, 256);
    else if (!strcmp(row, "plain-4")) plain_records(steps, 200000, 4);
    else if (!strcmp(row, "plain-16")) plain_records(steps, 200000, 16);
    else if (!strcmp(row, "plain-256")) plain_records(steps, 200000, 256);
    else if (!strcmp(row, "feed-4")) fed_records(steps, 200000, 4, 65536);
    else if (!strcmp(row, "feed-16")) fed_records(steps, 200000, 16, 65536);
    else if (!strcmp(row, "feed-256")) fed_records(steps, 200000, 256, 65536);
    else if (!strcmp(row, "feed-small-4")) fed_records(steps, 200000, 4, 100);
    else if (!strcmp(row, "feed-small-16")) fed_records(steps, 200000, 16, 100);
    else if (!strcmp(row, "feed-small-256")) fed_records(steps, 200000, 256, 100);
    else if (!strcmp(row, "feed-run-4")) fed_runs(steps, 200000, 4);
    else if (!strcmp(row, "feed-run-16")) fed_runs(steps, 200000, 16);
    else if (!strcmp(row, "feed-run-256")) fed_runs(steps, 200000, 256);
    else if (!strcmp(row, "metadata-copy")) merges(steps, 4096, 0, 4096);
    else if (!strcmp(row, "metadata-apart")) merges(steps, 2048, 2048, 4096);
    else if (!strcmp(row, "build")) builds(steps, 4096, 0, 0);
    else if (!strcmp(row, "build-scattered")) builds(steps, 4096, 1, 0);
    else if (!strcmp(row, "build-day")) builds(steps, 4096, 0, 1);
    else if (!strcmp(row, "build-day-scattered")) builds(steps, 4096, 1, 1);
    else if (!strcmp(row, "utf8-ascii")) names(steps, 1, 1);
    else if (!strcmp(row, "utf8-two")) names(steps, 2, 2);
    else if (!strcmp(row, "utf8-mixed")) names(steps, 1, 4);
    else if (!strcmp(row, "name-256")) namings(steps, 256);
    else if (!strcmp(row, "name-1024")) namings(steps, 1024);
    else if (!strcmp(row, "name-4096")) namings(steps, 4096);
    else if (!strcmp(row, "names-4096")) for (; steps > 0; steps--) name_all(4096);
    else stop("no such row");
    printf("%016llx\n", (unsigned long long)digest);
    return 0;
}
