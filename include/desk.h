/* The replay desk for C99 and C++11, by the rules of docs/RULES.md. A program includes this file alone.
 *
 * To link: `desk/build` writes dist/, which may be moved anywhere.
 *     cc program.c $(PKG_CONFIG_PATH=dist/lib/pkgconfig pkg-config --cflags --libs desk)
 *     cc -Idist/include program.c dist/lib/libdesk.a
 *     CMake, with dist in CMAKE_PREFIX_PATH: find_package(desk) and target_link_libraries(program desk::desk)
 * The library is code for x86-64 Linux. Of the C library it needs memcpy and memset alone. It allocates nothing and keeps nothing
 * between calls: all that the desk knows stands in memory that the program lends.
 *
 * Every call ends, on any content of the memory, and returns a number: DESK_DONE (0), or a refusal (desk_refusal_name, and
 * desk_refusal_text for a sentence). A refusal leaves everything as it was, with three exceptions, which the functions name again:
 * a refused build leaves an empty table, 6 sets its field and 13 its damage, and 13 from desk_merge_next, desk_merge_run, desk_feed_read
 * and desk_feed_read_run moves the merge on.
 *
 * What a program owes, since none of it can be seen from inside:
 *   - lent memory is as long as the length beside it says; NULL with length 0 is fine. A result that is not wanted may be NULL, and
 *     no other argument may;
 *   - lent memory is aligned for its type (bytes anywhere, words of 32 bits by 4, of 64 bits by 8);
 *   - nothing that a call may write overlaps anything else that the call is handed;
 *   - no other thread writes what a call is handed, or reads what it may write. Calls on different memory may run at once;
 *   - so many bytes of stack are free: DESK_STACK (4 KB); for desk_metadata_begin DESK_METADATA_BEGIN_STACK (1 MB), for
 *     desk_metadata_add DESK_METADATA_ADD_STACK (5 MB). A memcpy that is bound at its first call needs the loader's stack besides.
 *
 * An instrument, a symbol and a date (YYYYMMDD) have 32 bits, a moment 64: nanoseconds since the start of 1970-01-01. A symbol is a
 * name's number. An interval holds its start and not its end. Lengths are in elements.
 *
 * The functions here are `static inline`, over the exports of desk_exports.h, and return the export's number. The exports themselves,
 * on bare numbers and arrays, may be called beside them. */
#ifndef DESK_H
#define DESK_H

#include "desk_exports.h"

/* The version of this file. It is 0.x as long as requests change exports. */
#define DESK_VERSION_MAJOR 0
#define DESK_VERSION_MINOR 1
#define DESK_VERSION_PATCH 0

#define DESK_METADATA_BEGIN_STACK DESK_OPEN_STACK /* the stack that desk_metadata_begin needs, in bytes */
#define DESK_METADATA_ADD_STACK DESK_MERGE_STACK  /* the stack that desk_metadata_add needs */

#define DESK_TEXT_OF_(n) #n
#define DESK_TEXT_(n) DESK_TEXT_OF_(n)

/* The version as text: "0.1.0". */
static inline const char *desk_version(void) {
    return DESK_TEXT_(DESK_VERSION_MAJOR) "." DESK_TEXT_(DESK_VERSION_MINOR) "." DESK_TEXT_(DESK_VERSION_PATCH);
}

/* ---- Numbers as text. */

/* The name of a number that a call returned: "DESK_NO_ROOM"; "DESK_?" of one that no call returns. */
static inline const char *desk_refusal_name(uint32_t number) {
    static const char *const names[] = {
        "DESK_DONE",       "DESK_REVERSED",  "DESK_NO_ROOM",    "DESK_UNKNOWN_SYMBOL",   "DESK_BAD_NAME",      "DESK_NO_NAME_ROOM",
        "DESK_DIFFER",     "DESK_CONFLICT",  "DESK_NOT_NUMBER", "DESK_NO_INSTRUMENT_ID", "DESK_OUTSIDE_QUERY", "DESK_NO_DATE",
        "DESK_BAD_STREAMS", "DESK_DAMAGED", "DESK_ILL_FORMED", "DESK_BAD_MEMORY"};
    return number < sizeof names / sizeof names[0] ? names[number] : "DESK_?";
}

/* What a number that a call returned says, in one sentence (RULES, Numbers the desk lives by, 2). */
static inline const char *desk_refusal_text(uint32_t number) {
    static const char *const texts[] = {
        "The call is done.",
        "The start comes after the end.",
        "The outcome would not fit the room.",
        "A symbol or name number was never handed out: it is not below the number of names.",
        "A name is over 255 bytes, or not UTF-8.",
        "A new name would pass 4,096 names, 65,536 bytes or the room lent for names.",
        "The metadata differ in a field.",
        "Intervals of one name conflict.",
        "A text is not a number of 32 bits.",
        "Neither side of the metadata is instrument ID.",
        "The asked date is outside the query range.",
        "There is no such date, or it is outside 1970-01-01 to 2554-07-21.",
        "The stream list is wrong.",
        "A stream or mapping record is damaged.",
        "A table or name list is not well-formed.",
        "Lent memory has unequal lengths or is over a limit, or a number in use is over its room."};
    return number < sizeof texts / sizeof texts[0] ? texts[number] : "No call returns this number.";
}

/* Why a stream or record is damaged (enum desk_reason), in one sentence. */
static inline const char *desk_reason_text(uint64_t reason) {
    static const char *const texts[] = {"There is no such reason.", "Fewer than 16 bytes are left.", "The length is outside 16 to 1,024.",
                                        "The length is past the end, or bytes are left over.",
                                        "A symbol mapping has a body under 16 bytes."};
    return texts[reason < sizeof texts / sizeof texts[0] ? reason : 0];
}

/* ---- What programs lend. Each struct is filled in by the program and may be copied like any value. */

/* A name list: the names' bytes, one name after another, and where each ends; what is lent of both, and what is in use. It starts with
 * names = name_bytes = 0. */
typedef struct desk_names {
    uint8_t *bytes;
    size_t bytes_len; /* at most DESK_NAME_LIST_BYTES */
    uint32_t *ends;
    size_t ends_len; /* at most DESK_NAMES */
    size_t names, name_bytes;
} desk_names;

/* A table over time: memory for bytes_len / DESK_INTERVAL_BYTES intervals, of which `used` are in use. It starts with used = 0. */
typedef struct desk_table {
    uint8_t *bytes;
    size_t bytes_len; /* a multiple of DESK_INTERVAL_BYTES, at most DESK_ROOM of them */
    size_t used;
} desk_table;

/* A point-in-time table: memory for bytes_len / DESK_POINT_BYTES entries, of which `used` are in use. It starts with used = 0. */
typedef struct desk_point_table {
    uint8_t *bytes;
    size_t bytes_len; /* a multiple of DESK_POINT_BYTES, at most DESK_ROOM of them */
    size_t used;
} desk_point_table;

/* The stretches of a comparison: memory for bytes_len / DESK_STRETCH_BYTES of them, and how many there are. */
typedef struct desk_stretches {
    uint8_t *bytes;
    size_t bytes_len; /* a multiple of DESK_STRETCH_BYTES */
    size_t count;
} desk_stretches;

/* The words of a metadata's header. */
enum desk_header_word {
    DESK_HEADER_VERSION = DESK_VERSION,                 /* 8 bits */
    DESK_HEADER_DATASET = DESK_DATASET,                 /* 32 bits, a name's number */
    DESK_HEADER_SCHEMA = DESK_SCHEMA,                   /* 16 bits; DESK_NO_SCHEMA for none */
    DESK_HEADER_START = DESK_START,                     /* a moment */
    DESK_HEADER_END = DESK_END,                         /* a moment; 0 for none */
    DESK_HEADER_LIMIT = DESK_LIMIT,                     /* 0 for none */
    DESK_HEADER_STYPE_IN = DESK_STYPE_IN,               /* 8 bits; DESK_INSTRUMENT_ID, DESK_NO_STYPE for none, or another */
    DESK_HEADER_STYPE_OUT = DESK_STYPE_OUT,             /* 8 bits; DESK_INSTRUMENT_ID, or another */
    DESK_HEADER_TS_OUT = DESK_TS_OUT,                   /* 0 or 1 */
    DESK_HEADER_SYMBOL_CSTR_LEN = DESK_SYMBOL_CSTR_LEN,
    DESK_HEADER_SYMBOLS = DESK_SYMBOLS,                 /* in use of `symbols` */
    DESK_HEADER_PARTIAL = DESK_PARTIAL,                 /* in use of `partial` */
    DESK_HEADER_NOT_FOUND = DESK_NOT_FOUND,             /* in use of `not_found` */
    DESK_HEADER_MAPPINGS = DESK_MAPPINGS_USED           /* in use of `mappings` */
};
#define DESK_INSTRUMENT_ID 0 /* a stype */

/* A mapping of a metadata: a name, and how many intervals it has. */
typedef struct desk_mapping {
    uint32_t name, intervals;
} desk_mapping;

/* An interval of a mapping: from a date to before another the name stands for the symbol, a name too. */
typedef struct desk_dates {
    uint32_t start, end, symbol;
} desk_dates;

/* A metadata: the header's words and five lists with what is lent of each. The header says how much of four of them is in use; the
 * intervals stand mapping after mapping. A metadata all of 0 is an empty one. */
typedef struct desk_metadata {
    uint64_t header[DESK_HEADER_WORDS]; /* by enum desk_header_word */
    uint32_t *symbols;                  /* names' numbers, as the next two */
    size_t symbols_len;                 /* at most DESK_ENTRIES, as the next two */
    uint32_t *partial;
    size_t partial_len;
    uint32_t *not_found;
    size_t not_found_len;
    desk_mapping *mappings;
    size_t mappings_len; /* at most DESK_MAPPINGS */
    desk_dates *intervals;
    size_t intervals_len; /* at most DESK_INTERVALS */
} desk_metadata;

/* A merge of record streams, some 6.5 KB; desk_merge_open fills it, and no one else writes it. The streams' buffer and cuts must stay as
 * they are until the last desk_merge_next on it. */
typedef struct desk_merge {
    const uint8_t *buffer;
    size_t buffer_len;
    const uint64_t *cuts;
    size_t cuts_len;
    size_t streams, held; /* opened, and not closed yet */
    uint64_t times[DESK_STREAMS], places[DESK_STREAMS], heads[DESK_STREAMS];
    uint8_t marks[DESK_STREAMS], heap[DESK_STREAMS];
} desk_merge;

/* A merge of record streams that arrive in portions, some 271 KB: static or allocated, not on a small stack. desk_feed_begin fills it,
 * and no one else writes it. It holds at most DESK_WINDOW bytes of a stream, however long that is. */
typedef struct desk_feed {
    size_t held; /* streams not closed yet */
    uint64_t times[DESK_STREAMS], places[DESK_STREAMS], heads[DESK_STREAMS], spans[DESK_STREAMS];
    uint8_t marks[DESK_STREAMS], heap[DESK_STREAMS], window[DESK_WINDOW_BYTES];
} desk_feed;

/* ---- What functions tell. */

/* A name's bytes, in the name list's memory; no zero byte ends them. */
typedef struct desk_name {
    const char *text;
    size_t len;
} desk_name;

/* An interval of a table over time. */
typedef struct desk_interval {
    uint32_t instrument, symbol;
    uint64_t start, end;
} desk_interval;

/* A stretch of time in which two tables disagree; a side without a symbol has DESK_NOTHING. */
typedef struct desk_stretch {
    uint32_t instrument, left, right;
    uint64_t start, end;
} desk_stretch;

/* Why there is a symbol, or none. What `reason` does not name is 0. */
typedef struct desk_explanation {
    uint32_t reason; /* enum desk_explained */
    uint32_t symbol; /* of the interval that the moment is in, the first, the last, or the one before the gap, as the next three */
    uint64_t index;  /* counted from 0 within the instrument, as cursors count */
    uint64_t start, end;
    uint32_t next_symbol; /* of the interval behind the gap, as the next two */
    uint64_t next_start, next_end;
} desk_explanation;

/* A record that a merge hands out. At the end of the merge all of it is 0, and `bytes` is NULL. */
typedef struct desk_record {
    uint32_t found; /* 1, and 0 at the end; of a desk_feed also DESK_NEED_MORE */
    uint32_t instrument;
    uint64_t stream, place, time; /* the place is counted from the stream's start */
    uint16_t length, kind;
    const uint8_t *bytes; /* `length` of them, in the streams' buffer or in the desk_feed */
} desk_record;

/* A stream that broke off, and where and why. */
typedef struct desk_damage {
    uint64_t stream, place, reason; /* the place from the stream's start; enum desk_reason */
} desk_damage;

/* ---- For the functions below: the exports take no null pointer, so that a list without memory stands at `nothing`. */

static inline uint8_t *desk_bytes_(uint8_t *lent, uint64_t *nothing) { return lent != NULL ? lent : (uint8_t *)nothing; }

static inline uint32_t *desk_words_(void *lent, uint64_t *nothing) { return (uint32_t *)(lent != NULL ? lent : (void *)nothing); }

static inline const uint8_t *desk_read_(const void *lent, const uint64_t *nothing) {
    return (const uint8_t *)(lent != NULL ? lent : (const void *)nothing);
}

static inline const uint64_t *desk_longs_(const uint64_t *lent, const uint64_t *nothing) { return lent != NULL ? lent : nothing; }

/* So many elements in words; where there is no such number, one over every limit. */
static inline size_t desk_count_(size_t elements, size_t words) { return elements <= SIZE_MAX / words ? elements * words : SIZE_MAX; }

static inline uint64_t desk_field_(const uint8_t *bytes, int width) {
    uint64_t n = 0;
    while (0 < width--) n = n << 8 | bytes[width];
    return n;
}

/* ---- Names. Numbers run from 0 in order of first arrival and are never taken back. */

/* Is the list well-formed? 0, 15, 14. After any answer: all as before. */
static inline uint32_t desk_names_check(const desk_names *names) {
    uint64_t nothing = 0;
    return desk_check_names(desk_bytes_(names->bytes, &nothing), names->bytes_len, desk_words_(names->ends, &nothing), names->ends_len,
                            names->names, names->name_bytes);
}

/* The number of a name, which joins the list if it is new. 0, 15, 14, 4, 5.
 * After 0: *symbol is the number, and the list holds the name. After any other answer: all as before. */
static inline uint32_t desk_names_add(desk_names *names, const char *name, size_t name_len, uint32_t *symbol) {
    uint64_t nothing = 0;
    uint32_t unwanted = 0;
    return desk_number_of(desk_bytes_(names->bytes, &nothing), names->bytes_len, desk_words_(names->ends, &nothing), names->ends_len,
                          &names->names, &names->name_bytes, desk_read_(name, &nothing), name_len, symbol != NULL ? symbol : &unwanted);
}

/* The name of a symbol. 0, 15, 14, 3.
 * After 0: *name is the name. After any other answer: all as before. */
static inline uint32_t desk_names_get(const desk_names *names, uint32_t symbol, desk_name *name) {
    uint64_t nothing = 0;
    desk_name unwanted = {"", 0}, *out = name != NULL ? name : &unwanted;
    size_t first = 0;
    uint32_t number = desk_place_of_name(desk_bytes_(names->bytes, &nothing), names->bytes_len, desk_words_(names->ends, &nothing),
                                         names->ends_len, names->names, names->name_bytes, symbol, &first, &out->len);
    if (number != DESK_DONE) return number;
    out->text = names->bytes != NULL ? (const char *)names->bytes + first : "";
    out->len -= first;
    return number;
}

/* ---- The map over time. */

/* Is the table well-formed, with symbols of this name list? 0, 15, 14. After any answer: all as before. */
static inline uint32_t desk_table_check(const desk_table *table, const desk_names *names) {
    uint64_t nothing = 0;
    return desk_check(desk_bytes_(table->bytes, &nothing), table->bytes_len, table->used, names->names);
}

/* From start to before end the instrument has the symbol, whatever it had. start = end is done and changes nothing. 0, 15, 14, 1, 3, 2.
 * After 0: the table holds the outcome, and `used` counts it. After any other answer: all as before. */
static inline uint32_t desk_table_insert(desk_table *table, const desk_names *names, uint32_t instrument, uint64_t start, uint64_t end,
                                         uint32_t symbol) {
    uint64_t nothing = 0;
    return desk_insert(desk_bytes_(table->bytes, &nothing), table->bytes_len, &table->used, names->names, instrument, start, end, symbol);
}

/* The instrument's symbol at the moment. *cursor, kept between lookups of one instrument, makes the next one quick; it starts at 0, and
 * may be any number. With NULL each lookup starts anew. 0, 15.
 * After 0: *symbol is the symbol, DESK_NOTHING where there is none; *cursor is the interval arrived at, counted from 0 within the
 * instrument, and as before with an unknown instrument or a moment before the first interval. On a table that desk_table_check rejects
 * by 14 both say nothing. After 15: all as before. */
static inline uint32_t desk_table_get(const desk_table *table, uint32_t instrument, uint64_t moment, uint64_t *cursor, uint32_t *symbol) {
    uint64_t nothing = 0, anew = 0;
    uint32_t found = 0, unwanted = 0, *out = symbol != NULL ? symbol : &unwanted;
    uint32_t number = desk_get_for_ts(desk_bytes_(table->bytes, &nothing), table->bytes_len, table->used, instrument, moment,
                                      cursor != NULL ? cursor : &anew, &found, out);
    if (number == DESK_DONE && found == 0) *out = DESK_NOTHING;
    return number;
}

/* Why the instrument has a symbol at the moment, or none. 0, 15, 14.
 * After 0: *explanation tells. After any other answer: all as before. */
static inline uint32_t desk_table_explain(const desk_table *table, const desk_names *names, uint32_t instrument, uint64_t moment,
                                          desk_explanation *explanation) {
    uint64_t nothing = 0;
    desk_explanation unwanted, *out = explanation != NULL ? explanation : &unwanted;
    return desk_explain(desk_bytes_(table->bytes, &nothing), table->bytes_len, table->used, names->names, instrument, moment, &out->reason,
                        &out->index, &out->start, &out->end, &out->symbol, &out->next_start, &out->next_end, &out->next_symbol);
}

/* One record's bytes: a symbol mapping inserts its interval, and a new name joins the list; other kinds are done and change nothing.
 * 0, 15, 14, 13, 4, 1, 5, 2.
 * After 0: table and list hold the outcome. After 13: *reason is the reason (enum desk_reason), all else as before. After any other
 * answer: all as before. */
static inline uint32_t desk_table_record(desk_table *table, desk_names *names, const uint8_t *record, size_t record_len,
                                         uint64_t *reason) {
    uint64_t nothing = 0, unwanted = 0;
    return desk_on_record(desk_bytes_(table->bytes, &nothing), table->bytes_len, &table->used, desk_bytes_(names->bytes, &nothing),
                          names->bytes_len, desk_words_(names->ends, &nothing), names->ends_len, &names->names, &names->name_bytes,
                          desk_read_(record, &nothing), record_len, reason != NULL ? reason : &unwanted);
}

/* The table of a metadata, whatever the table held. Where stype_out is instrument ID, a mapping's name is the symbol, and the symbol of
 * each of its intervals is a name that says the instrument's number ("5001"); else where stype_in is, the other way round; else 9. An
 * interval whose symbol is empty is skipped. 0; 15, 14 for the name list, 9, then the first fault met: 3, 8, 11, 1, 2.
 * After 0: the table holds the outcome, and 0 in every place that is not in use. After any other answer: the table is empty, 0 in every
 * place. Metadata and list are as before after any answer. */
static inline uint32_t desk_table_build(desk_table *table, const desk_metadata *metadata, const desk_names *names) {
    uint64_t nothing = 0;
    return desk_build(desk_bytes_(table->bytes, &nothing), table->bytes_len, &table->used, metadata->header, DESK_HEADER_WORDS,
                      desk_words_(metadata->symbols, &nothing), metadata->symbols_len, desk_words_(metadata->partial, &nothing),
                      metadata->partial_len, desk_words_(metadata->not_found, &nothing), metadata->not_found_len,
                      desk_words_(metadata->mappings, &nothing), desk_count_(metadata->mappings_len, DESK_MAPPING_WORDS),
                      desk_words_(metadata->intervals, &nothing), desk_count_(metadata->intervals_len, DESK_INTERVAL_WORDS),
                      desk_bytes_(names->bytes, &nothing), names->bytes_len, desk_words_(names->ends, &nothing), names->ends_len,
                      names->names, names->name_bytes);
}

/* Interval i of a table, counted from 0; 1 where there is one, else 0.
 * After 1: *interval is the interval. After 0: all as before. */
static inline int desk_table_interval(const desk_table *table, size_t i, desk_interval *interval) {
    const uint8_t *row;
    if (table->used <= i || table->bytes_len / DESK_INTERVAL_BYTES <= i) return 0;
    row = table->bytes + i * DESK_INTERVAL_BYTES;
    if (interval == NULL) return 1;
    interval->instrument = (uint32_t)desk_field_(row, 4);
    interval->symbol = (uint32_t)desk_field_(row + 4, 4);
    interval->start = desk_field_(row + 8, 8);
    interval->end = desk_field_(row + 16, 8);
    return 1;
}

/* ---- Two tables of one name list side by side. */

/* Every stretch of time in which the tables disagree, as long as can be, sorted by instrument and start. The tables are only read, and
 * may be one. Room for DESK_STRETCHES(left->used, right->used) always suffices. 0, 15, 14, 2.
 * After 0: `stretches` holds them from its front, and `count` counts them. After any other answer: all as before. */
static inline uint32_t desk_table_compare(const desk_table *left, const desk_table *right, const desk_names *names,
                                          desk_stretches *stretches) {
    uint64_t nothing = 0;
    return desk_compare(desk_bytes_(left->bytes, &nothing), left->bytes_len, left->used, desk_bytes_(right->bytes, &nothing),
                        right->bytes_len, right->used, names->names, desk_bytes_(stretches->bytes, &nothing), stretches->bytes_len,
                        &stretches->count);
}

/* Stretch i of a comparison, counted from 0; 1 where there is one, else 0.
 * After 1: *stretch is the stretch. After 0: all as before. */
static inline int desk_stretches_get(const desk_stretches *stretches, size_t i, desk_stretch *stretch) {
    const uint8_t *row;
    if (stretches->count <= i || stretches->bytes_len / DESK_STRETCH_BYTES <= i) return 0;
    row = stretches->bytes + i * DESK_STRETCH_BYTES;
    if (stretch == NULL) return 1;
    stretch->instrument = (uint32_t)desk_field_(row, 4);
    stretch->left = (uint32_t)desk_field_(row + 4, 4);
    stretch->right = (uint32_t)desk_field_(row + 8, 4);
    stretch->start = desk_field_(row + 12, 8);
    stretch->end = desk_field_(row + 20, 8);
    return 1;
}

/* ---- The point-in-time table. */

/* Is the table well-formed, with symbols of this name list? 0, 15, 14. After any answer: all as before. */
static inline uint32_t desk_point_table_check(const desk_point_table *table, const desk_names *names) {
    uint64_t nothing = 0;
    return desk_check_points(desk_bytes_(table->bytes, &nothing), table->bytes_len, table->used, names->names);
}

/* The instrument's symbol. 0, 15.
 * After 0: *symbol is the symbol, DESK_NOTHING where there is none; on a table that desk_point_table_check rejects by 14 it says
 * nothing. After 15: all as before. */
static inline uint32_t desk_point_table_get(const desk_point_table *table, uint32_t instrument, uint32_t *symbol) {
    uint64_t nothing = 0;
    uint32_t found = 0, unwanted = 0, *out = symbol != NULL ? symbol : &unwanted;
    uint32_t number = desk_get_point(desk_bytes_(table->bytes, &nothing), table->bytes_len, table->used, instrument, &found, out);
    if (number == DESK_DONE && found == 0) *out = DESK_NOTHING;
    return number;
}

/* One record's bytes: a symbol mapping sets the instrument's entry, whatever its times say, and a new name joins the list; other kinds are
 * done and change nothing. 0, 15, 14, 13, 4, 5, 2.
 * After 0: table and list hold the outcome. After 13: *reason is the reason (enum desk_reason), all else as before. After any other
 * answer: all as before. */
static inline uint32_t desk_point_table_record(desk_point_table *table, desk_names *names, const uint8_t *record, size_t record_len,
                                               uint64_t *reason) {
    uint64_t nothing = 0, unwanted = 0;
    return desk_on_record_point(desk_bytes_(table->bytes, &nothing), table->bytes_len, &table->used, desk_bytes_(names->bytes, &nothing),
                                names->bytes_len, desk_words_(names->ends, &nothing), names->ends_len, &names->names,
                                &names->name_bytes, desk_read_(record, &nothing), record_len, reason != NULL ? reason : &unwanted);
}

/* The table of a metadata for a date (YYYYMMDD), whatever the table held; names and numbers as desk_table_build has them. Of each mapping
 * the first interval with the date in it counts. 0; 15, 14 for the name list, 11 for the date, 9, 10, then the first fault met: 11, 3, 8,
 * 2.
 * After 0: the table holds the outcome, and 0 in every place that is not in use. After any other answer: the table is empty, 0 in every
 * place. Metadata and list are as before after any answer. */
static inline uint32_t desk_point_table_build(desk_point_table *table, const desk_metadata *metadata, const desk_names *names,
                                              uint32_t date) {
    uint64_t nothing = 0;
    return desk_build_points(desk_bytes_(table->bytes, &nothing), table->bytes_len, &table->used, metadata->header, DESK_HEADER_WORDS,
                             desk_words_(metadata->symbols, &nothing), metadata->symbols_len, desk_words_(metadata->partial, &nothing),
                             metadata->partial_len, desk_words_(metadata->not_found, &nothing), metadata->not_found_len,
                             desk_words_(metadata->mappings, &nothing), desk_count_(metadata->mappings_len, DESK_MAPPING_WORDS),
                             desk_words_(metadata->intervals, &nothing), desk_count_(metadata->intervals_len, DESK_INTERVAL_WORDS),
                             desk_bytes_(names->bytes, &nothing), names->bytes_len, desk_words_(names->ends, &nothing), names->ends_len,
                             names->names, names->name_bytes, date);
}

/* ---- Dates, numbers, texts. */

/* The moment at which a date (YYYYMMDD) starts. 0, 11.
 * After 0: *moment is the moment. After 11: all as before. */
static inline uint32_t desk_date_start(uint32_t date, uint64_t *moment) {
    uint32_t day = 0, number = desk_day_of(date, &day);
    uint64_t unwanted = 0;
    return number != DESK_DONE ? number : desk_day_start(day, moment != NULL ? moment : &unwanted);
}

/* The date (YYYYMMDD) on which a moment lies. 0 alone.
 * After 0: *date is the date. */
static inline uint32_t desk_date_at(uint64_t moment, uint32_t *date) {
    uint32_t unwanted = 0;
    return desk_date_of((uint32_t)(moment / UINT64_C(86400000000000)), date != NULL ? date : &unwanted);
}

/* The number that a text says: an optional single `+`, then one or more ASCII digits, at most 4294967295. 0, 8.
 * After 0: *value is the number. After 8: all as before. */
static inline uint32_t desk_text_number(const char *text, size_t text_len, uint32_t *value) {
    uint64_t nothing = 0;
    uint32_t unwanted = 0;
    return desk_number_text(desk_read_(text, &nothing), text_len, value != NULL ? value : &unwanted);
}

/* Is a text UTF-8 (RFC 3629)? 0, 4. After any answer: all as before. */
static inline uint32_t desk_text_check(const char *text, size_t text_len) {
    uint64_t nothing = 0;
    return desk_utf8(desk_read_(text, &nothing), text_len);
}

/* ---- Metadata: the first begins a gathered one, the others are added, and it is ended. */

/* The first metadata loses its repeats: equal entries of a set once, and of two mappings with one name the last, at the place of the
 * first. It takes DESK_METADATA_BEGIN_STACK bytes of stack. 0, 15.
 * After 0: the lists hold what is left, and the header's numbers in use count it. After 15: all as before. */
static inline uint32_t desk_metadata_begin(desk_metadata *metadata) {
    uint64_t nothing = 0;
    return desk_metadata_open(metadata->header, DESK_HEADER_WORDS, desk_words_(metadata->symbols, &nothing), metadata->symbols_len,
                              desk_words_(metadata->partial, &nothing), metadata->partial_len,
                              desk_words_(metadata->not_found, &nothing), metadata->not_found_len,
                              desk_words_(metadata->mappings, &nothing), desk_count_(metadata->mappings_len, DESK_MAPPING_WORDS),
                              desk_words_(metadata->intervals, &nothing), desk_count_(metadata->intervals_len, DESK_INTERVAL_WORDS));
}

/* One more metadata into the gathered one, which needs room for the outcome. Sets and mappings keep the order of first arrival, the
 * intervals of one name are merged, start is the lesser, end the greater, an unequal schema becomes none, limit none. It takes
 * DESK_METADATA_ADD_STACK bytes of stack. 0; 15, 6, 11, 3, 1, 7, 2.
 * After 0: the gathered one's header and lists are the outcome. After 6: *field is the first field that differs (enum desk_field), all
 * else as before. After any other answer: all as before. The added one is as before after any answer. */
static inline uint32_t desk_metadata_add(desk_metadata *gathered, const desk_metadata *added, const desk_names *names, uint32_t *field) {
    uint64_t nothing = 0;
    uint32_t unwanted = 0;
    return desk_metadata_merge(
        names->names, gathered->header, DESK_HEADER_WORDS, desk_words_(gathered->symbols, &nothing), gathered->symbols_len,
        desk_words_(gathered->partial, &nothing), gathered->partial_len, desk_words_(gathered->not_found, &nothing),
        gathered->not_found_len, desk_words_(gathered->mappings, &nothing), desk_count_(gathered->mappings_len, DESK_MAPPING_WORDS),
        desk_words_(gathered->intervals, &nothing), desk_count_(gathered->intervals_len, DESK_INTERVAL_WORDS), added->header,
        DESK_HEADER_WORDS, desk_words_(added->symbols, &nothing), added->symbols_len, desk_words_(added->partial, &nothing),
        added->partial_len, desk_words_(added->not_found, &nothing), added->not_found_len, desk_words_(added->mappings, &nothing),
        desk_count_(added->mappings_len, DESK_MAPPING_WORDS), desk_words_(added->intervals, &nothing),
        desk_count_(added->intervals_len, DESK_INTERVAL_WORDS), field != NULL ? field : &unwanted);
}

/* The gathered metadata is finished: nothing changes. 0, 15. After any answer: all as before. */
static inline uint32_t desk_metadata_end(const desk_metadata *metadata) {
    uint64_t nothing = 0;
    return desk_metadata_finish(metadata->header, DESK_HEADER_WORDS, desk_words_(metadata->symbols, &nothing), metadata->symbols_len,
                                desk_words_(metadata->partial, &nothing), metadata->partial_len,
                                desk_words_(metadata->not_found, &nothing), metadata->not_found_len,
                                desk_words_(metadata->mappings, &nothing), desk_count_(metadata->mappings_len, DESK_MAPPING_WORDS),
                                desk_words_(metadata->intervals, &nothing), desk_count_(metadata->intervals_len, DESK_INTERVAL_WORDS));
}

/* The hint of a metadata's own stream for desk_merge_open, before any merge: where the metadata starts. 0, 15.
 * After 0: *hint is the hint. After 15: all as before. */
static inline uint32_t desk_metadata_hint(const desk_metadata *metadata, uint64_t *hint) {
    uint64_t unwanted = 0;
    return desk_hint_of(metadata->header, DESK_HEADER_WORDS, hint != NULL ? hint : &unwanted);
}

/* ---- Merging records. A record is its whole length (2 bytes, 16 to 1,024), kind (2), instrument (4) and time (8), all little-endian, then
 * its body. That of a symbol mapping (kind DESK_SYMBOL_MAPPING) is start (8), end (8), each DESK_MISSING where there is none, and the
 * name. The merge looks at no body. */

/* Opens the streams, which stand in one buffer one after another: stream p from cuts[p] to before cuts[p + 1], so that there is one cut
 * more than streams, the first is 0, the last the buffer's length. A stream is first chosen by its hint; with no hints (NULL, 0) all are
 * 0. Reads no stream. 0; 15 never; 12 for no stream, over 256, cuts wrong, or hints given and not one a stream.
 * After 0: *merge stands before the first record. After 12: all as before. */
static inline uint32_t desk_merge_open(desk_merge *merge, const uint8_t *buffer, size_t buffer_len, const uint64_t *cuts, size_t cuts_len,
                                       const uint64_t *hints, size_t hints_len) {
    uint64_t nothing = 0;
    uint32_t number = desk_open(desk_read_(buffer, &nothing), buffer_len, desk_longs_(cuts, &nothing), cuts_len,
                                desk_longs_(hints, &nothing), hints_len, merge->marks, DESK_STREAMS, merge->times, DESK_STREAMS,
                                merge->places, DESK_STREAMS, merge->heads, DESK_STREAMS, merge->heap, DESK_STREAMS, &merge->streams,
                                &merge->held);
    if (number != DESK_DONE) return number;
    merge->buffer = buffer;
    merge->buffer_len = buffer_len;
    merge->cuts = cuts;
    merge->cuts_len = cuts_len;
    return number;
}

/* The next record, by time, then stream; the damage of a stream, which is closed by it, while the others go on; or the end, which stays.
 * 0, 13, and 15 of a merge that desk_merge_open did not make, which says nothing whatever the number is.
 * After 0: *record is the record, at the end with found = 0, and *damage is as before. After 13: *damage is the damage, *record is as
 * before; the program goes on with the same merge. After both *merge stands before what comes next. After 15: all as before. */
static inline uint32_t desk_merge_next(desk_merge *merge, desk_record *record, desk_damage *damage) {
    uint64_t nothing = 0, stream = 0, place = 0;
    desk_record no_record, *r = record != NULL ? record : &no_record;
    desk_damage no_damage, *d = damage != NULL ? damage : &no_damage;
    uint32_t number = desk_next(desk_read_(merge->buffer, &nothing), merge->buffer_len, desk_longs_(merge->cuts, &nothing),
                                merge->cuts_len, merge->marks, DESK_STREAMS, merge->times, DESK_STREAMS, merge->places, DESK_STREAMS,
                                merge->heads, DESK_STREAMS, merge->heap, DESK_STREAMS, &merge->held, &r->found, &stream, &place,
                                &r->length, &r->kind, &r->instrument, &r->time, &d->reason);
    if (number == DESK_DAMAGED) {
        d->stream = stream;
        d->place = place;
    }
    if (number == DESK_DONE) {
        r->stream = stream;
        r->place = place;
        r->bytes = r->found != 0 && stream < merge->cuts_len ? merge->buffer + merge->cuts[stream] + place : NULL;
    }
    return number;
}

/* Many calls of desk_merge_next at once: at most `allowance` of them, up to DESK_RUN_CALLS, and no more than the list has room for,
 * `list_len` records. Each record's stream, place and time go to the list, DESK_RUN_WORDS words a record, from its front. It stops after
 * the end and after damage too. 0, 13, 15 for more calls than that.
 * After 0: *calls is the number of calls made, *written that of records in the list, and *last 1 where a further call may be made and 0 at
 * the end. After 13, which was the last call: *calls and *written too, *damage is the damage, and *last is as before. After both *merge
 * stands before what comes next, and the list's words behind the records written are as before. After 15: all as before. */
static inline uint32_t desk_merge_run(desk_merge *merge, size_t allowance, uint64_t *list, size_t list_len, size_t *calls, size_t *written,
                                      uint32_t *last, desk_damage *damage) {
    uint64_t nothing = 0, stream = 0, place = 0;
    size_t made = 0, laid = 0;
    uint32_t going = 0;
    desk_damage no_damage, *d = damage != NULL ? damage : &no_damage;
    uint32_t number = desk_run(desk_read_(merge->buffer, &nothing), merge->buffer_len, desk_longs_(merge->cuts, &nothing),
                               merge->cuts_len, merge->marks, DESK_STREAMS, merge->times, DESK_STREAMS, merge->places, DESK_STREAMS,
                               merge->heads, DESK_STREAMS, merge->heap, DESK_STREAMS, &merge->held, allowance,
                               list != NULL ? list : &nothing, desk_count_(list_len, DESK_RUN_WORDS), calls != NULL ? calls : &made,
                               written != NULL ? written : &laid, last != NULL ? last : &going, &stream, &place, &d->reason);
    if (number == DESK_DAMAGED) {
        d->stream = stream;
        d->place = place;
    }
    return number;
}

/* ---- Merging records of streams that arrive in portions:
 *     for (;;) {
 *         number = desk_feed_read(&feed, &record, &damage);
 *         if (number == DESK_DONE && record.found == DESK_NEED_MORE) {
 *             get bytes of stream record.stream, from the number taken so far on: desk_feed_add, and add *taken to that number;
 *             or learn that there are none to come: desk_feed_finish;
 *         } else if (number == DESK_DAMAGED) tell the damage;
 *         else if (number != DESK_DONE || record.found == 0) break;
 *         else use the record;
 *     } */

/* Opens streams of which nothing has come yet. A stream is first chosen by its hint; with no hints (NULL, 0) all are 0. 0; 15 never;
 * 12 for no stream, over 256, or hints given and not one a stream.
 * After 0: *feed stands before the first record. After 12: all as before. */
static inline uint32_t desk_feed_begin(desk_feed *feed, size_t streams, const uint64_t *hints, size_t hints_len) {
    uint64_t nothing = 0;
    return desk_feed_open(streams, desk_longs_(hints, &nothing), hints_len, feed->marks, DESK_STREAMS, feed->times, DESK_STREAMS,
                          feed->places, DESK_STREAMS, feed->heads, DESK_STREAMS, feed->heap, DESK_STREAMS, feed->spans, DESK_STREAMS,
                          &feed->held);
}

/* The next bytes of a stream: as many are taken as fit; the rest is handed in later. A stream of which more is needed takes at least
 * one, until it has taken 2^63. 0; 15 never; 12 for a stream that is not there, closed, or ended.
 * After 0: *taken is the number of bytes taken from the portion's front, 0 too, and the bytes of a record that this stream handed out
 * are no longer where they were. After 12: all as before. */
static inline uint32_t desk_feed_add(desk_feed *feed, uint64_t stream, const uint8_t *portion, size_t portion_len, size_t *taken) {
    uint64_t nothing = 0;
    size_t unwanted = 0;
    return desk_feed_bytes(stream, desk_read_(portion, &nothing), portion_len, feed->marks, DESK_STREAMS, feed->places, DESK_STREAMS,
                           feed->heads, DESK_STREAMS, feed->spans, DESK_STREAMS, feed->window, DESK_WINDOW_BYTES,
                           taken != NULL ? taken : &unwanted);
}

/* A stream has ended: no byte of it is to come. 0; 15 never; 12 for a stream that is not there, closed, or ended.
 * After 0: *feed knows. After 12: all as before. */
static inline uint32_t desk_feed_finish(desk_feed *feed, uint64_t stream) {
    return desk_feed_end(stream, feed->marks, DESK_STREAMS, feed->spans, DESK_STREAMS);
}

/* The next record, by time, then stream; the damage of a stream, which is closed by it, while the others go on; the end, which stays;
 * or that more of a stream is needed first. 0, 13, and 15 of a feed that desk_feed_begin did not make, which says nothing whatever the
 * number is.
 * After 0: *record is the record, whose bytes stand in the feed until the next desk_feed_read, or desk_feed_add to its stream; at the
 * end all of it is 0; where more is needed `found` is DESK_NEED_MORE, `stream` the stream, and all else 0; *damage is as before. After
 * 13: *damage is the damage, *record is as before. After both *feed stands before what comes next. After 15: all as before. */
static inline uint32_t desk_feed_read(desk_feed *feed, desk_record *record, desk_damage *damage) {
    uint64_t stream = 0, place = 0, time = 0, reason = 0;
    uint32_t found = 0, instrument = 0, number;
    uint16_t length = 0, kind = 0;
    size_t at = 0;
    number = desk_feed_next(feed->window, DESK_WINDOW_BYTES, feed->marks, DESK_STREAMS, feed->times, DESK_STREAMS, feed->places,
                            DESK_STREAMS, feed->heads, DESK_STREAMS, feed->heap, DESK_STREAMS, feed->spans, DESK_STREAMS, &feed->held,
                            &found, &stream, &place, &at, &length, &kind, &instrument, &time, &reason);
    if (number == DESK_DAMAGED && damage != NULL) {
        damage->stream = stream;
        damage->place = place;
        damage->reason = reason;
    }
    if (number == DESK_DONE && record != NULL) {
        record->found = found;
        record->instrument = instrument;
        record->stream = stream;
        record->place = place;
        record->time = time;
        record->length = length;
        record->kind = kind;
        record->bytes = found == 1 && at < DESK_WINDOW_BYTES ? feed->window + at : NULL;
    }
    return number;
}

/* Many calls of desk_feed_read at once: at most `allowance` of them, up to DESK_RUN_CALLS, and no more than the list has room for,
 * `list_len` records. Each record's stream, place and time go to the list, DESK_RUN_WORDS words a record, from its front. It stops after
 * the end, after damage, and where more of a stream is needed first. A record's bytes are not in the list: desk_feed_read has them. 0,
 * 13, and 15 for more calls than that, or of a feed that desk_feed_begin did not make, which says nothing whatever the number.
 * After 0: *calls is the number of calls made, *written that of records in the list, and *last 1 where a further call may be made, 0 at
 * the end, and DESK_NEED_MORE where more is needed: then *stream is that stream, and otherwise 0. After 13, which was the last call:
 * *calls and *written too, *damage is the damage, and *last and *stream are as before. After both *feed stands before what comes next, and
 * the list's words behind the records written are as before. After 15: all as before. */
static inline uint32_t desk_feed_read_run(desk_feed *feed, size_t allowance, uint64_t *list, size_t list_len, size_t *calls,
                                          size_t *written, uint32_t *last, uint64_t *stream, desk_damage *damage) {
    uint64_t nothing = 0, of = 0, place = 0;
    size_t made = 0, laid = 0;
    uint32_t going = 0;
    desk_damage no_damage, *d = damage != NULL ? damage : &no_damage;
    uint32_t number = desk_feed_run(feed->window, DESK_WINDOW_BYTES, feed->marks, DESK_STREAMS, feed->times, DESK_STREAMS, feed->places,
                                    DESK_STREAMS, feed->heads, DESK_STREAMS, feed->heap, DESK_STREAMS, feed->spans, DESK_STREAMS,
                                    &feed->held, allowance, list != NULL ? list : &nothing, desk_count_(list_len, DESK_RUN_WORDS),
                                    calls != NULL ? calls : &made, written != NULL ? written : &laid, last != NULL ? last : &going, &of,
                                    &place, &d->reason);
    if (number == DESK_DAMAGED) {
        d->stream = of;
        d->place = place;
    }
    if (number == DESK_DONE && stream != NULL) *stream = of;
    return number;
}

#endif
