/* The replay desk at the C door, by the rules of docs/RULES.md: the library's exports, on numbers and lent memory. A program includes
 * desk.h, which includes this file and has structs, and functions over them.
 *
 * Every function returns the rules' number: DESK_DONE (0) or one of the refusals below. Further results come back through
 * pointers to single numbers. Every call ends, on any content of the memory.
 *
 * What stands behind the pointers afterwards each function says by the number returned. "As before" is as it was at the call. What
 * is not named there is as before, and what a pointer to const leads to always is. In short: a refusal leaves all as before, but a
 * refused build leaves an empty table, 6 sets its field, 13 its reason, and 13 from desk_next, desk_feed_next, desk_run and
 * desk_feed_run its stream and place too, and it moves the state of the merge on as 0 does, and in a run (both) the calls, the records
 * written and the list.
 *
 * What a caller owes. None of it can be seen from inside, so nothing tests it:
 *   - a pointer beside a length points to as many elements as the length says, one to a single number to that number;
 *   - each pointer is aligned for its type, and none is null, also where its length is 0;
 *   - nothing that a call may write overlaps anything else that the call is handed;
 *   - no other thread writes, during a call, what the call is handed; there is no state beside what is handed in, so that
 *     calls on different memory may run at the same time;
 *   - DESK_STACK bytes of stack are free; for desk_metadata_open and desk_metadata_merge the bytes named beside it.
 * Of the C library the archive needs memcpy and memset alone.
 *
 * Lengths are in elements. Instruments, symbols and dates are 32 bits wide, moments, hints, cuts and places 64. A symbol is a
 * name's number. A moment is nanoseconds since the start of 1970-01-01. An interval holds its start and not its end. */
#ifndef DESK_EXPORTS_H
#define DESK_EXPORTS_H

#include <stddef.h>
#include <stdint.h>

#ifdef __cplusplus
extern "C" {
#endif

/* The numbers the desk lives by. */
#define DESK_INTERVAL_BYTES 24    /* of a table over time: instrument 4, symbol 4, start 8, end 8, little-endian */
#define DESK_STRETCH_BYTES 28     /* of a stretch in which two tables disagree: instrument 4, left symbol 4, right one 4, start 8, end 8 */
#define DESK_NOTHING 4294967295u  /* in a stretch: no symbol on this side */
#define DESK_STRETCHES(l, r) (2 * ((size_t)(l) + (size_t)(r))) /* the stretches of two tables with so many in use fit this room */
#define DESK_POINT_BYTES 8        /* of a point-in-time table: instrument 4, symbol 4, little-endian */
#define DESK_ROOM 65536           /* the most intervals, or entries, that a table's memory may hold */
#define DESK_NAMES 4096           /* the most names of a list */
#define DESK_NAME_LIST_BYTES 65536 /* the most bytes of all names together */
#define DESK_NAME_BYTES 255       /* the most bytes of one name */
#define DESK_STREAMS 256          /* the most streams of a merge, and the places of each of its arrays */
#define DESK_WINDOW 1024          /* the most bytes of a stream that are held where streams arrive in portions */
#define DESK_WINDOW_BYTES 262144  /* DESK_STREAMS windows */
#define DESK_NEED_MORE 2          /* *found of desk_feed_next, *last of desk_feed_run: more of *stream is needed first */
#define DESK_RECORD_HEADER 16     /* a record's least length: whole length 2, kind 2, instrument 4, timestamp 8 */
#define DESK_RECORD_BYTES 1024    /* a record's greatest length */
#define DESK_SYMBOL_MAPPING 2     /* the kind of a symbol mapping record: start 8, end 8, then the name */
#define DESK_MISSING UINT64_MAX   /* a missing start or end of a symbol mapping */
#define DESK_LAST_DAY 213503      /* 2554-07-21 */
#define DESK_ENTRIES 4096         /* the most entries of each of a metadata's three sets */
#define DESK_MAPPINGS 4096        /* the most mappings of a metadata */
#define DESK_INTERVALS 65536      /* the most intervals of a metadata, of all its mappings together */
#define DESK_MAPPING_WORDS 2      /* of a mapping: name, number of intervals */
#define DESK_INTERVAL_WORDS 3     /* of an interval of a metadata: start date, end date, symbol */
#define DESK_NO_SCHEMA 65535      /* a metadata without a schema, or with several */
#define DESK_NO_STYPE 255         /* a metadata without a stype_in */
#define DESK_STACK 4096           /* the stack that a call needs, in bytes */
#define DESK_OPEN_STACK 1048576   /* the stack that desk_metadata_open needs: its outcome stands there before it is laid out */
#define DESK_MERGE_STACK 5242880  /* the stack that desk_metadata_merge needs: both sides together stand there */

/* What a call returns. */
enum desk_number {
    DESK_DONE = 0,
    DESK_REVERSED = 1,          /* start comes after end */
    DESK_NO_ROOM = 2,           /* the outcome would not fit the room */
    DESK_UNKNOWN_SYMBOL = 3,    /* symbol number never handed out */
    DESK_BAD_NAME = 4,          /* name over 255 bytes, or not UTF-8 */
    DESK_NO_NAME_ROOM = 5,      /* a new name would pass 4,096 names, 65,536 bytes or the room lent for names */
    DESK_DIFFER = 6,            /* metadata differ; the field comes with it */
    DESK_CONFLICT = 7,          /* intervals conflict */
    DESK_NOT_NUMBER = 8,        /* text is not a u32 */
    DESK_NO_INSTRUMENT_ID = 9,  /* neither side is instrument ID */
    DESK_OUTSIDE_QUERY = 10,    /* date outside the query range */
    DESK_NO_DATE = 11,          /* no such date, or outside 1970-01-01 to 2554-07-21 */
    DESK_BAD_STREAMS = 12,      /* stream list wrong */
    DESK_DAMAGED = 13,          /* stream or mapping record damaged, with stream, place and reason */
    DESK_ILL_FORMED = 14,       /* table or name list is not well-formed (lookup alone doesn't test it) */
    DESK_BAD_MEMORY = 15        /* lent memory has unequal lengths or is over a limit, or a number in use is over its room */
};

/* The reasons of 13. */
enum desk_reason {
    DESK_SHORT = 1,             /* fewer than 16 bytes left */
    DESK_BAD_LENGTH = 2,        /* length outside 16 to 1,024 */
    DESK_PAST_END = 3,          /* length past the end; of a single record also bytes left over */
    DESK_SHORT_BODY = 4         /* a symbol mapping with a body under 16 bytes */
};

/* What desk_explain tells of an instrument and a moment. */
enum desk_explained {
    DESK_IN = 1,                /* in an interval: there is a symbol */
    DESK_UNKNOWN = 2,           /* the table has no interval of the instrument */
    DESK_BEFORE = 3,            /* before its first interval */
    DESK_AFTER = 4,             /* after its last */
    DESK_BETWEEN = 5            /* in the gap between two neighbours */
};

/* ---- The map over time. A table is bytes, 24 an interval, of which `used` intervals from the front are in use. */

/* Is the table well-formed? Sorted by instrument; for each instrument the intervals are non-empty, sorted by start, disjoint,
 * and two that touch have different symbols; every symbol is below `names`, the number of names handed out. 0, 15, 14.
 * After any answer: all as before. */
uint32_t desk_check(const uint8_t *table, size_t table_len, size_t used, size_t names);

/* From start to before end the instrument has the symbol, whatever it had. Intervals that touch with the same symbol are
 * joined. 15, 14, then 1; start = end is done and changes nothing; 3; 2, judged on the whole table after the insert.
 * After 0: *used is the new number in use, and the table's first *used places hold the intervals; places that are freed hold 0,
 * other unused ones are as before. After any other answer: all as before. */
uint32_t desk_insert(uint8_t *table, size_t table_len, size_t *used, size_t names, uint32_t instrument, uint64_t start,
                     uint64_t end, uint32_t symbol);

/* The instrument's symbol at the moment. *hint may be any number; kept between lookups of one instrument it is a cursor, and starts
 * at 0. 0, 15.
 * After 0: *found is 1 and *symbol the symbol, or both are 0 where there is none; *hint is the interval arrived at, counted from 0
 * within the instrument, and as before with an unknown instrument or a moment before the first interval. On a table that
 * desk_check rejects by 14 the three say nothing. After 15: all as before. */
uint32_t desk_get_for_ts(const uint8_t *table, size_t table_len, size_t used, uint32_t instrument, uint64_t moment,
                         uint64_t *hint, uint32_t *found, uint32_t *symbol);

/* One record's bytes: a symbol mapping inserts its interval, a missing start as 0, a missing end as 18446744073709551615; other
 * kinds are done and change nothing. A new name joins the name list only when the interval is stored. 15, 14 (table and name
 * list), 13, 4, 1; start = end is done and changes nothing; 5, 2.
 * After 0: the table and *used are as desk_insert leaves them, and the name list, *names and *name_bytes as desk_number_of does. After
 * 13: *reason is the reason, all else as before. After any other answer: all as before. */
uint32_t desk_on_record(uint8_t *table, size_t table_len, size_t *used, uint8_t *bytes, size_t bytes_len, uint32_t *ends,
                        size_t ends_len, size_t *names, size_t *name_bytes, const uint8_t *record, size_t record_len,
                        uint64_t *reason);

/* Two tables of one name list side by side: every stretch of time in which they disagree, as long as can be, sorted by instrument
 * and start, each once, 28 bytes each: instrument, the left table's symbol or DESK_NOTHING, the right one's, start and end. At
 * every moment outside them both tables give the same answer. The tables are only read, and may be the same memory. When done
 * *count is the number of stretches, which stand from the front of `stretches`; places past them keep what they held. After a
 * refusal *count and every byte of `stretches` are as they were. 15, also where stretches_len is no multiple of 28; 14 for either
 * table; 2, judged on the whole list: room for DESK_STRETCHES(left_used, right_used) always suffices. */
uint32_t desk_compare(const uint8_t *left, size_t left_len, size_t left_used, const uint8_t *right, size_t right_len,
                      size_t right_used, size_t names, uint8_t *stretches, size_t stretches_len, size_t *count);

/* Why the instrument has a symbol at the moment, or none. 0, 15, 14: unlike a lookup it checks the table, which is linear in `used`;
 * the rest is logarithmic.
 * After 0: *reason is one of enum desk_explained. *index, *start, *end and *symbol are of the interval that it is in, the first, the
 * last, or the gap's left neighbour, as stored, *index counted from 0 within the instrument, as hints count; *next_start, *next_end
 * and *next_symbol are of the gap's right neighbour, whose index is one more. What a reason does not name is 0. desk_get_for_ts finds
 * a symbol exactly where *reason is DESK_IN, and it is *symbol; its new hint is *index, but with DESK_UNKNOWN and DESK_BEFORE it
 * stays. After any other answer: all as before. */
uint32_t desk_explain(const uint8_t *table, size_t table_len, size_t used, size_t names, uint32_t instrument, uint64_t moment,
                      uint32_t *reason, uint64_t *index, uint64_t *start, uint64_t *end, uint32_t *symbol,
                      uint64_t *next_start, uint64_t *next_end, uint32_t *next_symbol);

/* ---- The point-in-time table: bytes, 8 an entry, of which `used` entries from the front are in use. */

/* Is the table well-formed? Sorted by instrument, each once, every symbol below `names`. 0, 15, 14.
 * After any answer: all as before. */
uint32_t desk_check_points(const uint8_t *table, size_t table_len, size_t used, size_t names);

/* The instrument's symbol. 0, 15.
 * After 0: *found is 1 and *symbol the symbol, or both are 0 where there is none; on a table that desk_check_points rejects by 14
 * the two say nothing. After 15: all as before. */
uint32_t desk_get_point(const uint8_t *table, size_t table_len, size_t used, uint32_t instrument, uint32_t *found,
                        uint32_t *symbol);

/* One record's bytes: a symbol mapping sets the instrument's entry and ignores both times; other kinds are done and change
 * nothing. A new name joins the name list only when done. 15, 14 (table and name list), 13, 4, 5, 2.
 * After 0: *used is the new number in use, and the table's first *used places hold the entries, the unused ones are as before; the
 * name list, *names and *name_bytes are as desk_number_of leaves them. After 13: *reason is the reason, all else as before. After any
 * other answer: all as before. */
uint32_t desk_on_record_point(uint8_t *table, size_t table_len, size_t *used, uint8_t *bytes, size_t bytes_len,
                              uint32_t *ends, size_t ends_len, size_t *names, size_t *name_bytes, const uint8_t *record,
                              size_t record_len, uint64_t *reason);

/* ---- Names. A name list is the names' bytes, one name after another, and where each name ends; `names` names and `name_bytes`
 * bytes are in use. Name n lies from the end of the one before it to its own end. Name numbers run from 0 in order of first
 * arrival and are never taken back. */

/* Is the list well-formed: do valid names (0 to 255 bytes of UTF-8) stand one after another? 0, 15, 14.
 * After any answer: all as before. */
uint32_t desk_check_names(const uint8_t *bytes, size_t bytes_len, const uint32_t *ends, size_t ends_len, size_t names,
                          size_t name_bytes);

/* The number of a name: the least with equal bytes, else the next new one, and the name joins the list. 15, 14, 4, 5.
 * After 0: *symbol is the number. A new name's bytes stand behind those that were in use, and so does its end; *names is one more,
 * *name_bytes more by its length, and unused places behind are as before. With an old name all else is as before. After any other
 * answer: all as before. */
uint32_t desk_number_of(uint8_t *bytes, size_t bytes_len, uint32_t *ends, size_t ends_len, size_t *names, size_t *name_bytes,
                        const uint8_t *name, size_t name_len, uint32_t *symbol);

/* Where a symbol's name lies among the bytes. 15, 14, 3.
 * After 0: *first is its first byte, *end its end. After any other answer: all as before. */
uint32_t desk_place_of_name(const uint8_t *bytes, size_t bytes_len, const uint32_t *ends, size_t ends_len, size_t names,
                            size_t name_bytes, uint32_t symbol, size_t *first, size_t *end);

/* ---- Numbers, days. A date is the number YYYYMMDD. */

/* The day of a date, since 1970-01-01. 0, 11.
 * After 0: *day is the day. After 11: all as before. */
uint32_t desk_day_of(uint32_t date, uint32_t *day);

/* The date of a day since 1970-01-01. 0, 11.
 * After 0: *date is the date. After 11: all as before. */
uint32_t desk_date_of(uint32_t day, uint32_t *date);

/* The moment at which a day since 1970-01-01 starts: days x 86,400,000,000,000 nanoseconds. 0, 11.
 * After 0: *moment is the moment. After 11: all as before. */
uint32_t desk_day_start(uint32_t day, uint64_t *moment);

/* The number that a text says: an optional single `+`, then one or more ASCII digits, at most 4294967295. 0, 8.
 * After 0: *value is the number. After 8: all as before. */
uint32_t desk_number_text(const uint8_t *text, size_t text_len, uint32_t *value);

/* Is a text, of any length, UTF-8 (RFC 3629)? 0, 4.
 * After any answer: all as before. */
uint32_t desk_utf8(const uint8_t *text, size_t text_len);

/* ---- Metadata. A metadata is a header of 14 words and five lists of words: symbols, partial, not_found (a word an entry, a name's
 * number), mappings (two words each: name, number of its intervals) and intervals (three words each: start date, end date,
 * symbol), those of the mappings one after the other. The header says how much of each list is in use; the intervals in use are
 * the sum of the mappings' numbers. 15 where a header has not 14 words or one of them is over the width named here, where a list
 * is over its limit or not made of whole mappings or intervals, or where more is in use than is lent. desk.h names the words again, as
 * DESK_HEADER_VERSION and so on: the names here stand between limits, moments and versions. */
enum desk_header {
    DESK_VERSION,         /* 8 bits */
    DESK_DATASET,         /* 32 bits, a name's number */
    DESK_SCHEMA,          /* 16 bits; DESK_NO_SCHEMA for none */
    DESK_START,           /* 64 bits, a moment */
    DESK_END,             /* 64 bits, a moment; 0 is missing */
    DESK_LIMIT,           /* 64 bits; 0 is missing */
    DESK_STYPE_IN,        /* 8 bits; 0 is instrument ID, DESK_NO_STYPE none */
    DESK_STYPE_OUT,       /* 8 bits; 0 is instrument ID */
    DESK_TS_OUT,          /* 0 or 1 */
    DESK_SYMBOL_CSTR_LEN, /* 64 bits */
    DESK_SYMBOLS,         /* entries in use, as the next two */
    DESK_PARTIAL,
    DESK_NOT_FOUND,
    DESK_MAPPINGS_USED,   /* mappings in use */
    DESK_HEADER_WORDS
};

/* The fields that 6 names: the place of the first that differs. */
enum desk_field {
    DESK_VERSION_DIFFERS = 1,
    DESK_DATASET_DIFFERS = 2,
    DESK_STYPE_IN_DIFFERS = 3,
    DESK_STYPE_OUT_DIFFERS = 4,
    DESK_TS_OUT_DIFFERS = 5,
    DESK_SYMBOL_CSTR_LEN_DIFFERS = 6
};

/* The first metadata, which loses its repeats: equal entries of a set once, and of two mappings with one name the last, at the
 * place of the first. 0, 15.
 * After 0: the header's four numbers in use count what is left, and each list holds it from its front; places that are freed hold
 * 0, other unused ones and the header's other words are as before. After 15: all as before. */
uint32_t desk_metadata_open(uint64_t *header, size_t header_len, uint32_t *symbols, size_t symbols_len, uint32_t *partial,
                            size_t partial_len, uint32_t *not_found, size_t not_found_len, uint32_t *mappings,
                            size_t mappings_len, uint32_t *intervals, size_t intervals_len);

/* One more metadata into a gathered one (which loses its repeats first, where it was never opened); the added one stays as it is.
 * An unequal schema becomes none, start the lesser, end the greater, limit none; sets and mappings keep the order of first
 * arrival; the intervals of one name are merged by their heads. `names` is the number of names handed out. 15, also for names over
 * 4,096; 6; then, each over both sides whole: 11 for any date, 3 for any name number, 1 for any interval, 7, and 2, judged on the
 * outcome.
 * After 0: the header's schema, start, end, limit and four numbers in use are the outcome's, and each list holds the outcome from
 * its front; places that are freed hold 0, other unused ones and the header's other words are as before. After 6: *field is the
 * first that differs, all else as before. After any other answer: all as before. */
uint32_t desk_metadata_merge(size_t names, uint64_t *header, size_t header_len, uint32_t *symbols, size_t symbols_len,
                             uint32_t *partial, size_t partial_len, uint32_t *not_found, size_t not_found_len,
                             uint32_t *mappings, size_t mappings_len, uint32_t *intervals, size_t intervals_len,
                             const uint64_t *added, size_t added_len, const uint32_t *added_symbols, size_t added_symbols_len,
                             const uint32_t *added_partial, size_t added_partial_len, const uint32_t *added_not_found,
                             size_t added_not_found_len, const uint32_t *added_mappings, size_t added_mappings_len,
                             const uint32_t *added_intervals, size_t added_intervals_len, uint32_t *field);

/* The gathered metadata is finished: nothing changes. 0, 15.
 * After any answer: all as before. */
uint32_t desk_metadata_finish(const uint64_t *header, size_t header_len, const uint32_t *symbols, size_t symbols_len,
                              const uint32_t *partial, size_t partial_len, const uint32_t *not_found, size_t not_found_len,
                              const uint32_t *mappings, size_t mappings_len, const uint32_t *intervals, size_t intervals_len);

/* ---- Builds from metadata. The table's bytes are written whole, whatever they and *used held. Metadata and name list are only read.
 * If stype_out is instrument ID, an interval's symbol is the instrument's number and the mapping's name the symbol; else if stype_in
 * is, the other way round; else 9. Mappings and intervals go in order, and the first fault met decides. */

/* A table over time, 24 bytes an interval. 15, 14 for the name list, 9; then, where the mapping's name is the number, 3 and 8 for it;
 * of each interval 3 for its symbol, nothing more where that is empty, 8 where it is the number, 11 for start and end, then as
 * desk_insert: 1, start = end is done, 3, 2.
 * After 0: *used is the number in use, the table's first *used places hold the intervals, and every other byte of it is 0. After any
 * other answer: *used is 0, and so is every byte of the table, whatever its length. */
uint32_t desk_build(uint8_t *table, size_t table_len, size_t *used, const uint64_t *header, size_t header_len,
                    const uint32_t *symbols, size_t symbols_len, const uint32_t *partial, size_t partial_len,
                    const uint32_t *not_found, size_t not_found_len, const uint32_t *mappings, size_t mappings_len,
                    const uint32_t *intervals, size_t intervals_len, const uint8_t *bytes, size_t bytes_len,
                    const uint32_t *ends, size_t ends_len, size_t names, size_t name_bytes);

/* A point-in-time table for a date (YYYYMMDD), 8 bytes an entry. 15, 14 for the name list, 11 for the date, 9, 10 where the day is
 * before the start's day, or an end exists and the day's start is not before it; then of each mapping the first interval with
 * start <= day < end counts: 11 for a date up to it, 3 for its symbol, nothing more where that is empty, 3 for the mapping's name,
 * 8, 2. A later entry for one instrument replaces the earlier one.
 * After 0: *used is the number in use, the table's first *used places hold the entries, and every other byte of it is 0. After any
 * other answer: *used is 0, and so is every byte of the table, whatever its length. */
uint32_t desk_build_points(uint8_t *table, size_t table_len, size_t *used, const uint64_t *header, size_t header_len,
                           const uint32_t *symbols, size_t symbols_len, const uint32_t *partial, size_t partial_len,
                           const uint32_t *not_found, size_t not_found_len, const uint32_t *mappings, size_t mappings_len,
                           const uint32_t *intervals, size_t intervals_len, const uint8_t *bytes, size_t bytes_len,
                           const uint32_t *ends, size_t ends_len, size_t names, size_t name_bytes, uint32_t date);

/* ---- Merging records. All streams stand in one buffer; cuts, one more than streams, start at 0, never fall, and end at the
 * buffer's length. The state of a merge stands in five arrays of 256 places and in *held; between desk_open and the last
 * desk_next on it the caller hands in the same buffer and cuts, and the state as the call before left it, and changes none of
 * them.
 *
 * What a state says: marks[p] is 0 where stream p is closed, read to its end or damaged, and where there is no stream p. It is 1
 * where the stream waits to be read at places[p] and is chosen by times[p], its hint or the time of its record handed out last. It
 * is more where it stands at a record still to be handed out: places[p] and times[p] are the record's, heads[p] is its length +
 * kind x 65536 + instrument x 4294967296. *held is the number of streams that are not closed, and the first *held places of heap
 * hold their numbers, each once, and none at place i that comes by (times, number) after one at 2i + 1 or 2i + 2. What else the
 * arrays hold says nothing. */

/* The hint of a stream from its own metadata's header, as that was before any merge: where the metadata starts. 15 where the words
 * are no header; the lists are not asked for.
 * After 0: *hint is the hint. After 15: all as before. */
uint32_t desk_hint_of(const uint64_t *header, size_t header_len, uint64_t *hint);

/* Opens the streams, each at its hint; an empty hint list means all hints 0. Reads none of them. 15 where an array has not 256
 * places; 12 for no stream, over 256, cuts wrong, or hints given and not one per stream.
 * After 0: *streams and *held are the number of streams, and in the state each stream waits at place 0 with its hint; every other
 * place of marks, times and heap and every place of places and heads is 0. After any other answer: all as before. */
uint32_t desk_open(const uint8_t *buffer, size_t buffer_len, const uint64_t *cuts, size_t cuts_len, const uint64_t *hints,
                   size_t hints_len, uint8_t *marks, size_t marks_len, uint64_t *times, size_t times_len, uint64_t *places,
                   size_t places_len, uint64_t *heads, size_t heads_len, uint8_t *heap, size_t heap_len, size_t *streams,
                   size_t *held);

/* The next record, by time, then stream; the damage of a stream, which is closed by it, while the others go on; or the end, which
 * stays. 0, 15 where an array has not 256 places or *held is over 256, 13.
 * After 0: *found is 1, and *stream, *place (from the stream's start), *length, *kind, *instrument and *time are the record's,
 * whose bytes stand in the buffer from cuts[*stream] + *place on; at the end *found and these six are 0. *held and the arrays are
 * the state after the call. After 13: *stream is damaged at *place for *reason, and *held and the arrays are the state after the
 * call too, with which the caller goes on; *found, *length, *kind, *instrument and *time are as before. After 15: all as before.
 * On a state that desk_open did not make for this buffer and these cuts neither the number nor what the call writes says anything. */
uint32_t desk_next(const uint8_t *buffer, size_t buffer_len, const uint64_t *cuts, size_t cuts_len, uint8_t *marks,
                   size_t marks_len, uint64_t *times, size_t times_len, uint64_t *places, size_t places_len, uint64_t *heads,
                   size_t heads_len, uint8_t *heap, size_t heap_len, size_t *held, uint32_t *found, uint64_t *stream,
                   uint64_t *place, uint16_t *length, uint16_t *kind, uint32_t *instrument, uint64_t *time, uint64_t *reason);

#define DESK_RUN_CALLS 4096 /* the most calls of a run */
#define DESK_RUN_WORDS 3    /* of a record in a run's list: stream, place, time */

/* A run: at most `allowance` calls of desk_next, each record's stream, place and time into the list, DESK_RUN_WORDS words a record,
 * from its front. It stops after the end, after damage, before a call where the list is full, and when the allowance is used. What
 * is lent is judged once: 0, 15 where an array has not 256 places, *held is over 256, the allowance over DESK_RUN_CALLS or the list
 * no multiple of DESK_RUN_WORDS, 13.
 * After 0: *calls is the number of calls made, *written the number of records in the list, *last 1 where a further call may be made
 * and 0 at the end, which was the last call; *stream and *place are 0. After 13, the last call: *calls and *written are these too,
 * *stream is damaged at *place for *reason, and *last is as before. After both *held and the arrays are the state after these calls,
 * and the list's words behind 3 x *written are as before. *reason is as before after 0. After 15: all as before.
 * On a state that desk_open did not make for this buffer and these cuts neither the number nor what the call writes says anything. */
uint32_t desk_run(const uint8_t *buffer, size_t buffer_len, const uint64_t *cuts, size_t cuts_len, uint8_t *marks, size_t marks_len,
                  uint64_t *times, size_t times_len, uint64_t *places, size_t places_len, uint64_t *heads, size_t heads_len,
                  uint8_t *heap, size_t heap_len, size_t *held, size_t allowance, uint64_t *list, size_t list_len, size_t *calls,
                  size_t *written, uint32_t *last, uint64_t *stream, uint64_t *place, uint64_t *reason);

/* ---- Merging records of streams that arrive in portions, in constant memory: a stream's bytes come as they come, and a separate word
 * says that it has ended. Whatever the portions, the records, damages, places and the end are those of desk_next on the whole streams;
 * where the next one is not certain yet, the answer is that more of one stream is needed first.
 *
 * The state stands in the five arrays of a merge, in `spans`, 256 places too, in the window, 1,024 bytes a stream, and in *held;
 * between desk_feed_open and the last call on it the caller hands in the state as the call before left it, and changes none of it.
 * Kept of a stream are the bytes that were taken and not yet read past; a record counts until the desk_feed_next after it is handed
 * out.
 *
 * What a state says: marks, times, places, heap and *held as above, and heads of a stream that stands at a record. Of one that waits
 * heads[p] is the length of the record that it handed out last, as long as that still counts, else 0. spans[p] of a stream that is not
 * closed is start + 65536 x fill, and 4294967296 more where it has been ended: `fill` bytes are kept, in the window from 1024 x p +
 * start on. The first of them is the stream's byte at places[p], or where a record still counts that record's first. What else arrays
 * and window hold says nothing. */

/* Opens `streams` streams of which nothing has come yet, each at its hint; an empty hint list means all hints 0. 15 where an array has
 * not 256 places; 12 for no stream, over 256, or hints given and not one per stream.
 * After 0: *held is the number of streams, and in the state each waits at place 0 with its hint; every other place of marks, times and
 * heap and every place of places, heads and spans is 0. After any other answer: all as before. */
uint32_t desk_feed_open(size_t streams, const uint64_t *hints, size_t hints_len, uint8_t *marks, size_t marks_len, uint64_t *times,
                        size_t times_len, uint64_t *places, size_t places_len, uint64_t *heads, size_t heads_len, uint8_t *heap,
                        size_t heap_len, uint64_t *spans, size_t spans_len, size_t *held);

/* A portion of a stream, of any length, 0 too: as many of its bytes are taken as fit; the rest is handed in later. 15 where an array
 * has not 256 places or the window not DESK_WINDOW_BYTES; 12 for a stream that is not there, closed, or ended.
 * After 0: *taken is the number of bytes taken from the portion's front: as many as there are, but no more than make 1,024 kept and
 * 2^63 in all since the opening. What is kept stands from 1024 x stream on, the bytes taken behind what was kept before, and
 * spans[stream] says so; every other byte of the window, behind what is kept of this stream too, and every other span is as before. A
 * stream of which more is needed takes at least one byte of a portion that is not empty, unless 2^63 were taken. After any other
 * answer: all as before. */
uint32_t desk_feed_bytes(uint64_t stream, const uint8_t *portion, size_t portion_len, const uint8_t *marks, size_t marks_len,
                         const uint64_t *places, size_t places_len, const uint64_t *heads, size_t heads_len, uint64_t *spans,
                         size_t spans_len, uint8_t *window, size_t window_len, size_t *taken);

/* The word that a stream has ended: no byte of it is to come. 15 where an array has not 256 places; 12 for a stream that is not there,
 * closed, or ended.
 * After 0: spans[stream] says that it has been ended. After any other answer: all as before. */
uint32_t desk_feed_end(uint64_t stream, const uint8_t *marks, size_t marks_len, uint64_t *spans, size_t spans_len);

/* As desk_next, of what has come so far; or that more of a stream is needed first: the least by time, then stream, waits to be read,
 * was not ended, and what has come of it holds neither a whole record nor 16 bytes with a length outside 16 to 1,024. 0, 15 where an
 * array has not 256 places, the window not DESK_WINDOW_BYTES, or *held is over 256, 13.
 * After 0: *found is 1, and *stream, *place (from the stream's start), *length, *kind, *instrument and *time are the record's, whose
 * bytes stand in the window from *at on until the next desk_feed_next or desk_feed_bytes of this stream; at the end *found and these
 * seven are 0; where more is needed *found is DESK_NEED_MORE, *stream the stream, and the other six are 0. *held and the arrays are
 * the state after the call; a call that needs more may have read other streams, to their ends too, and goes on from there; called
 * again with no portion and no end word between, it answers the same and leaves all as before. After 13: *stream is damaged at *place
 * for *reason, and *held and the arrays are the state after the call too, with which the caller goes on;
 * *found, *at, *length, *kind, *instrument and *time are as before. After 15: all as before. On a state that these calls did not make
 * neither the number nor what the call writes says anything. */
uint32_t desk_feed_next(const uint8_t *window, size_t window_len, uint8_t *marks, size_t marks_len, uint64_t *times, size_t times_len,
                        uint64_t *places, size_t places_len, uint64_t *heads, size_t heads_len, uint8_t *heap, size_t heap_len,
                        uint64_t *spans, size_t spans_len, size_t *held, uint32_t *found, uint64_t *stream, uint64_t *place, size_t *at,
                        uint16_t *length, uint16_t *kind, uint32_t *instrument, uint64_t *time, uint64_t *reason);

/* As desk_run, of what has come so far: at most `allowance` calls of desk_feed_next, each record's stream, place and time into the list.
 * It stops after a call that needs more too. A call drops the record before, so afterwards the last record alone counts, and none after
 * a call that needs more; the list has no index in the window: who wants a record's bytes calls desk_feed_next. 0, 15 as desk_feed_next
 * and for an allowance over DESK_RUN_CALLS or a list of no multiple of DESK_RUN_WORDS, 13.
 * After 0: *calls is the number of calls made, *written the number of records in the list, *last 1 where a further call may be made, 0
 * at the end, and DESK_NEED_MORE where more of *stream is needed, which were the last call; *stream is 0 otherwise, and *place is 0.
 * After 13, the last call: *calls and *written are these too, *stream is damaged at *place for *reason, and *last is as before. After
 * both *held and the arrays are the state after these calls, and the list's words behind 3 x *written are as before. *reason is as
 * before after 0. After 15: all as before. On a state that these calls did not make neither the number nor what the call writes says
 * anything. */
uint32_t desk_feed_run(const uint8_t *window, size_t window_len, uint8_t *marks, size_t marks_len, uint64_t *times, size_t times_len,
                       uint64_t *places, size_t places_len, uint64_t *heads, size_t heads_len, uint8_t *heap, size_t heap_len,
                       uint64_t *spans, size_t spans_len, size_t *held, size_t allowance, uint64_t *list, size_t list_len,
                       size_t *calls, size_t *written, uint32_t *last, uint64_t *stream, uint64_t *place, uint64_t *reason);

#ifdef __cplusplus
}
#endif

#endif
