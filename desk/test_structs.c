/* desk/test.c through the structs of desk.h: each export is asked through the function of desk.h that stands over it, which runs on a
 * stack of the size that desk.h names. What the export is handed goes into structs, and all of these come back, whatever the answer, so
 * that test.c sees what the function changed. Where no struct can say what the case says (a header of other than 14 words, half a
 * mapping, arrays of other than 256 places) the export is asked. */
#include "desk.h"

#include <string.h>

static void is(int holds, const char *what, int line); /* test.c's */

/* ---- A call on a stack of its own, below which nothing may be written. */

enum { GUARD = 16384 };
static uint8_t stack[GUARD + DESK_METADATA_ADD_STACK] __attribute__((aligned(16)));
static uint8_t *guard; /* below the stack that was lent last */
void *stack_top;       /* for on_stack, as the next one */
void (*stack_call)(void);

/* Calls *stack_call with the arguments that it was called with itself, ten at most, on the stack from stack_top down. */
void on_stack(void);
__asm__(".text\n.globl on_stack\non_stack:\n"
        "pushq %rbp\n movq %rsp, %rbp\n movq stack_top@GOTPCREL(%rip), %rax\n movq (%rax), %rsp\n"
        "pushq 40(%rbp)\n pushq 32(%rbp)\n pushq 24(%rbp)\n pushq 16(%rbp)\n" /* the arguments that are in no register */
        "movq stack_call@GOTPCREL(%rip), %rax\n callq *(%rax)\n"
        "movq %rbp, %rsp\n popq %rbp\n ret\n");

static void lend_stack(size_t size) {
    uint8_t *below = stack + sizeof stack - size - GUARD;
    stack_top = stack + sizeof stack;
    if (guard != below) memset(below, 0x5C, GUARD);
    guard = below;
}

static uint32_t stack_held(uint32_t number, const char *call, int line) {
    if (guard[0] != 0x5C || memcmp(guard, guard + 1, GUARD - 1) != 0) is(0, call, line), guard = NULL;
    return number;
}

/* A function asked on a stack of that size: `plain` is as stack_call and on_stack have it, `typed` as C calls it. */
#define ASK(size, function, ...)                                                                                              \
    (lend_stack(size), stack_call = ((union { void (*plain)(void); __typeof__(&function) typed; }){.typed = &function}).plain, \
     stack_held(((union { void (*plain)(void); __typeof__(&function) typed; }){on_stack}).typed(__VA_ARGS__),                  \
                #function " on a stack of " #size, __LINE__))

static uint32_t check_by_table(const uint8_t *table, size_t table_len, size_t used, size_t names) {
    desk_table t = {(uint8_t *)table, table_len, used};
    desk_names list = {NULL, 0, NULL, 0, names, 0};
    return ASK(DESK_STACK, desk_table_check, &t, &list);
}

static uint32_t insert_by_table(uint8_t *table, size_t table_len, size_t *used, size_t names, uint32_t instrument, uint64_t start,
                                uint64_t end, uint32_t symbol) {
    desk_table t = {table, table_len, *used};
    desk_names list = {NULL, 0, NULL, 0, names, 0};
    uint32_t number = ASK(DESK_STACK, desk_table_insert, &t, &list, instrument, start, end, symbol);
    *used = t.used;
    return number;
}

static uint32_t get_by_table(const uint8_t *table, size_t table_len, size_t used, uint32_t instrument, uint64_t moment, uint64_t *hint,
                             uint32_t *found, uint32_t *symbol) {
    desk_table t = {(uint8_t *)table, table_len, used};
    uint32_t there = 77, number = ASK(DESK_STACK, desk_table_get, &t, instrument, moment, hint, &there);
    if (number == DESK_DONE) {
        *found = there != DESK_NOTHING;
        *symbol = there != DESK_NOTHING ? there : 0;
    } else if (there != 77) *symbol = there;
    return number;
}

static uint32_t record_by_table(uint8_t *table, size_t table_len, size_t *used, uint8_t *bytes, size_t bytes_len, uint32_t *ends,
                                size_t ends_len, size_t *names, size_t *name_bytes, const uint8_t *record, size_t record_len,
                                uint64_t *reason) {
    desk_table t = {table, table_len, *used};
    desk_names list = {bytes, bytes_len, ends, ends_len, *names, *name_bytes};
    uint32_t number = ASK(DESK_STACK, desk_table_record, &t, &list, record, record_len, reason);
    *used = t.used, *names = list.names, *name_bytes = list.name_bytes;
    return number;
}

static uint32_t compare_by_tables(const uint8_t *left, size_t left_len, size_t left_used, const uint8_t *right, size_t right_len,
                                  size_t right_used, size_t names, uint8_t *stretches, size_t stretches_len, size_t *count) {
    desk_table l = {(uint8_t *)left, left_len, left_used}, r = {(uint8_t *)right, right_len, right_used};
    desk_names list = {NULL, 0, NULL, 0, names, 0};
    desk_stretches s = {stretches, stretches_len, *count};
    uint32_t number = ASK(DESK_STACK, desk_table_compare, &l, &r, &list, &s);
    *count = s.count;
    return number;
}

static uint32_t explain_by_table(const uint8_t *table, size_t table_len, size_t used, size_t names, uint32_t instrument,
                                 uint64_t moment, uint32_t *reason, uint64_t *index, uint64_t *start, uint64_t *end, uint32_t *symbol,
                                 uint64_t *next_start, uint64_t *next_end, uint32_t *next_symbol) {
    desk_table t = {(uint8_t *)table, table_len, used};
    desk_names list = {NULL, 0, NULL, 0, names, 0};
    desk_explanation e = {*reason, *symbol, *index, *start, *end, *next_symbol, *next_start, *next_end};
    uint32_t number = ASK(DESK_STACK, desk_table_explain, &t, &list, instrument, moment, &e);
    *reason = e.reason, *symbol = e.symbol, *index = e.index, *start = e.start, *end = e.end;
    *next_symbol = e.next_symbol, *next_start = e.next_start, *next_end = e.next_end;
    return number;
}

static uint32_t check_by_points(const uint8_t *table, size_t table_len, size_t used, size_t names) {
    desk_point_table t = {(uint8_t *)table, table_len, used};
    desk_names list = {NULL, 0, NULL, 0, names, 0};
    return ASK(DESK_STACK, desk_point_table_check, &t, &list);
}

static uint32_t get_by_points(const uint8_t *table, size_t table_len, size_t used, uint32_t instrument, uint32_t *found,
                              uint32_t *symbol) {
    desk_point_table t = {(uint8_t *)table, table_len, used};
    uint32_t there = 77, number = ASK(DESK_STACK, desk_point_table_get, &t, instrument, &there);
    if (number == DESK_DONE) {
        *found = there != DESK_NOTHING;
        *symbol = there != DESK_NOTHING ? there : 0;
    } else if (there != 77) *symbol = there;
    return number;
}

static uint32_t record_by_points(uint8_t *table, size_t table_len, size_t *used, uint8_t *bytes, size_t bytes_len, uint32_t *ends,
                                 size_t ends_len, size_t *names, size_t *name_bytes, const uint8_t *record, size_t record_len,
                                 uint64_t *reason) {
    desk_point_table t = {table, table_len, *used};
    desk_names list = {bytes, bytes_len, ends, ends_len, *names, *name_bytes};
    uint32_t number = ASK(DESK_STACK, desk_point_table_record, &t, &list, record, record_len, reason);
    *used = t.used, *names = list.names, *name_bytes = list.name_bytes;
    return number;
}

static uint32_t check_by_names(const uint8_t *bytes, size_t bytes_len, const uint32_t *ends, size_t ends_len, size_t names,
                               size_t name_bytes) {
    desk_names list = {(uint8_t *)bytes, bytes_len, (uint32_t *)ends, ends_len, names, name_bytes};
    return ASK(DESK_STACK, desk_names_check, &list);
}

static uint32_t number_by_names(uint8_t *bytes, size_t bytes_len, uint32_t *ends, size_t ends_len, size_t *names, size_t *name_bytes,
                                const uint8_t *name, size_t name_len, uint32_t *symbol) {
    desk_names list = {bytes, bytes_len, ends, ends_len, *names, *name_bytes};
    uint32_t number = ASK(DESK_STACK, desk_names_add, &list, (const char *)name, name_len, symbol);
    *names = list.names, *name_bytes = list.name_bytes;
    return number;
}

static uint32_t place_by_names(const uint8_t *bytes, size_t bytes_len, const uint32_t *ends, size_t ends_len, size_t names,
                               size_t name_bytes, uint32_t symbol, size_t *first, size_t *end) {
    desk_names list = {(uint8_t *)bytes, bytes_len, (uint32_t *)ends, ends_len, names, name_bytes};
    const char *before = "";
    desk_name name = {before, 77};
    uint32_t number = ASK(DESK_STACK, desk_names_get, &list, symbol, &name);
    if (number == DESK_DONE || name.text != before || name.len != 77) {
        *first = (size_t)((const uint8_t *)name.text - bytes);
        *end = *first + name.len;
    }
    return number;
}

static uint32_t number_by_text(const uint8_t *text, size_t text_len, uint32_t *value) {
    return ASK(DESK_STACK, desk_text_number, (const char *)text, text_len, value);
}

static uint32_t utf8_by_text(const uint8_t *text, size_t text_len) {
    return ASK(DESK_STACK, desk_text_check, (const char *)text, text_len);
}

/* desk_date_start beside the two exports that it stands over: the day is what test.c asks for. */
static uint32_t day_by_start(uint32_t date, uint32_t *day) {
    uint64_t moment = 77;
    uint32_t number = ASK(DESK_STACK, desk_date_start, date, &moment);
    if (number == DESK_DONE) *day = (uint32_t)(moment / UINT64_C(86400000000000));
    else if (moment != 77) *day = 77;
    return number;
}

static uint32_t date_by_moment(uint32_t day, uint32_t *date) {
    return day > DESK_LAST_DAY ? desk_date_of(day, date) : ASK(DESK_STACK, desk_date_at, day * UINT64_C(86400000000000) + day, date);
}

/* Whether structs can say these lengths. */
static int whole_metadata(size_t header_len, size_t mappings_len, size_t intervals_len) {
    return header_len == DESK_HEADER_WORDS && mappings_len % DESK_MAPPING_WORDS == 0 && intervals_len % DESK_INTERVAL_WORDS == 0;
}

static desk_metadata metadata_of(const uint64_t *header, const uint32_t *symbols, size_t symbols_len, const uint32_t *partial,
                                 size_t partial_len, const uint32_t *not_found, size_t not_found_len, const uint32_t *mappings,
                                 size_t mappings_len, const uint32_t *intervals, size_t intervals_len) {
    desk_metadata m = {{0}, (uint32_t *)symbols, symbols_len, (uint32_t *)partial, partial_len, (uint32_t *)not_found, not_found_len,
                       (desk_mapping *)mappings, mappings_len / DESK_MAPPING_WORDS, (desk_dates *)intervals,
                       intervals_len / DESK_INTERVAL_WORDS};
    memcpy(m.header, header, sizeof m.header);
    return m;
}

static uint32_t open_by_metadata(uint64_t *header, size_t header_len, uint32_t *symbols, size_t symbols_len, uint32_t *partial,
                                 size_t partial_len, uint32_t *not_found, size_t not_found_len, uint32_t *mappings,
                                 size_t mappings_len, uint32_t *intervals, size_t intervals_len) {
    if (!whole_metadata(header_len, mappings_len, intervals_len))
        return desk_metadata_open(header, header_len, symbols, symbols_len, partial, partial_len, not_found, not_found_len, mappings,
                                  mappings_len, intervals, intervals_len);
    desk_metadata m = metadata_of(header, symbols, symbols_len, partial, partial_len, not_found, not_found_len, mappings,
                                  mappings_len, intervals, intervals_len);
    uint32_t number = ASK(DESK_METADATA_BEGIN_STACK, desk_metadata_begin, &m);
    memcpy(header, m.header, sizeof m.header);
    return number;
}

static uint32_t merge_by_metadata(size_t names, uint64_t *header, size_t header_len, uint32_t *symbols, size_t symbols_len,
                                  uint32_t *partial, size_t partial_len, uint32_t *not_found, size_t not_found_len,
                                  uint32_t *mappings, size_t mappings_len, uint32_t *intervals, size_t intervals_len,
                                  const uint64_t *added, size_t added_len, const uint32_t *added_symbols, size_t added_symbols_len,
                                  const uint32_t *added_partial, size_t added_partial_len, const uint32_t *added_not_found,
                                  size_t added_not_found_len, const uint32_t *added_mappings, size_t added_mappings_len,
                                  const uint32_t *added_intervals, size_t added_intervals_len, uint32_t *field) {
    if (!whole_metadata(header_len, mappings_len, intervals_len) || !whole_metadata(added_len, added_mappings_len, added_intervals_len))
        return desk_metadata_merge(names, header, header_len, symbols, symbols_len, partial, partial_len, not_found, not_found_len,
                                   mappings, mappings_len, intervals, intervals_len, added, added_len, added_symbols,
                                   added_symbols_len, added_partial, added_partial_len, added_not_found, added_not_found_len,
                                   added_mappings, added_mappings_len, added_intervals, added_intervals_len, field);
    desk_metadata m = metadata_of(header, symbols, symbols_len, partial, partial_len, not_found, not_found_len, mappings,
                                  mappings_len, intervals, intervals_len);
    desk_metadata a = metadata_of(added, added_symbols, added_symbols_len, added_partial, added_partial_len, added_not_found,
                                  added_not_found_len, added_mappings, added_mappings_len, added_intervals, added_intervals_len);
    desk_names list = {NULL, 0, NULL, 0, names, 0};
    uint32_t number = ASK(DESK_METADATA_ADD_STACK, desk_metadata_add, &m, &a, &list, field);
    memcpy(header, m.header, sizeof m.header);
    return number;
}

static uint32_t finish_by_metadata(const uint64_t *header, size_t header_len, const uint32_t *symbols, size_t symbols_len,
                                   const uint32_t *partial, size_t partial_len, const uint32_t *not_found, size_t not_found_len,
                                   const uint32_t *mappings, size_t mappings_len, const uint32_t *intervals, size_t intervals_len) {
    if (!whole_metadata(header_len, mappings_len, intervals_len))
        return desk_metadata_finish(header, header_len, symbols, symbols_len, partial, partial_len, not_found, not_found_len,
                                    mappings, mappings_len, intervals, intervals_len);
    desk_metadata m = metadata_of(header, symbols, symbols_len, partial, partial_len, not_found, not_found_len, mappings,
                                  mappings_len, intervals, intervals_len);
    return ASK(DESK_STACK, desk_metadata_end, &m);
}

static uint32_t build_by_table(uint8_t *table, size_t table_len, size_t *used, const uint64_t *header, size_t header_len,
                               const uint32_t *symbols, size_t symbols_len, const uint32_t *partial, size_t partial_len,
                               const uint32_t *not_found, size_t not_found_len, const uint32_t *mappings, size_t mappings_len,
                               const uint32_t *intervals, size_t intervals_len, const uint8_t *bytes, size_t bytes_len,
                               const uint32_t *ends, size_t ends_len, size_t names, size_t name_bytes) {
    if (!whole_metadata(header_len, mappings_len, intervals_len))
        return desk_build(table, table_len, used, header, header_len, symbols, symbols_len, partial, partial_len, not_found,
                          not_found_len, mappings, mappings_len, intervals, intervals_len, bytes, bytes_len, ends, ends_len, names,
                          name_bytes);
    desk_metadata m = metadata_of(header, symbols, symbols_len, partial, partial_len, not_found, not_found_len, mappings,
                                  mappings_len, intervals, intervals_len);
    desk_names list = {(uint8_t *)bytes, bytes_len, (uint32_t *)ends, ends_len, names, name_bytes};
    desk_table t = {table, table_len, *used};
    uint32_t number = ASK(DESK_STACK, desk_table_build, &t, &m, &list);
    *used = t.used;
    return number;
}

static uint32_t build_by_points(uint8_t *table, size_t table_len, size_t *used, const uint64_t *header, size_t header_len,
                                const uint32_t *symbols, size_t symbols_len, const uint32_t *partial, size_t partial_len,
                                const uint32_t *not_found, size_t not_found_len, const uint32_t *mappings, size_t mappings_len,
                                const uint32_t *intervals, size_t intervals_len, const uint8_t *bytes, size_t bytes_len,
                                const uint32_t *ends, size_t ends_len, size_t names, size_t name_bytes, uint32_t date) {
    if (!whole_metadata(header_len, mappings_len, intervals_len))
        return desk_build_points(table, table_len, used, header, header_len, symbols, symbols_len, partial, partial_len, not_found,
                                 not_found_len, mappings, mappings_len, intervals, intervals_len, bytes, bytes_len, ends, ends_len,
                                 names, name_bytes, date);
    desk_metadata m = metadata_of(header, symbols, symbols_len, partial, partial_len, not_found, not_found_len, mappings,
                                  mappings_len, intervals, intervals_len);
    desk_names list = {(uint8_t *)bytes, bytes_len, (uint32_t *)ends, ends_len, names, name_bytes};
    desk_point_table t = {table, table_len, *used};
    uint32_t number = ASK(DESK_STACK, desk_point_table_build, &t, &m, &list, date);
    *used = t.used;
    return number;
}

static uint32_t hint_by_metadata(const uint64_t *header, size_t header_len, uint64_t *hint) {
    desk_metadata m = {{0}, NULL, 0, NULL, 0, NULL, 0, NULL, 0, NULL, 0};
    if (header_len != DESK_HEADER_WORDS) return desk_hint_of(header, header_len, hint);
    memcpy(m.header, header, sizeof m.header);
    return ASK(DESK_STACK, desk_metadata_hint, &m, hint);
}

/* The merge between test.c's arrays and a desk_merge, there and back. */
static desk_merge merge;

static void take_state(const uint8_t *marks, const uint64_t *times, const uint64_t *places, const uint64_t *heads, const uint8_t *heap) {
    memcpy(merge.marks, marks, sizeof merge.marks), memcpy(merge.times, times, sizeof merge.times);
    memcpy(merge.places, places, sizeof merge.places), memcpy(merge.heads, heads, sizeof merge.heads);
    memcpy(merge.heap, heap, sizeof merge.heap);
}

static void give_state(uint8_t *marks, uint64_t *times, uint64_t *places, uint64_t *heads, uint8_t *heap) {
    memcpy(marks, merge.marks, sizeof merge.marks), memcpy(times, merge.times, sizeof merge.times);
    memcpy(places, merge.places, sizeof merge.places), memcpy(heads, merge.heads, sizeof merge.heads);
    memcpy(heap, merge.heap, sizeof merge.heap);
}

static int whole_state(size_t marks_len, size_t times_len, size_t places_len, size_t heads_len, size_t heap_len) {
    return marks_len == DESK_STREAMS && times_len == DESK_STREAMS && places_len == DESK_STREAMS && heads_len == DESK_STREAMS &&
           heap_len == DESK_STREAMS;
}

static uint32_t open_by_merge(const uint8_t *buffer, size_t buffer_len, const uint64_t *cuts, size_t cuts_len, const uint64_t *hints,
                              size_t hints_len, uint8_t *marks, size_t marks_len, uint64_t *times, size_t times_len,
                              uint64_t *places, size_t places_len, uint64_t *heads, size_t heads_len, uint8_t *heap,
                              size_t heap_len, size_t *streams, size_t *held) {
    if (!whole_state(marks_len, times_len, places_len, heads_len, heap_len))
        return desk_open(buffer, buffer_len, cuts, cuts_len, hints, hints_len, marks, marks_len, times, times_len, places, places_len,
                         heads, heads_len, heap, heap_len, streams, held);
    take_state(marks, times, places, heads, heap);
    merge.streams = *streams, merge.held = *held;
    uint32_t number =
        ASK(DESK_STACK, desk_merge_open, &merge, buffer, buffer_len, cuts, cuts_len, hints_len != 0 ? hints : NULL, hints_len);
    give_state(marks, times, places, heads, heap);
    *streams = merge.streams, *held = merge.held;
    return number;
}

static uint32_t next_by_merge(const uint8_t *buffer, size_t buffer_len, const uint64_t *cuts, size_t cuts_len, uint8_t *marks,
                              size_t marks_len, uint64_t *times, size_t times_len, uint64_t *places, size_t places_len,
                              uint64_t *heads, size_t heads_len, uint8_t *heap, size_t heap_len, size_t *held, uint32_t *found,
                              uint64_t *stream, uint64_t *place, uint16_t *length, uint16_t *kind, uint32_t *instrument,
                              uint64_t *time, uint64_t *reason) {
    if (!whole_state(marks_len, times_len, places_len, heads_len, heap_len))
        return desk_next(buffer, buffer_len, cuts, cuts_len, marks, marks_len, times, times_len, places, places_len, heads, heads_len,
                         heap, heap_len, held, found, stream, place, length, kind, instrument, time, reason);
    desk_record r = {*found, *instrument, *stream, *place, *time, *length, *kind, buffer};
    desk_damage broken = {*stream, *place, *reason};
    take_state(marks, times, places, heads, heap);
    merge.held = *held, merge.buffer = buffer, merge.buffer_len = buffer_len, merge.cuts = cuts, merge.cuts_len = cuts_len;
    uint32_t number = ASK(DESK_STACK, desk_merge_next, &merge, &r, &broken);
    give_state(marks, times, places, heads, heap);
    *held = merge.held;
    *found = r.found, *instrument = r.instrument, *time = r.time, *length = r.length, *kind = r.kind;
    *stream = number == DESK_DAMAGED ? broken.stream : r.stream;
    *place = number == DESK_DAMAGED ? broken.place : r.place;
    *reason = broken.reason;
    return number;
}

/* A list of whole records; of another length, and arrays of other than 256 places, the export is asked. */
static uint32_t run_by_merge(const uint8_t *buffer, size_t buffer_len, const uint64_t *cuts, size_t cuts_len, uint8_t *marks,
                             size_t marks_len, uint64_t *times, size_t times_len, uint64_t *places, size_t places_len, uint64_t *heads,
                             size_t heads_len, uint8_t *heap, size_t heap_len, size_t *held, size_t allowance, uint64_t *list,
                             size_t list_len, size_t *calls, size_t *written, uint32_t *last, uint64_t *stream, uint64_t *place,
                             uint64_t *reason) {
    desk_damage broken = {*stream, *place, *reason};
    if (!whole_state(marks_len, times_len, places_len, heads_len, heap_len) || list_len % DESK_RUN_WORDS != 0)
        return desk_run(buffer, buffer_len, cuts, cuts_len, marks, marks_len, times, times_len, places, places_len, heads, heads_len, heap,
                        heap_len, held, allowance, list, list_len, calls, written, last, stream, place, reason);
    take_state(marks, times, places, heads, heap);
    merge.held = *held, merge.buffer = buffer, merge.buffer_len = buffer_len, merge.cuts = cuts, merge.cuts_len = cuts_len;
    uint32_t number = ASK(DESK_STACK, desk_merge_run, &merge, allowance, list, list_len / DESK_RUN_WORDS, calls, written, last, &broken);
    give_state(marks, times, places, heads, heap);
    *held = merge.held;
    *reason = broken.reason;
    if (number == DESK_DAMAGED) *stream = broken.stream, *place = broken.place;
    if (number == DESK_DONE) *stream = 0, *place = 0; /* the function has no such results */
    return number;
}

/* The same of a desk_feed. What a call is not handed holds a pattern, and has it afterwards. */
static desk_feed feed;

static void take_feed(const uint8_t *marks, const uint64_t *places, const uint64_t *heads, const uint64_t *spans) {
    memset(&feed, 0x3C, sizeof feed - sizeof feed.window);
    memcpy(feed.marks, marks, sizeof feed.marks), memcpy(feed.spans, spans, sizeof feed.spans);
    if (places != NULL) memcpy(feed.places, places, sizeof feed.places), memcpy(feed.heads, heads, sizeof feed.heads);
}

static uint32_t open_by_feed(size_t streams, const uint64_t *hints, size_t hints_len, uint8_t *marks, size_t marks_len, uint64_t *times,
                             size_t times_len, uint64_t *places, size_t places_len, uint64_t *heads, size_t heads_len, uint8_t *heap,
                             size_t heap_len, uint64_t *spans, size_t spans_len, size_t *held) {
    if (!whole_state(marks_len, times_len, places_len, heads_len, heap_len) || spans_len != DESK_STREAMS)
        return desk_feed_open(streams, hints, hints_len, marks, marks_len, times, times_len, places, places_len, heads, heads_len, heap,
                              heap_len, spans, spans_len, held);
    take_feed(marks, places, heads, spans);
    memcpy(feed.times, times, sizeof feed.times), memcpy(feed.heap, heap, sizeof feed.heap);
    feed.held = *held;
    uint32_t number = ASK(DESK_STACK, desk_feed_begin, &feed, streams, hints_len != 0 ? hints : NULL, hints_len);
    memcpy(marks, feed.marks, sizeof feed.marks), memcpy(times, feed.times, sizeof feed.times);
    memcpy(places, feed.places, sizeof feed.places), memcpy(heads, feed.heads, sizeof feed.heads);
    memcpy(heap, feed.heap, sizeof feed.heap), memcpy(spans, feed.spans, sizeof feed.spans);
    *held = feed.held;
    return number;
}

static uint32_t bytes_by_feed(uint64_t stream, const uint8_t *portion, size_t portion_len, const uint8_t *marks, size_t marks_len,
                              const uint64_t *places, size_t places_len, const uint64_t *heads, size_t heads_len, uint64_t *spans,
                              size_t spans_len, uint8_t *window, size_t window_len, size_t *taken) {
    static desk_feed was;
    if (!whole_state(marks_len, spans_len, places_len, heads_len, DESK_STREAMS) || window_len != DESK_WINDOW_BYTES)
        return desk_feed_bytes(stream, portion, portion_len, marks, marks_len, places, places_len, heads, heads_len, spans, spans_len,
                               window, window_len, taken);
    take_feed(marks, places, heads, spans);
    memcpy(feed.window, window, sizeof feed.window);
    was = feed;
    uint32_t number = ASK(DESK_STACK, desk_feed_add, &feed, stream, portion_len != 0 ? portion : NULL, portion_len, taken);
    memcpy(window, feed.window, sizeof feed.window), memcpy(spans, feed.spans, sizeof feed.spans);
    memcpy(feed.window, was.window, sizeof feed.window), memcpy(feed.spans, was.spans, sizeof feed.spans);
    is(memcmp(&feed, &was, sizeof feed) == 0, "desk_feed_add changes spans and window alone", __LINE__);
    return number;
}

static uint32_t end_by_feed(uint64_t stream, const uint8_t *marks, size_t marks_len, uint64_t *spans, size_t spans_len) {
    static desk_feed was;
    if (marks_len != DESK_STREAMS || spans_len != DESK_STREAMS) return desk_feed_end(stream, marks, marks_len, spans, spans_len);
    take_feed(marks, NULL, NULL, spans);
    was = feed;
    uint32_t number = ASK(DESK_STACK, desk_feed_finish, &feed, stream);
    memcpy(spans, feed.spans, sizeof feed.spans), memcpy(feed.spans, was.spans, sizeof feed.spans);
    is(memcmp(&feed, &was, sizeof feed) == 0, "desk_feed_finish changes spans alone", __LINE__);
    return number;
}

static uint32_t next_by_feed(const uint8_t *window, size_t window_len, uint8_t *marks, size_t marks_len, uint64_t *times,
                             size_t times_len, uint64_t *places, size_t places_len, uint64_t *heads, size_t heads_len, uint8_t *heap,
                             size_t heap_len, uint64_t *spans, size_t spans_len, size_t *held, uint32_t *found, uint64_t *stream,
                             uint64_t *place, size_t *at, uint16_t *length, uint16_t *kind, uint32_t *instrument, uint64_t *time,
                             uint64_t *reason) {
    if (!whole_state(marks_len, times_len, places_len, heads_len, heap_len) || spans_len != DESK_STREAMS || window_len != DESK_WINDOW_BYTES)
        return desk_feed_next(window, window_len, marks, marks_len, times, times_len, places, places_len, heads, heads_len, heap, heap_len,
                              spans, spans_len, held, found, stream, place, at, length, kind, instrument, time, reason);
    desk_record r = {*found, *instrument, *stream, *place, *time, *length, *kind, window};
    desk_damage broken = {*stream, *place, *reason};
    take_feed(marks, places, heads, spans);
    memcpy(feed.times, times, sizeof feed.times), memcpy(feed.heap, heap, sizeof feed.heap);
    memcpy(feed.window, window, sizeof feed.window);
    feed.held = *held;
    uint32_t number = ASK(DESK_STACK, desk_feed_read, &feed, &r, &broken);
    is(memcmp(feed.window, window, sizeof feed.window) == 0, "desk_feed_read leaves the window", __LINE__);
    memcpy(marks, feed.marks, sizeof feed.marks), memcpy(times, feed.times, sizeof feed.times);
    memcpy(places, feed.places, sizeof feed.places), memcpy(heads, feed.heads, sizeof feed.heads);
    memcpy(heap, feed.heap, sizeof feed.heap), memcpy(spans, feed.spans, sizeof feed.spans);
    *held = feed.held;
    *found = r.found, *instrument = r.instrument, *time = r.time, *length = r.length, *kind = r.kind;
    *stream = number == DESK_DAMAGED ? broken.stream : r.stream;
    *place = number == DESK_DAMAGED ? broken.place : r.place;
    *reason = broken.reason;
    if (number == DESK_DONE) {
        is((r.bytes == NULL) == (r.found != 1), "a record has bytes, and nothing else has", __LINE__);
        *at = r.bytes != NULL ? (size_t)(r.bytes - feed.window) : 0;
    } else
        is(r.bytes == window, "a refusal leaves the record", __LINE__);
    return number;
}

/* A list of whole records; of another length, and memory of other sizes, the export is asked. */
static uint32_t run_by_feed(const uint8_t *window, size_t window_len, uint8_t *marks, size_t marks_len, uint64_t *times, size_t times_len,
                            uint64_t *places, size_t places_len, uint64_t *heads, size_t heads_len, uint8_t *heap, size_t heap_len,
                            uint64_t *spans, size_t spans_len, size_t *held, size_t allowance, uint64_t *list, size_t list_len,
                            size_t *calls, size_t *written, uint32_t *last, uint64_t *stream, uint64_t *place, uint64_t *reason) {
    desk_damage broken = {*stream, *place, *reason};
    if (!whole_state(marks_len, times_len, places_len, heads_len, heap_len) || spans_len != DESK_STREAMS || window_len != DESK_WINDOW_BYTES
        || list_len % DESK_RUN_WORDS != 0)
        return desk_feed_run(window, window_len, marks, marks_len, times, times_len, places, places_len, heads, heads_len, heap, heap_len,
                             spans, spans_len, held, allowance, list, list_len, calls, written, last, stream, place, reason);
    take_feed(marks, places, heads, spans);
    memcpy(feed.times, times, sizeof feed.times), memcpy(feed.heap, heap, sizeof feed.heap);
    memcpy(feed.window, window, sizeof feed.window);
    feed.held = *held;
    uint32_t number =
        ASK(DESK_STACK, desk_feed_read_run, &feed, allowance, list, list_len / DESK_RUN_WORDS, calls, written, last, stream, &broken);
    is(memcmp(feed.window, window, sizeof feed.window) == 0, "desk_feed_read_run leaves the window", __LINE__);
    memcpy(marks, feed.marks, sizeof feed.marks), memcpy(times, feed.times, sizeof feed.times);
    memcpy(places, feed.places, sizeof feed.places), memcpy(heads, feed.heads, sizeof feed.heads);
    memcpy(heap, feed.heap, sizeof feed.heap), memcpy(spans, feed.spans, sizeof feed.spans);
    *held = feed.held;
    *reason = broken.reason;
    if (number == DESK_DAMAGED) *stream = broken.stream, *place = broken.place;
    if (number == DESK_DONE) *place = 0; /* the function has no such result */
    return number;
}

#define desk_check check_by_table
#define desk_insert insert_by_table
#define desk_get_for_ts get_by_table
#define desk_on_record record_by_table
#define desk_compare compare_by_tables
#define desk_explain explain_by_table
#define desk_check_points check_by_points
#define desk_get_point get_by_points
#define desk_on_record_point record_by_points
#define desk_check_names check_by_names
#define desk_number_of number_by_names
#define desk_place_of_name place_by_names
#define desk_day_of day_by_start
#define desk_date_of date_by_moment
#define desk_number_text number_by_text
#define desk_utf8 utf8_by_text
#define desk_metadata_open open_by_metadata
#define desk_metadata_merge merge_by_metadata
#define desk_metadata_finish finish_by_metadata
#define desk_build build_by_table
#define desk_build_points build_by_points
#define desk_hint_of hint_by_metadata
#define desk_open open_by_merge
#define desk_next next_by_merge
#define desk_run run_by_merge
#define desk_feed_open open_by_feed
#define desk_feed_bytes bytes_by_feed
#define desk_feed_end end_by_feed
#define desk_feed_next next_by_feed
#define desk_feed_run run_by_feed
#include "test.c"
