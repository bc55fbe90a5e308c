/* oracle/answer.c with the plain engine of the record merge (RULES, Requests, No. 12) in the place of the heap's: what it asks of
 * desk_open and desk_next the two exports of crates/bench_plain answer, which no header has. The heap that it lends is left alone. */
#include "desk.h"

uint32_t plain_open(const uint8_t *buffer, size_t buffer_len, const uint64_t *cuts, size_t cuts_len, const uint64_t *hints,
                    size_t hints_len, uint8_t *marks, size_t marks_len, uint64_t *times, size_t times_len, uint64_t *places,
                    size_t places_len, uint64_t *heads, size_t heads_len, size_t *streams);

uint32_t plain_next(const uint8_t *buffer, size_t buffer_len, const uint64_t *cuts, size_t cuts_len, size_t streams, uint8_t *marks,
                    size_t marks_len, uint64_t *times, size_t times_len, uint64_t *places, size_t places_len, uint64_t *heads,
                    size_t heads_len, uint32_t *found, uint64_t *stream, uint64_t *place, uint16_t *length, uint16_t *kind,
                    uint32_t *instrument, uint64_t *time, uint64_t *reason);

/* What is held is every stream. */
static uint32_t open_by_plain(const uint8_t *buffer, size_t buffer_len, const uint64_t *cuts, size_t cuts_len, const uint64_t *hints,
                              size_t hints_len, uint8_t *marks, size_t marks_len, uint64_t *times, size_t times_len,
                              uint64_t *places, size_t places_len, uint64_t *heads, size_t heads_len, uint8_t *heap,
                              size_t heap_len, size_t *streams, size_t *held) {
    (void)heap, (void)heap_len;
    uint32_t answer = plain_open(buffer, buffer_len, cuts, cuts_len, hints, hints_len, marks, marks_len, times, times_len, places,
                                 places_len, heads, heads_len, streams);
    if (answer == DESK_DONE) *held = *streams;
    return answer;
}

static uint32_t next_by_plain(const uint8_t *buffer, size_t buffer_len, const uint64_t *cuts, size_t cuts_len, uint8_t *marks,
                              size_t marks_len, uint64_t *times, size_t times_len, uint64_t *places, size_t places_len,
                              uint64_t *heads, size_t heads_len, uint8_t *heap, size_t heap_len, size_t *held, uint32_t *found,
                              uint64_t *stream, uint64_t *place, uint16_t *length, uint16_t *kind, uint32_t *instrument,
                              uint64_t *time, uint64_t *reason) {
    (void)heap, (void)heap_len;
    return plain_next(buffer, buffer_len, cuts, cuts_len, *held, marks, marks_len, times, times_len, places, places_len, heads,
                      heads_len, found, stream, place, length, kind, instrument, time, reason);
}

#define desk_open open_by_plain
#define desk_next next_by_plain
#include "answer.c"
