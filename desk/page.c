/* A desktop's loop: one key press, a page of records. A bundle is read from standard input, its streams are merged by runs of at most
 * 100 calls, and the text of its replay is printed, page by page: the lines that ./replay prints. */
#include "desk.h"

#include <stdio.h>

enum { PAGE = 100, BUNDLE = 60000, SECTION = 6, STREAM = 1 };

static uint8_t bundle[BUNDLE + 1], buffer[BUNDLE];
static uint64_t cuts[DESK_STREAMS + 1];

/* The state of the merge, and a page of records. */
static uint8_t marks[DESK_STREAMS], heap[DESK_STREAMS];
static uint64_t times[DESK_STREAMS], places[DESK_STREAMS], heads[DESK_STREAMS];
static uint64_t page[PAGE * DESK_RUN_WORDS];
static size_t held;

static uint64_t field(const uint8_t *from, int width) {
    uint64_t n = 0;
    while (width-- > 0) n = n * 256 + from[width];
    return n;
}

/* The streams of a bundle, one behind the other in the buffer; how many, or 0 where it can't be read. */
static size_t streams_of(size_t len) {
    size_t streams = 0, at = 0, end = 0;
    if (len > BUNDLE) return 0;
    while (at < len) {
        uint64_t size = len - at < SECTION ? 0 : field(bundle + at, 4);
        if (size < SECTION || size > len - at || field(bundle + at + 4, 2) != STREAM || streams == DESK_STREAMS) return 0;
        for (size_t i = SECTION; i < size; i++) buffer[end++] = bundle[at + i];
        cuts[++streams] = end;
        at += size;
    }
    return streams;
}

/* A page's records, as lines: the list has stream, place and time, and the instrument stands in the stream. */
static void put_page(size_t written) {
    for (size_t i = 0; i < written; i++) {
        const uint64_t *row = page + DESK_RUN_WORDS * i;
        const uint8_t *record = buffer + cuts[row[0]] + row[1];
        printf("%llu %llu %llu\n", (unsigned long long)row[0], (unsigned long long)row[2], (unsigned long long)field(record + 4, 4));
    }
}

/* One key press: the page's records, then damage or the end where it stopped there. Whether there is a further page. */
static int press(size_t streams) {
    size_t calls, written;
    uint32_t last = 1;
    uint64_t stream, place, reason;
    uint32_t number = desk_run(buffer, cuts[streams], cuts, streams + 1, marks, DESK_STREAMS, times, DESK_STREAMS, places, DESK_STREAMS,
                               heads, DESK_STREAMS, heap, DESK_STREAMS, &held, PAGE, page, PAGE * DESK_RUN_WORDS, &calls, &written,
                               &last, &stream, &place, &reason);
    if (number != DESK_DONE && number != DESK_DAMAGED) return 0;
    put_page(written);
    if (number == DESK_DAMAGED) printf("%llu damaged %llu\n", (unsigned long long)stream, (unsigned long long)place);
    if (last == 0) printf("end\n");
    return last != 0;
}

int main(void) {
    static const uint64_t no_hint[1];
    size_t streams = streams_of(fread(bundle, 1, sizeof bundle, stdin)), opened;
    if (streams == 0
        || desk_open(buffer, cuts[streams], cuts, streams + 1, no_hint, 0, marks, DESK_STREAMS, times, DESK_STREAMS, places,
                     DESK_STREAMS, heads, DESK_STREAMS, heap, DESK_STREAMS, &opened, &held) != DESK_DONE) {
        fprintf(stderr, "page: no bundle\n");
        return 1;
    }
    while (press(streams)) continue;
    return 0;
}
