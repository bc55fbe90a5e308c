/* A merge of three streams, of which the second breaks off: its damage is reported with its place, and the other two lose no record.
 * Symbol mapping records on the way fill a table, in which the other records are looked up. */
#include "desk.h"

#include <stdio.h>
#include <stdlib.h>
#include <string.h>

static uint8_t buffer[512];
static uint64_t cuts[4];
static size_t streams, size;

/* ---- Streams. A record is its length (2 bytes), kind (2), instrument (4) and time (8), little-endian, then its body. */

static void put(int width, uint64_t n) {
    for (; 0 < width--; n >>= 8) buffer[size++] = (uint8_t)n;
}

static void put_head(unsigned length, unsigned kind, uint32_t instrument, uint64_t time) {
    put(2, length), put(2, kind), put(4, instrument), put(8, time);
}

static void put_trade(uint32_t instrument, uint64_t time, uint64_t price) {
    put_head(DESK_RECORD_HEADER + 8, 1, instrument, time);
    put(8, price);
}

/* From `time` on, without an end, the instrument has the name. */
static void put_mapping(uint32_t instrument, uint64_t time, const char *name) {
    put_head(DESK_RECORD_HEADER + 16 + (unsigned)strlen(name), DESK_SYMBOL_MAPPING, instrument, time);
    put(8, time), put(8, DESK_MISSING);
    while (*name) put(1, (uint8_t)*name++);
}

static void end_stream(void) { cuts[++streams] = size; }

/* ---- The replay. */

static void expect(uint32_t number, const char *call) {
    if (number == DESK_DONE) return;
    printf("%s: %s. %s\n", call, desk_refusal_name(number), desk_refusal_text(number));
    exit(1);
}

int main(void) {
    static uint8_t table_memory[16 * DESK_INTERVAL_BYTES], name_memory[64];
    static uint32_t end_memory[8];
    desk_table table = {table_memory, sizeof table_memory, 0};
    desk_names names = {name_memory, sizeof name_memory, end_memory, 8, 0, 0};
    static desk_merge merge;
    desk_record record;
    desk_damage damage;

    put_mapping(1001, 100, "ESZ5"), put_trade(1001, 110, 5), put_mapping(1001, 140, "ESH6"), put_trade(1001, 150, 6), end_stream();
    put_mapping(1002, 100, "NQZ5"), put_trade(1002, 120, 7), put_head(64, 1, 1002, 130), end_stream(); /* 64 bytes, of which 16 came */
    put_trade(1003, 105, 8), put_trade(1002, 145, 9), end_stream();

    expect(desk_merge_open(&merge, buffer, size, cuts, streams + 1, NULL, 0), "desk_merge_open");
    for (;;) {
        uint32_t number = desk_merge_next(&merge, &record, &damage), symbol;
        desk_name name = {"-", 1};
        if (number == DESK_DAMAGED) {
            printf("stream %u is damaged at %u: %s\n", (unsigned)damage.stream, (unsigned)damage.place, desk_reason_text(damage.reason));
            continue;
        }
        expect(number, "desk_merge_next");
        if (!record.found) break;
        expect(desk_table_record(&table, &names, record.bytes, record.length, NULL), "desk_table_record");
        expect(desk_table_get(&table, record.instrument, record.time, NULL, &symbol), "desk_table_get");
        if (symbol != DESK_NOTHING) expect(desk_names_get(&names, symbol, &name), "desk_names_get");
        printf("%u  stream %u  %s of %u  %.*s\n", (unsigned)record.time, (unsigned)record.stream,
               record.kind == DESK_SYMBOL_MAPPING ? "mapping" : "trade  ", (unsigned)record.instrument, (int)name.len, name.text);
    }
    printf("end\n");
    return 0;
}
