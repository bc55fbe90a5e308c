/* Metadata gathered, merged, built and looked up: two days' metadata become one, a third that differs is refused, and from the one come a
 * table over time and a point-in-time table. */
#include "desk.h"

#include <stdio.h>
#include <stdlib.h>
#include <string.h>

static uint8_t name_memory[256];
static uint32_t end_memory[16];
static desk_names names = {name_memory, sizeof name_memory, end_memory, 16, 0, 0};

static void expect(uint32_t number, const char *call) {
    if (number == DESK_DONE) return;
    printf("%s: %s. %s\n", call, desk_refusal_name(number), desk_refusal_text(number));
    exit(1);
}

static uint32_t name(const char *text) {
    uint32_t symbol;
    expect(desk_names_add(&names, text, strlen(text), &symbol), "desk_names_add");
    return symbol;
}

static uint64_t start_of(uint32_t date) {
    uint64_t moment;
    expect(desk_date_start(date, &moment), "desk_date_start");
    return moment;
}

/* A metadata of one query, whose names stand for instruments: its lists are those that are lent, all in use. */
static desk_metadata query(uint32_t from, uint32_t to, desk_mapping *mappings, size_t mappings_len, desk_dates *intervals,
                           size_t intervals_len) {
    desk_metadata metadata;
    memset(&metadata, 0, sizeof metadata);
    metadata.header[DESK_HEADER_VERSION] = 3;
    metadata.header[DESK_HEADER_DATASET] = name("GLBX.MDP3");
    metadata.header[DESK_HEADER_SCHEMA] = DESK_NO_SCHEMA;
    metadata.header[DESK_HEADER_START] = start_of(from);
    metadata.header[DESK_HEADER_END] = start_of(to);
    metadata.header[DESK_HEADER_STYPE_IN] = 1;
    metadata.header[DESK_HEADER_STYPE_OUT] = DESK_INSTRUMENT_ID;
    metadata.header[DESK_HEADER_MAPPINGS] = mappings_len;
    metadata.mappings = mappings, metadata.mappings_len = mappings_len;
    metadata.intervals = intervals, metadata.intervals_len = intervals_len;
    return metadata;
}

static void print_symbol(const char *what, uint32_t symbol) {
    desk_name text = {"no symbol", 9};
    if (symbol != DESK_NOTHING) expect(desk_names_get(&names, symbol, &text), "desk_names_get");
    printf("%s: %.*s\n", what, (int)text.len, text.text);
}

int main(void) {
    const uint32_t es = name("ES.c.0"), nq = name("NQ.c.0"), five = name("5"), six = name("6"), seven = name("7");
    desk_mapping monday_mappings[] = {{es, 1}}, tuesday_mappings[] = {{es, 1}, {nq, 1}};
    desk_dates monday_dates[] = {{20251215, 20251216, five}}, tuesday_dates[] = {{20251216, 20251217, six}, {20251216, 20251217, seven}};
    desk_metadata monday = query(20251215, 20251216, monday_mappings, 1, monday_dates, 1);
    desk_metadata tuesday = query(20251216, 20251217, tuesday_mappings, 2, tuesday_dates, 2), other = tuesday;

    /* The gathered metadata needs room for the outcome, so the first one moves into larger memory. */
    static desk_mapping mappings[16];
    static desk_dates dates[64];
    desk_metadata gathered = monday;
    memcpy(mappings, monday_mappings, sizeof monday_mappings), memcpy(dates, monday_dates, sizeof monday_dates);
    gathered.mappings = mappings, gathered.mappings_len = 16, gathered.intervals = dates, gathered.intervals_len = 64;
    expect(desk_metadata_begin(&gathered), "desk_metadata_begin");
    expect(desk_metadata_add(&gathered, &tuesday, &names, NULL), "desk_metadata_add");

    uint32_t field = 0, number;
    other.header[DESK_HEADER_VERSION] = 2;
    number = desk_metadata_add(&gathered, &other, &names, &field);
    printf("Another version: %s, field %u\n", desk_refusal_name(number), (unsigned)field);
    expect(desk_metadata_end(&gathered), "desk_metadata_end");
    for (size_t i = 0, at = 0; i < gathered.header[DESK_HEADER_MAPPINGS]; at += mappings[i++].intervals)
        for (size_t k = at; k < at + mappings[i].intervals; k++)
            printf("mapping %u: %u to before %u\n", (unsigned)i, (unsigned)dates[k].start, (unsigned)dates[k].end);

    static uint8_t table_memory[16 * DESK_INTERVAL_BYTES], point_memory[16 * DESK_POINT_BYTES];
    desk_table table = {table_memory, sizeof table_memory, 0};
    desk_point_table points = {point_memory, sizeof point_memory, 0};
    uint32_t symbol;
    expect(desk_table_build(&table, &gathered, &names), "desk_table_build");
    expect(desk_table_get(&table, 5, start_of(20251215), NULL, &symbol), "desk_table_get");
    print_symbol("Instrument 5 on Monday", symbol);
    expect(desk_table_get(&table, 5, start_of(20251216), NULL, &symbol), "desk_table_get");
    print_symbol("Instrument 5 on Tuesday", symbol);
    expect(desk_table_get(&table, 6, start_of(20251216), NULL, &symbol), "desk_table_get");
    print_symbol("Instrument 6 on Tuesday", symbol);
    expect(desk_point_table_build(&points, &gathered, &names, 20251216), "desk_point_table_build");
    expect(desk_point_table_get(&points, 7, &symbol), "desk_point_table_get");
    print_symbol("Instrument 7 on Tuesday, by the table of that day", symbol);
    return 0;
}
