/* Look up and insert: names, a table over time, trades looked up in it with a cursor for each instrument, and why one has no symbol. */
#include "desk.h"

#include <stdio.h>
#include <stdlib.h>
#include <string.h>

enum { ROOM = 16, NAMES = 8, INSTRUMENTS = 3 };

/* What the program lends. Everything that the desk knows stands here. */
static uint8_t table_memory[ROOM * DESK_INTERVAL_BYTES], name_memory[64];
static uint32_t end_memory[NAMES];
static desk_table table = {table_memory, sizeof table_memory, 0};
static desk_names names = {name_memory, sizeof name_memory, end_memory, NAMES, 0, 0};

/* A refusal that this program does not expect. */
static void expect(uint32_t number, const char *call) {
    if (number == DESK_DONE) return;
    printf("%s: %s. %s\n", call, desk_refusal_name(number), desk_refusal_text(number));
    exit(1);
}

static uint64_t start_of(uint32_t date) {
    uint64_t moment;
    expect(desk_date_start(date, &moment), "desk_date_start");
    return moment;
}

/* From one date to before another the instrument trades under the name. */
static uint32_t map(uint32_t instrument, uint32_t from, uint32_t to, const char *name) {
    uint32_t symbol;
    expect(desk_names_add(&names, name, strlen(name), &symbol), "desk_names_add");
    return desk_table_insert(&table, &names, instrument, start_of(from), start_of(to), symbol);
}

/* ---- Printing. */

static void print_date(uint64_t moment) {
    uint32_t date;
    expect(desk_date_at(moment, &date), "desk_date_at");
    printf("%04u-%02u-%02u", (unsigned)(date / 10000), (unsigned)(date / 100 % 100), (unsigned)(date % 100));
}

static void print_name(uint32_t symbol) {
    desk_name name;
    expect(desk_names_get(&names, symbol, &name), "desk_names_get");
    printf("%.*s", (int)name.len, name.text);
}

static void print_table(const char *title) {
    desk_interval interval;
    printf("%s: %u intervals of %u\n", title, (unsigned)table.used, (unsigned)ROOM);
    for (size_t i = 0; desk_table_interval(&table, i, &interval); i++) {
        printf("  instrument %u  ", (unsigned)interval.instrument);
        print_date(interval.start);
        printf(" to before ");
        print_date(interval.end);
        printf("  ");
        print_name(interval.symbol);
        printf("\n");
    }
}

/* ---- Trades. */

static void look_up(uint32_t instrument, uint64_t moment, uint64_t *cursor) {
    unsigned second = (unsigned)(moment / 1000000000u % 86400u);
    uint32_t symbol;
    expect(desk_table_get(&table, instrument, moment, cursor, &symbol), "desk_table_get");
    printf("  ");
    print_date(moment);
    printf(" %02u:%02u:%02u  instrument %u  ", second / 3600, second / 60 % 60, second % 60, (unsigned)instrument);
    if (symbol != DESK_NOTHING) print_name(symbol);
    else printf("no symbol");
    printf("  (cursor %u)\n", (unsigned)*cursor);
}

static void explain(uint32_t instrument, uint32_t date) {
    desk_explanation why;
    expect(desk_table_explain(&table, &names, instrument, start_of(date), &why), "desk_table_explain");
    printf("Instrument %u on %u: ", (unsigned)instrument, (unsigned)date);
    if (why.reason == DESK_UNKNOWN) {
        printf("unknown\n");
        return;
    }
    printf(why.reason == DESK_IN ? "in " : why.reason == DESK_BEFORE ? "before " : "after ");
    print_name(why.symbol);
    if (why.reason == DESK_BETWEEN) printf(" and before "), print_name(why.next_symbol);
    printf("\n");
}

int main(void) {
    static const struct {
        uint32_t instrument, date, second;
    } trades[] = {{1, 20240919, 86399}, {1, 20240920, 0},     {2, 20240607, 50400}, {1, 20241213, 52200}, {1, 20241217, 52200},
                  {2, 20240611, 50400}, {1, 20250320, 86399}, {1, 20250321, 0},     {0, 20240920, 0}};
    uint64_t cursors[INSTRUMENTS] = {0};
    uint32_t number;

    expect(map(1, 20240920, 20241220, "ESZ4"), "desk_table_insert");
    expect(map(1, 20241220, 20250321, "ESH5"), "desk_table_insert");
    expect(map(2, 20240102, 20240610, "NVDA"), "desk_table_insert");
    expect(map(2, 20240610, 20250102, "NVDA"), "desk_table_insert");
    print_table("As first told");

    expect(map(1, 20241216, 20241220, "ESH5"), "desk_table_insert");
    print_table("ES rolled four days earlier");

    number = map(2, 20250102, 20240102, "NVDA");
    printf("A reversed interval: %s. %s\n", desk_refusal_name(number), desk_refusal_text(number));
    printf("Is the table well-formed? %s\n", desk_table_check(&table, &names) == DESK_DONE ? "yes" : "no");

    printf("Trades\n");
    for (size_t i = 0; i < sizeof trades / sizeof trades[0]; i++)
        look_up(trades[i].instrument, start_of(trades[i].date) + trades[i].second * UINT64_C(1000000000), &cursors[trades[i].instrument]);

    expect(map(1, 20250602, 20250919, "ESU5"), "desk_table_insert");
    explain(1, 20241217);
    explain(1, 20250401);
    explain(1, 20240101);
    explain(2, 20260101);
    explain(3, 20240920);
    return 0;
}
