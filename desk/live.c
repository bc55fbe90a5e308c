/* page.c over streams that are still arriving: one key press, a page of what has come. The bundle's streams arrive 50 bytes at a time, each
 * where a run stops for want of it. The lines are those of page.c: whatever the portions, the records and their order are the same. */
#define main page_main
#include "page.c"
#undef main

enum { PORTION = 50 };

static desk_feed feed;
static uint64_t come[DESK_STREAMS]; /* of each stream the bytes that were taken */

/* The next bytes of a stream, or the word that it has ended. */
static uint32_t bring(uint64_t stream) {
    uint64_t left = cuts[stream + 1] - cuts[stream] - come[stream];
    size_t taken = 0;
    uint32_t number;
    if (left == 0) return desk_feed_finish(&feed, stream);
    number = desk_feed_add(&feed, stream, buffer + cuts[stream] + come[stream], left < PORTION ? left : PORTION, &taken);
    come[stream] += taken;
    return number;
}

int main(void) {
    size_t streams = streams_of(fread(bundle, 1, sizeof bundle, stdin)), written = 0;
    uint32_t last = 1;
    uint64_t stream = 0;
    desk_damage damage;
    if (streams == 0 || desk_feed_begin(&feed, streams, NULL, 0) != DESK_DONE) {
        fprintf(stderr, "live: no bundle\n");
        return 1;
    }
    while (last != 0) {
        uint32_t number = desk_feed_read_run(&feed, PAGE, page, PAGE, NULL, &written, &last, &stream, &damage);
        if (number != DESK_DONE && number != DESK_DAMAGED) return 1;
        put_page(written);
        if (number == DESK_DAMAGED) printf("%llu damaged %llu\n", (unsigned long long)damage.stream, (unsigned long long)damage.place);
        else if (last == DESK_NEED_MORE && bring(stream) != DESK_DONE) return 1;
    }
    printf("end\n");
    return 0;
}
