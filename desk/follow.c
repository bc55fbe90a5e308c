/* follow [--done] FILE..: replays files while they are being copied, over the door's calls for streams that arrive in portions
 * (docs/RULES.md, Requests, No. 5). Each FILE is one stream. It has ended when FILE.end stands beside it, or with --done at its present
 * end. ./follow builds and runs this. The memory is a desk_feed and 64 KB a file. */
#include "desk.h"

#include <stdlib.h>
#include <string.h>

/* What is used of the system, on x86-64 Linux; desk/bare has no header for it. */
int open(const char *, int, ...);
long pread(int, void *, size_t, long);
long write(int, const void *, size_t);
long lseek(int, long, int);
int access(const char *, int);
int isatty(int);
int poll(void *, unsigned long, int);
long time(long *);
char *strerror(int);
int *__errno_location(void);

enum { AHEAD = 65536, PATIENCE = 50, LINE = 80 };

/* A file: how much of it was taken, and what was read ahead of that, `ahead` bytes from the place `from` on. */
struct source {
    const char *path;
    char *mark;
    int file;
    uint64_t taken, from;
    size_t ahead;
    uint8_t *bytes;
};

static struct source sources[DESK_STREAMS];
static desk_feed feed;
static char out[65536];
static size_t laid;
static uint64_t records;
static int done, watched, shown;
static long told;

static int put_all(int to, const char *text, size_t size) {
    while (size > 0) {
        long n = write(to, text, size);
        if (n <= 0) return 0;
        text += n;
        size -= (size_t)n;
    }
    return 1;
}

static void say(const char *text) { put_all(2, text, strlen(text)); }

/* The progress line goes before anything else is told. */
static void clear_line(void) {
    if (shown) say("\r\033[K");
    shown = 0;
}

static int failed(const char *what, const char *why) {
    clear_line();
    say("follow: ");
    say(what);
    say(": ");
    say(why);
    say("\n");
    return 1;
}

static int failed_by_system(const char *what) { return failed(what, strerror(*__errno_location())); }

static int flush_lines(void) {
    size_t size = laid;
    laid = 0;
    return put_all(1, out, size) || !failed_by_system("standard output");
}

static size_t decimal(uint64_t n, char *text) {
    char digits[20];
    size_t size = 0, i;
    do digits[size++] = (char)('0' + n % 10);
    while ((n /= 10) > 0);
    for (i = 0; i < size; i++) text[i] = digits[size - 1 - i];
    return size;
}

/* A number and a word or a byte behind it, as far as a line has room. */
static void put_number(uint64_t n, const char *behind) {
    laid += decimal(n, out + laid);
    memcpy(out + laid, behind, strlen(behind));
    laid += strlen(behind);
}

static int room_for_a_line(void) { return laid + LINE <= sizeof out || flush_lines(); }

/* For a person: at most once a second. */
static void tell(size_t stream) {
    char count[21];
    long now = time(NULL);
    if (!watched || now == told) return;
    told = now;
    count[decimal(records, count)] = 0;
    clear_line();
    say("follow: ");
    say(count);
    say(" records, waiting for stream ");
    count[decimal(stream, count)] = 0;
    say(count);
    say(" (");
    say(sources[stream].path);
    say(")");
    shown = 1;
}

/* Hands in what was read ahead, as far as it is taken. */
static int hand_in(size_t stream) {
    struct source *s = &sources[stream];
    size_t at = (size_t)(s->taken - s->from), taken = 0;
    uint32_t number = desk_feed_add(&feed, stream, s->bytes + at, s->ahead - at, &taken);
    if (number != DESK_DONE || taken == 0) return !failed(s->path, "no more than 2^63 bytes are taken");
    s->taken += taken;
    return 1;
}

/* More of a stream is needed: what was read ahead, or a read, or the word that it has ended, or patience. The mark is looked for before the
 * read: what was written before the mark was made is read then. */
static int more(size_t stream) {
    struct source *s = &sources[stream];
    int ended;
    long n;
    if (s->taken < s->from + s->ahead) return hand_in(stream);
    ended = done || access(s->mark, 0) == 0;
    n = pread(s->file, s->bytes, AHEAD, (long)s->taken);
    if (n < 0) return !failed_by_system(s->path);
    s->from = s->taken;
    s->ahead = (size_t)n;
    if (n > 0) return hand_in(stream);
    if (lseek(s->file, 0, 2) < (long)s->taken) return !failed(s->path, "it became shorter than what was taken of it");
    if (ended) return desk_feed_finish(&feed, stream) == DESK_DONE || !failed(s->path, "its end was not taken");
    if (!flush_lines()) return 0;
    tell(stream);
    poll(NULL, 0, PATIENCE);
    return 1;
}

/* Calls to the end; the status. */
static int follow(void) {
    desk_record record;
    desk_damage damage;
    for (;;) {
        uint32_t number = desk_feed_read(&feed, &record, &damage);
        if (number == DESK_DONE && record.found == DESK_NEED_MORE) {
            if (!more((size_t)record.stream)) return 1;
            continue;
        }
        if (!room_for_a_line()) return 1;
        if (number == DESK_DAMAGED) {
            put_number(damage.stream, " damaged ");
            put_number(damage.place, "\n");
        } else if (number != DESK_DONE) {
            return failed("the merge", desk_refusal_text(number));
        } else if (record.found == 0) {
            memcpy(out + laid, "end\n", 4);
            laid += 4;
            clear_line();
            return flush_lines() ? 0 : 1;
        } else {
            records += 1;
            put_number(record.stream, " ");
            put_number(record.time, " ");
            put_number(record.instrument, "\n");
        }
    }
}

static int open_all(size_t count, char **paths) {
    size_t i, missing = 0;
    for (i = 0; i < count; i++) {
        struct source *s = &sources[i];
        size_t size = strlen(paths[i]);
        s->path = paths[i];
        s->bytes = malloc(AHEAD);
        s->mark = malloc(size + 5);
        if (s->bytes == NULL || s->mark == NULL) return !failed(s->path, "no memory");
        memcpy(s->mark, paths[i], size);
        memcpy(s->mark + size, ".end", 5);
        s->file = open(s->path, 0);
        if (s->file < 0) missing += (size_t)failed_by_system(s->path);
    }
    return missing == 0;
}

int main(int words, char **word) {
    size_t count, first = 1;
    if (words > 1 && strcmp(word[1], "--done") == 0) done = 1, first = 2;
    count = (size_t)words - first;
    if (words < (int)first + 1 || count > DESK_STREAMS) {
        say("usage: ./follow [--done] FILE..   (1 to 256 files; ./follow --help tells more)\n");
        return 2;
    }
    watched = isatty(2);
    if (!open_all(count, word + first)) return 1;
    if (desk_feed_begin(&feed, count, NULL, 0) != DESK_DONE) return failed("the merge", "it was not opened");
    return follow();
}
