/* The words of `viz` for step, check, hit and gen, answered by the library:
 *
 *     calls [each | time SECONDS] step W H SCHEDULE FRAMES LOG FILE..
 *     calls .. check W H FRAMES LOG FILE..        calls .. hit W H SCHEDULE X Y FILE..
 *     calls .. gen N FILE1 FILE2 FILE3            calls decode FILE
 *
 * It prints what `viz` prints, writes what `viz` writes, and ends with its status. `each` makes each growth of memory
 * fail in turn first, and sees that the call then answers VIZ_MEMORY or what it answers else, and frees all that it took.
 * `time` calls again and again for so many seconds, and prints how many calls a second there were.
 * It is linked with --wrap=malloc, --wrap=realloc and --wrap=free. */
#include "viz.h"
#include <stdio.h>
#include <stdlib.h>
#include <string.h>
#include <time.h>

enum { MOST_FILES = 16, BYTES = 80 << 20, LOG = 16 << 20 };

/* Growths of memory: the number of the one that fails, how many there were, and how many pieces are not freed yet. */
static long refused, growths, live;
static int counts;
void *__real_malloc(size_t n);
void *__real_realloc(void *p, size_t n);
void __real_free(void *p);

void *__wrap_malloc(size_t n) {
    if (!counts) return __real_malloc(n);
    if (++growths == refused) return NULL;
    live++;
    return __real_malloc(n);
}

void *__wrap_realloc(void *p, size_t n) {
    if (counts && ++growths == refused) return NULL;
    return __real_realloc(p, n);
}

void __wrap_free(void *p) {
    if (counts && p) live--;
    __real_free(p);
}

/* What a call is given, and its rooms. */
struct room {
    uint8_t *at;
    size_t size, n;
};
static char **word;
static struct room schedule, frames, text, files;
static size_t lengths[MOST_FILES], count, place;
static uint64_t entry;
static uint32_t what;
static struct viz_cause cause;
static struct viz_target target;

/* A number of the command. */
static uint32_t number(int i) { return (uint32_t)strtoul(word[i], NULL, 10); }

static void stop(const char *why, const char *name) {
    fprintf(stderr, "calls: %s %s\n", name, why);
    exit(4);
}

static void make(struct room *r, size_t size) {
    r->size = size;
    if (!(r->at = malloc(size))) stop("needs more memory", "this");
}

/* Appends a file to what is in a room. */
static size_t read_on(struct room *r, const char *name) {
    FILE *f = fopen(name, "rb");
    if (!f) stop("cannot be read", name);
    size_t n = fread(r->at + r->n, 1, r->size - r->n, f);
    fclose(f);
    r->n += n;
    return n;
}

static void write_out(const char *name, const uint8_t *bytes, size_t n) {
    FILE *f = fopen(name, "wb");
    if (!f || fwrite(bytes, 1, n, f) != n || fclose(f)) stop("cannot be written", name);
}

static void read_files(int from, int to) {
    make(&files, BYTES);
    for (int i = from; i < to && count < MOST_FILES; i++) lengths[count++] = read_on(&files, word[i]);
}

static uint32_t step(void) {
    return viz_step(number(1), number(2), schedule.at, schedule.n, files.at, files.n, lengths, count, frames.at, frames.size,
                    &frames.n, text.at, text.size, &text.n, &cause);
}

static uint32_t check(void) {
    return viz_check(number(1), number(2), frames.at, frames.n, text.at, text.n, files.at, files.n, lengths, count, &entry,
                     &what, &cause);
}

static uint32_t hit(void) {
    return viz_hit(number(1), number(2), schedule.at, schedule.n, number(4), number(5), files.at, files.n, lengths, count,
                   &target, &cause);
}

static uint32_t gen(void) { return viz_gen(number(1), files.at, files.size, &files.n, lengths, VIZ_GEN_FILES); }

static uint32_t decode(void) { return viz_decode(files.at, files.n, &place); }

/* Reads what a command is given, and returns its call. */
static uint32_t (*begin(int words))(void) {
    if (words > 6 && !strcmp(word[0], "step")) {
        make(&schedule, 1 << 17), make(&frames, BYTES), make(&text, LOG);
        read_on(&schedule, word[3]), read_files(6, words);
        return step;
    }
    if (words > 5 && !strcmp(word[0], "check")) {
        make(&frames, BYTES), make(&text, LOG);
        read_on(&frames, word[3]), read_on(&text, word[4]), read_files(5, words);
        return check;
    }
    if (words > 6 && !strcmp(word[0], "hit")) {
        make(&schedule, 1 << 17);
        read_on(&schedule, word[3]), read_files(6, words);
        return hit;
    }
    if (words == 5 && !strcmp(word[0], "gen")) return make(&files, BYTES), gen;
    if (words == 2 && !strcmp(word[0], "decode")) return read_files(1, 2), decode;
    stop("is no call", "this");
    return NULL;
}

/* Makes each growth fail in turn. */
static void refuse_each(uint32_t (*call)(void), const char *name) {
    long made_up = 0;
    uint32_t whole = call();
    for (refused = 1;; refused++) {
        growths = live = 0, counts = 1;
        uint32_t answer = call();
        counts = 0;
        if (live != 0) stop("leaves memory that is not freed", name);
        if (answer != VIZ_MEMORY && answer != whole) stop("answers otherwise where a growth fails", name);
        if (growths < refused) break;
        made_up += answer == whole;
    }
    fprintf(stderr, "%s: each of %ld growths failed in turn, %ld were made up for\n", name, refused - 1, made_up);
    refused = 0;
}

static double now(void) {
    struct timespec t;
    clock_gettime(CLOCK_PROCESS_CPUTIME_ID, &t);
    return (double)t.tv_sec + (double)t.tv_nsec / 1e9;
}

static void time_calls(uint32_t (*call)(void), double seconds) {
    long calls = 0;
    double begun = now(), passed = 0;
    for (; passed < seconds; passed = now() - begun, calls++) call();
    printf("%.1f\n", (double)calls / passed);
}

static void print_token(unsigned __int128 token) {
    char digits[40];
    int at = sizeof digits;
    do digits[--at] = (char)('0' + (int)(token % 10));
    while (token /= 10);
    printf(" %.*s", (int)sizeof digits - at, digits + at);
}

static void print_hit(void) {
    printf("hit %u %u %u %u", target.client_id, target.sink_id, target.parent, target.child);
    print_token((unsigned __int128)target.token_high << 64 | target.token_low);
    printf(" %d %d\n", target.x, target.y);
}

/* Whether the line is one after the entries of a log. */
static int is_rest(const uint8_t *line) {
    return !memcmp(line, "held", 4) || !memcmp(line, "open", 4) || !memcmp(line, "end\n", 4);
}

/* The line of `viz step`. */
static void print_done(void) {
    size_t entries = 0, at = 0, frame = 4 * (size_t)number(1) * number(2);
    for (; at < text.n && !is_rest(text.at + at); entries++)
        at = (size_t)((uint8_t *)memchr(text.at + at, '\n', text.n - at) - text.at) + 1;
    printf("done %zu entries %zu frames\n", entries, frames.n / frame);
}

/* Prints and writes what `viz` does, and returns its status. */
static int end(uint32_t answer) {
    static const char *const whats[] = {"", "LogText", "Reply", "Frame", "Rest", "Length"};
    static const char *const rules[] = {"",       "Magic",    "Version", "Short", "Tag", "Limit", "Colour",
                                        "Trailing", "", "", "", "", "", "", "SinkTaken", "Long"};
    if (answer == VIZ_REFUSED) return printf("file %u refused at %zu: %s\n", cause.file, cause.at, rules[cause.reason]), 3;
    if (answer == VIZ_FAULT) return printf("no %llu %s\n", (unsigned long long)entry, whats[what]), 1;
    if (answer == VIZ_NOTHING) return printf("hit none\n"), 0;
    if (answer == VIZ_CALL) return printf("words refused\n"), 2;
    if (answer == VIZ_MEMORY) return 5;
    if (answer != VIZ_DONE) return printf("answer %u\n", answer), 6;
    if (word[0][0] == 's') write_out(word[4], frames.at, frames.n), write_out(word[5], text.at, text.n), print_done();
    if (word[0][0] == 'c') printf("yes\n");
    if (word[0][0] == 'h') print_hit();
    if (word[0][0] == 'g') {
        const uint8_t *at = files.at;
        for (int i = 0; i < VIZ_GEN_FILES; at += lengths[i++]) write_out(word[2 + i], at, lengths[i]);
        printf("made 3 files\n");
    }
    return 0;
}

int main(int words, char **all) {
    double seconds = 0;
    int each = 0;
    word = all + 1, words--;
    if (words && !strcmp(*word, "each")) each = 1, word++, words--;
    if (words > 1 && !strcmp(*word, "time")) seconds = atof(word[1]), word += 2, words -= 2;
    if (!words) stop("is no call", "this");
    uint32_t (*call)(void) = begin(words);
    if (viz_version() != VIZ_VERSION) stop("is another version", "the library");
    if (each) refuse_each(call, word[0]);
    if (seconds > 0) return time_calls(call, seconds), 0;
    uint32_t answer = call();
    if (call == decode) return printf("%u at %zu\n", answer, place), 0;
    return end(answer);
}
