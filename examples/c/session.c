/* Steps a session event by event, and sees that it leaves what viz_step leaves of the whole schedule:
 *
 *     session [W H SCHEDULE FILE..]              the files of a page by rule, and a schedule of 17 events, if none are given
 *     session --dishonest W H SCHEDULE FILE..    a client's frame changes pixels outside the damage that it tells
 *
 * Each entry is compared with its line of the log, and the picture of each drawing with its frame and, outside its
 * damage, with the picture before. If a client is dishonest, one picture has to differ there, and no frame is compared.
 * The same session goes once more through the same events while each growth of memory fails in turn: the call then answers
 * VIZ_MEMORY, and the next try goes on from there. At the end nothing is left that was allocated.
 */
#include "viz.h"
#include <stdio.h>
#include <stdlib.h>
#include <string.h>

enum { MOST_FILES = 16, BYTES = 16 << 20, ROUNDS = 3 };

static long refused, growths, live;
void *__real_malloc(size_t n);
void *__real_realloc(void *p, size_t n);
void __real_free(void *p);

void *__wrap_malloc(size_t n) {
    if (++growths == refused) return NULL;
    live++;
    return __real_malloc(n);
}

void *__wrap_realloc(void *p, size_t n) {
    if (++growths == refused) return NULL;
    return __real_realloc(p, n);
}

void __wrap_free(void *p) {
    if (p) live--;
    __real_free(p);
}

static const uint8_t by_rule[] = {1, 1, 1, 1, 1, 1, 17, 2, 2, 2, 2, 3, 3, 3, 3, 18, 19};
static uint8_t schedule[1 << 17], files[BYTES], frames[BYTES], text[BYTES], line[1 << 20];
static uint8_t pixels[2048 * 2048 * 4], before[2048 * 2048 * 4];
static size_t lengths[MOST_FILES], count, files_len, frames_len, text_len, events;
static uint32_t w = 64, h = 32;
static int is_dishonest;
static struct viz_cause cause;
static struct viz_session session;

static void stop(const char *why, size_t at) {
    fprintf(stderr, "session: %s (event %zu)\n", why, at);
    exit(1);
}

static size_t read_at(uint8_t *room, size_t size, const char *name) {
    FILE *f = fopen(name, "rb");
    if (!f) stop(name, 0);
    size_t n = fread(room, 1, size, f);
    fclose(f);
    return n;
}

/* Calls again with growth 1, 2, .. refused until the call is through, if each is to be refused once. */
#define TRIED(each, answer, call) \
    do { \
        for (long nth = 1;; nth++) { \
            growths = 0; \
            refused = (each) ? nth : 0; \
            answer = (call); \
            refused = 0; \
            if (answer != VIZ_MEMORY) break; \
            if (!(each)) stop("memory is wanting", at); \
        } \
    } while (0)

/* Whether a pixel outside the damage is not that of the picture before. */
static int differs_outside(struct viz_area damage) {
    for (int32_t y = 0; y < (int32_t)h; y++)
        for (int32_t x = 0; x < (int32_t)w; x++) {
            size_t at = 4 * ((size_t)y * w + (size_t)x);
            int is_in = x >= damage.x && x - damage.x < damage.w && y >= damage.y && y - damage.y < damage.h;
            if (!is_in && memcmp(pixels + at, before + at, 4)) return 1;
        }
    return 0;
}

/* Steps the session through all events, and answers how many pictures differ outside their damage. */
static int go(int each) {
    struct viz_area damage;
    size_t at = 0, log_at = 0, frame = (size_t)w * h * 4, frames_at = 0, n = 0;
    int elsewhere = 0;
    uint32_t answer;
    if (viz_next(&session, 17) != VIZ_CALL || viz_close(&session) != VIZ_CALL) stop("a closed session answered", 0);
    TRIED(each, answer, viz_open(w, h, files, files_len, lengths, count, &session, &cause));
    if (answer != VIZ_DONE || !session.is_open) stop("it cannot be opened", 0);
    if (viz_open(w, h, files, files_len, lengths, count, &session, &cause) != VIZ_CALL) stop("it was opened twice", 0);
    if (viz_entry(&session, line, sizeof line, &n) != VIZ_NOTHING) stop("an entry before the first event", 0);
    if (viz_picture(&session, pixels, sizeof pixels, &n, &damage) != VIZ_NOTHING) stop("a picture before it", 0);
    if (viz_next(&session, 0) != VIZ_CALL || viz_next(&session, 21) != VIZ_CALL) stop("no event was taken", 0);
    for (at = 0; at < events; at++) {
        TRIED(each, answer, viz_next(&session, schedule[at]));
        if (answer != VIZ_DONE) stop("an event was not taken", at);
        if (viz_entry(&session, line, 0, &n) != VIZ_ROOM) stop("no room was enough", at);
        TRIED(each, answer, viz_entry(&session, line, n, &n));
        if (answer != VIZ_DONE || text_len - log_at < n || memcmp(text + log_at, line, n)) stop("the line differs", at);
        log_at += n;
        if (schedule[at] != 18 || !memmem(line, n, "drawn ", 6)) continue;
        TRIED(each, answer, viz_picture(&session, pixels, sizeof pixels, &n, &damage));
        if (answer != VIZ_DONE || n != frame || frames_len - frames_at < n) stop("there is no picture", at);
        if (!is_dishonest && memcmp(frames + frames_at, pixels, n)) stop("the picture differs", at);
        if (damage.x < 0 || damage.y < 0 || damage.x + damage.w > (int32_t)w || damage.y + damage.h > (int32_t)h)
            stop("the damage is not on the display", at);
        elsewhere += frames_at && differs_outside(damage);
        memcpy(before, pixels, n), frames_at += n;
    }
    if (frames_at != frames_len) stop("not all frames were seen", at);
    if (viz_close(&session) != VIZ_DONE || session.is_open) stop("it was not closed", at);
    if (viz_close(&session) != VIZ_CALL) stop("it was closed twice", at);
    if (live) stop("something was not freed", at);
    return elsewhere;
}

int main(int words, char **word) {
    if (words > 5 && !strcmp(word[1], "--dishonest")) is_dishonest = 1, word++, words--;
    if (words > 4) {
        w = (uint32_t)strtoul(word[1], NULL, 10), h = (uint32_t)strtoul(word[2], NULL, 10);
        events = read_at(schedule, sizeof schedule, word[3]);
        for (int i = 4; i < words && count < MOST_FILES; i++)
            files_len += lengths[count++] = read_at(files + files_len, BYTES - files_len, word[i]);
    } else {
        memcpy(schedule, by_rule, events = sizeof by_rule);
        count = VIZ_GEN_FILES;
        if (viz_gen(ROUNDS, files, BYTES, &files_len, lengths, count)) stop("no files were made", 0);
    }
    live = 0; /* what reading left is not the library's */
    if (viz_step(w, h, schedule, events, files, files_len, lengths, count, frames, BYTES, &frames_len, text, BYTES,
                 &text_len, &cause))
        stop("viz_step has no frames", 0);
    if ((go(0) + go(1) > 0) != is_dishonest) stop("a picture is not as its damage says", events);
    printf("session: %zu events, %zu bytes of log and %zu of frames are those of viz_step\n", events, text_len,
           frames_len);
    return 0;
}
