/* Sees that what viz.h says of a call's edges is so: which results stay as they were at each answer, that rooms and results
 * need not be initialised, that inputs may overlap and lie at any byte, that a closed session may be opened again.
 *
 *     edges     prints how many answers were seen
 *
 * Each call is made twice, over results that are all zeros and all 0xEE, so that each byte that it writes shows. Where
 * growths of memory fail, each growth fails in turn. The last calls have results that nobody wrote: under valgrind a call
 * that looked at one would show. It is linked with --wrap=malloc, --wrap=realloc and --wrap=free. */
#include "viz.h"
#include <stdio.h>
#include <stdlib.h>
#include <string.h>

enum { W = 64, H = 32, ROUNDS = 3, FILES = 1 << 15, FRAMES = 1 << 14, LOG = 1 << 12, LINE = 256, PIXELS = W * H * 4 };
enum { COUNT = VIZ_GEN_FILES };

/* Growths of memory: the number of the one that fails, how many there were, and how many pieces are not freed yet. */
static long refused, growths, live;
void *__real_malloc(size_t n);
void *__real_realloc(void *p, size_t n);
void __real_free(void *p);

void *__wrap_malloc(size_t n) {
    if (++growths == refused) return NULL;
    live++;
    return __real_malloc(n);
}

void *__wrap_realloc(void *p, size_t n) {
    if (++growths == refused) return NULL;
    return __real_realloc(p, n);
}

void __wrap_free(void *p) {
    if (p) live--;
    __real_free(p);
}

/* Everything that a call may write, but for a session. */
static struct results {
    size_t at, frames_len, log_len, files_len, line_len, pixels_len, lengths[COUNT];
    uint64_t entry;
    uint32_t what;
    struct viz_cause cause;
    struct viz_target target;
    struct viz_area damage;
    uint8_t frames[FRAMES], log[LOG], files[FILES], line[LINE], pixels[PIXELS];
} r;

#define RESULTS(each) \
    each(at) each(frames_len) each(log_len) each(files_len) each(line_len) each(pixels_len) each(lengths) each(entry) each(what) \
        each(cause) each(target) each(damage) each(frames) each(log) each(files) each(line) each(pixels)
#define NUMBER(name) IS_##name,
#define BIT(name) name##_new = 1 << IS_##name,
enum { RESULTS(NUMBER) };
enum { RESULTS(BIT) none_new = 0 };

/* What the calls are given. */
static const uint8_t by_rule[] = {1, 1, 1, 1, 1, 1, 17, 2, 2, 2, 2, 3, 3, 3, 3, 18, 19};
static uint8_t files[FILES], bad[FILES], frames[FRAMES], text[LOG];
static size_t lengths[COUNT], files_len, frames_len, text_len, room, log_room, rounds = ROUNDS, count = COUNT;
static const uint8_t *given = files, *schedule = by_rule, *judged = text;
static size_t events = sizeof by_rule;
static uint32_t w = W, x = 40;
static struct viz_session session, *shown = &session;
static uint8_t event;
static long seen;

static void stop(const char *name, const char *why, long number) {
    fprintf(stderr, "edges: %s: %s (%ld)\n", name, why, number);
    exit(1);
}

static uint32_t decode(void) { return viz_decode(given, lengths[0], &r.at); }
static uint32_t gen(void) { return viz_gen((uint32_t)rounds, r.files, room, &r.files_len, r.lengths, count); }
static uint32_t step(void) {
    return viz_step(w, H, schedule, events, given, files_len, lengths, count, r.frames, room, &r.frames_len, r.log, log_room,
                    &r.log_len, &r.cause);
}
static uint32_t check(void) {
    return viz_check(w, H, frames, frames_len, judged, text_len, given, files_len, lengths, count, &r.entry, &r.what, &r.cause);
}
static uint32_t hit(void) {
    return viz_hit(w, H, schedule, events, x, 8, given, files_len, lengths, count, &r.target, &r.cause);
}
static uint32_t open_session(void) { return viz_open(w, H, given, files_len, lengths, count, shown, &r.cause); }
static uint32_t next_event(void) { return viz_next(&session, event); }
static uint32_t last_entry(void) { return viz_entry(&session, r.line, room, &r.line_len); }
static uint32_t picture(void) { return viz_picture(&session, r.pixels, room, &r.pixels_len, &r.damage); }
static uint32_t close_session(void) { return viz_close(&session); }

/* The results that have another byte than a filler. */
static long changed(int filler) {
    static struct results before;
    long bits = 0;
    memset(&before, filler, sizeof before);
#define COMPARE(name) bits |= (long)(memcmp(&before.name, &r.name, sizeof r.name) != 0) << IS_##name;
    RESULTS(COMPARE)
    return bits;
}

/* Makes a call, and answers what it wrote. */
static long written(const char *name, uint32_t (*call)(void), uint32_t answer) {
    long bits = 0;
    for (int again = 0; again < 2; again++) {
        int filler = again ? 0xEE : 0;
        memset(&r, filler, sizeof r);
        uint32_t found = call();
        if (found != answer) stop(name, "another answer", found);
        bits |= changed(filler);
    }
    return bits;
}

/* Whether a room has nothing but fillers from a place on. */
static int is_bare(const uint8_t *place, size_t n, size_t size) {
    for (; n < size && place[n] == 0xEE; n++) {}
    return n >= size;
}

/* Sees that a call has this answer, and writes this and nothing else, neither behind what it tells the length of. */
static void see(const char *name, uint32_t (*call)(void), uint32_t answer, long due) {
    long bits = written(name, call, answer);
    if (bits != due) stop(name, "other results were written", bits ^ due);
#define BEHIND(of) if (due & of##_new && !is_bare(r.of, r.of##_len, sizeof r.of)) stop(name, "something is behind its end", 0);
    BEHIND(frames) BEHIND(log) BEHIND(files) BEHIND(line) BEHIND(pixels)
    seen++;
}

/* Makes each growth of memory fail in turn: a call that is not through then writes nothing, and leaves nothing. */
static void see_wants(const char *name, uint32_t (*call)(void)) {
    for (long nth = 1;; nth++) {
        long before = live;
        memset(&r, 0xEE, sizeof r);
        growths = 0, refused = nth;
        uint32_t answer = call();
        refused = 0;
        if (answer == VIZ_MEMORY && (changed(0xEE) || live != before)) stop(name, "a want of memory left something", nth);
        if (growths < nth) break;
    }
    seen++;
}

static void see_decode(void) {
    see("viz_decode", decode, VIZ_DONE, none_new);
    given = bad, see("viz_decode", decode, VIZ_MAGIC, at_new), given = files;
}

/* Calls with numbers that they do not take. */
static void see_calls(const char *name, uint32_t (*call)(void)) {
    w = 0, see(name, call, VIZ_CALL, none_new);
    w = 2049, see(name, call, VIZ_CALL, none_new), w = W;
    count = 0, see(name, call, VIZ_CALL, none_new), count = COUNT;
    files_len--, see(name, call, VIZ_CALL, none_new), files_len++;
    given = bad, see(name, call, VIZ_REFUSED, cause_new), given = files;
}

static void see_gen(void) {
    room = FILES, see("viz_gen", gen, VIZ_DONE, files_new | files_len_new | lengths_new);
    room = files_len - 1, see("viz_gen", gen, VIZ_ROOM, files_len_new | lengths_new), room = FILES;
    rounds = 1001, see("viz_gen", gen, VIZ_CALL, none_new), rounds = ROUNDS;
    count = 2, see("viz_gen", gen, VIZ_CALL, none_new), count = COUNT;
}

static void see_step(void) {
    static const uint8_t over[] = {21};
    const long done = frames_new | frames_len_new | log_new | log_len_new, lens = frames_len_new | log_len_new;
    room = FRAMES, log_room = LOG, see("viz_step", step, VIZ_DONE, done);
    room = frames_len, log_room = text_len, see("viz_step", step, VIZ_DONE, done);
    room--, see("viz_step", step, VIZ_ROOM, lens), room++;
    log_room--, see("viz_step", step, VIZ_ROOM, lens), log_room++;
    see_calls("viz_step", step);
    schedule = over, events = 1, see("viz_step", step, VIZ_REFUSED, cause_new);
    schedule = by_rule, events = sizeof by_rule;
}

static void see_check(void) {
    see("viz_check", check, VIZ_DONE, none_new);
    judged = files, see("viz_check", check, VIZ_FAULT, entry_new | what_new), judged = text;
    see_calls("viz_check", check);
}

static void see_hit(void) {
    see("viz_hit", hit, VIZ_DONE, target_new);
    events = 0, see("viz_hit", hit, VIZ_NOTHING, none_new), events = sizeof by_rule;
    x = W, see("viz_hit", hit, VIZ_CALL, none_new), x = 40;
    see_calls("viz_hit", hit);
}

/* Opens the session and gives it all events, closes it, and does so again: a closed session may be opened again. */
static void see_session(void) {
    for (int again = 0; again < 2; again++) {
        long before = live;
        see("viz_next", next_event, VIZ_CALL, none_new), see("viz_entry", last_entry, VIZ_CALL, none_new);
        see("viz_picture", picture, VIZ_CALL, none_new), see("viz_close", close_session, VIZ_CALL, none_new);
        see_calls("viz_open", open_session);
        if (open_session() != VIZ_DONE || !session.is_open) stop("viz_open", "it is closed", again);
        see("viz_open", open_session, VIZ_CALL, none_new);
        event = 0, see("viz_next", next_event, VIZ_CALL, none_new);
        see("viz_entry", last_entry, VIZ_NOTHING, none_new), see("viz_picture", picture, VIZ_NOTHING, none_new);
        for (size_t i = 0; i < events; i++) {
            event = schedule[i];
            if (next_event() != VIZ_DONE) stop("viz_next", "an event was not taken", (long)i);
            room = LINE, see("viz_entry", last_entry, VIZ_DONE, line_new | line_len_new);
            room = r.line_len - 1, see("viz_entry", last_entry, VIZ_ROOM, line_len_new);
        }
        room = PIXELS, see("viz_picture", picture, VIZ_DONE, pixels_new | pixels_len_new | damage_new);
        room--, see("viz_picture", picture, VIZ_ROOM, pixels_len_new), room++;
        see_wants("viz_entry", last_entry), see_wants("viz_picture", picture);
        if (close_session() != VIZ_DONE || session.is_open || live != before) stop("viz_close", "something is left", live - before);
    }
}

/* Inputs at odd bytes, one in the other, and the same for two parameters: the answers are those of copies. */
static void see_overlaps(void) {
    static uint8_t moved[FILES + 1];
    const uint8_t *one = memchr(files, 1, files_len);
    static uint8_t first[LOG];
    size_t n;
    memcpy(moved + 1, files, files_len), given = moved + 1, room = frames_len, log_room = text_len;
    if (step() != VIZ_DONE || memcmp(r.frames, frames, frames_len) || memcmp(r.log, text, text_len))
        stop("viz_step", "files at an odd byte leave something else", 0);
    given = files, schedule = by_rule, events = 1, log_room = LOG;
    if (step() != VIZ_DONE) stop("viz_step", "one event is not taken", 0);
    memcpy(first, r.log, n = r.log_len), schedule = one;
    if (step() != VIZ_DONE || r.log_len != n || memcmp(first, r.log, n)) stop("viz_step", "a schedule in the files", 0);
    schedule = by_rule, events = sizeof by_rule;
    if (viz_check(W, H, files, files_len, files, files_len, files, files_len, lengths, COUNT, &r.entry, &r.what, &r.cause) !=
            VIZ_FAULT || r.entry != 1 || r.what != VIZ_LOG_TEXT)
        stop("viz_check", "one input three times", r.entry);
    if (viz_decode((const uint8_t *)lengths, sizeof lengths, &r.at) != VIZ_MAGIC) stop("viz_decode", "lengths as bytes", 0);
    seen += 4;
}

/* Appends a number of some bytes, the lowest first. */
static void add(uint64_t number, int bytes) {
    for (; bytes--; number >>= 8) bad[files_len++] = (uint8_t)number;
}

static void add_area(uint32_t left, uint32_t top, uint32_t wide, uint32_t high) { add(left, 4), add(top, 4), add(wide, 4), add(high, 4); }

/* Appends a frame of one quad, which fills a surface of 16 by 16, with its damage. */
static void add_frame(uint32_t left, uint32_t top, uint32_t wide, uint32_t high) {
    add(2, 1), add(5, 4), add(9, 4), add(0x1234, 8), add(0x5678, 8);             /* Submit, the local id */
    add(0, 4), add(0, 4), add(255, 1), add(0, 3), add(1, 1);                     /* the frame; one pass */
    add(1, 4), add_area(0, 0, 16, 16), add_area(left, top, wide, high), add(1, 2);
    add(0, 8), add_area(0, 0, 16, 16), add_area(0, 0, 16, 16), add(0, 1), add(255, 1), add(1, 1), add(0xFF0000FF, 4);
}

/* Each field of each struct has a value of its own: the library has them where the C compiler has them. */
static void see_fields(void) {
    static const uint8_t events_of[] = {1, 1, 18, 19, 1, 18};
    const struct viz_target due = {3, 7, 5, 9, 0x1234, 0x5678, 11, 13};
    size_t same[2];
    memset(&r, 0xEE, sizeof r), files_len = 0;
    add(0x435A4956, 4), add(1, 2), add(3, 4), add(7, 4), add(3, 4);              /* VIZC; the sink 3, 7; three messages */
    add_frame(0, 0, 16, 16), add(5, 1), add(5, 4), add(9, 4), add(0x1234, 8), add(0x5678, 8), add_frame(1, 2, 3, 4);
    same[0] = same[1] = files_len, memcpy(bad + files_len, bad, files_len);
    if (viz_step(16, 16, events_of, 0, bad, 2 * files_len, same, 2, r.frames, 0, &r.frames_len, r.log, LOG,
                 &r.log_len, &r.cause) != VIZ_REFUSED || r.cause.file != 2 || r.cause.reason != VIZ_SINK_TAKEN || r.cause.at != 6)
        stop("viz_cause", "a field is elsewhere", r.cause.file);
    if (viz_hit(16, 16, events_of, 3, 11, 13, bad, files_len, same, 1, &r.target, &r.cause) != VIZ_DONE ||
        memcmp(&r.target, &due, sizeof due))
        stop("viz_target", "a field is elsewhere", r.target.client_id);
    memset(&session, 0, sizeof session);
    if (viz_open(16, 16, bad, files_len, same, 1, &session, &r.cause) != VIZ_DONE || !session.at || session.is_open != true)
        stop("viz_session", "a field is elsewhere", 0);
    for (size_t i = 0; i < sizeof events_of; i++)
        if (viz_next(&session, events_of[i]) != VIZ_DONE) stop("viz_next", "an event was not taken", (long)i);
    if (viz_picture(&session, r.pixels, PIXELS, &r.pixels_len, &r.damage) != VIZ_DONE || r.damage.x != 1 || r.damage.y != 2 ||
        r.damage.w != 3 || r.damage.h != 4)
        stop("viz_area", "a field is elsewhere", r.damage.x);
    if (viz_close(&session) != VIZ_DONE || session.at || session.is_open) stop("viz_session", "a field stays", 0);
    seen += 4;
}

/* All results as they come from the heap. */
static void see_unwritten(void) {
    struct results *u = malloc(sizeof *u);
    struct viz_session own = {0};
    uint32_t sum = 0;
    if (!u) stop("edges", "memory is wanting", 0);
    sum |= viz_decode(files, lengths[0], &u->at);
    sum |= viz_gen(ROUNDS, u->files, FILES, &u->files_len, u->lengths, COUNT);
    sum |= viz_step(W, H, by_rule, sizeof by_rule, files, files_len, lengths, COUNT, u->frames, FRAMES, &u->frames_len, u->log, LOG,
                    &u->log_len, &u->cause);
    sum |= viz_check(W, H, frames, frames_len, text, text_len, files, files_len, lengths, COUNT, &u->entry, &u->what, &u->cause);
    sum |= viz_hit(W, H, by_rule, sizeof by_rule, 40, 8, files, files_len, lengths, COUNT, &u->target, &u->cause);
    sum |= viz_open(W, H, files, files_len, lengths, COUNT, &own, &u->cause);
    for (size_t i = 0; i < sizeof by_rule; i++) {
        sum |= viz_next(&own, by_rule[i]);
        sum |= viz_entry(&own, u->line, LINE, &u->line_len);
    }
    sum |= viz_picture(&own, u->pixels, PIXELS, &u->pixels_len, &u->damage);
    sum |= viz_close(&own);
    if (sum != VIZ_DONE || memcmp(u->pixels, frames, PIXELS) || u->target.x != r.target.x) stop("edges", "results that nobody wrote", sum);
    free(u), seen += 11;
}

int main(void) {
    if (viz_gen(ROUNDS, files, FILES, &files_len, lengths, COUNT) != VIZ_DONE) stop("viz_gen", "no files", 0);
    if (viz_step(W, H, by_rule, sizeof by_rule, files, files_len, lengths, COUNT, frames, FRAMES, &frames_len, text, LOG, &text_len,
                 &r.cause) != VIZ_DONE)
        stop("viz_step", "no frames", 0);
    memcpy(bad, files, files_len), bad[0] = 'v';
    long before = live;
    see_decode(), see_gen(), see_step(), see_check(), see_hit(), see_session(), see_overlaps();
    see_wants("viz_decode", decode), see_wants("viz_gen", gen), see_wants("viz_step", step), see_wants("viz_check", check);
    if (hit() != VIZ_DONE) stop("viz_hit", "nothing is hit", 0);
    see_wants("viz_hit", hit), hit(), see_unwritten(), see_fields();
    if (live != before) stop("edges", "something was not freed", live - before);
    printf("edges: %ld answers write what viz.h says, and nothing else\n", seen);
    return 0;
}
