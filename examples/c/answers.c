/* Calls each function of viz.h in each of its answers. Example: after VIZ_ROOM both lengths of viz_step are set, and
 * nothing else is.
 *
 * All that a call may write lies in `got`, which is filled with a pattern before each call. What the call has to leave
 * is written into `want` by hand, and the two are compared whole. So what a call must not touch is seen as well, as are
 * two fields or two parameters in each other's place: no two that could be exchanged have the same value. The answer
 * VIZ_MEMORY comes by growths of memory that are refused in turn. After each call what the library has not freed is
 * counted.
 * It is linked with --wrap=malloc, --wrap=realloc and --wrap=free. */
#include "viz.h"
#include <stdio.h>
#include <stdlib.h>
#include <string.h>

enum { W = 8, H = 4, FRAME = 4 * W * H, MOST_LOG = 1 << 28, PATTERN = 0xa5 };

/* Growths of memory: the number of the one that is refused, how many there were, and how many pieces are not freed. */
static long refused, growths, live;
void *__real_malloc(size_t n);
void *__real_realloc(void *p, size_t n);
void __real_free(void *p);

void *__wrap_malloc(size_t n) {
    if (++growths == refused) return NULL;
    live++;
    return __real_malloc(n);
}

void *__wrap_realloc(void *p, size_t n) { return ++growths == refused ? NULL : __real_realloc(p, n); }

void __wrap_free(void *p) {
    live -= p != NULL;
    __real_free(p);
}

/* What calls write. */
struct left {
    uint8_t frames[FRAME + 8], log[256], files[1 << 16], line[64], pixels[FRAME + 8];
    size_t frames_len, log_len, files_len, lengths[VIZ_GEN_FILES], line_len, pixels_len, at;
    uint64_t entry;
    uint32_t what;
    struct viz_cause cause;
    struct viz_target target;
    struct viz_area damage;
    struct viz_session session;
};
static struct left got, want;

/* What calls are given. */
struct given {
    uint32_t w, h, x, y, rounds;
    uint8_t event;
    const uint8_t *schedule, *files, *frames, *log;
    size_t schedule_n, files_n, frames_n, log_n, lengths[VIZ_GEN_FILES], count;
    size_t frames_room, log_room, files_room, line_room, pixels_room;
};
static struct given given;

/* A message file, and where some of its fields are. */
static struct file {
    uint8_t bytes[1024];
    size_t n, colour;
} file, twice, changed;

/* Two accepted frames of one surface; Begin, Draw and Done after each. */
static const uint8_t schedule[] = {1, 1, 17, 18, 19, 1, 17, 18, 19}, no_draw[] = {1, 1, 17};
static const char log_of_five[] = "c1 accepted 1 1 +1.1\nc1 rooted\nbegin ticked 1\ndraw drawn 0 0 8 4\n"
                                  "done shown p1.1\nend\n";
enum { LOG = sizeof log_of_five - 1 };
static uint8_t frame[FRAME + 1], long_log[MOST_LOG + 1];

static void stop(const char *why, const char *name) {
    fprintf(stderr, "answers: %s: %s\n", name, why);
    exit(1);
}

static void put(struct file *f, uint64_t number, int width) {
    for (int i = 0; i < width; i++) f->bytes[f->n++] = (uint8_t)(number >> 8 * i);
}

static void put_rect(struct file *f, int x, int y, int w, int h) {
    put(f, (uint32_t)x, 4), put(f, (uint32_t)y, 4), put(f, (uint32_t)w, 4), put(f, (uint32_t)h, 4);
}

/* Parent 3, child 5, and a token of 13 and 11. */
static void put_local_id(struct file *f) { put(f, 3, 4), put(f, 5, 4), put(f, 13, 8), put(f, 11, 8); }

static void put_quad(struct file *f, int x, int w, uint32_t colour) {
    put(f, 0, 8), put_rect(f, x, 0, w, H), put_rect(f, x, 0, w, H), put(f, 0, 1), put(f, 255, 1), put(f, 1, 1);
    f->colour = f->n, put(f, colour, 4);
}

/* Submit: the left three columns are red, the others blue. */
static void put_frame(struct file *f, uint32_t token, int x, int y, int w, int h) {
    put(f, 2, 1), put_local_id(f), put(f, token, 4), put(f, 0, 4), put(f, 255, 1), put(f, 0, 3), put(f, 1, 1);
    put(f, 1, 4), put_rect(f, 0, 0, W, H), put_rect(f, x, y, w, h), put(f, 2, 2);
    put_quad(f, 0, 3, 0xff0000ff), put_quad(f, 3, W - 3, 0xffff0000);
}

/* The file of sink (7, 9): a frame, its root, and a frame that changes a part. */
static void make_inputs(void) {
    memcpy(file.bytes, "VIZC", file.n = 4), put(&file, 1, 2), put(&file, 7, 4), put(&file, 9, 4), put(&file, 3, 4);
    put_frame(&file, 21, 0, 0, W, H), put(&file, 5, 1), put_local_id(&file), put_frame(&file, 22, 2, 1, 5, 3);
    twice = file, memcpy(twice.bytes + file.n, file.bytes, file.n), twice.n = 2 * file.n;
    for (int i = 0; i < W * H; i++) memcpy(frame + 4 * i, i % W < 3 ? "\377\0\0\377" : "\0\0\377\377", 4);
}

/* A call that is allowed: the first five events, and the rooms that they need. */
static void begin(void) {
    given = (struct given){.w = W, .h = H, .x = 6, .y = 2, .rounds = 3, .event = 17};
    given.schedule = schedule, given.schedule_n = 5;
    given.files = file.bytes, given.files_n = file.n, given.lengths[0] = file.n, given.count = 1;
    given.frames = frame, given.frames_n = FRAME, given.log = (const uint8_t *)log_of_five, given.log_n = LOG;
    given.frames_room = given.pixels_room = FRAME, given.log_room = LOG;
    given.files_room = sizeof got.files, given.line_room = sizeof got.line;
}

/* Nothing is to be left but what is said after this. What a session has stays. */
static void forget(void) {
    struct viz_session open = got.session;
    memset(&got, PATTERN, sizeof got), memset(&want, PATTERN, sizeof want);
    got.session = want.session = open;
}

static uint32_t version(void) { return viz_version(); }

static uint32_t decode(void) { return viz_decode(given.files, given.files_n, &got.at); }

static uint32_t step(void) {
    return viz_step(given.w, given.h, given.schedule, given.schedule_n, given.files, given.files_n, given.lengths,
                    given.count, got.frames, given.frames_room, &got.frames_len, got.log, given.log_room, &got.log_len,
                    &got.cause);
}

static uint32_t check(void) {
    return viz_check(given.w, given.h, given.frames, given.frames_n, given.log, given.log_n, given.files, given.files_n,
                     given.lengths, given.count, &got.entry, &got.what, &got.cause);
}

static uint32_t hit(void) {
    return viz_hit(given.w, given.h, given.schedule, given.schedule_n, given.x, given.y, given.files, given.files_n,
                   given.lengths, given.count, &got.target, &got.cause);
}

static uint32_t gen(void) {
    return viz_gen(given.rounds, got.files, given.files_room, &got.files_len, got.lengths, given.count);
}

static uint32_t open_session(void) {
    return viz_open(given.w, given.h, given.files, given.files_n, given.lengths, given.count, &got.session,
                    &got.cause);
}

static uint32_t next(void) { return viz_next(&got.session, given.event); }

static uint32_t entry(void) { return viz_entry(&got.session, got.line, given.line_room, &got.line_len); }

static uint32_t picture(void) {
    return viz_picture(&got.session, got.pixels, given.pixels_room, &got.pixels_len, &got.damage);
}

static uint32_t close_session(void) { return viz_close(&got.session); }

/* Whether the two are the same: of a session whether it is open, as its pointer is the library's. */
static int is_left(void) {
    return !memcmp(&got, &want, offsetof(struct left, session)) && got.session.is_open == want.session.is_open;
}

/* Calls, and sees that the answer is this one and that just what is wanted was left. A session keeps memory, if any. */
static void answers(uint32_t (*call)(void), uint32_t answer, const char *name) {
    long before = live;
    int was_open = got.session.is_open;
    if (call() != answer) stop("another answer", name);
    if (!is_left()) stop("something else was left", name);
    if (!was_open && !got.session.is_open && live != before) stop("something was not freed", name);
    forget();
}

/* Calls with the first growth refused, then with the second, .., until the answer is another than VIZ_MEMORY, and sees
 * that each of these left nothing. `want` has what is left at last. It returns how many there were. */
static long tries(uint32_t (*call)(void), uint32_t answer, const char *name) {
    static struct left wanted;
    uint32_t found;
    long wanting = 0;
    wanted = want;
    for (long nth = 1;; nth++) {
        long before = live;
        int was_open = got.session.is_open;
        forget(), growths = 0, refused = nth, found = call(), refused = 0;
        if (found != VIZ_MEMORY) break;
        if (growths < nth) stop("want of memory, and no growth was refused", name);
        if (!is_left()) stop("something was left at want of memory", name);
        if (!was_open && live != before) stop("something was not freed at want of memory", name);
        wanting++;
    }
    want = wanted;
    if (found != answer) stop("another answer after want of memory", name);
    if (!is_left()) stop("something else was left after want of memory", name);
    return forget(), wanting;
}

/* The same of a call that takes memory. */
static void answers_at_last(uint32_t (*call)(void), uint32_t answer, const char *name) {
    if (!tries(call, answer, name)) stop("no want of memory", name);
}

/* The cause that is wanted. */
static void want_cause(uint32_t number, uint32_t reason, size_t at) {
    want.cause.file = number, want.cause.reason = reason, want.cause.at = at;
}

/* The three answers of inputs: the call is not allowed, a file is refused, memory is wanting. */
static void refuses(uint32_t (*call)(void), const char *name) {
    begin(), given.w = 0, answers(call, VIZ_CALL, name);
    begin(), given.h = 2049, answers(call, VIZ_CALL, name);
    begin(), given.count = 0, answers(call, VIZ_CALL, name);
    begin(), given.lengths[0]--, answers(call, VIZ_CALL, name);
    begin(), given.files = twice.bytes, given.files_n = twice.n, given.count = 2, given.lengths[1] = file.n;
    want_cause(2, VIZ_SINK_TAKEN, 6), answers(call, VIZ_REFUSED, name);
    begin(), changed = file, changed.bytes[18] = 99, given.files = changed.bytes;
    want_cause(1, VIZ_TAG, 18), answers(call, VIZ_REFUSED, name);
}

/* One byte of the file is another, and the rule is broken at this place. */
static void breaks(size_t place, uint8_t byte, uint32_t rule, size_t at) {
    begin(), changed = file, changed.bytes[place] = byte, given.files = changed.bytes;
    want.at = at, answers(decode, rule, "viz_decode");
}

static void decodes(void) {
    begin(), answers(decode, VIZ_DONE, "viz_decode");
    answers_at_last(decode, VIZ_DONE, "viz_decode");
    breaks(0, 'v', VIZ_MAGIC, 0), breaks(4, 9, VIZ_FORMAT, 4), breaks(18, 99, VIZ_TAG, 18);
    breaks(17, 1, VIZ_LIMIT, 14), breaks(file.colour + 3, 254, VIZ_COLOUR, file.colour);
    begin(), given.files_n--, want.at = file.n - 1, answers(decode, VIZ_SHORT, "viz_decode");
    begin(), given.files = twice.bytes, given.files_n++, want.at = file.n, answers(decode, VIZ_TRAILING, "viz_decode");
}

static void want_lengths(void) { want.frames_len = FRAME, want.log_len = LOG; }

static void want_step(void) { want_lengths(), memcpy(want.frames, frame, FRAME), memcpy(want.log, log_of_five, LOG); }

static void steps(void) {
    begin(), want_step(), answers(step, VIZ_DONE, "viz_step");
    begin(), given.frames_room += 8, given.log_room += 8, want_step(), answers(step, VIZ_DONE, "viz_step, large rooms");
    begin(), want_step(), answers_at_last(step, VIZ_DONE, "viz_step");
    begin(), given.frames_room--, want_lengths(), answers(step, VIZ_ROOM, "viz_step, no room for frames");
    begin(), given.log_room--, want_lengths(), answers(step, VIZ_ROOM, "viz_step, no room for the log");
    refuses(step, "viz_step");
    begin(), given.schedule = (const uint8_t *)"\1\25", given.schedule_n = 2;
    want_cause(0, VIZ_TAG, 1), answers(step, VIZ_REFUSED, "viz_step");
}

/* The log is this text, and it has a fault there. */
static void faults(const char *log, uint64_t at, uint32_t what) {
    if (log) given.log = (const uint8_t *)log, given.log_n = strlen(log);
    want.entry = at, want.what = what, answers(check, VIZ_FAULT, "viz_check");
}

static void checks(void) {
    begin(), answers(check, VIZ_DONE, "viz_check");
    answers_at_last(check, VIZ_DONE, "viz_check");
    begin(), faults("c1 accepted 1 1 +1.1\nc1 root\nend\n", 2, VIZ_LOG_TEXT);
    begin(), given.frames_n = 0, faults("c1 accepted 1 1 +1.1\nc1 rooted\nbegin ticked 2\nend\n", 3, VIZ_REPLY);
    begin(), given.frames_n = 0, faults("c1 accepted 1 1 +1.1\nend\n", 2, VIZ_REST);
    begin(), given.frames_n++, faults(NULL, 6, VIZ_LENGTH);
    begin(), given.frames_n--, faults(NULL, 4, VIZ_FRAME);
    refuses(check, "viz_check");
    begin(), given.log = long_log, given.log_n = MOST_LOG + 1;
    want_cause(0, VIZ_LONG, MOST_LOG), answers(check, VIZ_REFUSED, "viz_check");
}

static void want_target(void) {
    want.target = (struct viz_target){.client_id = 7, .sink_id = 9, .parent = 3, .child = 5, .x = 6, .y = 2};
    want.target.token_low = 13, want.target.token_high = 11;
}

static void hits(void) {
    begin(), want_target(), answers(hit, VIZ_DONE, "viz_hit");
    begin(), want_target(), answers_at_last(hit, VIZ_DONE, "viz_hit");
    begin(), given.schedule = no_draw, given.schedule_n = sizeof no_draw, answers(hit, VIZ_NOTHING, "viz_hit");
    begin(), given.x = W, answers(hit, VIZ_CALL, "viz_hit");
    begin(), given.y = H, answers(hit, VIZ_CALL, "viz_hit");
    refuses(hit, "viz_hit");
}

/* Files by rule: the sum of the three lengths, and each file is one. */
static void makes(void) {
    static struct left made;
    size_t all = 0, room;
    begin(), given.count = VIZ_GEN_FILES, given.files_room = 0;
    if (gen() != VIZ_ROOM) stop("no room was enough", "viz_gen");
    room = got.files_len, want.files_len = room, memcpy(want.lengths, got.lengths, sizeof got.lengths);
    if (!is_left()) stop("something else was left", "viz_gen without room");
    memset(got.files, PATTERN, sizeof got.files), given.files_room = room;
    if (gen() != VIZ_DONE) stop("room was not enough", "viz_gen");
    memcpy(want.files, got.files, room), made = got;
    for (int i = 0; i < VIZ_GEN_FILES; all += made.lengths[i++])
        if (viz_decode(made.files + all, made.lengths[i], &got.at) != VIZ_DONE) stop("no file", "viz_gen");
    if (all != room) stop("another sum", "viz_gen");
    if (!is_left()) stop("something else was left", "viz_gen");
    answers(gen, VIZ_DONE, "viz_gen");
    want = made, want.session = got.session, given.files_room++, answers(gen, VIZ_DONE, "viz_gen, a large room");
    want = made, want.session = got.session, answers_at_last(gen, VIZ_DONE, "viz_gen");
    memcpy(want.lengths, made.lengths, sizeof made.lengths), want.files_len = room, given.files_room = room - 1;
    answers(gen, VIZ_ROOM, "viz_gen");
    given.rounds = 0, answers(gen, VIZ_CALL, "viz_gen");
    given.rounds = 1001, answers(gen, VIZ_CALL, "viz_gen");
    given.rounds = 1, given.count = 2, answers(gen, VIZ_CALL, "viz_gen");
}

static void want_line(const char *text) {
    want.line_len = strlen(text);
    memcpy(want.line, text, want.line_len);
}

/* The picture of the second frame, which changed a part. */
static void want_picture(void) {
    want.pixels_len = FRAME, memcpy(want.pixels, frame, FRAME);
    want.damage = (struct viz_area){.x = 2, .y = 1, .w = 5, .h = 3};
}

/* The calls of a session that is closed. */
static void is_closed(void) {
    answers(next, VIZ_CALL, "viz_next, closed"), answers(entry, VIZ_CALL, "viz_entry, closed");
    answers(picture, VIZ_CALL, "viz_picture, closed"), answers(close_session, VIZ_CALL, "viz_close, closed");
}

static void opens(void) {
    static const uint8_t no_event[] = {0, 2, 16, 21, 255};
    long before = live, wanting = 0;
    begin(), is_closed();
    refuses(open_session, "viz_open");
    begin(), want.session.is_open = true, answers_at_last(open_session, VIZ_DONE, "viz_open");
    answers(open_session, VIZ_CALL, "viz_open, open");
    answers(entry, VIZ_NOTHING, "viz_entry"), answers(picture, VIZ_NOTHING, "viz_picture");
    for (size_t i = 0; i < sizeof no_event; i++) given.event = no_event[i], answers(next, VIZ_CALL, "viz_next");
    for (size_t i = 0; i < sizeof schedule; i++)
        given.event = schedule[i], wanting += tries(next, VIZ_DONE, "viz_next");
    if (!wanting) stop("no want of memory", "viz_next");
    want_line("done shown p1.2\n"), given.line_room = want.line_len, answers(entry, VIZ_DONE, "viz_entry");
    want_line("done shown p1.2\n"), given.line_room++, answers_at_last(entry, VIZ_DONE, "viz_entry, a large room");
    want.line_len = given.line_room -= 2, want.line_len++, answers(entry, VIZ_ROOM, "viz_entry");
    want_picture(), answers(picture, VIZ_DONE, "viz_picture");
    want_picture(), given.pixels_room++, answers_at_last(picture, VIZ_DONE, "viz_picture, a large room");
    want.pixels_len = FRAME, given.pixels_room = FRAME - 1, answers(picture, VIZ_ROOM, "viz_picture");
    want.session.is_open = false, answers(close_session, VIZ_DONE, "viz_close"), is_closed();
    if (live != before) stop("something was not freed", "viz_close");
}

int main(void) {
    make_inputs(), memset(&got, 0, sizeof got), forget();
    answers(version, VIZ_VERSION, "viz_version");
    decodes(), steps(), checks(), hits(), makes(), opens(), opens();
    printf("answers: each call gave each of its answers, and left what it should\n");
    return 0;
}
