/* Calls every function of viz.h on threads whose stacks are as small as viz.h says, and tells how much each call took:
 *
 *     stack W H SCHEDULE FILE..                  as much as viz.h says
 *     stack --bytes N W H SCHEDULE FILE..        all on one thread with so many bytes, in whole pages
 *     stack --alone CALL W H SCHEDULE FILE..     viz_step, or another one, alone on the first stack, and all others on a
 *                                                large one: with `ulimit -s` it shows what the call needs (dev/stack)
 *
 * The events of the schedule are stepped at once, judged, asked what they hit at the upper left, and stepped once more
 * by a session. Each call has to leave what it leaves with a large stack. Below a thread's stack is a page that nobody
 * may touch; a stack is painted before each call, and what is painted no longer was taken. */
#include "viz.h"
#include <pthread.h>
#include <stdio.h>
#include <stdlib.h>
#include <string.h>
#include <sys/mman.h>
#include <ucontext.h>

enum { MOST_FILES = 16, MOST_EVENTS = 1 << 16, ROUNDS = 20, DRAW = 18, PAGE = 4096, LARGE = 16 << 20 };
enum { VERSION, GEN, DECODE, STEP, CHECK, HIT, OPEN, NEXT, ENTRY, PICTURE, CLOSE, CALLS };
#define ROOM ((size_t)256 << 20)
#define PAINT 0xA5A55A5AC3C33C3Cu

static const char *const names[CALLS] = {"viz_version", "viz_gen",  "viz_decode", "viz_step",    "viz_check", "viz_hit",
                                         "viz_open",    "viz_next", "viz_entry",  "viz_picture", "viz_close"};

/* What the calls are given, and their rooms. */
static uint8_t schedule[MOST_EVENTS], *files, *frames, *text, *made, *line, *pixels;
static size_t events, lengths[MOST_FILES], count, files_len, frames_len, text_len, made_len, line_len, pixels_len;
static size_t made_lengths[VIZ_GEN_FILES], at, place, from;
static uint32_t w, h, what;
static uint64_t entry;
static struct viz_cause cause;
static struct viz_target target;
static struct viz_area damage;
static struct viz_session session;

static uint32_t version(void) { return viz_version() != VIZ_VERSION; }
static uint32_t gen(void) { return viz_gen(ROUNDS, made, ROOM, &made_len, made_lengths, VIZ_GEN_FILES); }
static uint32_t decode(void) { return viz_decode(files + from, lengths[at], &place); }
static uint32_t step(void) {
    return viz_step(w, h, schedule, events, files, files_len, lengths, count, frames, ROOM, &frames_len, text, ROOM,
                    &text_len, &cause);
}
static uint32_t check(void) {
    return viz_check(w, h, frames, frames_len, text, text_len, files, files_len, lengths, count, &entry, &what, &cause);
}
static uint32_t hit(void) {
    return viz_hit(w, h, schedule, events, 0, 0, files, files_len, lengths, count, &target, &cause);
}
static uint32_t open_session(void) { return viz_open(w, h, files, files_len, lengths, count, &session, &cause); }
static uint32_t next_event(void) { return viz_next(&session, schedule[at]); }
static uint32_t last_entry(void) { return viz_entry(&session, line, ROOM, &line_len); }
static uint32_t picture(void) { return viz_picture(&session, pixels, ROOM, &pixels_len, &damage); }
static uint32_t close_session(void) { return viz_close(&session); }

/* What the calls left, as a sum for each; how many bytes of stack each took at most, and the start of the thread. */
static uint64_t left[CALLS];
static size_t taken[CALLS], start;

/* How the calls are made: which of them, and on which stack. */
static unsigned wanted = ~0u;
static uint64_t *low;
static int alone = -1;

static void stop(const char *why, const char *name) {
    fprintf(stderr, "stack: %s %s\n", name, why);
    exit(1);
}

/* Adds bytes to the sum of a call. */
static void tell(int call, const void *bytes, size_t n) {
    for (const uint8_t *p = bytes; n; n--) left[call] = (left[call] ^ *p++) * 0x100000001b3u;
}

/* Makes a call on the stack of this thread, and counts what it takes. */
__attribute__((noinline)) static uint32_t counted(int call, uint32_t (*make)(void)) {
    volatile uint64_t *p, *here = (uint64_t *)(((uintptr_t)__builtin_frame_address(0) - 256) & ~(uintptr_t)7);
    for (p = low; p < here; p++) *p = PAINT;
    uint32_t answer = make();
    for (p = low; p < here && *p == PAINT; p++) {}
    size_t bytes = (size_t)((uintptr_t)here + 256 - (uintptr_t)p);
    if (bytes > taken[call]) taken[call] = bytes;
    return answer;
}

/* Makes a call on a large stack, which is on this thread all the same. */
static ucontext_t here, there;
static uint32_t (*aside_call)(void), aside_answer;
static void aside_start(void) { aside_answer = aside_call(); }

static uint32_t aside(uint32_t (*make)(void)) {
    static uint8_t large[LARGE];
    aside_call = make;
    if (getcontext(&there)) stop("has no context", "this system");
    there.uc_stack.ss_sp = large, there.uc_stack.ss_size = sizeof large, there.uc_link = &here;
    makecontext(&there, aside_start, 0);
    swapcontext(&here, &there);
    return aside_answer;
}

/* Makes a call that is wanted. It may answer that nothing is there. */
static uint32_t call(int number, uint32_t (*make)(void)) {
    if (!(wanted >> number & 1)) return VIZ_DONE;
    uint32_t answer = low ? counted(number, make) : number == alone || alone < 0 ? make() : aside(make);
    if (answer != VIZ_DONE && answer != VIZ_NOTHING) stop("has another answer", names[number]);
    tell(number, &answer, sizeof answer);
    return answer;
}

/* Makes all calls that are wanted. */
static void make_all(void) {
    memset(left, 0, sizeof left);
    call(VERSION, version);
    call(GEN, gen), tell(GEN, made, made_len), tell(GEN, made_lengths, sizeof made_lengths);
    for (at = from = 0; at < count; from += lengths[at++]) call(DECODE, decode);
    call(STEP, step), tell(STEP, frames, frames_len), tell(STEP, text, text_len);
    call(CHECK, check);
    call(HIT, hit), tell(HIT, &target, sizeof target);
    call(OPEN, open_session);
    for (at = 0; at < events; at++) {
        call(NEXT, next_event);
        call(ENTRY, last_entry), tell(ENTRY, line, line_len);
        if (schedule[at] == DRAW && call(PICTURE, picture) == VIZ_DONE)
            tell(PICTURE, pixels, pixels_len), tell(PICTURE, &damage, sizeof damage);
    }
    call(CLOSE, close_session);
}

static void *on_thread(void *top) {
    start = (size_t)((uint8_t *)top - (uint8_t *)__builtin_frame_address(0));
    make_all();
    return NULL;
}

/* Makes calls on a thread with so many bytes of stack, and sees that they leave what they left before. */
static void make_on(size_t bytes, unsigned calls) {
    static uint64_t before[CALLS];
    memcpy(before, left, sizeof left);
    bytes = (bytes + PAGE - 1) / PAGE * PAGE;
    uint8_t *stack = mmap(NULL, bytes + PAGE, PROT_READ | PROT_WRITE, MAP_PRIVATE | MAP_ANONYMOUS | MAP_STACK, -1, 0);
    pthread_attr_t attributes;
    pthread_t thread;
    if (stack == MAP_FAILED || mprotect(stack, PAGE, PROT_NONE)) stop("has no memory", "this system");
    low = (uint64_t *)(stack + PAGE), wanted = calls;
    if (pthread_attr_init(&attributes) || pthread_attr_setstack(&attributes, low, bytes)) stop("is no stack", "this");
    if (pthread_create(&thread, &attributes, on_thread, (uint8_t *)low + bytes) || pthread_join(thread, NULL)) stop("does not start", "it");
    for (int i = 0; i < CALLS; i++)
        if (calls >> i & 1 && left[i] != before[i]) stop("leaves something else on a small stack", names[i]);
    memcpy(left, before, sizeof left);
    munmap(stack, bytes + PAGE);
}

static void *room(void) {
    void *found = mmap(NULL, ROOM, PROT_READ | PROT_WRITE, MAP_PRIVATE | MAP_ANONYMOUS | MAP_NORESERVE, -1, 0);
    if (found == MAP_FAILED) stop("has no memory", "this system");
    return found;
}

static size_t read_at(uint8_t *place, size_t size, const char *name) {
    FILE *f = fopen(name, "rb");
    if (!f) stop("cannot be read", name);
    size_t n = fread(place, 1, size, f);
    fclose(f);
    return n;
}

/* The number of a call by its name. */
static int number_of(const char *name) {
    for (int i = 0; i < CALLS; i++)
        if (!strcmp(name, names[i])) return i;
    stop("is no call", name);
    return -1;
}

int main(int words, char **word) {
    size_t bytes = 0;
    if (words > 2 && !strcmp(word[1], "--bytes")) bytes = strtoul(word[2], NULL, 10), word += 2, words -= 2;
    if (words > 2 && !strcmp(word[1], "--alone")) alone = number_of(word[2]), word += 2, words -= 2;
    if (words < 5) return fprintf(stderr, "stack: the words are wrong\n"), 2;
    files = room(), frames = room(), text = room(), made = room(), line = room(), pixels = room();
    w = (uint32_t)atoi(word[1]), h = (uint32_t)atoi(word[2]), events = read_at(schedule, sizeof schedule, word[3]);
    for (int i = 4; i < words && count < MOST_FILES; i++)
        files_len += lengths[count++] = read_at(files + files_len, ROOM - files_len, word[i]);
    make_all();
    if (alone >= 0) return printf("%s %016llx\n", names[alone], (unsigned long long)left[alone]), 0;
    if (bytes) make_on(bytes, ~0u);
    if (!bytes) make_on(VIZ_STACK, ~(1u << CHECK)), make_on(VIZ_STACK_CHECK, 1u << CHECK);
    printf("a thread's start takes %zu bytes of stack\n", start);
    for (int i = 0; i < CALLS; i++) printf("%-12s %7zu\n", names[i], taken[i]);
    return 0;
}
