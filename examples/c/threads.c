/* Calls the library from several threads at once, and sees that each call leaves what it leaves by itself:
 *
 *     threads [THREADS [ROUNDS]]     2 threads and 20 rounds if none are given
 *
 * Each thread makes the files of a page, steps through them, judges what came of it and asks what is hit, in rooms of
 * its own. A thread has as much stack as viz.h says. */
#include "viz.h"
#include <pthread.h>
#include <stdio.h>
#include <stdlib.h>
#include <string.h>

enum { W = 64, H = 32, ROUNDS = 3, FILES = 1 << 16, FRAMES = 1 << 16, LOG = 1 << 14, MOST_THREADS = 64 };
enum { STACK = VIZ_STACK > VIZ_STACK_CHECK ? VIZ_STACK : VIZ_STACK_CHECK };

/* What the calls leave. */
struct left {
    uint8_t files[FILES], frames[FRAMES], log[LOG];
    size_t lengths[VIZ_GEN_FILES], files_len, frames_len, log_len, at;
    struct viz_target target;
    uint32_t answers[6];
};

static const uint8_t schedule[] = {1, 1, 1, 1, 1, 1, 17, 2, 2, 2, 2, 3, 3, 3, 3, 18, 19};
static struct left alone;
static int rounds = 20;

/* Makes each call once. The first byte of a file is wrong in the last one. */
static void call_all(struct left *l) {
    struct viz_cause cause = {0, 0, 0};
    uint64_t entry = 0;
    uint32_t what = 0;
    memset(l, 0, sizeof *l);
    l->answers[0] = viz_gen(ROUNDS, l->files, FILES, &l->files_len, l->lengths, VIZ_GEN_FILES);
    l->answers[1] = viz_step(W, H, schedule, sizeof schedule, l->files, l->files_len, l->lengths, VIZ_GEN_FILES, l->frames,
                             FRAMES, &l->frames_len, l->log, LOG, &l->log_len, &cause);
    l->answers[2] = viz_check(W, H, l->frames, l->frames_len, l->log, l->log_len, l->files, l->files_len, l->lengths,
                              VIZ_GEN_FILES, &entry, &what, &cause);
    l->answers[3] = viz_hit(W, H, schedule, sizeof schedule, 40, 8, l->files, l->files_len, l->lengths, VIZ_GEN_FILES,
                            &l->target, &cause);
    l->answers[4] = viz_decode(l->files, l->lengths[0], &l->at);
    l->answers[5] = viz_decode(l->files + 1, l->lengths[0], &l->at);
}

/* How many rounds of a thread left something else. */
static void *work(void *unused) {
    struct left *l = malloc(sizeof *l);
    long wrong = 0;
    if (!l) return (void *)1;
    for (int i = 0; i < rounds; i++) {
        call_all(l);
        wrong += memcmp(l, &alone, sizeof *l) != 0;
    }
    free(l);
    (void)unused;
    return (void *)wrong;
}

int main(int count, char **words) {
    static const uint32_t wanted[] = {VIZ_DONE, VIZ_DONE, VIZ_DONE, VIZ_DONE, VIZ_DONE, VIZ_MAGIC};
    int threads = count > 1 ? atoi(words[1]) : 2;
    pthread_t thread[MOST_THREADS];
    pthread_attr_t small;
    long wrong = 0;
    if (count > 2) rounds = atoi(words[2]);
    if (threads < 1 || threads > MOST_THREADS || rounds < 1) return 2;
    call_all(&alone);
    if (memcmp(alone.answers, wanted, sizeof wanted)) return fprintf(stderr, "threads: another answer\n"), 1;
    if (pthread_attr_init(&small) || pthread_attr_setstacksize(&small, STACK)) return 1;
    for (int i = 0; i < threads; i++)
        if (pthread_create(&thread[i], &small, work, NULL)) return fprintf(stderr, "threads: no thread\n"), 1;
    for (int i = 0; i < threads; i++) {
        void *found;
        pthread_join(thread[i], &found), wrong += (long)found;
    }
    printf("threads: %d threads, %d rounds of 6 calls each, %ld left something else\n", threads, rounds, wrong);
    return wrong != 0;
}
