/* Composes one frame in process, and writes it as a picture: compose PICTURE.ppm
 *
 * One client submits a frame of three quads and names its surface as the root; the display begins a frame and draws it.
 * docs/FORMATS.md has the bytes of a message file, README.md here says how this program is built. */
#include "viz.h"
#include <stdio.h>

enum { W = 96, H = 64 };

/* A message file that is being written. */
struct file {
    uint8_t bytes[1024];
    size_t n;
};

static void put(struct file *f, uint64_t number, int width) {
    for (int i = 0; i < width; i++) f->bytes[f->n++] = (uint8_t)(number >> 8 * i);
}

static void put_rect(struct file *f, int x, int y, int w, int h) {
    put(f, (uint32_t)x, 4), put(f, (uint32_t)y, 4), put(f, (uint32_t)w, 4), put(f, (uint32_t)h, 4);
}

/* The local id of the client's only surface: parent 1, child 1, token 1. */
static void put_local_id(struct file *f) {
    put(f, 1, 4), put(f, 1, 4), put(f, 1, 8), put(f, 0, 8);
}

/* A quad of one colour, which is red, green, blue and alpha from the lowest byte on. */
static void put_quad(struct file *f, int x, int y, int w, int h, uint8_t opacity, uint32_t colour) {
    put(f, 0, 8);                                     /* offset (0, 0) */
    put_rect(f, x, y, w, h), put_rect(f, x, y, w, h); /* its rectangle, all of it visible */
    put(f, 0, 1), put(f, opacity, 1);                 /* no clip */
    put(f, 1, 1), put(f, colour, 4);                  /* solid */
}

/* The file of the client: a frame, and then its root. */
static void write_file(struct file *f) {
    for (const char *c = "VIZC"; *c; c++) put(f, (uint8_t)*c, 1);
    put(f, 1, 2), put(f, 1, 4), put(f, 1, 4), put(f, 2, 4); /* version, sink (1, 1), two messages */
    put(f, 2, 1), put_local_id(f);                          /* Submit */
    put(f, 7, 4), put(f, 0, 4), put(f, 255, 1);             /* frame token 7, no begin-frame answered, no deadline */
    put(f, 0, 3), put(f, 1, 1);                             /* no dependency, reference or resource; one pass */
    put(f, 1, 4), put_rect(f, 0, 0, W, H), put_rect(f, 0, 0, W, H); /* pass 1: its output, all of it damaged */
    put(f, 3, 2);                                           /* three quads, from front to back */
    put_quad(f, 36, 20, 48, 36, 160, 0xff30a0f0);           /* orange, see-through */
    put_quad(f, 12, 8, 48, 36, 255, 0xffa04020);            /* blue */
    put_quad(f, 0, 0, W, H, 255, 0xfff0f0f0);               /* nearly white */
    put(f, 5, 1), put_local_id(f);                          /* SetRoot */
}

static int write_picture(const char *name, const uint8_t *frame) {
    FILE *out = fopen(name, "wb");
    if (!out) return 0;
    fprintf(out, "P6 %d %d 255\n", W, H);
    for (int i = 0; i < W * H; i++) fwrite(frame + 4 * i, 1, 3, out);
    return fclose(out) == 0;
}

int main(int count, char **words) {
    static const uint8_t schedule[] = {1, 1, 17, 18, 19}; /* two messages; Begin, Draw, Done */
    static uint8_t frames[4 * W * H], log[4096];
    struct file file = {.n = 0};
    struct viz_cause cause;
    struct viz_target target;
    size_t frames_len, log_len;
    if (count != 2) {
        fprintf(stderr, "words: PICTURE.ppm\n");
        return 2;
    }
    write_file(&file);
    uint32_t answer = viz_step(W, H, schedule, sizeof schedule, file.bytes, file.n, &file.n, 1, frames, sizeof frames,
                               &frames_len, log, sizeof log, &log_len, &cause);
    if (answer == VIZ_REFUSED) printf("file %u at %zu: reason %u\n", cause.file, cause.at, cause.reason);
    if (answer != VIZ_DONE) return 1;
    fwrite(log, 1, log_len, stdout);
    answer = viz_hit(W, H, schedule, sizeof schedule, 50, 30, file.bytes, file.n, &file.n, 1, &target, &cause);
    if (answer == VIZ_DONE) printf("at (50, 30): client %u\n", target.client_id);
    if (!write_picture(words[1], frames)) {
        fprintf(stderr, "%s cannot be written\n", words[1]);
        return 1;
    }
    return 0;
}
