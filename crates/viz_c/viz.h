/* The compositor in process. Example: is this a message file?
 *
 *     size_t at;
 *     uint32_t answer = viz_decode(bytes, n, &at);     // VIZ_DONE, or a rule, which is broken at byte `at`
 *
 * Link crates/viz_c/out/libviz_c.a, and the kit's c/liblibc_c.a (the heap over malloc, realloc and free, which have to be
 * of one allocator, and to align as C wants).
 * README.md says what is proved of each call.
 *
 * For every call:
 * - No pointer may be null, not even with a length of 0. Each is aligned as C wants it of its type; bytes may lie anywhere.
 * - What a pointer to const leads to is set before the call, and so is a viz_session. Rooms and results (all other pointers)
 *   need not be: no call looks at what is in them.
 * - There is as much as a length says: so many bytes, or so many lengths. It is PTRDIFF_MAX bytes or less.
 * - What a call writes overlaps nothing else that it is given. What it only reads may overlap, or be the same.
 * - A room or a result that is not named at an answer stays as it was with that answer, and so does what is in a room
 *   behind the length that is told.
 * - A call keeps nothing but in a viz_session. What else it allocates it frees before it returns, so a want of memory
 *   loses nothing. Any number of threads may call at the same time, but no signal handler may, and no child that a
 *   process with threads forked.
 * - VIZ_STACK bytes of stack have to be left, to viz_check VIZ_STACK_CHECK.
 * - Lengths and places count bytes, sides and points count pixels.
 */
#ifndef VIZ_H
#define VIZ_H

#include <stdbool.h>
#include <stddef.h>
#include <stdint.h>

#ifdef __cplusplus
extern "C" {
#endif

/* The version of these calls, which viz_version answers. */
#define VIZ_VERSION 1

/* The number of lengths that viz_gen tells. */
#define VIZ_GEN_FILES 3

/* So many bytes of stack have to be left when another function is called, or viz_check. This is measured, not proved
 * (examples/c/stack.c): on the deepest input (64 surfaces with 16 nested groups each) viz_step, viz_hit and viz_next take
 * 596 KiB, where nothing is nested so deeply no call took more than 64, and viz_check took 12 on each. */
#define VIZ_STACK (640 * 1024)
#define VIZ_STACK_CHECK (64 * 1024)

/* What a call answers. */
enum viz_answer {
    VIZ_DONE = 0,

    /* Rules of a message file or of a schedule: also the reason of a viz_cause. */
    VIZ_MAGIC = 1,    /* the first four bytes are not VIZC */
    VIZ_FORMAT = 2,   /* the file's version is neither 1 nor 2 */
    VIZ_SHORT = 3,    /* the field needs more bytes than are left */
    VIZ_TAG = 4,      /* a tag, a flag, a blend mode or an event is unknown */
    VIZ_LIMIT = 5,    /* a number, a count, an id or a rectangle is out of its range */
    VIZ_COLOUR = 6,   /* a channel of a colour exceeds its alpha */
    VIZ_TRAILING = 7, /* bytes are left after the last message */

    VIZ_MEMORY = 8,   /* an allocation failed */
    VIZ_CALL = 9,     /* a number of the call is out of its range, or the session is not as the call needs it */
    VIZ_ROOM = 10,    /* a room is too small; the lengths say how much is needed */
    VIZ_REFUSED = 11, /* an input is refused; the viz_cause says which, where and why */
    VIZ_FAULT = 12,   /* viz_check: the log or its frames have a fault */
    VIZ_NOTHING = 13, /* nothing is there to tell */

    /* Reasons of a viz_cause alone. */
    VIZ_SINK_TAKEN = 14, /* an earlier client's file has the same sink */
    VIZ_LONG = 15        /* the input is too long */
};

/* What viz_check finds. */
enum viz_what {
    VIZ_LOG_TEXT = 1, /* the line is not in the grammar of the log at its place */
    VIZ_REPLY = 2,    /* the plan has no such client, or the machine replies otherwise */
    VIZ_FRAME = 3,    /* the next bytes of the frames are not the picture that the entry draws */
    VIZ_REST = 4,     /* the lines after the entries are not what is outstanding */
    VIZ_LENGTH = 5    /* bytes are left after the last frame */
};

/* Where and why an input is refused. */
struct viz_cause {
    uint32_t file;   /* the client whose file it is, from 1 on, or 0 for the schedule or the log */
    uint32_t reason; /* VIZ_MAGIC to VIZ_TRAILING, VIZ_SINK_TAKEN or VIZ_LONG */
    size_t at;       /* how many bytes of that input come before the fault */
};

/* A surface that is hit, and the point in it, from the surface's top left. */
struct viz_target {
    uint32_t client_id;
    uint32_t sink_id;
    uint32_t parent;
    uint32_t child;
    uint64_t token_low;  /* the lower 64 bits of the token */
    uint64_t token_high; /* the upper 64 bits of the token */
    int32_t x;
    int32_t y;
};

/* A rectangle of the display, in pixels from its top left. */
struct viz_area {
    int32_t x;
    int32_t y;
    int32_t w;
    int32_t h;
};

/* A machine that is given one event at a time. It is closed at first, as a struct of zeros is:
 *
 *     struct viz_session session = {0};
 *
 * The fields belong to the library: read `is_open` if you want, write neither, copy no session that is open, and close
 * each before its struct goes. A session stays on the thread that opened it. Once it is closed it is as a struct of zeros
 * again, and may be opened again, over other files too. */
struct viz_session {
    void *at;
    bool is_open;
};

/* VIZ_VERSION of the library. */
uint32_t viz_version(void);

/* Whether `bytes` is a message file. It answers VIZ_DONE, VIZ_MEMORY, or the rule that is broken first, VIZ_MAGIC to
 * VIZ_TRAILING, and then `at` gets the place. */
uint32_t viz_decode(const uint8_t *bytes, size_t bytes_n, size_t *at);

/* In the calls below the display has `w` by `h` pixels, 1 to 2,048 each. The clients' message files, 1 to 16, come one
 * after the other in `files`; `lengths` has the length of each, which together are files_n. Otherwise the answer is
 * VIZ_CALL. A schedule has one byte an event: 1 to 16 for that client's next message, 17 Begin, 18 Draw, 19 Done and
 * 20 Over. */

/* Gives the events of a schedule to the machine, which has two buffers. It answers
 * - VIZ_DONE: the frames are at the front of `frames` (four bytes a pixel: red, green, blue, alpha; row by row from
 *   the top, one frame after the other), and the log at the front of `log` (ASCII, no zero byte at its end).
 *   frames_len and log_len get their lengths.
 * - VIZ_ROOM: one of the rooms is too small. The lengths are set, and the rooms are as before. A call with rooms of
 *   length 0 asks for the lengths; it takes as long as the call that is answered with VIZ_DONE.
 * - VIZ_CALL, VIZ_REFUSED, VIZ_MEMORY: nothing but `cause` is set, which VIZ_REFUSED sets. */
uint32_t viz_step(uint32_t w, uint32_t h, const uint8_t *schedule, size_t schedule_n,
                  const uint8_t *files, size_t files_n, const size_t *lengths, size_t lengths_n,
                  uint8_t *frames, size_t frames_room, size_t *frames_len,
                  uint8_t *log, size_t log_room, size_t *log_len, struct viz_cause *cause);

/* Whether a log is that of the machine, and the bytes are its frames. It uses another machine and another painter than
 * viz_step: plain ones, which are slow. It answers
 * - VIZ_DONE: yes.
 * - VIZ_FAULT: no. `entry` gets the first entry that has a fault, from 1 on (after the last entry: their number plus
 *   1), and `what` the first fault there, an enum viz_what.
 * - VIZ_CALL, VIZ_REFUSED (sets `cause`), VIZ_MEMORY. */
uint32_t viz_check(uint32_t w, uint32_t h, const uint8_t *frames, size_t frames_n, const uint8_t *log, size_t log_n,
                   const uint8_t *files, size_t files_n, const size_t *lengths, size_t lengths_n,
                   uint64_t *entry, uint32_t *what, struct viz_cause *cause);

/* Which surface is hit in column x and row y of the last drawing, both from 0 on and on the display. It paints nothing.
 * It answers
 * - VIZ_DONE: a surface, which `target` gets.
 * - VIZ_NOTHING: none is there, or nothing was drawn.
 * - VIZ_CALL, VIZ_REFUSED (sets `cause`), VIZ_MEMORY. */
uint32_t viz_hit(uint32_t w, uint32_t h, const uint8_t *schedule, size_t schedule_n, uint32_t x, uint32_t y,
                 const uint8_t *files, size_t files_n, const size_t *lengths, size_t lengths_n,
                 struct viz_target *target, struct viz_cause *cause);

/* Makes the message files of a page and its two children for `rounds` rounds, 1 to 1,000. lengths_n has to be
 * VIZ_GEN_FILES. It answers
 * - VIZ_DONE: the three files come one after the other at the front of `files`.
 * - VIZ_ROOM: `files` is too small, and is as before.
 * - VIZ_CALL, VIZ_MEMORY.
 * With the first two, files_len gets the length of all three, and `lengths` that of each. */
uint32_t viz_gen(uint32_t rounds, uint8_t *files, size_t files_room, size_t *files_len,
                 size_t *lengths, size_t lengths_n);

/* A session, event by event: viz_open, then for each event viz_next and what is asked of it, and viz_close. The machine
 * goes on from where it is, so that an event costs no more than in viz_step. */

/* Opens a session over the message files, before the first event. It answers
 * - VIZ_DONE: the session is open.
 * - VIZ_CALL (also if the session is open already), VIZ_REFUSED (sets `cause`) or VIZ_MEMORY: it is as before. */
uint32_t viz_open(uint32_t w, uint32_t h, const uint8_t *files, size_t files_n, const size_t *lengths, size_t lengths_n,
                  struct viz_session *session, struct viz_cause *cause);

/* Gives the machine one event: the byte that it has in a schedule. Whether it is refused is in the entry. It answers
 * - VIZ_DONE: the machine has taken it.
 * - VIZ_CALL: the session is closed, or the byte is no event, or that of a client whose file is not there.
 * - VIZ_MEMORY. With this and VIZ_CALL the session is as before: the same event may be tried again. */
uint32_t viz_next(struct viz_session *session, uint8_t event);

/* The entry of the last event: its line of the log, with the event, the reply and the effects. It answers
 * - VIZ_DONE: the line is at the front of `line` (ASCII, with its newline, no zero byte), line_len gets its length.
 * - VIZ_ROOM: `line` is too small, and as before. line_len is set.
 * - VIZ_NOTHING: there was no event yet.
 * - VIZ_CALL: the session is closed. VIZ_MEMORY.
 * The session is as before. */
uint32_t viz_entry(struct viz_session *session, uint8_t *line, size_t line_room, size_t *line_len);

/* The picture of the last event that was answered Drawn. It paints all of it, whatever changed. It answers
 * - VIZ_DONE: the pixels are at the front of `pixels` (as one frame of viz_step), pixels_len gets their length, and
 *   `damage` the rectangle outside which the picture is that of the drawing before, if the clients are honest: if the
 *   frames of each tell as their damage all that they change. If one is not, the picture is still that of its frames,
 *   and may differ from the drawing before anywhere; a frame of viz_step, where only the damage is painted anew, then
 *   keeps older pixels outside it.
 * - VIZ_ROOM: `pixels` is too small, and as before. pixels_len is set.
 * - VIZ_NOTHING: nothing was drawn yet.
 * - VIZ_CALL: the session is closed. VIZ_MEMORY.
 * The session is as before. */
uint32_t viz_picture(struct viz_session *session, uint8_t *pixels, size_t pixels_room, size_t *pixels_len,
                     struct viz_area *damage);

/* Closes a session, and frees all that it has. It answers VIZ_DONE, or VIZ_CALL if it is closed already. */
uint32_t viz_close(struct viz_session *session);

#ifdef __cplusplus
}
#endif

#endif
