/* Stands between AFL++ and the program, which is linked to it with its coverage counted: for each input it calls the
   program in a process of its own, and ends by abort where the program did what it must not.

   FUZZ says what an input is:
       words WORD..    the input is the file `@`, and `@f` and `@l` are files that are written
       step            two bytes for the sides of the display, a schedule, and from each `VIZC` on a message file. What
                       was written is given to `check`, which must say yes, or no for the damage of a client (`Frame`)
       check           two bytes for the sides, a log up to its `end`, frames, and from each `VIZC` on a message file
   A word is a name of a file for each run. With an argument, the input is the file of this name, and what the program
   printed is printed. */
#define _GNU_SOURCE
#include <fcntl.h>
#include <signal.h>
#include <stdint.h>
#include <stdio.h>
#include <stdlib.h>
#include <string.h>
#include <sys/mman.h>
#include <sys/prctl.h>
#include <sys/resource.h>
#include <sys/stat.h>
#include <sys/wait.h>
#include <unistd.h>

enum { MOST_WORDS = 40, MOST_FILES = 16, MOST_PRINTED = 256, SECONDS = 2, LAST_STATUS = 5 };
static const rlim_t MEMORY = (rlim_t)3 << 30;

/* Those of AFL++'s runtime, and the two texts by which it knows how the program is called. */
extern int __afl_persistent_loop(unsigned int);
extern void __afl_manual_init(void);
extern uint8_t *__afl_fuzz_ptr;
extern uint32_t *__afl_fuzz_len;
int __afl_sharedmem_fuzzing = 1;
__attribute__((used)) static const char persistent[] = "##SIG_AFL_PERSISTENT##";
__attribute__((used)) static const char deferred[] = "##SIG_AFL_DEFER_FORKSRV##";

/* The program, which asks for its words by the two others. */
int __real_main(int, char **);
static const char *words[MOST_WORDS];
static size_t count;

size_t __wrap_rattle_arg_count(void) {
    return count + 1;
}

/* Copies a word, and answers its length, or -1 if there is no such word, or -2 if there is not enough room. */
long __wrap_rattle_arg(size_t place, char *into, size_t room) {
    const char *word = place == 0 ? "viz" : place <= count ? words[place - 1] : NULL;
    if (!word) return -1;
    size_t size = strlen(word);
    if (size > room) return -2;
    memcpy(into, word, size);
    return (long)size;
}

/* A file in memory, and its name. */
struct file {
    int handle;
    char name[32];
};

static struct file made(const void *data, size_t size) {
    struct file file;
    file.handle = memfd_create("fuzz", 0);
    if (file.handle < 0 || write(file.handle, data, size) != (ssize_t)size) _exit(100);
    snprintf(file.name, sizeof file.name, "/proc/self/fd/%d", file.handle);
    return file;
}

static struct file input, frames, logged, scheduled, printed, clients[MOST_FILES];
static char said[MOST_PRINTED + 1], sides[2][8];
static size_t given;

static void close_all(void) {
    struct file *one[] = {&input, &frames, &logged, &scheduled, &printed};
    for (size_t k = 0; k < sizeof one / sizeof *one; k++) {
        if (one[k]->handle > 0) close(one[k]->handle);
        one[k]->handle = 0;
    }
    while (given > 0) close(clients[--given].handle);
}

static void say(const char *word) {
    if (count < MOST_WORDS) words[count++] = word;
}

/* Ends as a fault of the program. */
static void refuse(const char *what, int status) {
    fprintf(stderr, "%s: %d, printed: %s\n", what, status, said);
    abort();
}

/* Calls the program, and answers its status. */
static int call(void) {
    if (ftruncate(printed.handle, 0) != 0) _exit(101);
    pid_t child = fork();
    if (child == 0) {
        struct rlimit seconds = {SECONDS, SECONDS + 1}, memory = {MEMORY, MEMORY};
        prctl(PR_SET_PDEATHSIG, SIGKILL);
        setrlimit(RLIMIT_CPU, &seconds);
        setrlimit(RLIMIT_AS, &memory);
        int to = open(printed.name, O_WRONLY);
        dup2(to, 1);
        exit(__real_main(1, (char *[]){"viz", NULL}));
    }
    int status;
    if (child < 0 || waitpid(child, &status, 0) != child) _exit(102);
    ssize_t size = pread(printed.handle, said, MOST_PRINTED, 0);
    said[size > 0 ? size : 0] = 0;
    if (!WIFEXITED(status)) refuse("ended by a signal", WTERMSIG(status));
    if (WEXITSTATUS(status) > LAST_STATUS) refuse("no status", WEXITSTATUS(status));
    return WEXITSTATUS(status);
}

/* The sides of the display, of the first two bytes. */
static void say_sides(const uint8_t *data) {
    for (int k = 0; k < 2; k++) {
        snprintf(sides[k], sizeof sides[k], "%d", 1 + data[k] % 64);
        say(sides[k]);
    }
}

/* Where the first message file begins. */
static size_t head_of(const uint8_t *data, size_t size) {
    const uint8_t *at = memmem(data, size, "VIZC", 4);
    return at ? (size_t)(at - data) : size;
}

/* Lays the message files. */
static void lay_clients(const uint8_t *data, size_t size) {
    while (size > 0 && given < MOST_FILES) {
        size_t next = size > 4 ? 4 + head_of(data + 4, size - 4) : size;
        clients[given++] = made(data, next);
        data += next;
        size -= next;
    }
}

static void say_clients(void) {
    for (size_t k = 0; k < given; k++) say(clients[k].name);
}

/* The second call, on what the first one left. */
static void judge(void) {
    count = 0;
    say("check");
    say(sides[0]);
    say(sides[1]);
    say(frames.name);
    say(logged.name);
    say_clients();
    int status = call();
    if (status == 1 && !strstr(said, " Frame\n")) refuse("check says no", status);
    if (status == 2 || status == 3 || status == 4) refuse("check refuses", status);
}

static void fuzz_step(const uint8_t *data, size_t size) {
    if (size < 2) return;
    size_t head = head_of(data + 2, size - 2);
    scheduled = made(data + 2, head);
    lay_clients(data + 2 + head, size - 2 - head);
    say("step");
    say_sides(data);
    say(scheduled.name);
    say(frames.name);
    say(logged.name);
    say_clients();
    int status = call();
    if (status == 1 || status == 4) refuse("step ends with", status);
    if (status == 0) judge();
}

static void fuzz_check(const uint8_t *data, size_t size) {
    if (size < 2) return;
    const uint8_t *text = data + 2;
    size_t head = head_of(text, size - 2);
    const uint8_t *end = memmem(text, head, "end\n", 4);
    size_t log = end ? (size_t)(end - text) + 4 : head;
    lay_clients(text + head, size - 2 - head);
    say("check");
    say_sides(data);
    struct file read[2] = {made(text + log, head - log), made(text, log)};
    say(read[0].name);
    say(read[1].name);
    say_clients();
    int status = call();
    if (status == 4) refuse("check ends with", status);
    close(read[0].handle);
    close(read[1].handle);
}

static void fuzz_words(char *text, const uint8_t *data, size_t size) {
    input = made(data, size);
    char *state = NULL;
    for (char *word = strtok_r(text, " ", &state); word; word = strtok_r(NULL, " ", &state)) {
        if (strcmp(word, "@") == 0) say(input.name);
        else if (strcmp(word, "@f") == 0) say(frames.name);
        else if (strcmp(word, "@l") == 0) say(logged.name);
        else say(word);
    }
    int status = call();
    if (status == 2 || status == 4) refuse("ends with", status);
}

static void fuzz(const uint8_t *data, size_t size) {
    const char *what = getenv("FUZZ");
    if (!what) _exit(103);
    count = 0;
    frames = made("", 0);
    logged = made("", 0);
    printed = made("", 0);
    char *text = strdup(what);
    if (strncmp(text, "words ", 6) == 0) fuzz_words(text + 6, data, size);
    else if (strcmp(text, "step") == 0) fuzz_step(data, size);
    else fuzz_check(data, size);
    free(text);
    close_all();
}

static void fuzz_file(const char *name) {
    struct stat about;
    int handle = open(name, O_RDONLY);
    if (handle < 0 || fstat(handle, &about) != 0) _exit(104);
    uint8_t *data = malloc((size_t)about.st_size + 1);
    if (!data || read(handle, data, (size_t)about.st_size) != about.st_size) _exit(105);
    fuzz(data, (size_t)about.st_size);
    printf("%s", said);
}

int __wrap_main(int argc, char **argv) {
    if (argc > 1) {
        fuzz_file(argv[1]);
        return 0;
    }
    __afl_manual_init();
    while (__afl_persistent_loop(10000)) fuzz(__afl_fuzz_ptr, *__afl_fuzz_len);
    return 0;
}
