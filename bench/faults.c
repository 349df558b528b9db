/* A library to load before the C library. It counts the calls by which a program takes memory, starts threads,
   reaches files and waits, and makes those fail that some variables name:

       FAULT     KIND FIRST LAST ERROR: the calls of this kind from the first number to the last fail with this error.
                 KIND is 0 for growths, 1 for starts of threads, 2 for calls of files and of standard output, 3 for
                 waits
       STARTS    a number whose bits say which starts of threads fail
       PIECE     how many bytes a call of a file moves at most
       HALF      the number of a call of a file that moves half of what it could
       COUNTS    the file for the counts */
#define _GNU_SOURCE
#include <dlfcn.h>
#include <errno.h>
#include <fcntl.h>
#include <linux/futex.h>
#include <pthread.h>
#include <stdarg.h>
#include <stdint.h>
#include <stdlib.h>
#include <stdio.h>
#include <string.h>
#include <sys/mman.h>
#include <sys/syscall.h>
#include <unistd.h>

enum { GROWTH, START, CALL, WAIT, KINDS, NAMES = 65536 };

/* What faults.py reads: how many calls of each kind were made and refused, and what each call of a file was. */
static struct counts {
    uint64_t made[KINDS], refused[KINDS];
    char names[NAMES];
} none, *counts = &none;
static long kind = -1, first, last, error, piece, half;
static uint64_t mask;
/* The file by which the system says how many processors a program may use, while it is read. */
static int quota = -1;

__attribute__((constructor)) static void begin(void) {
    const char *text = getenv("FAULT"), *file = getenv("COUNTS"), *most = getenv("PIECE"), *cut = getenv("HALF");
    const char *set = getenv("STARTS");
    int handle = file ? (int)syscall(SYS_open, file, O_RDWR) : -1;
    if (handle >= 0) {
        void *at = mmap(NULL, sizeof none, PROT_READ | PROT_WRITE, MAP_SHARED, handle, 0);
        if (at != MAP_FAILED) counts = at;
        syscall(SYS_close, handle);
    }
    for (int k = 0; k < KINDS; k++) counts->made[k] = counts->refused[k] = 0;
    piece = most ? atol(most) : 0;
    half = cut ? atol(cut) : 0;
    mask = set ? strtoull(set, NULL, 10) : 0;
    if (text && sscanf(text, "%ld %ld %ld %ld", &kind, &first, &last, &error) != 4) abort();
}

/* Counts a call, and answers its number. */
static uint64_t numbered(int of) {
    return __atomic_add_fetch(&counts->made[of], 1, __ATOMIC_SEQ_CST);
}

/* Whether the call of this number is to fail, which is counted. */
static int is_refused(int of, uint64_t number) {
    int refused = kind == of && first <= (long)number && (long)number <= last;
    if (of == START && number <= 64) refused |= (mask >> (number - 1)) & 1;
    if (refused) __atomic_add_fetch(&counts->refused[of], 1, __ATOMIC_SEQ_CST);
    return refused;
}

/* Counts a call that is no call of a file, and answers whether it is to fail. */
static int fails(int of) {
    return is_refused(of, numbered(of));
}

/* The next function of this name, which is that of the C library. */
#define NEXT(type, name, ...) \
    static type (*next)(__VA_ARGS__); \
    if (!next) next = (type (*)(__VA_ARGS__))dlsym(RTLD_NEXT, name)

void *malloc(size_t n) {
    NEXT(void *, "malloc", size_t);
    return fails(GROWTH) ? (errno = ENOMEM, NULL) : next(n);
}

void *realloc(void *p, size_t n) {
    NEXT(void *, "realloc", void *, size_t);
    return fails(GROWTH) ? (errno = ENOMEM, NULL) : next(p, n);
}

int pthread_create(pthread_t *made, const pthread_attr_t *with, void *(*body)(void *), void *given) {
    NEXT(int, "pthread_create", pthread_t *, const pthread_attr_t *, void *(*)(void *), void *);
    return fails(START) ? EAGAIN : next(made, with, body, given);
}

/* Counts a call of a file, remembers what it was, and answers its number, or 0 if it is to fail. */
static uint64_t call_of(char name) {
    uint64_t number = numbered(CALL);
    if (number <= NAMES) counts->names[number - 1] = name;
    if (!is_refused(CALL, number)) return number;
    errno = (int)error;
    return 0;
}

/* How many of so many bytes a call moves. */
static size_t moved(uint64_t number, size_t n) {
    if (half == (long)number && n > 1) n /= 2;
    return piece && (size_t)piece < n ? (size_t)piece : n;
}

int open(const char *name, int how, ...) {
    NEXT(int, "open", const char *, int, ...);
    va_list rest;
    va_start(rest, how);
    int mode = va_arg(rest, int);
    va_end(rest);
    int is_quota = !strncmp(name, "/sys/", 5);
    if (!call_of(is_quota ? 'q' : how & O_CREAT ? 'c' : 'o')) return -1;
    int handle = next(name, how, mode);
    if (is_quota) quota = handle;
    return handle;
}

ssize_t read(int handle, void *into, size_t n) {
    NEXT(ssize_t, "read", int, void *, size_t);
    uint64_t number = call_of(handle == quota ? 'q' : 'r');
    return number ? next(handle, into, moved(number, n)) : -1;
}

ssize_t write(int handle, const void *from, size_t n) {
    NEXT(ssize_t, "write", int, const void *, size_t);
    if (handle == 2) return next(handle, from, n);
    uint64_t number = call_of(handle == 1 ? 'p' : 'w');
    return number ? next(handle, from, moved(number, n)) : -1;
}

/* A close that fails has closed all the same. Standard error is none of the program's. */
int close(int handle) {
    NEXT(int, "close", int);
    if (handle == quota) quota = -1;
    int refused = !call_of('x'), answer = next(handle);
    if (refused) errno = (int)error;
    return refused ? -1 : answer;
}

/* Of the other calls the program makes only waits for a change of a number, and wakes. */
long syscall(long name, ...) {
    NEXT(long, "syscall", long, ...);
    va_list rest;
    long a[6];
    va_start(rest, name);
    for (int k = 0; k < 6; k++) a[k] = va_arg(rest, long);
    va_end(rest);
    if (name == SYS_futex && (a[1] & FUTEX_CMD_MASK) == FUTEX_WAIT && fails(WAIT)) {
        errno = (int)error;
        return -1;
    }
    return next(name, a[0], a[1], a[2], a[3], a[4], a[5]);
}
