/* Lets calls of the C library fail, for tests/faults: it is loaded before the program by LD_PRELOAD.
 *
 * GSQL_FAULT  what fails, as "KIND FROM TO VALUE": the calls of a kind with these numbers, counted from 1. VALUE is the error that they give, but for
 *             `cap`, which gives reads and writes at most so many bytes, and `raise`, which sends the process that signal at a read or a write, as
 *             `strike` does at a growth of memory.
 *             "change FROM TO VALUE": before the read of that number the file GSQL_FILE is cut to VALUE bytes, or, where VALUE is -1, grows by a line.
 * GSQL_COUNTS a file of 64 bytes, in which the calls of each kind are counted: malloc and realloc, read, write of standard output, open, pthread_create, close,
 *             and pthread_attr_init with pthread_attr_setguardsize.
 */
#define _GNU_SOURCE
#include <dlfcn.h>
#include <errno.h>
#include <fcntl.h>
#include <pthread.h>
#include <signal.h>
#include <stdarg.h>
#include <stdatomic.h>
#include <stdio.h>
#include <stdlib.h>
#include <string.h>
#include <sys/mman.h>
#include <sys/syscall.h>
#include <unistd.h>

extern void *__libc_malloc(size_t);
extern void *__libc_realloc(void *, size_t);

enum { MEMORY, READ, WRITE, OPEN, THREAD, CLOSE, STACK, KINDS };
static const char *const names[] = {"memory", "read", "write", "open", "thread", "close", "stack"};
static _Atomic long own[KINDS];
static _Atomic long *counts = own;
static char kind[16];
static long from, to, value;
static const char *file;
static int (*start)(pthread_t *, const pthread_attr_t *, void *(*)(void *), void *);
static int (*made)(pthread_attr_t *);
static int (*guarded)(pthread_attr_t *, size_t);

__attribute__((constructor)) static void begin(void) {
    const char *told = getenv("GSQL_FAULT"), *path = getenv("GSQL_COUNTS");
    start = (int (*)(pthread_t *, const pthread_attr_t *, void *(*)(void *), void *))dlsym(RTLD_NEXT, "pthread_create");
    made = (int (*)(pthread_attr_t *))dlsym(RTLD_NEXT, "pthread_attr_init");
    guarded = (int (*)(pthread_attr_t *, size_t))dlsym(RTLD_NEXT, "pthread_attr_setguardsize");
    file = getenv("GSQL_FILE");
    if (path) {
        int at = (int)syscall(SYS_openat, AT_FDCWD, path, O_RDWR, 0);
        void *room = mmap(NULL, 64, PROT_READ | PROT_WRITE, MAP_SHARED, at, 0);
        if (room != MAP_FAILED) counts = room;
        syscall(SYS_close, at);
    }
    if (told && sscanf(told, "%15s %ld %ld %ld", kind, &from, &to, &value) != 4) abort();
    for (int i = 0; i < KINDS; i++) counts[i] = 0;
}

/* Whether this call of a kind is to fail. A signal that is to come at this growth of memory comes. */
static int fails(int of) {
    long n = atomic_fetch_add(&counts[of], 1) + 1;
    if (of == MEMORY && n == from && !strcmp(kind, "strike")) kill(getpid(), (int)value);
    return n >= from && n <= to && !strcmp(kind, names[of]);
}

static size_t capped(size_t size) { return !strcmp(kind, "cap") && size > (size_t)value ? (size_t)value : size; }

static void raise_at(int of) {
    if (!strcmp(kind, "raise") && counts[READ] + counts[WRITE] == from) kill(getpid(), (int)value);
    if (of == READ && !strcmp(kind, "change") && counts[READ] == from) {
        int at = (int)syscall(SYS_openat, AT_FDCWD, file, O_WRONLY | (value < 0 ? O_APPEND : 0), 0);
        if (value >= 0) syscall(SYS_ftruncate, at, value);
        else syscall(SYS_write, at, "late,1\n", 7);
        syscall(SYS_close, at);
    }
}

void *malloc(size_t size) {
    if (fails(MEMORY)) return errno = ENOMEM, NULL;
    return __libc_malloc(size);
}

void *realloc(void *old, size_t size) {
    if (fails(MEMORY)) return errno = ENOMEM, NULL;
    return __libc_realloc(old, size);
}

ssize_t read(int at, void *room, size_t size) {
    int bad = fails(READ);
    raise_at(READ);
    if (bad) return errno = (int)value, -1;
    return syscall(SYS_read, at, room, capped(size));
}

ssize_t write(int at, const void *bytes, size_t size) {
    if (at != 1) return syscall(SYS_write, at, bytes, size);
    int bad = fails(WRITE);
    raise_at(WRITE);
    if (bad) return errno = (int)value, -1;
    return syscall(SYS_write, at, bytes, capped(size));
}

int open(const char *path, int flags, ...) {
    va_list more;
    va_start(more, flags);
    int mode = flags & O_CREAT ? va_arg(more, int) : 0;
    va_end(more);
    if (fails(OPEN)) return errno = (int)value, -1;
    return (int)syscall(SYS_openat, AT_FDCWD, path, flags, mode);
}

int pthread_create(pthread_t *thread, const pthread_attr_t *how, void *(*run)(void *), void *with) {
    if (fails(THREAD)) return (int)value;
    return start(thread, how, run, with);
}

int close(int at) {
    int bad = fails(CLOSE), ended = (int)syscall(SYS_close, at);
    return bad ? (errno = (int)value, -1) : ended;
}

int pthread_attr_init(pthread_attr_t *how) {
    if (fails(STACK)) return (int)value;
    return made(how);
}

int pthread_attr_setguardsize(pthread_attr_t *how, size_t size) {
    if (fails(STACK)) return (int)value;
    return guarded(how, size);
}
