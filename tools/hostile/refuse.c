// A library to preload (LD_PRELOAD): of the calls of one kind that a program makes, the one with the number REFUSE_AT, counted from 1, fails,
// and with REFUSE_ON every one after it too.
//
// REFUSE_KIND  malloc (also realloc), thread, input (reads of standard input), output (writes to standard output), errors (to standard error: these are
//              counted and never refused), and of files open, stat, read, write, sync, rename or unlink
// REFUSE_SHORT standard input is read, and standard output written, by one byte a call
// REFUSE_MARKS counting begins at an allocation of START bytes and ends at one of END bytes: the calls that a program makes between the two
// REFUSE_LIES  a write, sync, rename or unlink that is refused says that it was made: so a program looks that ignores what such a call answers
// REFUSE_SEEN  a file, which then has two numbers of eight bytes: the calls of the kind, and those that were refused
#define _GNU_SOURCE
#include <dlfcn.h>
#include <errno.h>
#include <fcntl.h>
#include <pthread.h>
#include <stdarg.h>
#include <stdatomic.h>
#include <stdio.h>
#include <stdlib.h>
#include <string.h>
#include <sys/mman.h>
#include <sys/stat.h>
#include <sys/uio.h>
#include <unistd.h>

// Sizes that no other allocation of a drill has (crates/drill/src/marks.rt).
enum { START = 1048583, END = 1048589 };

enum kind { NONE, MALLOC, THREAD, INPUT, OUTPUT, ERRORS, OPEN, STAT, READ, WRITE, SYNC, RENAME, UNLINK, KINDS };
static const char *const names[KINDS] = {"", "malloc", "thread", "input", "output", "errors", "open", "stat", "read", "write", "sync", "rename", "unlink"};

static enum kind kind;
static long at;
static int from_there_on, is_short, lies;
static atomic_int counting;
static atomic_long own[2], *seen = own;

static int refused(enum kind k) {
    if (k != kind || !counting) return 0;
    long n = atomic_fetch_add(&seen[0], 1) + 1;
    int refuses = at > 0 && (n == at || (from_there_on && n > at));
    if (refuses) atomic_fetch_add(&seen[1], 1);
    return refuses;
}

__attribute__((constructor)) static void start(void) {
    const char *k = getenv("REFUSE_KIND"), *a = getenv("REFUSE_AT"), *path = getenv("REFUSE_SEEN");
    for (int i = 1; k && i < KINDS; i++) if (!strcmp(k, names[i])) kind = i;
    at = a ? atol(a) : 0;
    from_there_on = getenv("REFUSE_ON") != NULL;
    is_short = getenv("REFUSE_SHORT") != NULL;
    lies = getenv("REFUSE_LIES") != NULL;
    int file = path ? open(path, O_RDWR | O_CREAT | O_TRUNC, 0644) : -1;
    if (file >= 0 && !ftruncate(file, sizeof own)) {
        void *shared = mmap(0, sizeof own, PROT_READ | PROT_WRITE, MAP_SHARED, file, 0);
        if (shared != MAP_FAILED) seen = shared;
    }
    if (file >= 0) close(file);
    counting = getenv("REFUSE_MARKS") == NULL;
}

// What a refused call that changes a file answers.
static int fails(int error) {
    if (lies) return 0;
    errno = error;
    return -1;
}

#define REAL(name) static __typeof__(name) *real; if (!real) real = (__typeof__(name) *)dlsym(RTLD_NEXT, #name)

extern void *__libc_malloc(size_t);
extern void *__libc_realloc(void *, size_t);

void *malloc(size_t n) {
    if (n == START) counting = 1;
    else if (n == END) counting = 0;
    else if (refused(MALLOC)) { errno = ENOMEM; return NULL; }
    return __libc_malloc(n);
}

void *realloc(void *p, size_t n) {
    if (refused(MALLOC)) { errno = ENOMEM; return NULL; }
    return __libc_realloc(p, n);
}

int pthread_create(pthread_t *t, const pthread_attr_t *a, void *(*f)(void *), void *x) {
    REAL(pthread_create);
    return refused(THREAD) ? EAGAIN : real(t, a, f, x);
}

ssize_t read(int d, void *b, size_t n) {
    REAL(read);
    if (refused(d ? READ : INPUT)) { errno = EIO; return -1; }
    return real(d, b, is_short && d == 0 && n > 1 ? 1 : n);
}

int open(const char *path, int how, ...) {
    REAL(open);
    va_list rest;
    va_start(rest, how);
    mode_t mode = how & O_CREAT ? va_arg(rest, mode_t) : 0;
    va_end(rest);
    if (refused(OPEN)) { errno = EIO; return -1; }
    return real(path, how, mode);
}

int statx(int d, const char *path, int flags, unsigned mask, struct statx *found) {
    REAL(statx);
    if (refused(STAT)) { errno = EIO; return -1; }
    return real(d, path, flags, mask, found);
}

static int write_is_refused(int d) {
    // (what a program says on standard error is looked at)
    if (d == 2) return refused(ERRORS), 0;
    return d > 2 ? refused(WRITE) : d == 1 && refused(OUTPUT);
}

ssize_t write(int d, const void *b, size_t n) {
    REAL(write);
    if (write_is_refused(d)) return lies ? (ssize_t)n : fails(ENOSPC);
    return real(d, b, is_short && d == 1 && n > 1 ? 1 : n);
}

// (the name under which a program's lines are written)
ssize_t __write(int d, const void *b, size_t n) { return write(d, b, n); }

ssize_t writev(int d, const struct iovec *parts, int n) {
    REAL(writev);
    if (write_is_refused(d)) return fails(ENOSPC);
    return real(d, parts, n);
}

int fsync(int d) {
    REAL(fsync);
    if (refused(SYNC)) return fails(EIO);
    return real(d);
}

int fdatasync(int d) {
    REAL(fdatasync);
    if (refused(SYNC)) return fails(EIO);
    return real(d);
}

int rename(const char *a, const char *b) {
    REAL(rename);
    if (refused(RENAME)) return fails(EIO);
    return real(a, b);
}

int unlink(const char *path) {
    REAL(unlink);
    if (refused(UNLINK)) return fails(EIO);
    return real(path);
}
