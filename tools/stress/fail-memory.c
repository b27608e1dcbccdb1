/* Fails the Nth allocation of a program, N being FAIL_AT, the Nth file that it opens, N being
   FAIL_OPEN, or the Nth thread that it makes, N being FAIL_THREAD, for want of memory: loaded before
   the program by LD_PRELOAD. Where there was an Nth one, a file FAIL_HIT names is made, and where
   FAIL_TELL is set a line `refused` is written to standard error. */
#define _GNU_SOURCE
#include <dlfcn.h>
#include <errno.h>
#include <fcntl.h>
#include <pthread.h>
#include <stdarg.h>
#include <stdlib.h>
#include <unistd.h>

/* Which call fails, where that is known, and how many there were. */
struct calls {
    const char *name;
    long fails;
    long asked;
};

static int fails(struct calls *calls) {
    if (calls->fails == -1) {
        const char *text = getenv(calls->name);
        calls->fails = text ? atol(text) : 0;
    }
    if (__atomic_add_fetch(&calls->asked, 1, __ATOMIC_SEQ_CST) != calls->fails) {
        return 0;
    }
    const char *hit = getenv("FAIL_HIT");
    if (hit) {
        close(creat(hit, 0600));
    }
    if (getenv("FAIL_TELL") && write(2, "refused\n", 8) != 8) {
        _exit(9);
    }
    errno = ENOMEM;
    return 1;
}

static struct calls allocations = {"FAIL_AT", -1, 0};
static struct calls openings = {"FAIL_OPEN", -1, 0};
static struct calls threads = {"FAIL_THREAD", -1, 0};

int open(const char *path, int flags, ...) {
    static int (*real)(const char *, int, mode_t);
    va_list rest;
    va_start(rest, flags);
    mode_t mode = flags & O_CREAT ? va_arg(rest, mode_t) : 0;
    va_end(rest);
    if (!real) {
        real = dlsym(RTLD_NEXT, "open");
    }
    return fails(&openings) ? -1 : real(path, flags, mode);
}

int pthread_create(pthread_t *made, const pthread_attr_t *how, void *(*runs)(void *), void *given) {
    static int (*real)(pthread_t *, const pthread_attr_t *, void *(*)(void *), void *);
    if (!real) {
        real = dlsym(RTLD_NEXT, "pthread_create");
    }
    return fails(&threads) ? EAGAIN : real(made, how, runs, given);
}

void *malloc(size_t size) {
    static void *(*real)(size_t);
    if (!real) {
        real = dlsym(RTLD_NEXT, "malloc");
    }
    return fails(&allocations) ? 0 : real(size);
}

void *calloc(size_t count, size_t size) {
    static void *(*real)(size_t, size_t);
    if (!real) {
        real = dlsym(RTLD_NEXT, "calloc");
    }
    return fails(&allocations) ? 0 : real(count, size);
}

void *realloc(void *old, size_t size) {
    static void *(*real)(void *, size_t);
    if (!real) {
        real = dlsym(RTLD_NEXT, "realloc");
    }
    return fails(&allocations) ? 0 : real(old, size);
}

void *aligned_alloc(size_t alignment, size_t size) {
    static void *(*real)(size_t, size_t);
    if (!real) {
        real = dlsym(RTLD_NEXT, "aligned_alloc");
    }
    return fails(&allocations) ? 0 : real(alignment, size);
}

int posix_memalign(void **place, size_t alignment, size_t size) {
    static int (*real)(void **, size_t, size_t);
    if (!real) {
        real = dlsym(RTLD_NEXT, "posix_memalign");
    }
    return fails(&allocations) ? ENOMEM : real(place, alignment, size);
}
