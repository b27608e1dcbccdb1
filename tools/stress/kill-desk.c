/* Stops a program at the Nth call that opens, locks, reads, writes, cuts or syncs a file, or writes to
   standard output, N being STOP_AT: loaded before the program by LD_PRELOAD. By STOP_HOW the process
   is killed before the call (`before`) or after it (`after`), the call fails once with the error that
   STOP_ERRNO numbers (`fail`), or a write writes STOP_BYTES bytes and the process is killed then
   (`tear`) or the call answers their count (`short`). If there was an Nth call of this kind, a file
   that STOP_HIT names is made. */
#define _GNU_SOURCE
#include <dlfcn.h>
#include <errno.h>
#include <fcntl.h>
#include <signal.h>
#include <stdarg.h>
#include <stdlib.h>
#include <string.h>
#include <sys/file.h>
#include <unistd.h>

enum how { UNKNOWN, NEVER, BEFORE, AFTER, FAIL, TEAR, SHORT };

static const char *const words[] = {"", "never", "before", "after", "fail", "tear", "short"};
static enum how how;
static long stop_at;
static long asked;

/* Whether this call is the one: of writes alone if a piece of one is to be written. */
static int is_it(int is_write) {
    if (how == UNKNOWN) {
        const char *word = getenv("STOP_HOW");
        const char *at = getenv("STOP_AT");
        stop_at = at ? atol(at) : 0;
        how = NEVER;
        for (int it = BEFORE; word && it <= SHORT; it++) {
            how = strcmp(word, words[it]) ? how : (enum how)it;
        }
    }
    if (how == NEVER || (how >= TEAR && !is_write)) {
        return 0;
    }
    if (__atomic_add_fetch(&asked, 1, __ATOMIC_SEQ_CST) != stop_at) {
        return 0;
    }
    int (*make)(const char *, mode_t) = (int (*)(const char *, mode_t))dlsym(RTLD_NEXT, "creat");
    close(make(getenv("STOP_HIT"), 0600));
    if (how == BEFORE) {
        kill(getpid(), SIGKILL);
    }
    return 1;
}

/* Answers for the one call: it fails, or was made, and the process ends. */
static int failed(void) {
    errno = atoi(getenv("STOP_ERRNO"));
    return -1;
}

#define REAL(name) ((__typeof__(&name))dlsym(RTLD_NEXT, #name))
#define STOPPED(call)                    \
    do {                                 \
        if (!is_it(0)) {                 \
            return call;                 \
        }                                \
        if (how == FAIL) {               \
            return failed();             \
        }                                \
        (void)!(call);                   \
        kill(getpid(), SIGKILL);         \
        return -1;                       \
    } while (0)

/* A write, of which only a piece may be written. */
#define WRITTEN(call, count)                                         \
    do {                                                             \
        if (!is_it(1)) {                                             \
            return call(count);                                      \
        }                                                            \
        if (how == FAIL) {                                           \
            return failed();                                         \
        }                                                            \
        size_t some = how >= TEAR ? (size_t)atol(getenv("STOP_BYTES")) : count; \
        ssize_t wrote = call(some < count ? some : count);           \
        if (how != SHORT) {                                          \
            kill(getpid(), SIGKILL);                                 \
        }                                                            \
        return wrote;                                                \
    } while (0)

int open(const char *path, int flags, ...) {
    va_list rest;
    va_start(rest, flags);
    mode_t mode = va_arg(rest, mode_t);
    va_end(rest);
    STOPPED(REAL(open)(path, flags, mode));
}

ssize_t pread(int file, void *bytes, size_t count, off_t from) {
    STOPPED(REAL(pread)(file, bytes, count, from));
}

ssize_t pwrite(int file, const void *bytes, size_t count, off_t from) {
#define PIECE(some) REAL(pwrite)(file, bytes, some, from)
    WRITTEN(PIECE, count);
}

/* (the C library has this name for it, too) */
ssize_t __write(int file, const void *bytes, size_t count) {
#define ANSWER(some) REAL(write)(file, bytes, some)
    if (file != 1) {
        return ANSWER(count);
    }
    WRITTEN(ANSWER, count);
}

ssize_t write(int file, const void *bytes, size_t count) {
    return __write(file, bytes, count);
}

int ftruncate(int file, off_t size) {
    STOPPED(REAL(ftruncate)(file, size));
}

int fsync(int file) {
    STOPPED(REAL(fsync)(file));
}

int fdatasync(int file) {
    STOPPED(REAL(fdatasync)(file));
}

int flock(int file, int what) {
    STOPPED(REAL(flock)(file, what));
}
