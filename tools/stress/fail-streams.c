/* Fails the Nth read of a program, N being FAIL_READ, or its Nth write to standard output, N being
   FAIL_WRITE, once, with the error that FAIL_ERRNO numbers: loaded before the program by LD_PRELOAD.
   If there was an Nth one, a file that FAIL_HIT names is made. */
#define _GNU_SOURCE
#include <dlfcn.h>
#include <errno.h>
#include <fcntl.h>
#include <stdlib.h>
#include <unistd.h>

/* Which call fails, once that is known, and how many there were. */
struct calls {
    const char *name;
    long fails;
    long asked;
};

static int fails(struct calls *calls) {
    if (calls->fails == -1) {
        const char *text = getenv(calls->name);
        calls->fails = text ? atol(text) : 0;
    }
    if (__atomic_add_fetch(&calls->asked, 1, __ATOMIC_SEQ_CST) != calls->fails) {
        return 0;
    }
    close(creat(getenv("FAIL_HIT"), 0600));
    errno = atoi(getenv("FAIL_ERRNO"));
    return 1;
}

static struct calls reads = {"FAIL_READ", -1, 0};
static struct calls writes = {"FAIL_WRITE", -1, 0};

ssize_t read(int file, void *bytes, size_t count) {
    static ssize_t (*real)(int, void *, size_t);
    if (!real) {
        real = dlsym(RTLD_NEXT, "read");
    }
    return fails(&reads) ? -1 : real(file, bytes, count);
}

ssize_t pread(int file, void *bytes, size_t count, off_t from) {
    static ssize_t (*real)(int, void *, size_t, off_t);
    if (!real) {
        real = dlsym(RTLD_NEXT, "pread");
    }
    return fails(&reads) ? -1 : real(file, bytes, count, from);
}

/* (the C library has this name for it, too) */
ssize_t __write(int file, const void *bytes, size_t count) {
    static ssize_t (*real)(int, const void *, size_t);
    if (!real) {
        real = dlsym(RTLD_NEXT, "write");
    }
    return file == 1 && fails(&writes) ? -1 : real(file, bytes, count);
}

ssize_t write(int file, const void *bytes, size_t count) {
    return __write(file, bytes, count);
}
