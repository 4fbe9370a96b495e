// Preloaded into a program, has calls on files fail as those of a broken disk do, of files whose path ends in FAIL_NAME (of each file and folder, where
// that is missing). FAIL_CALL says which: `write` (nothing is written), `half` (the first half is written, and then the write fails), `short` (a write
// moves one half, and says so), `sync` (a sync fails) or `lie` (a sync does nothing, and says that it did). With FAIL_AT=N the Nth such call alone fails,
// counted from the start of the program; else each one while the file FAIL_GATE is there. Tells of each by a byte on the file descriptor TOLD_FD.
#define _GNU_SOURCE
#include <dlfcn.h>
#include <errno.h>
#include <stdatomic.h>
#include <stdio.h>
#include <stdlib.h>
#include <string.h>
#include <sys/stat.h>
#include <sys/syscall.h>
#include <sys/uio.h>
#include <unistd.h>

static atomic_long calls;

static int is_named(int file) {
    const char *wanted = getenv("FAIL_NAME");
    char link[64], path[4096];
    struct stat found;
    if (fstat(file, &found) || !(S_ISREG(found.st_mode) || S_ISDIR(found.st_mode)))
        return 0;
    if (!wanted)
        return 1;
    snprintf(link, sizeof link, "/proc/self/fd/%d", file);
    ssize_t length = readlink(link, path, sizeof path);
    size_t end = strlen(wanted);
    return length >= (ssize_t)end && !memcmp(path + length - end, wanted, end);
}

static int fails(const char *call, int file) {
    const char *chosen = getenv("FAIL_CALL"), *at = getenv("FAIL_AT"), *gate = getenv("FAIL_GATE"), *told = getenv("TOLD_FD");
    if (!chosen || strcmp(chosen, call) || !is_named(file))
        return 0;
    if (at ? atomic_fetch_add(&calls, 1) + 1 != atol(at) : !gate || access(gate, F_OK))
        return 0;
    if (told && syscall(SYS_write, atoi(told), "!", 1) != 1)
        _exit(70);
    return 1;
}

static int broken(void) {
    errno = EIO;
    return -1;
}

ssize_t write(int to, const void *bytes, size_t size) {
    static ssize_t (*next)(int, const void *, size_t);
    if (!next)
        next = dlsym(RTLD_NEXT, "write");
    if (fails("write", to))
        return broken();
    if (size > 1 && fails("short", to))
        return next(to, bytes, size / 2);
    if (fails("half", to)) {
        next(to, bytes, size / 2);
        return broken();
    }
    return next(to, bytes, size);
}

ssize_t writev(int to, const struct iovec *pieces, int count) {
    for (int at = 0; at < count; at++)
        if (pieces[at].iov_len)
            return write(to, pieces[at].iov_base, pieces[at].iov_len);
    return write(to, NULL, 0);
}

static int sync_of(int file, const char *name, int (**next)(int)) {
    if (!*next)
        *next = dlsym(RTLD_NEXT, name);
    if (fails("sync", file))
        return broken();
    return fails("lie", file) ? 0 : (*next)(file);
}

int fsync(int file) {
    static int (*next)(int);
    return sync_of(file, "fsync", &next);
}

int fdatasync(int file) {
    static int (*next)(int);
    return sync_of(file, "fdatasync", &next);
}
