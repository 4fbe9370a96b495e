// Preloaded into a program, holds each sync of a file whose path ends in STEP_HELD back, while the file STEP_GATE is there, until as many syncs of a file whose
// path ends in STEP_FIRST have begun; for ten seconds at most. Then it holds none back any more, and tells so by a byte on the file descriptor TOLD_FD.
#include <stdatomic.h>
#include <stdio.h>
#include <stdlib.h>
#include <string.h>
#include <sys/syscall.h>
#include <unistd.h>

static atomic_long held, first;
static atomic_int gave_up;

static int ends_in(int file, const char *name) {
    char link[64], path[4096];
    snprintf(link, sizeof link, "/proc/self/fd/%d", file);
    ssize_t length = readlink(link, path, sizeof path);
    size_t end = name ? strlen(name) : 0;
    return end && length >= (ssize_t)end && !memcmp(path + length - end, name, end);
}

static void wait_beyond(long before) {
    const char *descriptor = getenv("TOLD_FD");
    for (int turn = 0; turn < 10000 && atomic_load(&first) <= before && !atomic_load(&gave_up); turn++)
        usleep(1000);
    if (atomic_load(&first) <= before && !atomic_exchange(&gave_up, 1) && descriptor && syscall(SYS_write, atoi(descriptor), "!", 1) != 1)
        _exit(70);
}

static void step(int file) {
    const char *gate = getenv("STEP_GATE");
    if (!gate || access(gate, F_OK))
        return;
    if (ends_in(file, getenv("STEP_FIRST")))
        atomic_fetch_add(&first, 1);
    if (ends_in(file, getenv("STEP_HELD")))
        wait_beyond(atomic_fetch_add(&held, 1));
}

int fsync(int file) {
    step(file);
    return (int)syscall(SYS_fsync, file);
}

int fdatasync(int file) {
    step(file);
    return (int)syscall(SYS_fdatasync, file);
}
