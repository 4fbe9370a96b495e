// Preloaded into a program, has each read move one byte at most, and each write to standard output too. With FAIL_READ=N or
// FAIL_WRITE=N the Nth such call, counted from the start of the program, fails as a broken device does. Tells of it by a byte
// on the file descriptor TOLD_FD.
#include <errno.h>
#include <stdlib.h>
#include <sys/syscall.h>
#include <sys/uio.h>
#include <unistd.h>

// How many calls are left up to and with the one that fails; 0 or less where none is to fail any more.
static long reads, writes;
static int told = -1;

static long number_in(const char *name) {
    const char *number = getenv(name);
    return number ? atol(number) : 0;
}

__attribute__((constructor)) static void begin(void) {
    const char *descriptor = getenv("TOLD_FD");
    told = descriptor ? atoi(descriptor) : -1;
    reads = number_in("FAIL_READ");
    writes = number_in("FAIL_WRITE");
}

static int fails(long *left) {
    if (*left <= 0 || --*left > 0)
        return 0;
    if (told >= 0 && syscall(SYS_write, told, "!", 1) != 1)
        _exit(70);
    errno = EIO;
    return 1;
}

static size_t one(size_t size) {
    return size > 1 ? 1 : size;
}

ssize_t read(int from, void *into, size_t size) {
    return fails(&reads) ? -1 : syscall(SYS_read, from, into, one(size));
}

ssize_t readv(int from, const struct iovec *pieces, int count) {
    for (int at = 0; at < count; at++)
        if (pieces[at].iov_len)
            return read(from, pieces[at].iov_base, pieces[at].iov_len);
    return read(from, NULL, 0);
}

ssize_t write(int to, const void *bytes, size_t size) {
    if (to != STDOUT_FILENO)
        return syscall(SYS_write, to, bytes, size);
    return fails(&writes) ? -1 : syscall(SYS_write, to, bytes, one(size));
}

ssize_t writev(int to, const struct iovec *pieces, int count) {
    if (to != STDOUT_FILENO)
        return syscall(SYS_writev, to, pieces, count);
    for (int at = 0; at < count; at++)
        if (pieces[at].iov_len)
            return write(to, pieces[at].iov_base, pieces[at].iov_len);
    return write(to, NULL, 0);
}
