// Preloaded into a program, has each read and each write on a socket move one byte at most. With FAIL_READ=N or FAIL_WRITE=N the
// Nth such call, counted from the start of the program, fails as a broken connection does. Tells of it by a byte on the file
// descriptor TOLD_FD.
#include <errno.h>
#include <stdlib.h>
#include <sys/socket.h>
#include <sys/stat.h>
#include <sys/syscall.h>
#include <sys/uio.h>
#include <unistd.h>

// How many calls are left up to and with the one that fails; 0 or less where none is to fail any more.
static long reads, writes;
static int told = -1;

static long number_in(const char *name) {
    const char *number = getenv(name);
    return number ? atol(number) : 0;
}

__attribute__((constructor)) static void begin(void) {
    const char *descriptor = getenv("TOLD_FD");
    told = descriptor ? atoi(descriptor) : -1;
    reads = number_in("FAIL_READ");
    writes = number_in("FAIL_WRITE");
}

static int is_socket(int file) {
    struct stat found;
    return fstat(file, &found) == 0 && S_ISSOCK(found.st_mode);
}

static int fails(long *left) {
    if (*left <= 0 || --*left > 0)
        return 0;
    if (told >= 0 && syscall(SYS_write, told, "!", 1) != 1)
        _exit(70);
    errno = ECONNRESET;
    return 1;
}

static size_t one(size_t size) {
    return size > 1 ? 1 : size;
}

ssize_t recv(int from, void *into, size_t size, int flags) {
    return fails(&reads) ? -1 : syscall(SYS_recvfrom, from, into, one(size), flags, NULL, NULL);
}

ssize_t read(int from, void *into, size_t size) {
    return is_socket(from) ? recv(from, into, size, 0) : syscall(SYS_read, from, into, size);
}

ssize_t send(int to, const void *bytes, size_t size, int flags) {
    return fails(&writes) ? -1 : syscall(SYS_sendto, to, bytes, one(size), flags, NULL, 0);
}

ssize_t write(int to, const void *bytes, size_t size) {
    return is_socket(to) ? send(to, bytes, size, MSG_NOSIGNAL) : syscall(SYS_write, to, bytes, size);
}
