// Preloaded into a program, records in the file RECORD what the program does in the folder RECORD_FOLDER, one call after the other, and what it sends over
// sockets. A sync takes two milliseconds, so that other threads come to their writes meanwhile. An entry is a line of words, and behind `write` and `sent`
// stand as many bytes as their last word says:
//     name INODE NAME      a file has a name, where it was opened
//     write INODE AT SIZE  these bytes were written
//     cut INODE SIZE       the file has this length
//     sync INODE           what was done to the file before is on the disk
//     names                the names that were given, changed and taken before are on the disk
//     rename OLD NEW, remove NAME
//     sent SOCKET SIZE     these bytes are sent (it stands there before they are)
#define _GNU_SOURCE
#include <fcntl.h>
#include <pthread.h>
#include <stdarg.h>
#include <stdio.h>
#include <stdlib.h>
#include <string.h>
#include <sys/socket.h>
#include <sys/stat.h>
#include <sys/syscall.h>
#include <sys/uio.h>
#include <unistd.h>

static pthread_mutex_t guard = PTHREAD_MUTEX_INITIALIZER;
static int record = -1;
static const char *folder;

__attribute__((constructor)) static void begin(void) {
    const char *path = getenv("RECORD");
    folder = getenv("RECORD_FOLDER");
    if (!path || !folder || (record = (int)syscall(SYS_openat, AT_FDCWD, path, O_WRONLY | O_CREAT | O_APPEND | O_CLOEXEC, 0600)) < 0)
        _exit(70);
}

static void add(const void *bytes, size_t size) {
    while (size > 0) {
        ssize_t moved = syscall(SYS_write, record, bytes, size);
        if (moved <= 0)
            _exit(70);
        bytes = (const char *)bytes + moved;
        size -= (size_t)moved;
    }
}

static void note(const char *form, ...) {
    char line[8192];
    va_list words;
    va_start(words, form);
    int size = vsnprintf(line, sizeof line, form, words);
    va_end(words);
    add(line, (size_t)size);
}

// The name of a path in the folder, or nothing.
static const char *name_in(const char *path) {
    size_t size = strlen(folder);
    return !strncmp(path, folder, size) && path[size] == '/' && !strchr(path + size + 1, '/') && strcmp(path + size + 1, "..") ? path + size + 1 : NULL;
}

static int is_kept(int file, struct stat *found) {
    char link[64], path[4096];
    if (fstat(file, found) || !S_ISREG(found->st_mode))
        return 0;
    snprintf(link, sizeof link, "/proc/self/fd/%d", file);
    ssize_t size = readlink(link, path, sizeof path - 1);
    path[size < 0 ? 0 : size] = 0;
    return name_in(path) != NULL;
}

static int opened(int from, const char *path, int flags, mode_t mode) {
    const char *name = name_in(path);
    struct stat found;
    pthread_mutex_lock(&guard);
    int file = (int)syscall(SYS_openat, from, path, flags, mode);
    if (file >= 0 && name && !fstat(file, &found) && S_ISREG(found.st_mode)) {
        note("name %lu %s\n", (unsigned long)found.st_ino, name);
        if (flags & O_TRUNC)
            note("cut %lu 0\n", (unsigned long)found.st_ino);
    }
    pthread_mutex_unlock(&guard);
    return file;
}

static mode_t mode_of(int flags, va_list words) {
    return flags & (O_CREAT | O_TMPFILE) ? (mode_t)va_arg(words, int) : 0;
}

#define OPENS(NAME)                                          \
    int NAME(const char *path, int flags, ...) {             \
        va_list words;                                       \
        va_start(words, flags);                              \
        mode_t mode = mode_of(flags, words);                 \
        va_end(words);                                       \
        return opened(AT_FDCWD, path, flags, mode);          \
    }
#define OPENS_AT(NAME)                                       \
    int NAME(int from, const char *path, int flags, ...) {   \
        va_list words;                                       \
        va_start(words, flags);                              \
        mode_t mode = mode_of(flags, words);                 \
        va_end(words);                                       \
        return opened(from, path, flags, mode);              \
    }
OPENS(open)
OPENS(open64)
OPENS_AT(openat)
OPENS_AT(openat64)

static ssize_t sending(int to, const void *bytes, size_t size, int flags) {
    pthread_mutex_lock(&guard);
    note("sent %d %zu\n", to, size);
    add(bytes, size);
    pthread_mutex_unlock(&guard);
    return syscall(SYS_sendto, to, bytes, size, flags, NULL, 0);
}

ssize_t send(int to, const void *bytes, size_t size, int flags) {
    return sending(to, bytes, size, flags);
}

ssize_t write(int to, const void *bytes, size_t size) {
    struct stat found;
    if (!fstat(to, &found) && S_ISSOCK(found.st_mode))
        return sending(to, bytes, size, MSG_NOSIGNAL);
    if (!is_kept(to, &found))
        return syscall(SYS_write, to, bytes, size);
    pthread_mutex_lock(&guard);
    ssize_t moved = syscall(SYS_write, to, bytes, size);
    if (moved > 0) {
        note("write %lu %ld %zd\n", (unsigned long)found.st_ino, (long)(syscall(SYS_lseek, to, 0, SEEK_CUR) - moved), moved);
        add(bytes, (size_t)moved);
    }
    pthread_mutex_unlock(&guard);
    return moved;
}

ssize_t writev(int to, const struct iovec *pieces, int count) {
    for (int at = 0; at < count; at++)
        if (pieces[at].iov_len)
            return write(to, pieces[at].iov_base, pieces[at].iov_len);
    return write(to, NULL, 0);
}

static int cut(int file, off_t size) {
    struct stat found;
    int kept = is_kept(file, &found);
    pthread_mutex_lock(&guard);
    int status = (int)syscall(SYS_ftruncate, file, size);
    if (kept && !status)
        note("cut %lu %ld\n", (unsigned long)found.st_ino, (long)size);
    pthread_mutex_unlock(&guard);
    return status;
}

int ftruncate(int file, off_t size) {
    return cut(file, size);
}

int ftruncate64(int file, off64_t size) {
    return cut(file, size);
}

static int synced(int file, long call) {
    struct stat found, names;
    int kept = is_kept(file, &found);
    usleep(2000);
    int is_folder = !kept && !stat(folder, &names) && !fstat(file, &found) && found.st_ino == names.st_ino && found.st_dev == names.st_dev;
    pthread_mutex_lock(&guard);
    int status = (int)syscall(call, file);
    if (!status && kept)
        note("sync %lu\n", (unsigned long)found.st_ino);
    if (!status && is_folder)
        note("names\n");
    pthread_mutex_unlock(&guard);
    return status;
}

int fsync(int file) {
    return synced(file, SYS_fsync);
}

int fdatasync(int file) {
    return synced(file, SYS_fdatasync);
}

int rename(const char *old, const char *new) {
    pthread_mutex_lock(&guard);
    int status = (int)syscall(SYS_renameat2, AT_FDCWD, old, AT_FDCWD, new, 0);
    if (!status && name_in(old) && name_in(new))
        note("rename %s %s\n", name_in(old), name_in(new));
    pthread_mutex_unlock(&guard);
    return status;
}

int unlink(const char *path) {
    pthread_mutex_lock(&guard);
    int status = (int)syscall(SYS_unlinkat, AT_FDCWD, path, 0);
    if (!status && name_in(path))
        note("remove %s\n", name_in(path));
    pthread_mutex_unlock(&guard);
    return status;
}
