// Preloaded into a program, refuses one of its allocations: with FAIL_ALLOC=N the Nth call of a function below, counted from
// the start of the program, answers that there is no memory. Tells of it by a byte on the file descriptor TOLD_FD.
#include <errno.h>
#include <stdatomic.h>
#include <stdlib.h>
#include <unistd.h>

// glibc's own functions under their other names. (dlsym may allocate, and would come back here.)
extern void *__libc_malloc(size_t size);
extern void *__libc_calloc(size_t count, size_t size);
extern void *__libc_realloc(void *old, size_t size);
extern void *__libc_memalign(size_t alignment, size_t size);

// How many calls are left up to and with the one that is refused; 0 or less where none is to be refused any more.
static atomic_long left;
static int told = -1;

__attribute__((constructor)) static void begin(void) {
    const char *number = getenv("FAIL_ALLOC"), *descriptor = getenv("TOLD_FD");
    told = descriptor ? atoi(descriptor) : -1;
    atomic_store(&left, number ? atol(number) : 0);
}

static int refused(void) {
    if (atomic_load(&left) <= 0 || atomic_fetch_sub(&left, 1) != 1)
        return 0;
    if (told >= 0 && write(told, "!", 1) != 1)
        _exit(70);
    errno = ENOMEM;
    return 1;
}

void *malloc(size_t size) {
    return refused() ? NULL : __libc_malloc(size);
}

void *calloc(size_t count, size_t size) {
    return refused() ? NULL : __libc_calloc(count, size);
}

void *realloc(void *old, size_t size) {
    return refused() ? NULL : __libc_realloc(old, size);
}

void *memalign(size_t alignment, size_t size) {
    return refused() ? NULL : __libc_memalign(alignment, size);
}

void *aligned_alloc(size_t alignment, size_t size) {
    return refused() ? NULL : __libc_memalign(alignment, size);
}

int posix_memalign(void **made, size_t alignment, size_t size) {
    void *block = refused() ? NULL : __libc_memalign(alignment, size);
    if (!block)
        return ENOMEM;
    *made = block;
    return 0;
}
