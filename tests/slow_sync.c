// Preloaded into a program, has each sync of a file wait while the file SYNC_GATE is there, as a slow disk does, but for a minute at most.
// Tells that one waits by a byte on the file descriptor TOLD_FD.
#include <stdlib.h>
#include <sys/syscall.h>
#include <unistd.h>

static void wait_at_gate(void) {
    const char *gate = getenv("SYNC_GATE"), *descriptor = getenv("TOLD_FD");
    int told = 0;
    for (int turn = 0; gate && turn < 60000 && access(gate, F_OK) == 0; turn++) {
        if (!told && descriptor && syscall(SYS_write, atoi(descriptor), "!", 1) != 1)
            _exit(70);
        told = 1;
        usleep(1000);
    }
}

int fsync(int file) {
    wait_at_gate();
    return (int)syscall(SYS_fsync, file);
}

int fdatasync(int file) {
    wait_at_gate();
    return (int)syscall(SYS_fdatasync, file);
}
