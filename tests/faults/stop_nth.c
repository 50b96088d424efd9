/* A shim that is preloaded under a program (LD_PRELOAD) and stops it at a call of the disk: the call of the number STOP_AT, counted from 1
   over all that write, cut or sync a file, isn't made, and the process ends with status 99. With STOP_HALF a write is made of its first
   half before that. */
#define _GNU_SOURCE
#include <stdlib.h>
#include <sys/syscall.h>
#include <sys/types.h>
#include <unistd.h>

static long left, is_half;

__attribute__((constructor)) static void read_wishes(void) {
    const char *at = getenv("STOP_AT"), *half = getenv("STOP_HALF");
    left = at ? atol(at) : 0;
    is_half = half && *half == '1';
}

static int is_last(void) { return left > 0 && --left == 0; }

ssize_t pwrite(int file, const void *bytes, size_t count, off_t at) {
    if (is_last()) {
        if (is_half) syscall(SYS_pwrite64, file, bytes, count / 2, at);
        _exit(99);
    }
    return syscall(SYS_pwrite64, file, bytes, count, at);
}

int ftruncate(int file, off_t length) {
    if (is_last()) _exit(99);
    return (int)syscall(SYS_ftruncate, file, length);
}

int fsync(int file) {
    if (is_last()) _exit(99);
    return (int)syscall(SYS_fsync, file);
}

int fdatasync(int file) {
    if (is_last()) _exit(99);
    return (int)syscall(SYS_fdatasync, file);
}
