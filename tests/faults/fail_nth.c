/* A shim that is preloaded under a program (LD_PRELOAD) and fails its calls of the disk. The file FAIL_FILE, which the program's caller maps
   too, holds the wish and what was seen, so that a process that goes on can be told of another call at any time: `left` is the number of the
   call that fails, counted from 1 at the time of the wish over all that write, cut or sync a file (0: none); with `has_more` each one after it
   fails too. A call that fails does nothing and answers EIO. `seen` counts the calls, `failed` those of them that failed. */
#define _GNU_SOURCE
#include <errno.h>
#include <fcntl.h>
#include <stddef.h>
#include <stdint.h>
#include <stdlib.h>
#include <sys/mman.h>
#include <sys/syscall.h>
#include <sys/types.h>
#include <unistd.h>

struct wishes {
    int64_t left, has_more, seen, failed;
};

static volatile struct wishes *wishes;

__attribute__((constructor)) static void find_wishes(void) {
    const char *path = getenv("FAIL_FILE");
    int file = path ? open(path, O_RDWR | O_CLOEXEC) : -1;
    if (file < 0) return;
    void *mapped = mmap(NULL, sizeof *wishes, PROT_READ | PROT_WRITE, MAP_SHARED, file, 0);
    if (mapped != MAP_FAILED) wishes = mapped;
    close(file);
}

static int fails(void) {
    if (!wishes) return 0;
    wishes->seen++;
    if (wishes->left == 0) return 0;
    if (wishes->left > 1) {
        wishes->left--;
        return 0;
    }
    if (!wishes->has_more) wishes->left = 0;
    wishes->failed++;
    errno = EIO;
    return 1;
}

ssize_t pwrite(int file, const void *bytes, size_t count, off_t at) {
    return fails() ? -1 : syscall(SYS_pwrite64, file, bytes, count, at);
}

int ftruncate(int file, off_t length) { return fails() ? -1 : (int)syscall(SYS_ftruncate, file, length); }

int fsync(int file) { return fails() ? -1 : (int)syscall(SYS_fsync, file); }

int fdatasync(int file) { return fails() ? -1 : (int)syscall(SYS_fdatasync, file); }
