/* A shim that is preloaded under a program (LD_PRELOAD) and refuses it memory. The file REFUSE_FILE, which the program's caller maps too,
   holds the wish and what was seen, so that a process that goes on can be told of another allocation at any time: `left` is the number
   of the allocation that answers NULL, counted from 1 at the time of the wish (0: none); with `has_more` each one after it answers
   NULL too. `seen` counts allocations, `refused` those of them that answered NULL. The program that is tried has one thread. */
#define _GNU_SOURCE
#include <errno.h>
#include <fcntl.h>
#include <stddef.h>
#include <stdint.h>
#include <stdlib.h>
#include <sys/mman.h>
#include <unistd.h>

extern void *__libc_malloc(size_t size);
extern void *__libc_calloc(size_t count, size_t size);
extern void *__libc_realloc(void *kept, size_t size);

struct wishes {
    int64_t left, has_more, seen, refused;
};

static volatile struct wishes *wishes;

__attribute__((constructor)) static void find_wishes(void) {
    const char *path = getenv("REFUSE_FILE");
    int file = path ? open(path, O_RDWR | O_CLOEXEC) : -1;
    if (file < 0) return;
    void *mapped = mmap(NULL, sizeof *wishes, PROT_READ | PROT_WRITE, MAP_SHARED, file, 0);
    if (mapped != MAP_FAILED) wishes = mapped;
    close(file);
}

static int is_refused(void) {
    if (!wishes) return 0;
    wishes->seen++;
    if (wishes->left == 0) return 0;
    if (wishes->left > 1) {
        wishes->left--;
        return 0;
    }
    if (!wishes->has_more) wishes->left = 0;
    wishes->refused++;
    errno = ENOMEM;
    return 1;
}

void *malloc(size_t size) { return is_refused() ? NULL : __libc_malloc(size); }

void *calloc(size_t count, size_t size) { return is_refused() ? NULL : __libc_calloc(count, size); }

void *realloc(void *kept, size_t size) { return is_refused() ? NULL : __libc_realloc(kept, size); }
