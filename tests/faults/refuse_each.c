/* A shim that is preloaded under a program (LD_PRELOAD) and refuses it each of its allocations in turn, in one run. At each of them the
   process forks: in the child this allocation answers NULL, and with REFUSE_REST in the environment all that follow; then the process goes
   on, with memory. What a child prints begins with the byte 0 and the letter r, and ends with the byte 0 and its status as a digit, or k
   where it was killed.

   The program prints the line `now` where its allocations are to be refused from, and the line `then` where they are no more; a child goes
   on up to the program's next line `now`, or to its end. With REFUSE_FILES in the environment each allocation of the program is tried, and
   its caller may look after its files: the shim prints the byte 0 and the letter a before it forks, and waits for a byte on standard
   input there, and again behind each child. Each line of the program is one call of write. The program has one thread. */
#define _GNU_SOURCE
#include <errno.h>
#include <stddef.h>
#include <stdlib.h>
#include <string.h>
#include <sys/syscall.h>
#include <sys/wait.h>
#include <unistd.h>

extern void *__libc_malloc(size_t size);
extern void *__libc_calloc(size_t count, size_t size);
extern void *__libc_realloc(void *kept, size_t size);

enum { SECONDS = 20 };

static int has_files, is_trying, is_child, is_refusing;

__attribute__((constructor)) static void begin(void) { is_trying = has_files = getenv("REFUSE_FILES") != NULL; }

static int is_line(const void *text, size_t size, const char *line) {
    return size == strlen(line) && memcmp(text, line, size) == 0;
}

ssize_t write(int file, const void *text, size_t size) {
    int is_now = file == 1 && is_line(text, size, "now\n");
    if (is_now && is_child) _exit(0);
    ssize_t written = syscall(SYS_write, file, text, size);
    if (is_now) is_trying = 1;
    if (file == 1 && is_line(text, size, "then\n")) is_trying = is_refusing = 0;
    return written;
}

static void print(char letter) {
    char text[2] = {0, letter};
    if (syscall(SYS_write, 1, text, sizeof text) != sizeof text) _exit(3);
}

static void wait_for_caller(void) {
    char byte;
    if (has_files && syscall(SYS_read, 0, &byte, 1) != 1) _exit(3);
}

static char status_of(pid_t child) {
    int status;
    if (child < 0 || waitpid(child, &status, 0) != child || !WIFEXITED(status)) return 'k';
    return WEXITSTATUS(status) < 10 ? (char)('0' + WEXITSTATUS(status)) : '9';
}

/* Whether this is the child, which is refused the allocation. */
static int is_refused(void) {
    if (is_refusing) return 1;
    if (!is_trying) return 0;
    is_trying = 0;
    if (has_files) print('a');
    wait_for_caller();
    pid_t child = fork();
    if (child == 0) {
        is_child = 1;
        is_refusing = getenv("REFUSE_REST") != NULL;
        alarm(SECONDS);
        print('r');
        return 1;
    }
    print(status_of(child));
    wait_for_caller();
    is_trying = 1;
    return 0;
}

static void *none(void) {
    errno = ENOMEM;
    return NULL;
}

void *malloc(size_t size) { return is_refused() ? none() : __libc_malloc(size); }

void *calloc(size_t count, size_t size) { return is_refused() ? none() : __libc_calloc(count, size); }

void *realloc(void *kept, size_t size) { return is_refused() ? none() : __libc_realloc(kept, size); }
