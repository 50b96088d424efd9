/* A shim that is preloaded under a program (LD_PRELOAD) and breaks off its reads and writes of sockets: of each two calls the first one does
   nothing and answers EINTR, as a call whose waiting is limited does once a program that was stopped goes on. */
#define _GNU_SOURCE
#include <errno.h>
#include <stddef.h>
#include <sys/socket.h>
#include <sys/syscall.h>
#include <sys/types.h>
#include <unistd.h>

static int is_broken_off(void) {
    static unsigned calls;
    if (calls++ % 2 == 1) return 0;
    errno = EINTR;
    return 1;
}

ssize_t recv(int socket, void *bytes, size_t count, int flags) {
    return is_broken_off() ? -1 : syscall(SYS_recvfrom, socket, bytes, count, flags, NULL, NULL);
}

ssize_t send(int socket, const void *bytes, size_t count, int flags) {
    return is_broken_off() ? -1 : syscall(SYS_sendto, socket, bytes, count, flags, NULL, 0);
}
