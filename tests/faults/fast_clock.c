/* A shim that is preloaded under a program (LD_PRELOAD) whose minutes are seconds: its clock runs 60 times as fast from its start on, and a socket
   waits a 60th of the time that it is told. Where SLOW_LINE is set, a write takes a byte, a tenth of a second later. */
#define _GNU_SOURCE
#include <stddef.h>
#include <stdint.h>
#include <stdlib.h>
#include <sys/socket.h>
#include <sys/syscall.h>
#include <sys/time.h>
#include <sys/types.h>
#include <time.h>
#include <unistd.h>

enum { FASTER = 60 };

static int64_t nanos_of(const struct timespec *time) { return (int64_t)time->tv_sec * 1000000000 + time->tv_nsec; }

int clock_gettime(clockid_t clock, struct timespec *time) {
    static int64_t begin;
    if (syscall(SYS_clock_gettime, clock, time)) return -1;
    if (clock != CLOCK_MONOTONIC) return 0;
    if (!begin) begin = nanos_of(time);
    int64_t now = begin + FASTER * (nanos_of(time) - begin);
    time->tv_sec = now / 1000000000;
    time->tv_nsec = now % 1000000000;
    return 0;
}

int setsockopt(int socket, int level, int name, const void *value, socklen_t length) {
    struct timeval time;
    if (level == SOL_SOCKET && (name == SO_RCVTIMEO || name == SO_SNDTIMEO) && length == sizeof time) {
        const struct timeval *told = value;
        int64_t micros = ((int64_t)told->tv_sec * 1000000 + told->tv_usec) / FASTER + 1;
        time.tv_sec = micros / 1000000;
        time.tv_usec = micros % 1000000;
        value = &time;
    }
    return (int)syscall(SYS_setsockopt, socket, level, name, value, length);
}

ssize_t send(int socket, const void *bytes, size_t count, int flags) {
    if (getenv("SLOW_LINE") && count > 1) {
        usleep(100000);
        count = 1;
    }
    return syscall(SYS_sendto, socket, bytes, count, flags, NULL, 0);
}
