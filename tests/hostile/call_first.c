/* A shim that is preloaded under `bridge` (LD_PRELOAD) and calls its listener before the program does: before each connection to an address of
   version 4, a stranger connects there, asks for the position, and stays. Another address of this machine is tried at the same port. A byte
   goes into the file CALLS_FILE for each: `c` if the stranger is connected, `r` if the listener was reached at the other address. */
#define _GNU_SOURCE
#include <arpa/inet.h>
#include <fcntl.h>
#include <netinet/in.h>
#include <stdlib.h>
#include <sys/socket.h>
#include <sys/syscall.h>
#include <unistd.h>

static const char QUESTION[] = "GET /position HTTP/1.1\r\n\r\n";
static const uint32_t OTHER_ADDRESS = 0x7F000002;

static void tell(const char *what) {
    const char *path = getenv("CALLS_FILE");
    int file = path ? open(path, O_WRONLY | O_APPEND | O_CREAT | O_CLOEXEC, 0600) : -1;
    if (file < 0) return;
    if (write(file, what, 1) != 1) abort();
    close(file);
}

/* Connects to this address, and asks. The connection stays open. */
static int asks(struct sockaddr_in address) {
    int stranger = socket(AF_INET, SOCK_STREAM | SOCK_CLOEXEC, 0);
    if (stranger < 0) return 0;
    if (syscall(SYS_connect, stranger, &address, sizeof address) != 0) {
        close(stranger);
        return 0;
    }
    return send(stranger, QUESTION, sizeof QUESTION - 1, MSG_NOSIGNAL) == sizeof QUESTION - 1;
}

int connect(int file, const struct sockaddr *address, socklen_t length) {
    if (address->sa_family == AF_INET && length >= sizeof(struct sockaddr_in)) {
        struct sockaddr_in called = *(const struct sockaddr_in *)address;
        if (asks(called)) tell("c");
        called.sin_addr.s_addr = htonl(OTHER_ADDRESS);
        if (asks(called)) tell("r");
    }
    return (int)syscall(SYS_connect, file, address, length);
}
