// Has each call for a datagram fail, for checks/exit-numbers, which builds it and has it loaded before the C library
// (LD_PRELOAD).
#define _GNU_SOURCE
#include <errno.h>
#include <sys/socket.h>

ssize_t recvfrom(int socket, void *restrict into, size_t length, int flags, struct sockaddr *restrict from, socklen_t *restrict size) {
    (void)socket;
    (void)into;
    (void)length;
    (void)flags;
    (void)from;
    (void)size;
    errno = EIO;
    return -1;
}
