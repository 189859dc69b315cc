/* Notes between threads and processes: see server.h. */
#define _GNU_SOURCE
#include "server.h"

#include <errno.h>
#include <sys/socket.h>
#include <sys/uio.h>

void channel_open(int files[2]) {
    const int size = NOTE / 2; /* (the kernel doubles it; more would only make notes wait) */
    if (socketpair(AF_UNIX, SOCK_SEQPACKET | SOCK_CLOEXEC, 0, files) != 0)
        fail("socketpair");
    setsockopt(files[1], SOL_SOCKET, SO_SNDBUF, &size, sizeof size);
}

int note_send(int channel, const struct note *note, const void *bytes, size_t length) {
    struct iovec parts[2] = {{(void *)(uintptr_t)note, sizeof *note},
                             {(void *)(uintptr_t)bytes, length}};
    struct msghdr message = {0};
    const int how = MSG_NOSIGNAL | (note->kind == NOTE_PACKET ? MSG_DONTWAIT : 0);
    ssize_t sent;
    message.msg_iov = parts;
    message.msg_iovlen = length > 0 ? 2 : 1;
    do
        sent = sendmsg(channel, &message, how);
    while (sent < 0 && errno == EINTR);
    return sent < 0 ? -1 : 0;
}

int note_take(int channel, struct note *note, void *bytes, size_t *length) {
    struct iovec parts[2] = {{note, sizeof *note}, {bytes, NOTE}};
    struct msghdr message = {0};
    ssize_t taken;
    message.msg_iov = parts;
    message.msg_iovlen = 2;
    taken = recvmsg(channel, &message, MSG_DONTWAIT);
    if (taken < (ssize_t)sizeof *note)
        return 0;
    *length = (size_t)taken - sizeof *note;
    return 1;
}
