/* What the programs share: a check that counts, the bytes of messages, and calls for sockets. */
#ifndef SOCKETS_H
#define SOCKETS_H

#include <stdint.h>
#include <stdio.h>
#include <string.h>
#include <usrsctp.h>

enum { PORT = 5000, LONGEST = 262144 };

/* Counts a check, and prints it if it fails. */
#define CHECK(name, number, expected)                                                              \
    check(__FILE__, __LINE__, name, (long)(number), (long)(expected))

static unsigned passed, failed;

static inline void check(const char *file, int line, const char *name, long number, long expected) {
    if (number == expected) {
        passed++;
        return;
    }
    failed++;
    printf("%s:%d: %s: %ld, not %ld\n", file, line, name, number, expected);
}

static inline void fill(uint8_t *bytes, size_t length) {
    for (size_t i = 0; i < length; i++)
        bytes[i] = (uint8_t)(i * 7 + i / 251);
}

static inline struct sockaddr_conn at(void *address, uint16_t port) {
    struct sockaddr_conn name;
    memset(&name, 0, sizeof name);
    name.sconn_family = AF_CONN;
    name.sconn_port = htons(port);
    name.sconn_addr = address;
    return name;
}

static inline int set_number(struct socket *socket, int level, int name, int number) {
    return usrsctp_setsockopt(socket, level, name, &number, sizeof number);
}

static inline int subscribe(struct socket *socket, uint16_t type) {
    struct sctp_event event;
    memset(&event, 0, sizeof event);
    event.se_assoc_id = SCTP_ALL_ASSOC;
    event.se_type = type;
    event.se_on = 1;
    return usrsctp_setsockopt(socket, IPPROTO_SCTP, SCTP_EVENT, &event, sizeof event);
}

/* Sets what data channels need. */
static inline void set_options(struct socket *socket, uint16_t streams, int buffer) {
    struct sctp_initmsg init;
    struct sctp_assoc_value reset;
    memset(&init, 0, sizeof init);
    memset(&reset, 0, sizeof reset);
    init.sinit_num_ostreams = init.sinit_max_instreams = streams;
    reset.assoc_id = SCTP_ALL_ASSOC;
    reset.assoc_value = SCTP_ENABLE_RESET_STREAM_REQ;
    CHECK("SCTP_NODELAY", set_number(socket, IPPROTO_SCTP, SCTP_NODELAY, 1), 0);
    CHECK("SCTP_INITMSG",
          usrsctp_setsockopt(socket, IPPROTO_SCTP, SCTP_INITMSG, &init, sizeof init), 0);
    CHECK("SCTP_ENABLE_STREAM_RESET",
          usrsctp_setsockopt(socket, IPPROTO_SCTP, SCTP_ENABLE_STREAM_RESET, &reset, sizeof reset),
          0);
    CHECK("SO_SNDBUF", set_number(socket, SOL_SOCKET, SO_SNDBUF, buffer), 0);
    CHECK("SO_RCVBUF", set_number(socket, SOL_SOCKET, SO_RCVBUF, buffer), 0);
}

/* Asks for the reset of one outgoing stream. */
static inline int reset_stream(struct socket *socket, uint16_t stream_id) {
    union {
        struct sctp_reset_streams streams;
        uint8_t bytes[sizeof(struct sctp_reset_streams) + 2];
    } it;
    memset(&it, 0, sizeof it);
    it.streams.srs_flags = SCTP_STREAM_RESET_OUTGOING;
    it.streams.srs_number_streams = 1;
    memcpy(it.bytes + sizeof it.streams, &stream_id, 2);
    return usrsctp_setsockopt(socket, IPPROTO_SCTP, SCTP_RESET_STREAMS, &it, sizeof it.streams + 2);
}

#endif
