/* Calls of usrsctp, two sockets in one process, over a link that this program is. It is written for
 * usrsctp.h alone, and passes over libusrsctp and over bindings/usrsctp. The clock is
 * usrsctp_handle_timers. */
#include "sockets.h"

#include <errno.h>
#include <stdlib.h>
#include <unistd.h>

enum { STREAMS = 64, MOST_RECEIVED = 64 };

/* A call that fails with an error. */
#define FAILS(name, call, error)                                                                   \
    do {                                                                                           \
        errno = 0;                                                                                 \
        CHECK(name, call, -1);                                                                     \
        CHECK(name ": errno", errno, error);                                                       \
    } while (0)

struct packet {
    struct packet *next;
    void *from;
    size_t length;
    uint8_t bytes[];
};

struct received {
    size_t length;
    uint16_t stream_id;
    uint32_t ppid;
    unsigned sum;
};

/* An end of an association, and what was reported of it. */
struct end {
    struct end *peer;
    struct socket *socket;
    struct received received[MOST_RECEIVED];
    unsigned count;
    unsigned state_count;
    unsigned states[8];   /* of SCTP_ASSOC_CHANGE */
    unsigned seen[16];    /* notifications of each type */
    uint16_t reset_flags; /* of the last SCTP_STREAM_RESET_EVENT */
    unsigned resets_in;   /* streams of the peer that were reset */
    unsigned resets_out;
    unsigned last_reset;
    unsigned failed_length; /* of the last SCTP_SEND_FAILED_EVENT */
    unsigned failed_ppid;
    unsigned ends;  /* callbacks without data */
    unsigned rooms; /* callbacks that there is room */
};

static struct end a, b;
static struct packet *first, **last = &first;
static unsigned to_lose; /* so many packets are lost from now on */
static int in_real_time; /* usrsctp repeats data by the clock of the system */
static unsigned unsummed; /* packets that came from a stack without a sum */
static uint8_t payload[LONGEST + 1];

/* ---- The link ------------------------------------------------------------------------------- */

static int output(void *address, void *bytes, size_t length, uint8_t tos, uint8_t set_df) {
    struct packet *packet = malloc(sizeof *packet + length);
    (void)tos, (void)set_df;
    if (!packet)
        abort();
    packet->next = NULL;
    packet->from = address;
    packet->length = length;
    memcpy(packet->bytes, bytes, length);
    unsummed += memcmp(packet->bytes + 8, "\0\0\0", 4) == 0;
    *last = packet;
    last = &packet->next;
    return 0;
}

/* Carries all packets, and lets 10 ms pass. */
static void step(void) {
    while (first) {
        struct packet *packet = first;
        first = packet->next;
        if (!first)
            last = &first;
        if (to_lose)
            to_lose--;
        else
            usrsctp_conninput(((struct end *)packet->from)->peer, packet->bytes, packet->length, 0);
        free(packet);
    }
    if (in_real_time)
        usleep(10000);
    usrsctp_handle_timers(10);
}

static void run(unsigned milliseconds) {
    for (unsigned i = 0; i < milliseconds / 10; i++)
        step();
}

/* Runs until a number is reached. */
static void run_until(const unsigned *number, unsigned expected) {
    for (unsigned i = 0; i < 12000 && *number < expected; i++)
        step();
}

/* ---- Reports -------------------------------------------------------------------------------- */

static void note_reset(struct end *end, const struct sctp_stream_reset_event *event) {
    unsigned count = (unsigned)(event->strreset_length - sizeof *event) / 2;
    end->reset_flags = event->strreset_flags;
    if (event->strreset_flags & SCTP_STREAM_RESET_INCOMING_SSN)
        end->resets_in += count;
    if (event->strreset_flags == SCTP_STREAM_RESET_OUTGOING_SSN)
        end->resets_out += count;
    if (count)
        end->last_reset = event->strreset_stream_list[0];
}

static void note(struct end *end, const union sctp_notification *it, size_t length) {
    CHECK("the length of a notification", it->sn_header.sn_length, length);
    if (it->sn_header.sn_type < 16)
        end->seen[it->sn_header.sn_type]++;
    switch (it->sn_header.sn_type) {
    case SCTP_ASSOC_CHANGE:
        if (end->state_count < 8)
            end->states[end->state_count++] = it->sn_assoc_change.sac_state;
        break;
    case SCTP_STREAM_RESET_EVENT:
        note_reset(end, &it->sn_strreset_event);
        break;
    case SCTP_SEND_FAILED_EVENT:
        end->failed_length =
            (unsigned)(it->sn_send_failed_event.ssfe_length - sizeof it->sn_send_failed_event);
        end->failed_ppid = ntohl(it->sn_send_failed_event.ssfe_info.snd_ppid);
        break;
    default:
        break;
    }
}

static int receive(struct socket *socket, union sctp_sockstore from, void *data, size_t length,
                   struct sctp_rcvinfo info, int flags, void *user) {
    struct end *end = user;
    (void)socket, (void)from;
    if (!data) {
        end->ends++;
        return 1;
    }
    if (flags & MSG_NOTIFICATION) {
        note(end, data, length);
    } else {
        static unsigned sums[2];
        static size_t lengths[2];
        int which = end == &b;
        for (size_t i = 0; i < length; i++)
            sums[which] = sums[which] * 31 + ((uint8_t *)data)[i];
        lengths[which] += length;
        if (flags & MSG_EOR) {
            if (end->count < MOST_RECEIVED)
                end->received[end->count] = (struct received){lengths[which], info.rcv_sid,
                                                              ntohl(info.rcv_ppid), sums[which]};
            end->count++;
            sums[which] = 0;
            lengths[which] = 0;
        }
    }
    free(data);
    return 1;
}

static int may_send(struct socket *socket, uint32_t room, void *user) {
    (void)socket, (void)room;
    ((struct end *)user)->rooms++;
    return 1;
}

/* ---- Sockets -------------------------------------------------------------------------------- */

static void subscribe_to_events(struct socket *socket) {
    static const uint16_t types[] = {SCTP_ASSOC_CHANGE,         SCTP_STREAM_RESET_EVENT,
                                     SCTP_SEND_FAILED_EVENT,    SCTP_SHUTDOWN_EVENT,
                                     SCTP_PEER_ADDR_CHANGE,     SCTP_REMOTE_ERROR,
                                     SCTP_ADAPTATION_INDICATION};
    for (size_t i = 0; i < sizeof types / sizeof *types; i++)
        CHECK("SCTP_EVENT", subscribe(socket, types[i]), 0);
}

/* Makes a socket that doesn't block, and binds it. */
static struct socket *open_socket(struct end *end) {
    struct sockaddr_conn name = at(end, PORT);
    struct socket *socket =
        usrsctp_socket(AF_CONN, SOCK_STREAM, IPPROTO_SCTP, receive, may_send, 0, end);
    CHECK("a socket", socket != NULL, 1);
    CHECK("usrsctp_set_non_blocking", usrsctp_set_non_blocking(socket, 1), 0);
    CHECK("usrsctp_get_non_blocking", usrsctp_get_non_blocking(socket), 1);
    set_options(socket, STREAMS, LONGEST);
    subscribe_to_events(socket);
    CHECK("usrsctp_bind", usrsctp_bind(socket, (struct sockaddr *)&name, sizeof name), 0);
    return socket;
}

static void reset_end(struct end *end, struct end *peer) {
    memset(end, 0, sizeof *end);
    end->peer = peer;
    usrsctp_register_address(end);
}

/* Both ends connect, as data channels do. */
static void connect_ends(void) {
    struct sockaddr_conn to_b = at(&a, PORT), to_a = at(&b, PORT);
    reset_end(&a, &b);
    reset_end(&b, &a);
    a.socket = open_socket(&a);
    b.socket = open_socket(&b);
    FAILS("connect", usrsctp_connect(a.socket, (struct sockaddr *)&to_b, sizeof to_b), EINPROGRESS);
    FAILS("connect", usrsctp_connect(b.socket, (struct sockaddr *)&to_a, sizeof to_a), EINPROGRESS);
    run_until(&a.state_count, 1);
    run_until(&b.state_count, 1);
    CHECK("A is up", a.states[0], SCTP_COMM_UP);
    CHECK("B is up", b.states[0], SCTP_COMM_UP);
}

/* Ends an association by an ABORT of A, or by what is left of it. */
static void abort_ends(void) {
    const struct linger now = {1, 0};
    usrsctp_setsockopt(a.socket, SOL_SOCKET, SO_LINGER, &now, sizeof now);
    usrsctp_setsockopt(b.socket, SOL_SOCKET, SO_LINGER, &now, sizeof now);
    usrsctp_close(a.socket);
    run(100);
    usrsctp_close(b.socket);
    run(100);
    usrsctp_deregister_address(&a);
    usrsctp_deregister_address(&b);
}

static ssize_t send_to(struct end *end, uint16_t stream_id, uint32_t ppid, size_t length,
                       uint16_t flags, uint16_t policy, uint32_t value) {
    struct sctp_sendv_spa spa;
    memset(&spa, 0, sizeof spa);
    spa.sendv_flags = SCTP_SEND_SNDINFO_VALID | (policy ? SCTP_SEND_PRINFO_VALID : 0);
    spa.sendv_sndinfo.snd_sid = stream_id;
    spa.sendv_sndinfo.snd_ppid = htonl(ppid);
    spa.sendv_sndinfo.snd_flags = flags;
    spa.sendv_prinfo.pr_policy = policy;
    spa.sendv_prinfo.pr_value = value;
    return usrsctp_sendv(end->socket, payload, length, NULL, 0, &spa, sizeof spa, SCTP_SENDV_SPA,
                         0);
}

static unsigned sum_of(size_t length) {
    unsigned sum = 0;
    for (size_t i = 0; i < length; i++)
        sum = sum * 31 + payload[i];
    return sum;
}

/* ---- Tests ---------------------------------------------------------------------------------- */

static void test_socket_errors(void) {
    struct sockaddr_conn name = at(&a, PORT), unknown = at(&passed, PORT);
    struct socket *socket;
    void *user = NULL;
    errno = 0;
    CHECK("a send callback alone",
          usrsctp_socket(AF_CONN, SOCK_STREAM, IPPROTO_SCTP, NULL, may_send, 0, NULL) == NULL, 1);
    CHECK("errno", errno, EINVAL);
    errno = 0;
    CHECK("SOCK_DGRAM",
          usrsctp_socket(AF_CONN, SOCK_DGRAM, IPPROTO_SCTP, receive, NULL, 0, NULL) == NULL, 1);
    CHECK("errno", errno, EINVAL);
    reset_end(&a, &b);
    reset_end(&b, &a);
    socket = usrsctp_socket(AF_CONN, SOCK_STREAM, IPPROTO_SCTP, receive, NULL, 0, &a);
    CHECK("usrsctp_set_ulpinfo", usrsctp_set_ulpinfo(socket, &b), 1);
    CHECK("usrsctp_get_ulpinfo", usrsctp_get_ulpinfo(socket, &user), 1);
    CHECK("it is that", user == &b, 1);
    FAILS("bind NULL", usrsctp_bind(NULL, (struct sockaddr *)&name, sizeof name), EBADF);
    FAILS("an unknown address", usrsctp_bind(socket, (struct sockaddr *)&unknown, sizeof unknown),
          EADDRNOTAVAIL);
    CHECK("bind", usrsctp_bind(socket, (struct sockaddr *)&name, sizeof name), 0);
    FAILS("bind again", usrsctp_bind(socket, (struct sockaddr *)&name, sizeof name), EINVAL);
    FAILS("accept", usrsctp_accept(socket, NULL, NULL) ? 0 : -1, EINVAL);
    FAILS("shutdown", usrsctp_shutdown(socket, SHUT_RDWR), ENOTCONN);
    FAILS("shutdown in no way", usrsctp_shutdown(socket, 77), EINVAL);
    a.socket = socket;
    FAILS("send", send_to(&a, 0, 51, 10, 0, 0, 0), ENOENT);
    FAILS("reset", reset_stream(a.socket, 1), ENOENT);
    FAILS("no option", set_number(socket, IPPROTO_SCTP, 0x7777, 1), ENOPROTOOPT);
    FAILS("a short value", usrsctp_setsockopt(socket, IPPROTO_SCTP, SCTP_INITMSG, &name, 2),
          EINVAL);
    FAILS("setsockopt NULL", set_number(NULL, IPPROTO_SCTP, SCTP_NODELAY, 1), EBADF);
    FAILS("connect NULL", usrsctp_connect(NULL, (struct sockaddr *)&name, sizeof name), EBADF);
    usrsctp_close(socket);
    usrsctp_deregister_address(&a);
    usrsctp_deregister_address(&b);
}

static void test_messages(void) {
    static const size_t lengths[] = {1, 2, 3, 100, 1000, 1200, 1300, 16384, 65536, 200000, LONGEST};
    unsigned count = sizeof lengths / sizeof *lengths;
    connect_ends();
    for (unsigned i = 0; i < count; i++) {
        CHECK("send A", send_to(&a, (uint16_t)i, 51 + i, lengths[i], 0, 0, 0), lengths[i]);
        CHECK("send B", send_to(&b, (uint16_t)i, 81 + i, lengths[i], SCTP_UNORDERED, 0, 0),
              lengths[i]);
        run_until(&a.count, i + 1);
        run_until(&b.count, i + 1);
        run(500);
        CHECK("B's count", b.count, i + 1);
        CHECK("A's count", a.count, i + 1);
        CHECK("B's length", b.received[i].length, lengths[i]);
        CHECK("A's length", a.received[i].length, lengths[i]);
        CHECK("B's bytes", b.received[i].sum, sum_of(lengths[i]));
        CHECK("A's bytes", a.received[i].sum, sum_of(lengths[i]));
        CHECK("B's stream", b.received[i].stream_id, i);
        CHECK("A's stream", a.received[i].stream_id, i);
        CHECK("B's ppid", b.received[i].ppid, 51 + i);
        CHECK("A's ppid", a.received[i].ppid, 81 + i);
    }
    CHECK("there was room", a.rooms > 0 && b.rooms > 0, 1);
    FAILS("an empty message", send_to(&a, 0, 51, 0, 0, 0, 0), EINVAL);
    FAILS("too long", send_to(&a, 0, 51, LONGEST + 1, 0, 0, 0), EMSGSIZE);
    FAILS("no such stream", send_to(&a, STREAMS, 51, 1, 0, 0, 0), EINVAL);
    FAILS("no such policy", send_to(&a, 0, 51, 1, 0, 9, 0), EINVAL);
    FAILS("send NULL", usrsctp_sendv(NULL, payload, 1, NULL, 0, NULL, 0, SCTP_SENDV_NOINFO, 0),
          EBADF);
    CHECK("no info", usrsctp_sendv(a.socket, payload, 1, NULL, 0, NULL, 0, SCTP_SENDV_NOINFO, 0),
          1);
    run(300);
    CHECK("it came", b.count, count + 1);
    abort_ends();
}

static void test_full_buffer(void) {
    unsigned sent = 0;
    connect_ends();
    while (send_to(&a, 0, 53, 10000, 0, 0, 0) == 10000 && sent < 1000)
        sent++;
    CHECK("errno", errno, EWOULDBLOCK);
    CHECK("about a buffer full", sent > 15 && sent < 60, 1);
    CHECK("no SCTP_EVENT_WRITE for a message that long", send_to(&a, 0, 53, 10000, 0, 0, 0) < 0, 1);
    run_until(&b.count, sent);
    CHECK("all came", b.count, sent);
    run(1000);
    CHECK("room again", send_to(&a, 0, 53, 10000, 0, 0, 0), 10000);
    CHECK("SCTP_EVENT_WRITE", usrsctp_get_events(a.socket) & SCTP_EVENT_WRITE, SCTP_EVENT_WRITE);
    abort_ends();
}

static void test_partial_reliability(void) {
    static const struct {
        const char *name;
        size_t length;
        uint16_t policy;
        uint32_t value;
    } lost[] = {{"no retransmission", 200, SCTP_PR_SCTP_RTX, 0},
                {"20 ms", 300, SCTP_PR_SCTP_TTL, 20}};
    usrsctp_sysctl_set_sctp_rto_min_default(100);
    usrsctp_sysctl_set_sctp_rto_initial_default(100);
    connect_ends();
    in_real_time = 1;
    CHECK("first", send_to(&a, 1, 51, 100, 0, 0, 0), 100);
    run(300);
    CHECK("it came", b.count, 1);
    for (unsigned i = 0; i < sizeof lost / sizeof *lost; i++) {
        const char *name = lost[i].name;
        const size_t length = lost[i].length;
        to_lose = 1;
        CHECK(name, send_to(&a, 1, 61 + i, length, 0, lost[i].policy, lost[i].value), length);
        run(1500);
        CHECK(name, b.count, 1);
        CHECK(name, a.seen[SCTP_SEND_FAILED_EVENT], i + 1);
        CHECK(name, a.failed_length, length);
        CHECK(name, a.failed_ppid, 61 + i);
    }
    to_lose = 1;
    CHECK("retransmitted", send_to(&a, 1, 63, 400, 0, SCTP_PR_SCTP_RTX, 5), 400);
    run(2000);
    CHECK("it came", b.count, 2);
    CHECK("its length", b.received[1].length, 400);
    in_real_time = 0;
    abort_ends();
    usrsctp_sysctl_set_sctp_rto_min_default(1000);
    usrsctp_sysctl_set_sctp_rto_initial_default(3000);
}

static void test_resets(void) {
    connect_ends();
    for (unsigned round = 1; round <= 3; round++) {
        CHECK("send", send_to(&a, 5, 51, 20000, 0, 0, 0), 20000);
        CHECK("send", send_to(&b, 5, 51, 10, 0, 0, 0), 10);
        CHECK("reset", reset_stream(a.socket, 5), 0);
        run_until(&a.resets_out, round);
        run_until(&b.resets_in, round);
        CHECK("B has the message", b.count, 2 * round - 1);
        CHECK("A: outgoing", a.resets_out, round);
        CHECK("B: incoming", b.resets_in, round);
        CHECK("the stream", b.last_reset, 5);
        CHECK("B resets, too", reset_stream(b.socket, 5), 0);
        run_until(&b.resets_out, round);
        run_until(&a.resets_in, round);
        CHECK("B: outgoing", b.resets_out, round);
        CHECK("A: incoming", a.resets_in, round);
        CHECK("used again", send_to(&a, 5, 51, 30, 0, 0, 0), 30);
        run(1000);
        CHECK("it came", b.count, 2 * round);
    }
    FAILS("no such stream", reset_stream(a.socket, STREAMS), EINVAL);
    CHECK("send", send_to(&a, 7, 51, 1000, 0, 0, 0), 1000);
    CHECK("two resets", reset_stream(a.socket, 7), 0);
    CHECK("at once", reset_stream(a.socket, 8), 0);
    run_until(&b.resets_in, 5);
    CHECK("both were reset", b.resets_in, 5);
    abort_ends();
}

static void test_shutdown(void) {
    connect_ends();
    CHECK("a last message", send_to(&a, 0, 51, 50000, 0, 0, 0), 50000);
    CHECK("shutdown", usrsctp_shutdown(a.socket, SHUT_WR), 0);
    FAILS("send after it", send_to(&a, 0, 51, 1, 0, 0, 0), ECONNRESET);
    run_until(&a.state_count, 2);
    run_until(&b.state_count, 2);
    CHECK("B has the message", b.count, 1);
    CHECK("its length", b.received[0].length, 50000);
    CHECK("A has ended", a.states[1], SCTP_SHUTDOWN_COMP);
    CHECK("B has ended", b.states[1], SCTP_SHUTDOWN_COMP);
    CHECK("B: SCTP_SHUTDOWN_EVENT", b.seen[SCTP_SHUTDOWN_EVENT], 1);
    CHECK("A: none", a.seen[SCTP_SHUTDOWN_EVENT], 0);
    CHECK("A: the end", a.ends, 1);
    CHECK("B: the end", b.ends, 1);
    FAILS("send at last", send_to(&a, 0, 51, 1, 0, 0, 0), ENOENT);
    FAILS("send at last", send_to(&b, 0, 51, 1, 0, 0, 0), ENOENT);
    abort_ends();
}

/* A end that reads no more hears of the end alone. */
static void test_deaf_shutdown(void) {
    connect_ends();
    CHECK("shutdown", usrsctp_shutdown(a.socket, SHUT_RDWR), 0);
    run_until(&b.state_count, 2);
    run(200);
    CHECK("B has ended", b.states[1], SCTP_SHUTDOWN_COMP);
    CHECK("A heard of the end", a.ends, 1);
    CHECK("and of nothing else", a.state_count, 1);
    abort_ends();
    connect_ends();
    CHECK("reads no more", usrsctp_shutdown(a.socket, SHUT_RD), 0);
    CHECK("send A", send_to(&a, 0, 51, 5, 0, 0, 0), 5);
    CHECK("send B", send_to(&b, 0, 51, 5, 0, 0, 0), 5);
    run(1000);
    CHECK("A's messages", a.count, 0);
    CHECK("B's messages", b.count, 1);
    abort_ends();
}

static void test_close(void) {
    connect_ends();
    CHECK("a last message", send_to(&a, 0, 51, 50000, 0, 0, 0), 50000);
    usrsctp_close(a.socket);
    run_until(&b.state_count, 2);
    CHECK("B has the message", b.count, 1);
    CHECK("B has ended", b.states[1], SCTP_SHUTDOWN_COMP);
    usrsctp_close(b.socket);
    run(5000);
    usrsctp_deregister_address(&a);
    usrsctp_deregister_address(&b);
    CHECK("A heard no more", a.state_count, 1);
}

static void test_abort(void) {
    const struct linger now = {1, 0};
    connect_ends();
    CHECK("SO_LINGER", usrsctp_setsockopt(a.socket, SOL_SOCKET, SO_LINGER, &now, sizeof now), 0);
    CHECK("in flight", send_to(&b, 0, 71, 500, 0, 0, 0), 500);
    to_lose = 1;
    step();
    usrsctp_close(a.socket);
    run(200);
    CHECK("B lost it", b.states[1], SCTP_COMM_LOST);
    CHECK("that is no shutdown", b.ends, 0);
    CHECK("send failed", b.seen[SCTP_SEND_FAILED_EVENT], 1);
    CHECK("its ppid", b.failed_ppid, 71);
    FAILS("send after it", send_to(&b, 0, 51, 1, 0, 0, 0), ENOENT);
    usrsctp_close(b.socket);
    usrsctp_deregister_address(&a);
    usrsctp_deregister_address(&b);
}

/* A waits for B. */
static void test_listen(void) {
    struct sockaddr_conn to_a = at(&b, PORT), from;
    socklen_t length = sizeof from;
    struct socket *taken;
    reset_end(&a, &b);
    reset_end(&b, &a);
    a.socket = open_socket(&a);
    b.socket = open_socket(&b);
    CHECK("listen", usrsctp_listen(a.socket, 1), 0);
    FAILS("nobody", usrsctp_accept(a.socket, NULL, NULL) ? 0 : -1, EWOULDBLOCK);
    FAILS("connect", usrsctp_connect(b.socket, (struct sockaddr *)&to_a, sizeof to_a), EINPROGRESS);
    run_until(&b.state_count, 1);
    CHECK("send", send_to(&b, 3, 51, 1000, 0, 0, 0), 1000);
    run(300);
    CHECK("A's reports", a.state_count, 1);
    CHECK("A's messages", a.count, 1);
    taken = usrsctp_accept(a.socket, (struct sockaddr *)&from, &length);
    CHECK("accept", taken != NULL, 1);
    CHECK("its name", length == sizeof from && from.sconn_addr == &a, 1);
    run(300);
    CHECK("A's reports", a.state_count, 1);
    CHECK("A's messages", a.count, 1);
    usrsctp_close(a.socket);
    a.socket = taken;
    CHECK("answer", send_to(&a, 3, 51, 2000, 0, 0, 0), 2000);
    run(300);
    CHECK("B's messages", b.count, 1);
    abort_ends();
}

static void test_options(void) {
    struct sctp_status status;
    struct sctp_paddrparams path;
    struct sctp_event event;
    struct sockaddr_conn name = at(&a, PORT);
    int number = 0;
    socklen_t length = sizeof status;
    connect_ends();
    CHECK("SCTP_STATUS", usrsctp_getsockopt(a.socket, IPPROTO_SCTP, SCTP_STATUS, &status, &length),
          0);
    CHECK("its length", length, sizeof status);
    CHECK("its state", status.sstat_state, SCTP_ESTABLISHED);
    CHECK("its streams", status.sstat_outstrms, STREAMS);
    CHECK("its streams", status.sstat_instrms, STREAMS);
    length = sizeof number;
    CHECK("SO_SNDBUF", usrsctp_getsockopt(a.socket, SOL_SOCKET, SO_SNDBUF, &number, &length), 0);
    CHECK("its value", number, LONGEST);
    length = sizeof number;
    CHECK("SO_ERROR", usrsctp_getsockopt(a.socket, SOL_SOCKET, SO_ERROR, &number, &length), 0);
    CHECK("its value", number, 0);
    memset(&event, 0, sizeof event);
    event.se_type = SCTP_ASSOC_CHANGE;
    length = sizeof event;
    CHECK("SCTP_EVENT", usrsctp_getsockopt(a.socket, IPPROTO_SCTP, SCTP_EVENT, &event, &length), 0);
    CHECK("its value", event.se_on, 1);
    memset(&path, 0, sizeof path);
    memcpy(&path.spp_address, &name, sizeof name);
    length = sizeof path;
    CHECK("SCTP_PEER_ADDR_PARAMS",
          usrsctp_getsockopt(a.socket, IPPROTO_SCTP, SCTP_PEER_ADDR_PARAMS, &path, &length), 0);
    path.spp_flags = SPP_PMTUD_DISABLE;
    path.spp_pathmtu = UINT32_MAX; /* (with the common header more than 32 bits) */
    FAILS("a path MTU that is too large",
          usrsctp_setsockopt(a.socket, IPPROTO_SCTP, SCTP_PEER_ADDR_PARAMS, &path, sizeof path),
          EINVAL);
    FAILS("connect again", usrsctp_connect(a.socket, (struct sockaddr *)&name, sizeof name),
          EADDRINUSE);
    FAILS("listen", usrsctp_listen(a.socket, 1), EINVAL);
    abort_ends();
}

static unsigned wakes;

static void wake(struct socket *socket, void *user, int flags) {
    (void)socket, (void)user, (void)flags;
    wakes++;
}

/* B has no callback: it is woken up, and reads. */
static void connect_reader(void) {
    struct sockaddr_conn to_b = at(&a, PORT), to_a = at(&b, PORT);
    reset_end(&a, &b);
    reset_end(&b, &a);
    a.socket = open_socket(&a);
    b.socket = usrsctp_socket(AF_CONN, SOCK_STREAM, IPPROTO_SCTP, NULL, NULL, 0, NULL);
    CHECK("a socket", b.socket != NULL, 1);
    CHECK("usrsctp_set_upcall", usrsctp_set_upcall(b.socket, wake, NULL), 0);
    CHECK("usrsctp_set_non_blocking", usrsctp_set_non_blocking(b.socket, 1), 0);
    CHECK("SCTP_RECVRCVINFO", set_number(b.socket, IPPROTO_SCTP, SCTP_RECVRCVINFO, 1), 0);
    CHECK("bind", usrsctp_bind(b.socket, (struct sockaddr *)&to_a, sizeof to_a), 0);
    FAILS("connect", usrsctp_connect(a.socket, (struct sockaddr *)&to_b, sizeof to_b), EINPROGRESS);
    FAILS("connect", usrsctp_connect(b.socket, (struct sockaddr *)&to_a, sizeof to_a), EINPROGRESS);
    run_until(&a.state_count, 1);
    run(200);
}

static ssize_t read_message(void *buffer, size_t capacity, struct sctp_rcvinfo *info, int *flags) {
    struct sockaddr_conn from;
    socklen_t from_length = sizeof from, info_length = sizeof *info;
    unsigned type = 0;
    ssize_t count;
    *flags = 0;
    count = usrsctp_recvv(b.socket, buffer, capacity, (struct sockaddr *)&from, &from_length, info,
                          &info_length, &type, flags);
    if (count > 0)
        CHECK("its type", type, SCTP_RECVV_RCVINFO);
    return count;
}

static void test_reading(void) {
    struct sctp_rcvinfo info;
    uint8_t buffer[1000];
    int flags;
    connect_reader();
    FAILS("nothing", read_message(buffer, sizeof buffer, &info, &flags), EWOULDBLOCK);
    wakes = 0;
    CHECK("send", send_to(&a, 3, 51, 500, 0, 0, 0), 500);
    CHECK("send", send_to(&a, 4, 52, 700, 0, 0, 0), 700);
    run(300);
    CHECK("it was woken up", wakes > 0, 1);
    CHECK("SCTP_EVENT_READ", usrsctp_get_events(b.socket) & SCTP_EVENT_READ, SCTP_EVENT_READ);
    CHECK("the first", read_message(buffer, sizeof buffer, &info, &flags), 500);
    CHECK("is whole", flags & MSG_EOR, MSG_EOR);
    CHECK("its stream", info.rcv_sid, 3);
    CHECK("its ppid", ntohl(info.rcv_ppid), 51);
    CHECK("its bytes", memcmp(buffer, payload, 500), 0);
    CHECK("a part", read_message(buffer, 400, &info, &flags), 400);
    CHECK("isn't whole", flags & MSG_EOR, 0);
    CHECK("the rest", read_message(buffer, sizeof buffer, &info, &flags), 300);
    CHECK("ends it", flags & MSG_EOR, MSG_EOR);
    CHECK("its stream", info.rcv_sid, 4);
    CHECK("its bytes", memcmp(buffer, payload + 400, 300), 0);
    FAILS("nothing", read_message(buffer, sizeof buffer, &info, &flags), EWOULDBLOCK);
    CHECK("SCTP_EVENT_READ", usrsctp_get_events(b.socket) & SCTP_EVENT_READ, 0);
    CHECK("shutdown", usrsctp_shutdown(a.socket, SHUT_WR), 0);
    run_until(&a.state_count, 2);
    run(200);
    CHECK("the end", read_message(buffer, sizeof buffer, &info, &flags), 0);
    abort_ends();
}

static void test_explicit_end(void) {
    connect_ends();
    CHECK("SCTP_EXPLICIT_EOR", set_number(a.socket, IPPROTO_SCTP, SCTP_EXPLICIT_EOR, 1), 0);
    CHECK("begin", send_to(&a, 2, 51, 1000, 0, 0, 0), 1000);
    run(300);
    CHECK("continue", send_to(&a, 2, 51, 2000, 0, 0, 0), 2000);
    run(300);
    CHECK("not yet", b.count, 0);
    CHECK("end", send_to(&a, 2, 51, 3000, SCTP_EOR, 0, 0), 3000);
    run(1000);
    CHECK("one message", b.count, 1);
    CHECK("its length", b.received[0].length, 6000);
    CHECK("all at once", send_to(&a, 2, 51, 500, SCTP_EOR, 0, 0), 500);
    run(300);
    CHECK("another", b.count, 2);
    abort_ends();
}

static void test_sender_dry(void) {
    connect_ends();
    CHECK("SCTP_SENDER_DRY_EVENT", subscribe(a.socket, SCTP_SENDER_DRY_EVENT), 0);
    run(100);
    CHECK("it is dry", a.seen[SCTP_SENDER_DRY_EVENT], 1);
    CHECK("send", send_to(&a, 0, 51, 20000, 0, 0, 0), 20000);
    run(2000);
    CHECK("dry again", a.seen[SCTP_SENDER_DRY_EVENT], 2);
    abort_ends();
}

static void test_silent_peer(void) {
    struct sockaddr_conn to_b = at(&a, PORT);
    reset_end(&a, &b);
    reset_end(&b, &a);
    a.socket = open_socket(&a);
    to_lose = 100000;
    FAILS("connect", usrsctp_connect(a.socket, (struct sockaddr *)&to_b, sizeof to_b), EINPROGRESS);
    FAILS("connect again", usrsctp_connect(a.socket, (struct sockaddr *)&to_b, sizeof to_b),
          EALREADY);
    CHECK("a message waits", send_to(&a, 0, 51, 10, 0, 0, 0), 10);
    for (int i = 0; i < 20 && !a.state_count; i++)
        run(100000);
    to_lose = 0;
    CHECK("it can't start", a.states[0], SCTP_CANT_STR_ASSOC);
    CHECK("send failed", a.seen[SCTP_SEND_FAILED_EVENT], 1);
    usrsctp_close(a.socket);
    usrsctp_deregister_address(&a);
    usrsctp_deregister_address(&b);
}

/* Packets without a sum, or with a wrong one, are as good; then such packets are refused again. */
static void test_offload(void) {
    usrsctp_enable_crc32c_offload();
    unsummed = 0;
    connect_ends();
    CHECK("a message without sums", send_to(&a, 0, 51, 5000, 0, 0, 0), 5000);
    run_until(&b.count, 1);
    CHECK("it came", b.count, 1);
    CHECK("no packet has a sum", unsummed >= 9, 1);
    abort_ends();
    usrsctp_disable_crc32c_offload();
    unsummed = 0;
    connect_ends();
    CHECK("each packet has a sum", unsummed, 0);
    abort_ends();
}

static void test_dump(void) {
    static uint8_t sample[] = {0x13, 0x88, 0x13, 0x88, 0, 0, 0, 0, 0, 0, 0, 0, '1', '2', '3'};
    char *text = usrsctp_dumppacket(sample, sizeof sample, SCTP_DUMP_OUTBOUND);
    CHECK("a dump", text != NULL, 1);
    if (!text)
        return;
    CHECK("its direction", text[0] == '\n' && text[1] == 'O', 1);
    CHECK("its time", text[5] == ':' && text[8] == ':' && text[11] == '.', 1);
    CHECK("its bytes",
          strcmp(text + 18, " 0000 13 88 13 88 00 00 00 00 00 00 00 00 31 32 33"
                            " # SCTP_PACKET\n"),
          0);
    usrsctp_freedumpbuffer(text);
    CHECK("CRC32c", usrsctp_crc32c("123456789", 9), 0xe3069283);
}

int main(void) {
    fill(payload, sizeof payload);
    usrsctp_init_nothreads(0, output, NULL);
    usrsctp_sysctl_set_sctp_ecn_enable(0);
    usrsctp_sysctl_set_sctp_asconf_enable(0);
    usrsctp_sysctl_set_sctp_auth_enable(0);
    test_socket_errors();
    test_messages();
    test_full_buffer();
    test_partial_reliability();
    test_resets();
    test_shutdown();
    test_deaf_shutdown();
    test_close();
    test_abort();
    test_listen();
    test_options();
    test_reading();
    test_explicit_end();
    test_sender_dry();
    test_silent_peer();
    test_offload();
    test_dump();
    run(10000);
    CHECK("usrsctp_finish", usrsctp_finish(), 0);
    printf("calls: %u passed, %u failed\n", passed, failed);
    return failed != 0;
}
