/* Data channels to usrsctp, in one process, with the habits of a browser; scripts/check-peers.sh
 * runs it. usrsctp has no data channels: its end sends and reads the bytes of RFC 8832.
 *
 *     with_usrsctp [LOSS]      so many packets of a hundred are lost
 */
#include "../usrsctp/sockets.h"

#include <dcsctp.h>
#include <errno.h>
#include <stdlib.h>
#include <time.h>
#include <unistd.h>

enum { STREAMS = 1024, PART = 16384, WAITING = 4096, MINUTE = 60000 };

static unsigned loss;
static uint64_t now; /* milliseconds */

/* (usrsctp's timers also read the clock of the system, so time can't be made to run) */
static uint64_t clock_now(void) {
    struct timespec time;
    clock_gettime(CLOCK_MONOTONIC, &time);
    return (uint64_t)time.tv_sec * 1000 + (uint64_t)time.tv_nsec / 1000000;
}

/* Numbers without a pattern, the same in each run. */
static unsigned next_number(unsigned below) {
    static uint32_t number = 2463534242;
    number ^= number << 13;
    number ^= number >> 17;
    number ^= number << 5;
    return number % below;
}

static void must(const char *name, int holds) {
    if (!holds) {
        printf("%s: not so, at %.1f s\n", name, (double)now / 1000);
        exit(1);
    }
}

/* ---- Packets -------------------------------------------------------------------------------- */

/* Packets of usrsctp's, which are handed in when it has returned. */
static struct packet {
    uint8_t bytes[2000];
    size_t length;
} packets[WAITING];
static size_t first_packet, last_packet;

static int output(void *address, void *bytes, size_t length, uint8_t tos, uint8_t set_df) {
    struct packet *packet = &packets[last_packet % WAITING];
    (void)address, (void)tos, (void)set_df;
    if (next_number(100) < loss || last_packet - first_packet == WAITING)
        return 0;
    must("a short packet", length <= sizeof packet->bytes);
    memcpy(packet->bytes, bytes, length);
    packet->length = length;
    last_packet++;
    return 0;
}

/* ---- usrsctp's end -------------------------------------------------------------------------- */

/* What it has to send, once it can, and what came on each stream. */
static struct theirs {
    struct socket *socket;
    struct waiting {
        uint16_t stream;
        uint32_t ppid; /* 0: the stream is to be reset */
        size_t length;
        uint8_t *bytes;
    } waiting[WAITING];
    size_t first, last;
    struct stream {
        unsigned is_open, is_echo, messages, resets, acks;
        size_t bytes, length;
        uint8_t part[PART + 1];
    } streams[STREAMS];
} theirs;

static void later(uint16_t stream, uint32_t ppid, const void *bytes, size_t length) {
    struct waiting *it = &theirs.waiting[theirs.last++ % WAITING];
    must("few things wait", theirs.last - theirs.first < WAITING);
    it->stream = stream;
    it->ppid = ppid;
    it->length = length;
    it->bytes = (uint8_t *)malloc(length + 1);
    memcpy(it->bytes, bytes, length);
}

/* Sends what waits, as far as usrsctp takes it. */
static void send_waiting(void) {
    for (; theirs.first < theirs.last; theirs.first++) {
        struct waiting *it = &theirs.waiting[theirs.first % WAITING];
        struct sctp_sndinfo info;
        memset(&info, 0, sizeof info);
        info.snd_sid = it->stream;
        info.snd_ppid = htonl(it->ppid);
        if (it->ppid == 0 ? reset_stream(theirs.socket, it->stream) < 0
                          : usrsctp_sendv(theirs.socket, it->bytes, it->length, NULL, 0, &info,
                                          sizeof info, SCTP_SENDV_SNDINFO, 0) < 0)
            return; /* it is tried again: there is no room, or another reset isn't answered */
        free(it->bytes);
    }
}

static void take_message(uint16_t id, uint32_t ppid) {
    struct stream *stream = &theirs.streams[id];
    const uint8_t ack = 2;
    if (ppid == 50 && stream->part[0] == 3) { /* OPEN (RFC 8832, section 5.1) */
        stream->is_open = 1;
        stream->is_echo = stream->length > 12 && stream->part[12] == 'e';
        stream->messages = 0;
        stream->bytes = 0;
        later(id, 50, &ack, 1);
    } else if (ppid == 50) {
        stream->acks++;
    } else {
        stream->messages++;
        stream->bytes += ppid == 56 || ppid == 57 ? 0 : stream->length;
        if (stream->is_echo)
            later(id, ppid, stream->part, stream->length);
    }
}

static void take_reset(const struct sctp_stream_reset_event *event) {
    const unsigned count = (unsigned)(event->strreset_length - sizeof *event) / 2;
    for (unsigned i = 0; i < count; i++) {
        struct stream *stream = &theirs.streams[event->strreset_stream_list[i] % STREAMS];
        if (!(event->strreset_flags & SCTP_STREAM_RESET_INCOMING_SSN))
            continue;
        stream->resets++;
        if (stream->is_open) /* it resets its own, too */
            later(event->strreset_stream_list[i], 0, "", 0);
        stream->is_open = 0;
    }
}

static int receive(struct socket *socket, union sctp_sockstore from, void *data, size_t length,
                   struct sctp_rcvinfo info, int flags, void *user) {
    (void)socket, (void)from, (void)user;
    if (!data)
        return 1;
    if (flags & MSG_NOTIFICATION) {
        const union sctp_notification *it = (const union sctp_notification *)data;
        if (it->sn_header.sn_type == SCTP_STREAM_RESET_EVENT)
            take_reset(&it->sn_strreset_event);
    } else {
        struct stream *stream = &theirs.streams[info.rcv_sid % STREAMS];
        must("a short message", stream->length + length <= sizeof stream->part);
        memcpy(stream->part + stream->length, data, length);
        stream->length += length;
        if (flags & MSG_EOR) {
            take_message(info.rcv_sid, ntohl(info.rcv_ppid));
            stream->length = 0;
        }
    }
    free(data);
    return 1;
}

static void open_theirs(uint16_t id) {
    static const uint8_t open[] = {3, 0, 1, 0, 0, 0, 0, 0, 0, 4, 0, 0, 'e', 'c', 'h', 'o'};
    theirs.streams[id].is_open = theirs.streams[id].is_echo = 1;
    theirs.streams[id].messages = 0;
    later(id, 50, open, sizeof open);
}

static void close_theirs(uint16_t id) {
    theirs.streams[id].is_open = 0;
    later(id, 0, "", 0);
}

/* ---- Our end -------------------------------------------------------------------------------- */

/* Our end, and what came: the channel of a stream, messages and their bytes, and ends. */
static dcsctp_socket ours = DCSCTP_SOCKET_INIT;
static struct seen {
    unsigned connected, opened, incoming, messages, closed, low;
    size_t bytes;
    uint64_t channels[STREAMS]; /* that the peer has opened */
    uint8_t last[PART];
} seen;

static void take_event(const dcsctp_channel_event *event) {
    const uint8_t *bytes;
    uint16_t stream;
    size_t length;
    switch (event->kind) {
    case DCSCTP_CHANNEL_EVENT_SEND_PACKET:
        must("view", dcsctp_channel_view(&ours, &bytes, &length) == DCSCTP_OK);
        if (next_number(100) >= loss)
            usrsctp_conninput(&ours, bytes, length, 0);
        break;
    case DCSCTP_CHANNEL_EVENT_INCOMING:
        must("its stream", dcsctp_channel_stream(&ours, event->channel, &stream) == DCSCTP_OK);
        seen.channels[stream % STREAMS] = event->channel;
        seen.incoming++;
        break;
    case DCSCTP_CHANNEL_EVENT_MESSAGE:
        must("view", dcsctp_channel_view(&ours, &bytes, &length) == DCSCTP_OK && length <= PART);
        memcpy(seen.last, bytes, length);
        seen.messages++;
        seen.bytes += length;
        break;
    case DCSCTP_CHANNEL_EVENT_CLOSED:
        must("by resets", event->detail == DCSCTP_CHANNEL_CLOSED_BY_RESETS);
        seen.closed++;
        break;
    default:
        must("not ended", event->kind != DCSCTP_CHANNEL_EVENT_ENDED);
        seen.connected += event->kind == DCSCTP_CHANNEL_EVENT_CONNECTED;
        seen.opened += event->kind == DCSCTP_CHANNEL_EVENT_OPENED;
        seen.low += event->kind == DCSCTP_CHANNEL_EVENT_BUFFERED_AMOUNT_LOW;
    }
}

/* Carries packets both ways, then lets time pass at both ends. */
static void turn(void) {
    const uint64_t last = now;
    dcsctp_channel_event event;
    size_t before;
    do {
        before = last_packet;
        while (dcsctp_channel_poll(&ours, &event) == 1)
            take_event(&event);
        send_waiting();
        for (; first_packet < last_packet; first_packet++) {
            const struct packet *it = &packets[first_packet % WAITING];
            must("packet", dcsctp_handle_input(&ours, it->bytes, it->length) == DCSCTP_OK);
            while (dcsctp_channel_poll(&ours, &event) == 1)
                take_event(&event);
        }
    } while (before < last_packet);
    usleep(500);
    now = clock_now();
    must("time", dcsctp_advance_time(&ours, now * 1000000) == DCSCTP_OK);
    usrsctp_handle_timers((uint32_t)(now - last));
}

/* Waits until a number is that, for a minute at most. */
static void until(const char *name, const unsigned *number, unsigned expected) {
    const uint64_t end = now + MINUTE;
    while (*number != expected && now < end)
        turn();
    if (*number != expected)
        printf("%u, not %u\n", *number, expected);
    must(name, *number == expected);
}

static uint64_t open_with(dcsctp_channel_options options) {
    uint64_t channel = 0;
    options.label = "echo";
    options.label_length = 4;
    must("open", dcsctp_channel_open(&ours, &options, &channel) == DCSCTP_OK);
    return channel;
}

static const dcsctp_channel_options PLAIN = DCSCTP_CHANNEL_OPTIONS_INIT;

static void say(uint64_t channel, uint32_t kind, const void *bytes, size_t length) {
    must("send", dcsctp_channel_send(&ours, channel, kind, (const uint8_t *)bytes, length) == 0);
}

static void close_ours(uint64_t channel) {
    must("close", dcsctp_channel_close(&ours, channel) == DCSCTP_OK);
}

static uint16_t stream_of(uint64_t channel) {
    uint16_t stream = 0;
    must("a stream", dcsctp_channel_stream(&ours, channel, &stream) == DCSCTP_OK);
    return stream;
}

static void forget(void) {
    const unsigned connected = seen.connected;
    memset(&seen, 0, sizeof seen);
    seen.connected = connected;
}

/* ---- What a browser does -------------------------------------------------------------------- */

static void opens_from_either_end(void) {
    const uint64_t channel = open_with(PLAIN);
    open_theirs(1);
    until("opened", &seen.opened, 1);
    until("incoming", &seen.incoming, 1);
    until("an ACK", &theirs.streams[1].acks, 1);
    say(channel, DCSCTP_CHANNEL_TEXT, "hello", 5);
    say(channel, DCSCTP_CHANNEL_TEXT, "", 0);
    say(channel, DCSCTP_CHANNEL_BINARY, "", 0);
    say(seen.channels[1], DCSCTP_CHANNEL_BINARY, "\0\377", 2);
    until("echoed", &seen.messages, 4);
    must("no more bytes", seen.bytes == 7 && theirs.streams[0].bytes == 5);
    close_ours(channel);
    until("closed", &seen.closed, 1);
    close_theirs(1);
    until("closed", &seen.closed, 2);
}

static void opens_again_and_again(void) {
    for (unsigned count = 1; count <= 20; count++) {
        const uint64_t channel = open_with(PLAIN);
        must("the same stream", stream_of(channel) == 0);
        say(channel, DCSCTP_CHANNEL_TEXT, "again", 5);
        until("echoed", &seen.messages, count);
        if (count % 2)
            close_ours(channel);
        else
            close_theirs(0);
        until("closed", &seen.closed, count);
    }
}

static void opens_fifty_at_once(void) {
    uint64_t channels[50];
    size_t used;
    for (uint16_t i = 0; i < 25; i++) {
        channels[i] = open_with(PLAIN);
        open_theirs((uint16_t)(2 * i + 1));
    }
    until("incoming", &seen.incoming, 25);
    until("opened", &seen.opened, 25);
    for (unsigned i = 0; i < 50; i++) {
        channels[i] = i < 25 ? channels[i] : seen.channels[2 * (i - 25) + 1];
        say(channels[i], DCSCTP_CHANNEL_TEXT, "fifty", 5);
    }
    until("echoed", &seen.messages, 50);
    for (unsigned i = 0; i < 50; i++)
        if (i % 2)
            close_ours(channels[i]);
        else
            close_theirs(stream_of(channels[i]));
    until("closed", &seen.closed, 50);
    must("count", dcsctp_channel_count(&ours, &used) == DCSCTP_OK && used == 0);
}

static void sends_a_mebibyte(void) {
    static uint8_t part[PART];
    const uint64_t channel = open_with(PLAIN);
    for (unsigned count = 1; count <= 64; count++) {
        for (size_t i = 0; i < PART; i++)
            part[i] = (uint8_t)next_number(256);
        say(channel, DCSCTP_CHANNEL_BINARY, part, PART);
        until("echoed", &seen.messages, count);
        must("as it was", memcmp(part, seen.last, PART) == 0);
    }
    close_ours(channel);
    until("closed", &seen.closed, 1);
}

/* 16 MiB, as many at once as the send buffer takes. */
static void sends_sixteen(void) {
    static const uint8_t part[PART];
    dcsctp_channel_options options = PLAIN;
    const unsigned count = loss ? 64 : 1024;
    size_t queued;
    options.is_negotiated = 1;
    options.stream = 600;
    const uint64_t channel = open_with(options);
    theirs.streams[600].is_open = 1;
    for (unsigned sent = 0; sent < count; sent++) {
        do {
            turn();
            must("queued", dcsctp_channel_buffered_amount(&ours, channel, &queued) == DCSCTP_OK);
        } while (queued > 1000000);
        say(channel, DCSCTP_CHANNEL_BINARY, part, PART);
    }
    until("all", &theirs.streams[600].messages, count);
    close_ours(channel);
    until("closed", &seen.closed, 1);
}

static void abandons_what_is_lost(void) {
    dcsctp_channel_options options = PLAIN;
    options.is_unordered = 1;
    options.reliability = DCSCTP_CHANNEL_RETRANSMISSIONS;
    const uint64_t channel = open_with(options);
    until("opened", &seen.opened, 1);
    theirs.streams[0].is_echo = 0;
    for (unsigned count = 0; count < 200; count++) {
        say(channel, DCSCTP_CHANNEL_TEXT, "fast", 4);
        turn();
    }
    close_ours(channel);
    until("closed", &seen.closed, 1);
    printf("%u of 200 arrived\n", theirs.streams[0].messages);
    must("most", theirs.streams[0].messages > 150 && theirs.streams[0].messages <= 200);
    must("all, unless some are lost", loss || theirs.streams[0].messages == 200);
}

static void start(void) {
    const dcsctp_channel_limits limits = DCSCTP_CHANNEL_LIMITS_INIT;
    struct sockaddr_conn name = at(&ours, PORT);
    const uint16_t events[] = {SCTP_ASSOC_CHANGE, SCTP_STREAM_RESET_EVENT};
    dcsctp_options options;
    uint8_t seed[32];
    usrsctp_init_nothreads(0, output, NULL);
    usrsctp_sysctl_set_sctp_rto_min_default(100);
    usrsctp_sysctl_set_sctp_rto_initial_default(300);
    usrsctp_register_address(&ours);
    theirs.socket = usrsctp_socket(AF_CONN, SOCK_STREAM, IPPROTO_SCTP, receive, NULL, 0, NULL);
    must("usrsctp's socket", theirs.socket != NULL);
    set_options(theirs.socket, STREAMS, 1 << 20);
    for (unsigned i = 0; i < 2; i++)
        must("subscribe", subscribe(theirs.socket, events[i]) == 0);
    must("bind", usrsctp_bind(theirs.socket, (struct sockaddr *)&name, sizeof name) == 0);
    must("not blocking", usrsctp_set_non_blocking(theirs.socket, 1) == 0);
    dcsctp_options_init(&options);
    must("create", dcsctp_random_seed(seed) == DCSCTP_OK &&
                       dcsctp_create(&ours, &options, seed, now * 1000000) == DCSCTP_OK &&
                       dcsctp_channel_begin(&ours, &limits) == DCSCTP_OK &&
                       dcsctp_channel_set_role(&ours, 1) == DCSCTP_OK &&
                       dcsctp_connect(&ours) == DCSCTP_OK);
    must("connect", usrsctp_connect(theirs.socket, (struct sockaddr *)&name, sizeof name) == 0 ||
                        errno == EINPROGRESS);
    until("connected", &seen.connected, 1);
}

int main(int count, char **words) {
    static const struct {
        const char *name;
        void (*run)(void);
    } steps[] = {
        {"opens from either end", opens_from_either_end},
        {"opens again and again", opens_again_and_again},
        {"opens fifty at once", opens_fifty_at_once},
        {"sends a MiB in parts", sends_a_mebibyte},
        {"sends 16 MiB on a stream agreed on", sends_sixteen},
        {"abandons what is lost", abandons_what_is_lost},
    };
    loss = count > 1 ? (unsigned)atoi(words[1]) : 0;
    now = clock_now();
    start();
    for (unsigned i = 0; i < sizeof steps / sizeof steps[0]; i++) {
        const uint64_t begin = now;
        forget();
        steps[i].run();
        printf("%s: %.1f s\n", steps[i].name, (double)(now - begin) / 1000);
        fflush(stdout);
    }
    return failed > 0;
}
