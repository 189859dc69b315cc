/* What the tests share: a check, two sockets with a clock, and packets that are made by hand. */
#ifndef PAIR_H
#define PAIR_H

#include <dcsctp.h>

#include <inttypes.h>
#include <stdio.h>
#include <stdlib.h>
#include <string.h>

/* Ends the program unless a number is the one that is expected. `name` says what is checked. */
#define EQUAL(name, number, expected)                                                            \
    do {                                                                                         \
        int64_t number_ = (int64_t)(number), expected_ = (int64_t)(expected);                    \
        if (number_ != expected_) {                                                              \
            fprintf(stderr, "%s:%d: %s: %s is %" PRId64 ", not %" PRId64 "\n", __FILE__,         \
                    __LINE__, (name), #number, number_, expected_);                              \
            exit(1);                                                                             \
        }                                                                                        \
    } while (0)

#define MILLISECONDS UINT64_C(1000000)
#define SECONDS UINT64_C(1000000000)

/* The moment at which each test begins: an hour. */
#define BEGIN (3600 * SECONDS)

enum { LONGEST_PACKET = 65535, KINDS = 17 };

/* A socket, and what was taken from it. */
struct end {
    dcsctp_socket socket;
    size_t packets;           /* how many were taken */
    unsigned seen[KINDS];     /* how many events of each kind were taken */
    dcsctp_event last[KINDS]; /* the last one of each kind */
    uint32_t fates[8];        /* the kinds of the events that name a message, in their order */
    size_t fate_count;
    char text[300];           /* the text of the last event that has one */
    uint16_t streams[16];     /* the streams of the last event that has some */
    uint8_t packet[LONGEST_PACKET];
    size_t length;            /* of the last packet */
};

/* Two ends, and the time at both. */
struct pair {
    struct end a, b;
    uint64_t now;
};

/* The default options, without heartbeats, which would move deadlines. */
static inline dcsctp_options quiet_options(void) {
    dcsctp_options options;
    dcsctp_options_init(&options);
    options.heartbeat_interval = 0;
    return options;
}

/* Creates a socket. Tests use a seed that is known, so that each run is the same. */
static inline int32_t create(struct end *end, const dcsctp_options *options, uint8_t seed,
                             uint64_t now) {
    uint8_t seeds[32];
    memset(end, 0, sizeof *end);
    memset(seeds, seed, sizeof seeds);
    return dcsctp_create(&end->socket, options, seeds, now);
}

/* Copies what the last event has. */
static inline void copy_event(struct end *end, const dcsctp_event *event) {
    size_t length = SIZE_MAX;
    switch (event->kind) {
    case DCSCTP_EVENT_SEND_PACKET:
        EQUAL("a packet",
              dcsctp_event_bytes(&end->socket, end->packet, sizeof end->packet, &length), 0);
        EQUAL("the length of a packet", length, event->length);
        end->length = length;
        end->packets++;
        break;
    case DCSCTP_EVENT_ABORTED:
    case DCSCTP_EVENT_ERROR:
        EQUAL("a text", dcsctp_event_bytes(&end->socket, (uint8_t *)end->text, sizeof end->text - 1,
                                           &length), 0);
        EQUAL("the length of a text", length, event->length);
        end->text[length] = 0;
        break;
    case DCSCTP_EVENT_STREAMS_RESET_FAILED:
    case DCSCTP_EVENT_STREAMS_RESET_PERFORMED:
    case DCSCTP_EVENT_INCOMING_STREAM_RESET:
        EQUAL("streams", dcsctp_event_streams(&end->socket, end->streams, 16, &length), 0);
        EQUAL("the number of streams", length, event->length);
        break;
    default:
        EQUAL("an event without a list", event->length, 0);
    }
}

/* Takes an event and notes it. Returns its kind. */
static inline uint32_t take(struct end *end) {
    dcsctp_event event;
    int32_t taken = dcsctp_poll_event(&end->socket, &event);
    EQUAL("an event, or none", taken, event.kind != DCSCTP_EVENT_NONE);
    EQUAL("a kind of event", event.kind < KINDS, 1);
    EQUAL("reserved", event.reserved, 0);
    end->seen[event.kind]++;
    if (event.kind >= DCSCTP_EVENT_LIFECYCLE_FULLY_SENT && end->fate_count < 8)
        end->fates[end->fate_count++] = event.kind;
    end->last[event.kind] = event;
    copy_event(end, &event);
    return event.kind;
}

/* Takes events until a packet comes, which has to. */
static inline void take_packet(struct end *end) {
    uint32_t kind;
    while ((kind = take(end)) != DCSCTP_EVENT_SEND_PACKET)
        EQUAL("an event before the packet", kind != DCSCTP_EVENT_NONE, 1);
}

/* Takes all events of an end. Its packets go to the other end, or are lost where that is NULL.
 * Returns how many packets there were. */
static inline size_t carry(struct end *from, struct end *to) {
    size_t before = from->packets;
    uint32_t kind;
    while ((kind = take(from)) != DCSCTP_EVENT_NONE)
        if (kind == DCSCTP_EVENT_SEND_PACKET && to)
            EQUAL("a packet that is handled",
                  dcsctp_handle_input(&to->socket, from->packet, from->length), 0);
    return from->packets - before;
}

/* Carries packets both ways until none is left. */
static inline void settle(struct pair *pair) {
    while (carry(&pair->a, &pair->b) + carry(&pair->b, &pair->a) > 0)
        ;
}

/* Tells both ends the time. */
static inline void pass(struct pair *pair, uint64_t nanoseconds) {
    pair->now += nanoseconds;
    EQUAL("the time at A", dcsctp_advance_time(&pair->a.socket, pair->now), 0);
    EQUAL("the time at B", dcsctp_advance_time(&pair->b.socket, pair->now), 0);
}

/* How long it is until the deadline of an end. */
static inline uint64_t until_deadline(struct pair *pair, struct end *end) {
    uint64_t deadline = 0;
    EQUAL("a deadline", dcsctp_poll_timeout(&end->socket, &deadline), 0);
    return deadline == DCSCTP_NEVER ? DCSCTP_NEVER : deadline - pair->now;
}

/* Creates two sockets. */
static inline void create_pair(struct pair *pair, const dcsctp_options *of_a,
                               const dcsctp_options *of_b) {
    pair->now = BEGIN;
    EQUAL("A", create(&pair->a, of_a, 1, BEGIN), 0);
    EQUAL("B", create(&pair->b, of_b, 2, BEGIN), 0);
}

/* Creates two sockets, and connects them. */
static inline void connect_pair(struct pair *pair, const dcsctp_options *of_a,
                                const dcsctp_options *of_b) {
    create_pair(pair, of_a, of_b);
    EQUAL("connect", dcsctp_connect(&pair->a.socket), 0);
    settle(pair);
    EQUAL("A is connected", pair->a.seen[DCSCTP_EVENT_CONNECTED], 1);
    EQUAL("B is connected", pair->b.seen[DCSCTP_EVENT_CONNECTED], 1);
}

static inline void destroy_pair(struct pair *pair) {
    dcsctp_destroy(&pair->a.socket);
    dcsctp_destroy(&pair->b.socket);
}

/* Sends so many bytes in order. */
static inline int32_t send_bytes(struct end *end, uint16_t stream_id, size_t length) {
    static const uint8_t zeros[300000];
    const dcsctp_send_options how = DCSCTP_SEND_INIT;
    return dcsctp_send(&end->socket, stream_id, 51, zeros, length, &how);
}

/* How many messages can be taken, each of which has to have this length. */
static inline size_t take_messages(struct end *end, size_t length) {
    dcsctp_message message;
    size_t count = 0;
    while (dcsctp_get_next_message(&end->socket, &message) == 1) {
        EQUAL("the length of a message", message.length, length);
        count++;
    }
    return count;
}

static inline dcsctp_metrics metrics_of(struct end *end) {
    dcsctp_metrics metrics;
    metrics.size = sizeof metrics;
    EQUAL("metrics", dcsctp_get_metrics(&end->socket, &metrics), 1);
    return metrics;
}

/* How long the heartbeat interval of this end runs: with `follow_rfc` half of `rto_initial` longer, and
 * as many 65,536ths of it as the last 16 bits of the end's own tag say. */
static inline uint64_t heartbeat_wait(struct end *end, const dcsctp_options *options) {
    uint32_t tag;
    EQUAL("tag", dcsctp_verification_tag(&end->socket, &tag), DCSCTP_OK);
    if (!options->follow_rfc) {
        return options->heartbeat_interval;
    }
    return options->heartbeat_interval + options->rto_initial / 2
           + options->rto_initial / 65536 * (tag % 65536);
}

/* ---- Packets by hand ------------------------------------------------------------------------ */

static inline uint32_t u16_at(const uint8_t *bytes) {
    return (uint32_t)bytes[0] << 8 | bytes[1];
}

static inline uint32_t u32_at(const uint8_t *bytes) {
    return u16_at(bytes) << 16 | u16_at(bytes + 2);
}

static inline void put_u16(uint8_t *bytes, uint32_t number) {
    bytes[0] = (uint8_t)(number >> 8);
    bytes[1] = (uint8_t)number;
}

static inline void put_u32(uint8_t *bytes, uint32_t number) {
    put_u16(bytes, number >> 16);
    put_u16(bytes + 2, number);
}

/* The CRC32c of bytes (RFC 9260, appendix A), bit by bit. */
static inline uint32_t crc32c(const uint8_t *bytes, size_t length) {
    uint32_t crc = 0xffffffff;
    for (size_t i = 0; i < length; i++) {
        crc ^= bytes[i];
        for (int bit = 0; bit < 8; bit++)
            crc = crc & 1 ? crc >> 1 ^ 0x82f63b78 : crc >> 1;
    }
    return ~crc;
}

/* Puts its CRC32c into the header of a packet. */
static inline void put_checksum(uint8_t *packet, size_t length) {
    memset(packet + 8, 0, 4);
    uint32_t crc = crc32c(packet, length);
    for (int i = 0; i < 4; i++)
        packet[8 + i] = (uint8_t)(crc >> 8 * i);
}

/* Puts the right check value at the end of a snapshot that was changed. */
static inline void put_check_value(uint8_t *snapshot, size_t length) {
    put_u32(snapshot + length - 4, crc32c(snapshot, length - 4));
}

/* Hands an end a packet with one chunk. `sample` is a packet that came from its peer, or 12 bytes
 * of its own making: ports and verification tag are taken from there. */
static inline int32_t forge(struct end *to, const uint8_t *sample, const uint8_t *chunk,
                            size_t length) {
    uint8_t packet[1500];
    memcpy(packet, sample, 12);
    memcpy(packet + 12, chunk, length);
    put_checksum(packet, 12 + length);
    return dcsctp_handle_input(&to->socket, packet, 12 + length);
}

/* Where the value of a parameter of an INIT or INIT ACK begins (RFC 9260, section 3.2.1), which is
 * the first chunk of a packet; 0 where it isn't there. Its length is written. */
static inline size_t find_parameter(const uint8_t *packet, size_t length, uint32_t type,
                                    size_t *value_length) {
    size_t end = 12 + u16_at(packet + 14), at = 12 + 20;
    while (end <= length && at + 4 <= end) {
        size_t own = u16_at(packet + at + 2);
        if (u16_at(packet + at) == type) {
            *value_length = own - 4;
            return at + 4;
        }
        at += (own + 3) / 4 * 4;
    }
    return 0;
}

#endif
