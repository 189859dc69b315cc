/* Each kind of event, each kind of error that a peer or a caller can cause, resets of streams, and
 * how an association ends. */
#include "pair.h"

static struct pair pair;

/* ---- Ends ----------------------------------------------------------------------------------- */

static void connected(void) {
    const dcsctp_options options = quiet_options();
    create_pair(&pair, &options, &options);
    EQUAL("at first", dcsctp_state(&pair.a.socket), DCSCTP_STATE_CLOSED);
    EQUAL("connect", dcsctp_connect(&pair.a.socket), DCSCTP_OK);
    EQUAL("A", dcsctp_state(&pair.a.socket), DCSCTP_STATE_CONNECTING);
    EQUAL("INIT", carry(&pair.a, &pair.b), 1);
    EQUAL("no state is kept for an INIT", dcsctp_state(&pair.b.socket), DCSCTP_STATE_CLOSED);
    EQUAL("INIT ACK", carry(&pair.b, &pair.a), 1);
    EQUAL("A", dcsctp_state(&pair.a.socket), DCSCTP_STATE_CONNECTING);
    EQUAL("COOKIE ECHO", carry(&pair.a, &pair.b), 1);
    EQUAL("B", dcsctp_state(&pair.b.socket), DCSCTP_STATE_CONNECTED);
    EQUAL("A isn't yet", pair.a.seen[DCSCTP_EVENT_CONNECTED], 0);
    EQUAL("COOKIE ACK", carry(&pair.b, &pair.a), 1);
    EQUAL("B", pair.b.seen[DCSCTP_EVENT_CONNECTED], 1);
    EQUAL("A", dcsctp_state(&pair.a.socket), DCSCTP_STATE_CONNECTED);
    EQUAL("no more packets", carry(&pair.a, &pair.b), 0);
    EQUAL("A", pair.a.seen[DCSCTP_EVENT_CONNECTED], 1);
    destroy_pair(&pair);
}

/* SHUTDOWN, SHUTDOWN ACK, SHUTDOWN COMPLETE (RFC 9260, section 9.2). */
static void shut_down(void) {
    const dcsctp_options options = quiet_options();
    connect_pair(&pair, &options, &options);
    EQUAL("shutdown", dcsctp_shutdown(&pair.a.socket), DCSCTP_OK);
    EQUAL("A", dcsctp_state(&pair.a.socket), DCSCTP_STATE_SHUTTING_DOWN);
    EQUAL("again", dcsctp_shutdown(&pair.a.socket), DCSCTP_OK);
    EQUAL("SHUTDOWN", carry(&pair.a, &pair.b), 1);
    EQUAL("its chunk type", pair.a.packet[12], 7);
    EQUAL("B", dcsctp_state(&pair.b.socket), DCSCTP_STATE_SHUTTING_DOWN);
    EQUAL("SHUTDOWN ACK", carry(&pair.b, &pair.a), 1);
    EQUAL("its chunk type", pair.b.packet[12], 8);
    EQUAL("A", dcsctp_state(&pair.a.socket), DCSCTP_STATE_CLOSED);
    EQUAL("SHUTDOWN COMPLETE", carry(&pair.a, &pair.b), 1);
    EQUAL("its chunk type", pair.a.packet[12], 14);
    EQUAL("B", dcsctp_state(&pair.b.socket), DCSCTP_STATE_CLOSED);
    settle(&pair);
    EQUAL("A is told", pair.a.seen[DCSCTP_EVENT_CLOSED], 1);
    EQUAL("B is told", pair.b.seen[DCSCTP_EVENT_CLOSED], 1);
    EQUAL("no deadline", until_deadline(&pair, &pair.a) == DCSCTP_NEVER, 1);
    /* the sockets can be used again */
    EQUAL("connect", dcsctp_connect(&pair.b.socket), DCSCTP_OK);
    settle(&pair);
    EQUAL("A", dcsctp_state(&pair.a.socket), DCSCTP_STATE_CONNECTED);
    EQUAL("B", dcsctp_state(&pair.b.socket), DCSCTP_STATE_CONNECTED);
    destroy_pair(&pair);
}

/* An ABORT (RFC 9260, section 9.1). */
static void closed(void) {
    const dcsctp_options options = quiet_options();
    connect_pair(&pair, &options, &options);
    EQUAL("close", dcsctp_close(&pair.a.socket), DCSCTP_OK);
    EQUAL("A", dcsctp_state(&pair.a.socket), DCSCTP_STATE_CLOSED);
    EQUAL("ABORT", carry(&pair.a, &pair.b), 1);
    EQUAL("its chunk type", pair.a.packet[12], 6);
    carry(&pair.b, NULL);
    EQUAL("A is told", pair.a.seen[DCSCTP_EVENT_CLOSED], 1);
    EQUAL("A isn't told more", pair.a.seen[DCSCTP_EVENT_ABORTED], 0);
    EQUAL("B is told", pair.b.seen[DCSCTP_EVENT_ABORTED], 1);
    EQUAL("kind", pair.b.last[DCSCTP_EVENT_ABORTED].error_kind, DCSCTP_KIND_PEER_REPORTED);
    EQUAL("B", dcsctp_state(&pair.b.socket), DCSCTP_STATE_CLOSED);
    destroy_pair(&pair);
}

/* A peer that has lost its state begins anew (RFC 9260, section 5.2). */
static void restarted(void) {
    const dcsctp_options options = quiet_options();
    connect_pair(&pair, &options, &options);
    dcsctp_destroy(&pair.b.socket);
    EQUAL("B", create(&pair.b, &options, 3, pair.now), DCSCTP_OK);
    EQUAL("connect", dcsctp_connect(&pair.b.socket), DCSCTP_OK);
    settle(&pair);
    EQUAL("A is told", pair.a.seen[DCSCTP_EVENT_CONNECTION_RESTARTED], 1);
    EQUAL("and that it is connected", pair.a.seen[DCSCTP_EVENT_CONNECTED], 2);
    EQUAL("B is told", pair.b.seen[DCSCTP_EVENT_CONNECTED], 1);
    EQUAL("send", send_bytes(&pair.b, 1, 10), DCSCTP_OK);
    settle(&pair);
    EQUAL("it arrives", take_messages(&pair.a, 10), 1);
    destroy_pair(&pair);
}

/* ---- Errors --------------------------------------------------------------------------------- */

/* A peer that breaks the rules: chunks of packets that are made by hand. What each says is in RFC
 * 9260, sections 3.3.1, 3.3.6 and 3.3.10. */
static void errors(void) {
    static const uint8_t error[] = {9, 0, 0, 8, 0, 13, 0, 4};
    static const uint8_t abort_chunk[] = {6, 0, 0, 4};
    static const uint8_t data_without_bytes[] = {0, 3, 0, 16, 0, 0, 0, 1, 0, 1, 0, 0, 0, 0, 0, 51};
    const dcsctp_options options = quiet_options();
    connect_pair(&pair, &options, &options);
    uint8_t own[12], wrong_tag[12];
    /* B's packets have A's tag */
    memcpy(own, pair.b.packet, 12);
    memcpy(wrong_tag, own, 12);
    wrong_tag[4] ^= 1;
    struct end *a = &pair.a;
    EQUAL("ERROR", forge(a, own, error, sizeof error), DCSCTP_OK);
    EQUAL("ERROR", take(a), DCSCTP_EVENT_ERROR);
    EQUAL("ERROR", a->last[DCSCTP_EVENT_ERROR].error_kind, DCSCTP_KIND_PEER_REPORTED);
    EQUAL("wrong tag", forge(a, wrong_tag, error, sizeof error), DCSCTP_OK);
    EQUAL("wrong tag", take(a), DCSCTP_EVENT_ERROR);
    EQUAL("wrong tag", a->last[DCSCTP_EVENT_ERROR].error_kind, DCSCTP_KIND_PARSE_FAILED);
    EQUAL("no data", forge(a, own, data_without_bytes, sizeof data_without_bytes), DCSCTP_OK);
    carry(a, NULL);
    EQUAL("no data", a->last[DCSCTP_EVENT_ERROR].error_kind, DCSCTP_KIND_PROTOCOL_VIOLATION);
    EQUAL("it goes on", dcsctp_state(&a->socket), DCSCTP_STATE_CONNECTED);
    EQUAL("no end", a->seen[DCSCTP_EVENT_ABORTED], 0);
    EQUAL("wrong tag", forge(a, wrong_tag, abort_chunk, sizeof abort_chunk), DCSCTP_OK);
    EQUAL("it goes on", dcsctp_state(&a->socket), DCSCTP_STATE_CONNECTED);
    EQUAL("ABORT", forge(a, own, abort_chunk, sizeof abort_chunk), DCSCTP_OK);
    carry(a, NULL);
    EQUAL("ABORT", dcsctp_state(&a->socket), DCSCTP_STATE_CLOSED);
    EQUAL("ABORT", a->last[DCSCTP_EVENT_ABORTED].error_kind, DCSCTP_KIND_PEER_REPORTED);
    destroy_pair(&pair);
}

/* DATA before there is an association, under the tag that the INIT of A names (RFC 9260, section
 * 3.3.2), and a message once the association is being shut down. */
static void errors_of_the_state(void) {
    static const uint8_t data[] = {0, 3, 0, 17, 0, 0, 0, 1, 0, 1, 0, 0, 0, 0, 0, 51, 7, 0, 0, 0};
    const dcsctp_options options = quiet_options();
    uint8_t own[12];
    create_pair(&pair, &options, &options);
    struct end *a = &pair.a;
    EQUAL("connect", dcsctp_connect(&a->socket), DCSCTP_OK);
    EQUAL("INIT", carry(a, &pair.b), 1);
    memcpy(own, a->packet, 12);
    memcpy(own + 4, a->packet + 16, 4);
    EQUAL("DATA", forge(a, own, data, sizeof data), DCSCTP_OK);
    EQUAL("DATA", take(a), DCSCTP_EVENT_ERROR);
    EQUAL("DATA", a->last[DCSCTP_EVENT_ERROR].error_kind, DCSCTP_KIND_NOT_CONNECTED);
    settle(&pair);
    EQUAL("it goes on", dcsctp_state(&a->socket), DCSCTP_STATE_CONNECTED);
    EQUAL("shutdown", dcsctp_shutdown(&a->socket), DCSCTP_OK);
    EQUAL("SHUTDOWN", carry(a, NULL), 1);
    EQUAL("send", send_bytes(a, 1, 10), DCSCTP_ERROR_SHUTTING_DOWN);
    EQUAL("send", take(a), DCSCTP_EVENT_ERROR);
    EQUAL("send", a->last[DCSCTP_EVENT_ERROR].error_kind, DCSCTP_KIND_WRONG_SEQUENCE);
    destroy_pair(&pair);
}

/* The text of an error, in buffers that are too small and large enough. */
static void texts(void) {
    const dcsctp_options options = quiet_options();
    uint8_t text[300];
    dcsctp_event event;
    size_t length = 0;
    create_pair(&pair, &options, &options);
    dcsctp_socket *socket = &pair.a.socket;
    EQUAL("unreadable", dcsctp_handle_input(socket, text, 0), DCSCTP_OK);
    EQUAL("an event", dcsctp_poll_event(socket, &event), 1);
    EQUAL("an error", event.kind, DCSCTP_EVENT_ERROR);
    EQUAL("it has a text", event.length > 0 && event.length < sizeof text, 1);
    memset(text, 0xff, sizeof text);
    EQUAL("too small", dcsctp_event_bytes(socket, text, event.length - 1, &length),
          DCSCTP_ERROR_BUFFER_TOO_SMALL);
    EQUAL("unwritten", text[0], 0xff);
    EQUAL("large enough", dcsctp_event_bytes(socket, text, event.length, &length), DCSCTP_OK);
    for (size_t i = 0; i < length; i++)
        EQUAL("it is written in ASCII", text[i] >= ' ' && text[i] < 127, 1);
    EQUAL("without a zero", text[length], 0xff);
    destroy_pair(&pair);
}

/* ---- What a forged packet does -------------------------------------------------------------- */

/* Without `follow_rfc` a closed socket that has sent no INIT ACK takes a cookie that is made by hand. Its
 * fields are the maker's name, the tags of both ends, their first TSNs, a window, a tie tag, what is
 * supported, a method, the streams and the moment. With it the tie tag is a secret. */
static void forged_cookie(void) {
    static const uint8_t echo[] = {10, 0, 0, 60, 'd', 'c', 'S', 'C', 'T', 'P', 'r', '0',
                                   0, 0, 0, 11, 0, 0, 0, 22, 0, 0, 0, 33, 0, 0, 0, 44,
                                   0, 1, 0, 0, 0, 0, 0, 0, 0, 0, 0, 0, 1, 0, 1, 0,
                                   0, 0, 0, 0, 255, 255, 255, 255, 0, 0, 3, 70, 48, 184, 160, 0};
    static const uint8_t header[12] = {19, 136, 19, 136, 0, 0, 0, 22};
    dcsctp_options options = quiet_options();
    for (uint32_t on = 0; on <= 1; on++) {
        options.follow_rfc = on;
        create_pair(&pair, &options, &options);
        EQUAL("COOKIE ECHO", forge(&pair.a, header, echo, sizeof echo), DCSCTP_OK);
        EQUAL("COOKIE ACK or ERROR", carry(&pair.a, NULL), 1);
        EQUAL("its chunk type", pair.a.packet[12], on ? 9 : 11);
        EQUAL("A is connected", pair.a.seen[DCSCTP_EVENT_CONNECTED], !on);
        EQUAL("it is reported", pair.a.seen[DCSCTP_EVENT_ERROR], on);
        EQUAL("with the forged tag", u32_at(pair.a.packet + 4), 11);
        destroy_pair(&pair);
    }
}

/* The tag that packets have to bear stands at the end of the text for a packet with another one. */
static void tag_in_a_text(void) {
    static const uint8_t heartbeat[] = {4, 0, 0, 4};
    const dcsctp_options options = quiet_options();
    uint8_t header[12];
    char expected[9];
    connect_pair(&pair, &options, &options);
    memcpy(header, pair.b.packet, 12);
    snprintf(expected, sizeof expected, "%08" PRIx32, u32_at(header + 4));
    header[4] ^= 1;
    EQUAL("wrong tag", forge(&pair.a, header, heartbeat, sizeof heartbeat), DCSCTP_OK);
    EQUAL("no answer", carry(&pair.a, NULL), 0);
    EQUAL("an error", pair.a.seen[DCSCTP_EVENT_ERROR], 1);
    EQUAL("the tag", strcmp(pair.a.text + strlen(pair.a.text) - 8, expected), 0);
    destroy_pair(&pair);
}

/* An INIT is answered by an INIT ACK (2), whatever the socket does, and changes nothing. */
static void inits_answered(void) {
    static const uint8_t init[] = {1, 0, 0, 20, 0, 0, 0, 9, 0, 0, 8, 0, 0, 1, 0, 1, 0, 0, 0, 1};
    static const uint8_t header[12] = {19, 136, 19, 136};
    const dcsctp_options options = quiet_options();
    for (int32_t state = DCSCTP_STATE_CLOSED; state <= DCSCTP_STATE_SHUTTING_DOWN; state++) {
        if (state < DCSCTP_STATE_CONNECTED)
            create_pair(&pair, &options, &options);
        else
            connect_pair(&pair, &options, &options);
        if (state == DCSCTP_STATE_CONNECTING)
            EQUAL("connect", dcsctp_connect(&pair.a.socket), DCSCTP_OK);
        if (state == DCSCTP_STATE_SHUTTING_DOWN)
            EQUAL("shutdown", dcsctp_shutdown(&pair.a.socket), DCSCTP_OK);
        carry(&pair.a, NULL);
        EQUAL("state", dcsctp_state(&pair.a.socket), state);
        EQUAL("INIT", forge(&pair.a, header, init, sizeof init), DCSCTP_OK);
        EQUAL("an answer", carry(&pair.a, NULL), 1);
        EQUAL("INIT ACK", pair.a.packet[12], 2);
        EQUAL("to the tag of the INIT", u32_at(pair.a.packet + 4), 9);
        EQUAL("state", dcsctp_state(&pair.a.socket), state);
        EQUAL("no event", pair.a.seen[DCSCTP_EVENT_ERROR], 0);
        destroy_pair(&pair);
    }
}

/* 290 chunks of 4 bytes in one packet: HEARTBEAT (4) or of an unknown type (193) to an open socket,
 * or SHUTDOWN ACK (8) to a closed one, under any tag. */
static void many_answers(void) {
    const struct {
        const char *name;
        uint8_t type;
        uint32_t follow_rfc;
        size_t packets;
    } rows[] = {
        {"HEARTBEAT", 4, 0, 290},
        {"HEARTBEAT, follow_rfc", 4, 1, 1},
        {"SHUTDOWN ACK", 8, 0, 290},
        {"SHUTDOWN ACK, follow_rfc", 8, 1, 1},
        {"unknown", 193, 0, 290},
        {"unknown, follow_rfc", 193, 1, 290},
    };
    static const uint8_t any_tag[12] = {19, 136, 19, 136, 1, 2, 3, 4};
    for (size_t i = 0; i < sizeof rows / sizeof rows[0]; i++) {
        dcsctp_options options = quiet_options();
        uint8_t header[12], chunks[290 * 4] = {0};
        options.follow_rfc = rows[i].follow_rfc;
        memcpy(header, any_tag, 12);
        if (rows[i].type == 8) {
            create_pair(&pair, &options, &options);
        } else {
            connect_pair(&pair, &options, &options);
            memcpy(header, pair.b.packet, 12);
        }
        for (size_t at = 0; at < sizeof chunks; at += 4) {
            chunks[at] = rows[i].type;
            chunks[at + 3] = 4;
        }
        EQUAL("one packet", forge(&pair.a, header, chunks, sizeof chunks), DCSCTP_OK);
        EQUAL(rows[i].name, carry(&pair.a, NULL), rows[i].packets);
        destroy_pair(&pair);
    }
}

/* ---- What becomes of a message -------------------------------------------------------------- */

static int32_t send_named(uint64_t name, uint32_t flags, size_t length) {
    static const uint8_t bytes[5000];
    dcsctp_send_options how = DCSCTP_SEND_INIT;
    how.lifecycle_id = name;
    how.flags = flags;
    how.lifetime = 100 * MILLISECONDS;
    how.max_retransmissions = 0;
    return dcsctp_send(&pair.a.socket, 1, 51, bytes, length, &how);
}

/* The events that named message 7 since the last time, all taken, in their order. */
static void fates(const char *name, const uint32_t *kinds, size_t count) {
    carry(&pair.a, &pair.b);
    EQUAL(name, pair.a.fate_count, count);
    for (size_t i = 0; i < count; i++) {
        EQUAL(name, pair.a.fates[i], kinds[i]);
        EQUAL(name, pair.a.last[kinds[i]].lifecycle_id, 7);
    }
    pair.a.fate_count = 0;
}

static void lifecycles(void) {
    static const uint32_t sent[] = {DCSCTP_EVENT_LIFECYCLE_FULLY_SENT};
    static const uint32_t delivered[] = {DCSCTP_EVENT_LIFECYCLE_DELIVERED,
                                         DCSCTP_EVENT_LIFECYCLE_END};
    static const uint32_t maybe[] = {DCSCTP_EVENT_LIFECYCLE_MAYBE_EXPIRED,
                                     DCSCTP_EVENT_LIFECYCLE_END};
    static const uint32_t expired[] = {DCSCTP_EVENT_LIFECYCLE_EXPIRED,
                                       DCSCTP_EVENT_LIFECYCLE_END};
    const dcsctp_options options = quiet_options();
    connect_pair(&pair, &options, &options);
    EQUAL("send", send_named(7, 0, 10), DCSCTP_OK);
    fates("sent", sent, 1);
    pass(&pair, 300 * MILLISECONDS);
    carry(&pair.b, &pair.a);
    fates("delivered", delivered, 2);
    EQUAL("send", send_named(7, DCSCTP_SEND_MAX_RETRANSMISSIONS, 10), DCSCTP_OK);
    fates("sent", sent, 1);
    carry(&pair.b, NULL);
    pass(&pair, 10 * SECONDS);
    fates("abandoned", maybe, 2);
    destroy_pair(&pair);
    /* a message whose time is over before there is a peer */
    create_pair(&pair, &options, &options);
    EQUAL("send", send_named(7, DCSCTP_SEND_LIFETIME, 10), DCSCTP_OK);
    pass(&pair, 200 * MILLISECONDS);
    EQUAL("connect", dcsctp_connect(&pair.a.socket), DCSCTP_OK);
    settle(&pair);
    fates("too late", expired, 2);
    EQUAL("it didn't arrive", take_messages(&pair.b, 10), 0);
    destroy_pair(&pair);
}

/* A message that may come out of order doesn't wait for one that is lost. */
static void unordered(void) {
    const dcsctp_options options = quiet_options();
    for (uint32_t flags = 0; flags <= DCSCTP_SEND_UNORDERED; flags++) {
        size_t count = 0;
        connect_pair(&pair, &options, &options);
        EQUAL("send", send_named(0, flags, 10), DCSCTP_OK);
        EQUAL("lost", carry(&pair.a, NULL), 1);
        EQUAL("send", send_named(0, flags, 10), DCSCTP_OK);
        EQUAL("carried", carry(&pair.a, &pair.b), 1);
        EQUAL("ready", dcsctp_messages_ready_count(&pair.b.socket, &count), DCSCTP_OK);
        EQUAL("ready", count, flags);
        destroy_pair(&pair);
    }
}

/* ---- Streams -------------------------------------------------------------------------------- */

/* A may send on 5 streams, and sends on 5, which is one too many. B, a socket of this library,
 * takes the message. A peer that follows RFC 9260, section 6.5, drops it: its SACK (3) and its ERROR
 * (9), of the cause Invalid Stream Identifier (1), are made by hand. */
static void stream_that_is_none(void) {
    uint8_t sack[] = {3, 0, 0, 16, 0, 0, 0, 0, 0, 1, 0, 0, 0, 0, 0, 0};
    static const uint8_t error[] = {9, 0, 0, 12, 0, 1, 0, 8, 0, 5, 0, 0};
    const dcsctp_send_options how = {.lifecycle_id = 7};
    dcsctp_options of_a = quiet_options(), of_b = quiet_options();
    dcsctp_message message;
    uint8_t from_b[12];
    connect_pair(&pair, &of_a, &of_b);
    EQUAL("by default", metrics_of(&pair.a).negotiated_maximum_outgoing_streams, 65535);
    destroy_pair(&pair);
    of_b.announced_maximum_incoming_streams = 5;
    connect_pair(&pair, &of_a, &of_b);
    memcpy(from_b, pair.b.packet, 12);
    EQUAL("bound", metrics_of(&pair.a).negotiated_maximum_outgoing_streams, 5);
    EQUAL("bound", metrics_of(&pair.b).negotiated_maximum_incoming_streams, 5);
    EQUAL("send", dcsctp_send(&pair.a.socket, 5, 51, (const uint8_t *)"x", 1, &how), DCSCTP_OK);
    EQUAL("DATA", carry(&pair.a, &pair.b), 1);
    EQUAL("this library takes it", dcsctp_get_next_message(&pair.b.socket, &message), 1);
    EQUAL("its stream", message.stream_id, 5);
    /* the TSN of the DATA */
    memcpy(sack + 4, pair.a.packet + 16, 4);
    EQUAL("SACK", forge(&pair.a, from_b, sack, sizeof sack), DCSCTP_OK);
    EQUAL("ERROR", forge(&pair.a, from_b, error, sizeof error), DCSCTP_OK);
    carry(&pair.a, NULL);
    EQUAL("it counts as delivered", pair.a.seen[DCSCTP_EVENT_LIFECYCLE_DELIVERED], 1);
    EQUAL("an error", pair.a.seen[DCSCTP_EVENT_ERROR], 1);
    EQUAL("kind", pair.a.last[DCSCTP_EVENT_ERROR].error_kind, DCSCTP_KIND_PEER_REPORTED);
    destroy_pair(&pair);
}

/* ---- Resets --------------------------------------------------------------------------------- */

static void streams_reset(void) {
    const dcsctp_options options = quiet_options();
    const uint16_t ids[] = {3, 65534};
    uint16_t copy[4] = {77, 77, 77, 77};
    dcsctp_event event;
    size_t count = 0;
    connect_pair(&pair, &options, &options);
    EQUAL("send", send_bytes(&pair.a, 3, 10), DCSCTP_OK);
    settle(&pair);
    EQUAL("reset", dcsctp_reset_streams(&pair.a.socket, ids, 2), DCSCTP_OK);
    EQUAL("RE-CONFIG", carry(&pair.a, &pair.b), 1);
    /* its chunk type (RFC 6525, section 3.1) */
    EQUAL("its chunk type", pair.a.packet[12], 130);
    do
        EQUAL("B has an event", dcsctp_poll_event(&pair.b.socket, &event), 1);
    while (event.kind != DCSCTP_EVENT_INCOMING_STREAM_RESET);
    EQUAL("two streams", event.length, 2);
    for (size_t capacity = 0; capacity <= 3; capacity++) {
        EQUAL("streams", dcsctp_event_streams(&pair.b.socket, copy, capacity, &count),
              capacity < 2 ? DCSCTP_ERROR_BUFFER_TOO_SMALL : DCSCTP_OK);
        EQUAL("their number", count, 2);
        EQUAL("first", copy[0], capacity < 2 ? 77 : 3);
        EQUAL("second", copy[1], capacity < 2 ? 77 : 65534);
        EQUAL("unwritten", copy[2], 77);
    }
    EQUAL("no bytes", dcsctp_event_bytes(&pair.b.socket, (uint8_t *)copy, 8, &count),
          DCSCTP_ERROR_NOTHING_TO_COPY);
    pass(&pair, 1 * SECONDS);
    settle(&pair);
    EQUAL("A is told", pair.a.seen[DCSCTP_EVENT_STREAMS_RESET_PERFORMED], 1);
    EQUAL("two streams", pair.a.last[DCSCTP_EVENT_STREAMS_RESET_PERFORMED].length, 2);
    EQUAL("first", pair.a.streams[0], 3);
    EQUAL("second", pair.a.streams[1], 65534);
    destroy_pair(&pair);
}

/* The peer refuses: the response is made by hand (RFC 6525, section 4.4; 2 is Denied). */
static void reset_refused(void) {
    const dcsctp_options options = quiet_options();
    const uint16_t ids[] = {3};
    uint8_t response[] = {130, 0, 0, 16, 0, 16, 0, 12, 0, 0, 0, 0, 0, 0, 0, 2};
    uint8_t from_b[12];
    connect_pair(&pair, &options, &options);
    memcpy(from_b, pair.b.packet, 12);
    EQUAL("reset", dcsctp_reset_streams(&pair.a.socket, ids, 1), DCSCTP_OK);
    EQUAL("RE-CONFIG", carry(&pair.a, NULL), 1);
    EQUAL("an outgoing reset (RFC 6525, section 4.1)", u16_at(pair.a.packet + 16), 13);
    memcpy(response + 8, pair.a.packet + 20, 4);
    EQUAL("response", forge(&pair.a, from_b, response, sizeof response), DCSCTP_OK);
    carry(&pair.a, NULL);
    EQUAL("A is told", pair.a.seen[DCSCTP_EVENT_STREAMS_RESET_FAILED], 1);
    EQUAL("the stream", pair.a.streams[0], 3);
    EQUAL("no more", pair.a.seen[DCSCTP_EVENT_STREAMS_RESET_PERFORMED], 0);
    destroy_pair(&pair);
}

/* A peer that doesn't reset streams: RE-CONFIG (130) is taken from the supported extensions of its
 * INIT ACK (RFC 6525, section 5.1.1; RFC 5061, section 4.2.7). */
static void resets_unsupported(void) {
    const dcsctp_options options = quiet_options();
    const uint16_t ids[] = {3};
    size_t length = 0;
    create_pair(&pair, &options, &options);
    EQUAL("connect", dcsctp_connect(&pair.a.socket), DCSCTP_OK);
    EQUAL("INIT", carry(&pair.a, &pair.b), 1);
    EQUAL("INIT ACK", carry(&pair.b, NULL), 1);
    size_t at = find_parameter(pair.b.packet, pair.b.length, 32776, &length);
    EQUAL("supported extensions", at != 0, 1);
    uint8_t *type = memchr(pair.b.packet + at, 130, length);
    EQUAL("RE-CONFIG", type != NULL, 1);
    *type = 0;
    put_checksum(pair.b.packet, pair.b.length);
    EQUAL("INIT ACK", dcsctp_handle_input(&pair.a.socket, pair.b.packet, pair.b.length), 0);
    settle(&pair);
    EQUAL("A", dcsctp_state(&pair.a.socket), DCSCTP_STATE_CONNECTED);
    EQUAL("unsupported", dcsctp_reset_streams(&pair.a.socket, ids, 1),
          DCSCTP_ERROR_NOT_SUPPORTED);
    EQUAL("nothing is sent", carry(&pair.a, NULL), 0);
    destroy_pair(&pair);
}

/* Four messages of 1,000 bytes, in a congestion window of 1,191. Two are in flight: after the first
 * there is still room. A reset drops the two that wait, unless they were sent before it. */
static void reset_while_messages_wait(void) {
    dcsctp_options options = quiet_options();
    const uint16_t ids[] = {1};
    options.cwnd_mtus_initial = 1;
    for (unsigned waits = 0; waits <= 1; waits++) {
        size_t amount = 77;
        connect_pair(&pair, &options, &options);
        for (int i = 0; i < 4; i++)
            EQUAL("send", send_named(7, 0, 1000), DCSCTP_OK);
        EQUAL("amount", dcsctp_buffered_amount(&pair.a.socket, 1, &amount), DCSCTP_OK);
        EQUAL("two wait", amount, 2000);
        if (waits) {
            settle(&pair);
            EQUAL("amount", dcsctp_buffered_amount(&pair.a.socket, 1, &amount), DCSCTP_OK);
            EQUAL("none waits", amount, 0);
        }
        EQUAL("reset", dcsctp_reset_streams(&pair.a.socket, ids, 1), DCSCTP_OK);
        settle(&pair);
        pass(&pair, 1 * SECONDS);
        settle(&pair);
        EQUAL("what arrives", take_messages(&pair.b, 1000), waits ? 4 : 2);
        EQUAL("what is dropped", pair.a.seen[DCSCTP_EVENT_LIFECYCLE_EXPIRED], waits ? 0 : 2);
        EQUAL("it is reset", pair.a.seen[DCSCTP_EVENT_STREAMS_RESET_PERFORMED], 1);
        destroy_pair(&pair);
    }
}

int main(void) {
    connected();
    shut_down();
    closed();
    restarted();
    errors();
    errors_of_the_state();
    texts();
    forged_cookie();
    tag_in_a_text();
    inits_answered();
    many_answers();
    lifecycles();
    unordered();
    stream_that_is_none();
    streams_reset();
    reset_refused();
    resets_unsupported();
    reset_while_messages_wait();
    puts("events: each comes when dcsctp.h says");
    return 0;
}
