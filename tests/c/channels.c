/* Data channels, by the bytes of RFC 8832, and the streams, PPIDs and resets of RFC 8831. A peer is
 * another socket with channels, or one without that sends what a test says. Each test runs with
 * `follow_rfc` and without it. */
#include "pair.h"

enum { DATA = 0, RECONFIG = 130, FORWARD_TSN = 192, UNORDERED = 4, WHOLE = 3, MOST_EVENTS = 400 };

/* A chunk of data, or a request to reset a stream (RFC 6525, section 4.1), that was sent. */
struct chunk {
    uint32_t type, flags, stream, ppid;
    size_t length;
    uint8_t bytes[64];
};

/* One end, what it took, and what it has sent. */
struct party {
    struct end end;
    struct party *peer;
    dcsctp_channel_event events[MOST_EVENTS]; /* but for packets */
    size_t event_count;
    dcsctp_channel_options options; /* of the last INCOMING, whose texts are copied */
    char label[32], protocol[32];
    uint8_t bytes[4000]; /* of the last message */
    struct chunk chunks[64];
    size_t chunk_count;
    unsigned packets;
    uint8_t header[12]; /* of the last packet */
    uint32_t first_tsn; /* of the first chunk of data */
    int is_raw;         /* it has no channels */
    int is_losing;      /* its packets are lost */
    uint32_t loss;      /* so many of a hundred are lost, by chance */
};

static struct party a, b;
static uint64_t now;
static uint32_t follow_rfc;

/* Numbers without a pattern, the same in each run. */
static uint32_t next_number(void) {
    static uint32_t number = 2463534242;
    number ^= number << 13;
    number ^= number >> 17;
    number ^= number << 5;
    return number;
}

/* ---- What an end sends ---------------------------------------------------------------------- */

static size_t count_of(const struct party *party, uint32_t type) {
    size_t count = 0;
    for (size_t i = 0; i < party->chunk_count; i++)
        count += party->chunks[i].type == type;
    return count;
}

static void note_chunk(struct party *party, const uint8_t *at, size_t length) {
    struct chunk *chunk = &party->chunks[party->chunk_count];
    const uint8_t *value;
    if (party->chunk_count == 64)
        return;
    memset(chunk, 0, sizeof *chunk);
    chunk->type = at[0];
    chunk->flags = at[1];
    if (chunk->type == DATA) {
        if (party->first_tsn == 0)
            party->first_tsn = u32_at(at + 4);
        chunk->stream = u16_at(at + 8);
        chunk->ppid = u32_at(at + 12);
        value = at + 16;
    } else if (chunk->type == RECONFIG && u16_at(at + 4) == 13) {
        chunk->stream = length == 22 ? u16_at(at + 20) : 0xffff;
        value = at + 20;
    } else if (chunk->type == FORWARD_TSN) {
        value = at + 4;
    } else {
        return;
    }
    chunk->length = length - (size_t)(value - at);
    memcpy(chunk->bytes, value, chunk->length < 64 ? chunk->length : 64);
    party->chunk_count++;
}

static void send_packet(struct party *party, const uint8_t *packet, size_t length) {
    for (size_t at = 12; at + 4 <= length; at += (u16_at(packet + at + 2) + 3) / 4 * 4)
        note_chunk(party, packet + at, u16_at(packet + at + 2));
    memcpy(party->header, packet, sizeof party->header);
    party->packets++;
    if (!party->is_losing && next_number() % 100 >= party->loss)
        EQUAL("handled", dcsctp_handle_input(&party->peer->end.socket, packet, length), 0);
}

/* The last chunk of a type, or one of nothing. */
static struct chunk last_of(const struct party *party, uint32_t type) {
    static const struct chunk none;
    for (size_t i = party->chunk_count; i > 0; i--)
        if (party->chunks[i - 1].type == type)
            return party->chunks[i - 1];
    return none;
}

/* The last chunk of data is a whole message, and is as the standards say. */
static void sent(const char *name, const struct party *party, struct chunk expected) {
    const struct chunk chunk = last_of(party, DATA);
    EQUAL(name, chunk.stream, expected.stream);
    EQUAL(name, chunk.ppid, expected.ppid);
    EQUAL(name, chunk.flags & 7, expected.flags);
    EQUAL(name, chunk.length, expected.length);
    EQUAL(name, memcmp(chunk.bytes, expected.bytes, expected.length), 0);
}

/* ---- What an end takes ---------------------------------------------------------------------- */

static void copy_text(char *to, const char *from, size_t length) {
    EQUAL("a short text", length < 32, 1);
    memcpy(to, from, length);
    to[length] = 0;
}

static void note_options(struct party *party) {
    dcsctp_channel_options *options = &party->options;
    options->size = sizeof *options;
    EQUAL("options", dcsctp_channel_get_options(&party->end.socket, options), 0);
    copy_text(party->label, options->label, options->label_length);
    copy_text(party->protocol, options->protocol, options->protocol_length);
    EQUAL("not negotiated", options->is_negotiated + options->stream + options->reserved, 0);
}

/* A message can be copied, and can be seen where it is. */
static void note_message(struct party *party, const dcsctp_channel_event *event) {
    const uint8_t *view;
    size_t length = 77;
    EQUAL("bytes", dcsctp_channel_bytes(&party->end.socket, party->bytes, sizeof party->bytes,
                                        &length), 0);
    EQUAL("length", length, event->length);
    EQUAL("view", dcsctp_channel_view(&party->end.socket, &view, &length), 0);
    EQUAL("length", length, event->length);
    EQUAL("the same", memcmp(view, party->bytes, length), 0);
}

/* Takes all that an end with channels has. */
static void take_all(struct party *party) {
    dcsctp_channel_event event;
    const uint8_t *packet;
    size_t length;
    int32_t taken;
    while ((taken = dcsctp_channel_poll(&party->end.socket, &event)) == 1) {
        if (event.kind == DCSCTP_CHANNEL_EVENT_SEND_PACKET) {
            EQUAL("a packet", dcsctp_channel_view(&party->end.socket, &packet, &length), 0);
            EQUAL("its length", length, event.length);
            send_packet(party, packet, length);
            continue;
        }
        if (event.kind == DCSCTP_CHANNEL_EVENT_INCOMING)
            note_options(party);
        if (event.kind == DCSCTP_CHANNEL_EVENT_MESSAGE)
            note_message(party, &event);
        EQUAL("few events", party->event_count < MOST_EVENTS, 1);
        party->events[party->event_count++] = event;
    }
    EQUAL("taken", taken, 0);
    EQUAL("nothing", event.kind + event.channel + event.length + event.detail, 0);
}

static unsigned events_of(const struct party *party, uint32_t kind) {
    unsigned count = 0;
    for (size_t i = 0; i < party->event_count; i++)
        count += party->events[i].kind == kind;
    return count;
}

/* The last event of a kind, which has to be there. */
static dcsctp_channel_event last_event(const struct party *party, uint32_t kind) {
    size_t i = party->event_count;
    while (i > 0 && party->events[i - 1].kind != kind)
        i--;
    EQUAL("such an event", i > 0, 1);
    return party->events[i - 1];
}

static unsigned opened(const struct party *party) {
    return events_of(party, DCSCTP_CHANNEL_EVENT_OPENED);
}

static unsigned incoming(const struct party *party) {
    return events_of(party, DCSCTP_CHANNEL_EVENT_INCOMING);
}

static unsigned messages(const struct party *party) {
    return events_of(party, DCSCTP_CHANNEL_EVENT_MESSAGE);
}

static unsigned closed(const struct party *party) {
    return events_of(party, DCSCTP_CHANNEL_EVENT_CLOSED);
}

/* The number of the channel that the peer opened last. */
static uint64_t came(const struct party *party) {
    return last_event(party, DCSCTP_CHANNEL_EVENT_INCOMING).channel;
}

/* ---- Two ends ------------------------------------------------------------------------------- */

/* Takes what an end has. Of one without channels the messages stay. */
static void run(struct party *party) {
    if (!party->is_raw) {
        take_all(party);
        return;
    }
    while (take(&party->end) != DCSCTP_EVENT_NONE)
        if (party->end.length > 0) {
            send_packet(party, party->end.packet, party->end.length);
            party->end.length = 0;
        }
}

static void settle_both(void) {
    unsigned before;
    do {
        before = a.packets + b.packets;
        run(&a);
        run(&b);
    } while (a.packets + b.packets > before);
}

/* Lets time pass, in steps of 50 ms. */
static void pass_time(uint64_t nanoseconds) {
    settle_both();
    for (uint64_t done = 0; done < nanoseconds; done += 50 * MILLISECONDS) {
        now += 50 * MILLISECONDS;
        EQUAL("time", dcsctp_advance_time(&a.end.socket, now), 0);
        EQUAL("time", dcsctp_advance_time(&b.end.socket, now), 0);
        settle_both();
    }
}

static const dcsctp_channel_limits DEFAULTS = DCSCTP_CHANNEL_LIMITS_INIT;

static dcsctp_options options_here(void) {
    dcsctp_options options = quiet_options();
    options.follow_rfc = follow_rfc;
    return options;
}

static void create_party(struct party *party, struct party *peer, const dcsctp_options *options,
                         uint8_t seed) {
    memset(party, 0, sizeof *party);
    EQUAL("create", create(&party->end, options, seed, BEGIN), 0);
    party->peer = peer;
}

/* Gives an end channels. A is the DTLS client, and B the server. */
static void begin(struct party *party, const dcsctp_channel_limits *limits) {
    EQUAL("begin", dcsctp_channel_begin(&party->end.socket, limits), 0);
    EQUAL("role", dcsctp_channel_set_role(&party->end.socket, party == &a), 0);
    EQUAL("time", dcsctp_advance_time(&party->end.socket, now), 0);
}

static void create_both(const dcsctp_options *of_a, const dcsctp_channel_limits *limits,
                        int is_b_raw) {
    const dcsctp_options options = options_here();
    now = BEGIN;
    create_party(&a, &b, of_a ? of_a : &options, 1);
    create_party(&b, &a, &options, 2);
    begin(&a, limits);
    if (!is_b_raw)
        begin(&b, &DEFAULTS);
    b.is_raw = is_b_raw;
}

static void connect_with(const dcsctp_options *of_a, const dcsctp_channel_limits *limits,
                         int is_b_raw) {
    create_both(of_a, limits, is_b_raw);
    EQUAL("connect", dcsctp_connect(&a.end.socket), 0);
    settle_both();
    EQUAL("connected", dcsctp_state(&b.end.socket), DCSCTP_STATE_CONNECTED);
}

static void connect_both(void) {
    connect_with(NULL, &DEFAULTS, 0);
}

static void end_both(void) {
    dcsctp_destroy(&a.end.socket);
    dcsctp_destroy(&b.end.socket);
}

static dcsctp_channel_options labelled(const char *label) {
    dcsctp_channel_options options = DCSCTP_CHANNEL_OPTIONS_INIT;
    options.label = label;
    options.label_length = strlen(label);
    return options;
}

static uint64_t open_with(struct party *party, const dcsctp_channel_options *options) {
    uint64_t channel = 0;
    EQUAL("open", dcsctp_channel_open(&party->end.socket, options, &channel), 0);
    EQUAL("a number", channel != 0, 1);
    return channel;
}

static uint64_t open_channel(struct party *party) {
    const dcsctp_channel_options options = labelled("chat");
    return open_with(party, &options);
}

static int32_t say(struct party *party, uint64_t channel, const char *text) {
    return dcsctp_channel_send(&party->end.socket, channel, DCSCTP_CHANNEL_TEXT,
                               (const uint8_t *)text, strlen(text));
}

static void close_channel(struct party *party, uint64_t channel) {
    EQUAL("close", dcsctp_channel_close(&party->end.socket, channel), 0);
}

/* The stream of a channel, or -1. */
static int stream_of(struct party *party, uint64_t channel) {
    uint16_t stream = 7;
    const int32_t result = dcsctp_channel_stream(&party->end.socket, channel, &stream);
    EQUAL("no stream", result == 0 || (result == DCSCTP_ERROR_NO_CHANNEL && stream == 7), 1);
    return result == 0 ? stream : -1;
}

static int32_t state_of(struct party *party, uint64_t channel) {
    return dcsctp_channel_state(&party->end.socket, channel);
}

static size_t streams_in_use(struct party *party) {
    size_t count;
    EQUAL("count", dcsctp_channel_count(&party->end.socket, &count), 0);
    return count;
}

/* Sends what a test says, past the channels. */
static void send_raw(struct party *party, uint16_t stream, uint32_t ppid, const void *bytes,
                     size_t length) {
    const dcsctp_send_options how = DCSCTP_SEND_INIT;
    EQUAL("send", dcsctp_send(&party->end.socket, stream, ppid, (const uint8_t *)bytes, length,
                              &how), 0);
    pass_time(SECONDS);
}

static void reset_raw(struct party *party, uint16_t stream) {
    EQUAL("reset", dcsctp_reset_streams(&party->end.socket, &stream, 1), 0);
    pass_time(2 * SECONDS);
}

/* ---- Opening -------------------------------------------------------------------------------- */

/* The bytes of DATA_CHANNEL_OPEN and DATA_CHANNEL_ACK (RFC 8832, sections 5.1 and 5.2). */
static void open_and_ack_are_the_bytes_of_the_standard(void) {
    const size_t size = sizeof(dcsctp_channel_options);
    const struct {
        const char *name;
        dcsctp_channel_options options;
        uint8_t bytes[24];
        size_t length;
    } rows[] = {
        {"reliable", {size, "chat", 4, "", 0, 0, 256, 0, 0, 0, 0, 0},
         {3, 0, 1, 0, 0, 0, 0, 0, 0, 4, 0, 0, 'c', 'h', 'a', 't'}, 16},
        {"unordered, three retransmissions", {size, "ab", 2, "xyz", 3, 3, 512, 1, 1, 0, 0, 0},
         {3, 0x81, 2, 0, 0, 0, 0, 3, 0, 2, 0, 3, 'a', 'b', 'x', 'y', 'z'}, 17},
        {"a lifetime of 66,051 ms", {size, "", 0, "p", 1, 66051, 128, 2, 0, 0, 0, 0},
         {3, 2, 0, 128, 0, 1, 2, 3, 0, 0, 0, 1, 'p'}, 13},
        {"no texts", {size, "", 0, "", 0, 0, 1024, 0, 77, 0, 0, 0},
         {3, 0x80, 4, 0, 0, 0, 0, 0, 0, 0, 0, 0}, 12},
        {"a limit that is none", {size, "", 0, "", 0, 9, 256, 0, 0, 0, 0, 0},
         {3, 0, 1, 0, 0, 0, 0, 0, 0, 0, 0, 0}, 12},
    };
    connect_both();
    for (uint32_t i = 0; i < 5; i++) {
        const dcsctp_channel_options *given = &rows[i].options;
        struct chunk expected = {DATA, WHOLE, 2 * i, 50, rows[i].length, {0}};
        const struct chunk ack = {DATA, WHOLE, 2 * i, 50, 1, {2}};
        memcpy(expected.bytes, rows[i].bytes, sizeof rows[i].bytes);
        const uint64_t channel = open_with(&a, given);
        EQUAL("may send", state_of(&a, channel), DCSCTP_CHANNEL_OPEN);
        run(&a);
        sent(rows[i].name, &a, expected);
        EQUAL("not before its ACK", opened(&a), i);
        settle_both();
        sent("ACK", &b, ack);
        EQUAL("opened", opened(&a), i + 1);
        EQUAL("this one", last_event(&a, DCSCTP_CHANNEL_EVENT_OPENED).channel, channel);
        EQUAL("opened by the peer", incoming(&b), i + 1);
        EQUAL(rows[i].name, stream_of(&a, channel), 2 * i);
        EQUAL(rows[i].name, stream_of(&b, came(&b)), 2 * i);
        EQUAL(rows[i].name, b.options.reliability, given->reliability);
        EQUAL(rows[i].name, b.options.limit, given->reliability ? given->limit : 0);
        EQUAL(rows[i].name, b.options.priority, given->priority);
        EQUAL(rows[i].name, b.options.is_unordered, given->is_unordered != 0);
        EQUAL(rows[i].name, strcmp(b.label, given->label), 0);
        EQUAL(rows[i].name, strcmp(b.protocol, given->protocol), 0);
    }
    EQUAL("in use", streams_in_use(&a), 5);
    EQUAL("in use", streams_in_use(&b), 5);
    end_both();
}

/* Streams of the DTLS client are even, those of the server odd (RFC 8832, section 6), and below the
 * number of streams. */
static void client_has_even_streams_and_the_server_odd_ones(void) {
    dcsctp_options options = options_here();
    options.announced_maximum_outgoing_streams = 4;
    options.announced_maximum_incoming_streams = 4;
    connect_with(&options, &DEFAULTS, 0);
    EQUAL("client", stream_of(&a, open_channel(&a)), 0);
    EQUAL("server", stream_of(&b, open_channel(&b)), 1);
    EQUAL("client", stream_of(&a, open_channel(&a)), 2);
    EQUAL("server", stream_of(&b, open_channel(&b)), 3);
    const uint64_t none = open_channel(&a);
    run(&a);
    EQUAL("no stream is left", last_event(&a, DCSCTP_CHANNEL_EVENT_CLOSED).channel, none);
    EQUAL("why", last_event(&a, DCSCTP_CHANNEL_EVENT_CLOSED).detail, DCSCTP_CHANNEL_NO_STREAM);
    open_channel(&b);
    pass_time(SECONDS);
    EQUAL("why", last_event(&b, DCSCTP_CHANNEL_EVENT_CLOSED).detail, DCSCTP_CHANNEL_NO_STREAM);
    EQUAL("opened", opened(&a), 2);
    EQUAL("opened", opened(&b), 2);
    EQUAL("one end", closed(&a), 1);
    end_both();
}

/* Before the association a channel waits, and so before the role is known. Until then what the peer
 * opens is refused. */
static void channel_waits_for_the_association_and_the_role(void) {
    const dcsctp_options options = options_here();
    now = BEGIN;
    create_party(&a, &b, &options, 1);
    create_party(&b, &a, &options, 2);
    EQUAL("begin", dcsctp_channel_begin(&a.end.socket, &DEFAULTS), 0);
    begin(&b, &DEFAULTS);
    const uint64_t first = open_channel(&a), second = open_channel(&a), of_b = open_channel(&b);
    EQUAL("it waits", state_of(&a, first), DCSCTP_CHANNEL_CONNECTING);
    EQUAL("no stream", stream_of(&a, first), -1);
    EQUAL("nothing can be sent", say(&a, first, "early"), DCSCTP_ERROR_NO_CHANNEL);
    EQUAL("connect", dcsctp_connect(&a.end.socket), 0);
    pass_time(SECONDS);
    EQUAL("connected", events_of(&a, DCSCTP_CHANNEL_EVENT_CONNECTED), 1);
    EQUAL("connected", events_of(&b, DCSCTP_CHANNEL_EVENT_CONNECTED), 1);
    EQUAL("it still waits", state_of(&a, first), DCSCTP_CHANNEL_CONNECTING);
    EQUAL("B's is refused", last_event(&b, DCSCTP_CHANNEL_EVENT_CLOSED).channel, of_b);
    EQUAL("why", last_event(&b, DCSCTP_CHANNEL_EVENT_CLOSED).detail, DCSCTP_CHANNEL_REFUSED);
    EQUAL("one that waits can be closed", dcsctp_channel_close(&a.end.socket, second), 0);
    EQUAL("role", dcsctp_channel_set_role(&a.end.socket, 1), 0);
    EQUAL("it has its stream", stream_of(&a, first), 0);
    pass_time(SECONDS);
    EQUAL("opened", last_event(&a, DCSCTP_CHANNEL_EVENT_OPENED).channel, first);
    EQUAL("closed", last_event(&a, DCSCTP_CHANNEL_EVENT_CLOSED).channel, second);
    EQUAL("the peer never knew it", incoming(&b), 1);
    end_both();
}

/* Both ends connect, and both open two channels at once. */
static void both_ends_open_at_once(void) {
    create_both(NULL, &DEFAULTS, 0);
    for (int i = 0; i < 2; i++) {
        open_channel(&a);
        open_channel(&b);
    }
    EQUAL("connect", dcsctp_connect(&a.end.socket), 0);
    EQUAL("connect", dcsctp_connect(&b.end.socket), 0);
    pass_time(5 * SECONDS);
    EQUAL("opened", opened(&a), 2);
    EQUAL("opened", opened(&b), 2);
    EQUAL("by the peer", incoming(&a), 2);
    EQUAL("by the peer", incoming(&b), 2);
    EQUAL("the server's", stream_of(&a, came(&a)), 3);
    EQUAL("the client's", stream_of(&b, came(&b)), 2);
    EQUAL("in use", streams_in_use(&a), 4);
    EQUAL("none is closed", closed(&a) + closed(&b), 0);
    end_both();
}

/* An OPEN that breaks a rule is answered by a reset, and by no ACK (RFC 8832, section 6). */
static void wrong_open_is_refused(void) {
    const struct {
        const char *name;
        uint16_t stream;
        size_t length;
        uint8_t bytes[20];
    } rows[] = {
        {"a stream of the other role", 2, 13, {3, 0, 1, 0, 0, 0, 0, 0, 0, 1, 0, 0, 'a'}},
        {"an unknown channel type", 1, 13, {3, 3, 1, 0, 0, 0, 0, 0, 0, 1, 0, 0, 'a'}},
        {"a reserved channel type", 3, 13, {3, 0xff, 1, 0, 0, 0, 0, 0, 0, 1, 0, 0, 'a'}},
        {"cut in its head", 5, 11, {3, 0, 1, 0, 0, 0, 0, 0, 0, 0, 0}},
        {"cut in its label", 7, 13, {3, 0, 1, 0, 0, 0, 0, 0, 0, 2, 0, 0, 'a'}},
        {"cut in its protocol", 9, 14, {3, 0, 1, 0, 0, 0, 0, 0, 0, 1, 0, 2, 'a', 'b'}},
        {"an unknown message type", 11, 1, {4}},
        {"a message without a channel", 13, 1, {'x'}},
    };
    connect_with(NULL, &DEFAULTS, 1);
    for (size_t i = 0; i < sizeof rows / sizeof rows[0]; i++) {
        send_raw(&b, rows[i].stream, i == 7 ? 51 : 50, rows[i].bytes, rows[i].length);
        EQUAL(rows[i].name, count_of(&a, RECONFIG), i + 1);
        EQUAL(rows[i].name, last_of(&a, RECONFIG).stream, rows[i].stream);
        EQUAL(rows[i].name, count_of(&a, DATA), 0);
        EQUAL(rows[i].name, incoming(&a), 0);
        EQUAL(rows[i].name, b.end.seen[DCSCTP_EVENT_INCOMING_STREAM_RESET], i + 1);
        EQUAL("it is in use until the peer resets it", streams_in_use(&a), i + 1);
    }
    EQUAL("no channel", messages(&a) + closed(&a), 0);
    end_both();
}

/* Limits: of channels, of texts, and of a message. */
static void peer_is_limited(void) {
    static const uint8_t zeros[11];
    static const uint8_t open[] = {3, 0, 0, 0, 0, 0, 0, 0, 0, 2, 0, 3, 'a', 'b', 'x', 'y', 'z'};
    static const uint8_t longer[] = {3, 0, 1, 0, 0, 0, 0, 0, 0, 3, 0, 3, 'a', 'b', 'c', 'x', 'y', 'z'};
    const dcsctp_channel_limits limits = {sizeof limits, 10, 5, 3};
    connect_with(NULL, &limits, 1);
    send_raw(&b, 1, 50, open, 17);
    EQUAL("five bytes of text", incoming(&a), 1);
    EQUAL("a priority of 0 is told", a.options.priority, 0);
    send_raw(&b, 3, 50, longer, 18);
    EQUAL("six bytes of text", incoming(&a), 1);
    EQUAL("it is refused", last_of(&a, RECONFIG).stream, 3);
    reset_raw(&b, 3);
    EQUAL("one is in use", streams_in_use(&a), 1);
    send_raw(&b, 5, 50, open, 17);
    send_raw(&b, 7, 50, open, 17);
    EQUAL("three channels", incoming(&a), 3);
    send_raw(&b, 9, 50, open, 17);
    EQUAL("no fourth", incoming(&a), 3);
    EQUAL("it is refused", last_of(&a, RECONFIG).stream, 9);
    send_raw(&b, 1, 53, zeros, 10);
    EQUAL("ten bytes", last_event(&a, DCSCTP_CHANNEL_EVENT_MESSAGE).length, 10);
    send_raw(&b, 1, 53, zeros, 11);
    EQUAL("eleven bytes", messages(&a), 1);
    EQUAL("its channel closes", last_of(&a, RECONFIG).stream, 1);
    send_raw(&b, 5, 50, open, 17);
    EQUAL("opened twice: it closes", last_of(&a, RECONFIG).stream, 5);
    EQUAL("it isn't closed before the peer", closed(&a), 0);
    end_both();
}

/* Some peers send an ACK of four bytes. */
static void ack_of_four_bytes_is_one(void) {
    connect_with(NULL, &DEFAULTS, 1);
    open_channel(&a);
    pass_time(SECONDS);
    EQUAL("not yet", opened(&a), 0);
    send_raw(&b, 0, 50, "\2\0\0\0", 4);
    EQUAL("opened", opened(&a), 1);
    send_raw(&b, 0, 50, "\2", 1);
    EQUAL("opened once", opened(&a), 1);
    send_raw(&b, 4, 50, "\2", 1);
    EQUAL("an ACK of nothing", count_of(&a, RECONFIG), 0);
    end_both();
}

/* A channel is refused by a reset in place of an ACK. */
static void refused_channel_is_closed(void) {
    connect_with(NULL, &DEFAULTS, 1);
    const uint64_t channel = open_channel(&a);
    pass_time(SECONDS);
    reset_raw(&b, 0);
    EQUAL("A resets its own, too", last_of(&a, RECONFIG).stream, 0);
    EQUAL("never opened", opened(&a), 0);
    EQUAL("closed", last_event(&a, DCSCTP_CHANNEL_EVENT_CLOSED).channel, channel);
    EQUAL("why", last_event(&a, DCSCTP_CHANNEL_EVENT_CLOSED).detail, DCSCTP_CHANNEL_REFUSED);
    EQUAL("its stream is free", stream_of(&a, open_channel(&a)), 0);
    end_both();
}

/* Both ends open a channel on a stream that they agreed on. No OPEN is sent. */
static void negotiated_channel_needs_no_open(void) {
    dcsctp_channel_options agreed = labelled("agreed");
    uint64_t other = 77;
    agreed.is_negotiated = 1;
    agreed.stream = 1000;
    connect_both();
    const uint64_t of_a = open_with(&a, &agreed), of_b = open_with(&b, &agreed);
    pass_time(SECONDS);
    EQUAL("nothing is sent", count_of(&a, DATA) + count_of(&b, DATA), 0);
    EQUAL("opened", last_event(&a, DCSCTP_CHANNEL_EVENT_OPENED).channel, of_a);
    EQUAL("stream", stream_of(&a, of_a), 1000);
    EQUAL("in use", dcsctp_channel_open(&a.end.socket, &agreed, &other),
          DCSCTP_ERROR_STREAM_IN_USE);
    EQUAL("no number", other, 77);
    EQUAL("send", say(&a, of_a, "hello"), 0);
    pass_time(SECONDS);
    EQUAL("read", last_event(&b, DCSCTP_CHANNEL_EVENT_MESSAGE).channel, of_b);
    EQUAL("nothing else", incoming(&a) + incoming(&b), 0);
    close_channel(&b, of_b);
    pass_time(2 * SECONDS);
    EQUAL("closed", last_event(&a, DCSCTP_CHANNEL_EVENT_CLOSED).channel, of_a);
    EQUAL("it may be agreed on again", stream_of(&a, open_with(&a, &agreed)), 1000);
    end_both();
}

/* ---- Messages ------------------------------------------------------------------------------- */

static void told(const char *name, const struct party *party, uint64_t channel, uint32_t kind,
                 const void *bytes, size_t length) {
    const dcsctp_channel_event event = last_event(party, DCSCTP_CHANNEL_EVENT_MESSAGE);
    EQUAL(name, event.channel, channel);
    EQUAL(name, event.detail, kind);
    EQUAL(name, event.length, length);
    EQUAL(name, memcmp(party->bytes, bytes, length), 0);
}

/* PPIDs (RFC 8831, section 8). An empty message is one byte (section 6.6). */
static void messages_have_the_ppids_of_the_standard(void) {
    const struct {
        uint32_t kind;
        struct chunk chunk;
        size_t length;
    } rows[] = {
        {DCSCTP_CHANNEL_TEXT, {DATA, WHOLE, 0, 51, 2, {'h', 'i'}}, 2},
        {DCSCTP_CHANNEL_BINARY, {DATA, WHOLE, 0, 53, 3, {0, 1, 255}}, 3},
        {DCSCTP_CHANNEL_TEXT, {DATA, WHOLE, 0, 56, 1, {0}}, 0},
        {DCSCTP_CHANNEL_BINARY, {DATA, WHOLE, 0, 57, 1, {0}}, 0},
    };
    connect_both();
    const uint64_t channel = open_channel(&a);
    pass_time(SECONDS);
    for (unsigned i = 0; i < 4; i++) {
        EQUAL("send", dcsctp_channel_send(&a.end.socket, channel, rows[i].kind,
                                          rows[i].chunk.bytes, rows[i].length), 0);
        settle_both();
        sent("as the standard says", &a, rows[i].chunk);
        told("read", &b, came(&b), rows[i].kind, rows[i].chunk.bytes, rows[i].length);
        EQUAL("each once", messages(&b), i + 1);
    }
    const uint32_t before = b.packets;
    EQUAL("no such kind", dcsctp_channel_send(&a.end.socket, channel, 3, rows[0].chunk.bytes, 2),
          DCSCTP_ERROR_INVALID_SEND_OPTIONS);
    EQUAL("no such kind", dcsctp_channel_send(&a.end.socket, channel, 0, rows[0].chunk.bytes, 2),
          DCSCTP_ERROR_INVALID_SEND_OPTIONS);
    settle_both();
    EQUAL("nothing is sent", b.packets, before);
    end_both();
    /* whatever the bytes of an empty message are, it is empty */
    connect_with(NULL, &DEFAULTS, 1);
    const uint64_t other = open_channel(&a);
    pass_time(SECONDS);
    send_raw(&b, 0, 56, "abc", 3);
    told("empty", &a, other, DCSCTP_CHANNEL_TEXT, "", 0);
    send_raw(&b, 0, 57, "abc", 3);
    told("empty", &a, other, DCSCTP_CHANNEL_BINARY, "", 0);
    EQUAL("a message says as much as an ACK", opened(&a), 1);
    end_both();
}

/* A message that is none of these closes its channel (RFC 8831, section 6.6). */
static void wrong_message_closes_the_channel(void) {
    static const uint8_t open[] = {3, 0, 1, 0, 0, 0, 0, 0, 0, 0, 0, 0};
    const struct {
        const char *name;
        uint32_t ppid;
    } rows[] = {{"no PPID", 0}, {"52 is deprecated", 52}, {"54 is deprecated", 54}};
    connect_with(NULL, &DEFAULTS, 1);
    for (uint16_t i = 0; i < 3; i++) {
        const uint16_t stream = (uint16_t)(2 * i + 1);
        send_raw(&b, stream, 50, open, 12);
        send_raw(&b, stream, 53, "x", 1);
        EQUAL("no reset", count_of(&a, RECONFIG), i);
        send_raw(&b, stream, rows[i].ppid, "x", 1);
        EQUAL(rows[i].name, count_of(&a, RECONFIG), i + 1u);
        EQUAL(rows[i].name, last_of(&a, RECONFIG).stream, stream);
        EQUAL("closing", state_of(&a, came(&a)), DCSCTP_CHANNEL_CLOSING);
        send_raw(&b, stream, 53, "x", 1);
        EQUAL("what comes then is dropped", messages(&a), i + 1u);
        reset_raw(&b, stream);
        EQUAL("closed", closed(&a), i + 1u);
        EQUAL("closed", last_event(&a, DCSCTP_CHANNEL_EVENT_CLOSED).channel, came(&a));
    }
    end_both();
}

/* Messages of an unordered channel are ordered until the peer has answered (RFC 8832, section
 * 6). */
static void messages_before_the_ack_are_ordered(void) {
    const struct chunk before = {DATA, WHOLE, 0, 51, 1, {'1'}};
    const struct chunk after = {DATA, WHOLE | UNORDERED, 0, 51, 1, {'2'}};
    const struct chunk of_the_peer = {DATA, WHOLE | UNORDERED, 0, 51, 1, {'3'}};
    dcsctp_channel_options options = labelled("unordered");
    options.is_unordered = 1;
    connect_both();
    const uint64_t channel = open_with(&a, &options);
    EQUAL("send", say(&a, channel, "1"), 0);
    run(&a);
    sent("before the ACK", &a, before);
    run(&b);
    EQUAL("the peer needn't wait", say(&b, came(&b), "3"), 0);
    run(&b);
    sent("of the peer", &b, of_the_peer);
    EQUAL("B hasn't opened it", opened(&b), 0);
    run(&a);
    EQUAL("opened", opened(&a), 1);
    EQUAL("message", messages(&a), 1);
    EQUAL("send", say(&a, channel, "2"), 0);
    run(&a);
    sent("after the ACK", &a, after);
    end_both();
}

/* A lost message is abandoned as the channel says: a FORWARD-TSN skips it (RFC 3758). */
static void lost_message_is_abandoned_as_its_channel_says(void) {
    const struct {
        const char *name;
        uint16_t reliability, is_unordered;
        uint32_t limit;
        size_t data; /* how often it is sent: 0, 1,000, 3,000 and 6,000 ms later */
        int is_abandoned;
    } rows[] = {
        {"reliable", DCSCTP_CHANNEL_RELIABLE, 0, 0, 4, 0},
        {"no retransmission", DCSCTP_CHANNEL_RETRANSMISSIONS, 0, 0, 1, 1},
        {"one retransmission", DCSCTP_CHANNEL_RETRANSMISSIONS, 0, 1, 2, 1},
        {"65,536 retransmissions", DCSCTP_CHANNEL_RETRANSMISSIONS, 0, 65536, 4, 0},
        {"100 ms", DCSCTP_CHANNEL_LIFETIME, 1, 100, 1, 1},
        {"a minute", DCSCTP_CHANNEL_LIFETIME, 0, 60000, 4, 0},
    };
    for (size_t i = 0; i < sizeof rows / sizeof rows[0]; i++) {
        dcsctp_options options = options_here();
        dcsctp_channel_options how = labelled("partial");
        options.rto_initial = options.rto_min = SECONDS;
        how.reliability = rows[i].reliability;
        how.is_unordered = rows[i].is_unordered;
        how.limit = rows[i].limit;
        connect_with(&options, &DEFAULTS, 0);
        const uint64_t channel = open_with(&a, &how);
        pass_time(SECONDS);
        a.chunk_count = 0;
        a.is_losing = 1;
        EQUAL("send", say(&a, channel, "lost"), 0);
        pass_time(8 * SECONDS);
        EQUAL(rows[i].name, count_of(&a, DATA), rows[i].data);
        EQUAL(rows[i].name, count_of(&a, FORWARD_TSN) > 0, rows[i].is_abandoned);
        a.is_losing = 0;
        pass_time(10 * SECONDS);
        EQUAL(rows[i].name, messages(&b), !rows[i].is_abandoned);
        end_both();
    }
}

static size_t amount_of(struct party *party, uint64_t channel) {
    size_t bytes = 77;
    EQUAL("amount", dcsctp_channel_buffered_amount(&party->end.socket, channel, &bytes), 0);
    return bytes;
}

/* What waits on a channel, and the event when it falls to the threshold. */
static void buffered_amount_is_told(void) {
    static const uint8_t zeros[4000];
    dcsctp_socket *socket = &a.end.socket;
    connect_both();
    const uint64_t channel = open_channel(&a), other = open_channel(&a);
    pass_time(SECONDS);
    EQUAL("no event of an OPEN", events_of(&a, DCSCTP_CHANNEL_EVENT_BUFFERED_AMOUNT_LOW), 0);
    EQUAL("threshold", dcsctp_channel_set_buffered_amount_low_threshold(socket, channel, 8000), 0);
    b.is_losing = 1;
    for (int i = 0; i < 10; i++) /* more than the first congestion window has */
        EQUAL("send", dcsctp_channel_send(socket, channel, DCSCTP_CHANNEL_BINARY, zeros,
                                          sizeof zeros), 0);
    run(&a);
    EQUAL("some wait", amount_of(&a, channel) > 8000, 1);
    EQUAL("none of the other", amount_of(&a, other), 0);
    EQUAL("not yet", events_of(&a, DCSCTP_CHANNEL_EVENT_BUFFERED_AMOUNT_LOW), 0);
    b.is_losing = 0;
    pass_time(5 * SECONDS);
    EQUAL("all went out", amount_of(&a, channel), 0);
    EQUAL("once", events_of(&a, DCSCTP_CHANNEL_EVENT_BUFFERED_AMOUNT_LOW), 1);
    EQUAL("of it", last_event(&a, DCSCTP_CHANNEL_EVENT_BUFFERED_AMOUNT_LOW).channel, channel);
    end_both();
}

/* What was counted of a channel. */
static void traffic_is_counted(void) {
    dcsctp_channel_metrics metrics = {sizeof metrics, 7, 7, 7, 7};
    connect_both();
    const uint64_t channel = open_channel(&a);
    EQUAL("metrics", dcsctp_channel_get_metrics(&a.end.socket, channel, &metrics), 0);
    EQUAL("none yet", metrics.messages_sent + metrics.bytes_sent + metrics.messages_received
                          + metrics.bytes_received, 0);
    EQUAL("send", say(&a, channel, "four"), 0);
    EQUAL("send", say(&a, channel, ""), 0);
    pass_time(SECONDS);
    EQUAL("send", say(&b, came(&b), "sixsix"), 0);
    pass_time(SECONDS);
    EQUAL("metrics", dcsctp_channel_get_metrics(&a.end.socket, channel, &metrics), 0);
    EQUAL("messages", metrics.messages_sent, 2);
    EQUAL("bytes", metrics.bytes_sent, 4);
    EQUAL("messages", metrics.messages_received, 1);
    EQUAL("bytes", metrics.bytes_received, 6);
    EQUAL("metrics", dcsctp_channel_get_metrics(&b.end.socket, came(&b), &metrics), 0);
    EQUAL("messages", metrics.messages_received, 2);
    EQUAL("bytes", metrics.bytes_received, 4);
    end_both();
}

/* ---- Closing -------------------------------------------------------------------------------- */

/* Each end resets its stream (RFC 8831, section 6.7). Then the stream is free, and not before. A
 * number isn't given again. */
static void close_is_a_reset_from_both_ends(void) {
    size_t bytes = 77;
    dcsctp_channel_metrics metrics = {sizeof metrics, 7, 7, 7, 7};
    connect_both();
    const uint64_t first = open_channel(&a);
    pass_time(SECONDS);
    EQUAL("send", say(&a, first, "last"), 0);
    close_channel(&a, first);
    close_channel(&a, first);
    EQUAL("closing", state_of(&a, first), DCSCTP_CHANNEL_CLOSING);
    EQUAL("no more", say(&a, first, "more"), DCSCTP_ERROR_NO_CHANNEL);
    run(&a);
    EQUAL("no reset before the message is acknowledged", count_of(&a, RECONFIG), 0);
    const uint64_t second = open_channel(&a);
    EQUAL("a stream that is being closed isn't free", stream_of(&a, second), 2);
    pass_time(SECONDS);
    EQUAL("the message has come", messages(&b), 1);
    EQUAL("one reset by A", count_of(&a, RECONFIG), 1);
    EQUAL("of its stream", last_of(&a, RECONFIG).stream, 0);
    EQUAL("one reset by B", count_of(&b, RECONFIG), 1);
    EQUAL("of its stream", last_of(&b, RECONFIG).stream, 0);
    EQUAL("closed at A", last_event(&a, DCSCTP_CHANNEL_EVENT_CLOSED).channel, first);
    EQUAL("why", last_event(&a, DCSCTP_CHANNEL_EVENT_CLOSED).detail,
          DCSCTP_CHANNEL_CLOSED_BY_RESETS);
    EQUAL("closed at B", closed(&b), 1);
    EQUAL("the message came first", b.events[b.event_count - 1].kind,
          DCSCTP_CHANNEL_EVENT_CLOSED);
    const uint64_t third = open_channel(&a);
    EQUAL("the stream is free", stream_of(&a, third), 0);
    EQUAL("the number is new", third != first && third != second, 1);
    EQUAL("closed", state_of(&a, first), DCSCTP_CHANNEL_CLOSED);
    EQUAL("kept too long", say(&a, first, "old"), DCSCTP_ERROR_NO_CHANNEL);
    EQUAL("kept too long", stream_of(&a, first), -1);
    EQUAL("kept too long", dcsctp_channel_buffered_amount(&a.end.socket, first, &bytes),
          DCSCTP_ERROR_NO_CHANNEL);
    EQUAL("kept too long", dcsctp_channel_get_metrics(&a.end.socket, first, &metrics),
          DCSCTP_ERROR_NO_CHANNEL);
    EQUAL("kept too long", dcsctp_channel_set_buffered_amount_low_threshold(&a.end.socket, first, 9),
          DCSCTP_ERROR_NO_CHANNEL);
    EQUAL("nothing is written", bytes == 77 && metrics.bytes_sent == 7, 1);
    close_channel(&a, first);
    pass_time(SECONDS);
    EQUAL("opened again", opened(&a), 3);
    EQUAL("opened again", incoming(&b), 3);
    EQUAL("send", say(&a, third, "again"), 0);
    pass_time(SECONDS);
    EQUAL("it works", messages(&b), 2);
    /* and now from the other end */
    close_channel(&b, came(&b));
    pass_time(SECONDS);
    EQUAL("closed at A", last_event(&a, DCSCTP_CHANNEL_EVENT_CLOSED).channel, third);
    EQUAL("closed at B", closed(&b), 2);
    EQUAL("the other channel stays", state_of(&a, second), DCSCTP_CHANNEL_OPEN);
    end_both();
}

/* Both ends may close a channel at the same time, and many times. */
static void channel_is_closed_by_both_ends_and_opened_again(void) {
    connect_both();
    for (unsigned i = 1; i <= 20; i++) {
        const uint64_t of_a = open_channel(&a), of_b = open_channel(&b);
        EQUAL("stream of A", stream_of(&a, of_a), 0);
        EQUAL("stream of B", stream_of(&b, of_b), 1);
        pass_time(SECONDS);
        EQUAL("opened at A", opened(&a), i);
        EQUAL("opened at B", opened(&b), i);
        close_channel(&a, of_a);
        close_channel(&b, came(&b));
        close_channel(&a, came(&a));
        a.chunk_count = b.chunk_count = 0;
        pass_time(SECONDS);
        EQUAL("resets by A", count_of(&a, RECONFIG), 2);
        EQUAL("resets by B", count_of(&b, RECONFIG), 2);
        EQUAL("closed at A", closed(&a), 2 * i);
        EQUAL("closed at B", closed(&b), 2 * i);
        EQUAL("none is in use", streams_in_use(&a) + streams_in_use(&b), 0);
    }
    end_both();
}

/* What is opened, used and closed at once comes. */
static void channel_is_closed_at_once(void) {
    connect_both();
    const uint64_t channel = open_channel(&a);
    EQUAL("send", say(&a, channel, "all"), 0);
    close_channel(&a, channel);
    pass_time(2 * SECONDS);
    EQUAL("opened by the peer", incoming(&b), 1);
    EQUAL("the message has come", messages(&b), 1);
    EQUAL("closed", closed(&b), 1);
    EQUAL("closed, not refused", last_event(&a, DCSCTP_CHANNEL_EVENT_CLOSED).detail,
          DCSCTP_CHANNEL_CLOSED_BY_RESETS);
    end_both();
}

/* A reset waits for all that its channel has to send, however long that takes. */
static void close_waits_for_its_messages(void) {
    static const uint8_t zeros[4000];
    connect_both();
    const uint64_t channel = open_channel(&a);
    pass_time(SECONDS);
    b.is_losing = 1;
    for (int i = 0; i < 10; i++) /* more than the first congestion window has */
        EQUAL("send", dcsctp_channel_send(&a.end.socket, channel, DCSCTP_CHANNEL_BINARY, zeros,
                                          sizeof zeros), 0);
    close_channel(&a, channel);
    pass_time(3 * SECONDS);
    EQUAL("it waits", count_of(&a, RECONFIG), 0);
    a.chunk_count = 0;
    b.is_losing = 0;
    pass_time(8 * SECONDS);
    EQUAL("all have come", messages(&b), 10);
    EQUAL("closed", closed(&a), 1);
    EQUAL("closed", closed(&b), 1);
    end_both();
}

/* A reset waits for what isn't acknowledged, also on other channels, but no longer than a
 * second. */
static void close_does_not_wait_long_for_other_channels(void) {
    connect_both();
    const uint64_t channel = open_channel(&a), busy = open_channel(&a);
    pass_time(SECONDS);
    b.is_losing = 1;
    EQUAL("send", say(&a, busy, "unacknowledged"), 0);
    close_channel(&a, channel);
    pass_time(950 * MILLISECONDS);
    EQUAL("it waits", count_of(&a, RECONFIG), 0);
    close_channel(&a, channel);
    pass_time(100 * MILLISECONDS);
    EQUAL("no longer", count_of(&a, RECONFIG), 1);
    b.is_losing = 0;
    pass_time(8 * SECONDS);
    EQUAL("closed", closed(&a), 1);
    EQUAL("closed", closed(&b), 1);
    EQUAL("the other one stays", state_of(&a, busy), DCSCTP_CHANNEL_OPEN);
    end_both();
}

/* A reset that names no stream is of all of them (RFC 6525, section 4.1). */
static void reset_without_streams_closes_all_channels(void) {
    uint8_t chunk[20] = {130, 0, 0, 20, 0, 13, 0, 16};
    connect_both();
    open_channel(&a);
    open_channel(&a);
    pass_time(SECONDS);
    /* requests are counted from the first TSN on, and B has sent two chunks of data */
    put_u32(chunk + 8, b.first_tsn);
    put_u32(chunk + 16, b.first_tsn + 1);
    EQUAL("forged", forge(&a.end, b.header, chunk, sizeof chunk), 0);
    pass_time(SECONDS);
    EQUAL("both are reset", count_of(&a, RECONFIG), 2);
    EQUAL("closed", closed(&a), 2);
    end_both();
}

/* A peer that refuses resets is asked three times. Then the channel is over, and its stream isn't
 * given again. */
static void refused_reset_is_asked_for_three_times(void) {
    uint8_t chunk[16] = {130, 0, 0, 16, 0, 16, 0, 12};
    connect_both();
    const uint64_t channel = open_channel(&a);
    pass_time(SECONDS);
    close_channel(&a, channel);
    a.is_losing = 1;
    for (uint32_t i = 0; i < 5; i++) {
        run(&a);
        EQUAL("asked", count_of(&a, RECONFIG), i < 3 ? i + 1 : 3);
        /* result 2, "denied" (RFC 6525, section 4.4), for each number from the first TSN on */
        put_u32(chunk + 8, a.first_tsn + i);
        put_u32(chunk + 12, 2);
        EQUAL("forged", forge(&a.end, b.header, chunk, sizeof chunk), 0);
    }
    run(&a);
    EQUAL("no more", count_of(&a, RECONFIG), 3);
    EQUAL("it is over", last_event(&a, DCSCTP_CHANNEL_EVENT_CLOSED).channel, channel);
    EQUAL("why", last_event(&a, DCSCTP_CHANNEL_EVENT_CLOSED).detail, DCSCTP_CHANNEL_CANT_BE_RESET);
    EQUAL("another stream", stream_of(&a, open_channel(&a)), 2);
    EQUAL("it stays in use", streams_in_use(&a), 2);
    end_both();
}

/* Channels are opened, used, closed and opened again, however many packets are lost. */
static void loss_changes_nothing(uint32_t loss) {
    connect_both();
    a.loss = b.loss = loss;
    for (unsigned i = 1; i <= 50; i++) {
        struct party *one = next_number() % 2 ? &a : &b, *other = one->peer;
        const unsigned before = messages(other);
        const uint64_t channel = open_channel(one);
        EQUAL("the least stream", stream_of(one, channel), one == &a ? 0 : 1);
        EQUAL("send", say(one, channel, "hello"), 0);
        close_channel(one, channel);
        for (unsigned j = 0; j < 1200 && (closed(&a) < i || closed(&b) < i); j++)
            pass_time(50 * MILLISECONDS);
        EQUAL("closed at A", closed(&a), i);
        EQUAL("closed at B", closed(&b), i);
        EQUAL("opened by the peer", incoming(&a) + incoming(&b), i);
        EQUAL("read", messages(other), before + 1);
        told("read", other, came(other), DCSCTP_CHANNEL_TEXT, "hello", 5);
    }
    end_both();
}

/* ---- The association's end ------------------------------------------------------------------ */

/* Each channel has its last event, and then the association. Nothing comes after that. */
static void end_of_the_association_closes_all_channels(void) {
    const dcsctp_channel_options options = labelled("late");
    uint64_t late = 77;
    connect_both();
    const uint64_t kept = open_channel(&a), closing = open_channel(&a);
    open_channel(&b);
    pass_time(SECONDS);
    close_channel(&a, closing);
    EQUAL("close", dcsctp_close(&a.end.socket), 0);
    settle_both();
    for (int i = 0; i < 2; i++) {
        struct party *party = i ? &b : &a;
        EQUAL("closed", closed(party), 3);
        EQUAL("lost", last_event(party, DCSCTP_CHANNEL_EVENT_CLOSED).detail, DCSCTP_CHANNEL_LOST);
        EQUAL("the last one", party->events[party->event_count - 1].kind,
              DCSCTP_CHANNEL_EVENT_ENDED);
        EQUAL("none is in use", streams_in_use(party), 0);
        EQUAL("no more", dcsctp_channel_open(&party->end.socket, &options, &late),
              DCSCTP_ERROR_ENDED);
        EQUAL("no number", late, 77);
    }
    EQUAL("no more", say(&a, kept, "late"), DCSCTP_ERROR_NO_CHANNEL);
    EQUAL("closed", state_of(&a, kept), DCSCTP_CHANNEL_CLOSED);
    pass_time(SECONDS);
    EQUAL("once", events_of(&a, DCSCTP_CHANNEL_EVENT_ENDED), 1);
    end_both();
}

/* A shutdown sends what is queued first, with `follow_rfc`. A channel that waited ends, too. */
static void shutdown_ends_all_channels(void) {
    connect_both();
    const uint64_t channel = open_channel(&a);
    pass_time(SECONDS);
    EQUAL("send", say(&a, channel, "last"), 0);
    EQUAL("shutdown", dcsctp_shutdown(&a.end.socket), 0);
    EQUAL("no more", say(&a, channel, "late"), DCSCTP_ERROR_SHUTTING_DOWN);
    pass_time(2 * SECONDS);
    EQUAL("read", messages(&b), 1);
    EQUAL("closed", closed(&a) == 1 && closed(&b) == 1, 1);
    EQUAL("ended", events_of(&a, DCSCTP_CHANNEL_EVENT_ENDED), 1);
    EQUAL("ended", events_of(&b, DCSCTP_CHANNEL_EVENT_ENDED), 1);
    end_both();
    create_both(NULL, &DEFAULTS, 0);
    EQUAL("connect", dcsctp_connect(&a.end.socket), 0);
    const uint64_t waits = open_channel(&a);
    EQUAL("close", dcsctp_close(&a.end.socket), 0);
    run(&a);
    EQUAL("lost", last_event(&a, DCSCTP_CHANNEL_EVENT_CLOSED).channel, waits);
    EQUAL("lost", last_event(&a, DCSCTP_CHANNEL_EVENT_CLOSED).detail, DCSCTP_CHANNEL_LOST);
    end_both();
}

/* Is a result one that dcsctp.h names for the call? */
static void is_one_of(const char *name, int32_t result, int32_t a1, int32_t a2, int32_t a3,
                      int32_t a4) {
    EQUAL(name, result == 0 || result == a1 || result == a2 || result == a3 || result == a4, 1);
}

/* ---- Handover ------------------------------------------------------------------------------- */

static uint8_t snapshot[1 << 16];

/* Why A can't be handed over. */
static uint32_t reasons_of_a(void) {
    uint32_t reasons = 77;
    EQUAL("reasons", dcsctp_get_handover_readiness(&a.end.socket, &reasons), 0);
    return reasons;
}

static dcsctp_options handover_options(void) {
    dcsctp_options options = options_here();
    options.enable_handover_with_outstanding_data = 1;
    return options;
}

/* Hands A over. It hears that the association has ended, and of no channel that one has. */
static size_t hand_over_a(void) {
    size_t length = 0, again = 0;
    run(&a);
    EQUAL("ready", reasons_of_a(), 0);
    const size_t before = a.event_count;
    const unsigned packets = a.packets;
    EQUAL("handover", dcsctp_get_handover_state_and_close(&a.end.socket), 0);
    EQUAL("closed", dcsctp_state(&a.end.socket), DCSCTP_STATE_CLOSED);
    EQUAL("none is in use", streams_in_use(&a), 0);
    EQUAL("no room", dcsctp_handover_bytes(&a.end.socket, snapshot, 0, &length),
          DCSCTP_ERROR_BUFFER_TOO_SMALL);
    run(&a);
    EQUAL("one event", a.event_count, before + 1);
    EQUAL("the end", a.events[before].kind, DCSCTP_CHANNEL_EVENT_ENDED);
    EQUAL("the peer isn't told", a.packets, packets);
    EQUAL("snapshot", dcsctp_handover_bytes(&a.end.socket, snapshot, sizeof snapshot, &again), 0);
    EQUAL("its length", again, length);
    EQUAL("none is open", say(&a, 1, "x"), DCSCTP_ERROR_NO_CHANNEL);
    return length;
}

/* Another socket with channels in A's place, of which nothing is known yet. */
static void create_a_again(const dcsctp_options *options) {
    dcsctp_destroy(&a.end.socket);
    create_party(&a, &b, options, 9);
    EQUAL("begin", dcsctp_channel_begin(&a.end.socket, &DEFAULTS), 0);
    EQUAL("time", dcsctp_advance_time(&a.end.socket, now), 0);
}

static void restore_a(const dcsctp_options *options, size_t length) {
    create_a_again(options);
    EQUAL("restore", dcsctp_restore_from_state(&a.end.socket, snapshot, length), 0);
    run(&a);
    EQUAL("one event", a.event_count, 1);
    EQUAL("connected", a.events[0].kind, DCSCTP_CHANNEL_EVENT_CONNECTED);
}

/* Channels of either end go on under their numbers, with what is in flight. Later ones get new
 * numbers, on streams that are free. */
static void channels_go_on_after_a_handover(void) {
    const dcsctp_options options = handover_options();
    dcsctp_channel_metrics metrics = {sizeof metrics, 7, 7, 7, 7};
    dcsctp_channel_options how = labelled("unordered");
    how.is_unordered = 1;
    how.reliability = DCSCTP_CHANNEL_RETRANSMISSIONS;
    how.limit = 50;
    how.priority = 512;
    connect_with(&options, &DEFAULTS, 0);
    const uint64_t x = open_channel(&a);
    pass_time(SECONDS);
    const uint64_t x_of_b = came(&b), y_of_b = open_channel(&b);
    pass_time(SECONDS);
    const uint64_t y = came(&a), z = open_with(&a, &how);
    pass_time(SECONDS);
    const uint64_t z_of_b = came(&b), over = open_channel(&a);
    pass_time(SECONDS);
    close_channel(&a, over);
    pass_time(3 * SECONDS);
    EQUAL("closed", closed(&a) + closed(&b), 2);
    EQUAL("send", say(&a, x, "one"), 0);
    EQUAL("send", say(&b, y_of_b, "three"), 0);
    pass_time(SECONDS);
    a.is_losing = 1;
    for (int i = 0; i < 5; i++)
        EQUAL("send", say(&a, x, "lost"), 0);
    const int streams[] = {stream_of(&a, x), stream_of(&a, y), stream_of(&a, z)};
    restore_a(&options, hand_over_a());
    EQUAL("three", streams_in_use(&a), 3);
    const uint64_t channels[] = {x, y, z};
    for (int i = 0; i < 3; i++) {
        EQUAL("open", state_of(&a, channels[i]), DCSCTP_CHANNEL_OPEN);
        EQUAL("its stream", stream_of(&a, channels[i]), streams[i]);
    }
    EQUAL("closed", state_of(&a, over), DCSCTP_CHANNEL_CLOSED);
    EQUAL("metrics", dcsctp_channel_get_metrics(&a.end.socket, x, &metrics), 0);
    EQUAL("messages", metrics.messages_sent, 6);
    EQUAL("bytes", metrics.bytes_sent, 23);
    EQUAL("metrics", dcsctp_channel_get_metrics(&a.end.socket, y, &metrics), 0);
    EQUAL("messages", metrics.messages_received, 1);
    EQUAL("bytes", metrics.bytes_received, 5);
    pass_time(5 * SECONDS);
    EQUAL("those that were lost, too", messages(&b), 6);
    EQUAL("send", say(&a, y, "yes"), 0);
    pass_time(SECONDS);
    EQUAL("on its channel", last_event(&b, DCSCTP_CHANNEL_EVENT_MESSAGE).channel, y_of_b);
    EQUAL("send", say(&b, x_of_b, "yes"), 0);
    pass_time(SECONDS);
    EQUAL("on its channel", last_event(&a, DCSCTP_CHANNEL_EVENT_MESSAGE).channel, x);
    EQUAL("send", say(&a, z, "yes"), 0);
    pass_time(SECONDS);
    EQUAL("on its channel", last_event(&b, DCSCTP_CHANNEL_EVENT_MESSAGE).channel, z_of_b);
    EQUAL("unordered", last_of(&a, DATA).flags & UNORDERED, UNORDERED);
    const uint64_t later = open_channel(&a);
    pass_time(SECONDS);
    EQUAL("a new number", later > over, 1);
    EQUAL("known", last_event(&a, DCSCTP_CHANNEL_EVENT_OPENED).channel, later);
    EQUAL("a client's stream", stream_of(&a, later) % 2, 0);
    open_channel(&b);
    pass_time(SECONDS);
    EQUAL("a new number", came(&a) > later, 1);
    close_channel(&a, x);
    close_channel(&b, y_of_b);
    pass_time(3 * SECONDS);
    EQUAL("both of A", closed(&a), 2);
    EQUAL("and of B", closed(&b), 3);
    EQUAL("why", last_event(&a, DCSCTP_CHANNEL_EVENT_CLOSED).detail, DCSCTP_CHANNEL_CLOSED_BY_RESETS);
    end_both();
}

/* An OPEN in flight goes along, and the peer's ACK comes after the handover. Until then messages are
 * ordered (RFC 8832, section 6). */
static void open_in_flight_is_handed_over(void) {
    const dcsctp_options options = handover_options();
    dcsctp_channel_options how = labelled("late");
    how.is_unordered = 1;
    connect_with(&options, &DEFAULTS, 0);
    a.is_losing = 1;
    const uint64_t channel = open_with(&a, &how);
    run(&a);
    restore_a(&options, hand_over_a());
    EQUAL("open", state_of(&a, channel), DCSCTP_CHANNEL_OPEN);
    EQUAL("send", say(&a, channel, "ordered"), 0);
    run(&a);
    EQUAL("ordered", last_of(&a, DATA).flags & UNORDERED, 0);
    pass_time(5 * SECONDS);
    EQUAL("incoming", incoming(&b), 1);
    EQUAL("read", messages(&b), 1);
    EQUAL("known", opened(&a), 1);
    EQUAL("this one", last_event(&a, DCSCTP_CHANNEL_EVENT_OPENED).channel, channel);
    EQUAL("send", say(&a, channel, "unordered"), 0);
    pass_time(SECONDS);
    EQUAL("unordered", last_of(&a, DATA).flags & UNORDERED, UNORDERED);
    end_both();
}

/* Why a socket with channels can't be handed over. Then nothing changes. */
static void handover_has_reasons(void) {
    create_both(NULL, &DEFAULTS, 0);
    EQUAL("no association", reasons_of_a(), DCSCTP_HANDOVER_WRONG_CONNECTION_STATE);
    const uint64_t waiting = open_channel(&a);
    EQUAL("one waits", reasons_of_a(),
          DCSCTP_HANDOVER_WRONG_CONNECTION_STATE | DCSCTP_HANDOVER_CHANNELS_UNSETTLED);
    EQUAL("connect", dcsctp_connect(&a.end.socket), 0);
    EQUAL("its INIT isn't taken", reasons_of_a() & DCSCTP_HANDOVER_EVENTS_NOT_TAKEN,
          DCSCTP_HANDOVER_EVENTS_NOT_TAKEN);
    pass_time(SECONDS);
    EQUAL("ready", reasons_of_a(), 0);
    EQUAL("send", say(&b, came(&b), "x"), 0);
    run(&b);
    EQUAL("not read yet", reasons_of_a() & DCSCTP_HANDOVER_EVENTS_NOT_TAKEN,
          DCSCTP_HANDOVER_EVENTS_NOT_TAKEN);
    EQUAL("not ready", dcsctp_get_handover_state_and_close(&a.end.socket),
          DCSCTP_ERROR_NOT_READY);
    run(&a);
    EQUAL("read", messages(&a), 1);
    pass_time(SECONDS);
    EQUAL("ready", reasons_of_a(), 0);
    EQUAL("send", say(&a, waiting, "x"), 0);
    EQUAL("its packet isn't taken", dcsctp_get_handover_state_and_close(&a.end.socket),
          DCSCTP_ERROR_NOT_READY);
    EQUAL("it says why", reasons_of_a() & DCSCTP_HANDOVER_EVENTS_NOT_TAKEN,
          DCSCTP_HANDOVER_EVENTS_NOT_TAKEN);
    pass_time(SECONDS);
    EQUAL("read", messages(&b), 1);
    EQUAL("ready", reasons_of_a(), 0);
    b.is_losing = 1;
    close_channel(&a, waiting);
    EQUAL("it is closing", reasons_of_a(), DCSCTP_HANDOVER_CHANNELS_UNSETTLED);
    EQUAL("not ready", dcsctp_get_handover_state_and_close(&a.end.socket),
          DCSCTP_ERROR_NOT_READY);
    size_t length = 77;
    EQUAL("no snapshot", dcsctp_handover_bytes(&a.end.socket, snapshot, sizeof snapshot, &length),
          DCSCTP_ERROR_NOTHING_TO_COPY);
    EQUAL("closing", state_of(&a, waiting), DCSCTP_CHANNEL_CLOSING);
    b.is_losing = 0;
    pass_time(5 * SECONDS);
    EQUAL("it is closed", closed(&a), 1);
    EQUAL("ready", reasons_of_a(), 0);
    EQUAL("close", dcsctp_close(&a.end.socket), 0);
    run(&a);
    EQUAL("no association", reasons_of_a(), DCSCTP_HANDOVER_WRONG_CONNECTION_STATE);
    end_both();
}

/* A stream that isn't a channel's is in use until both ends have reset it. */
static void refused_stream_is_not_handed_over(void) {
    connect_with(NULL, &DEFAULTS, 1);
    EQUAL("ready", reasons_of_a(), 0);
    send_raw(&b, 5, 51, "x", 1);
    EQUAL("in use", streams_in_use(&a), 1);
    EQUAL("refused", reasons_of_a(), DCSCTP_HANDOVER_CHANNELS_UNSETTLED);
    reset_raw(&b, 5);
    EQUAL("free", streams_in_use(&a), 0);
    EQUAL("ready", reasons_of_a(), 0);
    end_both();
}

/* The restore returns this, and nothing changes. */
static void not_restored(const char *name, size_t length, int32_t expected) {
    EQUAL(name, dcsctp_restore_from_state(&a.end.socket, snapshot, length), expected);
    EQUAL(name, dcsctp_state(&a.end.socket), DCSCTP_STATE_CLOSED);
}

/* Only a new socket with channels is restored from a snapshot with channels, and one without from one
 * without. */
static void snapshot_is_for_its_kind(void) {
    dcsctp_options options = handover_options();
    connect_with(&options, &DEFAULTS, 1);
    open_channel(&a);
    run(&a);
    size_t length = hand_over_a();
    dcsctp_destroy(&a.end.socket);
    create_party(&a, &b, &options, 9);
    EQUAL("time", dcsctp_advance_time(&a.end.socket, now), 0);
    not_restored("no channels here", length, DCSCTP_ERROR_INVALID_SNAPSHOT);
    create_a_again(&options);
    open_channel(&a);
    not_restored("one is open", length, DCSCTP_ERROR_NOT_CLOSED);
    create_a_again(&options);
    EQUAL("connect", dcsctp_connect(&a.end.socket), 0);
    EQUAL("connecting", dcsctp_restore_from_state(&a.end.socket, snapshot, length),
          DCSCTP_ERROR_NOT_CLOSED);
    EQUAL("close", dcsctp_close(&a.end.socket), 0);
    not_restored("it was connecting", length, DCSCTP_ERROR_NOT_CLOSED);
    run(&a);
    not_restored("it was connecting", length, DCSCTP_ERROR_NOT_CLOSED);
    options.local_port = 5001;
    create_a_again(&options);
    not_restored("another port", length, DCSCTP_ERROR_OTHER_OPTIONS);
    options = handover_options();
    restore_a(&options, length);
    EQUAL("the snapshot was used", dcsctp_restore_from_state(&a.end.socket, snapshot, length),
          DCSCTP_ERROR_NOT_CLOSED);
    EQUAL("a plain socket", dcsctp_get_handover_state_and_close(&b.end.socket), 0);
    EQUAL("its snapshot", dcsctp_handover_bytes(&b.end.socket, snapshot, sizeof snapshot, &length),
          0);
    create_a_again(&options);
    not_restored("no channels there", length, DCSCTP_ERROR_INVALID_SNAPSHOT);
    EQUAL("no event", a.event_count, 0);
    end_both();
}

/* The channels are the last bytes of a snapshot before its seal: of each its stream (2), its name (8)
 * and more, for a reliable one 48 in all; before them how many were named (8), and their count (8). */
enum { SEAL = 18, CHANNEL = 48, NAME = 2 };

/* The place of a channel in a snapshot of two. */
static uint8_t *channel_in(size_t length, int which) {
    return snapshot + length - SEAL - CHANNEL * (2 - which);
}

/* Restores with one byte of the channels changed and the right check value. */
static void changed(const char *name, const dcsctp_options *options, size_t length, uint8_t *at,
                    uint8_t to, int32_t expected) {
    const uint8_t before = *at;
    *at = to;
    put_check_value(snapshot, length);
    create_a_again(options);
    EQUAL(name, dcsctp_restore_from_state(&a.end.socket, snapshot, length), expected);
    EQUAL(name, streams_in_use(&a), expected == 0 ? 2 : 0);
    *at = before;
    put_check_value(snapshot, length);
}

/* A snapshot whose channels don't go together is refused, with the right check value, too. */
static void channels_of_a_snapshot_go_together(void) {
    dcsctp_options options = handover_options();
    options.announced_maximum_incoming_streams = 10;
    options.announced_maximum_outgoing_streams = 10;
    connect_with(&options, &DEFAULTS, 0);
    open_channel(&a);
    open_channel(&a);
    pass_time(SECONDS);
    const size_t length = hand_over_a();
    uint8_t *first = channel_in(length, 0), *second = channel_in(length, 1);
    EQUAL("two names", first[-9], 2);
    EQUAL("two channels", first[-1], 2);
    EQUAL("the stream of the first", first[1], 0);
    EQUAL("its name", first[NAME + 7], 0);
    EQUAL("the stream of the second", second[1], 2);
    EQUAL("its name", second[NAME + 7], 1);
    changed("as it was", &options, length, second, 0, 0);
    changed("one stream", &options, length, second + 1, 0, DCSCTP_ERROR_INVALID_SNAPSHOT);
    changed("the last stream", &options, length, second + 1, 9, 0);
    changed("no such stream", &options, length, second + 1, 10, DCSCTP_ERROR_INVALID_SNAPSHOT);
    changed("no such stream", &options, length, second, 1, DCSCTP_ERROR_INVALID_SNAPSHOT);
    changed("one name", &options, length, second + NAME + 7, 0, DCSCTP_ERROR_INVALID_SNAPSHOT);
    changed("not named yet", &options, length, second + NAME + 7, 2, DCSCTP_ERROR_INVALID_SNAPSHOT);
    changed("one was named", &options, length, first - 9, 1, DCSCTP_ERROR_INVALID_SNAPSHOT);
    changed("more were named", &options, length, first - 9, 3, 0);
    changed("one channel", &options, length, first - 1, 1, DCSCTP_ERROR_INVALID_SNAPSHOT);
    changed("three channels", &options, length, first - 1, 3, DCSCTP_ERROR_INVALID_SNAPSHOT);
    changed("no flag", &options, length, second + NAME + 8, 2, DCSCTP_ERROR_INVALID_SNAPSHOT);
    end_both();
}

/* Bytes that aren't a snapshot are refused, and leave a new socket as it was. */
static void other_bytes_are_no_snapshot(void) {
    static uint8_t bytes[200];
    const dcsctp_options options = handover_options();
    connect_with(&options, &DEFAULTS, 0);
    open_channel(&a);
    pass_time(SECONDS);
    const size_t length = hand_over_a();
    create_a_again(&options);
    for (size_t at = 0; at < length; at++) {
        snapshot[at] ^= 1;
        not_restored("a bit", length, DCSCTP_ERROR_INVALID_SNAPSHOT);
        snapshot[at] ^= 1;
    }
    for (size_t prefix = 0; prefix < length; prefix++)
        not_restored("a prefix", prefix, DCSCTP_ERROR_INVALID_SNAPSHOT);
    for (int i = 0; i < 1000; i++) {
        for (size_t at = 0; at < sizeof bytes; at++)
            bytes[at] = (uint8_t)next_number();
        put_check_value(bytes, sizeof bytes);
        const int32_t result = dcsctp_restore_from_state(&a.end.socket, bytes, sizeof bytes);
        is_one_of("random bytes", result, DCSCTP_ERROR_INVALID_SNAPSHOT,
                  DCSCTP_ERROR_OTHER_OPTIONS, 0, 0);
        EQUAL("refused", result < 0, 1);
    }
    run(&a);
    EQUAL("nothing happened", a.event_count, 0);
    EQUAL("it is as it was", dcsctp_restore_from_state(&a.end.socket, snapshot, length), 0);
    EQUAL("one is open", streams_in_use(&a), 1);
    end_both();
}

/* ---- Refused calls -------------------------------------------------------------------------- */

/* A socket with channels refuses the calls below them, which write nothing. */
static void calls_below_are_refused(void) {
    const dcsctp_send_options how = DCSCTP_SEND_INIT;
    const uint8_t bytes[] = {1};
    const dcsctp_outgoing_message outgoing = {bytes, 1, 51, 0, 0};
    const uint16_t stream = 0;
    const uint8_t *view = bytes;
    dcsctp_event event = {7, 7, 7, 7, 7, 7};
    dcsctp_message message = {7, 7, 7, 7};
    uint8_t buffer[4] = {7, 7, 7, 7};
    uint16_t streams[2] = {7, 7}, priority = 7;
    size_t size = 7;
    int32_t result = 7;
    connect_both();
    dcsctp_socket *s = &a.end.socket;
    const int32_t results[] = {
        dcsctp_send(s, 0, 51, bytes, 1, &how),
        dcsctp_send_many(s, &outgoing, 1, &how, &result, 1),
        dcsctp_reset_streams(s, &stream, 1),
        dcsctp_poll_event(s, &event),
        dcsctp_event_bytes(s, buffer, 4, &size),
        dcsctp_event_view(s, &view, &size),
        dcsctp_event_streams(s, streams, 2, &size),
        dcsctp_messages_ready_count(s, &size),
        dcsctp_get_next_message(s, &message),
        dcsctp_message_bytes(s, buffer, 4, &size),
        dcsctp_message_view(s, &view, &size),
        dcsctp_buffered_amount(s, 0, &size),
        dcsctp_buffered_amount_low_threshold(s, 0, &size),
        dcsctp_set_buffered_amount_low_threshold(s, 0, 5),
        dcsctp_get_stream_priority(s, 0, &priority),
        dcsctp_set_stream_priority(s, 0, 5),
        dcsctp_channel_begin(s, &DEFAULTS),
    };
    for (size_t i = 0; i < sizeof results / sizeof results[0]; i++)
        EQUAL("refused", results[i], DCSCTP_ERROR_HAS_CHANNELS);
    EQUAL("nothing is written", event.kind == 7 && message.length == 7 && buffer[0] == 7, 1);
    EQUAL("nothing is written", streams[0] == 7 && priority == 7, 1);
    EQUAL("nothing is written", size == 7 && result == 7 && view == bytes, 1);
    EQUAL("it goes on", say(&a, open_channel(&a), "x"), 0);
    pass_time(SECONDS);
    EQUAL("read", messages(&b), 1);
    end_both();
}

/* These go on as before. */
static void calls_of_the_association_stay(void) {
    dcsctp_options options;
    dcsctp_metrics metrics;
    dcsctp_counts counts;
    uint32_t tag = 0;
    uint64_t deadline = 0;
    options.size = sizeof options;
    metrics.size = sizeof metrics;
    counts.size = sizeof counts;
    create_both(NULL, &DEFAULTS, 0);
    EQUAL("closed", dcsctp_state(&a.end.socket), DCSCTP_STATE_CLOSED);
    EQUAL("no metrics", dcsctp_get_metrics(&a.end.socket, &metrics), 0);
    EQUAL("never", dcsctp_poll_timeout(&a.end.socket, &deadline), 0);
    EQUAL("never", deadline == DCSCTP_NEVER, 1);
    EQUAL("connect", dcsctp_connect(&a.end.socket), 0);
    EQUAL("connecting", dcsctp_state(&a.end.socket), DCSCTP_STATE_CONNECTING);
    EQUAL("INIT again", dcsctp_poll_timeout(&a.end.socket, &deadline), 0);
    EQUAL("INIT again", deadline, BEGIN + SECONDS); /* t1_init_timeout */
    settle_both();
    EQUAL("tag", dcsctp_verification_tag(&a.end.socket, &tag), 0);
    EQUAL("the peer's packets have it", tag, u32_at(b.header + 4));
    EQUAL("not failed", dcsctp_has_failed(&a.end.socket), 0);
    EQUAL("metrics", dcsctp_get_metrics(&a.end.socket, &metrics), 1);
    EQUAL("counts", dcsctp_get_counts(&a.end.socket, &counts), 0);
    EQUAL("sent", counts.tx_packets_count, a.packets);
    EQUAL("received", counts.rx_packets_count, b.packets);
    EQUAL("limit", dcsctp_set_max_message_size(&a.end.socket, 20), 0);
    EQUAL("options", dcsctp_get_options(&a.end.socket, &options), 0);
    EQUAL("limit", options.max_message_size, 20);
    EQUAL("follow_rfc", options.follow_rfc, follow_rfc);
    const uint64_t channel = open_channel(&a);
    EQUAL("twenty bytes", say(&a, channel, "12345678901234567890"), 0);
    EQUAL("one more", say(&a, channel, "123456789012345678901"), DCSCTP_ERROR_MESSAGE_TOO_LARGE);
    const dcsctp_channel_options longer = labelled("123456789");
    uint64_t none = 77;
    EQUAL("an OPEN of 21 bytes", dcsctp_channel_open(&a.end.socket, &longer, &none),
          DCSCTP_ERROR_MESSAGE_TOO_LARGE);
    EQUAL("no number", none, 77);
    pass_time(SECONDS);
    EQUAL("read", messages(&b), 1);
    end_both();
}

/* All calls of channels on one socket, in the order of dcsctp.h, but for the first. */
static void call_all(dcsctp_socket *socket, uint64_t channel, int32_t *results) {
    const dcsctp_channel_options options = DCSCTP_CHANNEL_OPTIONS_INIT;
    dcsctp_channel_options shown = DCSCTP_CHANNEL_OPTIONS_INIT;
    dcsctp_channel_metrics metrics = {sizeof metrics, 0, 0, 0, 0};
    dcsctp_channel_event event;
    uint8_t buffer[4];
    const uint8_t *view;
    uint64_t opened_now;
    uint16_t stream;
    size_t size;
    results[0] = dcsctp_channel_set_role(socket, 1);
    results[1] = dcsctp_channel_open(socket, &options, &opened_now);
    results[2] = dcsctp_channel_send(socket, channel, DCSCTP_CHANNEL_TEXT, buffer, 0);
    results[3] = dcsctp_channel_close(socket, channel);
    results[4] = dcsctp_channel_poll(socket, &event);
    results[5] = dcsctp_channel_bytes(socket, buffer, 4, &size);
    results[6] = dcsctp_channel_view(socket, &view, &size);
    results[7] = dcsctp_channel_get_options(socket, &shown);
    results[8] = dcsctp_channel_state(socket, channel);
    results[9] = dcsctp_channel_stream(socket, channel, &stream);
    results[10] = dcsctp_channel_buffered_amount(socket, channel, &size);
    results[11] = dcsctp_channel_set_buffered_amount_low_threshold(socket, channel, 1);
    results[12] = dcsctp_channel_get_metrics(socket, channel, &metrics);
    results[13] = dcsctp_channel_count(socket, &size);
}

/* A socket without channels has none of them, and where there is no socket there is none. 0 is no
 * channel, nor is a number that wasn't given. */
static void channels_are_there_once_begun(void) {
    const dcsctp_options options = options_here();
    int32_t results[14];
    dcsctp_socket none = DCSCTP_SOCKET_INIT;
    call_all(&none, 1, results);
    for (int i = 0; i < 14; i++)
        EQUAL("no socket", results[i], DCSCTP_ERROR_NO_SOCKET);
    EQUAL("no socket", dcsctp_channel_begin(&none, &DEFAULTS), DCSCTP_ERROR_NO_SOCKET);
    create_party(&a, &b, &options, 1);
    call_all(&a.end.socket, 1, results);
    for (int i = 0; i < 14; i++)
        EQUAL("no channels", results[i], DCSCTP_ERROR_NO_CHANNEL);
    begin(&a, &DEFAULTS);
    const int32_t expected[] = {0, 0, DCSCTP_ERROR_NO_CHANNEL, 0, 0, DCSCTP_ERROR_NOTHING_TO_COPY,
        DCSCTP_ERROR_NOTHING_TO_COPY, DCSCTP_ERROR_NOTHING_TO_COPY, DCSCTP_CHANNEL_CLOSED,
        DCSCTP_ERROR_NO_CHANNEL, DCSCTP_ERROR_NO_CHANNEL, DCSCTP_ERROR_NO_CHANNEL,
        DCSCTP_ERROR_NO_CHANNEL, 0};
    const uint64_t numbers[] = {0, 1000, UINT64_MAX};
    for (int i = 0; i < 3; i++) {
        call_all(&a.end.socket, numbers[i], results);
        for (int j = 0; j < 14; j++)
            EQUAL("no such channel", results[j], expected[j]);
    }
    dcsctp_destroy(&a.end.socket);
}

/* Channels begin on a socket on which nothing was, once. */
static void begin_needs_a_new_socket(void) {
    dcsctp_options options = options_here();
    dcsctp_socket *socket = &a.end.socket;
    for (int i = 0; i < 5; i++) {
        create_party(&a, &b, &options, 1);
        if (i == 0)
            EQUAL("connect", dcsctp_connect(socket), 0);
        if (i == 1)
            EQUAL("send", send_bytes(&a.end, 0, 5), 0);
        if (i == 2)
            EQUAL("packet", dcsctp_handle_input(socket, (const uint8_t *)"x", 1), 0);
        if (i == 3) {
            EQUAL("connect", dcsctp_connect(socket), 0);
            EQUAL("close", dcsctp_close(socket), 0);
        }
        if (i == 4)
            EQUAL("time", dcsctp_advance_time(socket, BEGIN + SECONDS), 0);
        EQUAL("begin", dcsctp_channel_begin(socket, &DEFAULTS), i < 4 ? DCSCTP_ERROR_NOT_CLOSED : 0);
        dcsctp_destroy(socket);
    }
    options.checksum_offload = 1;
    create_party(&a, &b, &options, 1);
    EQUAL("offload", dcsctp_channel_begin(socket, &DEFAULTS), DCSCTP_ERROR_INVALID_OPTIONS);
    EQUAL("it stays a socket", dcsctp_connect(socket), 0);
    EQUAL("with its events", take(&a.end), DCSCTP_EVENT_SEND_PACKET);
    dcsctp_destroy(socket);
}

/* A struct of another size is refused, and a channel whose options aren't valid. */
static void structs_are_checked(void) {
    static const char text[65536];
    const dcsctp_options options = options_here();
    dcsctp_channel_limits limits = DCSCTP_CHANNEL_LIMITS_INIT;
    dcsctp_channel_options shown = DCSCTP_CHANNEL_OPTIONS_INIT, channel = shown;
    dcsctp_channel_metrics metrics = {sizeof metrics - 1, 7, 7, 7, 7};
    dcsctp_socket *socket = &a.end.socket;
    uint64_t number = 77;
    EQUAL("sizes", sizeof limits == 32 && sizeof shown == 56 && sizeof metrics == 40, 1);
    EQUAL("size of an event", sizeof(dcsctp_channel_event), 24);
    create_party(&a, &b, &options, 1);
    limits.size++;
    EQUAL("limits", dcsctp_channel_begin(socket, &limits), DCSCTP_ERROR_WRONG_SIZE);
    begin(&a, &DEFAULTS);
    channel.size = 0;
    EQUAL("options", dcsctp_channel_open(socket, &channel, &number), DCSCTP_ERROR_WRONG_SIZE);
    shown.size++;
    EQUAL("shown", dcsctp_channel_get_options(socket, &shown), DCSCTP_ERROR_WRONG_SIZE);
    EQUAL("metrics", dcsctp_channel_get_metrics(socket, 1, &metrics), DCSCTP_ERROR_WRONG_SIZE);
    channel.size = sizeof channel;
    channel.reserved = 1;
    EQUAL("reserved", dcsctp_channel_open(socket, &channel, &number), DCSCTP_ERROR_INVALID_OPTIONS);
    channel.reserved = 0;
    channel.reliability = 3;
    EQUAL("kind", dcsctp_channel_open(socket, &channel, &number), DCSCTP_ERROR_INVALID_OPTIONS);
    channel.reliability = 0;
    channel.label = text;
    channel.label_length = 65536;
    EQUAL("label", dcsctp_channel_open(socket, &channel, &number), DCSCTP_ERROR_MESSAGE_TOO_LARGE);
    channel.label_length = 65535;
    channel.protocol = text;
    channel.protocol_length = SIZE_MAX / 2;
    EQUAL("protocol", dcsctp_channel_open(socket, &channel, &number),
          DCSCTP_ERROR_MESSAGE_TOO_LARGE);
    EQUAL("nothing is written", number == 77 && metrics.bytes_sent == 7, 1);
    channel.protocol_length = 65535;
    EQUAL("the longest", dcsctp_channel_open(socket, &channel, &number), 0);
    EQUAL("a number", number != 77, 1);
    dcsctp_destroy(socket);
}

/* What was taken last can be copied, shown and asked for, if it has that. */
static void last_event_is_kept(void) {
    uint8_t small[2] = {7, 7};
    const uint8_t *view = small;
    dcsctp_channel_options shown = DCSCTP_CHANNEL_OPTIONS_INIT;
    dcsctp_channel_event event;
    size_t length = 7;
    connect_both();
    dcsctp_socket *socket = &b.end.socket;
    const uint64_t channel = open_channel(&a);
    EQUAL("send", say(&a, channel, "long"), 0);
    run(&a);
    do
        EQUAL("poll", dcsctp_channel_poll(socket, &event), 1);
    while (event.kind != DCSCTP_CHANNEL_EVENT_INCOMING);
    EQUAL("no bytes", dcsctp_channel_bytes(socket, small, 2, &length),
          DCSCTP_ERROR_NOTHING_TO_COPY);
    EQUAL("no bytes", length, 0);
    EQUAL("no bytes", dcsctp_channel_view(socket, &view, &length), DCSCTP_ERROR_NOTHING_TO_COPY);
    EQUAL("not written", view == small, 1);
    EQUAL("options", dcsctp_channel_get_options(socket, &shown), 0);
    EQUAL("label", shown.label_length == 4 && memcmp(shown.label, "chat", 4) == 0, 1);
    do
        EQUAL("poll", dcsctp_channel_poll(socket, &event), 1);
    while (event.kind != DCSCTP_CHANNEL_EVENT_MESSAGE);
    EQUAL("no options", dcsctp_channel_get_options(socket, &shown), DCSCTP_ERROR_NOTHING_TO_COPY);
    EQUAL("small", dcsctp_channel_bytes(socket, small, 2, &length), DCSCTP_ERROR_BUFFER_TOO_SMALL);
    EQUAL("its length", length, 4);
    EQUAL("unchanged", small[0] == 7 && small[1] == 7, 1);
    EQUAL("view", dcsctp_channel_view(socket, &view, &length), 0);
    EQUAL("view", length == 4 && memcmp(view, "long", 4) == 0, 1);
    end_both();
}

/* ---- Calls in any order --------------------------------------------------------------------- */

/* What an end was told of each channel: 0 nothing, 1 its number, 2 that it is over. */
enum { MOST_CHANNELS = 600 };
static uint8_t lives[2][MOST_CHANNELS];

/* A number is new when it is given. Nothing names a channel after its end. */
static void given(int which, uint64_t channel) {
    EQUAL("few channels", channel > 0 && channel < MOST_CHANNELS, 1);
    EQUAL("a new number", lives[which][channel], 0);
    lives[which][channel] = 1;
}

static void check_events(int which, struct party *party) {
    for (size_t i = 0; i < party->event_count; i++) {
        const dcsctp_channel_event *event = &party->events[i];
        if (event->channel == 0)
            continue;
        if (event->kind == DCSCTP_CHANNEL_EVENT_INCOMING)
            given(which, event->channel);
        EQUAL("a living channel", lives[which][event->channel], 1);
        if (event->kind == DCSCTP_CHANNEL_EVENT_CLOSED)
            lives[which][event->channel] = 2;
    }
    party->event_count = 0;
}

/* Makes a call on a channel that was given, on one that wasn't, or on none. */
static void call_any(int which, struct party *party) {
    static const uint8_t bytes[3000];
    dcsctp_socket *socket = &party->end.socket;
    dcsctp_channel_options options = labelled("any");
    uint64_t channel = next_number() % 40;
    switch (next_number() % 9) {
    case 0:
        options.is_unordered = next_number() % 2;
        options.reliability = next_number() % 4;
        options.limit = next_number() % 3;
        options.is_negotiated = next_number() % 4 == 0;
        options.stream = next_number() % 5 + 20;
        const int32_t result = dcsctp_channel_open(socket, &options, &channel);
        is_one_of("open", result, DCSCTP_ERROR_INVALID_OPTIONS, DCSCTP_ERROR_STREAM_IN_USE,
                  DCSCTP_ERROR_ENDED, 0);
        EQUAL("valid", result == DCSCTP_ERROR_INVALID_OPTIONS, options.reliability == 3);
        if (result == 0)
            given(which, channel);
        break;
    case 1:
        EQUAL("close", dcsctp_channel_close(socket, channel), 0);
        break;
    case 2:
        is_one_of("threshold", dcsctp_channel_set_buffered_amount_low_threshold(socket, channel, 9),
                  DCSCTP_ERROR_NO_CHANNEL, 0, 0, 0);
        break;
    case 3: {
        const int32_t state = state_of(party, channel);
        EQUAL("a state", state >= DCSCTP_CHANNEL_CONNECTING && state <= DCSCTP_CHANNEL_CLOSED, 1);
        if (lives[which][channel] != 1)
            EQUAL("no such channel", state == DCSCTP_CHANNEL_CLOSED || party->event_count > 0, 1);
        break;
    }
    default:
        is_one_of("send", dcsctp_channel_send(socket, channel, next_number() % 3, bytes,
                                              next_number() % 3000),
                  DCSCTP_ERROR_NO_CHANNEL, DCSCTP_ERROR_INVALID_SEND_OPTIONS,
                  DCSCTP_ERROR_RESOURCE_EXHAUSTION, DCSCTP_ERROR_SHUTTING_DOWN);
    }
}

static void calls_in_any_order(void) {
    unsigned ends = 0;
    for (int round = 0; round < 20; round++) {
        struct party *both[] = {&a, &b};
        create_both(NULL, &DEFAULTS, 0);
        memset(lives, 0, sizeof lives);
        a.loss = b.loss = next_number() % 20;
        EQUAL("connect", dcsctp_connect(&a.end.socket), 0);
        EQUAL("connect", dcsctp_connect(&b.end.socket), 0);
        for (int step = 0; step < 600; step++) {
            const int which = next_number() % 2;
            call_any(which, both[which]);
            if (next_number() % 8 == 0)
                pass_time(50 * MILLISECONDS);
            check_events(0, &a);
            check_events(1, &b);
        }
        EQUAL("close", dcsctp_close(&a.end.socket), 0);
        a.loss = b.loss = 0;
        pass_time(SECONDS);
        for (int i = 0; i < 2; i++) {
            ends += events_of(both[i], DCSCTP_CHANNEL_EVENT_ENDED);
            check_events(i, both[i]);
            EQUAL("none is in use", streams_in_use(both[i]), 0);
            for (uint64_t channel = 1; channel < MOST_CHANNELS; channel++)
                EQUAL("each has its end", lives[i][channel] != 1, 1);
        }
        end_both();
    }
    EQUAL("both ends end", ends, 40);
}

static void all_tests(void) {
    open_and_ack_are_the_bytes_of_the_standard();
    client_has_even_streams_and_the_server_odd_ones();
    channel_waits_for_the_association_and_the_role();
    both_ends_open_at_once();
    wrong_open_is_refused();
    peer_is_limited();
    ack_of_four_bytes_is_one();
    refused_channel_is_closed();
    negotiated_channel_needs_no_open();
    messages_have_the_ppids_of_the_standard();
    wrong_message_closes_the_channel();
    messages_before_the_ack_are_ordered();
    lost_message_is_abandoned_as_its_channel_says();
    buffered_amount_is_told();
    traffic_is_counted();
    close_is_a_reset_from_both_ends();
    channel_is_closed_by_both_ends_and_opened_again();
    channel_is_closed_at_once();
    close_waits_for_its_messages();
    close_does_not_wait_long_for_other_channels();
    reset_without_streams_closes_all_channels();
    refused_reset_is_asked_for_three_times();
    loss_changes_nothing(0);
    loss_changes_nothing(5);
    loss_changes_nothing(20);
    end_of_the_association_closes_all_channels();
    shutdown_ends_all_channels();
    channels_go_on_after_a_handover();
    open_in_flight_is_handed_over();
    handover_has_reasons();
    refused_stream_is_not_handed_over();
    snapshot_is_for_its_kind();
    channels_of_a_snapshot_go_together();
    other_bytes_are_no_snapshot();
    calls_below_are_refused();
    calls_of_the_association_stay();
    channels_are_there_once_begun();
    begin_needs_a_new_socket();
    structs_are_checked();
    last_event_is_kept();
    calls_in_any_order();
}

int main(void) {
    for (follow_rfc = 0; follow_rfc < 2; follow_rfc++)
        all_tests();
    puts("channels: as RFC 8831 and RFC 8832 say");
    return 0;
}
