/* Calls a socket with data channels as the bytes of an input say, and checks what comes of it. Its
 * peer is a socket without channels, which sends any message on any stream and resets it, or has
 * channels, too. Packets are lost, repeated and changed. scripts/fuzz.sh links it with libFuzzer;
 * alone it makes inputs of its own:
 *
 *     fuzz_channels [COUNT [FIRST]]      so many, from this number on; 1,000 and 1 by default
 *
 * An input begins with switches and options. Then each byte is an operation, and its arguments
 * follow. It is linked with --wrap=malloc,--wrap=realloc,--wrap=free. */
#include "fuzzing.h"
#include "pair.h"
#include "refusing.h"

enum {
    LINK = 64,         /* packets under way from one end */
    NAMES = 4096,      /* channels of an end */
    OPERATIONS = 300,
    LONGEST = 400,     /* bytes of a message */
    OPEN = 3,
    ACK = 2,
    CONTROL = 50
};

struct packet {
    uint8_t *bytes;
    size_t length;
};

/* What a channel has been told. */
enum life { NEW, OWN, OPENED, THEIRS, OVER };

struct side {
    dcsctp_socket socket;
    dcsctp_options options;
    dcsctp_channel_limits limits;
    struct packet link[LINK]; /* packets under way to the other end */
    size_t under_way;
    uint8_t header[12];       /* of the last packet */
    int has_channels, has_failed, has_ended, is_connected;
    uint8_t lives[NAMES];
    uint64_t last_name, last[2]; /* the highest names: of all, of this end's, of the peer's */
    size_t theirs;            /* how many channels of the peer's live */
    uint32_t reconfig;        /* the number of the last request to reset streams */
};

static struct side sides[2];
static uint64_t now;
static int is_honest; /* is no packet changed? */

static struct side *other(const struct side *side) {
    return &sides[side == &sides[0]];
}

/* ---- Calls ---------------------------------------------------------------------------------- */

static uint32_t until_refused; /* which allocation of the library is refused; 0: none */
static unsigned refused, refused_before;
static int is_inside; /* is this a call of the library? */

static int is_refused(size_t size) {
    (void)size;
    if (!is_inside || until_refused == 0 || --until_refused > 0)
        return 0;
    refused++;
    return 1;
}

#define MAY(error) (1u << -DCSCTP_ERROR_##error)
#define COMMAND (MAY(FAILED) | MAY(OUT_OF_MEMORY))

/* Checks a result: the header names it for this call, and its reason holds. */
static int32_t checked(struct side *side, const char *call, int32_t result, int32_t most,
                       uint32_t may) {
    const int is_short = refused != refused_before, had_failed = side->has_failed;
    refused_before = refused;
    side->has_failed = dcsctp_has_failed(&side->socket);
    EXPECT(call, result <= most && result > -32);
    EXPECT(call, result >= 0 || (may & 1u << -result));
    EXPECT(call, result != DCSCTP_ERROR_OUT_OF_MEMORY || is_short);
    EXPECT(call, result != DCSCTP_ERROR_FAILED || had_failed);
    EXPECT(call, side->has_failed == had_failed ||
                     (side->has_failed == 1 && result == DCSCTP_ERROR_OUT_OF_MEMORY));
    saw(1, (uint32_t)(call[9] * 256 + call[16]), (uint32_t)result);
    return result;
}

static int32_t result_of_call;
#define CALL_TO(most, side, may, call, ...)                                                        \
    (is_inside = 1, result_of_call = call(&(side)->socket, __VA_ARGS__), is_inside = 0,            \
     checked(side, #call "        ", result_of_call, most, may))
#define CALL(...) CALL_TO(0, __VA_ARGS__)
#define CALL_ALONE(side, may, call)                                                                \
    (is_inside = 1, result_of_call = call(&(side)->socket), is_inside = 0,                         \
     checked(side, #call "        ", result_of_call, 0, may))

/* ---- What an end sends ---------------------------------------------------------------------- */

static void forget(struct side *side, size_t at) {
    free(side->link[at].bytes);
    side->under_way--;
    memmove(&side->link[at], &side->link[at + 1], (side->under_way - at) * sizeof *side->link);
}

/* Keeps a packet until it is delivered. If there are too many, it is lost. */
static void keep(struct side *side, const uint8_t *bytes, size_t length) {
    EXPECT("a packet", length >= 12 && length <= side->options.mtu);
    memcpy(side->header, bytes, sizeof side->header);
    for (size_t at = 12; at + 4 <= length; at += (u16_at(bytes + at + 2) + 3) / 4 * 4) {
        saw(2, bytes[at], bytes[at + 1]);
        if (bytes[at] == 130 && u16_at(bytes + at + 4) == 13)
            side->reconfig = u32_at(bytes + at + 8);
    }
    if (side->under_way == LINK)
        return;
    struct packet *to = &side->link[side->under_way++];
    to->bytes = malloc(length);
    to->length = length;
    memcpy(to->bytes, bytes, length);
}

/* ---- What an end with channels is told ------------------------------------------------------ */

static uint8_t *life_of(struct side *side, uint64_t channel) {
    EXPECT("few channels", channel > 0 && channel < NAMES);
    return &side->lives[channel];
}

static int lives(struct side *side, uint64_t channel) {
    const uint8_t life = *life_of(side, channel);
    return life == OWN || life == OPENED || life == THEIRS;
}

/* Names are new, and rise among those that this end opens, and among those of the peer's. */
static void name(struct side *side, uint64_t channel, enum life life) {
    EXPECT("a new name", channel > side->last[life == THEIRS] && *life_of(side, channel) == NEW);
    side->last[life == THEIRS] = channel;
    side->last_name = channel > side->last_name ? channel : side->last_name;
    *life_of(side, channel) = (uint8_t)life;
}

static void check_incoming(struct side *side, const dcsctp_channel_event *event) {
    dcsctp_channel_options options = { .size = sizeof options };
    name(side, event->channel, THEIRS);
    side->theirs++;
    EXPECT("few channels of the peer's", side->theirs <= side->limits.max_channels);
    EXPECT("options", dcsctp_channel_get_options(&side->socket, &options) == DCSCTP_OK);
    EXPECT("short texts",
           options.label_length + options.protocol_length <= side->limits.max_text);
    EXPECT("options", options.reliability <= 2 && options.is_unordered <= 1);
    EXPECT("options", options.is_negotiated + options.stream + options.reserved == 0);
    saw(3, options.reliability, options.is_unordered);
}

static void check_message(struct side *side, const dcsctp_channel_event *event) {
    const uint8_t *view;
    size_t length;
    EXPECT("a channel that is known",
           *life_of(side, event->channel) == OPENED || *life_of(side, event->channel) == THEIRS);
    EXPECT("a message", event->detail == DCSCTP_CHANNEL_TEXT || event->detail == DCSCTP_CHANNEL_BINARY);
    EXPECT("a short one", event->length <= side->limits.max_message_size);
    EXPECT("its bytes", CALL(side, 0, dcsctp_channel_view, &view, &length) == DCSCTP_OK);
    EXPECT("its bytes", length == event->length);
}

/* A channel has one end, with a reason that can be. */
static void check_closed(struct side *side, const dcsctp_channel_event *event) {
    uint8_t *life = life_of(side, event->channel);
    EXPECT("one end", lives(side, event->channel));
    EXPECT("a reason", event->detail <= DCSCTP_CHANNEL_NO_STREAM);
    EXPECT("refused before it is known",
           event->detail != DCSCTP_CHANNEL_REFUSED || *life == OWN);
    EXPECT("without a stream", event->detail != DCSCTP_CHANNEL_NO_STREAM || *life == OWN);
    side->theirs -= *life == THEIRS;
    *life = OVER;
}

static void check_ended(struct side *side) {
    size_t count = 77;
    side->has_ended = 1;
    for (uint64_t channel = 1; channel <= side->last_name; channel++)
        EXPECT("each has its end", *life_of(side, channel) == OVER);
    EXPECT("none is in use", CALL(side, 0, dcsctp_channel_count, &count) == DCSCTP_OK);
    EXPECT("none is in use", count == 0);
}

static void check_event(struct side *side, const dcsctp_channel_event *event) {
    EXPECT("nothing after the end",
           event->kind == DCSCTP_CHANNEL_EVENT_SEND_PACKET || !side->has_ended);
    switch (event->kind) {
    case DCSCTP_CHANNEL_EVENT_CONNECTED:
        /* (a COOKIE ECHO whose cookie was changed replaces the association) */
        EXPECT("connected once", !side->is_connected || !is_honest);
        side->is_connected = 1;
        break;
    case DCSCTP_CHANNEL_EVENT_OPENED:
        EXPECT("opened once", *life_of(side, event->channel) == OWN);
        *life_of(side, event->channel) = OPENED;
        break;
    case DCSCTP_CHANNEL_EVENT_INCOMING:
        check_incoming(side, event);
        break;
    case DCSCTP_CHANNEL_EVENT_MESSAGE:
        check_message(side, event);
        break;
    case DCSCTP_CHANNEL_EVENT_BUFFERED_AMOUNT_LOW:
        EXPECT("a channel", lives(side, event->channel));
        break;
    case DCSCTP_CHANNEL_EVENT_CLOSED:
        check_closed(side, event);
        break;
    case DCSCTP_CHANNEL_EVENT_ENDED:
        check_ended(side);
        break;
    default:
        EXPECT("a kind", event->kind <= DCSCTP_CHANNEL_EVENT_SEND_PACKET);
    }
}

/* Takes an event, if there is one. */
static int take_channel_event(struct side *side) {
    dcsctp_channel_event event;
    const uint8_t *view;
    size_t length;
    if (CALL_TO(1, side, COMMAND, dcsctp_channel_poll, &event) != 1) {
        EXPECT("none", event.kind + event.channel + event.length + event.detail == 0);
        return 0;
    }
    saw(4, event.kind, event.detail);
    check_event(side, &event);
    if (event.kind == DCSCTP_CHANNEL_EVENT_SEND_PACKET) {
        EXPECT("a packet", CALL(side, 0, dcsctp_channel_view, &view, &length) == DCSCTP_OK);
        keep(side, view, length);
    }
    return 1;
}

static int take_plain_event(struct side *side) {
    dcsctp_event event;
    dcsctp_message message;
    const uint8_t *view;
    size_t length;
    CALL_TO(1, side, 0, dcsctp_get_next_message, &message);
    if (CALL_TO(1, side, 0, dcsctp_poll_event, &event) != 1)
        return 0;
    if (event.kind == DCSCTP_EVENT_SEND_PACKET) {
        EXPECT("a packet", CALL(side, 0, dcsctp_event_view, &view, &length) == DCSCTP_OK);
        keep(side, view, length);
    }
    return 1;
}

static int take_one(struct side *side) {
    return side->has_channels ? take_channel_event(side) : take_plain_event(side);
}

static void take_all(struct side *side) {
    for (int left = 100000; take_one(side); left--)
        EXPECT("events end", left > 0);
}

/* ---- Packets and time ----------------------------------------------------------------------- */

static void deliver(struct side *from, const uint8_t *bytes, size_t length) {
    /* (an exact copy, so that a read past its end is found) */
    uint8_t *copy = malloc(length + (length == 0));
    memcpy(copy, bytes, length);
    CALL(other(from), COMMAND, dcsctp_handle_input, copy, length);
    free(copy);
}

static void settle_all(void) {
    for (int left = 200; left > 0; left--) {
        struct side *from = &sides[left % 2];
        take_all(&sides[0]);
        take_all(&sides[1]);
        if (from->under_way == 0)
            from = other(from);
        if (from->under_way == 0)
            return;
        deliver(from, from->link[0].bytes, from->link[0].length);
        forget(from, 0);
    }
}

enum fate { DELIVERED, REPEATED, LOST, CHANGED };

/* Changes a packet as the input says. Returns its length. */
static size_t change(uint8_t *packet, size_t length) {
    const uint8_t how = byte();
    for (int left = how % 4; left >= 0; left--) {
        const size_t place = two_bytes() % length;
        packet[place] = how & 4 ? byte() : (uint8_t)(packet[place] ^ 1u << byte() % 8);
    }
    if (how & 8 && length > 12)
        length -= byte() % (length - 11);
    if (!(how & 16))
        put_checksum(packet, length);
    return length;
}

static void deliver_one(struct side *from, enum fate fate) {
    static uint8_t changed[LONGEST_PACKET];
    if (from->under_way == 0)
        take_all(from);
    if (from->under_way == 0)
        return;
    const size_t at = byte() % from->under_way;
    const struct packet *packet = &from->link[at];
    if (fate == DELIVERED || fate == REPEATED)
        deliver(from, packet->bytes, packet->length);
    if (fate == CHANGED) {
        memcpy(changed, packet->bytes, packet->length);
        deliver(from, changed, change(changed, packet->length));
    }
    if (fate != REPEATED)
        forget(from, at);
}

/* An answer to the last request to reset streams, or a request for some (RFC 6525, section 4). */
static void deliver_reconfig(struct side *from) {
    uint8_t packet[12 + 28] = { 0 };
    uint8_t *chunk = packet + 12;
    const int is_answer = byte() % 2;
    const size_t streams = is_answer ? 0 : byte() % 5, length = is_answer ? 16 : 20 + 2 * streams;
    memcpy(packet, from->header, 12);
    chunk[0] = 130;
    put_u16(chunk + 2, (uint32_t)length);
    put_u16(chunk + 4, is_answer ? 16 : 13);
    put_u16(chunk + 6, (uint32_t)length - 4);
    put_u32(chunk + 8, (is_answer ? other(from) : from)->reconfig + byte() % 4 - 1u);
    put_u32(chunk + 12, byte() % 8);
    for (size_t i = 0; i < streams; i++)
        put_u16(chunk + 20 + 2 * i, byte() % 8);
    put_checksum(packet, 12 + (length + 3) / 4 * 4);
    deliver(from, packet, 12 + (length + 3) / 4 * 4);
}

static void advance(uint64_t to) {
    now = to;
    for (int i = 0; i < 2; i++)
        CALL(&sides[i], COMMAND, dcsctp_advance_time, now);
}

static void advance_to_deadline(void) {
    uint64_t first = DCSCTP_NEVER;
    for (int i = 0; i < 2; i++) {
        uint64_t deadline = 0;
        take_all(&sides[i]);
        EXPECT("a deadline", CALL(&sides[i], 0, dcsctp_poll_timeout, &deadline) == DCSCTP_OK);
        EXPECT("a deadline", sides[i].has_failed || deadline >= now);
        first = deadline < first && deadline >= now ? deadline : first;
    }
    if (first < DCSCTP_NEVER / 2)
        advance(first);
}

/* ---- The peer, without channels ------------------------------------------------------------- */

/* An OPEN (RFC 8832, section 5.1), whose fields may be wrong. Returns its length. */
static size_t write_open(uint8_t *bytes) {
    static const uint8_t types[] = { 0, 0x80, 1, 0x81, 2, 0x82, 3, 0xff };
    const uint8_t how = byte();
    const size_t label = byte() % 16, protocol = byte() % 8;
    size_t length = 12 + label + protocol;
    memset(bytes, 'x', LONGEST);
    bytes[0] = OPEN;
    bytes[1] = types[how % 8];
    put_u16(bytes + 2, byte());
    put_u32(bytes + 4, byte());
    put_u16(bytes + 8, (uint32_t)label);
    put_u16(bytes + 10, (uint32_t)protocol);
    if (how & 32)
        bytes[byte() % 12] = byte();
    if (how & 64)
        length = byte() % (length + 4) + 1;
    return length;
}

/* Sends any message on any stream. Most are control messages, or on the streams that the peer gives. */
static void send_plainly(struct side *side) {
    static const uint32_t ppids[] = { 51, 53, 56, 57, CONTROL, 52, 54, 0 };
    static const uint16_t streams[] = { 1, 3, 0, 2, 5, 4, 7, 65535 };
    uint8_t bytes[LONGEST];
    dcsctp_send_options how = DCSCTP_SEND_INIT;
    const uint8_t what = byte();
    const uint16_t stream = ONE_OF(streams);
    uint32_t ppid = CONTROL;
    size_t length = 1;
    how.flags = what & 128 ? DCSCTP_SEND_UNORDERED : 0;
    if (what % 4 == 0) {
        length = write_open(bytes);
    } else if (what % 4 == 1) {
        bytes[0] = ACK;
    } else {
        ppid = ONE_OF(ppids);
        length = byte() % LONGEST + 1;
        memset(bytes, byte(), length);
    }
    CALL(side, COMMAND | MAY(MESSAGE_TOO_LARGE) | MAY(SHUTTING_DOWN) | MAY(RESOURCE_EXHAUSTION),
         dcsctp_send, stream, ppid, bytes, length, &how);
}

static void reset_plainly(struct side *side) {
    uint16_t streams[4];
    const size_t count = byte() % 4 + 1;
    for (size_t i = 0; i < count; i++)
        streams[i] = byte() % 8;
    CALL(side, COMMAND | MAY(NOT_CONNECTED) | MAY(NOT_SUPPORTED), dcsctp_reset_streams, streams,
         count);
}

/* ---- Calls of channels ---------------------------------------------------------------------- */

/* A channel that was named, or not. */
static uint64_t any_channel(const struct side *side) {
    return byte() % (side->last_name + 2);
}

static void open_one(struct side *side) {
    static const char text[64];
    dcsctp_channel_options options = DCSCTP_CHANNEL_OPTIONS_INIT;
    const uint8_t how = byte();
    uint64_t channel = 0;
    options.label = options.protocol = text;
    options.label_length = byte() % 64;
    options.protocol_length = how & 64 ? 9 : 0;
    options.reliability = how % 4;
    options.limit = byte();
    options.is_unordered = how >> 2 & 1;
    options.is_negotiated = how >> 3 & 1;
    options.stream = options.is_negotiated ? byte() % 8 : 0;
    options.reserved = (how & 240) == 240;
    CALL(side, COMMAND | MAY(INVALID_OPTIONS) | MAY(MESSAGE_TOO_LARGE) | MAY(ENDED) |
                   MAY(STREAM_IN_USE), dcsctp_channel_open, &options, &channel);
    EXPECT("a number, or an error", (channel != 0) == (result_of_call == DCSCTP_OK));
    EXPECT("the end", !side->has_ended || result_of_call < 0);
    if (channel != 0)
        name(side, channel, OWN);
}

static void send_one(struct side *side) {
    static const uint8_t bytes[3000];
    const uint64_t channel = any_channel(side);
    const uint8_t how = byte();
    CALL(side, COMMAND | MAY(INVALID_SEND_OPTIONS) | MAY(NO_CHANNEL) | MAY(MESSAGE_TOO_LARGE) |
                   MAY(SHUTTING_DOWN) | MAY(RESOURCE_EXHAUSTION),
         dcsctp_channel_send, channel, how % 4, bytes, how & 4 ? how * 11u : how / 8u);
    EXPECT("a channel that lives",
           result_of_call < 0 || (channel > 0 && *life_of(side, channel) != OVER));
}

static void close_one(struct side *side) {
    CALL(side, COMMAND, dcsctp_channel_close, any_channel(side));
}

/* The queries, of any channel. */
static void query(struct side *side) {
    dcsctp_channel_metrics metrics = { .size = sizeof metrics };
    const uint64_t channel = any_channel(side);
    const int is_over = channel == 0 || *life_of(side, channel) == OVER;
    uint16_t stream;
    size_t amount, count;
    CALL_TO(3, side, 0, dcsctp_channel_state, channel);
    EXPECT("a state", !is_over || result_of_call == DCSCTP_CHANNEL_CLOSED);
    CALL(side, MAY(NO_CHANNEL), dcsctp_channel_stream, channel, &stream);
    EXPECT("a stream", !is_over || result_of_call < 0);
    CALL(side, MAY(NO_CHANNEL), dcsctp_channel_buffered_amount, channel, &amount);
    CALL(side, MAY(NO_CHANNEL), dcsctp_channel_get_metrics, channel, &metrics);
    EXPECT("metrics", !is_over || result_of_call < 0);
    CALL(side, 0, dcsctp_channel_count, &count);
    EXPECT("streams in use", count <= 65535);
    CALL(side, COMMAND | MAY(NO_CHANNEL), dcsctp_channel_set_buffered_amount_low_threshold, channel,
         byte());
}

static void set_role(struct side *side, int is_client) {
    CALL(side, COMMAND, dcsctp_channel_set_role, is_client);
}

/* ---- Operations ----------------------------------------------------------------------------- */

/* An operation of an end with channels, or of one without. */
static void use(struct side *side, unsigned operation) {
    static void (*const of_channels[])(struct side *) = { open_one, send_one, close_one, query };
    if (side->has_channels)
        of_channels[operation % 4](side);
    else if (operation % 4 == 3)
        reset_plainly(side);
    else
        send_plainly(side);
}

static void end_some(struct side *side) {
    const uint8_t how = byte();
    if (how % 4 == 0)
        CALL_ALONE(side, COMMAND, dcsctp_shutdown);
    else if (how % 4 == 1)
        CALL_ALONE(side, COMMAND, dcsctp_close);
    else if (how % 4 == 2)
        until_refused = byte();
    else
        CALL_ALONE(side, COMMAND, dcsctp_connect);
}

static void operate(uint8_t code) {
    static const uint64_t steps[] = { 200 * MILLISECONDS, 20 * MILLISECONDS, SECONDS, 10 * SECONDS };
    struct side *side = &sides[code >> 7];
    const unsigned operation = code % 128 % 21;
    if (operation < 12)
        use(side, operation);
    else if (operation == 12)
        take_one(side);
    else if (operation == 13)
        settle_all();
    else if (is_honest && (operation == 17 || operation == 19))
        settle_all();
    else if (operation < 18)
        deliver_one(side, (enum fate)(operation - 14));
    else if (operation == 18)
        byte() % 2 ? advance_to_deadline() : advance(now + ONE_OF(steps));
    else if (operation == 19)
        deliver_reconfig(side);
    else
        end_some(side);
}

/* ---- A run ---------------------------------------------------------------------------------- */

static void create_side(struct side *side, uint8_t seed, uint8_t switches) {
    static const dcsctp_channel_limits small = { sizeof small, 200, 10, 3 };
    static const dcsctp_channel_limits large = { sizeof large, 262144, 1024, 1024 };
    uint8_t seeds[32] = { seed };
    memset(side, 0, sizeof *side);
    side->options = quiet_options();
    side->options.follow_rfc = !(switches & 1);
    side->options.enable_message_interleaving = switches >> 1 & 1;
    if (switches & 4)
        side->options.announced_maximum_incoming_streams =
            side->options.announced_maximum_outgoing_streams = 6;
    if (switches & 8)
        side->options.max_send_buffer_size = 300;
    EXPECT("create", dcsctp_create(&side->socket, &side->options, seeds, now) == DCSCTP_OK);
    side->limits = switches & 16 ? large : small;
}

static void begin(struct side *side, int is_client) {
    side->has_channels = 1;
    EXPECT("begin", CALL(side, MAY(FAILED), dcsctp_channel_begin, &side->limits) == DCSCTP_OK);
    CALL(side, COMMAND, dcsctp_advance_time, now);
    set_role(side, is_client);
}

/* An end with channels can be ended, whatever happened. */
static void check_end(struct side *side) {
    until_refused = 0;
    CALL_ALONE(side, COMMAND, dcsctp_close);
    take_all(side);
    while (side->under_way > 0)
        forget(side, 0);
    EXPECT("it ends", !side->has_channels || side->has_failed || side->has_ended ||
                          (!side->is_connected && side->last_name == 0) ||
                          dcsctp_state(&side->socket) == DCSCTP_STATE_CLOSED);
    dcsctp_destroy(&side->socket);
}

int LLVMFuzzerTestOneInput(const uint8_t *bytes, size_t length) {
    const long blocks_before = blocks;
    input = bytes;
    input_left = length;
    now = BEGIN;
    until_refused = 0;
    const uint8_t switches = byte(), more = byte();
    is_honest = more >> 5 & 1;
    for (uint8_t i = 0; i < 2; i++)
        create_side(&sides[i], (uint8_t)(i + 1), switches);
    begin(&sides[0], !(more & 1));
    if (more & 2)
        begin(&sides[1], more & 4);
    CALL_ALONE(&sides[0], COMMAND, dcsctp_connect);
    if (!(more & 8))
        settle_all();
    for (int i = 0; i < OPERATIONS && input_left > 0; i++) {
        operate(byte());
        if (!(more & 16)) {
            take_all(&sides[0]);
            take_all(&sides[1]);
        }
    }
    settle_all();
    check_end(&sides[0]);
    check_end(&sides[1]);
    EXPECT("memory that is given back", blocks == blocks_before);
    return 0;
}

#ifndef WITH_LIBFUZZER

/* A number below 256 (splitmix64). */
static uint8_t next_byte(uint64_t *state) {
    uint64_t z = *state += UINT64_C(0x9e3779b97f4a7c15);
    z = (z ^ (z >> 30)) * UINT64_C(0xbf58476d1ce4e5b9);
    z = (z ^ (z >> 27)) * UINT64_C(0x94d049bb133111eb);
    return (uint8_t)(z >> 40);
}

int main(int argc, char **argv) {
    const uint64_t count = argc > 1 ? strtoull(argv[1], NULL, 10) : 1000;
    const uint64_t first = argc > 2 ? strtoull(argv[2], NULL, 10) : 1;
    for (uint64_t i = 0; i < count; i++) {
        static uint8_t bytes[1200];
        uint64_t state = (first + i) * 977;
        for (size_t k = 0; k < sizeof bytes; k++)
            bytes[k] = next_byte(&state);
        LLVMFuzzerTestOneInput(bytes, sizeof bytes);
    }
    printf("fuzz_channels: %" PRIu64 " inputs, none failed\n", count);
    return 0;
}

#endif
