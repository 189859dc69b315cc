/* Calls two sockets as the bytes of an input say, and checks what each call does. scripts/fuzz.sh
 * links it with libFuzzer, and with --wrap=malloc,--wrap=realloc,--wrap=free.
 *
 * An input begins with a byte of switches, and with the options of both ends. Then each byte is an
 * operation, and its arguments follow. Zeros are the default options, and missing bytes are zeros.
 */
#include "fuzzing.h"
#include "pair.h"
#include "refusing.h"

#include <dcsctp_checksum.h>

enum {
    LONGEST_MESSAGE = 70000, /* that is sent */
    LINK = 64,               /* packets under way from one end */
    SENT = 512,              /* messages of one end */
    STREAMS = 10,
    OPERATIONS = 400,
    BYTES_SENT = 400000,     /* by one end */
    SNAPSHOT = 1 << 20,
    GUARD = 64           /* bytes on both sides of a buffer */
};

/* ---- Two ends ------------------------------------------------------------------------------- */

struct packet {
    uint8_t *bytes;
    size_t length;
};

struct sent {
    uint32_t length, ppid;
    uint16_t stream_id;
    uint8_t is_ordered, is_read;
};

struct side {
    dcsctp_socket socket;
    dcsctp_options options;
    struct packet link[LINK]; /* packets under way to the other end */
    size_t under_way;
    uint8_t header[12];       /* of the last packet */
    struct sent sent[SENT];
    size_t sent_count, bytes_sent;
    size_t next[STREAMS];     /* of each stream, the ordered message that is read next */
    uint8_t snapshot[SNAPSHOT];
    size_t snapshot_length;
    int has_failed, was_open, has_connected;
};

static struct side sides[2];
static uint64_t now;
static int is_faithful; /* does each end read what the other sent, in its order? */
static int is_eager;    /* are events taken after each operation? */
static int is_honest;   /* are operations left out that would end that? */

static struct side *other(const struct side *side) {
    return &sides[side == &sides[0]];
}

/* ---- Calls ---------------------------------------------------------------------------------- */

static uint32_t until_refused; /* which allocation of the library is refused; 0: none */
static unsigned refused;       /* how many were, in all */
static int is_inside;          /* is this a call of the library? */

static int is_refused(size_t size) {
    (void)size;
    if (!is_inside || until_refused == 0 || --until_refused > 0)
        return 0;
    refused++;
    return 1;
}

#define MAY(error) (1u << -DCSCTP_ERROR_##error)
/* What commands may return. */
#define COMMAND (MAY(FAILED) | MAY(OUT_OF_MEMORY))

static unsigned refused_before;

/* Checks a result: the header names it for this call, and its reason holds. */
static int32_t checked(struct side *side, const char *call, int32_t result, int32_t most,
                       uint32_t may) {
    const int is_short = refused != refused_before, had_failed = side->has_failed;
    refused_before = refused;
    side->has_failed = dcsctp_has_failed(&side->socket);
    EXPECT(call, result <= most && result > -32);
    EXPECT(call, result >= 0 || (may & 1u << -result));
    EXPECT(call, strcmp(dcsctp_error_text(result), "unknown") != 0);
    EXPECT(call, result != DCSCTP_ERROR_OUT_OF_MEMORY || is_short);
    EXPECT(call, result != DCSCTP_ERROR_FAILED || had_failed);
    EXPECT(call, !had_failed || result != DCSCTP_OK || !(may & MAY(FAILED)));
    EXPECT(call, side->has_failed == had_failed ||
                     (side->has_failed == 1 && result == DCSCTP_ERROR_OUT_OF_MEMORY));
    if (side->has_failed)
        is_faithful = 0;
    saw(1, (uint32_t)(call[7] * 256 + call[9]), (uint32_t)result);
    return result;
}

static int32_t result_of_call;
#define CALL_TO(most, side, may, call, ...)                                                        \
    (is_inside = 1, result_of_call = call(&(side)->socket, __VA_ARGS__), is_inside = 0,            \
     checked(side, #call, result_of_call, most, may))
#define CALL(...) CALL_TO(0, __VA_ARGS__)
#define CALL_ALONE(side, may, call)                                                                \
    (is_inside = 1, result_of_call = call(&(side)->socket), is_inside = 0,                         \
     checked(side, #call, result_of_call, 0, may))

/* A buffer with a guard on both sides. */
_Alignas(8) static uint8_t buffer[GUARD + SNAPSHOT + GUARD];

static uint8_t *guarded(size_t capacity) {
    memset(buffer, 0xa5, GUARD);
    memset(buffer + GUARD + capacity, 0xa5, GUARD);
    return buffer + GUARD;
}

static void check_guards(const char *call, size_t capacity) {
    for (size_t i = 0; i < GUARD; i++)
        EXPECT(call, buffer[i] == 0xa5 && buffer[GUARD + capacity + i] == 0xa5);
}

typedef int32_t copies(const dcsctp_socket *, uint8_t *, size_t, size_t *);

static int32_t streams(const dcsctp_socket *socket, uint8_t *bytes, size_t capacity,
                       size_t *count) {
    int32_t result = dcsctp_event_streams(socket, (uint16_t *)(void *)bytes, capacity / 2, count);
    *count *= 2;
    return result;
}

/* Copies so many bytes: first to a buffer that is too small by one, then to one that fits. */
static const uint8_t *copied(struct side *side, const char *name, copies *call, size_t length) {
    size_t written = SIZE_MAX / 4;
    EXPECT(name, length <= SNAPSHOT);
    uint8_t *to = guarded(length > 0 ? length - 1 : 0);
    if (length > 0) {
        EXPECT(name,
               call(&side->socket, to, length - 1, &written) == DCSCTP_ERROR_BUFFER_TOO_SMALL);
        EXPECT(name, written == length);
        check_guards(name, length - 1);
    }
    to = guarded(length);
    EXPECT(name, call(&side->socket, to, length, &written) == DCSCTP_OK && written == length);
    check_guards(name, length);
    return to;
}

/* Is it UTF-8? Forms that are too long are accepted, but for those of two bytes. */
static int is_utf8(const uint8_t *text, size_t length) {
    for (size_t i = 0, more; i < length; i += 1 + more) {
        const uint8_t first = text[i];
        more = first < 0x80 ? 0 : first < 0xe0 ? 1 : first < 0xf0 ? 2 : 3;
        if ((first >= 0x80 && first < 0xc2) || first > 0xf4 || more >= length - i)
            return 0;
        for (size_t k = 1; k <= more; k++)
            if ((text[i + k] & 0xc0) != 0x80)
                return 0;
    }
    return 1;
}

/* ---- What an end has ------------------------------------------------------------------------ */

static void forget(struct side *side, size_t at) {
    free(side->link[at].bytes);
    side->under_way--;
    memmove(&side->link[at], &side->link[at + 1], (side->under_way - at) * sizeof *side->link);
}

/* Keeps a packet until it is delivered. If there are too many, it is lost. */
static void keep(struct side *side, const uint8_t *bytes, size_t length) {
    memcpy(side->header, bytes, sizeof side->header);
    for (size_t at = 12; at + 4 <= length; at += (u16_at(bytes + at + 2) + 3) / 4 * 4) {
        saw(2, bytes[at], bytes[at + 1]);
        if (u16_at(bytes + at + 2) < 4)
            break;
    }
    if (side->under_way == LINK)
        return;
    struct packet *to = &side->link[side->under_way++];
    to->bytes = malloc(length);
    to->length = length;
    memcpy(to->bytes, bytes, length);
}

/* Takes an event. Returns its kind. */
static uint32_t take_event(struct side *side) {
    dcsctp_event event;
    static uint8_t finished[65535];
    const uint8_t *view, *bytes;
    size_t length;
    int32_t taken = CALL_TO(1, side, 0, dcsctp_poll_event, &event);
    EXPECT("an event", taken == (event.kind != DCSCTP_EVENT_NONE) && event.kind < KINDS);
    EXPECT("an event",
           event.error_kind <= DCSCTP_KIND_UNSUPPORTED_OPERATION && event.reserved == 0);
    EXPECT("an event", event.stream_id == 0 || (event.kind == DCSCTP_EVENT_BUFFERED_AMOUNT_LOW &&
                                                event.stream_id < 65536));
    EXPECT("an event",
           (event.lifecycle_id != 0) == (event.kind >= DCSCTP_EVENT_LIFECYCLE_FULLY_SENT));
    EXPECT("an event", (event.error_kind != 0) == (event.kind == DCSCTP_EVENT_ABORTED ||
                                                   event.kind == DCSCTP_EVENT_ERROR));
    saw(3, event.kind, event.error_kind);
    switch (event.kind) {
    case DCSCTP_EVENT_SEND_PACKET:
        EXPECT("a packet", event.length >= 12 && event.length <= side->options.mtu);
        bytes = copied(side, "dcsctp_event_bytes", dcsctp_event_bytes, event.length);
        EXPECT("a packet", CALL(side, 0, dcsctp_event_view, &view, &length) == DCSCTP_OK);
        EXPECT("a packet", length == event.length && memcmp(view, bytes, length) == 0);
        if (side->options.checksum_offload) {
            EXPECT("no checksum", u32_at(bytes + 8) == 0);
            memcpy(finished, bytes, length);
            EXPECT("finished", dcsctp_finish_packet(finished, length));
            bytes = finished;
        }
        EXPECT("a checksum", dcsctp_check_packet(bytes, length, side->options.zero_checksum_method));
        keep(side, bytes, length);
        break;
    case DCSCTP_EVENT_ABORTED:
    case DCSCTP_EVENT_ERROR:
        bytes = copied(side, "dcsctp_event_bytes", dcsctp_event_bytes, event.length);
        EXPECT("a text", is_utf8(bytes, event.length));
        if (event.length > 12)
            saw(4, u32_at(bytes), u32_at(bytes + 8));
        break;
    case DCSCTP_EVENT_STREAMS_RESET_FAILED:
    case DCSCTP_EVENT_STREAMS_RESET_PERFORMED:
    case DCSCTP_EVENT_INCOMING_STREAM_RESET:
        copied(side, "dcsctp_event_streams", streams, event.length * 2);
        break;
    default:
        EXPECT("an event without bytes", event.length == 0);
        EXPECT("an event without bytes", CALL(side, MAY(NOTHING_TO_COPY), dcsctp_event_view, &view,
                                              &length) == DCSCTP_ERROR_NOTHING_TO_COPY);
    }
    return event.kind;
}

static void take_events(struct side *side) {
    while (take_event(side) != DCSCTP_EVENT_NONE)
        ;
}

/* The bytes of a message: if there are more than four, the first four are its number. */
static void fill(uint8_t *bytes, uint32_t number, size_t length) {
    for (size_t i = 0; i < length; i++)
        bytes[i] = (uint8_t)(number * 7 + i * 13 + i / 256);
    if (length > 4)
        put_u32(bytes, number);
}

static const uint16_t numbers[STREAMS] = { 0, 1, 2, 3, 4, 5, 100, 1000, 65534, 65535 };

/* Checks a message that was read against what the other end sent. */
static void check_message(struct side *from, const dcsctp_message *message, const uint8_t *bytes) {
    static uint8_t expected[LONGEST_MESSAGE];
    size_t stream = 0;
    while (stream < STREAMS && numbers[stream] != message->stream_id)
        stream++;
    EXPECT("a stream that was used", stream < STREAMS);
    size_t *next = &from->next[stream];
    while (*next < from->sent_count &&
           !(from->sent[*next].is_ordered && from->sent[*next].stream_id == message->stream_id))
        ++*next;
    size_t number = message->length > 4 ? u32_at(bytes) : *next;
    EXPECT("a message that was sent", number < from->sent_count);
    struct sent *sent = &from->sent[number];
    EXPECT("a message that was sent",
           sent->length == message->length && sent->ppid == message->ppid);
    EXPECT("a message that was sent", sent->stream_id == message->stream_id && !sent->is_read);
    fill(expected, (uint32_t)number, sent->length);
    EXPECT("the bytes that were sent", memcmp(expected, bytes, sent->length) == 0);
    sent->is_read = 1;
    saw(8, (uint32_t)stream, *next < 16 ? (uint32_t)*next : 16);
    if (sent->is_ordered) {
        EXPECT("the order in which it was sent", number == *next);
        ++*next;
    }
}

static void take_messages_of(struct side *side) {
    dcsctp_message message;
    const uint8_t *view;
    size_t length, ready = 0, taken = 0;
    CALL(side, 0, dcsctp_messages_ready_count, &ready);
    while (CALL_TO(1, side, 0, dcsctp_get_next_message, &message) == 1) {
        EXPECT("a message", message.length > 0 && message.reserved == 0);
        const uint8_t *bytes =
            copied(side, "dcsctp_message_bytes", dcsctp_message_bytes, message.length);
        EXPECT("a message", CALL(side, 0, dcsctp_message_view, &view, &length) == DCSCTP_OK);
        EXPECT("a message", length == message.length && memcmp(view, bytes, length) == 0);
        if (is_faithful)
            check_message(other(side), &message, bytes);
        taken++;
    }
    EXPECT("no message", message.length == 0);
    EXPECT("messages that are ready", side->has_failed || taken == ready);
    saw(5, taken < 8 ? (uint32_t)taken : 8, 0);
}

/* ---- Operations ----------------------------------------------------------------------------- */

static void deliver(struct side *from, const uint8_t *bytes, size_t length) {
    /* (an exact copy, so that a read past its end is found) */
    uint8_t *copy = malloc(length + (length == 0));
    memcpy(copy, bytes, length);
    take_messages_of(other(from));
    CALL(other(from), COMMAND, dcsctp_handle_input, copy, length);
    free(copy);
}

/* Delivers all packets, until there are none. */
static void settle_all(void) {
    for (int left = 200; left > 0; left--) {
        struct side *from = &sides[left % 2];
        take_events(&sides[0]);
        take_events(&sides[1]);
        if (from->under_way == 0)
            from = other(from);
        if (from->under_way == 0)
            break;
        deliver(from, from->link[0].bytes, from->link[0].length);
        forget(from, 0);
    }
    take_messages_of(&sides[0]);
    take_messages_of(&sides[1]);
}

enum fate { DELIVERED, REPEATED, LOST, CHANGED };

static void deliver_one(struct side *from, enum fate fate) {
    static uint8_t changed[LONGEST_PACKET];
    if (from->under_way == 0)
        take_events(from);
    if (from->under_way == 0)
        return;
    size_t at = byte() % from->under_way;
    struct packet *packet = &from->link[at];
    if (fate == DELIVERED || fate == REPEATED)
        deliver(from, packet->bytes, packet->length);
    if (fate == CHANGED) {
        size_t length = packet->length;
        memcpy(changed, packet->bytes, length);
        const uint8_t how = byte();
        for (int left = how % 8; left >= 0; left--) {
            size_t place = two_bytes() % length;
            changed[place] = how & 8 ? byte() : (uint8_t)(changed[place] ^ byte());
        }
        if (how & 16)
            length -= byte() % length;
        if (!(how & 32) && length >= 12)
            put_checksum(changed, length);
        is_faithful = 0;
        deliver(from, changed, length);
    }
    if (fate != REPEATED)
        forget(from, at);
}

/* Delivers bytes of the input: as they are, or as chunks behind the header of the last packet. */
static void deliver_bytes(struct side *from) {
    static uint8_t raw[12 + 256];
    const uint8_t how = byte();
    size_t length = byte(), at = how & 1 ? 0 : 12;
    memcpy(raw, from->header, 12);
    for (size_t i = 0; i < length; i++)
        raw[at + i] = byte();
    length += at;
    if (at)
        put_checksum(raw, length);
    is_faithful = 0;
    deliver(from, raw, length);
}

static void advance(uint64_t to) {
    now = to;
    for (int i = 0; i < 2; i++)
        CALL(&sides[i], COMMAND, dcsctp_advance_time, now);
}

static void advance_to_deadline(void) {
    uint64_t first = DCSCTP_NEVER;
    for (int i = 0; i < 2; i++) {
        uint64_t deadline = 0;
        EXPECT("a deadline", CALL(&sides[i], 0, dcsctp_poll_timeout, &deadline) == DCSCTP_OK);
        EXPECT("a deadline", sides[i].has_failed || deadline >= now);
        if (deadline < first && deadline >= now)
            first = deadline;
    }
    if (first < DCSCTP_NEVER / 2)
        advance(first);
}

/* What is sent: of these lengths, on one of the streams. */
static const uint32_t lengths[] = { 10,   1,    2,    4,    5,    100,   1000,  1150,
                                    1163, 1164, 1200, 2400, 5000, 30000, 66000, 0 };

#define SEND_ERRORS                                                                                \
    (COMMAND | MAY(INVALID_SEND_OPTIONS) | MAY(EMPTY_PAYLOAD) | MAY(MESSAGE_TOO_LARGE) |           \
     MAY(SHUTTING_DOWN) | MAY(RESOURCE_EXHAUSTION))

static void send_some(struct side *side, size_t count) {
    static uint8_t payloads[4][LONGEST_MESSAGE];
    dcsctp_outgoing_message messages[4];
    dcsctp_send_options how = DCSCTP_SEND_INIT;
    int32_t results[4] = { DCSCTP_OK, DCSCTP_OK, DCSCTP_OK, DCSCTP_OK }, result;
    const uint8_t flags = byte() & (is_honest ? DCSCTP_SEND_UNORDERED | 8 : 255);
    how.flags = flags & 7u;
    how.lifecycle_id = flags & 8 ? side->sent_count + 1 : 0;
    how.lifetime = flags & 2 ? (flags & 16 ? 100 * MILLISECONDS : 0) : 0;
    how.max_retransmissions = flags >> 5 & 1;
    if (flags >> 6 == 3)
        how.flags |= byte() * 2u, how.reserved = byte() == 9;
    for (size_t i = 0; i < count; i++) {
        const uint16_t what = two_bytes();
        size_t length = lengths[what % (sizeof lengths / sizeof *lengths)];
        if (flags & DCSCTP_SEND_UNORDERED && length > 0 && length < 5)
            length = 5;
        if (side->bytes_sent + length > BYTES_SENT || side->sent_count + i >= SENT)
            return;
        side->bytes_sent += length;
        messages[i].stream_id = numbers[what / 256 % STREAMS];
        messages[i].ppid = 50 + what / 16 % 16;
        messages[i].length = length;
        messages[i].payload = payloads[i];
        messages[i].reserved = 0;
        fill(payloads[i], (uint32_t)(side->sent_count + i), length);
    }
    if (how.flags & (DCSCTP_SEND_LIFETIME | DCSCTP_SEND_MAX_RETRANSMISSIONS))
        is_faithful = 0;
    if (count == 1)
        result = results[0] = CALL(side, SEND_ERRORS, dcsctp_send, messages[0].stream_id,
                                   messages[0].ppid, payloads[0], messages[0].length, &how);
    else
        result = CALL(side, SEND_ERRORS | MAY(BUFFER_TOO_SMALL), dcsctp_send_many, messages, count,
                      &how, results, count - (flags >> 6 == 2));
    if (result < 0 && count > 1 &&
        (flags >> 6 == 2 || result == DCSCTP_ERROR_INVALID_SEND_OPTIONS ||
         result == DCSCTP_ERROR_OUT_OF_MEMORY || result == DCSCTP_ERROR_FAILED))
        return;
    /* (the number of one that was refused is skipped) */
    for (size_t i = 0; i < count; i++) {
        EXPECT("a result", results[i] <= 0 && results[i] > -32 &&
                               (results[i] == 0 || SEND_ERRORS & 1u << -results[i]));
        struct sent *sent = &side->sent[side->sent_count++];
        sent->length = (uint32_t)messages[i].length;
        sent->ppid = messages[i].ppid;
        sent->stream_id = results[i] == DCSCTP_OK ? messages[i].stream_id : 9;
        sent->is_ordered = !(how.flags & DCSCTP_SEND_UNORDERED);
        sent->is_read = 0;
    }
}

static void reset(struct side *side) {
    uint16_t stream_ids[4];
    size_t count = byte() % 5;
    for (size_t i = 0; i < count; i++)
        stream_ids[i] = ONE_OF(numbers);
    is_faithful = 0;
    CALL(side, COMMAND | MAY(NOT_CONNECTED) | MAY(NOT_SUPPORTED), dcsctp_reset_streams, stream_ids,
         count);
}

static uint32_t created; /* how many sockets, in this run */

/* Each has another seed, so no verification tag is drawn again. */
static void create_socket(dcsctp_socket *socket, const dcsctp_options *options) {
    uint8_t seeds[32] = { 0 };
    put_u32(seeds, ++created);
    EXPECT("dcsctp_create", dcsctp_create(socket, options, seeds, now) == DCSCTP_OK);
    EXPECT("dcsctp_create",
           dcsctp_create(socket, options, seeds, now) == DCSCTP_ERROR_ALREADY_CREATED);
}

/* Destroys a socket, after which no call finds one, and creates another. */
static void create_again(struct side *side) {
    dcsctp_event event;
    dcsctp_destroy(&side->socket);
    dcsctp_destroy(&side->socket);
    EXPECT("no socket", dcsctp_poll_event(&side->socket, &event) == DCSCTP_ERROR_NO_SOCKET);
    EXPECT("no socket", dcsctp_connect(&side->socket) == DCSCTP_ERROR_NO_SOCKET);
    create_socket(&side->socket, &side->options);
    side->has_failed = 0;
    is_faithful = 0;
}

#define RESTORE_ERRORS (COMMAND | MAY(NOT_CLOSED) | MAY(INVALID_SNAPSHOT) | MAY(OTHER_OPTIONS))

/* Continues with another socket, as another process would. */
static void hand_over(struct side *side) {
    uint32_t reasons = UINT32_MAX;
    take_messages_of(side);
    const int32_t state = dcsctp_state(&side->socket);
    CALL(side, 0, dcsctp_get_handover_readiness, &reasons);
    EXPECT("reasons", (reasons & ~3807u) == 0);
    /* (what is queued on a closed socket isn't in its snapshot) */
    is_faithful &= state == DCSCTP_STATE_CONNECTED;
    saw(6, reasons, 0);
    const int32_t result =
        CALL_ALONE(side, COMMAND | MAY(NOT_READY), dcsctp_get_handover_state_and_close);
    EXPECT("readiness", side->has_failed || result == DCSCTP_ERROR_OUT_OF_MEMORY ||
                            (result == DCSCTP_ERROR_NOT_READY) == (reasons != 0));
    if (result != DCSCTP_OK)
        return;
    uint8_t *to = guarded(SNAPSHOT);
    size_t length = 0;
    if (CALL(side, MAY(OUT_OF_MEMORY), dcsctp_handover_bytes, to, SNAPSHOT, &length) == DCSCTP_OK) {
        memcpy(side->snapshot, to, length);
        side->snapshot_length = length;
    } else
        is_faithful = 0;
    check_guards("dcsctp_handover_bytes", SNAPSHOT);
    EXPECT("a socket that was handed over", dcsctp_state(&side->socket) == DCSCTP_STATE_CLOSED);
    take_events(side);
    dcsctp_destroy(&side->socket);
    create_socket(&side->socket, &side->options);
    if (length > 0 &&
        CALL(side, RESTORE_ERRORS, dcsctp_restore_from_state, side->snapshot, length) == DCSCTP_OK)
        EXPECT("a socket that continues", dcsctp_state(&side->socket) == state);
    else {
        EXPECT("a snapshot", length == 0 || result_of_call == DCSCTP_ERROR_OUT_OF_MEMORY);
        is_faithful = 0;
    }
}

/* Restores a third socket from changed bytes. */
static void restore_changed(struct side *side) {
    static struct side third;
    static uint8_t changed[SNAPSHOT];
    const uint8_t how = byte();
    size_t length = side->snapshot_length;
    if (length < 4)
        return;
    memcpy(changed, side->snapshot, length);
    for (int left = how % 8; left >= 0; left--)
        changed[two_bytes() % length] = byte();
    if (how & 8)
        length -= byte() % (length - 4);
    const int is_changed =
        length != side->snapshot_length || memcmp(changed, side->snapshot, length) != 0;
    if (how & 16)
        put_check_value(changed, length);
    memset(&third, 0, offsetof(struct side, snapshot));
    third.has_failed = third.was_open = 0;
    third.options = side->options;
    create_socket(&third.socket, &third.options);
    const int32_t result = CALL(&third, RESTORE_ERRORS, dcsctp_restore_from_state, changed, length);
    EXPECT("a changed snapshot", how & 16 || !is_changed ||
                                     result == DCSCTP_ERROR_INVALID_SNAPSHOT ||
                                     result == DCSCTP_ERROR_OUT_OF_MEMORY);
    CALL(&third, COMMAND, dcsctp_advance_time, now + 5 * SECONDS);
    take_events(&third);
    CALL_ALONE(&third, COMMAND, dcsctp_close);
    take_events(&third);
    while (third.under_way > 0)
        forget(&third, 0);
    dcsctp_destroy(&third.socket);
}

static void query(struct side *side) {
    dcsctp_metrics metrics = { .size = sizeof metrics };
    dcsctp_counts counts = { .size = sizeof counts };
    dcsctp_options options = { .size = sizeof options };
    const uint16_t stream_id = ONE_OF(numbers);
    size_t bytes;
    uint16_t priority;
    uint32_t tag;
    uint64_t deadline;
    EXPECT("metrics",
           CALL_TO(1, side, 0, dcsctp_get_metrics, &metrics) == 0 || metrics.reserved == 0);
    EXPECT("metrics", metrics.peer_implementation <= DCSCTP_PEER_OTHER);
    EXPECT("metrics", metrics.uses_message_interleaving <= 1 && metrics.uses_zero_checksum <= 1);
    CALL(side, 0, dcsctp_get_counts, &counts);
    CALL(side, 0, dcsctp_get_options, &options);
    EXPECT("options", options.mtu == side->options.mtu && options.checksum_offload <= 1);
    CALL(side, 0, dcsctp_buffered_amount, stream_id, &bytes);
    CALL(side, 0, dcsctp_buffered_amount_low_threshold, stream_id, &bytes);
    CALL(side, 0, dcsctp_get_stream_priority, stream_id, &priority);
    CALL(side, 0, dcsctp_poll_timeout, &deadline);
    EXPECT("a deadline", side->has_failed || deadline >= now);
    CALL(side, 0, dcsctp_verification_tag, &tag);
    EXPECT("a tag", side->has_failed ||
                        (tag == 0) == (dcsctp_state(&side->socket) == DCSCTP_STATE_CLOSED));
    metrics.size = counts.size = options.size = 1;
    CALL(side, MAY(WRONG_SIZE), dcsctp_get_metrics, &metrics);
    CALL(side, MAY(WRONG_SIZE), dcsctp_get_counts, &counts);
    CALL(side, MAY(WRONG_SIZE), dcsctp_get_options, &options);
}

static void set(struct side *side) {
    const uint16_t stream_id = ONE_OF(numbers), value = two_bytes();
    switch (byte() % 3) {
    case 0:
        CALL(side, COMMAND, dcsctp_set_buffered_amount_low_threshold, stream_id, value);
        break;
    case 1:
        CALL(side, COMMAND, dcsctp_set_stream_priority, stream_id, value);
        break;
    case 2:
        CALL(side, 0, dcsctp_set_max_message_size, value);
        side->options.max_message_size = value;
    }
}

/* If both ends connect, what one has in flight may be lost (RFC 9260, section 5.2.4, action B). */
static void connect_one(struct side *side) {
    if (is_honest && other(side)->has_connected)
        return;
    side->has_connected = 1;
    is_faithful &= !other(side)->has_connected;
    CALL_ALONE(side, COMMAND, dcsctp_connect);
}

static void operate(uint8_t code) {
    static const uint64_t steps[] = { 200 * MILLISECONDS, 1,       MILLISECONDS, 20 * MILLISECONDS,
                                      500 * MILLISECONDS, SECONDS, 10 * SECONDS, 60 * SECONDS,
                                      600 * SECONDS };
    struct side *side = &sides[code >> 7];
    const unsigned operation = code % 128 % 24;
    if (is_honest && ((operation >= 9 && operation <= 11) || (operation >= 14 && operation <= 16) ||
                      operation == 23))
        return;
    switch (operation) {
    case 0:
        settle_all();
        break;
    case 1:
        connect_one(side);
        break;
    case 2:
    case 3:
        send_some(side, 1);
        break;
    case 4:
        send_some(side, 2 + byte() % 3);
        break;
    case 5:
    case 6:
        deliver_one(side, DELIVERED);
        break;
    case 7:
        deliver_one(side, REPEATED);
        break;
    case 8:
        deliver_one(side, LOST);
        break;
    case 9:
    case 10:
        deliver_one(side, CHANGED);
        break;
    case 11:
        deliver_bytes(side);
        break;
    case 12:
        advance(now + ONE_OF(steps));
        break;
    case 13:
        advance_to_deadline();
        break;
    case 14:
        reset(side);
        break;
    case 15:
        CALL_ALONE(side, COMMAND, dcsctp_shutdown);
        break;
    case 16:
        CALL_ALONE(side, COMMAND, dcsctp_close);
        break;
    case 17:
        take_events(side);
        break;
    case 18:
        take_messages_of(side);
        break;
    case 19:
        hand_over(side);
        break;
    case 20:
        restore_changed(side);
        break;
    case 21:
        query(side);
        break;
    case 22:
        set(side);
        break;
    case 23:
        if (code % 3)
            until_refused = byte();
        else
            create_again(side);
    }
}

/* ---- A run ---------------------------------------------------------------------------------- */

/* Options that are valid. Returns whether two ends with these can connect. */
static int choose_options(dcsctp_options *options) {
    static const size_t mtus[] = { 1191, 1500, 1280, 576, 300, 120, 112, 104, 72, 33, 32, 65535 };
    static const size_t windows[] = { 5242880, 1500, 3000, 20000, 100000, 1, 0, UINT32_MAX };
    static const size_t buffers[] = { 2000000, 1, 1000, 5000, 100000, 0, UINT32_MAX };
    static const uint16_t stream_counts[] = { 65535, 1, 2, 6, 0, 1024 };
    static const uint64_t times[] = { 500 * MILLISECONDS, 0,           1, 10 * MILLISECONDS,
                                      60 * SECONDS,       DCSCTP_NEVER };
    static const int32_t bursts[] = { 4, 1, 2, 100, 0, -1, INT32_MAX };
    static const uint32_t limits[] = { 10, 0, 1, 3, DCSCTP_NO_LIMIT };
    const uint8_t changes = byte(), switches = byte();
    dcsctp_options_init(options);
    options->follow_rfc = !(switches & 1);
    options->enable_message_interleaving = switches & 2;
    options->enable_partial_reliability = !(switches & 4);
    options->zero_checksum_method = switches >> 3 & 1;
    options->disable_checksum_verification = switches & 16;
    options->enable_handover_with_outstanding_data = switches & 32;
    options->checksum_offload = switches & 64;
    if (changes & 1)
        options->mtu = ONE_OF(mtus);
    if (changes & 2)
        options->max_receiver_window_buffer_size = ONE_OF(windows);
    if (changes & 4) {
        options->max_send_buffer_size = ONE_OF(buffers);
        options->per_stream_send_queue_limit = ONE_OF(buffers);
        options->total_buffered_amount_low_threshold = ONE_OF(buffers);
        options->default_stream_buffered_amount_low_threshold = ONE_OF(buffers);
    }
    if (changes & 8) {
        options->announced_maximum_incoming_streams = ONE_OF(stream_counts);
        options->announced_maximum_outgoing_streams = ONE_OF(stream_counts);
    }
    if (changes & 16) {
        options->rto_initial = ONE_OF(times);
        options->rto_min = ONE_OF(times);
        options->rto_max = ONE_OF(times);
        options->delayed_ack_max_timeout = ONE_OF(times);
        options->max_timer_backoff_duration = ONE_OF(times);
    }
    if (changes & 32)
        options->heartbeat_interval = ONE_OF(times);
    if (changes & 64) {
        options->max_burst = ONE_OF(bursts);
        options->cwnd_mtus_initial = byte();
        options->cwnd_mtus_min = byte();
    }
    if (changes & 128) {
        options->max_retransmissions = ONE_OF(limits);
        options->max_init_retransmits = ONE_OF(limits);
    }
    return options->mtu >= 112 && options->max_receiver_window_buffer_size >= 1500 &&
           options->announced_maximum_incoming_streams > 0 &&
           options->announced_maximum_outgoing_streams > 0 && options->max_burst > 0;
}

/* Checks that an end answers, and whether its association has ended. */
static void check_side(struct side *side) {
    const int32_t state = dcsctp_state(&side->socket);
    EXPECT("dcsctp_state", state >= DCSCTP_STATE_CLOSED && state <= DCSCTP_STATE_SHUTTING_DOWN);
    if (side->was_open && state == DCSCTP_STATE_CLOSED)
        is_faithful = 0;
    side->was_open = state != DCSCTP_STATE_CLOSED;
    saw(7, (uint32_t)state, (uint32_t)dcsctp_state(&other(side)->socket));
    if (is_eager)
        take_events(side);
}

/* Whatever happened, each end can be closed. If no allocation failed, they connect then. */
static void check_end(int can_connect) {
    int has_failed = 0;
    until_refused = 0;
    for (int i = 0; i < 2; i++) {
        struct side *side = &sides[i];
        is_faithful = 0;
        take_messages_of(side);
        CALL_ALONE(side, COMMAND, dcsctp_close);
        take_events(side);
        take_messages_of(side);
        has_failed |= side->has_failed;
        EXPECT("closed", side->has_failed || dcsctp_state(&side->socket) == DCSCTP_STATE_CLOSED);
        while (side->under_way > 0)
            forget(side, 0);
    }
    if (has_failed || !can_connect)
        return;
    CALL_ALONE(&sides[0], COMMAND, dcsctp_connect);
    settle_all();
    for (int i = 0; i < 2; i++)
        EXPECT("connected", dcsctp_state(&sides[i].socket) == DCSCTP_STATE_CONNECTED);
}

int LLVMFuzzerTestOneInput(const uint8_t *bytes, size_t length) {
    const long blocks_before = blocks;
    int can_connect = 1;
    input = bytes;
    input_left = length;
    now = BEGIN;
    is_faithful = 1;
    const uint8_t switches = byte();
    is_eager = !(switches & 1);
    is_honest = switches & 2;
    until_refused = 0;
    created = 0;
    for (uint8_t i = 0; i < 2; i++) {
        struct side *side = &sides[i];
        memset(side, 0, offsetof(struct side, snapshot));
        side->snapshot_length = 0;
        side->has_failed = side->was_open = side->has_connected = 0;
        can_connect &= choose_options(&side->options);
        create_socket(&side->socket, &side->options);
    }
    for (int i = 0; i < OPERATIONS && input_left > 0; i++) {
        operate(byte());
        check_side(&sides[0]);
        check_side(&sides[1]);
    }
    check_end(can_connect);
    for (int i = 0; i < 2; i++) {
        while (sides[i].under_way > 0)
            forget(&sides[i], 0);
        dcsctp_destroy(&sides[i].socket);
    }
    EXPECT("memory that is given back", blocks == blocks_before);
    return 0;
}
