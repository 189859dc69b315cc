/* Each call of dcsctp.h where it is misused: without a socket, with a second one, with buffers of
 * each length, with messages that are refused. */
#include "pair.h"

/* Each call that needs a socket, on a `socket` that has none. It writes nothing. */
static void calls_without_socket(const char *name, dcsctp_socket *socket) {
    const dcsctp_send_options how = DCSCTP_SEND_INIT;
    const uint16_t one_stream = 1;
    const dcsctp_outgoing_message outgoing = {(const uint8_t *)"a", 1, 51, 1, 0};
    int32_t result = 77;
    uint8_t bytes[64], before[64];
    uint16_t streams[2] = {77, 77};
    dcsctp_event event;
    dcsctp_message message;
    dcsctp_options options;
    dcsctp_metrics metrics;
    dcsctp_counts counts;
    const uint8_t *view = before;
    size_t size = 77;
    uint64_t moment = 77;
    uint16_t priority = 77;
    uint32_t reasons = 77, tag = 77;
    memset(bytes, 77, sizeof bytes);
    memset(before, 77, sizeof before);
    memset(&event, 77, sizeof event);
    memset(&message, 77, sizeof message);
    memset(&options, 77, sizeof options);
    memset(&metrics, 77, sizeof metrics);
    options.size = sizeof options;
    metrics.size = sizeof metrics;
    memset(&counts, 77, sizeof counts);
    counts.size = sizeof counts;
    const dcsctp_options options_before = options;
    const dcsctp_metrics metrics_before = metrics;
    const dcsctp_counts counts_before = counts;
    const int32_t results[] = {
        dcsctp_connect(socket),
        dcsctp_shutdown(socket),
        dcsctp_close(socket),
        dcsctp_handle_input(socket, before, 12),
        dcsctp_advance_time(socket, 1),
        dcsctp_poll_timeout(socket, &moment),
        dcsctp_poll_event(socket, &event),
        dcsctp_event_bytes(socket, bytes, sizeof bytes, &size),
        dcsctp_event_view(socket, &view, &size),
        dcsctp_event_streams(socket, streams, 2, &size),
        dcsctp_messages_ready_count(socket, &size),
        dcsctp_get_next_message(socket, &message),
        dcsctp_message_bytes(socket, bytes, sizeof bytes, &size),
        dcsctp_message_view(socket, &view, &size),
        dcsctp_send(socket, 1, 51, before, 5, &how),
        dcsctp_send_many(socket, &outgoing, 1, &how, &result, 1),
        dcsctp_reset_streams(socket, &one_stream, 1),
        dcsctp_state(socket),
        dcsctp_has_failed(socket),
        dcsctp_verification_tag(socket, &tag),
        dcsctp_buffered_amount(socket, 1, &size),
        dcsctp_buffered_amount_low_threshold(socket, 1, &size),
        dcsctp_set_buffered_amount_low_threshold(socket, 1, 5),
        dcsctp_get_stream_priority(socket, 1, &priority),
        dcsctp_set_stream_priority(socket, 1, 5),
        dcsctp_set_max_message_size(socket, 5),
        dcsctp_get_options(socket, &options),
        dcsctp_get_metrics(socket, &metrics),
        dcsctp_get_counts(socket, &counts),
        dcsctp_get_handover_readiness(socket, &reasons),
        dcsctp_get_handover_state_and_close(socket),
        dcsctp_handover_bytes(socket, bytes, sizeof bytes, &size),
        dcsctp_restore_from_state(socket, before, sizeof before),
    };
    /* All 37, but for version, get_default_options, create and destroy. */
    EQUAL(name, sizeof results / sizeof results[0], 33);
    for (size_t i = 0; i < sizeof results / sizeof results[0]; i++)
        EQUAL(name, results[i], DCSCTP_ERROR_NO_SOCKET);
    EQUAL(name, size, 77);
    EQUAL(name, result, 77);
    EQUAL(name, moment, 77);
    EQUAL(name, priority, 77);
    EQUAL(name, reasons, 77);
    EQUAL(name, tag, 77);
    EQUAL(name, streams[0], 77);
    EQUAL(name, streams[1], 77);
    EQUAL(name, memcmp(bytes, before, sizeof bytes), 0);
    EQUAL(name, memcmp(&event, before, sizeof event), 0);
    EQUAL(name, memcmp(&message, before, sizeof message), 0);
    EQUAL(name, memcmp(&options, &options_before, sizeof options), 0);
    EQUAL(name, memcmp(&metrics, &metrics_before, sizeof metrics), 0);
    EQUAL(name, memcmp(&counts, &counts_before, sizeof counts), 0);
    EQUAL(name, view == before, 1);
    dcsctp_destroy(socket);
}

static void no_socket(void) {
    const dcsctp_socket zero = DCSCTP_SOCKET_INIT;
    const dcsctp_options options = quiet_options();
    struct end end;
    dcsctp_socket socket;
    memset(&socket, 0, sizeof socket);
    calls_without_socket("zero bytes", &socket);
    socket = zero;
    calls_without_socket("DCSCTP_SOCKET_INIT", &socket);
    EQUAL("create", create(&end, &options, 1, BEGIN), DCSCTP_OK);
    dcsctp_destroy(&end.socket);
    calls_without_socket("destroyed", &end.socket);
    EQUAL("create again", create(&end, &options, 1, BEGIN), DCSCTP_OK);
    EQUAL("state", dcsctp_state(&end.socket), DCSCTP_STATE_CLOSED);
    dcsctp_destroy(&end.socket);
}

/* A second socket is refused, and the first continues. So does one that was moved. */
static void second_socket(void) {
    const dcsctp_options options = quiet_options();
    const uint8_t seed[32] = {9};
    struct end end, moved;
    EQUAL("create", create(&end, &options, 1, BEGIN), DCSCTP_OK);
    EQUAL("connect", dcsctp_connect(&end.socket), DCSCTP_OK);
    EQUAL("second", dcsctp_create(&end.socket, &options, seed, BEGIN),
          DCSCTP_ERROR_ALREADY_CREATED);
    EQUAL("state", dcsctp_state(&end.socket), DCSCTP_STATE_CONNECTING);
    memset(&moved, 0, sizeof moved);
    moved.socket = end.socket;
    memset(&end, 0, sizeof end);
    EQUAL("no socket is left", dcsctp_state(&end.socket), DCSCTP_ERROR_NO_SOCKET);
    EQUAL("state", dcsctp_state(&moved.socket), DCSCTP_STATE_CONNECTING);
    EQUAL("an INIT is there", take(&moved), DCSCTP_EVENT_SEND_PACKET);
    dcsctp_destroy(&moved.socket);
}

/* The seed alone says which numbers are drawn: the tag and the first TSN of an INIT (RFC 9260,
 * section 3.3.2). */
static void seeds(void) {
    const dcsctp_options options = quiet_options();
    struct end one, same, other;
    EQUAL("create", create(&one, &options, 1, BEGIN), DCSCTP_OK);
    EQUAL("create", create(&same, &options, 1, BEGIN), DCSCTP_OK);
    EQUAL("create", create(&other, &options, 2, BEGIN), DCSCTP_OK);
    EQUAL("connect", dcsctp_connect(&one.socket), DCSCTP_OK);
    EQUAL("connect", dcsctp_connect(&same.socket), DCSCTP_OK);
    EQUAL("connect", dcsctp_connect(&other.socket), DCSCTP_OK);
    EQUAL("INIT", take(&one), DCSCTP_EVENT_SEND_PACKET);
    EQUAL("INIT", take(&same), DCSCTP_EVENT_SEND_PACKET);
    EQUAL("INIT", take(&other), DCSCTP_EVENT_SEND_PACKET);
    EQUAL("same seed", memcmp(one.packet, same.packet, one.length), 0);
    EQUAL("other tag", u32_at(one.packet + 16) != u32_at(other.packet + 16), 1);
    EQUAL("other TSN", u32_at(one.packet + 28) != u32_at(other.packet + 28), 1);
    dcsctp_destroy(&one.socket);
    dcsctp_destroy(&same.socket);
    dcsctp_destroy(&other.socket);
}

/* A seed of zeros is refused, and nothing is created. Each other one is taken: here one bit is set. */
static void zero_seed(void) {
    dcsctp_options options = quiet_options(), invalid = options;
    dcsctp_socket socket = DCSCTP_SOCKET_INIT;
    uint8_t seed[32] = {0};
    invalid.mtu = 31;
    for (int tries = 0; tries < 2; tries++) {
        EQUAL("zeros", dcsctp_create(&socket, &options, seed, BEGIN), DCSCTP_ERROR_INVALID_OPTIONS);
        EQUAL("state", dcsctp_state(&socket), DCSCTP_ERROR_NO_SOCKET);
        EQUAL("at moment 0", dcsctp_create(&socket, &options, seed, 0),
              DCSCTP_ERROR_INVALID_OPTIONS);
        EQUAL("and options", dcsctp_create(&socket, &invalid, seed, BEGIN),
              DCSCTP_ERROR_INVALID_OPTIONS);
    }
    for (int bit = 0; bit < 256; bit++) {
        seed[bit / 8] = (uint8_t)(1 << bit % 8);
        EQUAL("one bit", dcsctp_create(&socket, &options, seed, BEGIN), DCSCTP_OK);
        seed[bit / 8] = 0;
        EQUAL("second", dcsctp_create(&socket, &options, seed, BEGIN), DCSCTP_ERROR_ALREADY_CREATED);
        EQUAL("state", dcsctp_state(&socket), DCSCTP_STATE_CLOSED);
        dcsctp_destroy(&socket);
    }
    options.size = 0;
    EQUAL("size first", dcsctp_create(&socket, &options, seed, BEGIN), DCSCTP_ERROR_WRONG_SIZE);
}

/* A packet is copied into buffers of each length. One that is too small isn't written to, and
 * nothing is written behind the packet. */
static void packet_buffers(void) {
    const dcsctp_options options = quiet_options();
    struct end end;
    dcsctp_event event;
    uint8_t bytes[1500], copy[1500];
    size_t length;
    uint16_t stream;
    EQUAL("create", create(&end, &options, 1, BEGIN), DCSCTP_OK);
    EQUAL("nothing taken", dcsctp_event_bytes(&end.socket, bytes, 9, &length),
          DCSCTP_ERROR_NOTHING_TO_COPY);
    EQUAL("nothing taken", length, 0);
    EQUAL("connect", dcsctp_connect(&end.socket), DCSCTP_OK);
    EQUAL("not taken yet", dcsctp_event_bytes(&end.socket, bytes, 9, &length),
          DCSCTP_ERROR_NOTHING_TO_COPY);
    EQUAL("INIT", dcsctp_poll_event(&end.socket, &event), 1);
    EQUAL("INIT", event.kind, DCSCTP_EVENT_SEND_PACKET);
    for (size_t capacity = 0; capacity <= event.length + 9; capacity++) {
        memset(bytes, 77, sizeof bytes);
        length = 0;
        int32_t result = dcsctp_event_bytes(&end.socket, bytes, capacity, &length);
        size_t written = capacity < event.length ? 0 : event.length;
        EQUAL("result", result, written ? DCSCTP_OK : DCSCTP_ERROR_BUFFER_TOO_SMALL);
        EQUAL("length", length, event.length);
        for (size_t i = written; i < sizeof bytes; i++)
            EQUAL("unwritten", bytes[i], 77);
        if (capacity == event.length)
            memcpy(copy, bytes, event.length);
        if (capacity > event.length)
            EQUAL("the same", memcmp(copy, bytes, event.length), 0);
    }
    EQUAL("chunk type of an INIT", copy[12], 1);
    stream = 77;
    EQUAL("no streams", dcsctp_event_streams(&end.socket, &stream, 1, &length),
          DCSCTP_ERROR_NOTHING_TO_COPY);
    EQUAL("no streams", length, 0);
    EQUAL("no streams", stream, 77);
    /* other calls keep what was taken; the next event drops it, also where there is none */
    EQUAL("time", dcsctp_advance_time(&end.socket, BEGIN + 1), DCSCTP_OK);
    EQUAL("close", dcsctp_close(&end.socket), DCSCTP_OK);
    EQUAL("kept", dcsctp_event_bytes(&end.socket, bytes, sizeof bytes, &length), DCSCTP_OK);
    EQUAL("kept", length, event.length);
    while (dcsctp_poll_event(&end.socket, &event) == 1)
        ;
    EQUAL("no event", event.kind, DCSCTP_EVENT_NONE);
    EQUAL("dropped", dcsctp_event_bytes(&end.socket, bytes, sizeof bytes, &length),
          DCSCTP_ERROR_NOTHING_TO_COPY);
    dcsctp_destroy(&end.socket);
}

/* The same of a message. Events and messages are kept apart. */
static void message_buffers(void) {
    const dcsctp_options options = quiet_options();
    const dcsctp_send_options how = DCSCTP_SEND_INIT;
    static struct pair pair;
    uint8_t bytes[3000], copy[3000];
    dcsctp_message message;
    size_t length = 77, count = 77;
    for (size_t i = 0; i < sizeof copy; i++)
        copy[i] = (uint8_t)(i * 7 + 1);
    connect_pair(&pair, &options, &options);
    EQUAL("none is ready", dcsctp_messages_ready_count(&pair.b.socket, &count), DCSCTP_OK);
    EQUAL("none is ready", count, 0);
    EQUAL("none", dcsctp_get_next_message(&pair.b.socket, &message), 0);
    EQUAL("none", message.length, 0);
    EQUAL("none", dcsctp_message_bytes(&pair.b.socket, bytes, 9, &length),
          DCSCTP_ERROR_NOTHING_TO_COPY);
    EQUAL("none", length, 0);
    EQUAL("send", dcsctp_send(&pair.a.socket, 65534, 0xfedcba98, copy, 3000, &how), DCSCTP_OK);
    EQUAL("send", dcsctp_send(&pair.a.socket, 0, 0, copy, 1, &how), DCSCTP_OK);
    settle(&pair);
    EQUAL("two are ready", dcsctp_messages_ready_count(&pair.b.socket, &count), DCSCTP_OK);
    EQUAL("two are ready", count, 2);
    EQUAL("first", dcsctp_get_next_message(&pair.b.socket, &message), 1);
    EQUAL("first", message.length, 3000);
    EQUAL("first", message.stream_id, 65534);
    EQUAL("first", message.ppid, 0xfedcba98);
    EQUAL("first", message.reserved, 0);
    const size_t capacities[] = {0, 1, 2999, 3000};
    for (size_t i = 0; i < 4; i++) {
        memset(bytes, 77, sizeof bytes);
        int32_t result = dcsctp_message_bytes(&pair.b.socket, bytes, capacities[i], &length);
        EQUAL("result", result, capacities[i] == 3000 ? DCSCTP_OK : DCSCTP_ERROR_BUFFER_TOO_SMALL);
        EQUAL("length", length, 3000);
        for (size_t at = 0; at < sizeof bytes && capacities[i] < 3000; at++)
            EQUAL("unwritten", bytes[at], 77);
    }
    EQUAL("bytes", memcmp(bytes, copy, 3000), 0);
    EQUAL("no event is kept", dcsctp_event_bytes(&pair.b.socket, bytes, 3000, &length),
          DCSCTP_ERROR_NOTHING_TO_COPY);
    EQUAL("no event", take(&pair.b), DCSCTP_EVENT_NONE);
    EQUAL("kept", dcsctp_message_bytes(&pair.b.socket, bytes, 3000, &length), DCSCTP_OK);
    EQUAL("second", dcsctp_get_next_message(&pair.b.socket, &message), 1);
    EQUAL("second", message.length, 1);
    EQUAL("second", dcsctp_message_bytes(&pair.b.socket, bytes, 3000, &length), DCSCTP_OK);
    EQUAL("second", length, 1);
    EQUAL("no more", dcsctp_get_next_message(&pair.b.socket, &message), 0);
    EQUAL("no more", message.length, 0);
    EQUAL("dropped", dcsctp_message_bytes(&pair.b.socket, bytes, 3000, &length),
          DCSCTP_ERROR_NOTHING_TO_COPY);
    destroy_pair(&pair);
}

/* A message is refused for the first reason that holds, and an event reports it, too. */
static void refused_messages(void) {
    dcsctp_options options = quiet_options();
    dcsctp_send_options how = DCSCTP_SEND_INIT;
    static struct pair pair;
    const uint8_t bytes[101] = {0};
    options.max_message_size = 100;
    options.max_send_buffer_size = 100;
    create_pair(&pair, &options, &options);
    struct end *end = &pair.a;
    how.lifecycle_id = UINT64_MAX;
    EQUAL("empty", dcsctp_send(&end->socket, 1, 51, bytes, 0, &how), DCSCTP_ERROR_EMPTY_PAYLOAD);
    EQUAL("its name comes first", take(end), DCSCTP_EVENT_LIFECYCLE_END);
    EQUAL("its name", end->last[DCSCTP_EVENT_LIFECYCLE_END].lifecycle_id == UINT64_MAX, 1);
    EQUAL("then the error", take(end), DCSCTP_EVENT_ERROR);
    EQUAL("kind", end->last[DCSCTP_EVENT_ERROR].error_kind, DCSCTP_KIND_PROTOCOL_VIOLATION);
    how.lifecycle_id = 0;
    EQUAL("too large", dcsctp_send(&end->socket, 1, 51, bytes, 101, &how),
          DCSCTP_ERROR_MESSAGE_TOO_LARGE);
    EQUAL("no name", take(end), DCSCTP_EVENT_ERROR);
    EQUAL("kind", end->last[DCSCTP_EVENT_ERROR].error_kind, DCSCTP_KIND_PROTOCOL_VIOLATION);
    EQUAL("larger messages", dcsctp_set_max_message_size(&end->socket, 101), DCSCTP_OK);
    EQUAL("not too large", dcsctp_send(&end->socket, 1, 51, bytes, 101, &how), DCSCTP_OK);
    EQUAL("full", dcsctp_send(&end->socket, 1, 51, bytes, 1, &how),
          DCSCTP_ERROR_RESOURCE_EXHAUSTION);
    EQUAL("full", take(end), DCSCTP_EVENT_ERROR);
    EQUAL("kind", end->last[DCSCTP_EVENT_ERROR].error_kind, DCSCTP_KIND_RESOURCE_EXHAUSTION);
    EQUAL("connect", dcsctp_connect(&end->socket), DCSCTP_OK);
    settle(&pair);
    EQUAL("delivered", take_messages(&pair.b, 101), 1);
    EQUAL("shutdown", dcsctp_shutdown(&end->socket), DCSCTP_OK);
    EQUAL("state", dcsctp_state(&end->socket), DCSCTP_STATE_SHUTTING_DOWN);
    EQUAL("shutting down", dcsctp_send(&end->socket, 1, 51, bytes, 1, &how),
          DCSCTP_ERROR_SHUTTING_DOWN);
    EQUAL("empty before shutting down", dcsctp_send(&end->socket, 1, 51, bytes, 0, &how),
          DCSCTP_ERROR_EMPTY_PAYLOAD);
    settle(&pair);
    EQUAL("kind", end->last[DCSCTP_EVENT_ERROR].error_kind, DCSCTP_KIND_PROTOCOL_VIOLATION);
    EQUAL("A is closed", dcsctp_state(&pair.a.socket), DCSCTP_STATE_CLOSED);
    EQUAL("B is closed", dcsctp_state(&pair.b.socket), DCSCTP_STATE_CLOSED);
    destroy_pair(&pair);
}

/* Send options with an unknown bit are refused before all else. Then nothing changes: there is no
 * event, nothing is counted, and nothing is queued. */
static void refused_send_options(void) {
    const dcsctp_options options = quiet_options();
    const dcsctp_send_options valid = {0, SECONDS, 0, 3, 0};
    static const uint8_t bytes[262145];
    static const size_t lengths[] = {5, 0, 262145};
    static struct pair pair;
    size_t waiting = 77;
    connect_pair(&pair, &options, &options);
    struct end *end = &pair.a;
    const dcsctp_metrics before = metrics_of(end);
    for (int bit = 3; bit < 32 + 16; bit++)
        for (uint32_t known = 0; known < 8; known++) {
            dcsctp_send_options how = valid;
            how.lifecycle_id = 9;
            how.flags = known | (bit < 32 ? 1u << bit : 0);
            how.reserved = (uint16_t)(bit < 32 ? 0 : 1u << (bit - 32));
            for (size_t i = 0; i < 3; i++)
                EQUAL("a bit without a meaning",
                      dcsctp_send(&end->socket, 1, 51, bytes, lengths[i], &how),
                      DCSCTP_ERROR_INVALID_SEND_OPTIONS);
        }
    EQUAL("no event", take(end), DCSCTP_EVENT_NONE);
    const dcsctp_metrics after = metrics_of(end);
    EQUAL("nothing is counted", memcmp(&after, &before, sizeof after), 0);
    EQUAL("nothing is queued", dcsctp_buffered_amount(&end->socket, 1, &waiting), DCSCTP_OK);
    EQUAL("nothing is queued", waiting, 0);
    for (uint32_t known = 0; known < 8; known++) {
        dcsctp_send_options how = valid;
        how.flags = known;
        EQUAL("each bit has one", dcsctp_send(&end->socket, 1, 51, bytes, 5, &how), DCSCTP_OK);
    }
    settle(&pair);
    EQUAL("delivered", take_messages(&pair.b, 5), 8);
    destroy_pair(&pair);
}

/* What a socket answers to commands that come at the wrong time, and to packets of any length. */
static void wrong_times(void) {
    const dcsctp_options options = quiet_options();
    const uint16_t streams[] = {1, 2};
    struct end end;
    uint8_t bytes[sizeof(dcsctp_metrics)];
    uint64_t moment = 0;
    size_t length;
    dcsctp_metrics metrics;
    EQUAL("create", create(&end, &options, 1, BEGIN), DCSCTP_OK);
    memset(&metrics, 77, sizeof metrics);
    metrics.size = sizeof metrics;
    memcpy(bytes, &metrics, sizeof bytes);
    EQUAL("no metrics", dcsctp_get_metrics(&end.socket, &metrics), 0);
    EQUAL("no metrics", memcmp(&metrics, bytes, sizeof bytes), 0);
    EQUAL("no deadline", dcsctp_poll_timeout(&end.socket, &moment), DCSCTP_OK);
    EQUAL("no deadline", moment == DCSCTP_NEVER, 1);
    EQUAL("not connected", dcsctp_reset_streams(&end.socket, streams, 2),
          DCSCTP_ERROR_NOT_CONNECTED);
    EQUAL("no snapshot", dcsctp_handover_bytes(&end.socket, bytes, sizeof bytes, &length),
          DCSCTP_ERROR_NOTHING_TO_COPY);
    EQUAL("no snapshot", length, 0);
    EQUAL("closed", dcsctp_close(&end.socket), DCSCTP_OK);
    EQUAL("closed", dcsctp_shutdown(&end.socket), DCSCTP_OK);
    EQUAL("closed", take(&end), DCSCTP_EVENT_NONE);
    for (length = 0; length <= sizeof bytes; length++) {
        EQUAL("unreadable", dcsctp_handle_input(&end.socket, bytes, length), DCSCTP_OK);
        EQUAL("unreadable", take(&end), DCSCTP_EVENT_ERROR);
        EQUAL("unreadable", end.last[DCSCTP_EVENT_ERROR].error_kind, DCSCTP_KIND_PARSE_FAILED);
        EQUAL("no more", take(&end), DCSCTP_EVENT_NONE);
    }
    EQUAL("state", dcsctp_state(&end.socket), DCSCTP_STATE_CLOSED);
    EQUAL("connect", dcsctp_connect(&end.socket), DCSCTP_OK);
    EQUAL("INIT", take(&end), DCSCTP_EVENT_SEND_PACKET);
    EQUAL("connect twice", dcsctp_connect(&end.socket), DCSCTP_OK);
    EQUAL("no second INIT", take(&end), DCSCTP_EVENT_NONE);
    EQUAL("the peer isn't known", dcsctp_reset_streams(&end.socket, streams, 2),
          DCSCTP_ERROR_NOT_CONNECTED);
    EQUAL("not handed over", dcsctp_get_handover_state_and_close(&end.socket),
          DCSCTP_ERROR_NOT_READY);
    EQUAL("T1", dcsctp_poll_timeout(&end.socket, &moment), DCSCTP_OK);
    EQUAL("T1", moment, BEGIN + SECONDS);
    EQUAL("the past", dcsctp_advance_time(&end.socket, 0), DCSCTP_OK);
    EQUAL("the last moment", dcsctp_advance_time(&end.socket, DCSCTP_NEVER - 1), DCSCTP_OK);
    EQUAL("a second INIT", take(&end), DCSCTP_EVENT_SEND_PACKET);
    EQUAL("has_failed", dcsctp_has_failed(&end.socket), 0);
    dcsctp_destroy(&end.socket);
}

int main(void) {
    no_socket();
    second_socket();
    seeds();
    zero_seed();
    packet_buffers();
    message_buffers();
    refused_messages();
    refused_send_options();
    wrong_times();
    puts("calls: as dcsctp.h says");
    return 0;
}
