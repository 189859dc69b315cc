/* dcsctp_send_many: which messages of a call are taken, what is told of each, and that all goes as
 * with dcsctp_send, one message after another. */
#include "pair.h"

enum { MOST = 40 };

static struct pair pair, other;

/* A message on stream 1. */
static dcsctp_outgoing_message message_of(const uint8_t *payload, size_t length) {
    dcsctp_outgoing_message message = {payload, length, 51, 1, 0};
    return message;
}

/* Results that no call gives. */
static void fill(int32_t *results) {
    for (size_t i = 0; i < MOST; i++)
        results[i] = 77;
}

/* Ends the program unless the next message of an end is one of these, whose protocols count down from
 * 1,000. Returns its place. */
static size_t next_place(struct end *end, const dcsctp_outgoing_message *sent) {
    static uint8_t bytes[300000];
    dcsctp_message message;
    size_t length = 0, place;
    EQUAL("a message", dcsctp_get_next_message(&end->socket, &message), 1);
    place = 1000 - message.ppid;
    EQUAL("its protocol", place < MOST, 1);
    EQUAL("its stream", message.stream_id, sent[place].stream_id);
    EQUAL("its length", message.length, sent[place].length);
    EQUAL("its bytes", dcsctp_message_bytes(&end->socket, bytes, sizeof bytes, &length), DCSCTP_OK);
    EQUAL("its bytes", memcmp(bytes, sent[place].payload, length), 0);
    return place;
}

/* Each has its own protocol, length and bytes, and comes as it was sent, once. Those of stream 0 come
 * in order. What the array and the payloads have after the call doesn't matter. */
static void all_are_taken(void) {
    const dcsctp_options options = quiet_options();
    const dcsctp_send_options how = DCSCTP_SEND_INIT;
    static uint8_t bytes[MOST][5000], before[MOST][5000];
    dcsctp_outgoing_message messages[MOST], sent[MOST];
    int32_t results[MOST];
    for (size_t i = 0; i < MOST; i++) {
        memset(bytes[i], (int)i + 1, sizeof bytes[i]);
        messages[i] = message_of(bytes[i], 1 + i * 127);
        messages[i].stream_id = (uint16_t)(i % 3 ? 65534 - i : 0);
        messages[i].ppid = 1000 - (uint32_t)i;
        messages[i].reserved = (uint16_t)i;
    }
    memcpy(before, bytes, sizeof before);
    memcpy(sent, messages, sizeof sent);
    connect_pair(&pair, &options, &options);
    fill(results);
    EQUAL("send", dcsctp_send_many(&pair.a.socket, messages, MOST - 1, &how, results, MOST),
          DCSCTP_OK);
    EQUAL("the messages are as before", memcmp(sent, messages, sizeof sent), 0);
    EQUAL("their bytes are as before", memcmp(bytes, before, sizeof bytes), 0);
    for (size_t i = 0; i < MOST; i++)
        EQUAL("result", results[i], i < MOST - 1 ? DCSCTP_OK : 77);
    EQUAL("counted", metrics_of(&pair.a).tx_messages_count, MOST - 1);
    memset(messages, 0, sizeof messages);
    memset(bytes, 0, sizeof bytes);
    settle(&pair);
    pass(&pair, 1 * SECONDS);
    settle(&pair);
    int seen[MOST] = {0};
    size_t last = 0;
    for (size_t i = 0; i < MOST; i++)
        sent[i].payload = before[i];
    for (size_t i = 0; i < MOST - 1; i++) {
        size_t place = next_place(&pair.b, sent);
        EQUAL("once", seen[place]++, 0);
        if (sent[place].stream_id == 0) {
            EQUAL("in order", place >= last, 1);
            last = place;
        }
    }
    EQUAL("the last one isn't sent", seen[MOST - 1], 0);
    EQUAL("no more", take_messages(&pair.b, 0), 0);
    destroy_pair(&pair);
}

/* Nothing is sent, and nothing happens. */
static void none(void) {
    const dcsctp_options options = quiet_options();
    const dcsctp_send_options how = DCSCTP_SEND_INIT;
    const dcsctp_outgoing_message message = message_of((const uint8_t *)"a", 1);
    int32_t results[MOST];
    connect_pair(&pair, &options, &options);
    const dcsctp_metrics before = metrics_of(&pair.a);
    fill(results);
    EQUAL("no messages", dcsctp_send_many(&pair.a.socket, &message, 0, &how, results, 0),
          DCSCTP_OK);
    EQUAL("no messages", dcsctp_send_many(&pair.a.socket, &message, 0, &how, results, MOST),
          DCSCTP_OK);
    const dcsctp_metrics after = metrics_of(&pair.a);
    EQUAL("nothing is counted", memcmp(&before, &after, sizeof before), 0);
    EQUAL("no event", take(&pair.a), DCSCTP_EVENT_NONE);
    EQUAL("no result", results[0], 77);
    destroy_pair(&pair);
}

/* Room for too few results, and options with a bit that has no meaning, are refused before all else. */
static void refused_calls(void) {
    const dcsctp_options options = quiet_options();
    const dcsctp_send_options how = DCSCTP_SEND_INIT;
    static const uint8_t bytes[262145];
    const dcsctp_outgoing_message messages[] = {
        message_of(bytes, 5), message_of(bytes, 0), message_of(bytes, sizeof bytes)};
    int32_t results[MOST];
    connect_pair(&pair, &options, &options);
    dcsctp_socket *socket = &pair.a.socket;
    const dcsctp_metrics before = metrics_of(&pair.a);
    fill(results);
    for (int invalid = 0; invalid <= 1; invalid++)
        for (size_t room = 0; room < 3; room++) {
            const dcsctp_send_options used = {9, 0, invalid ? 8 : 0, 0, 0};
            EQUAL("too few results", dcsctp_send_many(socket, messages, 3, &used, results, room),
                  DCSCTP_ERROR_BUFFER_TOO_SMALL);
        }
    for (int bit = 3; bit < 32 + 16; bit++) {
        dcsctp_send_options used = how;
        used.flags = bit < 32 ? 1u << bit : 0;
        used.reserved = (uint16_t)(bit < 32 ? 0 : 1u << (bit - 32));
        EQUAL("a bit without a meaning",
              dcsctp_send_many(socket, messages, 3, &used, results, MOST),
              DCSCTP_ERROR_INVALID_SEND_OPTIONS);
        EQUAL("a bit without a meaning", dcsctp_send_many(socket, messages, 0, &used, results, 0),
              DCSCTP_ERROR_INVALID_SEND_OPTIONS);
    }
    const dcsctp_metrics after = metrics_of(&pair.a);
    EQUAL("nothing is counted", memcmp(&before, &after, sizeof before), 0);
    EQUAL("no event", take(&pair.a), DCSCTP_EVENT_NONE);
    for (size_t i = 0; i < MOST; i++)
        EQUAL("no result", results[i], 77);
    EQUAL("exactly enough", dcsctp_send_many(socket, messages, 1, &how, results, 1), DCSCTP_OK);
    EQUAL("exactly enough", results[0], DCSCTP_OK);
    EQUAL("no other result", results[1], 77);
    destroy_pair(&pair);
}

/* What a batch has, and which result each message has. The send buffer takes 100 bytes, and what makes it
 * longer than that; a stream 50. A message has at most 60. */
struct batch {
    const char *name;
    size_t count;
    struct {
        size_t length;
        uint16_t stream_id;
        int32_t result;
    } messages[MOST];
};

#define TAKEN DCSCTP_OK
#define EMPTY DCSCTP_ERROR_EMPTY_PAYLOAD
#define LARGE DCSCTP_ERROR_MESSAGE_TOO_LARGE
#define FULL DCSCTP_ERROR_RESOURCE_EXHAUSTION
#define ENDS DCSCTP_ERROR_SHUTTING_DOWN

static const struct batch BATCHES[] = {
    {"one", 1, {{60, 1, TAKEN}}},
    {"one that is empty", 1, {{0, 1, EMPTY}}},
    {"one that is too large", 1, {{61, 1, LARGE}}},
    {"the first is refused", 3, {{0, 1, EMPTY}, {1, 1, TAKEN}, {2, 1, TAKEN}}},
    {"the last is refused", 3, {{1, 1, TAKEN}, {2, 1, TAKEN}, {61, 1, LARGE}}},
    {"one between is refused", 3, {{1, 1, TAKEN}, {0, 1, EMPTY}, {2, 1, TAKEN}}},
    {"each other one is refused", 6, {{0, 1, EMPTY}, {1, 1, TAKEN}, {61, 1, LARGE}, {2, 1, TAKEN},
     {0, 1, EMPTY}, {3, 1, TAKEN}}},
    {"all are refused", 3, {{0, 1, EMPTY}, {61, 1, LARGE}, {0, 1, EMPTY}}},
    {"a stream is full", 5, {{50, 1, TAKEN}, {1, 1, FULL}, {10, 2, TAKEN}, {1, 1, FULL},
     {10, 3, TAKEN}}},
    {"all streams are", 5, {{40, 1, TAKEN}, {50, 2, TAKEN}, {30, 3, TAKEN}, {1, 4, FULL},
     {0, 4, EMPTY}}},
    {"reasons in their order", 4, {{60, 1, TAKEN}, {60, 2, TAKEN}, {61, 3, LARGE}, {5, 3, FULL}}},
};

static dcsctp_options small_options(void) {
    dcsctp_options options = quiet_options();
    options.max_send_buffer_size = 100;
    options.per_stream_send_queue_limit = 50;
    options.max_message_size = 60;
    options.total_buffered_amount_low_threshold = 0;
    return options;
}

/* The first error among results. */
static int32_t first_error(const int32_t *results, size_t count) {
    for (size_t i = 0; i < count; i++)
        if (results[i] != DCSCTP_OK)
            return results[i];
    return DCSCTP_OK;
}

/* The next event of two ends is the same. Returns its kind. */
static uint32_t same_event(const char *name, struct end *one, struct end *two) {
    uint32_t kind = take(one);
    EQUAL(name, take(two), kind);
    EQUAL(name, memcmp(&one->last[kind], &two->last[kind], sizeof one->last[kind]), 0);
    EQUAL(name, strcmp(one->text, two->text), 0);
    EQUAL(name, one->length, two->length);
    EQUAL(name, memcmp(one->packet, two->packet, one->length), 0);
    return kind;
}

/* On a closed socket, and on one that is shutting down: each result, the events, and what waits, as with
 * dcsctp_send on a socket with the same seed. */
static void as_one_by_one(int shutting) {
    const dcsctp_options options = small_options();
    static const uint8_t bytes[61] = {1, 2, 3};
    for (size_t b = 0; b < sizeof BATCHES / sizeof *BATCHES; b++) {
        const struct batch *batch = &BATCHES[b];
        dcsctp_outgoing_message messages[MOST];
        int32_t results[MOST];
        const dcsctp_send_options how = {7, SECONDS, DCSCTP_SEND_LIFETIME, 0, 0};
        size_t amount_of_a = 0, amount_of_other = 0;
        create_pair(&pair, &options, &options);
        create_pair(&other, &options, &options);
        if (shutting) {
            destroy_pair(&pair);
            destroy_pair(&other);
            connect_pair(&pair, &options, &options);
            connect_pair(&other, &options, &options);
            EQUAL("shutdown", dcsctp_shutdown(&pair.a.socket), DCSCTP_OK);
            EQUAL("shutdown", dcsctp_shutdown(&other.a.socket), DCSCTP_OK);
        }
        fill(results);
        for (size_t i = 0; i < batch->count; i++) {
            messages[i] = message_of(bytes, batch->messages[i].length);
            messages[i].stream_id = batch->messages[i].stream_id;
        }
        int32_t result = dcsctp_send_many(&pair.a.socket, messages, batch->count, &how, results,
                                          batch->count);
        for (size_t i = 0; i < batch->count; i++) {
            int32_t expected = batch->messages[i].result;
            if (shutting && (expected == TAKEN || expected == FULL))
                expected = ENDS;
            EQUAL(batch->name, results[i], expected);
            EQUAL(batch->name, dcsctp_send(&other.a.socket, messages[i].stream_id, 51, bytes,
                                           messages[i].length, &how), expected);
        }
        EQUAL(batch->name, result, first_error(results, batch->count));
        EQUAL(batch->name, results[batch->count], 77);
        for (uint16_t stream = 0; stream < 5; stream++) {
            dcsctp_buffered_amount(&pair.a.socket, stream, &amount_of_a);
            dcsctp_buffered_amount(&other.a.socket, stream, &amount_of_other);
            EQUAL(batch->name, amount_of_a, amount_of_other);
        }
        while (same_event(batch->name, &pair.a, &other.a) != DCSCTP_EVENT_NONE)
            ;
        destroy_pair(&pair);
        destroy_pair(&other);
    }
}

/* On an association what waits is sent only once, after the last message: so messages that fit share a
 * packet. One by one, each has a packet of its own. */
static void in_one_packet(void) {
    const dcsctp_options options = quiet_options();
    const dcsctp_send_options how = DCSCTP_SEND_INIT;
    static const uint8_t bytes[100] = {9};
    dcsctp_outgoing_message messages[5];
    int32_t results[5];
    for (size_t i = 0; i < 5; i++)
        messages[i] = message_of(bytes, 100);
    connect_pair(&pair, &options, &options);
    EQUAL("together", dcsctp_send_many(&pair.a.socket, messages, 5, &how, results, 5), DCSCTP_OK);
    EQUAL("one packet", carry(&pair.a, &pair.b), 1);
    EQUAL("all of them", take_messages(&pair.b, 100), 5);
    for (size_t i = 0; i < 5; i++)
        EQUAL("alone", send_bytes(&pair.a, 1, 100), DCSCTP_OK);
    EQUAL("five packets", carry(&pair.a, &pair.b), 5);
    EQUAL("all of them", take_messages(&pair.b, 100), 5);
    destroy_pair(&pair);
}

int main(void) {
    all_are_taken();
    none();
    refused_calls();
    as_one_by_one(0);
    as_one_by_one(1);
    in_one_packet();
    puts("many: as with dcsctp_send, one message after another");
    return 0;
}
