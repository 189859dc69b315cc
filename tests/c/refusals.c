/* An exchange with each of its allocations refused in turn, and one with data channels. The call that
 * needs it returns DCSCTP_ERROR_OUT_OF_MEMORY, and the rest is as dcsctp.h says. In the end all
 * memory is freed. Then a message that is far too long: it needs no memory for its bytes. */
#define _GNU_SOURCE
#include "pair.h"
#include "refusing.h"

#include <sys/mman.h>
#include <time.h>

/* ---- Memory --------------------------------------------------------------------------------- */

static long allocations;          /* how many were asked for */
static long refused;              /* the number of the one that is refused, from 1; 0: none */
static size_t largest = SIZE_MAX; /* those of more bytes are refused, too */

static int is_refused(size_t size) {
    return ++allocations == refused || size > largest;
}

/* Sends two messages in one call. Where memory runs out, no result is written. */
static int32_t send_two(struct end *end, uint16_t stream_id, size_t length) {
    static const uint8_t zeros[40000];
    const dcsctp_send_options how = DCSCTP_SEND_INIT;
    const dcsctp_outgoing_message message = {zeros, length, 51, stream_id, 0};
    const dcsctp_outgoing_message messages[] = {message, message};
    int32_t results[] = {77, 77};
    int32_t result = dcsctp_send_many(&end->socket, messages, 2, &how, results, 2);
    EQUAL("a result", results[0], result == DCSCTP_OK ? DCSCTP_OK : 77);
    EQUAL("a result", results[1], result == DCSCTP_OK ? DCSCTP_OK : 77);
    return result;
}

/* ---- A socket that has failed --------------------------------------------------------------- */

/* Commands and inputs return DCSCTP_ERROR_FAILED. Queries answer, and what waits can be taken. */
static void check_failed(struct end *end) {
    dcsctp_socket *socket = &end->socket;
    const uint16_t streams[] = {1};
    uint8_t bytes[12] = {0};
    uint64_t moment;
    size_t size;
    uint16_t priority;
    uint32_t reasons, tag;
    dcsctp_options options;
    dcsctp_metrics metrics;
    dcsctp_counts counts;
    const int32_t commands[] = {
        dcsctp_connect(socket),
        dcsctp_shutdown(socket),
        dcsctp_close(socket),
        dcsctp_handle_input(socket, bytes, sizeof bytes),
        dcsctp_advance_time(socket, DCSCTP_NEVER - 1),
        send_bytes(end, 1, 10),
        send_two(end, 1, 10),
        dcsctp_reset_streams(socket, streams, 1),
        dcsctp_set_stream_priority(socket, 1, 5),
        dcsctp_set_buffered_amount_low_threshold(socket, 1, 5),
        dcsctp_get_handover_state_and_close(socket),
    };
    for (size_t i = 0; i < sizeof commands / sizeof commands[0]; i++)
        EQUAL("a command", commands[i], DCSCTP_ERROR_FAILED);
    const dcsctp_send_options invalid = {0, 0, 0, 0, 1};
    EQUAL("invalid options", dcsctp_send(socket, 1, 51, bytes, 5, &invalid),
          DCSCTP_ERROR_INVALID_SEND_OPTIONS);
    options.size = sizeof options;
    metrics.size = sizeof metrics;
    counts.size = sizeof counts;
    const long before = allocations;
    EQUAL("has_failed", dcsctp_has_failed(socket), 1);
    EQUAL("state", dcsctp_state(socket) >= DCSCTP_STATE_CLOSED, 1);
    EQUAL("tag", dcsctp_verification_tag(socket, &tag), DCSCTP_OK);
    EQUAL("deadline", dcsctp_poll_timeout(socket, &moment), DCSCTP_OK);
    EQUAL("amount", dcsctp_buffered_amount(socket, 1, &size), DCSCTP_OK);
    EQUAL("threshold", dcsctp_buffered_amount_low_threshold(socket, 1, &size), DCSCTP_OK);
    EQUAL("priority", dcsctp_get_stream_priority(socket, 1, &priority), DCSCTP_OK);
    EQUAL("ready", dcsctp_messages_ready_count(socket, &size), DCSCTP_OK);
    EQUAL("options", dcsctp_get_options(socket, &options), DCSCTP_OK);
    EQUAL("a new limit", dcsctp_set_max_message_size(socket, 5), DCSCTP_OK);
    EQUAL("metrics", dcsctp_get_metrics(socket, &metrics) >= 0, 1);
    EQUAL("counts", dcsctp_get_counts(socket, &counts), DCSCTP_OK);
    EQUAL("readiness", dcsctp_get_handover_readiness(socket, &reasons), DCSCTP_OK);
    carry(end, NULL);
    dcsctp_message message;
    while (dcsctp_get_next_message(socket, &message) == 1)
        EQUAL("too long", dcsctp_message_bytes(socket, bytes, sizeof bytes, &size) == DCSCTP_OK,
              message.length <= sizeof bytes);
    EQUAL("none of these allocates", allocations, before);
}

/* ---- The exchange --------------------------------------------------------------------------- */

static struct end a, b, a_again;

/* Where a call without memory may be tried again, it is, and has to succeed. Where it may not, or
 * another error comes, the exchange ends. */
#define TRY(end, call, again) TRY_WITH(end, call, again, check_failed)
#define TRY_WITH(end, call, again, check)                                                        \
    do {                                                                                         \
        int32_t result_ = (call);                                                                \
        if (result_ == DCSCTP_ERROR_OUT_OF_MEMORY) {                                             \
            tellings++;                                                                          \
            if (dcsctp_has_failed(&(end)->socket) == 1) {                                        \
                check(end);                                                                      \
                return 0;                                                                        \
            }                                                                                    \
            EQUAL(#call " may be tried again", again, 1);                                        \
            result_ = (call);                                                                    \
        }                                                                                        \
        EQUAL(#call, result_, DCSCTP_OK);                                                        \
    } while (0)

/* How many calls returned that memory ran out. */
static int tellings;

/* Takes all events of an end, and hands its packets to the other end. Taking allocates nothing. */
static int deliver(struct end *from, struct end *to, size_t *packets) {
    for (;;) {
        const long before = allocations;
        uint32_t kind = take(from);
        const uint8_t *view;
        size_t length;
        if (kind == DCSCTP_EVENT_SEND_PACKET)
            EQUAL("a view", dcsctp_event_view(&from->socket, &view, &length), DCSCTP_OK);
        EQUAL("nothing is allocated", allocations, before);
        if (kind == DCSCTP_EVENT_NONE)
            return 1;
        if (kind == DCSCTP_EVENT_SEND_PACKET) {
            TRY(to, dcsctp_handle_input(&to->socket, from->packet, from->length), 0);
            ++*packets;
        }
    }
}

static int exchange_all(struct end *one, struct end *other) {
    size_t packets;
    do {
        packets = 0;
        if (!deliver(one, other, &packets) || !deliver(other, one, &packets))
            return 0;
    } while (packets > 0);
    return 1;
}

static int advance(struct end *end, uint64_t now) {
    TRY(end, dcsctp_advance_time(&end->socket, now), 0);
    return 1;
}

/* Two sockets are made and connected; messages go, and streams are reset. */
static int first_part(const dcsctp_options *options) {
    const uint16_t streams[] = {3, 4};
    TRY(&a, create(&a, options, 1, BEGIN), 1);
    TRY(&b, create(&b, options, 2, BEGIN), 1);
    TRY(&a, dcsctp_set_stream_priority(&a.socket, 3, 9), 0);
    TRY(&a, dcsctp_set_buffered_amount_low_threshold(&a.socket, 3, 100), 0);
    TRY(&a, dcsctp_connect(&a.socket), 0);
    TRY(&a, send_bytes(&a, 3, 40000), 1);
    TRY(&a, send_two(&a, 3, 40000), 1);
    if (!exchange_all(&a, &b))
        return 0;
    EQUAL("A", dcsctp_state(&a.socket), DCSCTP_STATE_CONNECTED);
    EQUAL("delivered", take_messages(&b, 40000), 3);
    TRY(&a, dcsctp_reset_streams(&a.socket, streams, 2), 1);
    if (!exchange_all(&a, &b) || !advance(&b, BEGIN + 1 * SECONDS) || !exchange_all(&b, &a))
        return 0;
    EQUAL("reset", a.seen[DCSCTP_EVENT_STREAMS_RESET_PERFORMED], 1);
    return 1;
}

/* A is handed over with a message in flight and one that waits, and goes on in another socket. */
static int second_part(const dcsctp_options *options) {
    static uint8_t snapshot[1 << 17];
    size_t length = 0;
    TRY(&a, send_two(&a, 5, 30000), 1);
    TRY(&a, send_bytes(&a, 5, 30000), 1);
    TRY(&a, dcsctp_get_handover_state_and_close(&a.socket), 0);
    TRY(&a, dcsctp_handover_bytes(&a.socket, snapshot, sizeof snapshot, &length), 1);
    TRY(&a_again, create(&a_again, options, 3, BEGIN + 2 * SECONDS), 1);
    TRY(&a_again, dcsctp_restore_from_state(&a_again.socket, snapshot, length), 1);
    for (uint64_t i = 3; i < 30; i++)
        if (!exchange_all(&a_again, &b) || !advance(&a_again, BEGIN + i * SECONDS) ||
            !advance(&b, BEGIN + i * SECONDS))
            return 0;
    EQUAL("delivered", take_messages(&b, 30000), 3);
    TRY(&b, dcsctp_shutdown(&b.socket), 0);
    if (!exchange_all(&b, &a_again))
        return 0;
    EQUAL("B", dcsctp_state(&b.socket), DCSCTP_STATE_CLOSED);
    return 1;
}

/* Returns whether it came to its end. All memory is given back. */
static int exchange(const dcsctp_options *options) {
    memset(&a, 0, sizeof a);
    memset(&b, 0, sizeof b);
    memset(&a_again, 0, sizeof a_again);
    allocations = tellings = 0;
    int whole = first_part(options) && second_part(options);
    dcsctp_destroy(&a.socket);
    dcsctp_destroy(&b.socket);
    dcsctp_destroy(&a_again.socket);
    EQUAL("all memory is given back", blocks, 0);
    return whole;
}

/* ---- The same with channels ----------------------------------------------------------------- */

/* Commands and inputs return DCSCTP_ERROR_FAILED. Queries answer, and what is ready can be taken. */
static void check_failed_channels(struct end *end) {
    dcsctp_socket *socket = &end->socket;
    const dcsctp_channel_options how = DCSCTP_CHANNEL_OPTIONS_INIT;
    const uint8_t bytes[12] = {0};
    dcsctp_channel_metrics metrics = {sizeof metrics, 0, 0, 0, 0};
    dcsctp_channel_event event;
    uint64_t channel, moment;
    uint32_t reasons, tag;
    uint16_t stream;
    size_t size;
    int32_t taken;
    const int32_t commands[] = {
        dcsctp_connect(socket),
        dcsctp_shutdown(socket),
        dcsctp_close(socket),
        dcsctp_handle_input(socket, bytes, sizeof bytes),
        dcsctp_advance_time(socket, DCSCTP_NEVER - 1),
        dcsctp_channel_set_role(socket, 1),
        dcsctp_channel_open(socket, &how, &channel),
        dcsctp_channel_send(socket, 1, DCSCTP_CHANNEL_BINARY, bytes, 10),
        dcsctp_channel_close(socket, 1),
        dcsctp_channel_set_buffered_amount_low_threshold(socket, 1, 5),
        dcsctp_get_handover_state_and_close(socket),
    };
    for (size_t i = 0; i < sizeof commands / sizeof commands[0]; i++)
        EQUAL("a command", commands[i], DCSCTP_ERROR_FAILED);
    const long before = allocations;
    EQUAL("has_failed", dcsctp_has_failed(socket), 1);
    EQUAL("state", dcsctp_state(socket) >= DCSCTP_STATE_CLOSED, 1);
    EQUAL("tag", dcsctp_verification_tag(socket, &tag), DCSCTP_OK);
    EQUAL("deadline", dcsctp_poll_timeout(socket, &moment), DCSCTP_OK);
    EQUAL("state", dcsctp_channel_state(socket, 1) >= DCSCTP_CHANNEL_CONNECTING, 1);
    EQUAL("stream", dcsctp_channel_stream(socket, 1, &stream) <= 0, 1);
    EQUAL("amount", dcsctp_channel_buffered_amount(socket, 1, &size) <= 0, 1);
    EQUAL("metrics", dcsctp_channel_get_metrics(socket, 1, &metrics) <= 0, 1);
    EQUAL("count", dcsctp_channel_count(socket, &size), DCSCTP_OK);
    EQUAL("readiness", dcsctp_get_handover_readiness(socket, &reasons), DCSCTP_OK);
    while ((taken = dcsctp_channel_poll(socket, &event)) == 1)
        EQUAL("an event", event.kind != DCSCTP_CHANNEL_EVENT_NONE, 1);
    EQUAL("all are taken", taken, DCSCTP_ERROR_FAILED);
    EQUAL("none of these allocates", allocations, before);
}

/* A number of the peer's channel at each end, and how many messages came and channels closed. */
static uint64_t incoming[2];
static size_t came, closed;

/* Takes all that an end has, and hands its packets to the other end. */
static int deliver_channels(struct end *from, struct end *to, size_t *packets) {
    dcsctp_channel_event event;
    const uint8_t *bytes;
    size_t length;
    for (;;) {
        const int32_t taken = dcsctp_channel_poll(&from->socket, &event);
        if (taken == DCSCTP_ERROR_OUT_OF_MEMORY) {
            tellings++;
            check_failed_channels(from);
            return 0;
        }
        if (taken == 0)
            return 1;
        EQUAL("taken", taken, 1);
        came += event.kind == DCSCTP_CHANNEL_EVENT_MESSAGE;
        closed += event.kind == DCSCTP_CHANNEL_EVENT_CLOSED;
        if (event.kind == DCSCTP_CHANNEL_EVENT_INCOMING)
            incoming[from == &b] = event.channel;
        if (event.kind == DCSCTP_CHANNEL_EVENT_SEND_PACKET) {
            EQUAL("a view", dcsctp_channel_view(&from->socket, &bytes, &length), DCSCTP_OK);
            TRY_WITH(to, dcsctp_handle_input(&to->socket, bytes, length), 0, check_failed_channels);
            ++*packets;
        }
    }
}

#define TRY_HERE(end, call, again) TRY_WITH(end, call, again, check_failed_channels)

static int exchange_channels(uint64_t now) {
    size_t packets;
    do {
        packets = 0;
        if (!deliver_channels(&a, &b, &packets) || !deliver_channels(&b, &a, &packets))
            return 0;
    } while (packets > 0);
    TRY_HERE(&a, dcsctp_advance_time(&a.socket, now), 0);
    TRY_HERE(&b, dcsctp_advance_time(&b.socket, now), 0);
    return 1;
}

/* A is handed over with its channels, and continues in another socket. */
static int channels_handed_over(const dcsctp_options *options, uint64_t now) {
    static const dcsctp_channel_limits limits = DCSCTP_CHANNEL_LIMITS_INIT;
    static uint8_t snapshot[1 << 12];
    size_t length = 0;
    TRY_HERE(&a, dcsctp_get_handover_state_and_close(&a.socket), 0);
    TRY_HERE(&a, dcsctp_handover_bytes(&a.socket, snapshot, sizeof snapshot, &length), 1);
    dcsctp_destroy(&a.socket);
    TRY(&a, create(&a, options, 3, now), 1);
    EQUAL("begin", dcsctp_channel_begin(&a.socket, &limits), DCSCTP_OK);
    TRY_HERE(&a, dcsctp_restore_from_state(&a.socket, snapshot, length), 1);
    return 1;
}

/* Both ends open a channel before they connect, and send on it. One of them is handed over. Then it
 * closes each. */
static int channels_part(const dcsctp_options *options) {
    static const uint8_t zeros[40000];
    const dcsctp_channel_limits limits = DCSCTP_CHANNEL_LIMITS_INIT;
    dcsctp_channel_options how = DCSCTP_CHANNEL_OPTIONS_INIT;
    uint64_t of_a = 0, of_b = 0;
    how.label = "label";
    how.label_length = 5;
    how.protocol = "protocol";
    how.protocol_length = 8;
    TRY(&a, create(&a, options, 1, BEGIN), 1);
    TRY(&b, create(&b, options, 2, BEGIN), 1);
    EQUAL("begin", dcsctp_channel_begin(&a.socket, &limits), DCSCTP_OK);
    EQUAL("begin", dcsctp_channel_begin(&b.socket, &limits), DCSCTP_OK);
    TRY_HERE(&a, dcsctp_channel_set_role(&a.socket, 1), 0);
    TRY_HERE(&b, dcsctp_channel_set_role(&b.socket, 0), 0);
    TRY_HERE(&a, dcsctp_channel_open(&a.socket, &how, &of_a), 1);
    TRY_HERE(&b, dcsctp_channel_open(&b.socket, &how, &of_b), 1);
    TRY_HERE(&a, dcsctp_connect(&a.socket), 0);
    TRY_HERE(&b, dcsctp_connect(&b.socket), 0);
    if (!exchange_channels(BEGIN + SECONDS))
        return 0;
    EQUAL("incoming", incoming[0] != 0 && incoming[1] != 0, 1);
    TRY_HERE(&a, dcsctp_channel_send(&a.socket, of_a, DCSCTP_CHANNEL_BINARY, zeros, 40000), 0);
    TRY_HERE(&a, dcsctp_channel_send(&a.socket, of_a, DCSCTP_CHANNEL_TEXT, zeros, 0), 0);
    TRY_HERE(&b, dcsctp_channel_send(&b.socket, incoming[1], DCSCTP_CHANNEL_TEXT, zeros, 9), 0);
    if (!exchange_channels(BEGIN + 2 * SECONDS) || !exchange_channels(BEGIN + 3 * SECONDS))
        return 0;
    EQUAL("messages", came, 3);
    if (!channels_handed_over(options, BEGIN + 3 * SECONDS))
        return 0;
    TRY_HERE(&a, dcsctp_channel_send(&a.socket, of_a, DCSCTP_CHANNEL_TEXT, zeros, 9), 0);
    if (!exchange_channels(BEGIN + 3 * SECONDS))
        return 0;
    EQUAL("messages", came, 4);
    TRY_HERE(&a, dcsctp_channel_close(&a.socket, of_a), 0);
    TRY_HERE(&a, dcsctp_channel_close(&a.socket, incoming[0]), 0);
    for (uint64_t i = 4; i < 8; i++)
        if (!exchange_channels(BEGIN + i * SECONDS))
            return 0;
    EQUAL("closed", closed, 4);
    TRY_HERE(&a, dcsctp_channel_open(&a.socket, &how, &of_a), 1);
    if (!exchange_channels(BEGIN + 8 * SECONDS))
        return 0;
    TRY_HERE(&b, dcsctp_shutdown(&b.socket), 0);
    if (!exchange_channels(BEGIN + 9 * SECONDS))
        return 0;
    EQUAL("all are closed", closed, 6);
    return 1;
}

/* Returns whether it came to its end. All memory is given back. */
static int channels(const dcsctp_options *options) {
    memset(&a, 0, sizeof a);
    memset(&b, 0, sizeof b);
    memset(incoming, 0, sizeof incoming);
    came = closed = 0;
    allocations = tellings = 0;
    const int whole = channels_part(options);
    dcsctp_destroy(&a.socket);
    dcsctp_destroy(&b.socket);
    EQUAL("all memory is given back", blocks, 0);
    return whole;
}

/* ---- A message that is far too long --------------------------------------------------------- */

static void send_of(const char *name, const void *bytes, size_t length, int32_t expected) {
    const dcsctp_send_options how = DCSCTP_SEND_INIT;
    const clock_t before = clock();
    EQUAL(name, dcsctp_send(&a.socket, 1, 51, bytes, length, &how), expected);
    EQUAL(name, clock() - before < CLOCKS_PER_SEC / 10, 1);
    EQUAL(name, dcsctp_has_failed(&a.socket), 0);
}

/* The same of three messages in one call, of which the second has one byte. */
static void send_of_three(const void *bytes, size_t length) {
    const dcsctp_send_options how = DCSCTP_SEND_INIT;
    const dcsctp_outgoing_message messages[] = {
        {bytes, length, 51, 2, 0}, {bytes, 1, 51, 2, 0}, {bytes, length, 51, 2, 0}};
    const clock_t before = clock();
    int32_t results[3];
    EQUAL("three", dcsctp_send_many(&a.socket, messages, 3, &how, results, 3),
          DCSCTP_ERROR_MESSAGE_TOO_LARGE);
    EQUAL("three", clock() - before < CLOCKS_PER_SEC / 10, 1);
    EQUAL("the first", results[0], DCSCTP_ERROR_MESSAGE_TOO_LARGE);
    EQUAL("the second", results[1], DCSCTP_OK);
    EQUAL("the third", results[2], DCSCTP_ERROR_MESSAGE_TOO_LARGE);
}

/* A message of 1 GiB, a mapping without memory, is refused within 0.1 s of the processor's time, and
 * where no more than 1 MiB can be allocated. Only without a limit is there no memory for its copy. */
static void far_too_long(const dcsctp_options *options) {
    const size_t length = (size_t)1 << 30;
    void *bytes = mmap(NULL, length, PROT_READ, MAP_PRIVATE | MAP_ANONYMOUS | MAP_NORESERVE, -1, 0);
    EQUAL("a mapping", bytes != MAP_FAILED, 1);
    EQUAL("create", create(&a, options, 1, BEGIN), DCSCTP_OK);
    send_of("1 GiB", bytes, length, DCSCTP_ERROR_MESSAGE_TOO_LARGE);
    EQUAL("it is told", take(&a), DCSCTP_EVENT_ERROR);
    EQUAL("kind", a.last[DCSCTP_EVENT_ERROR].error_kind, DCSCTP_KIND_PROTOCOL_VIOLATION);
    EQUAL("text", strcmp(a.text, "Unable to send too large message"), 0);
    largest = 1 << 20;
    send_of("1 GiB without memory", bytes, length, DCSCTP_ERROR_MESSAGE_TOO_LARGE);
    send_of_three(bytes, length);
    send_of("a byte too long", bytes, 262145, DCSCTP_ERROR_MESSAGE_TOO_LARGE);
    send_of("the longest", bytes, 262144, DCSCTP_OK);
    EQUAL("no limit", dcsctp_set_max_message_size(&a.socket, SIZE_MAX), DCSCTP_OK);
    send_of("a copy of 1 GiB", bytes, length, DCSCTP_ERROR_OUT_OF_MEMORY);
    const dcsctp_send_options invalid = {0, 0, 8, 0, 0};
    EQUAL("no copy", dcsctp_send(&a.socket, 1, 51, bytes, length, &invalid),
          DCSCTP_ERROR_INVALID_SEND_OPTIONS);
    EQUAL("limit 0", dcsctp_set_max_message_size(&a.socket, 0), DCSCTP_OK);
    send_of("one byte", bytes, 1, DCSCTP_ERROR_MESSAGE_TOO_LARGE);
    send_of("none", bytes, 0, DCSCTP_ERROR_EMPTY_PAYLOAD);
    size_t waiting;
    EQUAL("waiting", dcsctp_buffered_amount(&a.socket, 1, &waiting), DCSCTP_OK);
    EQUAL("waiting", waiting, 262144);
    largest = SIZE_MAX;
    dcsctp_destroy(&a.socket);
    EQUAL("all memory is given back", blocks, 0);
    munmap(bytes, length);
}

/* Refuses each allocation of an exchange in turn. */
static void refuse_each(const char *name, int (*exchange_of)(const dcsctp_options *),
                        const dcsctp_options *options) {
    long all, retried = 0, untold = 0;
    EQUAL("none is refused", exchange_of(options), 1);
    EQUAL("none is told", tellings, 0);
    all = allocations;
    EQUAL("there are some", all > 0, 1);
    for (long i = 1; i <= all; i++) {
        refused = i;
        int whole = exchange_of(options);
        EQUAL("it is told once, or nothing needs it", tellings == 1 || (tellings == 0 && whole), 1);
        retried += whole && tellings;
        untold += !tellings;
    }
    refused = 0;
    printf("%s: %ld in turn; %ld calls were tried again, and %ld did without\n", name, all, retried,
           untold);
}

int main(void) {
    dcsctp_options options;
    dcsctp_options_init(&options);
    options.enable_handover_with_outstanding_data = 1;
    refuse_each("refusals", exchange, &options);
    refuse_each("refusals with channels", channels, &options);
    far_too_long(&options);
    return 0;
}
