/* Calls at random on two sockets and on none, with packets that are lost, repeated and changed, and
 * with allocations that are refused. After each call what dcsctp.h says of every call has to hold.
 * `random FIRST COUNT` makes COUNT runs; each is the same for the same number. */
#include "pair.h"
#include "refusing.h"

enum { CALLS = 400, FLIGHT = 64, ROOM = 3000, GUARD = 171 };

/* ---- Memory and chance ---------------------------------------------------------------------- */

static uint64_t state;        /* of the random numbers */
static unsigned refuse_every; /* one of so many allocations is refused; 0: none */
static long refusals;

/* A number below `limit` (splitmix64). */
static uint64_t below(uint64_t limit) {
    uint64_t z = state += UINT64_C(0x9e3779b97f4a7c15);
    z = (z ^ (z >> 30)) * UINT64_C(0xbf58476d1ce4e5b9);
    z = (z ^ (z >> 27)) * UINT64_C(0x94d049bb133111eb);
    return (z ^ (z >> 31)) % limit;
}

static int is_refused(size_t size) {
    (void)size;
    int refused = refuse_every > 0 && below(refuse_every) == 0;
    refusals += refused;
    return refused;
}

/* ---- Two sockets and what is under way ------------------------------------------------------ */

struct side {
    dcsctp_socket socket;
    int exists, failed;
    size_t mtu;
    uint64_t now;
};

static struct side sides[2];
static struct { uint8_t bytes[ROOM]; size_t length; } flight[2][FLIGHT];
static uint8_t snapshot[1 << 16];
static size_t snapshot_length;

/* Checks a result: the same for each call. A result above 0 is at most `greatest`. */
static void check(struct side *side, const char *call, int32_t result, int32_t greatest,
                  int is_command, long refused_before) {
    int32_t failed = dcsctp_has_failed(&side->socket);
    EQUAL(call, (result == DCSCTP_ERROR_NO_SOCKET) == !side->exists, 1);
    EQUAL(call, result <= greatest && result >= DCSCTP_ERROR_OTHER_OPTIONS, 1);
    if (!side->exists)
        return;
    EQUAL(call, result != DCSCTP_ERROR_OUT_OF_MEMORY || refusals > refused_before, 1);
    if (result != DCSCTP_ERROR_OUT_OF_MEMORY)
        EQUAL(call, (result == DCSCTP_ERROR_FAILED) == (is_command && side->failed), 1);
    EQUAL(call, failed == 0 || side->failed || result == DCSCTP_ERROR_OUT_OF_MEMORY, 1);
    EQUAL(call, failed == 1 || !side->failed, 1);
    side->failed = failed;
}

/* Creates a socket, with options that vary. */
static void make(struct side *side) {
    dcsctp_options options;
    uint8_t seed[32];
    dcsctp_options_init(&options);
    options.mtu = below(20) ? 200 + below(1300) : below(70000);
    options.max_send_buffer_size = below(4) ? 20000 : 500;
    options.enable_message_interleaving = (uint32_t)below(2);
    options.disable_checksum_verification = 1;
    options.enable_handover_with_outstanding_data = (uint32_t)below(2);
    options.follow_rfc = (uint32_t)below(2);
    options.zero_checksum_method = (uint32_t)below(2);
    options.max_retransmissions = below(2) ? DCSCTP_NO_LIMIT : (uint32_t)below(4);
    for (size_t i = 0; i < sizeof seed; i++)
        seed[i] = (uint8_t)below(256);
    int valid = options.mtu >= 32 && options.mtu <= 65535;
    long before = refusals;
    int32_t result = dcsctp_create(&side->socket, &options, seed, side->now);
    if (side->exists)
        EQUAL("created twice", result, DCSCTP_ERROR_ALREADY_CREATED);
    else if (!valid)
        EQUAL("invalid", result, DCSCTP_ERROR_INVALID_OPTIONS);
    else if (result != DCSCTP_OK)
        EQUAL("created", result == DCSCTP_ERROR_OUT_OF_MEMORY && refusals > before, 1);
    if (result == DCSCTP_OK) {
        side->exists = 1;
        side->failed = 0;
        side->mtu = options.mtu;
    }
}

/* Copies by one of the calls that copy, to a buffer of random size. What is behind stays. */
static void copy(struct side *side,
                 int32_t (*call)(const dcsctp_socket *, uint8_t *, size_t, size_t *),
                 const char *name, size_t wanted) {
    static uint8_t buffer[ROOM];
    size_t capacity = below(2) ? ROOM : below(ROOM), length = 77;
    long before = refusals;
    memset(buffer, GUARD, sizeof buffer);
    int32_t result = call(&side->socket, buffer, capacity, &length);
    check(side, name, result, 0, 0, before);
    if (!side->exists || result == DCSCTP_ERROR_OUT_OF_MEMORY)
        EQUAL(name, length, 77);
    else if (wanted != SIZE_MAX)
        EQUAL(name, length, wanted);
    if (result == DCSCTP_ERROR_BUFFER_TOO_SMALL)
        EQUAL(name, length > capacity, 1);
    size_t written = result == DCSCTP_OK ? length : 0;
    for (size_t i = written; i < ROOM; i++)
        EQUAL(name, buffer[i], GUARD);
}

/* Takes an event. A packet goes to a place among those under way. */
static void take_event(struct side *side, int which) {
    dcsctp_event event;
    memset(&event, GUARD, sizeof event);
    const long before = refusals;
    int32_t result = dcsctp_poll_event(&side->socket, &event);
    check(side, "poll_event", result, 1, 0, before);
    EQUAL("taking allocates nothing", refusals, before);
    if (!side->exists)
        return;
    EQUAL("a kind", result == 1, event.kind != DCSCTP_EVENT_NONE);
    EQUAL("a kind", event.kind < KINDS, 1);
    copy(side, dcsctp_event_bytes, "event_bytes",
         event.kind == DCSCTP_EVENT_SEND_PACKET || event.kind == DCSCTP_EVENT_ABORTED ||
                 event.kind == DCSCTP_EVENT_ERROR ? event.length : 0);
    if (event.kind != DCSCTP_EVENT_SEND_PACKET)
        return;
    EQUAL("a packet fits", event.length > 0 && event.length <= side->mtu, 1);
    size_t place = below(FLIGHT), length = 0;
    if (event.length <= ROOM) {
        EQUAL("a packet", dcsctp_event_bytes(&side->socket, flight[!which][place].bytes, ROOM,
                                             &length), DCSCTP_OK);
        flight[!which][place].length = length;
    }
}

/* Hands a packet in, if one is under way: as it was sent, changed at a place, or cut off. It may
 * come again, or get lost. */
static void hand_in(struct side *side, int which) {
    static uint8_t bytes[ROOM];
    size_t place = below(FLIGHT);
    for (int i = 0; i < FLIGHT && flight[which][place].length == 0; i++)
        place = (place + 1) % FLIGHT;
    size_t length = flight[which][place].length;
    if (length == 0 && below(50))
        return;
    memcpy(bytes, flight[which][place].bytes, length);
    if (length > 0 && below(20) == 0)
        bytes[below(length)] = (uint8_t)below(256);
    if (below(40) == 0)
        length = below(length + 1);
    long before = refusals;
    check(side, "handle_input", dcsctp_handle_input(&side->socket, bytes, length), 0, 1, before);
    if (below(4))
        flight[which][place].length = 0;
}

/* Sends up to five messages in one call. The first error of one of them is what the call returns. */
static void send_some(struct side *side, const dcsctp_send_options *how) {
    static uint8_t payload[4000];
    dcsctp_outgoing_message messages[5];
    int32_t results[6] = {GUARD, GUARD, GUARD, GUARD, GUARD, GUARD}, first = DCSCTP_OK;
    const size_t count = below(6);
    for (size_t i = 0; i < count; i++) {
        const dcsctp_outgoing_message message = {payload, below(8) ? below(200) : below(4000), 51,
                                                 (uint16_t)below(4), 0};
        messages[i] = message;
    }
    long before = refusals;
    int32_t result = dcsctp_send_many(&side->socket, messages, count, how, results, 5);
    check(side, "send_many", result, 0, 1, before);
    const int sent = side->exists && result != DCSCTP_ERROR_OUT_OF_MEMORY &&
                     result != DCSCTP_ERROR_FAILED;
    for (size_t i = 0; i < 6; i++)
        if (!sent || i >= count)
            EQUAL("no result", results[i], GUARD);
        else if (first == DCSCTP_OK)
            first = results[i];
    if (sent)
        EQUAL("the first error", result, first);
}

static void send_one(struct side *side) {
    static uint8_t payload[4000];
    dcsctp_send_options how = {below(5), below(3) * SECONDS, (uint32_t)below(8),
                               (uint16_t)below(3), 0};
    long before = refusals;
    if (below(4) == 0) {
        send_some(side, &how);
        return;
    }
    check(side, "send", dcsctp_send(&side->socket, (uint16_t)below(4), 51, payload,
                                    below(8) ? below(200) : below(4000), &how), 0, 1, before);
}

static void hand_over(struct side *side) {
    long before = refusals;
    int32_t result = dcsctp_get_handover_state_and_close(&side->socket);
    check(side, "handover", result, 0, 1, before);
    before = refusals;
    size_t length = 0;
    result = dcsctp_handover_bytes(&side->socket, snapshot, sizeof snapshot, &length);
    check(side, "handover_bytes", result, 0, 0, before);
    if (result == DCSCTP_OK)
        snapshot_length = length;
}

/* Gives a snapshot the options of the socket that takes it, as far as they vary here. */
static void fit_options(struct side *side, uint8_t *bytes) {
    dcsctp_options options;
    options.size = sizeof options;
    if (dcsctp_get_options(&side->socket, &options) != DCSCTP_OK)
        return;
    bytes[snapshot_length - 9] = (uint8_t)options.enable_message_interleaving;
    put_u32(bytes + snapshot_length - 8, options.zero_checksum_method);
    put_check_value(bytes, snapshot_length);
}

static void restore(struct side *side) {
    static uint8_t bytes[sizeof snapshot];
    memcpy(bytes, snapshot, snapshot_length);
    if (snapshot_length > 0 && below(2) == 0)
        fit_options(side, bytes);
    if (snapshot_length > 0 && below(3) == 0) {
        bytes[below(snapshot_length)] = (uint8_t)below(256);
        if (below(4) > 0)
            put_check_value(bytes, snapshot_length);
    }
    long before = refusals;
    int32_t result = dcsctp_restore_from_state(&side->socket, bytes, snapshot_length);
    EQUAL("restore", result == DCSCTP_OK || result < 0, 1);
    /* bytes that are refused are so on a socket that has failed, too */
    if (result != DCSCTP_ERROR_INVALID_SNAPSHOT && result != DCSCTP_ERROR_OTHER_OPTIONS)
        check(side, "restore", result, 0, 1, before);
}

/* The message that is shown has the bytes that are copied. */
static void compare_view(struct side *side, const uint8_t *bytes, size_t size, size_t wanted) {
    static uint8_t copied[ROOM];
    size_t length = 0;
    EQUAL("the length of a view", size, wanted);
    if (dcsctp_message_bytes(&side->socket, copied, ROOM, &length) == DCSCTP_OK)
        EQUAL("the bytes of a view", memcmp(bytes, copied, length), 0);
}

static void query(struct side *side) {
    uint64_t moment = 0;
    size_t size;
    uint32_t reasons, tag;
    dcsctp_metrics metrics;
    dcsctp_counts counts;
    dcsctp_options options;
    dcsctp_message message = {0, 0, 0, 0};
    metrics.size = sizeof metrics;
    counts.size = sizeof counts;
    options.size = sizeof options;
    const long before = refusals;
    check(side, "poll_timeout", dcsctp_poll_timeout(&side->socket, &moment), 0, 0, before);
    check(side, "state", dcsctp_state(&side->socket), 3, 0, before);
    check(side, "tag", dcsctp_verification_tag(&side->socket, &tag), 0, 0, before);
    check(side, "ready", dcsctp_messages_ready_count(&side->socket, &size), 0, 0, before);
    check(side, "metrics", dcsctp_get_metrics(&side->socket, &metrics), 1, 0, before);
    check(side, "counts", dcsctp_get_counts(&side->socket, &counts), 0, 0, before);
    check(side, "options", dcsctp_get_options(&side->socket, &options), 0, 0, before);
    check(side, "readiness", dcsctp_get_handover_readiness(&side->socket, &reasons), 0, 0, before);
    check(side, "message", dcsctp_get_next_message(&side->socket, &message), 1, 0, before);
    const uint8_t *bytes = NULL;
    int32_t result = dcsctp_message_view(&side->socket, &bytes, &size);
    check(side, "message_view", result, 0, 0, before);
    if (result == DCSCTP_OK && message.length > 0)
        compare_view(side, bytes, size, message.length);
    EQUAL("no query allocates", refusals, before);
    if (side->exists)
        copy(side, dcsctp_message_bytes, "message_bytes", message.length);
}

/* Tells the time, some of it later. No deadline is before it. */
static void tell_time(struct side *side) {
    uint64_t deadline = 0;
    side->now += below(2) ? below(100 * MILLISECONDS) : below(3 * SECONDS);
    long before = refusals;
    check(side, "advance_time", dcsctp_advance_time(&side->socket, side->now), 0, 1, before);
    if (side->exists && !side->failed) {
        EQUAL("deadline", dcsctp_poll_timeout(&side->socket, &deadline), DCSCTP_OK);
        EQUAL("deadline", deadline >= side->now, 1);
    }
}

/* ---- Runs ----------------------------------------------------------------------------------- */

static void command(struct side *side, uint64_t which) {
    const uint16_t streams[] = {(uint16_t)below(5), (uint16_t)below(5)};
    dcsctp_socket *socket = &side->socket;
    long before = refusals;
    int32_t result = which == 0   ? dcsctp_connect(socket)
                     : which == 1 ? dcsctp_shutdown(socket)
                     : which == 2 ? dcsctp_close(socket)
                     : which == 3 ? dcsctp_reset_streams(socket, streams, below(3))
                     : which == 4 ? dcsctp_set_stream_priority(socket, streams[0], streams[1])
                     : dcsctp_set_buffered_amount_low_threshold(socket, 1, below(900));
    check(side, "a command", result, 0, 1, before);
}

static void call(struct side *side, int which) {
    switch (below(32)) {
    case 0: make(side); break;
    case 1:
        if (below(20) == 0) {
            dcsctp_destroy(&side->socket);
            side->exists = 0;
        }
        break;
    case 2: command(side, below(20) ? 0 : below(3)); break;
    case 3: command(side, 3 + below(3)); break;
    case 4: below(4) ? query(side) : hand_over(side); break;
    case 5: below(4) ? query(side) : restore(side); break;
    case 6: case 7: tell_time(side); break;
    case 8: case 9: case 10: case 11: send_one(side); break;
    case 12: case 13: case 14: case 15: hand_in(side, which); break;
    case 16: case 17: case 18: case 19: hand_in(side, which); break;
    default: take_event(side, which);
    }
}

static void run(uint64_t number) {
    state = number;
    memset(sides, 0, sizeof sides);
    memset(flight, 0, sizeof flight);
    snapshot_length = 0;
    refuse_every = below(3) ? 0 : 20 + (unsigned)below(500);
    for (int i = 0; i < 2; i++) {
        sides[i].now = BEGIN;
        make(&sides[i]);
        command(&sides[i], 0);
    }
    for (int i = 0; i < CALLS; i++) {
        int which = (int)below(2);
        call(&sides[which], which);
    }
    for (int i = 0; i < 2; i++)
        dcsctp_destroy(&sides[i].socket);
    EQUAL("blocks that aren't given back", blocks, 0);
}

int main(int count, char **words) {
    uint64_t first = count > 1 ? strtoull(words[1], NULL, 10) : 1;
    uint64_t runs = count > 2 ? strtoull(words[2], NULL, 10) : 400;
    for (uint64_t i = 0; i < runs; i++)
        run(first + i);
    printf("random: %" PRIu64 " runs of %d calls, as dcsctp.h says\n", runs, CALLS);
    return 0;
}
