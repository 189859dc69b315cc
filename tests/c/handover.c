/* Handing a socket over: an association goes on in another socket, by the bytes of a snapshot, with
 * what waits and what is in flight. Bytes that are no snapshot are refused. */
#include "pair.h"

enum { MESSAGES = 40, LENGTH = 1800 };

static struct pair pair;
static uint8_t snapshot[1 << 20];

static dcsctp_options handover_options(void) {
    dcsctp_options options = quiet_options();
    options.enable_handover_with_outstanding_data = 1;
    return options;
}

/* Hands a socket over, and copies its snapshot, by buffers of several sizes. Returns its length. */
static size_t hand_over(struct end *end) {
    size_t length = 0, again = 0;
    EQUAL("handover", dcsctp_get_handover_state_and_close(&end->socket), DCSCTP_OK);
    EQUAL("closed", dcsctp_state(&end->socket), DCSCTP_STATE_CLOSED);
    memset(snapshot, 77, sizeof snapshot);
    EQUAL("no room", dcsctp_handover_bytes(&end->socket, snapshot, 0, &length),
          DCSCTP_ERROR_BUFFER_TOO_SMALL);
    EQUAL("its length", length > 0 && length < sizeof snapshot, 1);
    EQUAL("no room", dcsctp_handover_bytes(&end->socket, snapshot, length - 1, &again),
          DCSCTP_ERROR_BUFFER_TOO_SMALL);
    EQUAL("its length", again, length);
    EQUAL("unwritten", snapshot[0], 77);
    EQUAL("snapshot", dcsctp_handover_bytes(&end->socket, snapshot, length, &again), DCSCTP_OK);
    EQUAL("its length", again, length);
    EQUAL("unwritten", snapshot[length], 77);
    /* it can be copied again, also after events were taken */
    static uint8_t copy[sizeof snapshot];
    carry(end, NULL);
    EQUAL("the peer isn't told", end->packets, pair.a.packets);
    EQUAL("snapshot", dcsctp_handover_bytes(&end->socket, copy, sizeof copy, &again), DCSCTP_OK);
    EQUAL("the same", memcmp(copy, snapshot, length), 0);
    return length;
}

/* Another socket takes A's place, and goes on from the snapshot. */
static void replace_a(const dcsctp_options *options, size_t length) {
    dcsctp_destroy(&pair.a.socket);
    EQUAL("another A", create(&pair.a, options, 9, pair.now), DCSCTP_OK);
    EQUAL("restore", dcsctp_restore_from_state(&pair.a.socket, snapshot, length), DCSCTP_OK);
}

/* Sends messages that differ. */
static void send_numbered(struct end *end, int from, int to) {
    const dcsctp_send_options how = DCSCTP_SEND_INIT;
    static uint8_t bytes[LENGTH];
    for (int i = from; i < to; i++) {
        memset(bytes, i, sizeof bytes);
        EQUAL("send", dcsctp_send(&end->socket, (uint16_t)(i % 3), (uint32_t)i, bytes,
                                  sizeof bytes, &how), DCSCTP_OK);
    }
}

/* Takes messages, and checks them: on each stream they come in order. */
static void take_numbered(struct end *end, uint32_t next[3], size_t *count) {
    static uint8_t bytes[LENGTH];
    dcsctp_message message;
    size_t length;
    while (dcsctp_get_next_message(&end->socket, &message) == 1) {
        EQUAL("length", message.length, LENGTH);
        EQUAL("in order", message.ppid, next[message.stream_id]);
        next[message.stream_id] += 3;
        EQUAL("bytes", dcsctp_message_bytes(&end->socket, bytes, sizeof bytes, &length), 0);
        for (size_t at = 0; at < LENGTH; at++)
            EQUAL("bytes", bytes[at], message.ppid);
        ++*count;
    }
}

/* A sends more than the windows allow, and the first packets are lost. Then another socket goes on
 * in its place. All messages arrive, once and in order, and those that are sent later, too. */
static void with_outstanding_data(void) {
    const dcsctp_options options = handover_options();
    uint32_t next[3] = {0, 1, 2};
    uint32_t reasons = 77;
    size_t count = 0;
    connect_pair(&pair, &options, &options);
    send_numbered(&pair.a, 0, MESSAGES / 2);
    EQUAL("some are lost", carry(&pair.a, NULL) > 0, 1);
    EQUAL("readiness", dcsctp_get_handover_readiness(&pair.a.socket, &reasons), DCSCTP_OK);
    EQUAL("ready", reasons, 0);
    size_t length = hand_over(&pair.a);
    EQUAL("A's last event", pair.a.seen[DCSCTP_EVENT_CLOSED], 1);
    replace_a(&options, length);
    EQUAL("state", dcsctp_state(&pair.a.socket), DCSCTP_STATE_CONNECTED);
    EQUAL("twice", dcsctp_restore_from_state(&pair.a.socket, snapshot, length),
          DCSCTP_ERROR_NOT_CLOSED);
    send_numbered(&pair.a, MESSAGES / 2, MESSAGES);
    for (int i = 0; i < 100 && count < MESSAGES; i++) {
        settle(&pair);
        take_numbered(&pair.b, next, &count);
        pass(&pair, 1 * SECONDS);
    }
    EQUAL("all arrive", count, MESSAGES);
    EQUAL("it is told", pair.a.seen[DCSCTP_EVENT_CONNECTED], 1);
    EQUAL("B saw nothing", pair.b.seen[DCSCTP_EVENT_CONNECTED], 1);
    EQUAL("B saw nothing", pair.b.seen[DCSCTP_EVENT_CONNECTION_RESTARTED], 0);
    EQUAL("B saw nothing", pair.b.seen[DCSCTP_EVENT_ERROR], 0);
    EQUAL("back", send_bytes(&pair.b, 1, 10), DCSCTP_OK);
    settle(&pair);
    EQUAL("back", take_messages(&pair.a, 10), 1);
    EQUAL("shutdown", dcsctp_shutdown(&pair.a.socket), DCSCTP_OK);
    settle(&pair);
    EQUAL("B", dcsctp_state(&pair.b.socket), DCSCTP_STATE_CLOSED);
    EQUAL("A", dcsctp_state(&pair.a.socket), DCSCTP_STATE_CLOSED);
    destroy_pair(&pair);
}

/* A message with a name is lost on its way, or only a part of it was sent. Then another socket goes
 * on, and tells what the first one hasn't told. */
static void name_of_a_message(size_t bytes, size_t told_count) {
    const dcsctp_options options = handover_options();
    const dcsctp_send_options how = {.lifecycle_id = 7};
    static const uint32_t all[] = {DCSCTP_EVENT_LIFECYCLE_FULLY_SENT,
                                   DCSCTP_EVENT_LIFECYCLE_DELIVERED, DCSCTP_EVENT_LIFECYCLE_END};
    static uint8_t payload[50000];
    connect_pair(&pair, &options, &options);
    EQUAL("send", dcsctp_send(&pair.a.socket, 1, 51, payload, bytes, &how), DCSCTP_OK);
    EQUAL("it is lost", carry(&pair.a, NULL) > 0, 1);
    EQUAL("told so far", pair.a.fate_count, told_count);
    for (size_t i = 0; i < told_count; i++)
        EQUAL("told so far", pair.a.fates[i], all[i]);
    size_t length = hand_over(&pair.a);
    EQUAL("a handover tells nothing of it", pair.a.fate_count, told_count);
    replace_a(&options, length);
    for (int i = 0; i < 100 && pair.a.seen[DCSCTP_EVENT_LIFECYCLE_END] == 0; i++) {
        settle(&pair);
        pass(&pair, 1 * SECONDS);
    }
    EQUAL("it arrives", take_messages(&pair.b, bytes), 1);
    EQUAL("told later", pair.a.fate_count, 3 - told_count);
    for (size_t i = told_count; i < 3; i++) {
        EQUAL("told later", pair.a.fates[i - told_count], all[i]);
        EQUAL("its name", pair.a.last[all[i]].lifecycle_id, 7);
    }
    destroy_pair(&pair);
}

static void names_of_messages(void) {
    name_of_a_message(100, 1);
    name_of_a_message(50000, 0);
}

/* A closed socket has a snapshot, which changes nothing. A socket that isn't ready has none. */
static void without_association(void) {
    const dcsctp_options options = quiet_options();
    uint32_t reasons = 77;
    size_t length = 77;
    create_pair(&pair, &options, &options);
    EQUAL("readiness", dcsctp_get_handover_readiness(&pair.a.socket, &reasons), DCSCTP_OK);
    EQUAL("ready", reasons, 0);
    length = hand_over(&pair.a);
    EQUAL("no event", pair.a.seen[DCSCTP_EVENT_CLOSED], 0);
    EQUAL("restore", dcsctp_restore_from_state(&pair.b.socket, snapshot, length), DCSCTP_OK);
    EQUAL("closed", dcsctp_state(&pair.b.socket), DCSCTP_STATE_CLOSED);
    EQUAL("no event", take(&pair.b), DCSCTP_EVENT_NONE);
    EQUAL("connect", dcsctp_connect(&pair.b.socket), DCSCTP_OK);
    EQUAL("not closed", dcsctp_restore_from_state(&pair.b.socket, snapshot, length),
          DCSCTP_ERROR_NOT_CLOSED);
    EQUAL("readiness", dcsctp_get_handover_readiness(&pair.b.socket, &reasons), DCSCTP_OK);
    EQUAL("connecting", reasons, DCSCTP_HANDOVER_WRONG_CONNECTION_STATE);
    EQUAL("not ready", dcsctp_get_handover_state_and_close(&pair.b.socket),
          DCSCTP_ERROR_NOT_READY);
    EQUAL("unchanged", dcsctp_state(&pair.b.socket), DCSCTP_STATE_CONNECTING);
    EQUAL("no snapshot", dcsctp_handover_bytes(&pair.b.socket, snapshot, 9, &length),
          DCSCTP_ERROR_NOTHING_TO_COPY);
    EQUAL("no snapshot", length, 0);
    destroy_pair(&pair);
}

/* The reasons why a socket isn't ready, each by what brings it about. */
static void reasons_of_a_pair(void) {
    const dcsctp_options options = quiet_options();
    const uint16_t ids[] = {1};
    uint32_t a = 77, b = 77;
    connect_pair(&pair, &options, &options);
    EQUAL("send", send_bytes(&pair.a, 1, 40000), DCSCTP_OK);
    EQUAL("readiness", dcsctp_get_handover_readiness(&pair.a.socket, &a), DCSCTP_OK);
    EQUAL("data waits and flies", a, DCSCTP_HANDOVER_SEND_QUEUE_NOT_EMPTY |
          DCSCTP_HANDOVER_RETRANSMISSION_QUEUE_OUTSTANDING_DATA);
    EQUAL("the first packet", take(&pair.a), DCSCTP_EVENT_SEND_PACKET);
    EQUAL("a part arrives",
          dcsctp_handle_input(&pair.b.socket, pair.a.packet, pair.a.length), DCSCTP_OK);
    EQUAL("readiness", dcsctp_get_handover_readiness(&pair.b.socket, &b), DCSCTP_OK);
    EQUAL("a part waits for the rest", b, DCSCTP_HANDOVER_STREAM_HAS_UNASSEMBLED_CHUNKS);
    EQUAL("the second is lost", take(&pair.a), DCSCTP_EVENT_SEND_PACKET);
    EQUAL("the third", take(&pair.a), DCSCTP_EVENT_SEND_PACKET);
    EQUAL("a part arrives",
          dcsctp_handle_input(&pair.b.socket, pair.a.packet, pair.a.length), DCSCTP_OK);
    EQUAL("readiness", dcsctp_get_handover_readiness(&pair.b.socket, &b), DCSCTP_OK);
    EQUAL("a gap", b, DCSCTP_HANDOVER_STREAM_HAS_UNASSEMBLED_CHUNKS |
          DCSCTP_HANDOVER_DATA_TRACKER_TSN_BLOCKS_PENDING);
    EQUAL("not ready", dcsctp_get_handover_state_and_close(&pair.b.socket),
          DCSCTP_ERROR_NOT_READY);
    EQUAL("it goes on", dcsctp_state(&pair.b.socket), DCSCTP_STATE_CONNECTED);
    destroy_pair(&pair);
    connect_pair(&pair, &options, &options);
    EQUAL("reset", dcsctp_reset_streams(&pair.a.socket, ids, 1), DCSCTP_OK);
    EQUAL("readiness", dcsctp_get_handover_readiness(&pair.a.socket, &a), DCSCTP_OK);
    EQUAL("a reset is under way", a, DCSCTP_HANDOVER_PENDING_STREAM_RESET |
          DCSCTP_HANDOVER_PENDING_STREAM_RESET_REQUEST);
    settle(&pair);
    EQUAL("readiness", dcsctp_get_handover_readiness(&pair.a.socket, &a), DCSCTP_OK);
    EQUAL("it is over", a, 0);
    destroy_pair(&pair);
}

static uint32_t reasons_of(struct end *end) {
    uint32_t reasons = 77;
    EQUAL("readiness", dcsctp_get_handover_readiness(&end->socket, &reasons), DCSCTP_OK);
    return reasons;
}

/* The reasons that a loss brings: the peer's reset waits for lost data (RFC 6525, section 5.2.2),
 * and lost data waits to be sent again, by fast recovery or as the small window allows (RFC 9260,
 * sections 7.2.3 and 7.2.4). */
static void reasons_of_a_loss(void) {
    const dcsctp_options options = quiet_options();
    const uint16_t ids[] = {1};
    connect_pair(&pair, &options, &options);
    EQUAL("send", send_bytes(&pair.a, 1, 10), DCSCTP_OK);
    EQUAL("lost", carry(&pair.a, NULL), 1);
    EQUAL("reset", dcsctp_reset_streams(&pair.a.socket, ids, 1), DCSCTP_OK);
    EQUAL("RE-CONFIG", carry(&pair.a, &pair.b), 1);
    EQUAL("deferred", reasons_of(&pair.b), DCSCTP_HANDOVER_STREAM_RESET_DEFERRED);
    destroy_pair(&pair);
    connect_pair(&pair, &options, &options);
    EQUAL("send", send_bytes(&pair.a, 1, 10), DCSCTP_OK);
    EQUAL("lost", carry(&pair.a, NULL), 1);
    for (int i = 0; i < 3; i++) {
        EQUAL("send", send_bytes(&pair.a, 1, 10), DCSCTP_OK);
        EQUAL("carried", carry(&pair.a, &pair.b), 1);
        carry(&pair.b, &pair.a);
    }
    EQUAL("sent again", carry(&pair.a, NULL), 1);
    EQUAL("fast recovery", reasons_of(&pair.a), DCSCTP_HANDOVER_RETRANSMISSION_QUEUE_FAST_RECOVERY |
          DCSCTP_HANDOVER_RETRANSMISSION_QUEUE_OUTSTANDING_DATA);
    destroy_pair(&pair);
    connect_pair(&pair, &options, &options);
    EQUAL("send", send_bytes(&pair.a, 1, 4000), DCSCTP_OK);
    EQUAL("lost", carry(&pair.a, NULL), 4);
    pass(&pair, 1 * SECONDS);
    EQUAL("not all again", carry(&pair.a, NULL) < 4, 1);
    EQUAL("the rest waits", reasons_of(&pair.a), DCSCTP_HANDOVER_RETRANSMISSION_QUEUE_NOT_EMPTY |
          DCSCTP_HANDOVER_RETRANSMISSION_QUEUE_OUTSTANDING_DATA);
    destroy_pair(&pair);
}

/* Each prefix of a snapshot is refused, and leaves a closed socket as it was. */
static void prefixes(void) {
    const dcsctp_options options = handover_options();
    connect_pair(&pair, &options, &options);
    send_numbered(&pair.a, 0, 12);
    carry(&pair.a, NULL);
    size_t length = hand_over(&pair.a);
    dcsctp_destroy(&pair.a.socket);
    EQUAL("another A", create(&pair.a, &options, 9, pair.now), DCSCTP_OK);
    for (size_t prefix = 0; prefix < length; prefix++) {
        /* a block of its own, so that valgrind sees what is read behind it */
        uint8_t *copy = malloc(prefix + 1);
        EQUAL("memory", copy != NULL, 1);
        memcpy(copy + 1, snapshot, prefix);
        EQUAL("a prefix", dcsctp_restore_from_state(&pair.a.socket, copy + 1, prefix),
              DCSCTP_ERROR_INVALID_SNAPSHOT);
        free(copy);
    }
    EQUAL("one byte more", dcsctp_restore_from_state(&pair.a.socket, snapshot, length + 1),
          DCSCTP_ERROR_INVALID_SNAPSHOT);
    EQUAL("closed", dcsctp_state(&pair.a.socket), DCSCTP_STATE_CLOSED);
    EQUAL("no event", take(&pair.a), DCSCTP_EVENT_NONE);
    EQUAL("the whole", dcsctp_restore_from_state(&pair.a.socket, snapshot, length), DCSCTP_OK);
    EQUAL("connected", dcsctp_state(&pair.a.socket), DCSCTP_STATE_CONNECTED);
    destroy_pair(&pair);
}

/* The bytes behind the body: some of the options, and the check value. */
enum { FINGERPRINT = 14, CHECK = 4 };

/* A snapshot with one byte changed is refused, whatever the byte, and the socket is as it was. */
static void changed_bytes(void) {
    const dcsctp_options options = handover_options();
    connect_pair(&pair, &options, &options);
    send_numbered(&pair.a, 0, 1);
    carry(&pair.a, NULL);
    size_t length = hand_over(&pair.a);
    dcsctp_destroy(&pair.a.socket);
    EQUAL("another A", create(&pair.a, &options, 9, pair.now), DCSCTP_OK);
    for (size_t at = 0; at < length; at++)
        for (int bit = 0; bit < 8; bit++) {
            snapshot[at] ^= (uint8_t)(1 << bit);
            EQUAL("a bit", dcsctp_restore_from_state(&pair.a.socket, snapshot, length),
                  DCSCTP_ERROR_INVALID_SNAPSHOT);
            snapshot[at] ^= (uint8_t)(1 << bit);
        }
    EQUAL("closed", dcsctp_state(&pair.a.socket), DCSCTP_STATE_CLOSED);
    EQUAL("no event", take(&pair.a), DCSCTP_EVENT_NONE);
    EQUAL("unchanged", dcsctp_restore_from_state(&pair.a.socket, snapshot, length), DCSCTP_OK);
    destroy_pair(&pair);
}

/* With one byte of the body changed, and the right check value for that, it is refused or restores a
 * socket that works on. */
static void changed_bodies(void) {
    const dcsctp_options options = handover_options();
    size_t refused = 0;
    connect_pair(&pair, &options, &options);
    send_numbered(&pair.a, 0, 1);
    carry(&pair.a, NULL);
    size_t length = hand_over(&pair.a);
    for (size_t at = 0; at < length - FINGERPRINT - CHECK; at += at < 200 ? 1 : 97) {
        dcsctp_destroy(&pair.a.socket);
        EQUAL("another A", create(&pair.a, &options, 9, pair.now), DCSCTP_OK);
        snapshot[at] ^= 0xff;
        put_check_value(snapshot, length);
        int32_t result = dcsctp_restore_from_state(&pair.a.socket, snapshot, length);
        snapshot[at] ^= 0xff;
        EQUAL("OK or refused", result == DCSCTP_OK || result == DCSCTP_ERROR_INVALID_SNAPSHOT, 1);
        refused += result != DCSCTP_OK;
        EQUAL("time", dcsctp_advance_time(&pair.a.socket, pair.now + 60 * SECONDS), DCSCTP_OK);
        carry(&pair.a, &pair.b);
        carry(&pair.b, &pair.a);
        EQUAL("close", dcsctp_close(&pair.a.socket), DCSCTP_OK);
    }
    EQUAL("some are refused", refused > 0, 1);
    destroy_pair(&pair);
}

/* The seal of a snapshot, by options of which no two numbers are the same. */
static void bytes_of_the_seal(void) {
    static const uint8_t fingerprint[FINGERPRINT] = {0x01, 0x02, 0x03, 0x04, 0x05, 0x06, 0x07,
                                                     0x08, 1, 0, 0x09, 0x0a, 0x0b, 0x0c};
    dcsctp_options options = quiet_options();
    options.local_port = 0x0102;
    options.remote_port = 0x0304;
    options.announced_maximum_incoming_streams = 0x0506;
    options.announced_maximum_outgoing_streams = 0x0708;
    options.enable_partial_reliability = 7;
    options.enable_message_interleaving = 0;
    options.zero_checksum_method = 0x090a0b0c;
    create_pair(&pair, &options, &options);
    size_t length = hand_over(&pair.a);
    const uint8_t *seal = snapshot + length - FINGERPRINT - CHECK;
    EQUAL("options", memcmp(seal, fingerprint, FINGERPRINT), 0);
    EQUAL("check value", u32_at(seal + FINGERPRINT), crc32c(snapshot, length - CHECK));
    destroy_pair(&pair);
}

/* A snapshot is refused by a socket in which one of these options is another, and then it is as it was.
 * With the same options it goes on. */
static void other_options(void) {
    dcsctp_options options = quiet_options();
    options.zero_checksum_method = 1;
    connect_pair(&pair, &options, &options);
    size_t length = hand_over(&pair.a);
    for (int i = 0; i < 8; i++) {
        dcsctp_options others = options;
        others.local_port += i == 0;
        others.remote_port += i == 1;
        others.announced_maximum_incoming_streams -= i == 2;
        others.announced_maximum_outgoing_streams -= i == 3;
        others.enable_partial_reliability ^= i == 4;
        others.enable_message_interleaving ^= i == 5;
        others.zero_checksum_method += i == 6 ? 1 : i == 7 ? UINT32_MAX : 0;
        dcsctp_destroy(&pair.a.socket);
        EQUAL("another A", create(&pair.a, &others, 9, pair.now), DCSCTP_OK);
        EQUAL("other options", dcsctp_restore_from_state(&pair.a.socket, snapshot, length),
              DCSCTP_ERROR_OTHER_OPTIONS);
        EQUAL("closed", dcsctp_state(&pair.a.socket), DCSCTP_STATE_CLOSED);
        EQUAL("no event", take(&pair.a), DCSCTP_EVENT_NONE);
        snapshot[0] ^= 1;
        EQUAL("changed, too", dcsctp_restore_from_state(&pair.a.socket, snapshot, length),
              DCSCTP_ERROR_INVALID_SNAPSHOT);
        snapshot[0] ^= 1;
    }
    replace_a(&options, length);
    EQUAL("connected", dcsctp_state(&pair.a.socket), DCSCTP_STATE_CONNECTED);
    destroy_pair(&pair);
}

/* A snapshot that says of an association without checksums is no valid one without a method for that
 * (RFC 9653), even if its seal fits. */
static void no_method(void) {
    dcsctp_options options = quiet_options();
    options.zero_checksum_method = 1;
    connect_pair(&pair, &options, &options);
    size_t length = hand_over(&pair.a);
    dcsctp_destroy(&pair.a.socket);
    options.zero_checksum_method = 0;
    EQUAL("another A", create(&pair.a, &options, 9, pair.now), DCSCTP_OK);
    put_u32(snapshot + length - 8, 0);
    put_check_value(snapshot, length);
    EQUAL("no method", dcsctp_restore_from_state(&pair.a.socket, snapshot, length),
          DCSCTP_ERROR_INVALID_SNAPSHOT);
    destroy_pair(&pair);
}

/* All other options may differ. Where a socket with others goes on, what was negotiated stays. */
static void all_other_options(void) {
    dcsctp_options options = quiet_options();
    options.enable_message_interleaving = 1;
    options.zero_checksum_method = 1;
    const dcsctp_options others = {
        .size = sizeof others,
        .mtu = 500,
        .max_message_size = 30,
        .max_receiver_window_buffer_size = 2000,
        .max_send_buffer_size = 1000,
        .per_stream_send_queue_limit = 900,
        .total_buffered_amount_low_threshold = 1,
        .default_stream_buffered_amount_low_threshold = 2,
        .cwnd_mtus_initial = 3,
        .cwnd_mtus_min = 2,
        .rtt_max = 1 * SECONDS,
        .rto_initial = 2 * SECONDS,
        .rto_max = 3 * SECONDS,
        .rto_min = 1 * SECONDS,
        .t1_init_timeout = 4 * SECONDS,
        .t1_cookie_timeout = 5 * SECONDS,
        .cookie_lifetime = 6 * SECONDS,
        .max_timer_backoff_duration = 7 * SECONDS,
        .heartbeat_interval = 8 * SECONDS,
        .delayed_ack_max_timeout = 100 * MILLISECONDS,
        .min_rtt_variance = 1,
        .max_burst = 1,
        .max_retransmissions = 3,
        .max_init_retransmits = 4,
        .zero_checksum_method = 1,
        .enable_partial_reliability = 1,
        .enable_message_interleaving = 1,
        .disable_checksum_verification = 1,
        .enable_handover_with_outstanding_data = 1,
        .local_port = 5000,
        .remote_port = 5000,
        .announced_maximum_incoming_streams = 65535,
        .announced_maximum_outgoing_streams = 65535,
        .default_stream_priority = 9,
    };
    connect_pair(&pair, &options, &options);
    replace_a(&others, hand_over(&pair.a));
    EQUAL("streams stay", metrics_of(&pair.a).negotiated_maximum_outgoing_streams, 65535);
    EQUAL("interleaving stays", metrics_of(&pair.a).uses_message_interleaving, 1);
    EQUAL("no checksum stays", metrics_of(&pair.a).uses_zero_checksum, 1);
    EQUAL("send", send_bytes(&pair.a, 1, 20), DCSCTP_OK);
    settle(&pair);
    EQUAL("it arrives", take_messages(&pair.b, 20), 1);
    EQUAL("no error", pair.a.seen[DCSCTP_EVENT_ERROR] + pair.b.seen[DCSCTP_EVENT_ERROR], 0);
    destroy_pair(&pair);
}

int main(void) {
    reasons_of_a_pair();
    reasons_of_a_loss();
    without_association();
    with_outstanding_data();
    names_of_messages();
    prefixes();
    changed_bytes();
    changed_bodies();
    bytes_of_the_seal();
    other_options();
    no_method();
    all_other_options();
    puts("handover: an association goes on by its snapshot alone");
    return 0;
}
