/* Each option: its default, that it is returned as it was set, and what it does. So two fields that
 * were exchanged would be found. And the metrics. */
#define _GNU_SOURCE
#include "pair.h"

#include <sys/mman.h>

/* ---- Values --------------------------------------------------------------------------------- */

static void defaults(void) {
    dcsctp_options options;
    memset(&options, 0xff, sizeof options);
    dcsctp_options_init(&options);
    const struct {
        const char *name;
        uint64_t value, expected;
    } rows[] = {
        {"size", options.size, sizeof options},
        {"mtu", options.mtu, 1191},
        {"max_message_size", options.max_message_size, 262144},
        {"max_receiver_window_buffer_size", options.max_receiver_window_buffer_size, 5242880},
        {"max_send_buffer_size", options.max_send_buffer_size, 2000000},
        {"per_stream_send_queue_limit", options.per_stream_send_queue_limit, 2000000},
        {"total_buffered_amount_low_threshold", options.total_buffered_amount_low_threshold,
         1800000},
        {"default_stream_buffered_amount_low_threshold",
         options.default_stream_buffered_amount_low_threshold, 0},
        {"cwnd_mtus_initial", options.cwnd_mtus_initial, 10},
        {"cwnd_mtus_min", options.cwnd_mtus_min, 4},
        {"rtt_max", options.rtt_max, 60 * SECONDS},
        {"rto_initial", options.rto_initial, 500 * MILLISECONDS},
        {"rto_max", options.rto_max, 60 * SECONDS},
        {"rto_min", options.rto_min, 400 * MILLISECONDS},
        {"t1_init_timeout", options.t1_init_timeout, 1 * SECONDS},
        {"t1_cookie_timeout", options.t1_cookie_timeout, 1 * SECONDS},
        {"cookie_lifetime", options.cookie_lifetime, 60 * SECONDS},
        {"max_timer_backoff_duration", options.max_timer_backoff_duration, 3 * SECONDS},
        {"heartbeat_interval", options.heartbeat_interval, 30 * SECONDS},
        {"delayed_ack_max_timeout", options.delayed_ack_max_timeout, 200 * MILLISECONDS},
        {"min_rtt_variance", options.min_rtt_variance, 220 * MILLISECONDS},
        {"max_burst", (uint64_t)options.max_burst, 4},
        {"max_retransmissions", options.max_retransmissions, 60},
        {"max_init_retransmits", options.max_init_retransmits, 60},
        {"zero_checksum_method", options.zero_checksum_method, 0},
        {"enable_partial_reliability", options.enable_partial_reliability, 1},
        {"enable_message_interleaving", options.enable_message_interleaving, 0},
        {"disable_checksum_verification", options.disable_checksum_verification, 0},
        {"enable_handover_with_outstanding_data", options.enable_handover_with_outstanding_data,
         0},
        {"local_port", options.local_port, 5000},
        {"remote_port", options.remote_port, 5000},
        {"announced_maximum_incoming_streams", options.announced_maximum_incoming_streams, 65535},
        {"announced_maximum_outgoing_streams", options.announced_maximum_outgoing_streams, 65535},
        {"default_stream_priority", options.default_stream_priority, 256},
        {"checksum_offload", options.checksum_offload, 0},
        {"follow_rfc", options.follow_rfc, 1},
    };
    for (size_t i = 0; i < sizeof rows / sizeof rows[0]; i++)
        EQUAL(rows[i].name, rows[i].value, rows[i].expected);
}

/* All different, and none the default. */
static const dcsctp_options DIFFERENT = {
    .size = sizeof(dcsctp_options),
    .mtu = 1001,
    .max_message_size = 1002,
    .max_receiver_window_buffer_size = 1003,
    .max_send_buffer_size = 1004,
    .per_stream_send_queue_limit = 1005,
    .total_buffered_amount_low_threshold = 1006,
    .default_stream_buffered_amount_low_threshold = 1007,
    .cwnd_mtus_initial = 1008,
    .cwnd_mtus_min = 1009,
    .rtt_max = 1010,
    .rto_initial = 1011,
    .rto_max = 1012,
    .rto_min = 1013,
    .t1_init_timeout = 1014,
    .t1_cookie_timeout = 1015,
    .cookie_lifetime = 1035,
    .max_timer_backoff_duration = 1016,
    .heartbeat_interval = 1017,
    .delayed_ack_max_timeout = 1018,
    .min_rtt_variance = DCSCTP_NEVER - 1,
    .max_burst = -1020,
    .max_retransmissions = 1021,
    .max_init_retransmits = DCSCTP_NO_LIMIT,
    .zero_checksum_method = 1023,
    .enable_partial_reliability = 0,
    .enable_message_interleaving = 1024,
    .disable_checksum_verification = 0x80000000,
    .enable_handover_with_outstanding_data = DCSCTP_NO_LIMIT,
    .local_port = 1028,
    .remote_port = 1029,
    .announced_maximum_incoming_streams = 1030,
    .announced_maximum_outgoing_streams = 1031,
    .default_stream_priority = 1032,
    .checksum_offload = 1033,
    .follow_rfc = 0,
};

/* Options come back as they were given, but for switches, which come back as 0 or 1. */
static void given_back(void) {
    dcsctp_options options, expected = DIFFERENT;
    struct end end;
    expected.enable_message_interleaving = 1;
    expected.disable_checksum_verification = 0; /* it has no effect with checksum_offload */
    expected.enable_handover_with_outstanding_data = 1;
    expected.checksum_offload = 1;
    memset(&options, 77, sizeof options);
    options.size = sizeof options;
    EQUAL("create", create(&end, &DIFFERENT, 1, BEGIN), DCSCTP_OK);
    EQUAL("options", dcsctp_get_options(&end.socket, &options), DCSCTP_OK);
#define SAME(field) EQUAL(#field, options.field == expected.field, 1)
    SAME(size);
    SAME(mtu);
    SAME(max_message_size);
    SAME(max_receiver_window_buffer_size);
    SAME(max_send_buffer_size);
    SAME(per_stream_send_queue_limit);
    SAME(total_buffered_amount_low_threshold);
    SAME(default_stream_buffered_amount_low_threshold);
    SAME(cwnd_mtus_initial);
    SAME(cwnd_mtus_min);
    SAME(rtt_max);
    SAME(rto_initial);
    SAME(rto_max);
    SAME(rto_min);
    SAME(t1_init_timeout);
    SAME(t1_cookie_timeout);
    SAME(cookie_lifetime);
    SAME(max_timer_backoff_duration);
    SAME(heartbeat_interval);
    SAME(delayed_ack_max_timeout);
    SAME(min_rtt_variance);
    SAME(max_burst);
    SAME(max_retransmissions);
    SAME(max_init_retransmits);
    SAME(zero_checksum_method);
    SAME(enable_partial_reliability);
    SAME(enable_message_interleaving);
    SAME(disable_checksum_verification);
    SAME(enable_handover_with_outstanding_data);
    SAME(local_port);
    SAME(remote_port);
    SAME(announced_maximum_incoming_streams);
    SAME(announced_maximum_outgoing_streams);
    SAME(default_stream_priority);
    SAME(checksum_offload);
    SAME(follow_rfc);
    EQUAL("set", dcsctp_set_max_message_size(&end.socket, 5), DCSCTP_OK);
    EQUAL("options", dcsctp_get_options(&end.socket, &options), DCSCTP_OK);
    EQUAL("as it was set last", options.max_message_size, 5);
    EQUAL("nothing else", options.mtu, 1001);
    dcsctp_destroy(&end.socket);
}

/* Which options are valid. */
static void validity(void) {
    const struct {
        const char *name;
        size_t mtu, receive, send;
        int32_t result;
    } rows[] = {
        {"least mtu", 32, 1, 1, DCSCTP_OK},
        {"mtu below it", 31, 1, 1, DCSCTP_ERROR_INVALID_OPTIONS},
        {"no mtu", 0, 1, 1, DCSCTP_ERROR_INVALID_OPTIONS},
        {"greatest mtu", 65535, 1, 1, DCSCTP_OK},
        {"mtu above it", 65536, 1, 1, DCSCTP_ERROR_INVALID_OPTIONS},
        {"greatest receive buffer", 1191, 4294967295, 1, DCSCTP_OK},
        {"receive buffer above it", 1191, 4294967296, 1, DCSCTP_ERROR_INVALID_OPTIONS},
        {"greatest send buffer", 1191, 1, 4294967295, DCSCTP_OK},
        {"send buffer above it", 1191, 1, 4294967296, DCSCTP_ERROR_INVALID_OPTIONS},
        {"all at their greatest", SIZE_MAX, SIZE_MAX, SIZE_MAX, DCSCTP_ERROR_INVALID_OPTIONS},
    };
    dcsctp_options options;
    struct end end;
    for (int fill = 0; fill < 256; fill += 255) {
        for (size_t i = 0; i < sizeof rows / sizeof rows[0]; i++) {
            memset(&options, fill, sizeof options);
            options.size = sizeof options;
            options.mtu = rows[i].mtu;
            options.max_receiver_window_buffer_size = rows[i].receive;
            options.max_send_buffer_size = rows[i].send;
            EQUAL(rows[i].name, create(&end, &options, 1, BEGIN), rows[i].result);
            EQUAL(rows[i].name, dcsctp_state(&end.socket),
                  rows[i].result == DCSCTP_OK ? DCSCTP_STATE_CLOSED : DCSCTP_ERROR_NO_SOCKET);
            dcsctp_destroy(&end.socket);
        }
    }
}

static struct pair pair;

/* A struct of another size is refused, whatever else it has: only `size` is there, and after it a page
 * that can't be read. The options of the header that had no `size` had 208 bytes, and `mtu` came first. */
static void other_sizes(void) {
    const struct {
        const char *name;
        size_t size;
    } rows[] = {
        {"not set", 0},
        {"nothing but size", sizeof(size_t)},
        {"options without size", sizeof(dcsctp_options) - sizeof(size_t)},
        {"metrics without size", sizeof(dcsctp_metrics) - sizeof(size_t)},
        {"a field more in the options", sizeof(dcsctp_options) + sizeof(uint64_t)},
        {"a field more in the metrics", sizeof(dcsctp_metrics) + sizeof(uint64_t)},
        {"a field more in the counts", sizeof(dcsctp_counts) + sizeof(uint64_t)},
        {"mtu in the place of size", 1191},
        {"the greatest", SIZE_MAX},
    };
    const dcsctp_options options = quiet_options();
    const uint8_t seed[32] = {1};
    char *pages = mmap(NULL, 131072, PROT_READ | PROT_WRITE, MAP_PRIVATE | MAP_ANONYMOUS, -1, 0);
    EQUAL("two pages", pages != MAP_FAILED, 1);
    EQUAL("the second can't be read", mprotect(pages + 65536, 65536, PROT_NONE), 0);
    void *at = pages + 65536 - sizeof(size_t);
    connect_pair(&pair, &options, &options);
    for (size_t i = 0; i < sizeof rows / sizeof rows[0]; i++) {
        dcsctp_socket none = DCSCTP_SOCKET_INIT, *of_a = &pair.a.socket;
        memcpy(at, &rows[i].size, sizeof(size_t));
        EQUAL(rows[i].name, dcsctp_get_default_options(at), DCSCTP_ERROR_WRONG_SIZE);
        EQUAL(rows[i].name, dcsctp_create(&none, at, seed, BEGIN), DCSCTP_ERROR_WRONG_SIZE);
        EQUAL(rows[i].name, dcsctp_state(&none), DCSCTP_ERROR_NO_SOCKET);
        EQUAL("a second socket", dcsctp_create(of_a, at, seed, BEGIN), DCSCTP_ERROR_ALREADY_CREATED);
        EQUAL(rows[i].name, dcsctp_get_options(of_a, at), DCSCTP_ERROR_WRONG_SIZE);
        EQUAL(rows[i].name, dcsctp_get_metrics(of_a, at), DCSCTP_ERROR_WRONG_SIZE);
        EQUAL(rows[i].name, dcsctp_get_counts(of_a, at), DCSCTP_ERROR_WRONG_SIZE);
        EQUAL("no socket", dcsctp_get_options(&none, at), DCSCTP_ERROR_WRONG_SIZE);
        EQUAL("no socket", dcsctp_get_metrics(&none, at), DCSCTP_ERROR_WRONG_SIZE);
        EQUAL("no socket", dcsctp_get_counts(&none, at), DCSCTP_ERROR_WRONG_SIZE);
        EQUAL("as before", memcmp(at, &rows[i].size, sizeof(size_t)), 0);
    }
    destroy_pair(&pair);
    munmap(pages, 131072);
}

/* Each size but one is refused, of all that structs may have. */
static void all_sizes(void) {
    dcsctp_options defaults, given, own, options_before;
    dcsctp_metrics metrics, metrics_before;
    dcsctp_counts counts, counts_before;
    struct end end;
    memset(&options_before, 77, sizeof options_before);
    memset(&metrics_before, 77, sizeof metrics_before);
    memset(&counts_before, 77, sizeof counts_before);
    dcsctp_options_init(&defaults);
    connect_pair(&pair, &defaults, &defaults);
    for (size_t size = 0; size < 4096; size++) {
        const int is_options = size == sizeof given, is_metrics = size == sizeof metrics;
        const int32_t result = is_options ? DCSCTP_OK : DCSCTP_ERROR_WRONG_SIZE;
        const int32_t counted = size == sizeof counts ? DCSCTP_OK : DCSCTP_ERROR_WRONG_SIZE;
        defaults.size = options_before.size = metrics_before.size = counts_before.size = size;
        given = own = options_before;
        metrics = metrics_before;
        counts = counts_before;
        EQUAL("create", create(&end, &defaults, 1, BEGIN), result);
        EQUAL("default options", dcsctp_get_default_options(&given), result);
        EQUAL("options", dcsctp_get_options(&pair.a.socket, &own), result);
        EQUAL("metrics", dcsctp_get_metrics(&pair.a.socket, &metrics),
              is_metrics ? 1 : DCSCTP_ERROR_WRONG_SIZE);
        EQUAL("counts", dcsctp_get_counts(&pair.a.socket, &counts), counted);
        EQUAL("size", given.size == size && own.size == size && metrics.size == size, 1);
        EQUAL("size", counts.size, size);
        EQUAL("written", memcmp(&given, &options_before, sizeof given) != 0, is_options);
        EQUAL("written", memcmp(&own, &options_before, sizeof own) != 0, is_options);
        EQUAL("written", memcmp(&metrics, &metrics_before, sizeof metrics) != 0, is_metrics);
        EQUAL("written", memcmp(&counts, &counts_before, sizeof counts) != 0, counted == DCSCTP_OK);
        dcsctp_destroy(&end.socket);
    }
    destroy_pair(&pair);
}

/* ---- What each option does ------------------------------------------------------------------ */

/* The first packet of a socket, an INIT (RFC 9260, section 3.3.2). */
static void in_the_init(void) {
    dcsctp_options options = quiet_options();
    size_t length = 0;
    options.local_port = 1111;
    options.remote_port = 2222;
    options.announced_maximum_outgoing_streams = 3333;
    options.announced_maximum_incoming_streams = 4444;
    options.max_receiver_window_buffer_size = 55555;
    for (uint32_t on = 0; on <= 1; on++) {
        options.enable_partial_reliability = on;
        create_pair(&pair, &options, &options);
        EQUAL("connect", dcsctp_connect(&pair.a.socket), DCSCTP_OK);
        EQUAL("one packet", carry(&pair.a, NULL), 1);
        EQUAL("local_port", u16_at(pair.a.packet), 1111);
        EQUAL("remote_port", u16_at(pair.a.packet + 2), 2222);
        EQUAL("verification tag", u32_at(pair.a.packet + 4), 0);
        EQUAL("chunk type", pair.a.packet[12], 1);
        EQUAL("max_receiver_window_buffer_size", u32_at(pair.a.packet + 20), 55555);
        EQUAL("announced_maximum_outgoing_streams", u16_at(pair.a.packet + 24), 3333);
        EQUAL("announced_maximum_incoming_streams", u16_at(pair.a.packet + 26), 4444);
        /* the parameter of RFC 3758, section 3.1 */
        EQUAL("enable_partial_reliability",
              find_parameter(pair.a.packet, pair.a.length, 49152, &length) != 0, on);
        destroy_pair(&pair);
    }
}

static void ports(void) {
    dcsctp_options of_a = quiet_options(), of_b = quiet_options();
    of_a.local_port = of_b.remote_port = 1111;
    of_a.remote_port = of_b.local_port = 2222;
    connect_pair(&pair, &of_a, &of_b);
    destroy_pair(&pair);
}

static void negotiated(void) {
    dcsctp_options of_a = quiet_options(), of_b = quiet_options();
    of_a.announced_maximum_outgoing_streams = 10;
    of_a.announced_maximum_incoming_streams = 20;
    of_b.announced_maximum_outgoing_streams = 15;
    of_b.announced_maximum_incoming_streams = 5;
    for (uint32_t on = 0; on <= 1; on++) {
        of_a.enable_message_interleaving = of_b.enable_message_interleaving = on;
        of_a.zero_checksum_method = of_b.zero_checksum_method = !on;
        connect_pair(&pair, &of_a, &of_b);
        const dcsctp_metrics a = metrics_of(&pair.a), b = metrics_of(&pair.b);
        EQUAL("outgoing at A", a.negotiated_maximum_outgoing_streams, 5);
        EQUAL("incoming at A", a.negotiated_maximum_incoming_streams, 15);
        EQUAL("outgoing at B", b.negotiated_maximum_outgoing_streams, 15);
        EQUAL("incoming at B", b.negotiated_maximum_incoming_streams, 5);
        EQUAL("interleaving at A", a.uses_message_interleaving, on);
        EQUAL("interleaving at B", b.uses_message_interleaving, on);
        EQUAL("zero checksum at A", a.uses_zero_checksum, !on);
        EQUAL("zero checksum at B", b.uses_zero_checksum, !on);
        EQUAL("what B is", a.peer_implementation, DCSCTP_PEER_DCSCTP_RS);
        EQUAL("send", send_bytes(&pair.a, 1, 10), DCSCTP_OK);
        EQUAL("one packet", carry(&pair.a, &pair.b), 1);
        /* DATA is chunk 0 (RFC 9260, section 3.2), and I-DATA is 64 (RFC 8260, section 2.1) */
        EQUAL("chunk type", pair.a.packet[12], on ? 64 : 0);
        EQUAL("no checksum", u32_at(pair.a.packet + 8) == 0, !on);
        destroy_pair(&pair);
    }
}

static void mtu(void) {
    dcsctp_options options = quiet_options();
    options.mtu = 200;
    connect_pair(&pair, &options, &options);
    EQUAL("send", send_bytes(&pair.a, 1, 1000), DCSCTP_OK);
    EQUAL("a packet", take(&pair.a), DCSCTP_EVENT_SEND_PACKET);
    /* 28 bytes are headers (RFC 9260, section 3), and a chunk is a multiple of 4 */
    EQUAL("its length", pair.a.length, 200);
    destroy_pair(&pair);
}

static void checksums(void) {
    dcsctp_options options = quiet_options();
    for (uint32_t on = 0; on <= 1; on++) {
        options.disable_checksum_verification = on;
        create_pair(&pair, &options, &options);
        EQUAL("connect", dcsctp_connect(&pair.a.socket), DCSCTP_OK);
        EQUAL("an INIT", take(&pair.a), DCSCTP_EVENT_SEND_PACKET);
        uint8_t sent[4];
        memcpy(sent, pair.a.packet + 8, 4);
        put_checksum(pair.a.packet, pair.a.length);
        EQUAL("CRC32c", memcmp(sent, pair.a.packet + 8, 4), 0);
        pair.a.packet[8] ^= 1;
        EQUAL("it is handled", dcsctp_handle_input(&pair.b.socket, pair.a.packet, pair.a.length),
              DCSCTP_OK);
        EQUAL("an answer", carry(&pair.b, NULL), on);
        EQUAL("an error", pair.b.seen[DCSCTP_EVENT_ERROR], !on);
        destroy_pair(&pair);
    }
}

static void send_buffers(void) {
    const struct {
        const char *name;
        size_t all, stream;
        int32_t same, other;
    } rows[] = {
        {"both stand", 100, 100, DCSCTP_ERROR_RESOURCE_EXHAUSTION,
         DCSCTP_ERROR_RESOURCE_EXHAUSTION},
        {"one stream is full", 101, 100, DCSCTP_ERROR_RESOURCE_EXHAUSTION, DCSCTP_OK},
        {"neither is full", 101, 101, DCSCTP_OK, DCSCTP_ERROR_RESOURCE_EXHAUSTION},
    };
    dcsctp_options options = quiet_options();
    for (size_t i = 0; i < sizeof rows / sizeof rows[0]; i++) {
        options.max_send_buffer_size = rows[i].all;
        options.per_stream_send_queue_limit = rows[i].stream;
        create_pair(&pair, &options, &options);
        EQUAL(rows[i].name, send_bytes(&pair.a, 1, 100), DCSCTP_OK);
        EQUAL(rows[i].name, send_bytes(&pair.a, 1, 1), rows[i].same);
        EQUAL(rows[i].name, send_bytes(&pair.a, 2, 1), rows[i].other);
        destroy_pair(&pair);
    }
}

static void streams(void) {
    dcsctp_options options = quiet_options();
    size_t bytes = 0;
    uint16_t priority = 0;
    options.total_buffered_amount_low_threshold = 500;
    options.default_stream_buffered_amount_low_threshold = 123;
    options.default_stream_priority = 321;
    create_pair(&pair, &options, &options);
    dcsctp_socket *socket = &pair.a.socket;
    EQUAL("get", dcsctp_buffered_amount_low_threshold(socket, 1, &bytes), DCSCTP_OK);
    EQUAL("default threshold", bytes, 123);
    EQUAL("set", dcsctp_set_buffered_amount_low_threshold(socket, 1, 400), DCSCTP_OK);
    EQUAL("get", dcsctp_buffered_amount_low_threshold(socket, 1, &bytes), DCSCTP_OK);
    EQUAL("own threshold", bytes, 400);
    EQUAL("get", dcsctp_get_stream_priority(socket, 1, &priority), DCSCTP_OK);
    EQUAL("default priority", priority, 321);
    EQUAL("set", dcsctp_set_stream_priority(socket, 2, 322), DCSCTP_OK);
    EQUAL("get", dcsctp_get_stream_priority(socket, 2, &priority), DCSCTP_OK);
    EQUAL("own priority", priority, 322);
    EQUAL("send", send_bytes(&pair.a, 1, 300), DCSCTP_OK);
    EQUAL("send", send_bytes(&pair.a, 1, 300), DCSCTP_OK);
    EQUAL("send", send_bytes(&pair.a, 2, 100), DCSCTP_OK);
    EQUAL("get", dcsctp_buffered_amount(socket, 1, &bytes), DCSCTP_OK);
    EQUAL("buffered", bytes, 600);
    EQUAL("get", dcsctp_buffered_amount(socket, 2, &bytes), DCSCTP_OK);
    EQUAL("buffered", bytes, 100);
    EQUAL("connect", dcsctp_connect(socket), DCSCTP_OK);
    settle(&pair);
    EQUAL("get", dcsctp_buffered_amount(socket, 1, &bytes), DCSCTP_OK);
    EQUAL("buffered", bytes, 0);
    EQUAL("stream 1 is low", pair.a.seen[DCSCTP_EVENT_BUFFERED_AMOUNT_LOW], 1);
    EQUAL("stream 1 is low", pair.a.last[DCSCTP_EVENT_BUFFERED_AMOUNT_LOW].stream_id, 1);
    EQUAL("all are low", pair.a.seen[DCSCTP_EVENT_TOTAL_BUFFERED_AMOUNT_LOW], 1);
    /* the stream of greater priority goes first, though its message came last */
    dcsctp_message message;
    EQUAL("first", dcsctp_get_next_message(&pair.b.socket, &message), 1);
    EQUAL("first", message.stream_id, 2);
    destroy_pair(&pair);
}

/* Messages that don't fit together into the peer's window, with 256 bytes for each part. If all were begun at once, none
 * that is missing its end would have room for it. All arrive. */
static void interleaved_window(void) {
    const struct {
        const char *name;
        size_t window, bytes;
        uint16_t streams;
    } rows[] = {
        {"two parts each", 2000, 1200, 3},
        {"half the window each", 131072, 65536, 3},
        {"more than half the window each", 200000, 120000, 2},
        {"the longest messages in the default window", 5242880, 262144, 24},
        {"many streams", 5242880, 1200, 4000},
    };
    for (size_t row = 0; row < 2 * (sizeof rows / sizeof rows[0]); row++) {
        size_t i = row / 2;
        dcsctp_options options = quiet_options();
        options.enable_message_interleaving = 1;
        options.follow_rfc = row % 2;
        options.max_receiver_window_buffer_size = rows[i].window;
        options.max_send_buffer_size = 100000000;
        connect_pair(&pair, &options, &options);
        for (uint16_t stream = 0; stream < rows[i].streams; stream++)
            EQUAL("send", send_bytes(&pair.a, stream, rows[i].bytes), DCSCTP_OK);
        size_t messages = 0;
        for (int tenths = 0; tenths < 600 && messages < rows[i].streams; tenths++) {
            while (carry(&pair.a, &pair.b) + carry(&pair.b, &pair.a) > 0)
                messages += take_messages(&pair.b, rows[i].bytes);
            messages += take_messages(&pair.b, rows[i].bytes);
            pass(&pair, 100 * MILLISECONDS);
        }
        EQUAL(rows[i].name, messages, rows[i].streams);
        destroy_pair(&pair);
    }
}

/* The event comes if more than the threshold was queued. */
static void total_threshold(void) {
    const struct {
        const char *name;
        size_t limit, threshold, bytes;
        unsigned events;
    } rows[] = {
        {"above it", 1000, 99, 100, 1},
        {"no more than it", 1000, 100, 100, 0},
        {"a full buffer, and the default threshold", 100, 1800000, 100, 0},
        {"at the limit, which the last message exceeds", 100, 100, 101, 1},
    };
    dcsctp_options options = quiet_options();
    for (size_t i = 0; i < sizeof rows / sizeof rows[0]; i++) {
        options.max_send_buffer_size = rows[i].limit;
        options.total_buffered_amount_low_threshold = rows[i].threshold;
        create_pair(&pair, &options, &options);
        EQUAL(rows[i].name, send_bytes(&pair.a, 1, rows[i].bytes), DCSCTP_OK);
        if (rows[i].limit == 100)
            EQUAL(rows[i].name, send_bytes(&pair.a, 1, 1), DCSCTP_ERROR_RESOURCE_EXHAUSTION);
        EQUAL("connect", dcsctp_connect(&pair.a.socket), DCSCTP_OK);
        settle(&pair);
        EQUAL("all is sent", take_messages(&pair.b, rows[i].bytes), 1);
        EQUAL(rows[i].name, pair.a.seen[DCSCTP_EVENT_TOTAL_BUFFERED_AMOUNT_LOW], rows[i].events);
        destroy_pair(&pair);
    }
}

static void congestion(void) {
    dcsctp_options options = quiet_options();
    options.mtu = 1000;
    options.cwnd_mtus_initial = 10;
    options.cwnd_mtus_min = 8;
    connect_pair(&pair, &options, &options);
    EQUAL("cwnd_mtus_initial", metrics_of(&pair.a).cwnd_bytes, 10000);
    EQUAL("send", send_bytes(&pair.a, 1, 10), DCSCTP_OK);
    EQUAL("lost", carry(&pair.a, NULL), 1);
    /* three gaps are reported, and the loss halves the window (RFC 9260, section 7.2.4): to half of it,
     * or to the least */
    for (int i = 0; i < 3; i++) {
        EQUAL("no loss yet", metrics_of(&pair.a).cwnd_bytes, 10000);
        EQUAL("send", send_bytes(&pair.a, 1, 10), DCSCTP_OK);
        EQUAL("carried", carry(&pair.a, &pair.b), 1);
        carry(&pair.b, &pair.a);
    }
    EQUAL("cwnd_mtus_min", metrics_of(&pair.a).cwnd_bytes, 8000);
    EQUAL("sent again", carry(&pair.a, &pair.b), 1);
    /* DATA has a header of 16 bytes, and 10 of its bytes are padded to 12 */
    EQUAL("packets sent again", metrics_of(&pair.a).rtx_packets_count, 1);
    EQUAL("bytes sent again", metrics_of(&pair.a).rtx_bytes_count, 16 + 12);
    destroy_pair(&pair);
}

static void bursts(void) {
    dcsctp_options options = quiet_options();
    for (int32_t burst = 2; burst <= 6; burst++) {
        options.max_burst = burst;
        connect_pair(&pair, &options, &options);
        EQUAL("send", send_bytes(&pair.a, 1, 9000), DCSCTP_OK);
        EQUAL("max_burst", carry(&pair.a, NULL), (size_t)burst);
        destroy_pair(&pair);
    }
}

static void handshake_timers(void) {
    dcsctp_options options = quiet_options();
    options.t1_init_timeout = 3 * SECONDS;
    options.t1_cookie_timeout = 5 * SECONDS;
    options.max_init_retransmits = 2;
    options.max_timer_backoff_duration = DCSCTP_NEVER;
    create_pair(&pair, &options, &options);
    EQUAL("connect", dcsctp_connect(&pair.a.socket), DCSCTP_OK);
    EQUAL("t1_init_timeout", until_deadline(&pair, &pair.a), 3 * SECONDS);
    EQUAL("INIT", carry(&pair.a, &pair.b), 1);
    EQUAL("INIT ACK", carry(&pair.b, &pair.a), 1);
    EQUAL("t1_cookie_timeout", until_deadline(&pair, &pair.a), 5 * SECONDS);
    EQUAL("COOKIE ECHO is lost", carry(&pair.a, NULL), 1);
    /* twice as long each time (RFC 9260, section 5.1.6) */
    pass(&pair, 5 * SECONDS);
    EQUAL("again", carry(&pair.a, NULL), 1);
    EQUAL("backoff", until_deadline(&pair, &pair.a), 10 * SECONDS);
    pass(&pair, 10 * SECONDS);
    EQUAL("max_init_retransmits", carry(&pair.a, NULL), 1);
    pass(&pair, 20 * SECONDS);
    carry(&pair.a, NULL);
    EQUAL("given up", pair.a.seen[DCSCTP_EVENT_ABORTED], 1);
    EQUAL("kind", pair.a.last[DCSCTP_EVENT_ABORTED].error_kind, DCSCTP_KIND_TOO_MANY_RETRIES);
    EQUAL("state", dcsctp_state(&pair.a.socket), DCSCTP_STATE_CLOSED);
    destroy_pair(&pair);
}

/* B makes a cookie, and finds it that old when the COOKIE ECHO comes. With follow_rfc A is told by
 * an ERROR. */
static void cookies(void) {
    const struct {
        const char *name;
        uint64_t lifetime, age;
        uint32_t connects;
    } rows[] = {
        {"as old as it may be", 300 * MILLISECONDS, 300 * MILLISECONDS, 1},
        {"a nanosecond older", 300 * MILLISECONDS, 300 * MILLISECONDS + 1, 0},
        {"no age, where none is allowed", 0, 0, 1},
        {"a nanosecond, where none is allowed", 0, 1, 0},
        {"longer than by default", 90 * SECONDS, 90 * SECONDS, 1},
        {"never stale", DCSCTP_NEVER, DCSCTP_NEVER - BEGIN, 1},
    };
    dcsctp_options of_a = quiet_options(), of_b = quiet_options();
    of_a.cookie_lifetime = 0; /* the peer's option doesn't count */
    for (size_t run = 0; run < 2 * (sizeof rows / sizeof rows[0]); run++) {
        size_t length = 0, i = run / 2;
        char name[80];
        of_b.follow_rfc = run % 2;
        of_b.cookie_lifetime = rows[i].lifetime;
        snprintf(name, sizeof name, "%s, follow_rfc %" PRIu32, rows[i].name, of_b.follow_rfc);
        create_pair(&pair, &of_a, &of_b);
        EQUAL(name, dcsctp_connect(&pair.a.socket), DCSCTP_OK);
        EQUAL(name, carry(&pair.a, &pair.b), 1); /* INIT */
        EQUAL(name, carry(&pair.b, &pair.a), 1); /* INIT ACK */
        /* the cookie ends with the moment of its making */
        size_t at = find_parameter(pair.b.packet, pair.b.length, 7, &length);
        EQUAL(name, at != 0 && length == 56, 1);
        EQUAL(name, (uint64_t)u32_at(pair.b.packet + at + 48) << 32 |
              u32_at(pair.b.packet + at + 52), BEGIN);
        EQUAL(name, dcsctp_advance_time(&pair.b.socket, BEGIN + rows[i].age), 0);
        EQUAL(name, carry(&pair.a, &pair.b), 1); /* COOKIE ECHO */
        EQUAL(name, carry(&pair.b, NULL), rows[i].connects || of_b.follow_rfc);
        EQUAL(name, pair.b.seen[DCSCTP_EVENT_CONNECTED], rows[i].connects);
        EQUAL(name, pair.b.seen[DCSCTP_EVENT_ERROR], !rows[i].connects);
        if (!rows[i].connects) {
            EQUAL(name, pair.b.last[DCSCTP_EVENT_ERROR].error_kind, DCSCTP_KIND_PARSE_FAILED);
            EQUAL(name, strcmp(pair.b.text, "Stale state cookie"), 0);
            EQUAL(name, dcsctp_state(&pair.b.socket), DCSCTP_STATE_CLOSED);
        }
        destroy_pair(&pair);
    }
}

static void data_timers(void) {
    dcsctp_options options = quiet_options();
    options.rto_initial = 700 * MILLISECONDS;
    options.max_timer_backoff_duration = 900 * MILLISECONDS;
    options.max_retransmissions = 2;
    connect_pair(&pair, &options, &options);
    EQUAL("send", send_bytes(&pair.a, 1, 10), DCSCTP_OK);
    EQUAL("lost", carry(&pair.a, NULL), 1);
    EQUAL("rto_initial", until_deadline(&pair, &pair.a), 700 * MILLISECONDS);
    pass(&pair, 700 * MILLISECONDS);
    EQUAL("again", carry(&pair.a, NULL), 1);
    EQUAL("max_timer_backoff_duration", until_deadline(&pair, &pair.a), 900 * MILLISECONDS);
    pass(&pair, 900 * MILLISECONDS);
    EQUAL("again", carry(&pair.a, NULL), 1);
    EQUAL("not yet", pair.a.seen[DCSCTP_EVENT_ABORTED], 0);
    pass(&pair, 900 * MILLISECONDS);
    carry(&pair.a, NULL);
    EQUAL("max_retransmissions", pair.a.seen[DCSCTP_EVENT_ABORTED], 1);
    EQUAL("kind", pair.a.last[DCSCTP_EVENT_ABORTED].error_kind, DCSCTP_KIND_TOO_MANY_RETRIES);
    destroy_pair(&pair);
}

/* Sends a message of three packets that takes so long there and back. The third is acknowledged at
 * once (RFC 9260, section 6.2), and the last SACK alone arrives. */
static void round_trip(uint64_t nanoseconds) {
    EQUAL("send", send_bytes(&pair.a, 1, 2500), DCSCTP_OK);
    EQUAL("three packets", carry(&pair.a, &pair.b), 3);
    pass(&pair, nanoseconds);
    EQUAL("a SACK", carry(&pair.b, NULL) >= 1, 1);
    EQUAL("it is handled",
          dcsctp_handle_input(&pair.a.socket, pair.b.packet, pair.b.length), DCSCTP_OK);
}

/* How long the next message waits until it is sent again. */
static uint64_t timeout_now(void) {
    EQUAL("send", send_bytes(&pair.a, 1, 10), DCSCTP_OK);
    EQUAL("lost", carry(&pair.a, NULL), 1);
    return until_deadline(&pair, &pair.a);
}

/* The timeout after one round trip of R is R and four variances of R/2 (RFC 9260, section 6.3.1),
 * within the limits of the options. */
static void round_trips(void) {
    const struct {
        const char *name;
        uint64_t rtt_max, rto_min, rto_max, min_rtt_variance, trip, measured, timeout;
    } rows[] = {
        {"a long trip", 60000, 100, 60000, 10, 1000, 1000, 3000},
        {"rtt_max", 900, 100, 60000, 10, 1000, 0, 0},
        {"rto_max", 60000, 100, 2500, 10, 1000, 1000, 2500},
        {"rto_min", 60000, 350, 60000, 10, 100, 100, 350},
        {"min_rtt_variance", 60000, 100, 60000, 450, 100, 100, 550},
    };
    for (size_t i = 0; i < sizeof rows / sizeof rows[0]; i++) {
        dcsctp_options options = quiet_options();
        options.rto_initial = 10 * SECONDS;
        options.rtt_max = rows[i].rtt_max * MILLISECONDS;
        options.rto_min = rows[i].rto_min * MILLISECONDS;
        options.rto_max = rows[i].rto_max * MILLISECONDS;
        options.min_rtt_variance = rows[i].min_rtt_variance * MILLISECONDS;
        connect_pair(&pair, &options, &options);
        uint64_t before = metrics_of(&pair.a).srtt;
        round_trip(rows[i].trip * MILLISECONDS);
        EQUAL(rows[i].name, metrics_of(&pair.a).srtt,
              rows[i].measured ? rows[i].measured * MILLISECONDS : before);
        if (rows[i].timeout)
            EQUAL(rows[i].name, timeout_now(), rows[i].timeout * MILLISECONDS);
        destroy_pair(&pair);
    }
}

static void acknowledgements(void) {
    dcsctp_options options = quiet_options();
    options.delayed_ack_max_timeout = 90 * MILLISECONDS;
    connect_pair(&pair, &options, &options);
    round_trip(0);
    EQUAL("send", send_bytes(&pair.a, 1, 10), DCSCTP_OK);
    EQUAL("one packet", carry(&pair.a, &pair.b), 1);
    EQUAL("no SACK yet", carry(&pair.b, &pair.a), 0);
    EQUAL("delayed_ack_max_timeout", until_deadline(&pair, &pair.b), 90 * MILLISECONDS);
    pass(&pair, 90 * MILLISECONDS);
    EQUAL("a SACK", carry(&pair.b, &pair.a), 1);
    EQUAL("its chunk type", pair.b.packet[12], 3);
    destroy_pair(&pair);
}

static void heartbeats(void) {
    dcsctp_options options = quiet_options();
    connect_pair(&pair, &options, &options);
    EQUAL("none", until_deadline(&pair, &pair.a) == DCSCTP_NEVER, 1);
    destroy_pair(&pair);
    options.heartbeat_interval = 7 * SECONDS;
    connect_pair(&pair, &options, &options);
    uint64_t wait = heartbeat_wait(&pair.a, &options);
    EQUAL("heartbeat_interval", until_deadline(&pair, &pair.a), wait);
    pass(&pair, wait);
    EQUAL("a packet", carry(&pair.a, NULL), 1);
    EQUAL("its chunk type", pair.a.packet[12], 4);
    destroy_pair(&pair);
}

static void handover(void) {
    dcsctp_options options = quiet_options();
    for (uint32_t on = 0; on <= 1; on++) {
        uint32_t reasons = 77;
        options.enable_handover_with_outstanding_data = on;
        connect_pair(&pair, &options, &options);
        EQUAL("readiness", dcsctp_get_handover_readiness(&pair.a.socket, &reasons), DCSCTP_OK);
        EQUAL("ready", reasons, 0);
        EQUAL("send", send_bytes(&pair.a, 1, 10), DCSCTP_OK);
        EQUAL("lost", carry(&pair.a, NULL), 1);
        EQUAL("readiness", dcsctp_get_handover_readiness(&pair.a.socket, &reasons), DCSCTP_OK);
        EQUAL("outstanding data", reasons,
              on ? 0 : DCSCTP_HANDOVER_RETRANSMISSION_QUEUE_OUTSTANDING_DATA);
        destroy_pair(&pair);
    }
}

/* A shutdown first sends queued messages (RFC 9260, section 9.2), if the switch isn't 0. */
static void following(void) {
    dcsctp_options options = quiet_options();
    options.max_burst = 1;
    for (uint32_t number = 0; number <= 2; number++) {
        uint32_t kind;
        options.follow_rfc = number;
        connect_pair(&pair, &options, &options);
        EQUAL("send", send_bytes(&pair.a, 1, 2000), DCSCTP_OK);
        EQUAL("shutdown", dcsctp_shutdown(&pair.a.socket), DCSCTP_OK);
        EQUAL("a part", carry(&pair.a, &pair.b), 1);
        EQUAL("a SACK", carry(&pair.b, &pair.a), 1);
        do
            kind = take(&pair.a);
        while (kind == DCSCTP_EVENT_BUFFERED_AMOUNT_LOW);
        EQUAL("the next packet", kind, DCSCTP_EVENT_SEND_PACKET);
        /* DATA is chunk 0, and SHUTDOWN is 7 (RFC 9260, section 3.2) */
        EQUAL("follow_rfc", pair.a.packet[12], number ? 0 : 7);
        destroy_pair(&pair);
    }
}

/* ---- Which options connect ------------------------------------------------------------------ */

/* A connects to B, and time passes until it has, or has given up. Then a message goes each way. */
static int connects(const dcsctp_options *of_a, const dcsctp_options *of_b) {
    create_pair(&pair, of_a, of_b);
    EQUAL("connect", dcsctp_connect(&pair.a.socket), DCSCTP_OK);
    settle(&pair);
    while (dcsctp_state(&pair.a.socket) == DCSCTP_STATE_CONNECTING) {
        pass(&pair, until_deadline(&pair, &pair.a));
        settle(&pair);
    }
    int connected = dcsctp_state(&pair.a.socket) == DCSCTP_STATE_CONNECTED;
    if (connected) {
        EQUAL("no time has passed", pair.now, BEGIN);
        EQUAL("B", dcsctp_state(&pair.b.socket), DCSCTP_STATE_CONNECTED);
        EQUAL("send", send_bytes(&pair.a, 1, 10), DCSCTP_OK);
        EQUAL("send", send_bytes(&pair.b, 1, 10), DCSCTP_OK);
        settle(&pair);
        EQUAL("at B", take_messages(&pair.b, 10), 1);
        EQUAL("at A", take_messages(&pair.a, 10), 1);
    } else {
        EQUAL("A gets an event", pair.a.seen[DCSCTP_EVENT_ABORTED], 1);
        EQUAL("kind", pair.a.last[DCSCTP_EVENT_ABORTED].error_kind, DCSCTP_KIND_TOO_MANY_RETRIES);
        EQUAL("after so long", pair.now - BEGIN, 180 * SECONDS);
    }
    destroy_pair(&pair);
    return connected;
}

#define FIELD(field) offsetof(dcsctp_options, field), sizeof(((dcsctp_options *)NULL)->field)

/* One option isn't the default, at A, which connects, or at B. The longest packet of A is its
 * COOKIE ECHO, and that of B its INIT ACK (RFC 9260, sections 3.3.2, 3.3.3 and 3.3.11). The header
 * of a packet is 12 bytes, that of a chunk or a parameter 4, and a cookie 56. So a COOKIE ECHO has
 * 12 + 4 + 56 bytes. An INIT ACK has 12 + 20, the cookie's 60, 4 for Forward-TSN-Supported, and 8
 * for Supported Extensions. */
static void which_connect(void) {
    const struct {
        const char *name;
        size_t offset, size;
        uint64_t value;
        int at_a, at_b;
    } rows[] = {
        {"mtu that has no room for an INIT ACK", FIELD(mtu), 103, 1, 0},
        {"mtu of an INIT ACK", FIELD(mtu), 104, 1, 1},
        {"mtu that has no room for a COOKIE ECHO", FIELD(mtu), 71, 0, 0},
        {"mtu of a COOKIE ECHO", FIELD(mtu), 72, 1, 0},
        {"window that is too small", FIELD(max_receiver_window_buffer_size), 1499, 0, 0},
        {"least window", FIELD(max_receiver_window_buffer_size), 1500, 1, 1},
        {"no incoming stream", FIELD(announced_maximum_incoming_streams), 0, 0, 0},
        {"two incoming streams", FIELD(announced_maximum_incoming_streams), 2, 1, 1},
        {"no outgoing stream", FIELD(announced_maximum_outgoing_streams), 0, 0, 0},
        {"two outgoing streams", FIELD(announced_maximum_outgoing_streams), 2, 1, 1},
        {"no packet in a flush", FIELD(max_burst), 0, 0, 0},
        {"a packet in a flush", FIELD(max_burst), 1, 1, 1},
        {"a port that the other doesn't use", FIELD(local_port), 5001, 0, 0},
        {"a port that isn't the other's", FIELD(remote_port), 5001, 0, 0},
        {"no congestion window", FIELD(cwnd_mtus_initial), 0, 1, 1},
    };
    const dcsctp_options others = quiet_options();
    for (size_t i = 0; i < sizeof rows / sizeof rows[0]; i++) {
        dcsctp_options options = quiet_options();
        memcpy((char *)&options + rows[i].offset, &rows[i].value, rows[i].size);
        EQUAL(rows[i].name, connects(&options, &others), rows[i].at_a);
        EQUAL(rows[i].name, connects(&others, &options), rows[i].at_b);
    }
}

/* A parameter of 8 bytes more, for packets without checksums (RFC 9653, section 4). And port 0 at
 * both ends, which RFC 9260, section 3.1, allows nobody. */
static void which_connect_by_two(void) {
    dcsctp_options of_a = quiet_options(), of_b = quiet_options();
    of_a.zero_checksum_method = of_b.zero_checksum_method = 1;
    of_b.mtu = 111;
    EQUAL("mtu that has no room for an INIT ACK", connects(&of_a, &of_b), 0);
    of_a.mtu = of_b.mtu = 112;
    EQUAL("mtu of an INIT ACK", connects(&of_a, &of_b), 1);
    of_a.local_port = of_a.remote_port = of_b.local_port = of_b.remote_port = 0;
    EQUAL("port 0", connects(&of_a, &of_b), 1);
}

/* ---- Metrics -------------------------------------------------------------------------------- */

static void counts(void) {
    const dcsctp_options options = quiet_options();
    connect_pair(&pair, &options, &options);
    EQUAL("send", send_bytes(&pair.a, 1, 10), DCSCTP_OK);
    EQUAL("send", send_bytes(&pair.a, 2, 20), DCSCTP_OK);
    EQUAL("send", send_bytes(&pair.a, 3, 2000), DCSCTP_OK);
    settle(&pair);
    EQUAL("taken", dcsctp_handle_input(&pair.b.socket, (const uint8_t *)"", 0), DCSCTP_OK);
    EQUAL("and refused", take(&pair.b), DCSCTP_EVENT_ERROR);
    dcsctp_metrics a = metrics_of(&pair.a), b = metrics_of(&pair.b);
    EQUAL("packets out", a.tx_packets_count, pair.a.packets);
    EQUAL("packets in", a.rx_packets_count, pair.b.packets);
    EQUAL("packets in, with one unreadable", b.rx_packets_count, pair.a.packets + 1);
    EQUAL("messages out", a.tx_messages_count, 3);
    EQUAL("messages in", a.rx_messages_count, 0);
    EQUAL("messages in", b.rx_messages_count, 3);
    EQUAL("none sent again", a.rtx_packets_count, 0);
    EQUAL("none sent again", a.rtx_bytes_count, 0);
    EQUAL("all of B's window, less what it holds", a.peer_rwnd_bytes <= 5242880 - 2030, 1);
    EQUAL("reserved", a.reserved, 0);
    pass(&pair, 1 * SECONDS);
    settle(&pair);
    EQUAL("acknowledged", metrics_of(&pair.a).unack_data_count, 0);
    EQUAL("send", send_bytes(&pair.a, 1, 10), DCSCTP_OK);
    EQUAL("send", send_bytes(&pair.a, 1, 10), DCSCTP_OK);
    EQUAL("lost", carry(&pair.a, NULL), 2);
    EQUAL("in flight", metrics_of(&pair.a).unack_data_count, 2);
    destroy_pair(&pair);
}

/* What the peer is: the first bytes of its cookie tell, the parameter 7 of an INIT ACK (RFC 9260,
 * section 3.3.3). dcSCTP in C++ and usrsctp begin it so. */
static void implementations(void) {
    const dcsctp_options options = quiet_options();
    const struct {
        const char *cookie;
        uint32_t peer;
    } rows[] = {
        {NULL, DCSCTP_PEER_DCSCTP_RS},
        {"dcSCTP00", DCSCTP_PEER_DCSCTP_CC},
        {"KAME-BSD", DCSCTP_PEER_USRSCTP},
        {"anything", DCSCTP_PEER_UNKNOWN},
    };
    for (size_t i = 0; i < sizeof rows / sizeof rows[0]; i++) {
        size_t length = 0;
        create_pair(&pair, &options, &options);
        EQUAL("connect", dcsctp_connect(&pair.a.socket), DCSCTP_OK);
        EQUAL("INIT", carry(&pair.a, &pair.b), 1);
        EQUAL("INIT ACK", carry(&pair.b, NULL), 1);
        size_t at = find_parameter(pair.b.packet, pair.b.length, 7, &length);
        EQUAL("a cookie", at != 0 && length >= 8, 1);
        if (rows[i].cookie)
            memcpy(pair.b.packet + at, rows[i].cookie, 8);
        put_checksum(pair.b.packet, pair.b.length);
        EQUAL("INIT ACK", dcsctp_handle_input(&pair.a.socket, pair.b.packet, pair.b.length), 0);
        EQUAL("peer", metrics_of(&pair.a).peer_implementation, rows[i].peer);
        destroy_pair(&pair);
    }
    connect_pair(&pair, &options, &options);
    EQUAL("B saw no INIT ACK", metrics_of(&pair.b).peer_implementation, DCSCTP_PEER_UNKNOWN);
    destroy_pair(&pair);
}

int main(void) {
    defaults();
    given_back();
    validity();
    other_sizes();
    all_sizes();
    in_the_init();
    ports();
    negotiated();
    mtu();
    checksums();
    send_buffers();
    streams();
    interleaved_window();
    total_threshold();
    congestion();
    bursts();
    handshake_timers();
    cookies();
    data_timers();
    round_trips();
    acknowledgements();
    heartbeats();
    handover();
    following();
    which_connect();
    which_connect_by_two();
    counts();
    implementations();
    puts("options: each does what dcsctp.h says");
    return 0;
}
