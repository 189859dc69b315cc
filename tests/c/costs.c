/* What sockets cost, for scripts/c-costs.sh.
 *
 *     costs heap      prints the bytes and blocks of heap of a closed and of a connected socket, and
 *                     what one more stream or data channel adds
 *     costs names     prints the names of calls
 *     costs NAME N    makes a call N times, where a connected pair of sockets stands
 *
 * It is linked with --wrap=malloc,--wrap=realloc,--wrap=free. */
#include "pair.h"
#include "wrapped.h"

#include <dcsctp_checksum.h>

/* ---- Heap: each block has its length in front of it ----------------------------------------- */

enum { FRONT = 16 };

static size_t bytes, blocks;

static void *noted(uint8_t *block, size_t size) {
    if (!block)
        return NULL;
    memcpy(block, &size, sizeof size);
    bytes += size;
    blocks++;
    return block + FRONT;
}

static uint8_t *unnoted(void *block) {
    uint8_t *front = (uint8_t *)block - FRONT;
    size_t size;
    memcpy(&size, front, sizeof size);
    bytes -= size;
    blocks--;
    return front;
}

void *__wrap_malloc(size_t size) {
    return noted(__real_malloc(size + FRONT), size);
}

void *__wrap_realloc(void *block, size_t size) {
    return noted(__real_realloc(unnoted(block), size + FRONT), size);
}

void __wrap_free(void *block) {
    if (block)
        __real_free(unnoted(block));
}

/* ---- Calls ---------------------------------------------------------------------------------- */

static struct pair pair;
static dcsctp_options options;
static uint8_t buffer[70000];

static void options_init(void) {
    dcsctp_options_init(&options);
}

static void create_and_destroy(void) {
    static const uint8_t seed[32] = {1};
    dcsctp_socket socket = DCSCTP_SOCKET_INIT;
    EQUAL("create", dcsctp_create(&socket, &options, seed, BEGIN), DCSCTP_OK);
    dcsctp_destroy(&socket);
}

static void state(void) {
    EQUAL("state", dcsctp_state(&pair.a.socket), DCSCTP_STATE_CONNECTED);
}

static void poll_timeout(void) {
    uint64_t moment;
    EQUAL("poll_timeout", dcsctp_poll_timeout(&pair.a.socket, &moment), DCSCTP_OK);
}

static void advance_time(void) {
    EQUAL("advance_time", dcsctp_advance_time(&pair.a.socket, ++pair.now), DCSCTP_OK);
}

static void poll_event(void) {
    dcsctp_event event;
    EQUAL("poll_event", dcsctp_poll_event(&pair.a.socket, &event), 0);
}

static void buffered_amount(void) {
    size_t amount;
    EQUAL("buffered_amount", dcsctp_buffered_amount(&pair.a.socket, 1, &amount), DCSCTP_OK);
}

static void get_metrics(void) {
    dcsctp_metrics metrics;
    metrics.size = sizeof metrics;
    EQUAL("get_metrics", dcsctp_get_metrics(&pair.a.socket, &metrics), 1);
}

static void get_options(void) {
    dcsctp_options given;
    given.size = sizeof given;
    EQUAL("get_options", dcsctp_get_options(&pair.a.socket, &given), DCSCTP_OK);
}

/* B's last event is a packet of some hundred bytes (the INIT ACK). */
static void event_bytes(void) {
    size_t length;
    EQUAL("event_bytes", dcsctp_event_bytes(&pair.b.socket, buffer, sizeof buffer, &length), 0);
}

/* Hands packets over, until none is left. With `checksum_offload` they are finished and checked. */
static void settle_plainly(void) {
    dcsctp_socket *from = &pair.a.socket, *to = &pair.b.socket, *other;
    dcsctp_event event;
    size_t length;
    for (int idle = 0; idle < 2; idle++) {
        while (dcsctp_poll_event(from, &event) == 1)
            if (event.kind == DCSCTP_EVENT_SEND_PACKET) {
                EQUAL("bytes", dcsctp_event_bytes(from, buffer, sizeof buffer, &length), 0);
                if (options.checksum_offload) {
                    EQUAL("finished", dcsctp_finish_packet(buffer, length), 1);
                    EQUAL("right", dcsctp_check_packet(buffer, length, 0), 1);
                }
                EQUAL("input", dcsctp_handle_input(to, buffer, length), 0);
                idle = -1;
            }
        other = from;
        from = to;
        to = other;
    }
}

/* A message of so many bytes: sent, carried, taken and acknowledged. */
static void carry_message(size_t size) {
    dcsctp_message taken;
    size_t length;
    EQUAL("send", send_bytes(&pair.a, 1, size), DCSCTP_OK);
    settle_plainly();
    EQUAL("message", dcsctp_get_next_message(&pair.b.socket, &taken), 1);
    EQUAL("bytes", dcsctp_message_bytes(&pair.b.socket, buffer, sizeof buffer, &length), 0);
}

static void message(void) {
    carry_message(1024);
}

static void long_message(void) {
    carry_message(65536);
}

/* ---- Data channels -------------------------------------------------------------------------- */

static uint64_t channel; /* A's */
static size_t messages;  /* that B has taken */

/* Hands packets over, until none is left, and takes messages. */
static void settle_channels(void) {
    dcsctp_socket *from = &pair.a.socket, *to = &pair.b.socket, *other;
    dcsctp_channel_event event;
    size_t length;
    for (int idle = 0; idle < 2; idle++) {
        while (dcsctp_channel_poll(from, &event) == 1) {
            if (event.kind == DCSCTP_CHANNEL_EVENT_SEND_PACKET) {
                EQUAL("bytes", dcsctp_channel_bytes(from, buffer, sizeof buffer, &length), 0);
                EQUAL("input", dcsctp_handle_input(to, buffer, length), 0);
                idle = -1;
            } else if (event.kind == DCSCTP_CHANNEL_EVENT_MESSAGE) {
                EQUAL("bytes", dcsctp_channel_bytes(from, buffer, sizeof buffer, &length), 0);
                messages++;
            }
        }
        other = from;
        from = to;
        to = other;
    }
}

static void open_channel(void) {
    const dcsctp_channel_options usual = DCSCTP_CHANNEL_OPTIONS_INIT;
    EQUAL("open", dcsctp_channel_open(&pair.a.socket, &usual, &channel), DCSCTP_OK);
}

/* Both ends get channels, and one is opened. */
static void connect_channels(void) {
    const dcsctp_channel_limits limits = DCSCTP_CHANNEL_LIMITS_INIT;
    create_pair(&pair, &options, &options);
    for (int i = 0; i < 2; i++) {
        dcsctp_socket *socket = i ? &pair.b.socket : &pair.a.socket;
        EQUAL("begin", dcsctp_channel_begin(socket, &limits), DCSCTP_OK);
        EQUAL("role", dcsctp_channel_set_role(socket, !i), DCSCTP_OK);
    }
    pass(&pair, 0);
    EQUAL("connect", dcsctp_connect(&pair.a.socket), DCSCTP_OK);
    settle_channels();
    open_channel();
    settle_channels();
}

/* The same as carry_message, on a channel. */
static void carry_on_channel(size_t size) {
    static const uint8_t zeros[65536];
    const size_t before = messages;
    EQUAL("send", dcsctp_channel_send(&pair.a.socket, channel, DCSCTP_CHANNEL_TEXT, zeros, size),
          DCSCTP_OK);
    settle_channels();
    EQUAL("message", messages, before + 1);
}

static void channel_poll(void) {
    dcsctp_channel_event event;
    EQUAL("channel_poll", dcsctp_channel_poll(&pair.a.socket, &event), 0);
}

static void channel_message(void) {
    carry_on_channel(1024);
}

static void long_channel_message(void) {
    carry_on_channel(65536);
}

/* What one more open channel adds to an end, by the mean of a thousand. */
static void print_channel(void) {
    enum { COUNT = 1000 };
    connect_channels();
    const size_t bytes_before = bytes, blocks_before = blocks;
    for (int i = 0; i < COUNT; i++) {
        open_channel();
        settle_channels();
    }
    pass(&pair, SECONDS); /* (the last acknowledgement) */
    settle_channels();
    printf("one more data channel:%zu bytes in %.2f blocks\n", (bytes - bytes_before) / 2 / COUNT,
           (double)(blocks - blocks_before) / 2 / COUNT);
    destroy_pair(&pair);
}

/* The same of a stream without channels, on which a message went either way. */
static void print_stream(void) {
    enum { COUNT = 1000 };
    connect_pair(&pair, &options, &options);
    const size_t bytes_before = bytes, blocks_before = blocks;
    for (uint16_t i = 0; i < COUNT; i++) {
        EQUAL("send", send_bytes(&pair.a, i, 1), DCSCTP_OK);
        EQUAL("send", send_bytes(&pair.b, i, 1), DCSCTP_OK);
        settle(&pair);
        EQUAL("read", take_messages(&pair.a, 1) + take_messages(&pair.b, 1), 2);
    }
    pass(&pair, SECONDS);
    settle(&pair);
    printf("one more used stream:%zu bytes in %.2f blocks\n", (bytes - bytes_before) / 2 / COUNT,
           (double)(blocks - blocks_before) / 2 / COUNT);
    destroy_pair(&pair);
}

static const struct {
    const char *name;
    void (*call)(void);
    uint16_t checksum_offload, has_channels;
} calls[] = {
    {"options_init", options_init, 0, 0},
    {"create_and_destroy", create_and_destroy, 0, 0},
    {"state", state, 0, 0},
    {"poll_timeout", poll_timeout, 0, 0},
    {"advance_time", advance_time, 0, 0},
    {"poll_event", poll_event, 0, 0},
    {"event_bytes", event_bytes, 0, 0},
    {"buffered_amount", buffered_amount, 0, 0},
    {"get_options", get_options, 0, 0},
    {"get_metrics", get_metrics, 0, 0},
    {"message", message, 0, 0},
    {"message_offload", message, 1, 0},
    {"long_message", long_message, 0, 0},
    {"long_message_offload", long_message, 1, 0},
    {"channel_poll", channel_poll, 0, 1},
    {"channel_message", channel_message, 0, 1},
    {"long_channel_message", long_channel_message, 0, 1},
};

/* Connects A and B, so that B's event of the INIT ACK is the one that was taken last. */
static void connect_both(void) {
    create_pair(&pair, &options, &options);
    EQUAL("connect", dcsctp_connect(&pair.a.socket), DCSCTP_OK);
    EQUAL("INIT", carry(&pair.a, &pair.b), 1);
    EQUAL("INIT ACK", take(&pair.b), DCSCTP_EVENT_SEND_PACKET);
    EQUAL("input", dcsctp_handle_input(&pair.a.socket, pair.b.packet, pair.b.length), DCSCTP_OK);
}

static int print_heap(void) {
    create_pair(&pair, &options, &options);
    printf("a closed socket:%zu bytes in %zu blocks\n", bytes / 2, blocks / 2);
    dcsctp_destroy(&pair.b.socket);
    dcsctp_destroy(&pair.a.socket);
    connect_pair(&pair, &options, &options);
    printf("a connected socket:%zu bytes in %zu blocks\n", bytes / 2, blocks / 2);
    destroy_pair(&pair);
    print_stream();
    print_channel();
    EQUAL("all is freed", blocks, 0);
    return 0;
}

int main(int argc, char **argv) {
    dcsctp_options_init(&options);
    if (argc == 2 && strcmp(argv[1], "heap") == 0)
        return print_heap();
    if (argc == 2 && strcmp(argv[1], "names") == 0) {
        for (size_t i = 0; i < sizeof calls / sizeof calls[0]; i++)
            puts(calls[i].name);
        return 0;
    }
    for (size_t i = 0; argc == 3 && i < sizeof calls / sizeof calls[0]; i++) {
        if (strcmp(argv[1], calls[i].name) != 0)
            continue;
        options.checksum_offload = calls[i].checksum_offload;
        if (calls[i].has_channels)
            connect_channels();
        else
            connect_both();
        if (calls[i].call != event_bytes && !calls[i].has_channels) {
            settle(&pair);
            state();
        }
        for (long times = strtol(argv[2], NULL, 10); times > 0; times--)
            calls[i].call();
        destroy_pair(&pair);
        return 0;
    }
    fprintf(stderr, "usage: costs heap | costs names | costs NAME N\n");
    return 2;
}
