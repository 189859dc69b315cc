/*
 * Opens data channels between two sockets in one process, uses them, closes them, and opens one on
 * the same stream again. It prints the events of each end.
 *
 * The clock is a number, so that each run prints the same. file_transfer.c has a clock, and UDP.
 */
#include <dcsctp.h>

#include <stdio.h>
#include <stdlib.h>
#include <string.h>

static const uint64_t SECOND = 1000000000;

/* One end, and the end that its packets go to. */
struct end {
    const char *name;
    int is_dtls_client;
    dcsctp_socket socket;
    struct end *peer;
    unsigned packets; /* that were sent */
};

/* Ends the program if a call failed. */
static int32_t check(const char *what, int32_t result) {
    if (result < 0) {
        fprintf(stderr, "channels: %s: %s\n", what, dcsctp_error_text(result));
        exit(1);
    }
    return result;
}

/* ---- The events of an end ------------------------------------------------------------------- */

/* A channel is its number. Both ends have the same stream, and numbers of their own. */
static void incoming(struct end *end, uint64_t channel) {
    dcsctp_channel_options options;
    uint16_t stream;
    options.size = sizeof options;
    check("options", dcsctp_channel_get_options(&end->socket, &options));
    check("stream", dcsctp_channel_stream(&end->socket, channel, &stream));
    printf("%s: the peer has opened \"%.*s\", channel %u, on stream %u\n", end->name,
           (int)options.label_length, options.label, (unsigned)channel, stream);
}

/* Prints a message. The server sends each text back. */
static void message(struct end *end, const dcsctp_channel_event *event, const uint8_t *bytes,
                    size_t length) {
    const int is_text = event->detail == DCSCTP_CHANNEL_TEXT;
    printf("%s: channel %u has %s of %zu bytes", end->name, (unsigned)event->channel,
           is_text ? "a text" : "a message", length);
    printf(is_text && length > 0 ? ": %.*s\n" : "\n", (int)length, (const char *)bytes);
    if (is_text && !end->is_dtls_client)
        check("send", dcsctp_channel_send(&end->socket, event->channel, event->detail, bytes,
                                          length));
}

/* Takes all events of an end. */
static void take(struct end *end) {
    dcsctp_channel_event event;
    const uint8_t *bytes;
    size_t length;
    while (check("poll", dcsctp_channel_poll(&end->socket, &event)) == 1)
        switch ((enum dcsctp_channel_event_kind)event.kind) {
        case DCSCTP_CHANNEL_EVENT_SEND_PACKET:
            check("view", dcsctp_channel_view(&end->socket, &bytes, &length));
            check("handle_input", dcsctp_handle_input(&end->peer->socket, bytes, length));
            end->packets++;
            break;
        case DCSCTP_CHANNEL_EVENT_CONNECTED:
            printf("%s: connected\n", end->name);
            break;
        case DCSCTP_CHANNEL_EVENT_OPENED:
            printf("%s: channel %u is open\n", end->name, (unsigned)event.channel);
            break;
        case DCSCTP_CHANNEL_EVENT_INCOMING:
            incoming(end, event.channel);
            break;
        case DCSCTP_CHANNEL_EVENT_MESSAGE:
            check("view", dcsctp_channel_view(&end->socket, &bytes, &length));
            message(end, &event, bytes, length);
            break;
        case DCSCTP_CHANNEL_EVENT_CLOSED:
            printf("%s: channel %u is closed%s\n", end->name, (unsigned)event.channel,
                   event.detail == DCSCTP_CHANNEL_LOST ? ", with the association" : "");
            break;
        case DCSCTP_CHANNEL_EVENT_ENDED:
            printf("%s: the association has ended\n", end->name);
            break;
        case DCSCTP_CHANNEL_EVENT_BUFFERED_AMOUNT_LOW: /* all was sent */
        case DCSCTP_CHANNEL_EVENT_NONE:
            break;
        }
}

/* ---- Two ends ------------------------------------------------------------------------------- */

static void create(struct end *end, const char *name, int is_dtls_client, struct end *peer) {
    const dcsctp_channel_limits limits = DCSCTP_CHANNEL_LIMITS_INIT;
    dcsctp_options options;
    uint8_t seed[32];
    memset(end, 0, sizeof *end);
    end->name = name;
    end->is_dtls_client = is_dtls_client;
    end->peer = peer;
    check("dcsctp_random_seed", dcsctp_random_seed(seed));
    dcsctp_options_init(&options);
    check("create", dcsctp_create(&end->socket, &options, seed, 0));
    check("begin", dcsctp_channel_begin(&end->socket, &limits));
    check("role", dcsctp_channel_set_role(&end->socket, is_dtls_client));
}

/* Carries packets both ways until none is left. */
static void carry(struct end *ends) {
    unsigned before;
    do {
        before = ends[0].packets + ends[1].packets;
        take(&ends[0]);
        take(&ends[1]);
    } while (ends[0].packets + ends[1].packets > before);
}

/* Lets a second pass, from deadline to deadline. */
static void pass_second(struct end *ends, uint64_t *now) {
    const uint64_t end = *now + SECOND;
    carry(ends);
    while (*now < end) {
        uint64_t deadline, next = end;
        for (int i = 0; i < 2; i++) {
            check("poll_timeout", dcsctp_poll_timeout(&ends[i].socket, &deadline));
            next = deadline < next ? deadline : next;
        }
        *now = next;
        for (int i = 0; i < 2; i++)
            check("advance_time", dcsctp_advance_time(&ends[i].socket, *now));
        carry(ends);
    }
}

static uint64_t open_channel(struct end *end, dcsctp_channel_options options, const char *label) {
    uint64_t channel;
    options.label = label;
    options.label_length = strlen(label);
    check("open", dcsctp_channel_open(&end->socket, &options, &channel));
    printf("%s opens \"%s\", channel %u\n", end->name, label, (unsigned)channel);
    return channel;
}

static void say(struct end *end, uint64_t channel, const char *text) {
    check("send", dcsctp_channel_send(&end->socket, channel, DCSCTP_CHANNEL_TEXT,
                                      (const uint8_t *)text, strlen(text)));
}

int main(void) {
    static struct end ends[2];
    struct end *client = &ends[0], *server = &ends[1];
    const dcsctp_channel_options reliable = DCSCTP_CHANNEL_OPTIONS_INIT;
    dcsctp_channel_options newest = DCSCTP_CHANNEL_OPTIONS_INIT;
    const uint8_t bytes[3] = {1, 2, 3};
    uint64_t chat, position, now = 0;
    newest.is_unordered = 1;
    newest.reliability = DCSCTP_CHANNEL_RETRANSMISSIONS;
    newest.limit = 2;
    create(client, "client", 1, server);
    create(server, "server", 0, client);
    check("connect", dcsctp_connect(&client->socket));
    pass_second(ends, &now);

    chat = open_channel(client, reliable, "chat");
    say(client, chat, "hello"); /* the peer needn't know it yet */
    say(client, chat, "");
    position = open_channel(server, newest, "position");
    check("send", dcsctp_channel_send(&server->socket, position, DCSCTP_CHANNEL_BINARY, bytes, 3));
    pass_second(ends, &now);

    puts("client closes channel 1");
    check("close", dcsctp_channel_close(&client->socket, chat));
    pass_second(ends, &now);
    say(client, open_channel(client, reliable, "chat again"), "hello again");
    pass_second(ends, &now);

    puts("client shuts down");
    check("shutdown", dcsctp_shutdown(&client->socket));
    pass_second(ends, &now);
    dcsctp_destroy(&client->socket);
    dcsctp_destroy(&server->socket);
    return 0;
}
