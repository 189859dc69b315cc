/* Two ends in one process: one opens a data channel and says hello, the other closes it. */
#include <dcsctp.h>
#include <stdio.h>

static int create(dcsctp_socket *end, int is_dtls_client) {
    const dcsctp_channel_limits limits = DCSCTP_CHANNEL_LIMITS_INIT;
    dcsctp_options options;
    uint8_t seed[32];
    dcsctp_options_init(&options);
    return dcsctp_random_seed(seed) || dcsctp_create(end, &options, seed, 0) ||
           dcsctp_channel_begin(end, &limits) || dcsctp_channel_set_role(end, is_dtls_client);
}

/* Takes all events of an end. Its packets go to the other one. */
static int take(dcsctp_socket *end, dcsctp_socket *peer) {
    dcsctp_channel_options options = DCSCTP_CHANNEL_OPTIONS_INIT;
    dcsctp_channel_event event;
    const uint8_t *bytes;
    size_t length;
    int32_t result;
    while ((result = dcsctp_channel_poll(end, &event)) == 1) {
        if (event.kind == DCSCTP_CHANNEL_EVENT_SEND_PACKET) {
            result = dcsctp_channel_view(end, &bytes, &length);
            result = result ? result : dcsctp_handle_input(peer, bytes, length);
        } else if (event.kind == DCSCTP_CHANNEL_EVENT_INCOMING) {
            result = dcsctp_channel_get_options(end, &options);
            printf("the peer opens %.*s\n", (int)options.label_length, options.label);
        } else if (event.kind == DCSCTP_CHANNEL_EVENT_OPENED) {
            bytes = (const uint8_t *)"hello";
            result = dcsctp_channel_send(end, event.channel, DCSCTP_CHANNEL_TEXT, bytes, 5);
        } else if (event.kind == DCSCTP_CHANNEL_EVENT_MESSAGE) {
            result = dcsctp_channel_view(end, &bytes, &length);
            printf("it says %.*s\n", (int)length, (const char *)bytes);
            result = result ? result : dcsctp_channel_close(end, event.channel);
        } else if (event.kind == DCSCTP_CHANNEL_EVENT_CLOSED) {
            puts("closed");
        }
        if (result < 0)
            break;
    }
    return result;
}

int main(void) {
    dcsctp_socket a = DCSCTP_SOCKET_INIT, b = DCSCTP_SOCKET_INIT;
    dcsctp_channel_options options = DCSCTP_CHANNEL_OPTIONS_INIT;
    uint64_t chat, now;
    options.label = "chat";
    options.label_length = 4;
    int failed = create(&a, 1) || create(&b, 0) || dcsctp_channel_open(&a, &options, &chat) ||
                 dcsctp_connect(&a);
    for (now = 0; !failed && now < 1000000000; now += 50000000) /* a second */
        failed = dcsctp_advance_time(&a, now) || dcsctp_advance_time(&b, now) || take(&a, &b) ||
                 take(&b, &a);
    dcsctp_destroy(&a);
    dcsctp_destroy(&b);
    return failed;
}
