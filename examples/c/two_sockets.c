/* Connects two sockets in one process, and sends a message from one to the other. */
#include <dcsctp.h>

#include <stdio.h>
#include <string.h>

static int32_t create(dcsctp_socket *socket) {
    dcsctp_options options;
    uint8_t seed[32];
    dcsctp_options_init(&options);
    if (dcsctp_random_seed(seed) != DCSCTP_OK)
        return DCSCTP_ERROR_NO_SEED;
    return dcsctp_create(socket, &options, seed, 0);
}

/* Takes the events of a socket. Its packets go to the other one. Returns how many there were. */
static int drain(const char *name, dcsctp_socket *from, dcsctp_socket *to) {
    const uint8_t *bytes;
    dcsctp_event event;
    dcsctp_message message;
    size_t length;
    int packets = 0;
    while (dcsctp_poll_event(from, &event) == 1) {
        if (event.kind == DCSCTP_EVENT_CONNECTED)
            printf("%s is connected\n", name);
        if (event.kind == DCSCTP_EVENT_CLOSED)
            printf("%s is closed\n", name);
        if (event.kind == DCSCTP_EVENT_SEND_PACKET &&
            dcsctp_event_view(from, &bytes, &length) == DCSCTP_OK &&
            dcsctp_handle_input(to, bytes, length) == DCSCTP_OK)
            packets++;
    }
    while (dcsctp_get_next_message(from, &message) == 1)
        if (dcsctp_message_view(from, &bytes, &length) == DCSCTP_OK)
            printf("%s has a message on stream %d: %.*s\n", name, message.stream_id, (int)length,
                   (const char *)bytes);
    return packets;
}

int main(void) {
    dcsctp_socket a = DCSCTP_SOCKET_INIT, b = DCSCTP_SOCKET_INIT;
    const dcsctp_send_options how = DCSCTP_SEND_INIT;
    const char *text = "hello";
    int failed = create(&a) != DCSCTP_OK || create(&b) != DCSCTP_OK ||
                 dcsctp_connect(&a) != DCSCTP_OK ||
                 /* It waits until they are connected. 51 says that it is a text (RFC 8831). */
                 dcsctp_send(&a, 1, 51, (const uint8_t *)text, strlen(text), &how) != DCSCTP_OK;
    while (!failed && drain("A", &a, &b) + drain("B", &b, &a) > 0)
        ;
    failed = failed || dcsctp_shutdown(&a) != DCSCTP_OK;
    while (!failed && drain("A", &a, &b) + drain("B", &b, &a) > 0)
        ;
    dcsctp_destroy(&a);
    dcsctp_destroy(&b);
    if (failed)
        puts("a call failed");
    return failed;
}
