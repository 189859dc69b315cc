/* What a compiler warns of a caller: the lines that are marked, and no others. `make check` compiles
 * this in C and C++, and compares. */
#include <dcsctp.h>

static void results(dcsctp_socket *socket, const dcsctp_options *options, uint8_t *bytes,
                    const uint8_t **view, size_t *length, uint16_t *streams,
                    const dcsctp_send_options *how) {
    const dcsctp_outgoing_message outgoing = {bytes, 5, 51, 1, 0};
    int32_t result;
    uint64_t moment;
    uint32_t tag;
    dcsctp_event event;
    dcsctp_message message;
    dcsctp_random_seed(bytes);                                      /* warned */
    dcsctp_create(socket, options, bytes, 0);                       /* warned */
    dcsctp_connect(socket);                                         /* warned */
    dcsctp_shutdown(socket);                                        /* warned */
    dcsctp_close(socket);                                           /* warned */
    dcsctp_handle_input(socket, bytes, 5);                          /* warned */
    dcsctp_advance_time(socket, 5);                                 /* warned */
    dcsctp_event_bytes(socket, bytes, 5, length);                   /* warned */
    dcsctp_event_view(socket, view, length);                        /* warned */
    dcsctp_event_streams(socket, streams, 5, length);               /* warned */
    dcsctp_message_bytes(socket, bytes, 5, length);                 /* warned */
    dcsctp_message_view(socket, view, length);                      /* warned */
    dcsctp_send(socket, 1, 51, bytes, 5, how);                      /* warned */
    dcsctp_send_many(socket, &outgoing, 1, how, &result, 1);        /* warned */
    dcsctp_reset_streams(socket, streams, 5);                       /* warned */
    dcsctp_set_buffered_amount_low_threshold(socket, 1, 5);         /* warned */
    dcsctp_set_stream_priority(socket, 1, 5);                       /* warned */
    dcsctp_get_handover_state_and_close(socket);                    /* warned */
    dcsctp_handover_bytes(socket, bytes, 5, length);                /* warned */
    dcsctp_restore_from_state(socket, bytes, 5);                    /* warned */
    dcsctp_set_max_message_size(socket, 5);
    dcsctp_poll_timeout(socket, &moment);
    dcsctp_verification_tag(socket, &tag);
    dcsctp_poll_event(socket, &event);
    dcsctp_get_next_message(socket, &message);
    dcsctp_destroy(socket);
}

static void channel_results(dcsctp_socket *socket, uint8_t *bytes, const uint8_t **view,
                            size_t *length, dcsctp_channel_metrics *metrics) {
    const dcsctp_channel_limits limits = DCSCTP_CHANNEL_LIMITS_INIT;
    dcsctp_channel_options options = DCSCTP_CHANNEL_OPTIONS_INIT;
    dcsctp_channel_event event;
    uint64_t channel;
    uint16_t stream;
    dcsctp_channel_begin(socket, &limits);                          /* warned */
    dcsctp_channel_begin(NULL, NULL);                               /* warned */
    dcsctp_channel_set_role(socket, 1);                             /* warned */
    dcsctp_channel_open(socket, &options, &channel);                /* warned */
    dcsctp_channel_send(socket, 1, 1, bytes, 5);                    /* warned */
    dcsctp_channel_close(socket, 1);                                /* warned */
    dcsctp_channel_poll(socket, &event);                            /* warned */
    dcsctp_channel_bytes(socket, bytes, 5, length);                 /* warned */
    dcsctp_channel_view(socket, view, length);                      /* warned */
    dcsctp_channel_get_options(socket, &options);                   /* warned */
    dcsctp_channel_set_buffered_amount_low_threshold(socket, 1, 5); /* warned */
    dcsctp_channel_count(NULL, length);                             /* warned */
    dcsctp_channel_state(socket, 1);
    dcsctp_channel_stream(socket, 1, &stream);
    dcsctp_channel_buffered_amount(socket, 1, length);
    dcsctp_channel_get_metrics(socket, 1, metrics);
    dcsctp_channel_count(socket, length);
}

static int cases(dcsctp_socket *socket, int32_t result, const dcsctp_event *event,
                 const dcsctp_metrics *metrics) {
    switch ((enum dcsctp_error)result) {                            /* warned */
    case DCSCTP_OK:
        return 1;
    }
    switch ((enum dcsctp_event_kind)event->kind) {                  /* warned */
    case DCSCTP_EVENT_NONE:
        return 2;
    }
    switch ((enum dcsctp_error_kind)event->error_kind) {            /* warned */
    case DCSCTP_KIND_NO_ERROR:
        return 3;
    }
    switch ((enum dcsctp_socket_state)dcsctp_state(socket)) {       /* warned */
    case DCSCTP_STATE_CLOSED:
        return 4;
    }
    switch ((enum dcsctp_peer)metrics->peer_implementation) {       /* warned */
    case DCSCTP_PEER_UNKNOWN:
        return 5;
    }
    switch (event->kind) {
    case DCSCTP_EVENT_NONE:
        return 6;
    }
    return event->kind == DCSCTP_EVENT_CONNECTED && result < DCSCTP_OK;
}

int main(void) {
    return (void *)results == (void *)cases || (void *)channel_results == (void *)cases;
}
