/* What the library reports, as packets, messages and notifications of usrsctp: see facade.c. */
#include "facade.h"

#include <stdlib.h>
#include <string.h>

/* A reset waits for acknowledgements of other streams no longer than this. */
static const uint64_t LONGEST_WAIT = 1000 * (uint64_t)MILLISECOND;

/* For so long after a shutdown a peer may repeat its SHUTDOWN ACK (dcsctp.h, THE END). */
static const uint64_t REPEATED_ACKS = 4000 * (uint64_t)MILLISECOND;

/* ---- Queues --------------------------------------------------------------------------------- */

/* Adds an item, which owns `bytes`. Without memory the process ends, as it does in usrsctp. */
void facade_put(struct queue *queue, uint8_t *bytes, size_t length, struct sctp_rcvinfo info,
                int flags) {
    struct item *item = calloc(1, sizeof *item);
    if (!item)
        abort();
    item->bytes = bytes;
    item->length = length;
    item->info = info;
    item->flags = flags;
    if (!queue->first)
        queue->end = &queue->first;
    *queue->end = item;
    queue->end = &item->next;
    queue->bytes += length;
}

struct item *facade_take(struct queue *queue) {
    struct item *item = queue->first;
    if (item) {
        queue->first = item->next;
        queue->bytes -= item->length;
    }
    return item;
}

static uint8_t *copy_of(const void *bytes, size_t length) {
    uint8_t *copy = malloc(length ? length : 1);
    if (!copy)
        abort();
    memcpy(copy, bytes, length);
    return copy;
}

/* ---- Notifications -------------------------------------------------------------------------- */

/* Reports to the user, who may have closed the socket. */
static void report(struct socket *s, uint8_t *bytes, size_t length, struct sctp_rcvinfo info,
                   int flags) {
    if (s->is_closed || (s->is_deaf && bytes)) {
        free(bytes);
        return;
    }
    facade_put(&s->reports, bytes, length, info, flags);
    s->is_awake = 1;
}

/* Reports a notification, whose type and length are filled in here. */
void facade_notify(struct socket *s, uint16_t type, const void *bytes, size_t length) {
    const struct sctp_rcvinfo none = {0};
    struct sctp_tlv *head;
    if (!(s->events & 1u << type))
        return;
    head = (struct sctp_tlv *)copy_of(bytes, length);
    head->sn_type = type;
    head->sn_length = (uint32_t)length;
    report(s, (uint8_t *)head, length, none, MSG_NOTIFICATION | MSG_EOR);
}

static void notify_change(struct socket *s, uint16_t state, uint16_t error) {
    union {
        struct sctp_assoc_change change;
        uint8_t bytes[sizeof(struct sctp_assoc_change) + 8];
    } it = {0};
    uint8_t *info = it.bytes + sizeof it.change;
    dcsctp_metrics metrics = {.size = sizeof metrics};
    it.change.sac_state = state;
    it.change.sac_error = error;
    it.change.sac_assoc_id = s->id;
    if (dcsctp_get_metrics(&s->it, &metrics) == 1) {
        it.change.sac_outbound_streams = metrics.negotiated_maximum_outgoing_streams;
        it.change.sac_inbound_streams = metrics.negotiated_maximum_incoming_streams;
    }
    if (state == SCTP_COMM_UP || state == SCTP_RESTART) {
        if (s->options.enable_partial_reliability)
            *info++ = SCTP_ASSOC_SUPPORTS_PR;
        *info++ = SCTP_ASSOC_SUPPORTS_RE_CONFIG;
        if (metrics.uses_message_interleaving)
            *info++ = SCTP_ASSOC_SUPPORTS_INTERLEAVING;
    }
    facade_notify(s, SCTP_ASSOC_CHANGE, &it, (size_t)(info - it.bytes));
}

static void notify_reset(struct socket *s, uint16_t flags, size_t count) {
    const size_t length = sizeof(struct sctp_stream_reset_event) + 2 * count;
    struct sctp_stream_reset_event *event = calloc(1, length + 2);
    size_t written = 0;
    if (!event)
        abort();
    facade_keep(s, dcsctp_event_streams(&s->it, event->strreset_stream_list, count, &written));
    event->strreset_flags = flags;
    event->strreset_assoc_id = s->id;
    facade_notify(s, SCTP_STREAM_RESET_EVENT, event, length);
    free(event);
}

static void notify_shutdown(struct socket *s) {
    struct sctp_shutdown_event event = {0};
    event.sse_assoc_id = s->id;
    facade_notify(s, SCTP_SHUTDOWN_EVENT, &event, sizeof event);
}

static void notify_error(struct socket *s) {
    struct sctp_remote_error event = {0};
    event.sre_assoc_id = s->id;
    facade_notify(s, SCTP_REMOTE_ERROR, &event, sizeof event);
}

void facade_notify_if_dry(struct socket *s) {
    struct sctp_sender_dry_event event = {0};
    event.sender_dry_assoc_id = s->id;
    if (!s->sent && s->phase == CONNECTED && dcsctp_state(&s->it) != DCSCTP_STATE_CLOSED)
        facade_notify(s, SCTP_SENDER_DRY_EVENT, &event, sizeof event);
}

/* ---- Events --------------------------------------------------------------------------------- */

/* Takes messages while there is room for what the user hasn't read. */
static void take_messages(struct socket *s, int all) {
    dcsctp_message message;
    while ((all || s->reports.bytes < s->receive_limit) &&
           dcsctp_get_next_message(&s->it, &message) == 1) {
        const uint8_t *at = NULL;
        size_t length = 0;
        struct sctp_rcvinfo info = {0};
        info.rcv_sid = message.stream_id;
        info.rcv_ppid = htonl(message.ppid);
        info.rcv_assoc_id = s->id;
        facade_keep(s, dcsctp_message_view(&s->it, &at, &length));
        if (at)
            report(s, copy_of(at, length), length, info, MSG_EOR);
    }
}

static void forget_resets(struct socket *s) {
    free(s->resets);
    s->resets = NULL;
    s->reset_count = 0;
    s->reset_since = 0;
}

/* Reports the end of the association, and the messages that it hasn't delivered. */
void facade_end_association(struct socket *s, uint16_t state, uint16_t error) {
    const struct sctp_rcvinfo none = {0};
    if (s->phase == ENDED)
        return;
    take_messages(s, 1);
    facade_drop_messages(s);
    forget_resets(s);
    s->phase = ENDED;
    s->forget_at = state == SCTP_SHUTDOWN_COMP ? facade_now() + REPEATED_ACKS : 0;
    notify_change(s, state, error);
    s->is_awake = 1;
    if (state == SCTP_SHUTDOWN_COMP && s->receive)
        report(s, NULL, 0, none, 0);
}

/* An allocation has failed: nothing more can be sent or received. */
void facade_keep(struct socket *s, int32_t result) {
    if (result == DCSCTP_ERROR_OUT_OF_MEMORY || result == DCSCTP_ERROR_FAILED) {
        s->error = ENOBUFS;
        facade_end_association(s, SCTP_COMM_LOST, 0);
    }
}

static void send_packet(struct socket *s) {
    const struct sctp_rcvinfo none = {0};
    const uint8_t *at = NULL;
    size_t length = 0;
    if (dcsctp_event_view(&s->it, &at, &length) == DCSCTP_OK && !s->is_cut_off)
        facade_put(&s->packets, copy_of(at, length), length, none, 0);
}

static void handle_abort(struct socket *s, const dcsctp_event *event) {
    const int is_peer = event->error_kind == DCSCTP_KIND_PEER_REPORTED;
    const int was_up = s->phase == CONNECTED;
    s->error = is_peer ? (was_up ? ECONNRESET : ECONNREFUSED) : ETIMEDOUT;
    facade_end_association(s, was_up ? SCTP_COMM_LOST : SCTP_CANT_STR_ASSOC, 0);
}

static void handle_lifecycle(struct socket *s, const dcsctp_event *event) {
    struct sent *sent = (struct sent *)(uintptr_t)event->lifecycle_id;
    if (s->phase == ENDED) /* (all are freed) */
        return;
    switch (event->kind) {
    case DCSCTP_EVENT_LIFECYCLE_FULLY_SENT:
    case DCSCTP_EVENT_LIFECYCLE_MAYBE_EXPIRED:
        sent->was_sent = 1;
        break;
    case DCSCTP_EVENT_LIFECYCLE_DELIVERED:
        sent->was_delivered = 1;
        break;
    case DCSCTP_EVENT_LIFECYCLE_END:
        facade_end_message(s, sent);
        s->has_room = s->is_awake = 1;
        facade_notify_if_dry(s);
    }
}

static void end_reset(struct socket *s, uint16_t flags, size_t count) {
    s->is_resetting = 0;
    notify_reset(s, SCTP_STREAM_RESET_OUTGOING_SSN | flags, count);
}

static void handle_connected(struct socket *s) {
    if (s->phase != CONNECTED) /* (a restart was reported as such) */
        notify_change(s, SCTP_COMM_UP, 0);
    s->phase = CONNECTED;
    s->is_awake = 1;
    if (s->listener)
        s->listener->is_awake = 1;
}

static void handle_event(struct socket *s, const dcsctp_event *event) {
    switch (event->kind) {
    case DCSCTP_EVENT_SEND_PACKET:
        send_packet(s);
        break;
    case DCSCTP_EVENT_CONNECTED:
        handle_connected(s);
        break;
    case DCSCTP_EVENT_CONNECTION_RESTARTED:
        notify_change(s, SCTP_RESTART, 0);
        break;
    case DCSCTP_EVENT_CLOSED:
        facade_end_association(s, SCTP_SHUTDOWN_COMP, 0);
        break;
    case DCSCTP_EVENT_ABORTED:
        handle_abort(s, event);
        break;
    case DCSCTP_EVENT_ERROR:
        if (event->error_kind == DCSCTP_KIND_PEER_REPORTED)
            notify_error(s);
        break;
    case DCSCTP_EVENT_STREAMS_RESET_PERFORMED:
        end_reset(s, 0, event->length);
        break;
    case DCSCTP_EVENT_STREAMS_RESET_FAILED:
        end_reset(s, SCTP_STREAM_RESET_FAILED, event->length);
        break;
    case DCSCTP_EVENT_INCOMING_STREAM_RESET:
        take_messages(s, 1);
        notify_reset(s, SCTP_STREAM_RESET_INCOMING_SSN, event->length);
        break;
    default:
        if (event->lifecycle_id)
            handle_lifecycle(s, event);
    }
}

/* ---- Resets and shutdown -------------------------------------------------------------------- */

static int has_messages(const struct socket *s, const uint16_t *streams, size_t count) {
    for (const struct sent *it = s->sent; it; it = it->next)
        for (size_t i = 0; i < count; i++)
            if (it->info.snd_sid == streams[i])
                return 1;
    return 0;
}

/* Begins the reset that the user has asked for, once its streams are acknowledged. usrsctp waits
 * for them, too. The library also asks for no other data in flight: that is waited for a while. */
static void begin_reset(struct socket *s) {
    dcsctp_metrics metrics = {.size = sizeof metrics};
    int32_t result;
    if (!s->reset_count || s->is_resetting || has_messages(s, s->resets, s->reset_count) ||
        dcsctp_get_metrics(&s->it, &metrics) != 1)
        return;
    if (!s->reset_since)
        s->reset_since = facade_now();
    if (metrics.unack_data_count && facade_now() < s->reset_since + LONGEST_WAIT)
        return;
    result = dcsctp_reset_streams(&s->it, s->resets, s->reset_count);
    s->is_resetting = result == DCSCTP_OK;
    facade_keep(s, result);
    forget_resets(s);
}

static void begin_shutdown(struct socket *s) {
    if (!s->wants_shutdown || s->reset_count || s->phase != CONNECTED)
        return;
    s->wants_shutdown = 0;
    facade_keep(s, dcsctp_shutdown(&s->it));
}

/* Takes all that the library reports now, and handles what is due. */
void facade_settle(struct socket *s) {
    dcsctp_event event;
    int more = s->phase >= CONNECTING;
    s->due = DCSCTP_NEVER;
    while (more) {
        begin_reset(s);
        begin_shutdown(s);
        more = 0;
        while (dcsctp_poll_event(&s->it, &event) == 1) {
            handle_event(s, &event);
            more = 1;
        }
        take_messages(s, s->is_closed);
        if (s->phase == CONNECTED && !s->is_shutting_down &&
            dcsctp_state(&s->it) == DCSCTP_STATE_SHUTTING_DOWN) {
            s->is_shutting_down = 1;
            notify_shutdown(s);
        }
        dcsctp_poll_timeout(&s->it, &s->due);
        if (dcsctp_has_failed(&s->it) == 1) {
            s->due = DCSCTP_NEVER;
        } else if (s->due <= facade_now()) {
            facade_keep(s, dcsctp_advance_time(&s->it, facade_now()));
            more = 1;
        }
    }
    if (s->forget_at < s->due &&
        (s->listener ? s->phase == CONNECTING : s->phase == ENDED && s->is_closed))
        s->due = s->forget_at;
    if (s->reset_since && s->reset_since + LONGEST_WAIT < s->due)
        s->due = s->reset_since + LONGEST_WAIT;
}
