/* Sending and receiving messages: see facade.c. */
#include "facade.h"

#include <stdlib.h>
#include <string.h>

/* How a message is sent: what usrsctp_sendv was passed, and the defaults of the socket. */
struct outgoing {
    struct sctp_sndinfo info;
    struct sctp_prinfo reliability;
    const uint8_t *data;
    size_t length;
    int flags;
};

/* ---- What is in flight ---------------------------------------------------------------------- */

size_t facade_room(const struct socket *s) {
    return s->sent_bytes < s->send_limit ? s->send_limit - s->sent_bytes : 0;
}

static void notify_failed(struct socket *s, const struct sent *sent) {
    const size_t length = sizeof(struct sctp_send_failed_event) + sent->length;
    struct sctp_send_failed_event *event = calloc(1, length);
    if (!event)
        abort();
    event->ssfe_flags = sent->was_sent ? SCTP_DATA_SENT : SCTP_DATA_UNSENT;
    event->ssfe_info = sent->info;
    event->ssfe_info.snd_flags |= SCTP_DATA_NOT_FRAG;
    event->ssfe_info.snd_assoc_id = s->id;
    event->ssfe_assoc_id = s->id;
    memcpy(event->ssfe_data, sent->copy, sent->length);
    facade_notify(s, SCTP_SEND_FAILED_EVENT, event, length);
    free(event);
}

/* The library has let go of a message. */
void facade_end_message(struct socket *s, struct sent *sent) {
    if (!sent->was_delivered && sent->copy)
        notify_failed(s, sent);
    *sent->link = sent->next;
    if (sent->next)
        sent->next->link = sent->link;
    s->sent_bytes -= sent->length;
    free(sent->copy);
    free(sent);
}

/* All messages that weren't delivered, at the end of an association. The oldest is the last. */
void facade_drop_messages(struct socket *s) {
    while (s->sent) {
        struct sent *oldest = s->sent;
        while (oldest->next)
            oldest = oldest->next;
        facade_end_message(s, oldest);
    }
    while (s->parts) {
        struct part *part = s->parts;
        s->parts = part->next;
        s->sent_bytes -= part->length;
        free(part->bytes);
        free(part);
    }
}

static struct sent *record(struct socket *s, const struct outgoing *it, const uint8_t *data,
                           size_t length) {
    struct sent *sent = calloc(1, sizeof *sent);
    if (!sent)
        return NULL;
    sent->info = it->info;
    sent->length = length;
    if (s->events & 1u << SCTP_SEND_FAILED_EVENT) {
        sent->copy = malloc(length);
        if (!sent->copy) {
            free(sent);
            return NULL;
        }
        memcpy(sent->copy, data, length);
    }
    sent->next = s->sent;
    sent->link = &s->sent;
    if (s->sent)
        s->sent->link = &sent->next;
    s->sent = sent;
    s->sent_bytes += length;
    return sent;
}

/* ---- Sending -------------------------------------------------------------------------------- */

static int read_spa(struct outgoing *it, const void *info) {
    struct sctp_sendv_spa spa;
    memcpy(&spa, info, sizeof spa);
    if (spa.sendv_flags & SCTP_SEND_AUTHINFO_VALID)
        return ENOTSUP;
    if (spa.sendv_flags & SCTP_SEND_SNDINFO_VALID)
        it->info = spa.sendv_sndinfo;
    if (spa.sendv_flags & SCTP_SEND_PRINFO_VALID)
        it->reliability = spa.sendv_prinfo;
    return 0;
}

/* Reads how a message is to be sent. */
static int read_info(struct outgoing *it, const void *info, size_t length, unsigned type) {
    static const size_t sizes[] = {0, sizeof(struct sctp_sndinfo), sizeof(struct sctp_prinfo),
                                   sizeof(struct sctp_authinfo), sizeof(struct sctp_sendv_spa)};
    if (type > SCTP_SENDV_SPA || length < sizes[type] || (type != SCTP_SENDV_NOINFO && !info))
        return EINVAL;
    switch (type) {
    case SCTP_SENDV_NOINFO:
        return length || info ? EINVAL : 0;
    case SCTP_SENDV_SNDINFO:
        memcpy(&it->info, info, sizeof it->info);
        return 0;
    case SCTP_SENDV_PRINFO:
        memcpy(&it->reliability, info, sizeof it->reliability);
        return 0;
    case SCTP_SENDV_SPA:
        return read_spa(it, info);
    default:
        return ENOTSUP;
    }
}

static int read_reliability(const struct outgoing *it, dcsctp_send_options *how) {
    const uint32_t value = it->reliability.pr_value;
    switch (PR_SCTP_POLICY(it->reliability.pr_policy)) {
    case SCTP_PR_SCTP_NONE:
        return 0;
    case SCTP_PR_SCTP_TTL:
        how->flags |= DCSCTP_SEND_LIFETIME;
        how->lifetime = value * (uint64_t)MILLISECOND;
        return 0;
    case SCTP_PR_SCTP_RTX:
        how->flags |= DCSCTP_SEND_MAX_RETRANSMISSIONS;
        how->max_retransmissions = value > UINT16_MAX ? UINT16_MAX : (uint16_t)value;
        return 0;
    case SCTP_PR_SCTP_BUF:
        return ENOTSUP;
    default:
        return EINVAL;
    }
}

static int error_of(int32_t result) {
    switch (result) {
    case DCSCTP_OK:
        return 0;
    case DCSCTP_ERROR_SHUTTING_DOWN:
        return ECONNRESET;
    case DCSCTP_ERROR_RESOURCE_EXHAUSTION:
        return EWOULDBLOCK;
    case DCSCTP_ERROR_OUT_OF_MEMORY:
    case DCSCTP_ERROR_FAILED:
        return ENOBUFS;
    default:
        return EINVAL;
    }
}

/* Passes a complete message to the library. */
static int send_whole(struct socket *s, const struct outgoing *it, const uint8_t *data,
                      size_t length) {
    dcsctp_send_options how = DCSCTP_SEND_INIT;
    int error = read_reliability(it, &how);
    struct sent *sent = error ? NULL : record(s, it, data, length);
    int32_t result;
    if (!sent)
        return error ? error : ENOBUFS;
    if (it->info.snd_flags & SCTP_UNORDERED)
        how.flags |= DCSCTP_SEND_UNORDERED;
    how.lifecycle_id = (uintptr_t)sent;
    facade_keep(s, dcsctp_advance_time(&s->it, facade_now()));
    if (s->phase == ENDED)
        return ENOBUFS;
    result = dcsctp_send(&s->it, it->info.snd_sid, ntohl(it->info.snd_ppid), data, length, &how);
    if (result == DCSCTP_ERROR_OUT_OF_MEMORY && dcsctp_has_failed(&s->it) == 0) {
        sent->was_delivered = 1; /* (no event names it) */
        facade_end_message(s, sent);
    } else {
        facade_keep(s, result);
    }
    return error_of(result);
}

/* Adds to the message that isn't complete on a stream, and sends it if this is its end. */
static int send_part(struct socket *s, const struct outgoing *it) {
    struct part **at = &s->parts, *part;
    uint8_t *bytes;
    int error = 0;
    while (*at && (*at)->stream_id != it->info.snd_sid)
        at = &(*at)->next;
    if (!*at && it->info.snd_flags & SCTP_EOR)
        return send_whole(s, it, it->data, it->length);
    if (!*at && (*at = calloc(1, sizeof **at)) == NULL)
        return ENOBUFS;
    part = *at;
    part->stream_id = it->info.snd_sid;
    bytes = realloc(part->bytes, part->length + it->length);
    if (!bytes)
        return ENOBUFS;
    memcpy(bytes + part->length, it->data, it->length);
    part->bytes = bytes;
    part->length += it->length;
    s->sent_bytes += it->length;
    if (it->info.snd_flags & SCTP_EOR) {
        *at = part->next;
        s->sent_bytes -= part->length;
        error = send_whole(s, it, part->bytes, part->length);
        free(part->bytes);
        free(part);
    }
    return error;
}

/* Whether a stream is to be reset once its messages are acknowledged. */
int facade_awaits_reset(const struct socket *s, uint16_t stream_id) {
    for (size_t i = 0; i < s->reset_count; i++)
        if (s->resets[i] == stream_id)
            return 1;
    return 0;
}

/* What can be said of a message before there is room for it. */
static int check_message(struct socket *s, const struct outgoing *it) {
    dcsctp_metrics metrics = {.size = sizeof metrics};
    const int ends = it->info.snd_flags & (SCTP_EOF | SCTP_ABORT);
    if (s->phase != CONNECTING && s->phase != CONNECTED)
        return ENOENT;
    if (s->is_shutting_down)
        return ECONNRESET;
    if (it->info.snd_flags & SCTP_SENDALL)
        return ENOTSUP;
    if ((!it->length && !ends) || (it->length && it->info.snd_flags & SCTP_ABORT))
        return it->length ? ENOTSUP : EINVAL;
    metrics.negotiated_maximum_outgoing_streams = s->options.announced_maximum_outgoing_streams;
    dcsctp_get_metrics(&s->it, &metrics); /* (there are none before the peer answers) */
    if (it->info.snd_sid >= metrics.negotiated_maximum_outgoing_streams)
        return EINVAL;
    if (!s->is_explicit && it->length > s->send_limit)
        return EMSGSIZE;
    return facade_awaits_reset(s, it->info.snd_sid) ? EAGAIN : 0;
}

static int has_room_for(const struct socket *s, const struct outgoing *it) {
    return s->is_explicit ? facade_room(s) > 0 : facade_room(s) >= it->length;
}

static int send_message(struct socket *s, const struct outgoing *it) {
    int error;
    while ((error = check_message(s, it)) == 0 && !has_room_for(s, it)) {
        if (s->is_non_blocking || it->flags & MSG_DONTWAIT)
            return EWOULDBLOCK;
        pthread_cond_wait(&facade_changed, &facade_lock);
    }
    if (error)
        return error;
    if (it->info.snd_flags & SCTP_ABORT) {
        facade_keep(s, dcsctp_close(&s->it));
        facade_end_association(s, SCTP_COMM_LOST, 0);
        return 0;
    }
    if (it->length)
        error = s->is_explicit ? send_part(s, it) : send_whole(s, it, it->data, it->length);
    if (!error && it->info.snd_flags & SCTP_EOF)
        s->wants_shutdown = s->is_shutting_down = 1;
    return error;
}

ssize_t usrsctp_sendv(struct socket *s, const void *data, size_t length, struct sockaddr *to,
                      int count, void *info, socklen_t info_length, unsigned type, int flags) {
    struct outgoing it = {0};
    int error;
    (void)to, (void)count; /* (the one peer) */
    if (!s)
        return facade_fail(EBADF);
    if (!data && length)
        return facade_fail(EFAULT);
    facade_enter(s);
    it.info = s->default_info;
    it.reliability = s->default_reliability;
    it.data = data;
    it.length = length;
    it.flags = flags;
    error = read_info(&it, info, info_length, type);
    if (!error)
        error = send_message(s, &it);
    facade_leave(s);
    return error ? facade_fail(error) : (ssize_t)length;
}

/* ---- Receiving ------------------------------------------------------------------------------ */

/* Where usrsctp_recvv writes. */
struct reading {
    uint8_t *buffer;
    size_t capacity;
    struct sockaddr *from;
    socklen_t *from_length;
    void *info;
    socklen_t *info_length;
    unsigned *type;
    int *flags;
};

static void write_info(const struct socket *s, const struct item *item, const struct reading *to) {
    const int wants = s->wants_info && !(item->flags & MSG_NOTIFICATION) && to->info &&
                      to->info_length && *to->info_length >= sizeof item->info;
    if (to->type)
        *to->type = wants ? SCTP_RECVV_RCVINFO : SCTP_RECVV_NOINFO;
    if (to->info_length)
        *to->info_length = wants ? sizeof item->info : 0;
    if (wants)
        memcpy(to->info, &item->info, sizeof item->info);
}

/* Copies what fits of the first report. What is left of it comes next, and MSG_EOR marks its end.
 */
static ssize_t read_first(struct socket *s, const struct reading *to) {
    struct item *item = s->reports.first;
    size_t count = item->length - item->read;
    if (count > to->capacity)
        count = to->capacity;
    memcpy(to->buffer, item->bytes + item->read, count);
    item->read += count;
    facade_write_peer(s, to->from, to->from_length);
    write_info(s, item, to);
    if (to->flags)
        *to->flags = item->read == item->length ? item->flags : item->flags & ~MSG_EOR;
    if (item->read == item->length) {
        facade_take(&s->reports);
        free(item->bytes);
        free(item);
    }
    return (ssize_t)count;
}

/* Waits for a report, or for the end: then there is none, and the error is that of the end. */
static int wait_for_report(struct socket *s, int flags) {
    int error;
    if (flags & MSG_PEEK)
        return ENOTSUP;
    while (!s->reports.first || s->receive) {
        if (s->phase == UNCONNECTED || s->phase == LISTENING)
            return ENOTCONN;
        error = s->error;
        s->error = 0;
        if (error || s->phase == ENDED || s->is_deaf)
            return error;
        if (s->is_non_blocking || flags & MSG_DONTWAIT || s->receive)
            return EWOULDBLOCK;
        pthread_cond_wait(&facade_changed, &facade_lock);
    }
    return 0;
}

ssize_t usrsctp_recvv(struct socket *s, void *buffer, size_t capacity, struct sockaddr *from,
                      socklen_t *from_length, void *info, socklen_t *info_length, unsigned *type,
                      int *flags) {
    const struct reading to = {buffer, capacity, from, from_length, info, info_length, type, flags};
    ssize_t count = 0;
    int error;
    if (!s)
        return facade_fail(EBADF);
    facade_enter(s);
    error = wait_for_report(s, flags ? *flags : 0);
    if (!error && s->reports.first && !s->receive)
        count = read_first(s, &to);
    facade_leave(s);
    return error ? facade_fail(error) : count;
}
