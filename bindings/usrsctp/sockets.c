/* Sockets, from usrsctp_socket to usrsctp_close, and the packets for them: see facade.c. */
#include "facade.h"

#include <stdlib.h>
#include <string.h>

static uint32_t last_id;           /* of a socket */
static uint16_t last_port = 49151; /* that was chosen here */

/* ---- Sockets -------------------------------------------------------------------------------- */

static struct socket *new_socket(int type, receive_call *receive, void *user) {
    struct socket *s = calloc(1, sizeof *s);
    if (!s)
        return NULL;
    s->type = type;
    s->receive = receive;
    s->user = user;
    s->id = ++last_id;
    s->due = DCSCTP_NEVER;
    facade_use_settings(s);
    s->next = facade_sockets;
    facade_sockets = s;
    return s;
}

struct socket *usrsctp_socket(int domain, int type, int protocol, receive_call *receive,
                              send_call *may_send, uint32_t threshold, void *user) {
    struct socket *s = NULL;
    int error = 0;
    pthread_mutex_lock(&facade_lock);
    if (domain == AF_INET || domain == AF_INET6 || (domain == AF_CONN && !facade_output))
        error = EAFNOSUPPORT;
    else if (domain != AF_CONN || protocol != IPPROTO_SCTP ||
             (type != SOCK_STREAM && type != SOCK_SEQPACKET) ||
             (!receive && (may_send || threshold)))
        error = EINVAL;
    else if ((s = new_socket(type, receive, user)) == NULL)
        error = ENOMEM;
    if (s) {
        s->may_send = may_send;
        s->send_threshold = threshold;
    }
    pthread_mutex_unlock(&facade_lock);
    if (error)
        errno = error;
    return s;
}

/* Creates the library's socket; INVALID_OPTIONS can come of sizes that were set. */
static int create(struct socket *s) {
    uint8_t seed[32];
    int32_t result = dcsctp_random_seed(seed);
    s->options.checksum_offload = facade_checksum_offload;
    if (result == DCSCTP_OK)
        result = dcsctp_create(&s->it, &s->options, seed, facade_now());
    if (result == DCSCTP_OK)
        s->phase = CONNECTING;
    return result == DCSCTP_OK ? 0 : result == DCSCTP_ERROR_INVALID_OPTIONS ? EINVAL : ENOBUFS;
}

static int check_name(const struct sockaddr *name, socklen_t length) {
    return name && length >= sizeof(struct sockaddr_conn) && name->sa_family == AF_CONN ? 0
                                                                                        : EINVAL;
}

static int bind_to(struct socket *s, const struct sockaddr *name, socklen_t length) {
    struct sockaddr_conn at;
    int error = check_name(name, length);
    if (error)
        return error;
    if (s->is_bound)
        return EINVAL;
    memcpy(&at, name, sizeof at);
    if (at.sconn_addr && !facade_is_registered(at.sconn_addr))
        return EADDRNOTAVAIL;
    s->is_bound = 1;
    s->address = at.sconn_addr;
    s->options.local_port = ntohs(at.sconn_port);
    if (!s->options.local_port)
        s->options.local_port = last_port = last_port < 65535 ? last_port + 1 : 49152;
    return 0;
}

/* Binds a socket to any address and a free port, unless it is bound. */
static void bind_to_any(struct socket *s) {
    struct sockaddr_conn any = {0};
    any.sconn_family = AF_CONN;
    if (!s->is_bound)
        bind_to(s, (struct sockaddr *)&any, sizeof any);
}

int usrsctp_bind(struct socket *s, struct sockaddr *name, socklen_t length) {
    int error;
    if (!s)
        return facade_fail(EBADF);
    facade_enter(s);
    error = bind_to(s, name, length);
    facade_leave(s);
    return error ? facade_fail(error) : 0;
}

/* Begins an association. */
static int begin(struct socket *s, const struct sockaddr *name, socklen_t length) {
    struct sockaddr_conn at;
    int error = check_name(name, length);
    if (error)
        return error;
    memcpy(&at, name, sizeof at);
    if (s->phase == LISTENING && s->type == SOCK_STREAM)
        return EOPNOTSUPP;
    if (s->phase == CONNECTING || s->phase == CONNECTED)
        return s->phase == CONNECTING ? EALREADY : EADDRINUSE;
    if (!at.sconn_port || s->phase == ENDED)
        return EINVAL;
    bind_to_any(s);
    s->address = at.sconn_addr;
    s->options.remote_port = ntohs(at.sconn_port);
    error = create(s);
    if (!error)
        facade_keep(s, dcsctp_connect(&s->it));
    return error;
}

int usrsctp_connect(struct socket *s, struct sockaddr *name, socklen_t length) {
    int error;
    if (!s)
        return facade_fail(EBADF);
    facade_enter(s);
    error = begin(s, name, length);
    facade_work(s);
    while (!error && s->phase == CONNECTING) {
        if (s->is_non_blocking)
            error = EINPROGRESS;
        else
            pthread_cond_wait(&facade_changed, &facade_lock);
    }
    if (!error && s->phase == ENDED)
        error = s->error ? s->error : ECONNABORTED;
    facade_leave(s);
    return error ? facade_fail(error) : 0;
}

int usrsctp_listen(struct socket *s, int backlog) {
    int error = 0;
    if (!s)
        return facade_fail(EBADF);
    facade_enter(s);
    if (s->phase >= CONNECTING) {
        error = EINVAL;
    } else {
        bind_to_any(s);
        s->phase = backlog > 0 ? LISTENING : UNCONNECTED;
        s->backlog = backlog;
    }
    facade_leave(s);
    return error ? facade_fail(error) : 0;
}

/* The peer's name. */
struct sockaddr_conn facade_peer(const struct socket *s) {
    struct sockaddr_conn peer = {0};
    peer.sconn_family = AF_CONN;
    peer.sconn_port = htons(s->options.remote_port);
    peer.sconn_addr = s->address;
    return peer;
}

/* Writes what fits of the peer's name, if the user wants it. */
void facade_write_peer(const struct socket *s, struct sockaddr *name, socklen_t *length) {
    const struct sockaddr_conn peer = facade_peer(s);
    if (!name || !length)
        return;
    if (*length > sizeof peer)
        *length = sizeof peer;
    memcpy(name, &peer, *length);
}

/* A socket that a peer has connected to a listening one. */
static struct socket *find_connected(const struct socket *listener) {
    struct socket *oldest = NULL;
    for (struct socket *it = facade_sockets; it; it = it->next)
        if (it->listener == listener && it->phase >= CONNECTED)
            oldest = it;
    return oldest;
}

struct socket *usrsctp_accept(struct socket *s, struct sockaddr *name, socklen_t *length) {
    struct socket *it = NULL;
    int error = 0;
    if (!s) {
        errno = EBADF;
        return NULL;
    }
    facade_enter(s);
    if (s->phase != LISTENING || s->type != SOCK_STREAM)
        error = EINVAL;
    while (!error && (it = find_connected(s)) == NULL) {
        if (s->is_non_blocking)
            error = EWOULDBLOCK;
        else
            pthread_cond_wait(&facade_changed, &facade_lock);
    }
    if (it) {
        it->listener = NULL;
        facade_write_peer(it, name, length);
    }
    facade_leave(s);
    if (error)
        errno = error;
    return it;
}

/* ---- Packets -------------------------------------------------------------------------------- */

static unsigned u16_at(const uint8_t *bytes) {
    return (unsigned)bytes[0] << 8 | bytes[1];
}

/* The socket of a packet: one that has an association; else one that had it, for a peer that
 * repeats its SHUTDOWN ACK; else one that listens, for an INIT. */
static struct socket *find_socket(void *address, const uint8_t *packet) {
    const unsigned chunk = packet[COMMON_HEADER];
    struct socket *late = NULL, *listener = NULL;
    for (struct socket *s = facade_sockets; s; s = s->next) {
        if (s->is_cut_off || s->options.local_port != u16_at(packet + 2))
            continue;
        if (s->phase == LISTENING && chunk == SCTP_INITIATION &&
            (!s->address || s->address == address))
            listener = s;
        if (s->phase < CONNECTING || s->address != address ||
            s->options.remote_port != u16_at(packet))
            continue;
        if (s->phase != ENDED)
            return s;
        if (chunk == SCTP_SHUTDOWN_ACK && dcsctp_has_failed(&s->it) == 0)
            late = s;
    }
    return late ? late : listener;
}

/* The socket that answers a peer: a new one, or the listening one if that isn't SOCK_STREAM. */
static struct socket *answer(struct socket *listener, void *address, const uint8_t *packet) {
    struct socket *s = listener;
    int count = 0;
    for (struct socket *it = facade_sockets; it; it = it->next)
        count += it->listener == listener;
    if (listener->type == SOCK_STREAM) {
        if (count >= listener->backlog)
            return NULL;
        s = new_socket(SOCK_STREAM, listener->receive, listener->user);
        if (!s)
            return NULL;
        s->listener = listener;
        s->forget_at = facade_now() + listener->options.cookie_lifetime;
        s->is_bound = 1;
        s->options = listener->options;
        s->may_send = listener->may_send;
        s->send_threshold = listener->send_threshold;
        s->events = listener->events;
        s->linger = listener->linger;
        s->is_non_blocking = listener->is_non_blocking;
        s->is_explicit = listener->is_explicit;
        s->wants_info = listener->wants_info;
        s->send_limit = listener->send_limit;
        s->receive_limit = listener->receive_limit;
    }
    s->address = address;
    s->options.remote_port = (uint16_t)u16_at(packet);
    if (create(s) == 0)
        return s;
    s->is_closed = s != listener;
    facade_hold(s);
    facade_let_go(s);
    return NULL;
}

void usrsctp_conninput(void *address, const void *packet, size_t length, uint8_t ecn) {
    struct socket *s;
    (void)ecn;
    pthread_mutex_lock(&facade_lock);
    facade_statistics.sctps_inpackets++;
    s = length >= 16 ? find_socket(address, packet) : NULL;
    if (s && s->phase == LISTENING)
        s = answer(s, address, packet);
    if (s) {
        facade_hold(s);
        facade_keep(s, dcsctp_advance_time(&s->it, facade_now()));
        facade_keep(s, dcsctp_handle_input(&s->it, packet, length));
        facade_let_go(s);
    }
    pthread_mutex_unlock(&facade_lock);
}

/* ---- The end -------------------------------------------------------------------------------- */

int usrsctp_shutdown(struct socket *s, int how) {
    int error = 0;
    if (!s)
        return facade_fail(EBADF);
    if (how != SHUT_RD && how != SHUT_WR && how != SHUT_RDWR)
        return facade_fail(EINVAL);
    facade_enter(s);
    if (s->phase != CONNECTED)
        error = ENOTCONN;
    if (!error && how != SHUT_WR)
        s->is_deaf = 1;
    if (!error && how != SHUT_RD)
        s->wants_shutdown = s->is_shutting_down = 1;
    facade_leave(s);
    return error ? facade_fail(error) : 0;
}

/* Takes a socket from its user. An association that isn't aborted shuts down behind his back. */
static void close_socket(struct socket *s, int aborts) {
    const int is_unread = s->reports.bytes > 0;
    s->is_closed = 1;
    s->listener = NULL;
    s->receive = NULL;
    s->may_send = NULL;
    s->wake = NULL;
    facade_clear(&s->reports);
    if (s->phase == CONNECTED && !aborts && !is_unread)
        s->wants_shutdown = s->is_shutting_down = 1;
    else if (s->phase >= CONNECTING)
        facade_keep(s, dcsctp_close(&s->it));
}

void usrsctp_close(struct socket *s) {
    struct socket *it;
    if (!s)
        return;
    facade_enter(s);
    close_socket(s, s->linger.l_onoff && !s->linger.l_linger);
    for (it = facade_sockets; it; it = it ? it->next : NULL)
        if (it->listener == s) {
            facade_hold(it);
            close_socket(it, 1);
            facade_let_go(it);
            it = facade_sockets;
        }
    facade_work(s);
    facade_wait_for_output(s);
    facade_leave(s);
}

/* ---- What is kept for the user -------------------------------------------------------------- */

int usrsctp_set_non_blocking(struct socket *s, int on) {
    if (!s)
        return facade_fail(EBADF);
    facade_enter(s);
    s->is_non_blocking = on != 0;
    facade_leave(s);
    return 0;
}

int usrsctp_get_non_blocking(struct socket *s) {
    int on;
    if (!s)
        return facade_fail(EBADF);
    facade_enter(s);
    on = s->is_non_blocking;
    facade_leave(s);
    return on;
}

int usrsctp_set_ulpinfo(struct socket *s, void *user) {
    if (!s)
        return facade_fail(EBADF);
    facade_enter(s);
    s->user = user;
    facade_leave(s);
    return 1; /* (as usrsctp) */
}

int usrsctp_get_ulpinfo(struct socket *s, void **user) {
    if (!s || !user)
        return facade_fail(s ? EINVAL : EBADF);
    facade_enter(s);
    *user = s->user;
    facade_leave(s);
    return 1;
}

int usrsctp_set_upcall(struct socket *s, wake_call *call, void *argument) {
    if (!s)
        return facade_fail(EBADF);
    facade_enter(s);
    s->wake = call;
    s->wake_argument = argument;
    facade_leave(s);
    return 0;
}

int usrsctp_get_events(struct socket *s) {
    int events = 0;
    if (!s)
        return facade_fail(EBADF);
    facade_enter(s);
    if (s->reports.first || s->is_deaf || s->phase == ENDED ||
        (s->phase == LISTENING && find_connected(s)))
        events |= SCTP_EVENT_READ;
    if (s->phase == ENDED || (s->phase == CONNECTED && facade_room(s) > 0))
        events |= SCTP_EVENT_WRITE;
    if (s->error)
        events |= SCTP_EVENT_ERROR;
    facade_leave(s);
    return events;
}

sctp_assoc_t usrsctp_getassocid(struct socket *s, struct sockaddr *name) {
    (void)name; /* (the one peer) */
    return s ? s->id : 0;
}
