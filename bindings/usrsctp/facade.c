/*
 * The part of usrsctp's API that data-channel stacks use, over dcsctp.h: sockets of AF_CONN, whose
 * packets your program carries. A program for libusrsctp links libusrsctp.a in its place, or finds
 * libusrsctp.so.2 by LD_LIBRARY_PATH: docs/guide/from-usrsctp.md shows how. `make check-usrsctp`
 * makes both in out/usrsctp or out/unproved/usrsctp, and tests them.
 *
 * It is compiled with the usrsctp.h of libusrsctp 0.9.5. It is tested, not proved. The library
 * below it is proved, unless it is dcsctp-unproved.
 *
 * THREADS. Any thread may make any call. A lock admits one thread at a time. It isn't held while
 * your functions run, so that they may make calls, and may use locks of yours. Packets of a socket
 * are output one after another, and so are its reports. When usrsctp_close or
 * usrsctp_deregister_address returns, no other thread is in `output` for that socket or address.
 * usrsctp_init starts a thread for timers. Without it, usrsctp_handle_timers is the clock.
 *
 * WHAT IS OTHERWISE. A call or value without a counterpart fails with ENOTSUP. In detail:
 *
 *     AF_INET, AF_INET6                 EAFNOSUPPORT
 *     a second association              a SOCK_SEQPACKET socket has one, as SOCK_STREAM has. After
 *                                       its end, usrsctp_connect fails with EINVAL
 *     bindx, connectx, peeloff,         ENOTSUP
 *     getpaddrs, getladdrs
 *     sendv: AUTHINFO, SCTP_PR_SCTP_BUF, ENOTSUP
 *     SENDALL, a text with SCTP_ABORT
 *     sendv: SCTP_SACK_IMMEDIATELY,     no effect: the peer may delay its SACK, and there is one
 *     SCTP_ADDR_OVER, `to`              address
 *     sendv: SCTP_EXPLICIT_EOR          takes all bytes or none, where usrsctp may take some
 *     recvv: MSG_PEEK, SCTP_RECVNXTINFO ENOTSUP
 *     received messages                 always whole; rcv_ssn, rcv_tsn, rcv_cumtsn are 0, and
 *                                       rcv_flags lacks SCTP_UNORDERED
 *     SCTP_RESET_STREAMS                ENOTSUP for streams of the peer, and for all streams (0);
 *                                       ENOMEM if more than 1,024 wait
 *     SCTP_ENABLE_STREAM_RESET          a peer may always reset its streams: ENOTSUP without
 *                                       SCTP_ENABLE_RESET_STREAM_REQ. Requests of the other two
 *                                       kinds are denied all the same
 *     SCTP_ADD_STREAMS,                 ENOTSUP: ask for enough by SCTP_INITMSG
 *     SCTP_RESET_ASSOC
 *     SO_RCVBUF                         the window is at least 5 MB, since a longer message than
 *                                       nine tenths of it can't arrive; ENOTSUP once connecting
 *     SCTP_PEER_ADDR_PARAMS             of spp_pathmtu, heartbeats and spp_pathmaxrxt. Once
 *                                       connecting ENOTSUP, unless packets are short enough as is.
 *                                       There is no discovery of the path MTU: 1,191 bytes
 *     other options once connecting     ENOTSUP for what goes into an INIT, and for timeouts
 *     options that aren't listed here   ENOPROTOOPT; options.c has them all
 *     SCTP_ASSOC_CHANGE                 sac_error is 0; an ABORT isn't in sac_info. sac_info lists
 *                                       SCTP_ASSOC_SUPPORTS_RE_CONFIG, whatever the peer does
 *     SCTP_REMOTE_ERROR                 sre_error is 0, without data
 *     SCTP_PEER_ADDR_CHANGE, ADAPTATION_INDICATION, PARTIAL_DELIVERY_EVENT, AUTHENTICATION_EVENT,
 *     SEND_FAILED, ASSOC_RESET_EVENT, STREAM_CHANGE_EVENT, NOTIFICATIONS_STOPPED_EVENT
 *                                       can be subscribed to, and never come
 *     SCTP_STATUS                       no RTO, no sstat_penddata; states of the handshake and of
 *                                       the shutdown aren't told apart
 *     an INIT without an answer         is repeated after waits that double without a limit: by
 *                                       default SCTP_CANT_STR_ASSOC comes after 1,533 s
 *     a packet for no socket            is dropped, where usrsctp answers by an ABORT
 *     usrsctp_enable_crc32c_offload     counts for sockets that begin to connect after it
 *     usrsctp_get_stat                  counts packets, and nothing else
 *     usrsctp_sysctl_set_..             sysctl.c lists which do what
 *     usrsctp_finish                    fails with -1, too, while closed sockets shut down
 *     out of memory                     the process ends, as with usrsctp, if it is for a report;
 *                                       in the library the association ends with ENOBUFS
 */
#include "facade.h"

#include <stdlib.h>
#include <string.h>
#include <time.h>

/* An address that packets come from and go to. */
struct address {
    struct address *next;
    void *at;
};

struct socket *facade_sockets;
struct sctpstat facade_statistics;
pthread_mutex_t facade_lock = PTHREAD_MUTEX_INITIALIZER;
pthread_cond_t facade_changed = PTHREAD_COND_INITIALIZER;
output_call *facade_output;
uint16_t facade_checksum_offload;

static struct address *addresses;
static uint64_t ticks = MILLISECOND; /* the clock without a thread; never 0 */

static pthread_t timers;
static pthread_cond_t timers_changed;
static int has_timers;
static int timers_stop;
static uint64_t timers_due;

int facade_fail(int error) {
    errno = error;
    return -1;
}

/* ---- Time ----------------------------------------------------------------------------------- */

uint64_t facade_now(void) {
    struct timespec time;
    if (!has_timers)
        return ticks;
    clock_gettime(CLOCK_MONOTONIC, &time);
    return (uint64_t)time.tv_sec * 1000 * MILLISECOND + (uint64_t)time.tv_nsec;
}

/* Makes sure that the thread wakes up for a socket. */
void facade_expect_due(const struct socket *s) {
    if (has_timers && s->due < timers_due) {
        timers_due = s->due;
        pthread_cond_signal(&timers_changed);
    }
}

/* ---- The user's functions ------------------------------------------------------------------- */

/* Outputs packets in their order: one thread does so for a socket. */
static void send_packets(struct socket *s) {
    struct item *item;
    if (s->is_sending)
        return;
    s->is_sending = 1;
    s->sender = pthread_self();
    while ((item = facade_take(&s->packets)) != NULL) {
        if (!s->is_cut_off) {
            void *address = s->address;
            output_call *output = facade_output;
            facade_statistics.sctps_outpackets++;
            pthread_mutex_unlock(&facade_lock);
            output(address, item->bytes, item->length, 0, 0);
            pthread_mutex_lock(&facade_lock);
        }
        free(item->bytes);
        free(item);
    }
    s->is_sending = 0;
}

/* Waits until no other thread outputs a packet of a socket. */
void facade_wait_for_output(struct socket *s) {
    while (s->is_sending && !pthread_equal(s->sender, pthread_self()))
        pthread_cond_wait(&facade_changed, &facade_lock);
}

static void hand_over(struct socket *s, struct item *item) {
    receive_call *receive = s->receive;
    void *user = s->user;
    union sctp_sockstore from = {0};
    from.sconn = facade_peer(s);
    pthread_mutex_unlock(&facade_lock);
    receive(s, from, item->bytes, item->length, item->info, item->flags, user);
    pthread_mutex_lock(&facade_lock);
    free(item); /* (its bytes are the user's now) */
}

/* Calls one of the user's functions. Returns 0 if there was none to call. */
static int call_one(struct socket *s) {
    struct item *item = s->receive ? facade_take(&s->reports) : NULL;
    if (item) {
        hand_over(s, item);
        return 1;
    }
    if (s->has_room && s->may_send && s->phase == CONNECTED &&
        facade_room(s) >= s->send_threshold) {
        send_call *call = s->may_send;
        const uint32_t free_bytes = (uint32_t)facade_room(s);
        void *user = s->user;
        s->has_room = 0;
        pthread_mutex_unlock(&facade_lock);
        call(s, free_bytes, user);
        pthread_mutex_lock(&facade_lock);
        return 1;
    }
    if (s->is_awake && s->wake) {
        wake_call *call = s->wake;
        void *argument = s->wake_argument;
        s->is_awake = 0;
        pthread_mutex_unlock(&facade_lock);
        call(s, argument, MSG_DONTWAIT);
        pthread_mutex_lock(&facade_lock);
        return 1;
    }
    return 0;
}

/* Reports in order: one thread does so for a socket. */
static void call_back(struct socket *s) {
    if (s->is_reporting)
        return;
    s->is_reporting = 1;
    while (call_one(s))
        ;
    s->is_reporting = 0;
}

/* Does all that a call has made due. The lock is free in between. */
void facade_work(struct socket *s) {
    facade_settle(s);
    send_packets(s);
    call_back(s);
    facade_expect_due(s);
    pthread_cond_broadcast(&facade_changed);
}

/* ---- A call on a socket --------------------------------------------------------------------- */

void facade_clear(struct queue *queue) {
    struct item *item;
    while ((item = facade_take(queue)) != NULL) {
        free(item->bytes);
        free(item);
    }
}

static void forget(struct socket *s) {
    struct socket **at = &facade_sockets;
    while (*at != s)
        at = &(*at)->next;
    *at = s->next;
    facade_clear(&s->packets);
    facade_clear(&s->reports);
    s->events = 0;
    facade_drop_messages(s);
    dcsctp_destroy(&s->it);
    free(s->resets);
    free(s);
}

/* Whether a socket is closed, and its peer needs no answers any more. */
static int is_done(const struct socket *s) {
    if (!s->is_closed)
        return 0;
    return s->is_cut_off || s->phase < CONNECTING ||
           (s->phase == ENDED && s->forget_at <= facade_now());
}

/* Whether a peer has begun to connect to a listening socket, and hasn't gone on. */
static int is_abandoned(const struct socket *s) {
    return s->listener && s->phase == CONNECTING && s->forget_at <= facade_now();
}

void facade_hold(struct socket *s) {
    s->uses++;
}

void facade_let_go(struct socket *s) {
    struct socket *listener = s->listener;
    facade_work(s);
    if (listener && s->listener == listener && !listener->uses) {
        facade_hold(listener);
        facade_let_go(listener);
    }
    s->uses--;
    if (is_abandoned(s))
        s->is_closed = s->is_cut_off = 1;
    if (is_done(s)) {
        s->due = DCSCTP_NEVER; /* (the last call frees it) */
        if (!s->uses)
            forget(s);
    }
}

void facade_enter(struct socket *s) {
    pthread_mutex_lock(&facade_lock);
    facade_hold(s);
}

void facade_leave(struct socket *s) {
    facade_let_go(s);
    pthread_mutex_unlock(&facade_lock);
}

/* Handles what is due in each socket. Each may have gone after that. */
static void handle_due(void) {
    const uint64_t moment = facade_now();
    struct socket *s = facade_sockets;
    while (s) {
        if (s->due > moment) {
            s = s->next;
            continue;
        }
        facade_hold(s);
        if (s->phase >= CONNECTING)
            facade_keep(s, dcsctp_advance_time(&s->it, moment));
        facade_let_go(s);
        s = facade_sockets;
    }
}

/* ---- Set-up --------------------------------------------------------------------------------- */

static void wait_for_timers(void) {
    struct timespec until;
    if (timers_due == DCSCTP_NEVER) {
        pthread_cond_wait(&timers_changed, &facade_lock);
        return;
    }
    until.tv_sec = (time_t)(timers_due / (1000 * (uint64_t)MILLISECOND));
    until.tv_nsec = (long)(timers_due % (1000 * (uint64_t)MILLISECOND));
    pthread_cond_timedwait(&timers_changed, &facade_lock, &until);
}

static void *run_timers(void *unused) {
    pthread_mutex_lock(&facade_lock);
    while (!timers_stop) {
        handle_due();
        timers_due = DCSCTP_NEVER;
        for (struct socket *s = facade_sockets; s; s = s->next)
            if (s->due < timers_due)
                timers_due = s->due;
        if (!timers_stop && timers_due > facade_now())
            wait_for_timers();
    }
    pthread_mutex_unlock(&facade_lock);
    return unused;
}

void usrsctp_init_nothreads(uint16_t port, output_call *out, void (*debug)(const char *, ...)) {
    (void)port, (void)debug; /* (a port for UDP) */
    pthread_mutex_lock(&facade_lock);
    facade_output = out;
    pthread_mutex_unlock(&facade_lock);
}

void usrsctp_init(uint16_t port, output_call *out, void (*debug)(const char *, ...)) {
    pthread_condattr_t monotonic;
    usrsctp_init_nothreads(port, out, debug);
    pthread_mutex_lock(&facade_lock);
    if (!has_timers) {
        pthread_condattr_init(&monotonic);
        pthread_condattr_setclock(&monotonic, CLOCK_MONOTONIC);
        pthread_cond_init(&timers_changed, &monotonic);
        pthread_condattr_destroy(&monotonic);
        timers_stop = 0;
        has_timers = 1;
        if (pthread_create(&timers, NULL, run_timers, NULL) != 0)
            abort(); /* (no call could report it) */
    }
    pthread_mutex_unlock(&facade_lock);
}

/* Frees closed sockets that only wait for late packets. Returns whether others are left. */
static int has_sockets(void) {
    struct socket *s = facade_sockets;
    while (s) {
        struct socket *next = s->next;
        if (s->is_closed && s->phase == ENDED && !s->uses)
            forget(s);
        s = next;
    }
    return facade_sockets != NULL;
}

int usrsctp_finish(void) {
    int had_timers;
    pthread_mutex_lock(&facade_lock);
    if (has_sockets()) {
        pthread_mutex_unlock(&facade_lock);
        return facade_fail(EBUSY);
    }
    had_timers = has_timers;
    timers_stop = 1;
    if (had_timers)
        pthread_cond_signal(&timers_changed);
    while (addresses) {
        struct address *address = addresses;
        addresses = address->next;
        free(address);
    }
    facade_output = NULL;
    pthread_mutex_unlock(&facade_lock);
    if (had_timers) {
        pthread_join(timers, NULL);
        pthread_mutex_lock(&facade_lock);
        pthread_cond_destroy(&timers_changed);
        has_timers = 0;
        pthread_mutex_unlock(&facade_lock);
    }
    return 0;
}

void usrsctp_handle_timers(uint32_t elapsed) {
    pthread_mutex_lock(&facade_lock);
    ticks += elapsed * (uint64_t)MILLISECOND;
    handle_due();
    pthread_mutex_unlock(&facade_lock);
}

static struct address **find_address(void *at) {
    struct address **it = &addresses;
    while (*it && (*it)->at != at)
        it = &(*it)->next;
    return it;
}

int facade_is_registered(void *at) {
    return *find_address(at) != NULL;
}

void usrsctp_register_address(void *at) {
    pthread_mutex_lock(&facade_lock);
    if (!*find_address(at)) {
        struct address *address = calloc(1, sizeof *address);
        if (!address)
            abort();
        address->at = at;
        address->next = addresses;
        addresses = address;
    }
    pthread_mutex_unlock(&facade_lock);
}

/* Sockets of the address stay, but are cut off from it. */
static void cut_off(void *at) {
    struct socket *s = facade_sockets;
    while (s) {
        if (s->address != at || s->is_cut_off) {
            s = s->next;
            continue;
        }
        s->is_cut_off = 1;
        facade_hold(s);
        facade_wait_for_output(s);
        facade_let_go(s);
        s = facade_sockets;
    }
}

void usrsctp_deregister_address(void *at) {
    struct address **it;
    pthread_mutex_lock(&facade_lock);
    it = find_address(at);
    if (*it) {
        struct address *gone = *it;
        *it = gone->next;
        free(gone);
        cut_off(at);
    }
    pthread_mutex_unlock(&facade_lock);
}

static void offload_checksums(uint16_t offload) {
    pthread_mutex_lock(&facade_lock);
    facade_checksum_offload = offload;
    pthread_mutex_unlock(&facade_lock);
}

void usrsctp_enable_crc32c_offload(void) {
    offload_checksums(1);
}

void usrsctp_disable_crc32c_offload(void) {
    offload_checksums(0);
}

void usrsctp_get_stat(struct sctpstat *to) {
    pthread_mutex_lock(&facade_lock);
    *to = facade_statistics;
    pthread_mutex_unlock(&facade_lock);
}
