/* What the sources of the facade share. facade.c begins with what the facade is. */
#ifndef FACADE_H
#define FACADE_H

#include <dcsctp.h>
#include <pthread.h>
#include <usrsctp.h>

typedef int receive_call(struct socket *, union sctp_sockstore, void *, size_t, struct sctp_rcvinfo,
                         int, void *);
typedef int send_call(struct socket *, uint32_t, void *);
typedef int output_call(void *, void *, size_t, uint8_t, uint8_t);
typedef void wake_call(struct socket *, void *, int);

enum { MILLISECOND = 1000000, MAX_RESETS = 1024, COMMON_HEADER = 12, DATA_HEADER = 16 };

/* How far the association of a socket is. A socket has at most one in its life. */
enum phase { UNCONNECTED, LISTENING, CONNECTING, CONNECTED, ENDED };

/* A packet to send, or a message or notification for the user. */
struct item {
    struct item *next;
    uint8_t *bytes; /* NULL: the association was shut down */
    size_t length;
    size_t read; /* how many bytes usrsctp_recvv has returned */
    struct sctp_rcvinfo info;
    int flags;
};

struct queue {
    struct item *first;
    struct item **end;
    size_t bytes;
};

/* A message that the library holds. Its address is its lifecycle_id. */
struct sent {
    struct sent *next;
    struct sent **link;
    struct sctp_sndinfo info;
    size_t length;
    uint8_t *copy; /* for SCTP_SEND_FAILED_EVENT; NULL if nobody has asked for that */
    int was_sent;
    int was_delivered;
};

/* A message that isn't complete (SCTP_EXPLICIT_EOR): a stream has at most one. */
struct part {
    struct part *next;
    uint16_t stream_id;
    size_t length;
    uint8_t *bytes;
};

struct socket {
    struct socket *next;
    struct socket *listener; /* until it is accepted */
    dcsctp_socket it;        /* exists from CONNECTING on */
    dcsctp_options options;
    enum phase phase;
    int type;
    uint32_t id;
    void *address;

    receive_call *receive;
    send_call *may_send;
    uint32_t send_threshold;
    void *user;
    wake_call *wake;
    void *wake_argument;

    int is_bound;
    int is_non_blocking;
    int is_deaf;          /* by usrsctp_shutdown: nothing is reported any more but the end */
    int is_cut_off;       /* its address was deregistered */
    int is_closed;        /* by usrsctp_close */
    int is_explicit;      /* SCTP_EXPLICIT_EOR */
    int wants_info;       /* SCTP_RECVRCVINFO */
    int wants_shutdown;   /* once all resets have begun */
    int is_shutting_down; /* by either end: no message is accepted, or the peer's was reported */
    int error;            /* for SO_ERROR */
    int backlog;
    struct linger linger;
    uint32_t events; /* a bit for each type of notification */

    unsigned uses;    /* calls that are under way */
    int is_sending;   /* a thread calls `output`, which is `sender` */
    int is_reporting; /* a thread calls the user's functions */
    int has_room;     /* send_call is due */
    int is_awake;     /* wake_call is due */
    pthread_t sender;
    uint64_t due;       /* when time has something to do */
    uint64_t forget_at; /* when an ended, or not accepted, association needs no answers any more */

    struct queue packets;
    struct queue reports;
    struct sent *sent;
    struct part *parts;
    size_t sent_bytes;    /* of `sent` and `parts` */
    size_t send_limit;    /* SO_SNDBUF */
    size_t receive_limit; /* SO_RCVBUF */
    struct sctp_sndinfo default_info;
    struct sctp_prinfo default_reliability;

    uint16_t *resets; /* streams to reset; NULL if there is none */
    size_t reset_count;
    uint64_t reset_since; /* when nothing was left on them; 0: something is */
    int is_resetting;     /* the library has been asked, and hasn't answered */
};

#pragma GCC visibility push(hidden)

/* facade.c: the lock is held in all but enter. */
extern struct socket *facade_sockets;
extern struct sctpstat facade_statistics;
extern pthread_mutex_t facade_lock;
extern pthread_cond_t facade_changed;
extern output_call *facade_output;
extern uint16_t facade_checksum_offload;
uint64_t facade_now(void);
int facade_fail(int error);
void facade_enter(struct socket *s);
void facade_leave(struct socket *s);
void facade_hold(struct socket *s);
void facade_let_go(struct socket *s);
void facade_work(struct socket *s);
void facade_expect_due(const struct socket *s);
void facade_wait_for_output(struct socket *s);
void facade_clear(struct queue *queue);
int facade_is_registered(void *at);

/* reports.c */
void facade_put(struct queue *queue, uint8_t *bytes, size_t length, struct sctp_rcvinfo info,
                int flags);
struct item *facade_take(struct queue *queue);
void facade_settle(struct socket *s);
void facade_keep(struct socket *s, int32_t result);
void facade_notify(struct socket *s, uint16_t type, const void *bytes, size_t length);
void facade_notify_if_dry(struct socket *s);
void facade_end_association(struct socket *s, uint16_t state, uint16_t error);

/* sockets.c */
struct sockaddr_conn facade_peer(const struct socket *s);
void facade_write_peer(const struct socket *s, struct sockaddr *name, socklen_t *length);

/* messages.c */
void facade_end_message(struct socket *s, struct sent *sent);
void facade_drop_messages(struct socket *s);
int facade_awaits_reset(const struct socket *s, uint16_t stream_id);
size_t facade_room(const struct socket *s);

/* sysctl.c */
int32_t facade_burst(uint32_t packets);
void facade_use_settings(struct socket *s);

#pragma GCC visibility pop

#endif
