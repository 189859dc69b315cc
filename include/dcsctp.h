/*
 * dcsctp.h: an SCTP association (RFC 9260) for WebRTC data channels, without system calls.
 *
 * You hand a socket the packets that arrive, and the time. It hands you the packets to send, the
 * messages that have arrived, and events. It reads no clock, opens no file and starts no thread.
 *
 * The library is written and proved in Rattle: whatever bytes a peer sends, each call returns, and
 * touches no memory but its own and what you passed. This holds if you follow the rules below,
 * which the library can't check. docs/guide/c.md says what is proved of each call.
 *
 *
 * THE LOOP
 *
 *     dcsctp_socket s = DCSCTP_SOCKET_INIT;
 *     uint64_t stop = DCSCTP_NEVER;
 *     dcsctp_options_init(&options);
 *     result = dcsctp_random_seed(seed);
 *     if (result == DCSCTP_OK)
 *         result = dcsctp_create(&s, &options, seed, now());
 *     if (result == DCSCTP_OK)
 *         result = dcsctp_connect(&s);                             // at one end
 *     while (result == DCSCTP_OK && now() < stop) {
 *         while (dcsctp_poll_event(&s, &event) == 1)
 *             switch (event.kind) {
 *             case DCSCTP_EVENT_SEND_PACKET:
 *                 if (dcsctp_event_bytes(&s, packet, sizeof packet, &length) == DCSCTP_OK)
 *                     send(fd, packet, length, 0);
 *                 break;
 *             case DCSCTP_EVENT_CLOSED:
 *                 stop = now() + 4000000000;                       // 4 s: see THE END
 *                 break;
 *             case DCSCTP_EVENT_ABORTED:
 *                 stop = now();
 *             }
 *         while (dcsctp_get_next_message(&s, &message) == 1)
 *             if (dcsctp_message_bytes(&s, buffer, sizeof buffer, &length) == DCSCTP_OK)
 *                 use(message.stream_id, message.ppid, buffer, length);
 *         dcsctp_poll_timeout(&s, &deadline);
 *         wait_until_readable(fd, deadline < stop ? deadline : stop);   // poll(2), for example
 *         result = dcsctp_advance_time(&s, now());
 *         if (result == DCSCTP_OK &&
 *                 (n = recv(fd, packet, sizeof packet, MSG_DONTWAIT)) >= 0)
 *             result = dcsctp_handle_input(&s, packet, n);         // one, then from the top
 *     }
 *     puts(dcsctp_error_text(result));                             // usually out of memory
 *     dcsctp_destroy(&s);
 *
 * Each packet, time or command that you pass in may add events and messages, and move the deadline.
 * So may taking a message. So take all events and messages, then ask for the deadline, then wait.
 *
 * Take all messages before you begin another association, and before each packet, since a peer may
 * begin one. Messages that are left are lost, though the peer counts them as delivered. Without
 * `follow_rfc` they are lost when their own association ends.
 *
 * `packet` has room for the longest packet of either end (the greater `mtu`), and `buffer` for
 * `message.length` bytes: the peer chooses how long a message is.
 *
 *
 * THE END
 *
 * After DCSCTP_EVENT_ABORTED stop at once. After DCSCTP_EVENT_CLOSED continue for 4 s, or for ten
 * round trips if that is longer. The end that gets CLOSED first has sent the last packet of the
 * shutdown, and that may be lost. Then the peer repeats its SHUTDOWN ACK: by default after 500 ms,
 * then after 1 s more, 2 s, and each 3 s from then on. A closed socket answers each one, and 4 s
 * cover three losses in a row. A peer without an answer stays in DCSCTP_STATE_SHUTTING_DOWN for
 * about three minutes, and then gets ABORTED.
 *
 *
 * RULES
 *
 * Ownership. You own each dcsctp_socket and each buffer. The library owns what `at` points to, and
 *   dcsctp_destroy frees it. When a call has returned, the library keeps no pointer of yours.
 *
 * Sockets. A dcsctp_socket begins as zero bytes (DCSCTP_SOCKET_INIT), and only these functions
 *   change it. You may move it in memory between calls. Never use two copies of it. After fork only
 *   one of the two processes may use it: the parent, if it has threads.
 *
 * Pointers. Pass valid, aligned pointers, never NULL, not even with a length of 0. Each points to
 *   as many elements as the number after it says, and a number may be 0. What a call writes to must
 *   not overlap its other arguments. A call also writes to the socket, unless that is `const`. A
 *   buffer that is only written to needn't be initialised.
 *
 * Queries. A call that takes a `const dcsctp_socket` changes nothing. The bytes that
 *   dcsctp_event_view, dcsctp_message_view, dcsctp_channel_view and dcsctp_channel_get_options have
 *   shown stay where they are.
 *
 * Threads. Make one call at a time on a socket. A query is a call, too, so a lock for readers isn't
 *   enough: use a mutex, or keep the socket on one thread. Calls on different sockets may run at
 *   the same time, since there is no global state. No call blocks or calls back. Make none in a
 *   signal handler.
 *
 * Memory. It comes from malloc, realloc and free, of one allocator, whose blocks are aligned to 16.
 *   When an allocation fails that a call needs, it returns DCSCTP_ERROR_OUT_OF_MEMORY, and your
 *   process continues. A call needs up to 31 KB of stack.
 *
 * Time. A moment is a number of nanoseconds, by a clock that never goes back: CLOCK_MONOTONIC. All
 *   moments of a socket are by the same clock. Advance the time before you hand in a packet.
 *
 * Seed. All random numbers of a socket come from its 32 bytes of seed. Use new ones for each socket
 *   (dcsctp_random_seed): whoever knows them can forge packets. A seed of zeros is refused: it was
 *   never filled.
 *
 * DTLS. Run it over DTLS, or over another layer that delivers only what the peer has sent.
 *   Packets aren't authenticated. Most need the verification tag, but the text of an error names
 *   the one that was expected, and without `follow_rfc` anyone can connect to a closed socket with
 *   one forged COOKIE ECHO. Each INIT is answered, and each chunk of a packet may cause a packet.
 *
 * Results. A call returns DCSCTP_OK or a number that its description names. An error is negative.
 *   Errors are listed at each call, without DCSCTP_ERROR_. Unless the error or the call says more,
 *   an error changes nothing and writes nothing. A compiler warns if you ignore the result of a
 *   call that may return OUT_OF_MEMORY.
 *
 * Sizes. Options, limits, metrics and counts begin with `size`: set it to the struct's sizeof
 *   before a call, as dcsctp_options_init does. If the library was built with another header and
 *   its struct has another size, the call returns WRONG_SIZE, and uses no other field.
 *
 * Numbers. Calls and structs use integers, and later versions may add values. Their names are
 *   enumerators: a debugger shows them, and with a cast a compiler warns of a missing case, as in
 *   switch ((enum dcsctp_event_kind)event.kind).
 */
#ifndef DCSCTP_H
#define DCSCTP_H

/* With DCSCTP_DECLARATIONS there are only types and calls, for tools that can't read more:
 * cffi's cdef takes what `cc -E -P -DDCSCTP_DECLARATIONS dcsctp.h` prints. */
#ifndef DCSCTP_DECLARATIONS
#include <stddef.h>
#include <stdint.h>

#if defined(__linux__) && defined(__has_include)
#if __has_include(<sys/random.h>)
#include <errno.h>
#include <sys/random.h>
#define DCSCTP_HAS_GETRANDOM
#endif
#endif

#if SIZE_MAX != UINT64_MAX
#error "dcsctp needs 64 bits"
#endif
#endif

#ifdef __cplusplus
extern "C" {
#endif

#if (defined(__GNUC__) || defined(__clang__)) && !defined(DCSCTP_DECLARATIONS)
#define DCSCTP_CALL __attribute__((nonnull))
#define DCSCTP_CHECKED_CALL __attribute__((nonnull, warn_unused_result))
#else
#define DCSCTP_CALL
#define DCSCTP_CHECKED_CALL
#endif

/* In C++ any number of the type may be cast to the enum. */
#ifdef __cplusplus
#define DCSCTP_ENUM(name, type) enum name : type
#else
#define DCSCTP_ENUM(name, type) enum name
#endif

#define DCSCTP_VERSION_MAJOR 0 /* first number of this header's version */
#define DCSCTP_VERSION_MINOR 1 /* second number */
#define DCSCTP_VERSION_PATCH 0 /* third number */
/* The version of this header, as one number. */
#define DCSCTP_VERSION \
    (DCSCTP_VERSION_MAJOR * 65536u + DCSCTP_VERSION_MINOR * 256u + DCSCTP_VERSION_PATCH)

/* dcsctp_version adds it if the library was built without proofs. */
#define DCSCTP_VERSION_UNPROVED 0x80000000u

/* The version of the library: DCSCTP_VERSION, unless it was built with another header. A library
 * that was built without proofs adds DCSCTP_VERSION_UNPROVED. */
uint32_t dcsctp_version(void);

/* ---- Results -------------------------------------------------------------------------------- */

/* What calls return. */
DCSCTP_ENUM(dcsctp_error, int32_t) {
    /* The call succeeded. From a call that takes something: there was nothing to take. */
    DCSCTP_OK = 0,

    /* An allocation failed in this call. The socket has failed now, unless the call says that it
     * may be tried again; dcsctp_has_failed reports whether. Earlier events can still be taken, and
     * perhaps the first ones of this call. Messages that were ready may be lost. */
    DCSCTP_ERROR_OUT_OF_MEMORY = -1,

    /* An allocation failed in an earlier call. Events can be taken. Queries still return, but
     * may report anything about the association. Call dcsctp_destroy. */
    DCSCTP_ERROR_FAILED = -2,

    /* There is no socket: it wasn't created, or it was destroyed. */
    DCSCTP_ERROR_NO_SOCKET = -3,

    /* The socket was created already. */
    DCSCTP_ERROR_ALREADY_CREATED = -4,

    /* The options aren't valid (see dcsctp_options), or all bytes of the seed are 0. */
    DCSCTP_ERROR_INVALID_OPTIONS = -5,

    /* The buffer is too small. The needed number of elements was written if the call has a
     * pointer for it. Call again with a larger buffer. */
    DCSCTP_ERROR_BUFFER_TOO_SMALL = -6,

    /* The event or message that was taken last has nothing to copy, or none was taken. A length
     * of 0 was written. */
    DCSCTP_ERROR_NOTHING_TO_COPY = -7,

    /* The message has no bytes. */
    DCSCTP_ERROR_EMPTY_PAYLOAD = -8,

    /* The message is longer than `max_message_size`. */
    DCSCTP_ERROR_MESSAGE_TOO_LARGE = -9,

    /* The send buffer is full, in total or for this stream. Try again after
     * DCSCTP_EVENT_BUFFERED_AMOUNT_LOW or DCSCTP_EVENT_TOTAL_BUFFERED_AMOUNT_LOW. */
    DCSCTP_ERROR_RESOURCE_EXHAUSTION = -10,

    /* The association is being shut down, and accepts no message. */
    DCSCTP_ERROR_SHUTTING_DOWN = -11,

    /* There is no association, or the peer hasn't answered yet. */
    DCSCTP_ERROR_NOT_CONNECTED = -12,

    /* The peer doesn't reset streams (RFC 6525). */
    DCSCTP_ERROR_NOT_SUPPORTED = -13,

    /* The socket can't be handed over now: dcsctp_get_handover_readiness reports why. */
    DCSCTP_ERROR_NOT_READY = -14,

    /* The bytes aren't a snapshot, or were changed since it was taken. */
    DCSCTP_ERROR_INVALID_SNAPSHOT = -15,

    /* The socket has an association, or is connecting. */
    DCSCTP_ERROR_NOT_CLOSED = -16,

    /* In dcsctp_send_options `flags` has a bit without a meaning, or `reserved` isn't 0. */
    DCSCTP_ERROR_INVALID_SEND_OPTIONS = -17,

    /* `size` isn't the size of the library's struct: it wasn't set, or your program was built with
     * another header than the library. */
    DCSCTP_ERROR_WRONG_SIZE = -18,

    /* The snapshot is of a socket with other options: see dcsctp_restore_from_state. */
    DCSCTP_ERROR_OTHER_OPTIONS = -19,

    /* The socket has data channels, and this call is for sockets without them. */
    DCSCTP_ERROR_HAS_CHANNELS = -20,

    /* There is no such data channel, it has ended, or it isn't open. Or the socket has no data
     * channels: dcsctp_channel_begin wasn't called. */
    DCSCTP_ERROR_NO_CHANNEL = -21,

    /* The stream of a negotiated data channel is in use. */
    DCSCTP_ERROR_STREAM_IN_USE = -22,

    /* The association of the data channels has ended: create another socket. */
    DCSCTP_ERROR_ENDED = -23,
};

/* What dcsctp_random_seed returns if the system has no random numbers. No other call returns it. */
#define DCSCTP_ERROR_NO_SEED (-1002)

#ifndef DCSCTP_DECLARATIONS
/* The text of a result: "no error" if it isn't negative, "unknown" for an unknown error. */
static inline const char *dcsctp_error_text(int32_t result) {
    switch (result) {
    case DCSCTP_OK:
        return "no error";
    case DCSCTP_ERROR_OUT_OF_MEMORY:
        return "out of memory";
    case DCSCTP_ERROR_FAILED:
        return "an allocation failed in an earlier call";
    case DCSCTP_ERROR_NO_SOCKET:
        return "there is no socket";
    case DCSCTP_ERROR_ALREADY_CREATED:
        return "there is a socket already";
    case DCSCTP_ERROR_INVALID_OPTIONS:
        return "no socket can be made with these options or this seed";
    case DCSCTP_ERROR_BUFFER_TOO_SMALL:
        return "the buffer is too small";
    case DCSCTP_ERROR_NOTHING_TO_COPY:
        return "there is nothing to copy";
    case DCSCTP_ERROR_EMPTY_PAYLOAD:
        return "the message has no bytes";
    case DCSCTP_ERROR_MESSAGE_TOO_LARGE:
        return "the message is too large";
    case DCSCTP_ERROR_RESOURCE_EXHAUSTION:
        return "the send buffer is full";
    case DCSCTP_ERROR_SHUTTING_DOWN:
        return "the association is being shut down";
    case DCSCTP_ERROR_NOT_CONNECTED:
        return "the peer isn't connected";
    case DCSCTP_ERROR_NOT_SUPPORTED:
        return "the peer doesn't reset streams";
    case DCSCTP_ERROR_NOT_READY:
        return "the socket can't be handed over now";
    case DCSCTP_ERROR_INVALID_SNAPSHOT:
        return "the snapshot isn't valid";
    case DCSCTP_ERROR_NOT_CLOSED:
        return "the socket isn't closed";
    case DCSCTP_ERROR_INVALID_SEND_OPTIONS:
        return "the message can't be sent with these options";
    case DCSCTP_ERROR_WRONG_SIZE:
        return "the struct has another size in the library";
    case DCSCTP_ERROR_OTHER_OPTIONS:
        return "the snapshot is of a socket with other options";
    case DCSCTP_ERROR_HAS_CHANNELS:
        return "the socket has data channels";
    case DCSCTP_ERROR_NO_CHANNEL:
        return "there is no such data channel";
    case DCSCTP_ERROR_STREAM_IN_USE:
        return "the stream is in use";
    case DCSCTP_ERROR_ENDED:
        return "the association has ended";
    case DCSCTP_ERROR_NO_SEED:
        return "the system has no random numbers";
    default:
        return result > 0 ? "no error" : "unknown";
    }
}
#endif

/* ---- Sockets and options -------------------------------------------------------------------- */

/* A socket. It is yours: two words, which you may put anywhere. */
typedef struct dcsctp_socket {
    void *at;      /* private */
    uint32_t mark; /* private */
} dcsctp_socket;

/* No socket yet. Zero bytes, from memset or calloc, are the same. In C this is an initialiser, and
 * in C++ an expression. */
#ifdef __cplusplus
#define DCSCTP_SOCKET_INIT dcsctp_socket()
#else
#define DCSCTP_SOCKET_INIT { NULL, 0 }
#endif

/* No limit of a time. */
#define DCSCTP_NEVER UINT64_MAX
/* No limit of a count. */
#define DCSCTP_NO_LIMIT UINT32_MAX

/* What can be set. Sizes are in bytes, times in nanoseconds. Each comment ends with the default. A
 * switch is off at 0, and on at any other number. The options are valid if `mtu` is 32 to 65,535,
 * and `max_receiver_window_buffer_size` and `max_send_buffer_size` are at most 4,294,967,295.
 *
 * Not all valid options connect. If one of these doesn't hold, the end that connects gives up:
 *
 * - `mtu` of the end that connects: at least the peer's cookie and 16 bytes, which is 72 if the
 *   peer is this library. `mtu` of the other end: at least 104, or 112 with `zero_checksum_method`.
 * - `max_receiver_window_buffer_size` of both: at least 1,500.
 * - Streams of both: at least one each way. `max_burst` of both: at least 1.
 * - `remote_port` is the peer's `local_port`. Port 0 is forbidden (RFC 9260, section 3.1): this
 *   library accepts it, others may not.
 *
 * A silent peer is given up by DCSCTP_EVENT_ABORTED. That takes:
 *
 *     what the peer doesn't answer                 by default       heartbeat_interval 0
 *     INIT                                         180 s            180 s
 *     COOKIE ECHO                                  180 s            180 s
 *     HEARTBEAT, with nothing else to send         1,846 to 1,876 s never
 *     data, before a round trip was measured       177.5 s          177.5 s
 *     data, at the least timeout (400 ms)          176.8 s          176.8 s
 *     data, at longer timeouts                     up to 4 min      up to 4 min
 *     SHUTDOWN                                     up to 4 min      up to 4 min
 *
 *   So an association outlasts 150 s without a link, and then continues within 3 s. With data in
 *   flight and a stream reset that isn't answered it outlasts 80 s, since both count errors. The
 *   price: a peer that is gone is noticed late, and while nothing is sent only after half an hour.
 *   Smaller `max_init_retransmits`, `max_retransmissions`, `heartbeat_interval` or
 *   `max_timer_backoff_duration` make it shorter. With 10 as `max_retransmissions` it takes 333 to
 *   339 s for a HEARTBEAT, and 27.5 s or 26.8 s for data: then 25 s without a link may end it.
 *   With `follow_rfc` HEARTBEATs are `heartbeat_interval` and 50 to 150 % of `rto_initial` apart:
 *   the verification tag chooses how much, so that sockets don't send them together. If the
 *   interval is above 0 but no longer than half of `rto_initial` (without `follow_rfc`: all of it),
 *   a HEARTBEAT may never be an error.
 *
 * `max_timer_backoff_duration`: each wait for an answer to INIT, to COOKIE ECHO, to data, to
 *   SHUTDOWN or to a request to reset streams is twice the last one, but no longer than this, nor
 *   than `rto_max`. Only the first may be longer than this. Without `follow_rfc` only this is a
 *   limit, and for data alone: a peer that doesn't answer a SHUTDOWN is given up by HEARTBEATs, and
 *   one that doesn't answer an INIT after 511 s if you set `max_init_retransmits` to 8, and by
 *   default never. With `follow_rfc` 8 takes 24 s; and 60 takes 56 minutes with DCSCTP_NEVER.
 *   A full window is probed after the same waits. With DCSCTP_NEVER, if the packet that reports the
 *   open window is lost, the next probe may come only after as long as the pause was, or after
 *   `rto_max` with `follow_rfc`.
 *   A peer whose user takes nothing for three minutes is given up as if it were silent, unless it
 *   answers data that it has no room for, and this end has `follow_rfc`. This library without
 *   `follow_rfc` doesn't answer, nor does dcsctp 0.1.16. For longer pauses of such peers use
 *   upstream's limits, DCSCTP_NEVER and 10 as `max_retransmissions`: then HEARTBEATs go out between
 *   the probes.
 * `max_burst`: how many packets are sent at once, however large the windows are. A peer that
 *   acknowledges once a round trip gets that many in each. By default pion got 83 kB/s at a round
 *   trip of 50 ms. Raise it for such peers.
 * `max_receiver_window_buffer_size`: above nine tenths of it, new data is dropped. Retransmitted
 *   data that fills a gap is accepted until it is full, and the first that is missing until twice
 *   that is held. Each part of a message that is held, and each whole one that waits for an earlier
 *   one, counts 256 bytes more, so that they take at most some ten times this in memory. A message
 *   that is ready counts its bytes alone: many small ones take far more, until you take them.
 *   Without `follow_rfc` payloads alone count, these chunks are dropped, too, and no dropped data
 *   is answered: if the window is full of parts whose missing parts are dropped, nothing is
 *   delivered any more, though both ends stay connected. So make it far more than a peer has in
 *   flight, and more than its longest message with 256 bytes for each packet of it.
 * `total_buffered_amount_low_threshold`: DCSCTP_EVENT_TOTAL_BUFFERED_AMOUNT_LOW comes only after
 *   more than this was queued. So keep it below `max_send_buffer_size`, also if you lower that.
 * `rto_initial`: make it longer than any round trip. Otherwise the first flight is sent twice or
 *   more. Without `follow_rfc`, if the round trip is twice as long or more, all data is, for the
 *   whole association.
 * `checksum_offload`: you make and check the checksums of packets, and answer for both. The header
 *   dcsctp_checksum.h does it by the processor's instructions. A packet that leaves has 0 for its
 *   checksum, and is otherwise the one without this switch: finish your copy of it, or peers drop
 *   it. The checksum of a packet that comes in isn't looked at: hand in only those that you have
 *   found right. `disable_checksum_verification` has no effect then, and dcsctp_get_options writes
 *   0 for it. A snapshot keeps nothing of this: each socket has its own switch.
 * `follow_rfc`: the socket keeps rules of the RFCs that upstream, dcsctp 0.1.16, doesn't. A
 *   shutdown first sends queued messages. Data without room, or that fills a gap, is acknowledged
 *   at once. A full receive window that opens is reported to the peer. A peer's SHUTDOWN
 *   acknowledges data. Streams of equal priority take turns; with message interleaving none waits
 *   for the end of another's message. A repeated request to reset a stream that is in progress gets
 *   the next number, and is reported once, except across a handover; of a peer without this so are
 *   two with nothing sent between them, if the first was in progress. Messages that are ready can
 *   be taken after their association has ended. A timeout that was doubled stays so until a round
 *   trip is measured, and a HEARTBEAT's first answer measures one. Data that a full window had no
 *   room for is sent again once it opens. Errors are counted for each association. A shutdown also
 *   waits until the peer knows what was abandoned. A SACK lists as many gaps as fit. An ABORT ends
 *   an attempt to connect. A late COOKIE ECHO of the last association begins none. A stale cookie
 *   is answered by an ERROR, and such an answer ends an attempt to connect. A shutdown and resets
 *   of streams wait for the end of the handshake. Data, SACKs and resets that come before the
 *   COOKIE ACK are dropped. Where both ends connect, what was sent before it is sent again, if our
 *   tag, our first TSN and what both ends support stay; it is read twice only if the peer had ended
 *   the association in which it was sent. Parts of messages count 256 bytes more in the receive
 *   window. Of a packet's HEARTBEATs, INITs and RE-CONFIG requests one is answered. A shutdown also
 *   waits for a message behind a reset of its stream, if it has no lifetime. I-DATA while a
 *   SHUTDOWN awaits its answer brings another. A closed socket takes only its own cookies, unless
 *   they are forged by one who saw its packets. The heartbeat interval of a restored association
 *   starts at once, not with its next data. At 0, and with upstream's limits (above), the socket
 *   behaves as upstream, but for a few differences: docs/design/differences.md has a row for each,
 *   and for each rule. */
typedef struct dcsctp_options {
    size_t size;                                         /* sizeof(dcsctp_options) */
    size_t mtu;                                          /* longest packet that is sent: 1,191 */
    size_t max_message_size;                             /* longest message to send: 262,144 */
    size_t max_receiver_window_buffer_size;              /* received, not taken yet: 5,242,880 */
    size_t max_send_buffer_size;                         /* send fails at this: 2,000,000 */
    size_t per_stream_send_queue_limit;                  /* the same for one stream: 2,000,000 */
    size_t total_buffered_amount_low_threshold;          /* of all streams: 1,800,000 */
    size_t default_stream_buffered_amount_low_threshold; /* of a stream: 0 */
    size_t cwnd_mtus_initial;                            /* first congestion window, in MTUs: 10 */
    size_t cwnd_mtus_min;                                /* its minimum after a loss, in MTUs: 4 */
    uint64_t rtt_max;                                    /* longer round trips are ignored: 60 s */
    uint64_t rto_initial;                                /* first retransmission timeout: 500 ms */
    uint64_t rto_max;                                    /* its maximum: 60 s */
    uint64_t rto_min;                                    /* its minimum: 400 ms */
    uint64_t t1_init_timeout;                            /* first wait for an INIT ACK: 1 s */
    uint64_t t1_cookie_timeout;                          /* first wait for a COOKIE ACK: 1 s */
    uint64_t cookie_lifetime;                            /* older cookies are rejected: 60 s */
    uint64_t max_timer_backoff_duration;                 /* limit of waits; or DCSCTP_NEVER: 3 s */
    uint64_t heartbeat_interval;                         /* 0: none are sent; 30 s */
    uint64_t delayed_ack_max_timeout;                    /* SACKs wait up to this: 200 ms */
    uint64_t min_rtt_variance;                           /* minimum of 4 * RTTVAR: 220 ms */
    int32_t max_burst;                                   /* packets sent at once: 4 */
    uint32_t max_retransmissions;                        /* of data; or DCSCTP_NO_LIMIT: 60 */
    uint32_t max_init_retransmits;                       /* of INIT, COOKIE ECHO; or none: 60 */
    uint32_t zero_checksum_method;                       /* RFC 9653; 0 none, 1 DTLS: 0 */
    uint32_t enable_partial_reliability;                 /* switch, RFC 3758: 1 */
    uint32_t enable_message_interleaving;                /* switch, RFC 8260: 0 */
    uint32_t disable_checksum_verification;              /* switch, for tests: 0 */
    uint32_t enable_handover_with_outstanding_data;      /* switch: 0 */
    uint16_t local_port;                                 /* our port: 5,000 */
    uint16_t remote_port;                                /* the peer's port: 5,000 */
    uint16_t announced_maximum_incoming_streams;         /* that the peer may use: 65,535 */
    uint16_t announced_maximum_outgoing_streams;         /* that we ask for: 65,535 */
    uint16_t default_stream_priority;                    /* of each stream: 256 */
    uint16_t checksum_offload;                           /* switch, see above: 0 */
    uint32_t follow_rfc;                                 /* switch, see above: 1 */
} dcsctp_options;

/* Writes the default options. Set `size` first. Error: WRONG_SIZE. */
int32_t dcsctp_get_default_options(dcsctp_options *options) DCSCTP_CALL;

#ifndef DCSCTP_DECLARATIONS
/* Sets `size`, and writes the default options. If the struct has another size in the library, no
 * other field is written, and dcsctp_create returns WRONG_SIZE. */
static inline void dcsctp_options_init(dcsctp_options *options) {
    options->size = sizeof *options;
    dcsctp_get_default_options(options);
}

#ifdef DCSCTP_HAS_GETRANDOM
/* Writes a new seed for dcsctp_create, by getrandom(2), which may block early at boot. It exists
 * where <sys/random.h> does: Linux with glibc 2.25 or musl 1.1.20. Error: NO_SEED; don't use the
 * bytes then. */
static inline int32_t dcsctp_random_seed(uint8_t seed[32]) DCSCTP_CHECKED_CALL;
static inline int32_t dcsctp_random_seed(uint8_t seed[32]) {
    size_t done = 0;
    while (done < 32) {
        const ssize_t count = getrandom(seed + done, 32 - done, 0);
        if (count > 0)
            done += (size_t)count;
        else if (count == 0 || errno != EINTR)
            return DCSCTP_ERROR_NO_SEED;
    }
    return DCSCTP_OK;
}
#endif
#endif

/* Creates a closed socket whose clock is at `now`. Nothing is sent before dcsctp_connect, or
 * before a peer connects.
 *
 * Errors: ALREADY_CREATED, WRONG_SIZE, INVALID_OPTIONS, OUT_OF_MEMORY. In each case `socket` is as
 * before, and the call may be tried again. INVALID_OPTIONS: also if all bytes of the seed are 0. */
int32_t dcsctp_create(dcsctp_socket *socket, const dcsctp_options *options, const uint8_t seed[32],
                      uint64_t now) DCSCTP_CHECKED_CALL;

/* Frees a socket, in any state. The peer isn't informed: dcsctp_close or dcsctp_shutdown does
 * that. The socket can be created again. If there is none, it does nothing. */
void dcsctp_destroy(dcsctp_socket *socket) DCSCTP_CALL;

/* ---- Commands ------------------------------------------------------------------------------- */

/* Begins an association: DCSCTP_EVENT_CONNECTED follows, or DCSCTP_EVENT_ABORTED, by default after
 * 180 s if nobody answers (see dcsctp_options), and with `follow_rfc` at once if the peer answers
 * by an ABORT, or that its cookie is stale. So it may right after dcsctp_close, if the peer gets
 * the INIT before the ABORT: connect again. If the socket isn't closed, it does nothing.
 * Errors: NO_SOCKET, FAILED, OUT_OF_MEMORY. */
int32_t dcsctp_connect(dcsctp_socket *socket) DCSCTP_CHECKED_CALL;

/* Wait for DCSCTP_EVENT_CONNECTED before this call. Until the peer has answered the first INIT, it
 * sends nothing: DCSCTP_EVENT_CLOSED comes at once, and what is queued goes out in the next
 * association. Later in the handshake it waits for DCSCTP_EVENT_CONNECTED, and then shuts down as
 * below. Without `follow_rfc` it doesn't wait, and that event doesn't come: the COOKIE ECHO isn't
 * sent again, and if it was lost, DCSCTP_EVENT_ABORTED comes after minutes; or, if the peer
 * connects, too, the shutdown is forgotten. On a closed socket it does nothing.
 *
 * It ends the association in an orderly way. All data that was sent is acknowledged first. With
 * `follow_rfc` queued messages are sent before that, and the peer acknowledges what was abandoned,
 * so that it delivers all that came after it. From now on dcsctp_send fails. Messages with a
 * lifetime that are queued behind a reset of their stream may be lost, and without `follow_rfc` all
 * queued ones: wait until dcsctp_buffered_amount is 0, then shut down.
 *
 * DCSCTP_EVENT_CLOSED follows when the peer has answered: continue the loop after it (THE END).
 * DCSCTP_EVENT_ABORTED comes instead if the peer aborts or is silent. Without `follow_rfc` a peer's
 * SHUTDOWN acknowledges nothing: if that peer sends no SACK, both ends wait for minutes, until one
 * gives up. dcsctp_close ends that. Errors: NO_SOCKET, FAILED, OUT_OF_MEMORY. */
int32_t dcsctp_shutdown(dcsctp_socket *socket) DCSCTP_CHECKED_CALL;

/* Ends the association at once: an ABORT goes to the peer if it is known, and the last event is
 * DCSCTP_EVENT_CLOSED. Data in flight is lost; what is queued goes out in the next association.
 * Messages that are ready can still be taken, also at the peer if it follows this rule; without
 * `follow_rfc` they are lost. On a closed socket it does nothing.
 * Errors: NO_SOCKET, FAILED, OUT_OF_MEMORY. */
int32_t dcsctp_close(dcsctp_socket *socket) DCSCTP_CHECKED_CALL;

/* ---- Packets and time ----------------------------------------------------------------------- */

/* Handles a packet from the peer, of any bytes. One that can't be read, or has a wrong verification
 * tag, adds a DCSCTP_EVENT_ERROR. It is counted, and changes nothing else. Each chunk may cause a
 * packet: 290 of an unknown type in a packet of 1,172 bytes cause 290. Without `follow_rfc` so do
 * 290 HEARTBEATs or SHUTDOWN ACKs (these even from a closed socket, whatever the tag); with it they
 * cause one. So hand in only what your peer has sent, as DTLS ensures.
 * Errors: NO_SOCKET, FAILED, OUT_OF_MEMORY. */
int32_t dcsctp_handle_input(dcsctp_socket *socket, const uint8_t *packet, size_t length)
    DCSCTP_CHECKED_CALL;

/* Sets the time, and handles expired timers. A moment before the last one does nothing.
 * Errors: NO_SOCKET, FAILED, OUT_OF_MEMORY. */
int32_t dcsctp_advance_time(dcsctp_socket *socket, uint64_t now) DCSCTP_CHECKED_CALL;

/* Writes the next deadline, by which you must call dcsctp_advance_time: a moment that is never
 * before the current time of the socket, or DCSCTP_NEVER. With channels it may be, until all events
 * are taken. Error: NO_SOCKET. */
int32_t dcsctp_poll_timeout(const dcsctp_socket *socket, uint64_t *moment) DCSCTP_CALL;

/* ---- Events --------------------------------------------------------------------------------- */

/* What an event reports, and which fields it uses. */
DCSCTP_ENUM(dcsctp_event_kind, uint32_t) {
    DCSCTP_EVENT_NONE = 0,                     /* there is no event */
    DCSCTP_EVENT_SEND_PACKET = 1,              /* bytes: a packet for the peer, at most `mtu` */
    DCSCTP_EVENT_CONNECTED = 2,                /* an association was made, by either end */
    DCSCTP_EVENT_CLOSED = 3,                   /* it ended: by shutdown, close or handover */
    DCSCTP_EVENT_CONNECTION_RESTARTED = 4,     /* the peer restarted: then CONNECTED comes */
    DCSCTP_EVENT_ABORTED = 5,                  /* it was cut off: error_kind; bytes: a text */
    DCSCTP_EVENT_ERROR = 6,                    /* it continues: error_kind; bytes: a text */
    DCSCTP_EVENT_BUFFERED_AMOUNT_LOW = 7,      /* stream_id: it fell to its low threshold */
    DCSCTP_EVENT_TOTAL_BUFFERED_AMOUNT_LOW = 8, /* all streams fell to the low threshold */
    DCSCTP_EVENT_STREAMS_RESET_FAILED = 9,     /* streams of this end that weren't reset */
    DCSCTP_EVENT_STREAMS_RESET_PERFORMED = 10, /* streams of this end that were reset */
    DCSCTP_EVENT_INCOMING_STREAM_RESET = 11,   /* streams of the peer; none: all of them */
    DCSCTP_EVENT_LIFECYCLE_FULLY_SENT = 12,    /* lifecycle_id: the whole message was sent */
    DCSCTP_EVENT_LIFECYCLE_MAYBE_EXPIRED = 13, /* lifecycle_id: abandoned after that */
    DCSCTP_EVENT_LIFECYCLE_EXPIRED = 14,       /* lifecycle_id: abandoned before that */
    DCSCTP_EVENT_LIFECYCLE_DELIVERED = 15,     /* lifecycle_id: the peer acknowledged it */
    DCSCTP_EVENT_LIFECYCLE_END = 16,           /* lifecycle_id: no event names it again */
};

#ifndef DCSCTP_DECLARATIONS
/* The name of a kind of event: "unknown" for an unknown one. */
static inline const char *dcsctp_event_name(uint32_t kind) {
    switch (kind) {
    case DCSCTP_EVENT_NONE:
        return "none";
    case DCSCTP_EVENT_SEND_PACKET:
        return "send packet";
    case DCSCTP_EVENT_CONNECTED:
        return "connected";
    case DCSCTP_EVENT_CLOSED:
        return "closed";
    case DCSCTP_EVENT_CONNECTION_RESTARTED:
        return "connection restarted";
    case DCSCTP_EVENT_ABORTED:
        return "aborted";
    case DCSCTP_EVENT_ERROR:
        return "error";
    case DCSCTP_EVENT_BUFFERED_AMOUNT_LOW:
        return "buffered amount low";
    case DCSCTP_EVENT_TOTAL_BUFFERED_AMOUNT_LOW:
        return "total buffered amount low";
    case DCSCTP_EVENT_STREAMS_RESET_FAILED:
        return "streams reset failed";
    case DCSCTP_EVENT_STREAMS_RESET_PERFORMED:
        return "streams reset performed";
    case DCSCTP_EVENT_INCOMING_STREAM_RESET:
        return "incoming stream reset";
    case DCSCTP_EVENT_LIFECYCLE_FULLY_SENT:
        return "message fully sent";
    case DCSCTP_EVENT_LIFECYCLE_MAYBE_EXPIRED:
        return "message maybe expired";
    case DCSCTP_EVENT_LIFECYCLE_EXPIRED:
        return "message expired";
    case DCSCTP_EVENT_LIFECYCLE_DELIVERED:
        return "message delivered";
    case DCSCTP_EVENT_LIFECYCLE_END:
        return "message ended";
    default:
        return "unknown";
    }
}
#endif

/* What an error is about. */
DCSCTP_ENUM(dcsctp_error_kind, uint32_t) {
    DCSCTP_KIND_NO_ERROR = 0,              /* no event has it */
    DCSCTP_KIND_TOO_MANY_RETRIES = 1,      /* something was sent too often without an answer */
    DCSCTP_KIND_NOT_CONNECTED = 2,         /* it needs an association, and there is none */
    DCSCTP_KIND_PARSE_FAILED = 3,          /* it can't be read, or isn't for this association */
    DCSCTP_KIND_WRONG_SEQUENCE = 4,        /* it can't be handled in this state */
    DCSCTP_KIND_PEER_REPORTED = 5,         /* the peer reported an error, or aborted */
    DCSCTP_KIND_PROTOCOL_VIOLATION = 6,    /* the peer, or the caller, broke a rule */
    DCSCTP_KIND_RESOURCE_EXHAUSTION = 7,   /* a buffer is full */
    DCSCTP_KIND_UNSUPPORTED_OPERATION = 8, /* it isn't supported */
};

/* An event. Fields that its kind doesn't use are 0. Later versions may add kinds: ignore them. */
typedef struct dcsctp_event {
    uint64_t lifecycle_id; /* of the message: see dcsctp_send_options */
    size_t length;         /* how many bytes or streams there are to copy */
    uint32_t kind;         /* enum dcsctp_event_kind */
    uint32_t error_kind;   /* enum dcsctp_error_kind */
    uint32_t stream_id;    /* of DCSCTP_EVENT_BUFFERED_AMOUNT_LOW */
    uint32_t reserved;     /* 0 */
} dcsctp_event;

/* Takes the oldest event, writes it and returns 1. If there is none, it returns 0, and the event is
 * DCSCTP_EVENT_NONE. Its bytes or streams can be copied until the next call of dcsctp_poll_event.
 * It allocates nothing. Error: NO_SOCKET. */
int32_t dcsctp_poll_event(dcsctp_socket *socket, dcsctp_event *event) DCSCTP_CALL;

/* Copies the packet or the text of the last taken event, and writes its length. A text is UTF-8,
 * has no zero at its end, and may be empty.
 * Errors: NO_SOCKET, BUFFER_TOO_SMALL, NOTHING_TO_COPY. */
int32_t dcsctp_event_bytes(const dcsctp_socket *socket, uint8_t *buffer, size_t capacity,
                           size_t *length) DCSCTP_CHECKED_CALL;

/* Writes where the packet of the last taken event is, and its length. Nothing is copied. The bytes
 * stay there until a call that takes this socket without `const`. NOTHING_TO_COPY: the event isn't
 * a DCSCTP_EVENT_SEND_PACKET, or none was taken; then `bytes` isn't written.
 * Errors: NO_SOCKET, NOTHING_TO_COPY. */
int32_t dcsctp_event_view(const dcsctp_socket *socket, const uint8_t **bytes, size_t *length)
    DCSCTP_CHECKED_CALL;

/* Copies the streams of the last taken event, and writes how many there are. `capacity` counts
 * streams, too. Errors: NO_SOCKET, BUFFER_TOO_SMALL, NOTHING_TO_COPY. */
int32_t dcsctp_event_streams(const dcsctp_socket *socket, uint16_t *buffer, size_t capacity,
                             size_t *count) DCSCTP_CHECKED_CALL;

/* ---- Messages ------------------------------------------------------------------------------- */

/* A message that has arrived. */
typedef struct dcsctp_message {
    size_t length;      /* how many bytes there are to copy, at least 1 */
    uint32_t ppid;      /* the payload protocol identifier (RFC 8831, section 8) */
    uint16_t stream_id; /* may be above the negotiated number of streams */
    uint16_t reserved;  /* 0 */
} dcsctp_message;

/* Writes how many messages are ready to be taken. Error: NO_SOCKET. */
int32_t dcsctp_messages_ready_count(const dcsctp_socket *socket, size_t *count) DCSCTP_CALL;

/* Takes the first message that is ready, writes its description and returns 1. If there is none, it
 * returns 0, and the length is 0. The bytes leave the receive window. They can be copied until the
 * next call of dcsctp_get_next_message. With `follow_rfc`, when a full window opens, the deadline
 * becomes the current time, so that dcsctp_advance_time reports it to the peer.
 *
 * When an association ends, its ready messages can be taken until the next one begins, or the peer
 * restarts. Then they are lost, though they were acknowledged. Without `follow_rfc` they are lost
 * when their own association ends, even by an ABORT in the same packet. So take all messages before
 * you hand in the next packet.
 *
 * It allocates nothing. Error: NO_SOCKET. */
int32_t dcsctp_get_next_message(dcsctp_socket *socket, dcsctp_message *message) DCSCTP_CALL;

/* Copies the bytes of the last taken message, and writes its length.
 * Errors: NO_SOCKET, BUFFER_TOO_SMALL, NOTHING_TO_COPY. */
int32_t dcsctp_message_bytes(const dcsctp_socket *socket, uint8_t *buffer, size_t capacity,
                             size_t *length) DCSCTP_CHECKED_CALL;

/* Writes where the bytes of the last taken message are, and how many there are. Nothing is copied.
 * They stay there until a call that takes this socket without `const`. NOTHING_TO_COPY: none was
 * taken; then `bytes` isn't written. Errors: NO_SOCKET, NOTHING_TO_COPY. */
int32_t dcsctp_message_view(const dcsctp_socket *socket, const uint8_t **bytes, size_t *length)
    DCSCTP_CHECKED_CALL;

/* The peer may deliver the message out of order. */
#define DCSCTP_SEND_UNORDERED 1u
/* Use `lifetime`: a message that isn't acknowledged by then is abandoned. It needs partial
 * reliability (RFC 3758) at both ends, as the next flag does. */
#define DCSCTP_SEND_LIFETIME 2u
/* Use `max_retransmissions`: a message is abandoned rather than sent again more often. */
#define DCSCTP_SEND_MAX_RETRANSMISSIONS 4u

/* How a message is sent. Zero, as by DCSCTP_SEND_INIT: in order, until it is acknowledged. */
typedef struct dcsctp_send_options {
    uint64_t lifecycle_id;        /* its name in DCSCTP_EVENT_LIFECYCLE_..; 0: no such events */
    uint64_t lifetime;            /* nanoseconds */
    uint32_t flags;               /* sum of DCSCTP_SEND_..; other bits are an error */
    uint16_t max_retransmissions; /* how often it may be sent again */
    uint16_t reserved;            /* 0; other numbers are an error */
} dcsctp_send_options;

/* Send options that are zero: an initialiser in C, an expression in C++. */
#ifdef __cplusplus
#define DCSCTP_SEND_INIT dcsctp_send_options()
#else
#define DCSCTP_SEND_INIT { 0, 0, 0, 0, 0 }
#endif

/* Sends a message, whose bytes are copied. It is queued behind other messages of its stream, also
 * before an association exists. It fails by the first of these that holds: EMPTY_PAYLOAD,
 * MESSAGE_TOO_LARGE, SHUTTING_DOWN, RESOURCE_EXHAUSTION. Then a DCSCTP_EVENT_ERROR follows, after a
 * DCSCTP_EVENT_LIFECYCLE_END if the message has a `lifecycle_id`. INVALID_SEND_OPTIONS comes before
 * these, and changes nothing. OUT_OF_MEMORY: if the copy can't be allocated, nothing has changed,
 * and the call may be tried again. Of a message that is too large, only `max_message_size` and one
 * byte are copied.
 *
 * Use streams below `negotiated_maximum_outgoing_streams` of dcsctp_get_metrics; 65,535 never is
 * one (RFC 8831, section 6.2). A message on another stream is sent all the same, and
 * DCSCTP_EVENT_LIFECYCLE_DELIVERED comes once it is acknowledged. But a peer drops it (RFC 9260,
 * section 6.5), unless it is this library.
 *
 * A message longer than nine tenths of the peer's receive window may never arrive, and one longer
 * than all of it can't, whatever `follow_rfc` is at either end. A peer with `follow_rfc` counts
 * 256 bytes more for each part. No event reports it, and later messages aren't delivered either.
 *
 * Errors: NO_SOCKET, INVALID_SEND_OPTIONS, EMPTY_PAYLOAD, MESSAGE_TOO_LARGE, SHUTTING_DOWN,
 * RESOURCE_EXHAUSTION, FAILED, OUT_OF_MEMORY. */
int32_t dcsctp_send(dcsctp_socket *socket, uint16_t stream_id, uint32_t ppid,
                    const uint8_t *payload, size_t length, const dcsctp_send_options *options)
    DCSCTP_CHECKED_CALL;

/* A message of dcsctp_send_many. */
typedef struct dcsctp_outgoing_message {
    const uint8_t *payload; /* its bytes */
    size_t length;          /* how many bytes it has */
    uint32_t ppid;          /* the payload protocol identifier (RFC 8831, section 8) */
    uint16_t stream_id;     /* the stream to send it on */
    uint16_t reserved;      /* write 0; not read yet */
} dcsctp_outgoing_message;

/* Sends `count` messages, each as dcsctp_send does, with the same options and so one `lifecycle_id`
 * for all. Packets are made only once, after the last. Each of the first `count` results becomes
 * DCSCTP_OK or the error of dcsctp_send for that message. If one message fails, later ones are sent
 * all the same. The call returns the first of these errors, or DCSCTP_OK.
 *
 * Other errors write no result. BUFFER_TOO_SMALL: there is room for fewer results than messages. It
 * comes before INVALID_SEND_OPTIONS, and neither changes anything. OUT_OF_MEMORY: if a copy can't
 * be allocated, nothing has changed, and the call may be tried again. If a later allocation fails,
 * some of the messages may have been sent.
 *
 * Errors: NO_SOCKET, BUFFER_TOO_SMALL, INVALID_SEND_OPTIONS, EMPTY_PAYLOAD, MESSAGE_TOO_LARGE,
 * SHUTTING_DOWN, RESOURCE_EXHAUSTION, FAILED, OUT_OF_MEMORY. */
int32_t dcsctp_send_many(dcsctp_socket *socket, const dcsctp_outgoing_message *messages,
                         size_t count, const dcsctp_send_options *options, int32_t *results,
                         size_t capacity) DCSCTP_CHECKED_CALL;

/* ---- Streams -------------------------------------------------------------------------------- */

/* Resets outgoing streams (RFC 6525), which closes data channels. A `count` of 0 names none. Queued
 * messages on them are dropped, unless they were partly sent: to send them, first wait until
 * dcsctp_buffered_amount of each stream is 0. Later messages are held back until
 * DCSCTP_EVENT_STREAMS_RESET_PERFORMED or .._FAILED. The peer gets
 * DCSCTP_EVENT_INCOMING_STREAM_RESET, and drops messages that can't be delivered for lack of an
 * earlier one.
 *
 * Also wait until `unack_data_count` of dcsctp_get_metrics is 0. A peer that lacks data when the
 * request comes doesn't perform it yet, and without `follow_rfc` some peers never do: then neither
 * event comes. If it lacks data because its user takes no messages, the request is sent again and
 * again. Each one that is lost counts as an error, and without `follow_rfc` no answer clears that
 * count: a live association can be aborted within three minutes. With `follow_rfc` the user of a
 * peer without it may get the event of one reset twice.
 *
 * A request waits for DCSCTP_EVENT_CONNECTED. It is forgotten if the peer begins anew before that
 * with other options, and without `follow_rfc` if both ends connect: then neither event comes, and
 * messages sent until then may be lost. Between the request and its event, another call for the
 * stream does nothing.
 *
 * Errors: NO_SOCKET, NOT_CONNECTED, NOT_SUPPORTED, FAILED, OUT_OF_MEMORY. OUT_OF_MEMORY: if the
 * numbers can't be copied, nothing has changed, and the call may be tried again. */
int32_t dcsctp_reset_streams(dcsctp_socket *socket, const uint16_t *stream_ids, size_t count)
    DCSCTP_CHECKED_CALL;

/* Writes how many bytes are queued on a stream. Error: NO_SOCKET. */
int32_t dcsctp_buffered_amount(const dcsctp_socket *socket, uint16_t stream_id, size_t *bytes)
    DCSCTP_CALL;

/* Writes the low threshold of a stream: DCSCTP_EVENT_BUFFERED_AMOUNT_LOW comes when its queued
 * bytes fall from above the threshold to it or below. Error: NO_SOCKET. */
int32_t dcsctp_buffered_amount_low_threshold(const dcsctp_socket *socket, uint16_t stream_id,
                                             size_t *bytes) DCSCTP_CALL;

/* Sets that threshold, also for later associations. Errors: NO_SOCKET, FAILED, OUT_OF_MEMORY. */
int32_t dcsctp_set_buffered_amount_low_threshold(dcsctp_socket *socket, uint16_t stream_id,
                                                 size_t bytes) DCSCTP_CHECKED_CALL;

/* Writes the priority of a stream. The stream with the greatest priority is sent first. Those with
 * the same priority take turns, a message each. With message interleaving a turn is a packet's
 * worth of bytes, and a greater priority doesn't wait for the end of a message, unless that has a
 * lifetime or a limit on retransmissions. A message of more than one packet is begun only once the
 * peer's receive window has room for it beside those under way, each counted twice; until then the
 * first of these goes on. Without `follow_rfc` the lowest stream number is sent first as long as it
 * has messages. So give an urgent stream a greater priority.
 * Error: NO_SOCKET. */
int32_t dcsctp_get_stream_priority(const dcsctp_socket *socket, uint16_t stream_id,
                                   uint16_t *priority) DCSCTP_CALL;

/* Sets that priority, also for later associations. Errors: NO_SOCKET, FAILED, OUT_OF_MEMORY. */
int32_t dcsctp_set_stream_priority(dcsctp_socket *socket, uint16_t stream_id, uint16_t priority)
    DCSCTP_CHECKED_CALL;

/* ---- Queries -------------------------------------------------------------------------------- */

/* The state of a socket. */
DCSCTP_ENUM(dcsctp_socket_state, int32_t) {
    DCSCTP_STATE_CLOSED = 0,        /* there is no association */
    DCSCTP_STATE_CONNECTING = 1,    /* the handshake isn't over */
    DCSCTP_STATE_CONNECTED = 2,     /* there is an association */
    DCSCTP_STATE_SHUTTING_DOWN = 3, /* it is being shut down, by either end */
};

/* Returns the state: enum dcsctp_socket_state. Error: NO_SOCKET. */
int32_t dcsctp_state(const dcsctp_socket *socket) DCSCTP_CALL;

/* Returns 1 if an allocation has failed, so that the socket can't be used any more; else 0.
 * Error: NO_SOCKET. */
int32_t dcsctp_has_failed(const dcsctp_socket *socket) DCSCTP_CALL;

/* Writes our verification tag, which the peer's packets carry (RFC 9260, sections 3.1 and 5.3.1),
 * but for an INIT, and an ABORT or a SHUTDOWN COMPLETE with the T bit. It is 0 if the socket is
 * closed, and in no other state. Each association draws a new one, also when the peer restarts. If
 * the peer connects, it is known once the COOKIE ECHO was handed in. Error: NO_SOCKET. */
int32_t dcsctp_verification_tag(const dcsctp_socket *socket, uint32_t *tag) DCSCTP_CALL;

/* Sets `max_message_size`, for messages sent from now on. Error: NO_SOCKET. */
int32_t dcsctp_set_max_message_size(dcsctp_socket *socket, size_t bytes) DCSCTP_CALL;

/* Writes the options of the socket. Set `size` first. `max_message_size` is as it was set last, a
 * switch is 0 or 1, and `reserved` is 0. Errors: WRONG_SIZE, NO_SOCKET. */
int32_t dcsctp_get_options(const dcsctp_socket *socket, dcsctp_options *options) DCSCTP_CALL;

/* Which program the peer runs, by its cookie. */
DCSCTP_ENUM(dcsctp_peer, uint32_t) {
    DCSCTP_PEER_UNKNOWN = 0,   /* its cookie doesn't show it, or it sent no INIT ACK */
    DCSCTP_PEER_DCSCTP_RS = 1, /* this library, or dcSCTP in Rust */
    DCSCTP_PEER_DCSCTP_CC = 2, /* dcSCTP in C++ */
    DCSCTP_PEER_USRSCTP = 3,   /* usrsctp */
    DCSCTP_PEER_OTHER = 4,     /* not in use */
};

/* Counts since the socket was created, and the present state of the association. */
typedef struct dcsctp_metrics {
    size_t size;                         /* sizeof(dcsctp_metrics) */
    uint64_t rtx_bytes_count;            /* bytes of chunks sent again, with headers and padding */
    uint64_t srtt;                       /* smoothed round trip time, in nanoseconds */
    size_t tx_packets_count;             /* packets sent */
    size_t tx_messages_count;            /* messages that dcsctp_send accepted */
    size_t rtx_packets_count;            /* packets with chunks that were sent again */
    size_t cwnd_bytes;                   /* congestion window */
    size_t unack_data_count;             /* chunks in flight, and those of queued messages */
    size_t rx_packets_count;             /* packets handed in, readable or not */
    size_t rx_messages_count;            /* messages that became ready */
    uint32_t peer_rwnd_bytes;            /* the peer's window, less data in flight */
    uint32_t peer_implementation;        /* enum dcsctp_peer */
    uint32_t uses_message_interleaving;  /* 0 or 1 */
    uint32_t uses_zero_checksum;         /* 0 or 1 */
    uint16_t negotiated_maximum_incoming_streams; /* the peer uses streams below this */
    uint16_t negotiated_maximum_outgoing_streams; /* use streams below this */
    uint32_t reserved;                   /* 0 */
} dcsctp_metrics;

/* Writes the metrics and returns 1. Set `size` first. If there is no peer yet, it returns 0, and
 * writes nothing. Errors: WRONG_SIZE, NO_SOCKET. */
int32_t dcsctp_get_metrics(const dcsctp_socket *socket, dcsctp_metrics *metrics) DCSCTP_CALL;

/* Counts since the socket was created. */
typedef struct dcsctp_counts {
    size_t size;              /* sizeof(dcsctp_counts) */
    size_t rx_packets_count;  /* packets handed in, readable or not */
    size_t tx_packets_count;  /* packets sent */
    size_t tx_messages_count; /* messages that were accepted to be sent */
} dcsctp_counts;

/* Writes the counts, also after an association has ended. Set `size` first.
 * Errors: WRONG_SIZE, NO_SOCKET. */
int32_t dcsctp_get_counts(const dcsctp_socket *socket, dcsctp_counts *counts) DCSCTP_CALL;

/* ---- Data channels -------------------------------------------------------------------------- */

/* Data channels (RFC 8831, RFC 8832) over a socket. dcsctp_channel_begin gives a new socket
 * channels, and the loop has one poll:
 *
 *     result = dcsctp_create(&s, &options, seed, now());
 *     if (result == DCSCTP_OK)
 *         result = dcsctp_channel_begin(&s, &limits);
 *     if (result == DCSCTP_OK)
 *         result = dcsctp_channel_set_role(&s, is_dtls_client);
 *     if (result == DCSCTP_OK)
 *         result = dcsctp_connect(&s);                     // at both ends, or at one
 *     while (result == DCSCTP_OK && now() < stop) {        // DCSCTP_NEVER at first
 *         while ((result = dcsctp_channel_poll(&s, &event)) == 1)
 *             switch (event.kind) {
 *             case DCSCTP_CHANNEL_EVENT_SEND_PACKET:
 *                 if (dcsctp_channel_view(&s, &bytes, &length) == DCSCTP_OK)
 *                     send(fd, bytes, length, 0);
 *                 break;
 *             case DCSCTP_CHANNEL_EVENT_MESSAGE:
 *                 if (dcsctp_channel_view(&s, &bytes, &length) == DCSCTP_OK)
 *                     use(event.channel, event.detail, bytes, length);
 *                 break;
 *             case DCSCTP_CHANNEL_EVENT_ENDED:
 *                 stop = now() + 4000000000;               // 4 s: see THE END
 *             }
 *         ..                                               // wait, time and packets, as above
 *     }
 *
 * Take all events before you wait, and before each packet: what the peer must be answered is
 * answered by dcsctp_channel_poll. A message that isn't taken stays in the receive window.
 *
 * The socket serves one association: when that ends, each channel gets its last event, and so does
 * the socket. Create another one for the next association.
 *
 * These calls work as before: dcsctp_connect, dcsctp_shutdown, dcsctp_close, dcsctp_handle_input,
 * dcsctp_advance_time, dcsctp_poll_timeout, dcsctp_set_max_message_size, dcsctp_state,
 * dcsctp_has_failed, dcsctp_verification_tag, dcsctp_get_options, dcsctp_get_metrics,
 * dcsctp_get_counts and dcsctp_destroy; those of a handover carry the channels. Any other one above
 * returns HAS_CHANNELS. Of a call below, NO_CHANNEL also means that dcsctp_channel_begin wasn't
 * called.
 *
 * A channel is a number that is never 0, and is never given twice on a socket, though its stream
 * is. So a number that was kept too long is harmless. */

/* What a peer may do. Zero means the default. */
typedef struct dcsctp_channel_limits {
    size_t size;             /* sizeof(dcsctp_channel_limits) */
    size_t max_message_size; /* bytes of a message; a longer one closes its channel: 262,144 */
    size_t max_text;         /* bytes of a label and a protocol; more are refused: 1,024 */
    size_t max_channels;     /* with so many streams in use each channel is refused: 1,024 */
} dcsctp_channel_limits;

/* The default limits: an initialiser in C, an expression in C++. */
#ifdef __cplusplus
#define DCSCTP_CHANNEL_LIMITS_INIT dcsctp_channel_limits{sizeof(dcsctp_channel_limits), 0, 0, 0}
#else
#define DCSCTP_CHANNEL_LIMITS_INIT { sizeof(dcsctp_channel_limits), 0, 0, 0 }
#endif

/* Gives a new socket channels: no packet, message or association was on it yet.
 *
 * INVALID_OPTIONS: the socket has `checksum_offload`. NOT_CLOSED: it isn't new. HAS_CHANNELS: it
 * has channels. Errors: WRONG_SIZE, NO_SOCKET, HAS_CHANNELS, FAILED, INVALID_OPTIONS, NOT_CLOSED.
 * */
int32_t dcsctp_channel_begin(dcsctp_socket *socket, const dcsctp_channel_limits *limits)
    DCSCTP_CHECKED_CALL;

/* Sets the role in DTLS: 0 is the server, any other number the client. The client gives even
 * streams, the server odd ones (RFC 8832, section 6). Channels that were opened before get their
 * streams now. Set it once, and before dcsctp_connect if you can: until then, what the peer opens
 * is refused. Errors: NO_SOCKET, NO_CHANNEL, FAILED, OUT_OF_MEMORY. */
int32_t dcsctp_channel_set_role(dcsctp_socket *socket, int32_t is_dtls_client) DCSCTP_CHECKED_CALL;

/* How long a message of a channel is sent again (RFC 8832, section 5.1). */
DCSCTP_ENUM(dcsctp_channel_reliability, uint16_t) {
    DCSCTP_CHANNEL_RELIABLE = 0,        /* until it is acknowledged */
    DCSCTP_CHANNEL_RETRANSMISSIONS = 1, /* up to `limit` times */
    DCSCTP_CHANNEL_LIFETIME = 2,        /* for `limit` milliseconds */
};

/* What a channel is opened with. Begin with DCSCTP_CHANNEL_OPTIONS_INIT. */
typedef struct dcsctp_channel_options {
    size_t size;            /* sizeof(dcsctp_channel_options) */
    const char *label;      /* what it is called: UTF-8, without a zero at the end */
    size_t label_length;    /* its bytes: at most 65,535 */
    const char *protocol;   /* a subprotocol by its registered name, as the label */
    size_t protocol_length; /* its bytes: at most 65,535 */
    uint32_t limit;         /* of `reliability` */
    uint16_t priority;      /* 128, 256, 512 or 1,024 (RFC 8831, section 6.4); the greatest first */
    uint16_t reliability;   /* enum dcsctp_channel_reliability */
    uint16_t is_unordered;  /* switch: the peer may read messages out of order */
    uint16_t is_negotiated; /* switch: both ends open it on `stream`, and no OPEN is sent */
    uint16_t stream;        /* of a negotiated channel */
    uint16_t reserved;      /* 0; other numbers are an error */
} dcsctp_channel_options;

/* An ordered, reliable channel of normal priority, without a label: an initialiser in C, an
 * expression in C++. */
#ifdef __cplusplus
#define DCSCTP_CHANNEL_OPTIONS_INIT \
    dcsctp_channel_options{sizeof(dcsctp_channel_options), "", 0, "", 0, 0, 256, 0, 0, 0, 0, 0}
#else
#define DCSCTP_CHANNEL_OPTIONS_INIT \
    { sizeof(dcsctp_channel_options), "", 0, "", 0, 0, 256, 0, 0, 0, 0, 0 }
#endif

/* Opens a channel, and writes its number. Before the association or the role is known it waits, and
 * so while the send buffer is full. Messages can be sent once its state is DCSCTP_CHANNEL_OPEN.
 * DCSCTP_CHANNEL_EVENT_OPENED says that the peer knows it. If no stream is free,
 * DCSCTP_CHANNEL_EVENT_CLOSED comes with DCSCTP_CHANNEL_NO_STREAM. A negotiated channel is opened
 * as soon as it has its stream: open it at both ends before the first message can come.
 *
 * INVALID_OPTIONS: `reliability` is above 2, or `reserved` isn't 0. MESSAGE_TOO_LARGE: a text has
 * more than 65,535 bytes, or the texts and 12 bytes are more than `max_message_size`.
 * STREAM_IN_USE: the stream of a negotiated channel has a channel. ENDED: the association is over.
 * OUT_OF_MEMORY: if the texts can't be copied, nothing has changed, and the call may be tried
 * again.
 *
 * Errors: NO_SOCKET, NO_CHANNEL, WRONG_SIZE, INVALID_OPTIONS, MESSAGE_TOO_LARGE, ENDED,
 * STREAM_IN_USE, FAILED, OUT_OF_MEMORY. */
int32_t dcsctp_channel_open(dcsctp_socket *socket, const dcsctp_channel_options *options,
                            uint64_t *channel) DCSCTP_CHECKED_CALL;

/* What a message is. The library doesn't test whether text is UTF-8. */
DCSCTP_ENUM(dcsctp_channel_message_kind, uint32_t) {
    DCSCTP_CHANNEL_TEXT = 1,   /* UTF-8 */
    DCSCTP_CHANNEL_BINARY = 2, /* any bytes */
};

/* Sends a message on an open channel, which may have no bytes. Its bytes are copied.
 *
 * INVALID_SEND_OPTIONS: `kind` is neither TEXT nor BINARY. NO_CHANNEL: the channel isn't open.
 * MESSAGE_TOO_LARGE, SHUTTING_DOWN and RESOURCE_EXHAUSTION are those of dcsctp_send: after the last
 * one, try again after DCSCTP_CHANNEL_EVENT_BUFFERED_AMOUNT_LOW.
 *
 * Errors: NO_SOCKET, INVALID_SEND_OPTIONS, NO_CHANNEL, MESSAGE_TOO_LARGE, SHUTTING_DOWN,
 * RESOURCE_EXHAUSTION, FAILED, OUT_OF_MEMORY. */
int32_t dcsctp_channel_send(dcsctp_socket *socket, uint64_t channel, uint32_t kind,
                            const uint8_t *bytes, size_t length) DCSCTP_CHECKED_CALL;

/* Closes a channel. What was sent on it goes out first, and what comes on it from now on is
 * dropped. DCSCTP_CHANNEL_EVENT_CLOSED follows when both ends have reset the stream (RFC 8831,
 * section 6.7). If there is no such channel, or it is closing, it does nothing. Errors: NO_SOCKET,
 * NO_CHANNEL (without channels only), FAILED, OUT_OF_MEMORY. */
int32_t dcsctp_channel_close(dcsctp_socket *socket, uint64_t channel) DCSCTP_CHECKED_CALL;

/* What an event reports, and which fields it uses beside `kind`. */
DCSCTP_ENUM(dcsctp_channel_event_kind, uint32_t) {
    DCSCTP_CHANNEL_EVENT_NONE = 0,        /* there is no event */
    DCSCTP_CHANNEL_EVENT_SEND_PACKET = 1, /* bytes: a packet for the peer, at most `mtu` */
    DCSCTP_CHANNEL_EVENT_CONNECTED = 2,   /* the association was made, by either end */
    DCSCTP_CHANNEL_EVENT_OPENED = 3,      /* channel: the peer knows what this end has opened */
    DCSCTP_CHANNEL_EVENT_INCOMING = 4,    /* channel: opened by the peer; options */
    DCSCTP_CHANNEL_EVENT_MESSAGE = 5,     /* channel; detail: TEXT or BINARY; bytes, or none */
    DCSCTP_CHANNEL_EVENT_BUFFERED_AMOUNT_LOW = 6, /* channel: it fell to its low threshold */
    DCSCTP_CHANNEL_EVENT_CLOSED = 7,      /* channel: its last event; detail: why */
    DCSCTP_CHANNEL_EVENT_ENDED = 8,       /* the association is over, and all its channels */
};

/* Why a channel is closed. */
DCSCTP_ENUM(dcsctp_channel_end, uint32_t) {
    DCSCTP_CHANNEL_CLOSED_BY_RESETS = 0, /* one end has closed it, or both */
    DCSCTP_CHANNEL_REFUSED = 1,          /* the same before the peer knew it */
    DCSCTP_CHANNEL_CANT_BE_RESET = 2,    /* the peer refuses resets: the stream stays in use */
    DCSCTP_CHANNEL_LOST = 3,             /* the association has ended */
    DCSCTP_CHANNEL_NO_STREAM = 4,        /* no stream was free */
};

/* An event. Fields that its kind doesn't use are 0. Later versions may add kinds: ignore them. */
typedef struct dcsctp_channel_event {
    uint64_t channel; /* the number of a channel */
    size_t length;    /* how many bytes there are to copy */
    uint32_t kind;    /* enum dcsctp_channel_event_kind */
    uint32_t detail;  /* enum dcsctp_channel_message_kind or dcsctp_channel_end */
} dcsctp_channel_event;

/* Takes the oldest event, writes it and returns 1. If there is none, it returns 0, and the event is
 * DCSCTP_CHANNEL_EVENT_NONE, as after an error. Packets come first, and messages before the end
 * that follows them. Its bytes and options can be used until the next call of dcsctp_channel_poll.
 * After OUT_OF_MEMORY, here or elsewhere, events that are ready can be taken, and then comes
 * FAILED. Errors: NO_SOCKET, NO_CHANNEL, FAILED, OUT_OF_MEMORY. */
int32_t dcsctp_channel_poll(dcsctp_socket *socket, dcsctp_channel_event *event) DCSCTP_CHECKED_CALL;

/* Copies the bytes of the last taken event, a packet or a message, and writes how many there are.
 * Errors: NO_SOCKET, NO_CHANNEL, BUFFER_TOO_SMALL, NOTHING_TO_COPY. */
int32_t dcsctp_channel_bytes(const dcsctp_socket *socket, uint8_t *buffer, size_t capacity,
                             size_t *length) DCSCTP_CHECKED_CALL;

/* Writes where those bytes are, and how many there are. Nothing is copied. They stay there until a
 * call that takes this socket without `const`. After NOTHING_TO_COPY `bytes` isn't written.
 * Errors: NO_SOCKET, NO_CHANNEL, NOTHING_TO_COPY. */
int32_t dcsctp_channel_view(const dcsctp_socket *socket, const uint8_t **bytes, size_t *length)
    DCSCTP_CHECKED_CALL;

/* Writes what the peer has opened a channel with, if the last taken event is INCOMING. Set `size`
 * first. Its texts stay where they are until a call that takes this socket without `const`.
 * `is_negotiated`, `stream` and `reserved` are 0.
 * Errors: WRONG_SIZE, NO_SOCKET, NO_CHANNEL, NOTHING_TO_COPY. */
int32_t dcsctp_channel_get_options(const dcsctp_socket *socket, dcsctp_channel_options *options)
    DCSCTP_CHECKED_CALL;

/* The state of a channel. */
DCSCTP_ENUM(dcsctp_channel_state_number, int32_t) {
    DCSCTP_CHANNEL_CONNECTING = 0, /* it waits for the association, the role, or room to send */
    DCSCTP_CHANNEL_OPEN = 1,       /* messages can be sent */
    DCSCTP_CHANNEL_CLOSING = 2,    /* one end has closed it */
    DCSCTP_CHANNEL_CLOSED = 3,     /* there is no such channel, or none any more */
};

/* Returns the state of a channel: enum dcsctp_channel_state_number. Errors: NO_SOCKET, NO_CHANNEL
 * (without channels only). */
int32_t dcsctp_channel_state(const dcsctp_socket *socket, uint64_t channel) DCSCTP_CALL;

/* Writes the stream of a channel. NO_CHANNEL: it has none, also while it is connecting.
 * Errors: NO_SOCKET, NO_CHANNEL. */
int32_t dcsctp_channel_stream(const dcsctp_socket *socket, uint64_t channel, uint16_t *stream)
    DCSCTP_CALL;

/* Writes how many bytes are queued on a channel. NO_CHANNEL: it has no stream.
 * Errors: NO_SOCKET, NO_CHANNEL. */
int32_t dcsctp_channel_buffered_amount(const dcsctp_socket *socket, uint64_t channel, size_t *bytes)
    DCSCTP_CALL;

/* Sets the low threshold of a channel, which is 0 at first:
 * DCSCTP_CHANNEL_EVENT_BUFFERED_AMOUNT_LOW comes when its queued bytes fall from above the
 * threshold to it or below. NO_CHANNEL: it has no stream. Errors: NO_SOCKET, NO_CHANNEL, FAILED,
 * OUT_OF_MEMORY. */
int32_t dcsctp_channel_set_buffered_amount_low_threshold(dcsctp_socket *socket, uint64_t channel,
                                                         size_t bytes) DCSCTP_CHECKED_CALL;

/* What was counted of a channel. */
typedef struct dcsctp_channel_metrics {
    size_t size;                /* sizeof(dcsctp_channel_metrics) */
    uint64_t messages_sent;     /* that dcsctp_channel_send accepted */
    uint64_t bytes_sent;        /* their bytes */
    uint64_t messages_received; /* that were taken from the receive window */
    uint64_t bytes_received;    /* their bytes */
} dcsctp_channel_metrics;

/* Writes the metrics of a channel. Set `size` first. NO_CHANNEL: it has no stream.
 * Errors: WRONG_SIZE, NO_SOCKET, NO_CHANNEL. */
int32_t dcsctp_channel_get_metrics(const dcsctp_socket *socket, uint64_t channel,
                                   dcsctp_channel_metrics *metrics) DCSCTP_CALL;

/* Writes how many streams are in use, those of closing and refused channels, too.
 * Errors: NO_SOCKET, NO_CHANNEL. */
int32_t dcsctp_channel_count(const dcsctp_socket *socket, size_t *count) DCSCTP_CALL;

/* ---- Handover to another process ------------------------------------------------------------ */

/* Why a socket can't be handed over: bits of dcsctp_get_handover_readiness. */
#define DCSCTP_HANDOVER_WRONG_CONNECTION_STATE 1u           /* it is being set up or shut down */
#define DCSCTP_HANDOVER_SEND_QUEUE_NOT_EMPTY 2u             /* messages are queued */
#define DCSCTP_HANDOVER_PENDING_STREAM_RESET_REQUEST 4u     /* our request isn't answered */
#define DCSCTP_HANDOVER_DATA_TRACKER_TSN_BLOCKS_PENDING 8u  /* received data has a gap */
#define DCSCTP_HANDOVER_PENDING_STREAM_RESET 16u            /* our stream is to be reset */
#define DCSCTP_HANDOVER_STREAM_RESET_DEFERRED 64u           /* a reset by the peer is deferred */
#define DCSCTP_HANDOVER_STREAM_HAS_UNASSEMBLED_CHUNKS 128u  /* messages are incomplete */
#define DCSCTP_HANDOVER_RETRANSMISSION_QUEUE_OUTSTANDING_DATA 512u /* data isn't acknowledged */
#define DCSCTP_HANDOVER_RETRANSMISSION_QUEUE_FAST_RECOVERY 1024u /* it is under way */
#define DCSCTP_HANDOVER_RETRANSMISSION_QUEUE_NOT_EMPTY 2048u /* data must be sent again */
#define DCSCTP_HANDOVER_CHANNELS_UNSETTLED 4096u /* a channel waits, is closing or refused */
#define DCSCTP_HANDOVER_EVENTS_NOT_TAKEN 8192u   /* dcsctp_channel_poll must be called */

/* Writes why the socket can't be handed over now: the sum of DCSCTP_HANDOVER_.., or 0 if it can. A
 * closed socket can. With `enable_handover_with_outstanding_data`, queued messages and data in
 * flight are no reason. The snapshot lacks messages that are ready: take them first. While a peer
 * sends long messages and packets are lost, it is 0 only now and then: ask after each packet.
 *
 * A socket with channels needs an association, and all its events taken. No channel may wait for
 * its stream or for a reset, nor owe an ACK. Error: NO_SOCKET. */
int32_t dcsctp_get_handover_readiness(const dcsctp_socket *socket, uint32_t *reasons) DCSCTP_CALL;

/* Takes a snapshot of the socket, from which dcsctp_restore_from_state continues in another
 * process, and ends the association here. The peer isn't informed, and the last event is
 * DCSCTP_EVENT_CLOSED; on a closed socket there is none. With channels it is
 * DCSCTP_CHANNEL_EVENT_ENDED, and no channel gets CLOSED. Copy the snapshot with
 * dcsctp_handover_bytes, then destroy this socket. A second call would replace the snapshot.
 *
 * Errors: NO_SOCKET, NOT_READY, FAILED, OUT_OF_MEMORY. */
int32_t dcsctp_get_handover_state_and_close(dcsctp_socket *socket) DCSCTP_CHECKED_CALL;

/* Copies the last snapshot, and writes its length. Its bytes are for a socket of the same version
 * of this library. They end with some of the options, and with a check value, CRC32c. Keep them as
 * secret as the messages.
 *
 * Errors: NO_SOCKET, BUFFER_TOO_SMALL, NOTHING_TO_COPY, OUT_OF_MEMORY. After OUT_OF_MEMORY nothing
 * has changed, and the call may be tried again. */
int32_t dcsctp_handover_bytes(const dcsctp_socket *socket, uint8_t *buffer, size_t capacity,
                              size_t *length) DCSCTP_CHECKED_CALL;

/* Continues from a snapshot that another socket with these options gave: DCSCTP_EVENT_CONNECTED
 * follows. Messages queued on this socket are dropped. The snapshot of a closed socket changes
 * nothing. Use a snapshot once: two sockets that continue from it confuse the peer. This socket's
 * clock must read more than 60 s: older times become moment 0. If its clock isn't the one of the
 * snapshot, cookies from before may be judged too young or too old. Restore only what you trust: a
 * forged snapshot can make an association, and can take long to check.
 *
 * A snapshot with channels needs a socket to which dcsctp_channel_begin gave channels. If one was
 * opened on it, or an association began, it is NOT_CLOSED. Channels continue under their numbers,
 * with the role and what was counted; low thresholds are 0. DCSCTP_CHANNEL_EVENT_CONNECTED follows.
 * INVALID_SNAPSHOT: this socket has channels and that one none, or the other way round.
 *
 * OTHER_OPTIONS: this socket has other ports, announces another number of streams, or differs in
 * `enable_partial_reliability`, `enable_message_interleaving` or `zero_checksum_method`. Other
 * options may differ; those of this socket are used. INVALID_SNAPSHOT: a byte was changed, removed
 * or added. The check value finds accidents, not forgeries.
 *
 * Errors: NO_SOCKET, NOT_CLOSED, INVALID_SNAPSHOT, OTHER_OPTIONS, FAILED, OUT_OF_MEMORY.
 * OUT_OF_MEMORY: if the bytes can't be read for lack of memory, nothing has changed, and the call
 * may be tried again. */
int32_t dcsctp_restore_from_state(dcsctp_socket *socket, const uint8_t *bytes, size_t length)
    DCSCTP_CHECKED_CALL;

#ifdef __cplusplus
}
#endif

#endif
