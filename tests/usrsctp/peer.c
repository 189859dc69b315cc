/* Two processes connect by usrsctp, with threads: this program, and another one that was built from
 * the same file, perhaps with another library. That one sends each message back.
 *
 *     peer PROGRAM [LOSS]      every LOSS-th packet of each process is lost
 */
#include "sockets.h"

#include <errno.h>
#include <poll.h>
#include <pthread.h>
#include <stdlib.h>
#include <sys/wait.h>
#include <time.h>
#include <unistd.h>

enum { STREAMS = 32, BUFFER = 1 << 20, BURST = 100, WAIT = 15 };

static int fd, is_over;
static unsigned loss, packets;
static pthread_mutex_t lock = PTHREAD_MUTEX_INITIALIZER;
static pthread_cond_t changed = PTHREAD_COND_INITIALIZER;

/* What was reported; `lock` guards it. */
static struct {
    unsigned state, ups, ends, shutdowns, resets_in, resets_out, wrong;
    unsigned count[STREAMS]; /* messages of each stream */
    unsigned next[STREAMS];  /* the number that the next message of a burst must have */
} seen;
static uint8_t payload[LONGEST];
static int is_echo;

/* ---- The link ------------------------------------------------------------------------------- */

static int output(void *address, void *bytes, size_t length, uint8_t tos, uint8_t set_df) {
    unsigned number;
    (void)address, (void)tos, (void)set_df;
    pthread_mutex_lock(&lock);
    number = ++packets;
    pthread_mutex_unlock(&lock);
    if (loss && number % loss == 0)
        return 0;
    send(fd, bytes, length, MSG_NOSIGNAL | MSG_DONTWAIT); /* (it is lost if there is no room) */
    return 0;
}

static void *carry(void *unused) {
    static uint8_t packet[65536];
    struct pollfd it = {.fd = fd, .events = POLLIN};
    int done = 0;
    while (!done) {
        if (poll(&it, 1, 20) > 0) {
            ssize_t length = recv(fd, packet, sizeof packet, MSG_DONTWAIT);
            if (length > 0)
                usrsctp_conninput(&fd, packet, (size_t)length, 0);
            else if (length == 0)
                return unused;
        }
        pthread_mutex_lock(&lock);
        done = is_over;
        pthread_mutex_unlock(&lock);
    }
    return unused;
}

/* ---- Messages ------------------------------------------------------------------------------- */

static ssize_t send_message(struct socket *socket, uint16_t stream_id, uint32_t ppid,
                            const void *bytes, size_t length, uint16_t flags) {
    struct sctp_sndinfo info;
    ssize_t result;
    memset(&info, 0, sizeof info);
    info.snd_sid = stream_id;
    info.snd_ppid = htonl(ppid);
    info.snd_flags = flags;
    do {
        result = usrsctp_sendv(socket, bytes, length, NULL, 0, &info, sizeof info,
                               SCTP_SENDV_SNDINFO, 0);
        if (result < 0 && (errno == EWOULDBLOCK || errno == EAGAIN))
            usleep(1000);
        else
            break;
    } while (1);
    return result;
}

static void note_reset(struct socket *socket, const struct sctp_stream_reset_event *event) {
    unsigned count = (unsigned)(event->strreset_length - sizeof *event) / 2;
    if (event->strreset_flags == SCTP_STREAM_RESET_OUTGOING_SSN)
        seen.resets_out += count;
    if (event->strreset_flags & SCTP_STREAM_RESET_INCOMING_SSN) {
        seen.resets_in += count;
        for (unsigned i = 0; is_echo && i < count; i++) {
            uint16_t stream_id = event->strreset_stream_list[i];
            pthread_mutex_unlock(&lock);
            if (reset_stream(socket, stream_id) != 0)
                perror("peer: reset");
            pthread_mutex_lock(&lock);
        }
    }
}

static void note(struct socket *socket, const union sctp_notification *it) {
    switch (it->sn_header.sn_type) {
    case SCTP_ASSOC_CHANGE:
        seen.state = it->sn_assoc_change.sac_state;
        seen.ups += seen.state == SCTP_COMM_UP;
        break;
    case SCTP_STREAM_RESET_EVENT:
        note_reset(socket, &it->sn_strreset_event);
        break;
    case SCTP_SHUTDOWN_EVENT:
        seen.shutdowns++;
        break;
    default:
        break;
    }
}

/* A message begins with its number if it is one of a burst (ppid 54), else it is of `payload`. */
static void note_message(const uint8_t *bytes, size_t length, unsigned stream_id, uint32_t ppid) {
    unsigned number;
    if (ppid == 54 && length >= sizeof number) {
        memcpy(&number, bytes, sizeof number);
        if (number != seen.next[stream_id]++)
            seen.wrong++;
    } else if (length > LONGEST || memcmp(bytes, payload, length) != 0) {
        seen.wrong++;
    }
    seen.count[stream_id]++;
}

static int receive(struct socket *socket, union sctp_sockstore from, void *data, size_t length,
                   struct sctp_rcvinfo info, int flags, void *user) {
    static uint8_t whole[LONGEST]; /* usrsctp may give a message in parts */
    static size_t held;
    (void)from, (void)user;
    pthread_mutex_lock(&lock);
    if (!data) {
        seen.ends++;
    } else if (flags & MSG_NOTIFICATION) {
        note(socket, data);
    } else if (held + length <= sizeof whole && info.rcv_sid < STREAMS) {
        memcpy(whole + held, data, length);
        held += length;
        if (flags & MSG_EOR) {
            const size_t all = held;
            held = 0;
            note_message(whole, all, info.rcv_sid, ntohl(info.rcv_ppid));
            pthread_mutex_unlock(&lock);
            if (is_echo && send_message(socket, info.rcv_sid, ntohl(info.rcv_ppid), whole, all,
                                        info.rcv_flags & SCTP_UNORDERED) != (ssize_t)all)
                perror("peer: echo");
            pthread_mutex_lock(&lock);
        }
    } else {
        seen.wrong++;
    }
    pthread_cond_broadcast(&changed);
    pthread_mutex_unlock(&lock);
    free(data);
    return 1;
}

/* Waits until a number is reached, for up to 15 s. */
static unsigned wait_for(const unsigned *number, unsigned expected) {
    struct timespec until;
    unsigned result;
    clock_gettime(CLOCK_REALTIME, &until);
    until.tv_sec += WAIT;
    pthread_mutex_lock(&lock);
    while (*number < expected && pthread_cond_timedwait(&changed, &lock, &until) == 0)
        ;
    result = *number;
    pthread_mutex_unlock(&lock);
    return result;
}

/* ---- Both ends ------------------------------------------------------------------------------ */

static void subscribe_to_events(struct socket *socket) {
    static const uint16_t types[] = {SCTP_ASSOC_CHANGE, SCTP_STREAM_RESET_EVENT,
                                     SCTP_SHUTDOWN_EVENT};
    for (size_t i = 0; i < sizeof types / sizeof *types; i++)
        CHECK("SCTP_EVENT", subscribe(socket, types[i]), 0);
}

static struct socket *open_socket(void) {
    struct sockaddr_conn name = at(&fd, PORT);
    struct socket *socket;
    usrsctp_init(0, output, NULL);
    usrsctp_sysctl_set_sctp_rto_min_default(100);
    usrsctp_sysctl_set_sctp_rto_initial_default(300);
    usrsctp_register_address(&fd);
    socket = usrsctp_socket(AF_CONN, SOCK_STREAM, IPPROTO_SCTP, receive, NULL, 0, NULL);
    CHECK("a socket", socket != NULL, 1);
    set_options(socket, STREAMS, BUFFER);
    subscribe_to_events(socket);
    CHECK("bind", usrsctp_bind(socket, (struct sockaddr *)&name, sizeof name), 0);
    return socket;
}

/* Starts a thread, or ends the program. */
static void start(pthread_t *thread, void *(*run_it)(void *), void *argument) {
    if (pthread_create(thread, NULL, run_it, argument) != 0) {
        fputs("peer: a thread can't be started\n", stderr);
        exit(2);
    }
}

/* Begins to connect. Packets are read only after that: usrsctp aborts what it doesn't expect yet.
 */
static int connect_socket(struct socket *socket, pthread_t *carrier) {
    struct sockaddr_conn name = at(&fd, PORT);
    int result;
    CHECK("usrsctp_set_non_blocking", usrsctp_set_non_blocking(socket, 1), 0);
    result = usrsctp_connect(socket, (struct sockaddr *)&name, sizeof name);
    CHECK("it is under way", result == -1 && errno == EINPROGRESS, 1);
    start(carrier, carry, NULL);
    return wait_for(&seen.ups, 1) == 1 ? 0 : -1;
}

/* Closes the socket, carries packets for half a second more, and ends usrsctp. */
static void finish(struct socket *socket, pthread_t carrier) {
    int left = -1;
    usrsctp_close(socket);
    usleep(500000);
    pthread_mutex_lock(&lock);
    is_over = 1;
    pthread_mutex_unlock(&lock);
    pthread_join(carrier, NULL);
    usrsctp_deregister_address(&fd);
    for (int i = 0; i < 200 && left != 0; i++) {
        left = usrsctp_finish();
        if (left)
            usleep(100000);
    }
    CHECK("usrsctp_finish", left, 0);
}

/* The end that sends all back. */
static int echo(void) {
    pthread_t carrier;
    struct socket *socket;
    is_echo = 1;
    socket = open_socket();
    CHECK("connect", connect_socket(socket, &carrier), 0);
    for (int i = 0; i < 10 && wait_for(&seen.ends, 1) == 0; i++)
        ;
    CHECK("all was right", seen.wrong, 0);
    CHECK("the peer shut down", seen.shutdowns, 1);
    CHECK("the end", seen.state, SCTP_SHUTDOWN_COMP);
    finish(socket, carrier);
    return failed != 0;
}

/* ---- Tests ---------------------------------------------------------------------------------- */

static void test_lengths(struct socket *socket) {
    static const size_t lengths[] = {1, 1000, 1172, 5000, 65536, LONGEST - 1, LONGEST};
    unsigned count = 0;
    for (unsigned flags = 0; flags < 2; flags++)
        for (size_t i = 0; i < sizeof lengths / sizeof *lengths; i++) {
            CHECK("send",
                  send_message(socket, 1, 53, payload, lengths[i], flags ? SCTP_UNORDERED : 0),
                  lengths[i]);
            count++;
            CHECK("it came back", wait_for(&seen.count[1], count), count);
        }
}

static void *send_burst(void *socket) {
    static uint8_t filled[1000];
    static unsigned last_stream = 2;
    uint8_t message[1000];
    unsigned stream_id;
    pthread_mutex_lock(&lock);
    stream_id = ++last_stream;
    pthread_mutex_unlock(&lock);
    memcpy(message, filled, sizeof message);
    for (unsigned i = 0; i < BURST; i++) {
        memcpy(message, &i, sizeof i);
        if (send_message(socket, (uint16_t)stream_id, 54, message, sizeof message, 0) < 0)
            perror("peer: burst");
    }
    return NULL;
}

/* Three threads send at the same time, each on its own stream. */
static void test_threads(struct socket *socket) {
    pthread_t threads[3];
    for (int i = 0; i < 3; i++)
        start(&threads[i], send_burst, socket);
    for (int i = 0; i < 3; i++)
        pthread_join(threads[i], NULL);
    for (int i = 0; i < 3; i++)
        CHECK("a burst came back", wait_for(&seen.count[3 + i], BURST), BURST);
}

/* Each round has its own stream: a peer can't send on one before its reset was answered. */
static void test_resets(struct socket *socket) {
    for (unsigned round = 1; round <= 5; round++) {
        const uint16_t stream_id = (uint16_t)(8 + round);
        CHECK("send", send_message(socket, stream_id, 53, payload, 3000, 0), 3000);
        CHECK("reset", reset_stream(socket, stream_id), 0);
        CHECK("our stream", wait_for(&seen.resets_out, round), round);
        CHECK("the peer's stream", wait_for(&seen.resets_in, round), round);
        CHECK("the message", wait_for(&seen.count[stream_id], 1), 1);
    }
}

static void run(void) {
    pthread_t carrier;
    struct socket *socket = open_socket();
    CHECK("connect", connect_socket(socket, &carrier), 0);
    test_lengths(socket);
    test_threads(socket);
    test_resets(socket);
    CHECK("shutdown", usrsctp_shutdown(socket, SHUT_WR), 0);
    CHECK("the end", wait_for(&seen.ends, 1), 1);
    CHECK("by a shutdown", seen.state, SCTP_SHUTDOWN_COMP);
    CHECK("all was right", seen.wrong, 0);
    finish(socket, carrier);
}

int main(int count, char **arguments) {
    int fds[2], status = -1;
    pid_t child;
    char number[16];
    fill(payload, sizeof payload);
    if (count == 4 && strcmp(arguments[1], "--echo") == 0) {
        fd = atoi(arguments[2]);
        loss = (unsigned)atoi(arguments[3]);
        return echo();
    }
    if (count < 2 || count > 3 || socketpair(AF_UNIX, SOCK_SEQPACKET, 0, fds) != 0)
        return 2;
    loss = count == 3 ? (unsigned)atoi(arguments[2]) : 0;
    child = fork();
    if (child < 0) {
        perror("peer: fork");
        return 2;
    }
    if (child == 0) {
        close(fds[0]);
        snprintf(number, sizeof number, "%d", fds[1]);
        execl(arguments[1], arguments[1], "--echo", number, count == 3 ? arguments[2] : "0",
              (char *)NULL);
        _exit(127);
    }
    close(fds[1]);
    fd = fds[0];
    run();
    waitpid(child, &status, 0);
    CHECK("the other process", status, 0);
    printf("peer: %u passed, %u failed\n", passed, failed);
    return failed != 0;
}
