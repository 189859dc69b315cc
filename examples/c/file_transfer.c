/*
 * Sends a file between two processes, by a data channel over UDP on loopback.
 *
 *     file_transfer [--loss N] [--pcap PCAP] [FILE]
 *
 * Without FILE it is 10 MB. Of a thousand packets N are lost, in both directions. The parent sends,
 * closes the channel, and shuts the association down once that is closed: then all has arrived. The
 * child receives. In the end the parent compares what the child has received. PCAP gets all packets
 * that the parent sends, also those that are lost then, and all that it receives. Wireshark opens
 * it.
 */
#define _GNU_SOURCE
#include "trace.h"

#include <dcsctp.h>

#include <arpa/inet.h>
#include <errno.h>
#include <fcntl.h>
#include <poll.h>
#include <stdio.h>
#include <stdlib.h>
#include <string.h>
#include <sys/socket.h>
#include <sys/wait.h>
#include <time.h>
#include <unistd.h>

enum { CHUNK = 65536, WAITING = 8 * CHUNK };

/* One end: a socket, the UDP socket below it, and what has happened. */
struct end {
    dcsctp_socket socket;
    int fd;
    long loss;              /* so many of a thousand packets are lost */
    FILE *out;              /* where messages go */
    FILE *pcap;             /* where packets go, or NULL */
    uint64_t packets, lost; /* packets that were sent, and those that were lost on purpose */
    int opened, closed, ended;
    uint32_t why; /* it was closed: enum dcsctp_channel_end */
};

static void fail(const char *what) {
    fprintf(stderr, "file_transfer: %s: %s\n", what, strerror(errno));
    exit(1);
}

/* Ends the program if a call failed. */
static int32_t check(const char *what, int32_t result) {
    if (result < 0) {
        fprintf(stderr, "file_transfer: %s: %s\n", what, dcsctp_error_text(result));
        exit(1);
    }
    return result;
}

static uint64_t now(void) {
    struct timespec time;
    if (clock_gettime(CLOCK_MONOTONIC, &time) != 0)
        fail("clock_gettime");
    return (uint64_t)time.tv_sec * 1000000000u + (uint64_t)time.tv_nsec;
}

/* ---- One end -------------------------------------------------------------------------------- */

static void create(struct end *end, int fd, long loss, FILE *out) {
    const dcsctp_channel_limits limits = DCSCTP_CHANNEL_LIMITS_INIT;
    dcsctp_options options;
    uint8_t seed[32];
    memset(end, 0, sizeof *end);
    end->fd = fd;
    end->loss = loss;
    end->out = out;
    if (dcsctp_random_seed(seed) != DCSCTP_OK)
        fail("dcsctp_random_seed");
    srandom((unsigned)seed[0] << 8 | seed[1]);
    dcsctp_options_init(&options);
    check("create", dcsctp_create(&end->socket, &options, seed, now()));
    check("begin", dcsctp_channel_begin(&end->socket, &limits));
    check("role", dcsctp_channel_set_role(&end->socket, out == NULL));
}

/* Writes a packet to the file for Wireshark, if there is one, with the time of day. */
static void record(const struct end *end, const uint8_t *packet, size_t length) {
    struct timespec time;
    if (!end->pcap)
        return;
    if (clock_gettime(CLOCK_REALTIME, &time) != 0 ||
        dcsctp_pcap_packet(end->pcap, (uint64_t)time.tv_sec * 1000000000u + (uint64_t)time.tv_nsec,
                           packet, length) != 0)
        fail("pcap");
}

/* Sends a packet, or loses it. What the system doesn't send is lost, too. */
static void send_packet(struct end *end, const uint8_t *packet, size_t length) {
    end->packets++;
    record(end, packet, length);
    if (random() % 1000 < end->loss)
        end->lost++;
    else if (send(end->fd, packet, length, 0) < 0 && errno != ECONNREFUSED && errno != ENOBUFS)
        fail("send");
}

/* Takes all events. It follows each call that may add some. */
static void drain(struct end *end) {
    dcsctp_channel_event event;
    const uint8_t *bytes;
    size_t length;
    while (check("poll", dcsctp_channel_poll(&end->socket, &event)) == 1)
        switch (event.kind) {
        case DCSCTP_CHANNEL_EVENT_SEND_PACKET:
            check("view", dcsctp_channel_view(&end->socket, &bytes, &length));
            send_packet(end, bytes, length);
            break;
        case DCSCTP_CHANNEL_EVENT_OPENED:
            end->opened = 1;
            break;
        case DCSCTP_CHANNEL_EVENT_MESSAGE:
            check("view", dcsctp_channel_view(&end->socket, &bytes, &length));
            if (fwrite(bytes, 1, length, end->out) != length)
                fail("write");
            break;
        case DCSCTP_CHANNEL_EVENT_CLOSED:
            end->closed = 1;
            end->why = event.detail;
            break;
        case DCSCTP_CHANNEL_EVENT_ENDED:
            end->ended = 1;
        }
}

/* How many milliseconds poll may wait: until the deadline, and no longer than `longest`. */
static int milliseconds(struct end *end, int longest) {
    uint64_t deadline, moment = now();
    check("poll_timeout", dcsctp_poll_timeout(&end->socket, &deadline));
    if (deadline <= moment)
        return 0;
    if ((deadline - moment) / 1000000 >= (uint64_t)longest)
        return longest;
    return (int)((deadline - moment + 999999) / 1000000);
}

/* Waits for a packet or the deadline, and hands in what there is. */
static void turn(struct end *end, int longest) {
    struct pollfd ready = {end->fd, POLLIN, 0};
    uint8_t packet[1500];
    ssize_t length;
    if (poll(&ready, 1, milliseconds(end, longest)) < 0 && errno != EINTR)
        fail("poll");
    check("advance_time", dcsctp_advance_time(&end->socket, now()));
    drain(end);
    while ((length = recv(end->fd, packet, sizeof packet, MSG_DONTWAIT)) >= 0) {
        record(end, packet, (size_t)length);
        check("handle_input", dcsctp_handle_input(&end->socket, packet, (size_t)length));
        drain(end);
    }
}

/* ---- Receiving ------------------------------------------------------------------------------ */

/* Receives until the association has ended, or the parent is gone. The channel may end with it: the
 * parent shuts down when its own reset and the child's are done, and the last answer may be lost. */
static int receive_file(int fd, long loss, FILE *out, pid_t parent) {
    static struct end end;
    create(&end, fd, loss, out);
    while (!end.ended && getppid() == parent)
        turn(&end, 1000);
    dcsctp_destroy(&end.socket);
    return fclose(out) != 0 || !end.closed ||
           (end.why != DCSCTP_CHANNEL_CLOSED_BY_RESETS && end.why != DCSCTP_CHANNEL_LOST);
}

/* ---- Sending -------------------------------------------------------------------------------- */

/* How many bytes of the channel are queued; none once it is closed. */
static size_t waiting(struct end *end, uint64_t channel) {
    size_t bytes = 0;
    if (!end->closed)
        check("buffered_amount", dcsctp_channel_buffered_amount(&end->socket, channel, &bytes));
    return bytes;
}

/* Sends the next part of the file, by a message. The channel is closed after the last one. */
static void send_chunk(struct end *end, uint64_t channel, FILE *in, long length, long left) {
    static uint8_t bytes[CHUNK];
    if (fread(bytes, 1, (size_t)length, in) != (size_t)length)
        fail("read");
    check("send", dcsctp_channel_send(&end->socket, channel, DCSCTP_CHANNEL_BINARY, bytes,
                                      (size_t)length));
    if (length == left)
        check("close", dcsctp_channel_close(&end->socket, channel));
    drain(end);
}

static void print_progress(struct end *end, double sent, double size, double seconds) {
    dcsctp_metrics metrics;
    metrics.size = sizeof metrics;
    if (dcsctp_get_metrics(&end->socket, &metrics) != 1)
        return;
    fprintf(stderr, "%5.1f of %.1f MB, %.1f s, window %zu bytes, round trip %.2f ms\n", sent / 1e6,
            size / 1e6, seconds, metrics.cwnd_bytes, (double)metrics.srtt / 1e6);
}

/* Sends a file until its channel is closed. */
static void send_all(struct end *end, FILE *in, long size) {
    const uint64_t begin = now();
    dcsctp_channel_options options = DCSCTP_CHANNEL_OPTIONS_INIT;
    uint64_t channel;
    long sent = 0, printed = 0;
    options.label = "file";
    options.label_length = 4;
    check("open", dcsctp_channel_open(&end->socket, &options, &channel));
    check("connect", dcsctp_connect(&end->socket));
    drain(end);
    while (!end->closed) {
        while (end->opened && !end->closed && sent < size && waiting(end, channel) < WAITING) {
            long length = size - sent < CHUNK ? size - sent : CHUNK;
            send_chunk(end, channel, in, length, size - sent);
            sent += length;
        }
        turn(end, 1000);
        long done = end->opened ? sent - (long)waiting(end, channel) : 0;
        if (done / (size / 4 + 1) > printed / (size / 4 + 1) || end->closed)
            print_progress(end, (double)done, (double)size, (double)(now() - begin) / 1e9);
        printed = done;
    }
    double seconds = (double)(now() - begin) / 1e9;
    printf("%ld bytes in %.3f s, %.1f MB/s; %llu packets sent, %llu of them lost\n", size, seconds,
           (double)size / 1e6 / seconds, (unsigned long long)end->packets,
           (unsigned long long)end->lost);
}

/* Sends a file, and ends the association. Then it answers the peer until that has ended, too: the
 * last packet may be lost. */
static int send_file(int fd, long loss, FILE *pcap, FILE *in, long size, pid_t peer) {
    static struct end end;
    int status = 1;
    pid_t gone;
    create(&end, fd, loss, NULL);
    end.pcap = pcap;
    send_all(&end, in, size);
    check("shutdown", dcsctp_shutdown(&end.socket));
    drain(&end);
    while ((gone = waitpid(peer, &status, WNOHANG)) == 0)
        turn(&end, 20);
    if (gone < 0)
        fail("waitpid");
    int failed = !end.ended || end.why != DCSCTP_CHANNEL_CLOSED_BY_RESETS || status != 0;
    dcsctp_destroy(&end.socket);
    return failed;
}

/* ---- Files, processes and UDP --------------------------------------------------------------- */

/* A file of 10 MB that has no pattern. */
static FILE *made_file(void) {
    FILE *file = tmpfile();
    uint64_t word = 88172645463325252u;
    if (!file)
        fail("tmpfile");
    for (int i = 0; i < 10000000 / 8; i++) {
        word ^= word << 13;
        word ^= word >> 7;
        word ^= word << 17;
        if (fwrite(&word, 1, sizeof word, file) != sizeof word)
            fail("write");
    }
    return file;
}

static int differ(FILE *a, FILE *b) {
    int x, y;
    rewind(a);
    rewind(b);
    do {
        x = getc(a);
        y = getc(b);
    } while (x == y && x != EOF);
    return x != y;
}

/* Two UDP sockets on loopback that are connected with each other. */
static void open_sockets(int fds[2]) {
    struct sockaddr_in at[2];
    const int size = 4 << 20;
    for (int i = 0; i < 2; i++) {
        socklen_t length = sizeof at[i];
        memset(&at[i], 0, sizeof at[i]);
        at[i].sin_family = AF_INET;
        at[i].sin_addr.s_addr = htonl(INADDR_LOOPBACK);
        fds[i] = socket(AF_INET, SOCK_DGRAM | SOCK_CLOEXEC, 0);
        if (fds[i] < 0 || bind(fds[i], (struct sockaddr *)&at[i], length) != 0 ||
            getsockname(fds[i], (struct sockaddr *)&at[i], &length) != 0)
            fail("socket");
        setsockopt(fds[i], SOL_SOCKET, SO_RCVBUF, &size, sizeof size);
    }
    for (int i = 0; i < 2; i++)
        if (connect(fds[i], (struct sockaddr *)&at[1 - i], sizeof at[i]) != 0)
            fail("connect");
}

static int usage(void) {
    fprintf(stderr, "usage: file_transfer [--loss N] [--pcap PCAP] [FILE]\n");
    return 2;
}

int main(int argc, char **argv) {
    int fds[2], at = 1;
    long loss = 0;
    const char *path = NULL;
    for (; argc > at + 1; at += 2)
        if (strcmp(argv[at], "--loss") == 0)
            loss = strtol(argv[at + 1], NULL, 10);
        else if (strcmp(argv[at], "--pcap") == 0)
            path = argv[at + 1];
        else
            return usage();
    if (argc > at + 1 || loss < 0 || loss > 500)
        return usage();
    FILE *in = argc > at ? fopen(argv[at], "rb") : made_file(), *out = tmpfile();
    if (!in || !out || fseek(in, 0, SEEK_END) != 0)
        fail(argc > at ? argv[at] : "tmpfile");
    long size = ftell(in);
    rewind(in);
    if (size <= 0)
        return usage();
    open_sockets(fds);
    const pid_t parent = getpid();
    pid_t child = fork();
    if (child < 0)
        fail("fork");
    close(fds[child == 0 ? 0 : 1]);
    if (child == 0)
        _exit(receive_file(fds[1], loss, out, parent));
    FILE *pcap = path ? dcsctp_pcap_open(path) : NULL;
    if (path && !pcap)
        fail(path);
    int failed = send_file(fds[0], loss, pcap, in, size, child);
    if (pcap && dcsctp_pcap_close(pcap) != 0)
        fail(path);
    if (!failed && differ(in, out)) {
        fprintf(stderr, "file_transfer: the files differ\n");
        failed = 1;
    }
    fclose(in);
    fclose(out);
    close(fds[0]);
    puts(failed ? "failed" : "received as it was sent");
    return failed;
}
