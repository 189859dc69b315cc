/*
 * What it costs to bring a packet to the thread that has its peer, on this machine: nanoseconds of
 * processor time to send a packet of 100 bytes on loopback and to receive it, by each way there is.
 *
 *     steering [PEERS]
 *
 * PEERS sockets, 10,000 by default or half of the files that a process may have, send in turns, 64
 * packets at once. The server has one socket; or four in a group, chosen by the kernel's own hash
 * or by our program (server_port.c); or one connected to each peer; or one, whose packets go on
 * through a channel (server_note.c).
 */
#define _GNU_SOURCE
#include "../../examples/c/server.h"

#include <arpa/inet.h>
#include <errno.h>
#include <stdlib.h>
#include <string.h>
#include <sys/epoll.h>
#include <sys/resource.h>
#include <sys/socket.h>
#include <time.h>
#include <unistd.h>

enum { GROUP = 4, BATCH = 64, PACKETS = 400000, LENGTH = 100, OTHER_FILES = 64 };

static int *peers, *own;
static unsigned peer_count;

_Noreturn void fail(const char *what) {
    fprintf(stderr, "steering: %s: %s\n", what, strerror(errno));
    exit(1);
}

/* The processor time of this process. */
uint64_t clock_now(void) {
    struct timespec time;
    if (clock_gettime(CLOCK_PROCESS_CPUTIME_ID, &time) != 0)
        fail("clock_gettime");
    return (uint64_t)time.tv_sec * SECOND + (uint64_t)time.tv_nsec;
}

/* The kernel's memory for its objects, in bytes. */
static double slab_bytes(void) {
    FILE *file = fopen("/proc/meminfo", "r");
    char line[128];
    double kilobytes = 0;
    while (file && fgets(line, sizeof line, file))
        if (sscanf(line, "Slab: %lf", &kilobytes) == 1)
            break;
    if (file)
        fclose(file);
    return kilobytes * 1024;
}

static void open_peers(uint16_t port) {
    struct sockaddr_in to;
    memset(&to, 0, sizeof to);
    to.sin_family = AF_INET;
    to.sin_port = htons(port);
    to.sin_addr.s_addr = htonl(INADDR_LOOPBACK);
    for (unsigned i = 0; i < peer_count; i++)
        if ((peers[i] = socket(AF_INET, SOCK_DGRAM, 0)) < 0 ||
            connect(peers[i], (struct sockaddr *)&to, sizeof to) != 0)
            fail("peer");
}

static void close_all(int *files, unsigned count) {
    for (unsigned i = 0; i < count; i++)
        close(files[i]);
}

/* Opens a socket of the port for each peer, and connects it. */
static void connect_own(int epoll, uint16_t port) {
    for (unsigned i = 0; i < peer_count; i++) {
        struct epoll_event event = {EPOLLIN, {.u32 = i}};
        struct sockaddr_in from;
        socklen_t size = sizeof from;
        own[i] = port_open(port);
        if (getsockname(peers[i], (struct sockaddr *)&from, &size) != 0)
            fail("getsockname");
        from.sin_addr.s_addr = htonl(INADDR_LOOPBACK);
        if (connect(own[i], (struct sockaddr *)&from, size) != 0 ||
            epoll_ctl(epoll, EPOLL_CTL_ADD, own[i], &event) != 0)
            fail("connect");
    }
}

/* Takes all packets of a socket, and passes them on if there is a channel; returns how many. */
static unsigned take(int file, const int *channel) {
    static uint8_t bytes[NOTE];
    struct note note = {NOTE_PACKET, 0, {0}, 0, 0};
    unsigned count = 0;
    size_t length;
    ssize_t got;
    do {
        socklen_t size = sizeof note.peer;
        got = recvfrom(file, bytes, PACKET, MSG_DONTWAIT, (struct sockaddr *)&note.peer, &size);
        count += got >= 0;
        if (got >= 0 && channel && (note_send(channel[1], &note, bytes, (size_t)got) != 0 ||
                                    !note_take(channel[0], &note, bytes, &length)))
            fail("channel");
    } while (got >= 0);
    return count;
}

/* Sends all packets and takes them, and prints a line. */
static void measure(const char *name, int epoll, unsigned files, const int *channel) {
    static const uint8_t bytes[LENGTH];
    struct epoll_event events[BATCH];
    unsigned next = 0, taken = 0;
    const uint64_t begun_at = clock_now();
    for (unsigned sent = 0; sent < PACKETS; sent += BATCH) {
        for (unsigned i = 0; i < BATCH; i++, next = (next + 1) % peer_count)
            if (send(peers[next], bytes, sizeof bytes, 0) < 0)
                fail("send");
        int ready = epoll_wait(epoll, events, BATCH, 0);
        for (int i = 0; i < ready; i++)
            taken += take(own[events[i].data.u32], channel);
    }
    printf("%-44s %6.0f ns a packet, %u of %u came, %u sockets\n", name,
           (double)(clock_now() - begun_at) / PACKETS, taken, PACKETS, files);
}

/* Opens so many sockets in a group. */
static int open_group(unsigned count) {
    int epoll = epoll_create1(0);
    uint16_t port = 0;
    for (unsigned i = 0; i < count; i++) {
        struct epoll_event event = {EPOLLIN, {.u32 = i}};
        own[i] = port_open(port);
        port = port_number(own[i]);
        if (epoll_ctl(epoll, EPOLL_CTL_ADD, own[i], &event) != 0)
            fail("epoll");
    }
    open_peers(port);
    return epoll;
}

static void by_group(const char *name, unsigned count, int steers, int forwards) {
    int epoll = open_group(count), channel[2];
    channel_open(channel);
    if (steers && port_steer(own[0], count) != 0)
        fail("SO_ATTACH_REUSEPORT_CBPF");
    measure(name, epoll, count, forwards ? channel : NULL);
    close_all(channel, 2);
    close_all(own, count);
    close_all(peers, peer_count);
    close(epoll);
}

static void by_connected(const char *name) {
    int epoll = epoll_create1(0), first = port_open(0);
    const uint16_t port = port_number(first);
    open_peers(port);
    const double before = slab_bytes();
    connect_own(epoll, port);
    const double bytes = (slab_bytes() - before) / peer_count;
    measure(name, epoll, peer_count, NULL);
    printf("%-44s %6.0f bytes of the kernel's\n", "a connected socket, with its place in epoll",
           bytes);
    close_all(own, peer_count);
    close_all(peers, peer_count);
    close(first);
    close(epoll);
}

/* As many peers as are wanted, or as there may be: each takes two files. */
static unsigned possible(unsigned long wanted) {
    struct rlimit limit;
    if (getrlimit(RLIMIT_NOFILE, &limit) != 0)
        fail("getrlimit");
    limit.rlim_cur = limit.rlim_max;
    if (setrlimit(RLIMIT_NOFILE, &limit) != 0)
        fail("setrlimit");
    const unsigned long most = (limit.rlim_cur - OTHER_FILES) / 2;
    return (unsigned)(wanted < most ? wanted : most);
}

int main(int argc, char **argv) {
    peer_count = possible(argc > 1 ? strtoul(argv[1], NULL, 10) : 10000);
    peers = calloc(peer_count + GROUP, sizeof *peers);
    own = calloc(peer_count + GROUP, sizeof *own);
    if (peer_count == 0 || !peers || !own)
        fail("peers");
    by_group("one socket", 1, 0, 0);
    by_group("a group of four, by the kernel's hash", GROUP, 0, 0);
    by_group("a group of four, by our program", GROUP, 1, 0);
    by_connected("a connected socket for each peer");
    by_group("one socket, and each packet forwarded", 1, 0, 1);
    free(peers);
    free(own);
    return 0;
}
