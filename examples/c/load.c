/*
 * Makes many associations with server.c on this machine, and sends messages at a rate.
 *
 *     load [--stay] [--follow] [--pauses] [--turns] [--delay MILLISECONDS]
 *          PORT [ASSOCIATIONS [RATE [SECONDS [BYTES [LOSS]]]]]
 *
 * 1,000 associations connect, 2,000 a second. Then each of them sends RATE messages of BYTES a
 * second for SECONDS, or until SIGTERM: 10 of 100 for 10. While too much waits on one, it sends
 * none, nor while the server asks for silence. Meanwhile LOSS of a thousand packets are lost each
 * way. Each message must come back as it was, in order. Then all are shut down; with --stay
 * they wait until the server does that. Each has a UDP socket, so `ulimit -n` must be higher than
 * ASSOCIATIONS.
 *
 * A pause of an association is a time in which one of its messages was on its way, and none came
 * back. With --pauses each second's longest is printed. With --follow an association goes on with
 * the address from which its last packet came, as over DTLS with connection ids. With --turns each
 * sends its next message when the last has come back, so that RATE matters no more. With --delay a
 * packet takes so long, each way.
 */
#define _GNU_SOURCE
#include "deadlines.h"

#include <dcsctp.h>

#include <arpa/inet.h>
#include <errno.h>
#include <signal.h>
#include <stdio.h>
#include <stdlib.h>
#include <string.h>
#include <sys/epoll.h>
#include <sys/socket.h>
#include <time.h>
#include <unistd.h>

static const uint64_t SECOND = 1000000000;

/* Associations that begin in a second, and seconds that each phase may take beyond its own. */
enum { BEGIN = 2000, PATIENCE = 60 };

enum { STRING = 51, BINARY = 53, PACKET = 1500, LONGEST = 65536 };

/* How long an association is silent at most, in seconds, when the server has asked for that. */
enum { SILENCE = 30 };

/* What a message begins with: whose it is, which one, and when it was sent. */
struct head {
    uint64_t association, number, moment;
};

struct association {
    struct deadline deadline; /* the first field: so a deadline's address is its association's */
    dcsctp_socket socket;
    int fd;
    struct sockaddr_in server;
    uint64_t index;
    uint64_t begins_at, sends_at; /* DCSCTP_NEVER: it has begun; it sends no more */
    uint64_t silent_until;
    uint64_t sent, received;      /* messages */
    uint64_t received_at;         /* when the last one came back */
};

/* A packet on its way, with --delay. */
struct flight {
    struct flight *next;
    struct association *association;
    uint64_t due;
    int comes; /* from the server */
    size_t length;
    uint8_t bytes[PACKET];
};

struct load {
    int epoll;
    struct sockaddr_in server;
    struct association *associations;
    size_t count;
    size_t length;                          /* of a message */
    uint64_t period;                        /* between two messages of an association; 0: none */
    long loss;                              /* so many of a thousand packets are lost */
    int stays, follows, prints, turns;      /* the options */
    struct deadlines deadlines;
    uint64_t delay;
    struct flight *first, *last;            /* in the order in which they are due */
    uint64_t now, stops_at;                 /* when sending ends */
    uint64_t connected, ended, wrong;       /* associations; and what isn't as it should be */
    uint64_t sent, received, refused;       /* messages; refused: too much waited */
    uint64_t total, longest;                /* round trips, in nanoseconds */
    uint64_t pause, pause_of_second;        /* the longest ones */
    uint64_t prints_at;
};

/* Did SIGTERM end the sending? */
static volatile sig_atomic_t must_stop;

static void handle_signal(int signal) {
    (void)signal;
    must_stop = 1;
}

static void fail(const char *what) {
    fprintf(stderr, "load: %s: %s\n", what, strerror(errno));
    exit(1);
}

/* Ends the program if a call failed. */
static void check(const char *what, int32_t result) {
    if (result < 0) {
        fprintf(stderr, "load: %s: %s\n", what, dcsctp_error_text(result));
        exit(1);
    }
}

static uint64_t clock_now(void) {
    struct timespec time;
    if (clock_gettime(CLOCK_MONOTONIC, &time) != 0)
        fail("clock_gettime");
    return (uint64_t)time.tv_sec * SECOND + (uint64_t)time.tv_nsec;
}

/* ---- Messages ------------------------------------------------------------------------------- */

/* Writes a message: its head, and bytes that follow from it. */
static void write_message(const struct load *load, uint8_t *bytes, const struct head *head) {
    memcpy(bytes, head, sizeof *head);
    for (size_t i = sizeof *head; i < load->length; i++)
        bytes[i] = (uint8_t)(head->association * 7 + head->number * 13 + i);
}

/* Sends a message, unless too much waits already. */
static void send_message(struct load *load, struct association *it) {
    static uint8_t bytes[LONGEST];
    const dcsctp_send_options how = DCSCTP_SEND_INIT;
    const struct head head = {it->index, it->sent, clock_now()};
    write_message(load, bytes, &head);
    int32_t result = dcsctp_send(&it->socket, 1, BINARY, bytes, load->length, &how);
    if (result == DCSCTP_ERROR_RESOURCE_EXHAUSTION) {
        load->refused++;
    } else {
        check("send", result);
        it->sent++;
        load->sent++;
    }
}

/* Sends a message if it may, and says when the next is due. */
static void send_next(struct load *load, struct association *it) {
    if (it->silent_until <= load->now && it->sends_at < load->stops_at)
        send_message(load, it);
    it->sends_at += load->period;
    if (it->sends_at >= load->stops_at || load->turns)
        it->sends_at = DCSCTP_NEVER;
}

static uint64_t later(uint64_t a, uint64_t b) {
    return a > b ? a : b;
}

/* Counts a message that was sent at this moment, and has come back. */
static void count_message(struct load *load, struct association *it, uint64_t moment) {
    const uint64_t now = clock_now(), pause = now - later(moment, it->received_at);
    it->received_at = now;
    it->sends_at = load->turns ? now : it->sends_at;
    load->total += now - moment;
    load->longest = later(load->longest, now - moment);
    load->pause = later(load->pause, pause);
    load->pause_of_second = later(load->pause_of_second, pause);
}

/* Compares a message that has come back with the one that was sent. */
static void receive_message(struct load *load, struct association *it) {
    static uint8_t bytes[LONGEST], expected[LONGEST];
    struct head head = {it->index, it->received++, 0};
    size_t length = 0;
    int32_t result = dcsctp_message_bytes(&it->socket, bytes, sizeof bytes, &length);
    load->received++;
    if (result == DCSCTP_OK && length == load->length) {
        memcpy(&head.moment, bytes + offsetof(struct head, moment), sizeof head.moment);
        write_message(load, expected, &head);
        if (memcmp(bytes, expected, length) == 0) {
            count_message(load, it, head.moment);
            return;
        }
    }
    load->wrong++;
}

/* The server asks for silence, or no longer. */
static void receive_request(struct load *load, struct association *it) {
    uint8_t text[16];
    size_t length;
    if (dcsctp_message_bytes(&it->socket, text, sizeof text, &length) == DCSCTP_OK)
        it->silent_until = text[0] == 'p' ? load->now + SILENCE * SECOND : 0;
}

/* ---- One association ------------------------------------------------------------------------ */

/* Is a packet lost on purpose? None is before sending begins and after it ends. */
static int is_lost(const struct load *load) {
    return load->now < load->stops_at && random() % 1000 < load->loss;
}

/* Sends a packet. (If the system doesn't, it is lost, as it may be on its way.) */
static void transmit(const struct load *load, const struct association *it, const uint8_t *packet,
                     size_t length) {
    (void)!sendto(it->fd, packet, length, MSG_DONTWAIT,
                  load->follows ? (struct sockaddr *)(uintptr_t)&it->server : NULL,
                  load->follows ? sizeof it->server : 0);
}

/* Delays a packet. */
static void delay(struct load *load, struct association *it, int comes, const uint8_t *packet,
                  size_t length) {
    struct flight *flight = malloc(sizeof *flight);
    if (!flight)
        fail("flight");
    flight->next = NULL;
    flight->association = it;
    flight->due = clock_now() + load->delay;
    flight->comes = comes;
    flight->length = length;
    memcpy(flight->bytes, packet, length);
    *(load->first ? &load->last->next : &load->first) = flight;
    load->last = flight;
}

static void handle_event(struct load *load, struct association *it, const dcsctp_event *event) {
    uint8_t packet[PACKET];
    size_t length;
    switch (event->kind) {
    case DCSCTP_EVENT_SEND_PACKET:
        check("event_bytes", dcsctp_event_bytes(&it->socket, packet, sizeof packet, &length));
        if (is_lost(load))
            break;
        if (load->delay > 0)
            delay(load, it, 0, packet, length);
        else
            transmit(load, it, packet, length);
        break;
    case DCSCTP_EVENT_CONNECTED:
        load->connected++;
        break;
    case DCSCTP_EVENT_CONNECTION_RESTARTED:
        load->wrong++;
        break;
    case DCSCTP_EVENT_ABORTED:
        load->wrong++;
        load->ended++;
        break;
    case DCSCTP_EVENT_CLOSED:
        load->ended++;
        break;
    default:
        break;
    }
}

/* Takes all events and messages, and asks for the deadline. It follows each call that hands
 * something in. */
static void serve(struct load *load, struct association *it) {
    dcsctp_event event;
    dcsctp_message message;
    uint64_t moment;
    while (dcsctp_poll_event(&it->socket, &event) == 1)
        handle_event(load, it, &event);
    while (dcsctp_get_next_message(&it->socket, &message) == 1)
        (message.ppid == STRING ? receive_request : receive_message)(load, it);
    check("poll_timeout", dcsctp_poll_timeout(&it->socket, &moment));
    moment = moment < it->begins_at ? moment : it->begins_at;
    deadlines_move(&load->deadlines, &it->deadline, moment < it->sends_at ? moment : it->sends_at);
}

static void handle_deadline(struct load *load, struct association *it) {
    check("advance_time", dcsctp_advance_time(&it->socket, load->now));
    if (it->begins_at <= load->now) {
        it->begins_at = DCSCTP_NEVER;
        check("connect", dcsctp_connect(&it->socket));
    }
    if (it->sends_at <= load->now)
        send_next(load, it);
    serve(load, it);
}

/* Continues with the sender of a packet, if that has our verification tag. */
static void follow(struct association *it, const struct sockaddr_in *from, const uint8_t *packet,
                   ssize_t length) {
    uint32_t own = 0, tag;
    dcsctp_verification_tag(&it->socket, &own);
    if (length < 12)
        return;
    memcpy(&tag, packet + 4, sizeof tag);
    if (ntohl(tag) == own && own != 0)
        it->server = *from;
}

/* Hands in a packet that has come. */
static void arrive(struct load *load, struct association *it, const uint8_t *packet,
                   size_t length) {
    check("advance_time", dcsctp_advance_time(&it->socket, load->now));
    check("handle_input", dcsctp_handle_input(&it->socket, packet, length));
    serve(load, it);
}

static void handle_packets(struct load *load, struct association *it) {
    struct sockaddr_in from;
    socklen_t size = sizeof from;
    uint8_t packet[PACKET];
    ssize_t length;
    while ((length = recvfrom(it->fd, packet, sizeof packet, MSG_DONTWAIT,
                              (struct sockaddr *)&from, &size)) >= 0) {
        if (is_lost(load))
            continue;
        if (load->follows)
            follow(it, &from, packet, length);
        if (load->delay > 0)
            delay(load, it, 1, packet, (size_t)length);
        else
            arrive(load, it, packet, (size_t)length);
    }
}

/* Handles the packets whose delay is over. */
static void handle_flights(struct load *load) {
    while (load->first && load->first->due <= load->now) {
        struct flight *flight = load->first;
        load->first = flight->next;
        if (flight->comes)
            arrive(load, flight->association, flight->bytes, flight->length);
        else
            transmit(load, flight->association, flight->bytes, flight->length);
        free(flight);
    }
}

/* ---- All of them ---------------------------------------------------------------------------- */

static void create(struct load *load, struct association *it, const dcsctp_options *options) {
    struct epoll_event event = {EPOLLIN, {.ptr = it}};
    uint8_t seed[32];
    it->index = (uint64_t)(it - load->associations);
    it->server = load->server;
    it->fd = socket(AF_INET, SOCK_DGRAM | SOCK_CLOEXEC, 0);
    if (it->fd < 0 ||
        (!load->follows &&
         connect(it->fd, (struct sockaddr *)&it->server, sizeof it->server) != 0) ||
        epoll_ctl(load->epoll, EPOLL_CTL_ADD, it->fd, &event) != 0)
        fail("socket");
    if (dcsctp_random_seed(seed) != DCSCTP_OK)
        fail("dcsctp_random_seed");
    check("create", dcsctp_create(&it->socket, options, seed, load->now));
    it->begins_at = load->now + it->index * SECOND / BEGIN;
    it->sends_at = DCSCTP_NEVER;
    it->deadline.moment = it->begins_at;
    deadlines_add(&load->deadlines, &it->deadline);
}

static void turn(struct load *load, uint64_t until) {
    struct epoll_event events[64];
    struct deadline *first = deadlines_first(&load->deadlines);
    const uint64_t now = clock_now();
    until = first->moment < until ? first->moment : until;
    until = load->first && load->first->due < until ? load->first->due : until;
    int wait = until <= now ? 0 : (int)((until - now + 999999) / 1000000);
    int count = epoll_wait(load->epoll, events, 64, wait);
    if (count < 0 && errno != EINTR)
        fail("epoll_wait");
    load->now = clock_now();
    for (int i = 0; i < count; i++)
        handle_packets(load, (struct association *)events[i].data.ptr);
    handle_flights(load);
    while ((first = deadlines_first(&load->deadlines))->moment <= load->now)
        handle_deadline(load, (struct association *)first);
    if (load->prints && load->now >= load->prints_at) {
        if (load->received > 0)
            printf("%.1f s: the longest pause took %.0f ms\n", (double)load->now / 1e9,
                   (double)load->pause_of_second / 1e6);
        load->pause_of_second = 0;
        load->prints_at = load->now + SECOND;
    }
}

/* Runs until a count is reached, and no longer than a time. */
static void run_until(struct load *load, const uint64_t *count, uint64_t target, uint64_t time) {
    const uint64_t limit = load->now + time;
    while (*count < target && load->now < limit)
        turn(load, limit);
}

/* Sends for a time, or until SIGTERM, and waits for what hasn't come back. */
static void send_all(struct load *load, uint64_t time) {
    load->stops_at = load->now + time;
    for (size_t i = 0; load->period > 0 && i < load->count; i++) {
        struct association *it = &load->associations[i];
        it->sends_at = load->now + load->period * i / load->count;
        serve(load, it);
    }
    while (load->now < load->stops_at) {
        turn(load, load->stops_at);
        if (must_stop && load->stops_at > load->now)
            load->stops_at = load->now;
    }
    run_until(load, &load->received, load->sent, PATIENCE * SECOND);
}

static void shut_down(struct load *load) {
    for (size_t i = 0; i < load->count; i++) {
        struct association *it = &load->associations[i];
        check("advance_time", dcsctp_advance_time(&it->socket, load->now));
        check("shutdown", dcsctp_shutdown(&it->socket));
        serve(load, it);
        if (i % 16 == 0)
            turn(load, load->now); /* so that the server's port isn't flooded */
    }
}

static void print_messages(const struct load *load, double seconds) {
    printf("%llu of %zu connected; %llu messages sent, %llu came back",
           (unsigned long long)load->connected, load->count, (unsigned long long)load->sent,
           (unsigned long long)load->received);
    if (load->received > 0)
        printf(", %.0f a second; round trips: mean %.2f ms, longest %.2f ms; longest pause %.0f ms",
               (double)load->received / seconds, (double)load->total / (double)load->received / 1e6,
               (double)load->longest / 1e6, (double)load->pause / 1e6);
    if (load->refused > 0)
        printf("; %llu weren't sent, since too much waited", (unsigned long long)load->refused);
    puts("");
}

static int run(struct load *load, uint64_t time) {
    dcsctp_options options;
    dcsctp_options_init(&options);
    load->now = clock_now();
    for (size_t i = 0; i < load->count; i++)
        create(load, &load->associations[i], &options);
    run_until(load, &load->connected, load->count,
              load->count * SECOND / BEGIN + PATIENCE * SECOND);
    const uint64_t begun_at = load->now;
    send_all(load, time);
    print_messages(load, (double)(load->stops_at - begun_at) / 1e9);
    if (!load->stays)
        shut_down(load);
    run_until(load, &load->ended, load->count, PATIENCE * SECOND);
    printf("%llu ended, %llu wrong\n", (unsigned long long)load->ended,
           (unsigned long long)load->wrong);
    return load->connected != load->count || load->received != load->sent ||
           load->ended != load->count || load->wrong > 0;
}

static void destroy(struct load *load) {
    for (size_t i = 0; i < load->count; i++) {
        dcsctp_destroy(&load->associations[i].socket);
        close(load->associations[i].fd);
    }
    for (struct flight *it = load->first, *next; it; it = next) {
        next = it->next;
        free(it);
    }
    close(load->epoll);
    free(load->associations);
    free(load->deadlines.entries);
}

/* Takes the options, and returns how many arguments they are. */
static int take_options(struct load *load, char **argv) {
    int i = 1;
    for (; argv[i] && argv[i][0] == '-'; i++) {
        load->stays |= strcmp(argv[i], "--stay") == 0;
        load->follows |= strcmp(argv[i], "--follow") == 0;
        load->prints |= strcmp(argv[i], "--pauses") == 0;
        load->turns |= strcmp(argv[i], "--turns") == 0;
        if (strcmp(argv[i], "--delay") == 0 && argv[i + 1])
            load->delay = strtoull(argv[++i], NULL, 10) * 1000000;
    }
    return i - 1;
}

int main(int argc, char **argv) {
    static struct load load;
    long numbers[6] = {0, 1000, 10, 10, 100, 0};
    const int options = take_options(&load, argv);
    int valid = argc - options >= 2 && argc - options <= 7;
    for (int i = 0; valid && i < argc - 1 - options; i++)
        numbers[i] = strtol(argv[1 + options + i], NULL, 10);
    valid = valid && numbers[0] > 0 && numbers[0] < 65536 && numbers[1] > 0 &&
            numbers[1] <= 60000 && numbers[2] >= 0 && numbers[2] <= 1000000 && numbers[3] >= 0 &&
            numbers[3] <= 86400 && numbers[4] >= (long)sizeof(struct head) &&
            numbers[4] <= LONGEST && numbers[5] >= 0 && numbers[5] <= 500;
    if (!valid) {
        fprintf(stderr, "usage: load [--stay] [--follow] [--pauses] [--turns] "
                        "[--delay MILLISECONDS]\n"
                        "            PORT [ASSOCIATIONS [RATE [SECONDS [BYTES [LOSS]]]]]\n");
        return 2;
    }
    setvbuf(stdout, NULL, _IOLBF, 0);
    signal(SIGTERM, handle_signal);
    load.server.sin_family = AF_INET;
    load.server.sin_port = htons((uint16_t)numbers[0]);
    load.server.sin_addr.s_addr = htonl(INADDR_LOOPBACK);
    load.count = (size_t)numbers[1];
    load.period = numbers[2] > 0 ? SECOND / (uint64_t)numbers[2] : 0;
    load.length = (size_t)numbers[4];
    load.loss = numbers[5];
    load.associations = calloc(load.count, sizeof *load.associations);
    load.deadlines.entries = calloc(load.count, sizeof *load.deadlines.entries);
    load.epoll = epoll_create1(EPOLL_CLOEXEC);
    if (!load.associations || !load.deadlines.entries || load.epoll < 0)
        fail("load");
    int failed = run(&load, (uint64_t)numbers[3] * SECOND);
    destroy(&load);
    return failed;
}
