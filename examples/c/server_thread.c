/* The associations of a thread: see server.h. */
#define _GNU_SOURCE
#include "deadlines.h"
#include "server.h"
#include "trace.h"

#include <errno.h>
#include <stdlib.h>
#include <string.h>
#include <sys/epoll.h>
#include <sys/random.h>
#include <sys/socket.h>
#include <time.h>
#include <unistd.h>

/* Times, in seconds: to connect, to answer the last packet again, and to end all. */
enum { TO_CONNECT = 10, LINGER = 4, TO_END = 5 };

/* Packets or notes that are handed in before timers have their turn, and lists of the table that
 * are handed over. */
enum { BATCH = 64 };

/* Peers of associations that can't be handed over so long after the first could are asked to be
 * silent, by a message on stream 0. load.c is silent then until the other message comes. */
static const uint64_t PATIENCE = 300000000;
static const char SILENCE[] = "pause", SPEECH[] = "continue";
enum { STRING = 51 };

/* The result of a handover: no error, which are negative. And how long an association stays whose
 * snapshot couldn't be sent: longer than its timers, which begin anew. */
enum { GONE = 1 };
static const uint64_t RETRY = 1000000000;

/* An association, whose peer is known by its address. */
struct association {
    struct deadline deadline; /* the first field: so a deadline's address is its association's */
    dcsctp_socket socket;
    struct sockaddr_in peer;
    struct association *next; /* in its list of the table */
    uint64_t gone_at;         /* when it is forgotten: a peer that doesn't connect, or has ended */
    uint64_t offers_at;       /* when the next process may get it */
    dcsctp_message message;   /* the one that was taken last */
    int is_connected;
    int has_message;          /* it isn't sent back yet */
    int is_full;              /* and there is no room for it */
    int is_silent;            /* the peer was asked to be silent */
};

struct thread {
    struct start *start;
    int epoll;
    dcsctp_options options;
    struct association **table; /* lists by the hash of the peer's address */
    unsigned table_bits;
    uint64_t secret;            /* so that peers can't choose addresses of one list */
    struct deadlines deadlines;
    size_t room;                /* in deadlines */
    uint64_t now, ends_at;      /* ends_at: when all is aborted; DCSCTP_NEVER: no signal came */
    int reads[THREADS];         /* is this socket read by this thread? */
    int next[THREADS];          /* the channels of the next process's threads */
    unsigned next_count;        /* 0: there is none */
    size_t cursor;              /* lists before it were offered to the next process */
    uint64_t silence_at;        /* when peers are asked to be silent */
    int keeps_sockets;          /* the next process has its own ones */
    int has_left;               /* and the first thread knows it */
    struct counts counts;
    uint8_t bytes[NOTE];        /* of a message or a note */
};

static uint64_t earlier(uint64_t a, uint64_t b) {
    return a < b ? a : b;
}

static void fill_random(void *bytes, size_t length) {
    if (getrandom(bytes, length, 0) != (ssize_t)length)
        fail("getrandom");
}

/* Writes a packet to the file for Wireshark, if there is one, with the time of day. */
static void record(const struct thread *thread, const uint8_t *packet, size_t length) {
    FILE *pcap = thread->start->pcap;
    struct timespec time;
    if (!pcap)
        return;
    if (clock_gettime(CLOCK_REALTIME, &time) != 0 ||
        dcsctp_pcap_packet(pcap, (uint64_t)time.tv_sec * SECOND + (uint64_t)time.tv_nsec, packet,
                           length) != 0)
        fail("pcap");
}

/* ---- The table of associations -------------------------------------------------------------- */

static struct association **list_of(struct thread *thread, const struct sockaddr_in *peer) {
    uint64_t key = (uint64_t)peer->sin_addr.s_addr << 16 | peer->sin_port;
    key = (key ^ thread->secret) * 0x9e3779b97f4a7c15u;
    key = (key ^ key >> 32) * 0x9e3779b97f4a7c15u;
    return &thread->table[key >> (64 - thread->table_bits)];
}

static struct association *find(struct thread *thread, const struct sockaddr_in *peer) {
    struct association *it = *list_of(thread, peer);
    while (it && (it->peer.sin_addr.s_addr != peer->sin_addr.s_addr ||
                  it->peer.sin_port != peer->sin_port))
        it = it->next;
    return it;
}

/* Is it an INIT alone, under the verification tag 0 (RFC 9260, section 8.5.1)? */
static int is_init(const uint8_t *packet, size_t length) {
    return length >= 16 && packet[12] == 1 &&
           !(packet[4] | packet[5] | packet[6] | packet[7]);
}

/* Makes room for one more deadline. */
static int grow(struct thread *thread) {
    const size_t room = thread->room * 2;
    struct deadline **entries;
    if (thread->deadlines.count < thread->room)
        return 1;
    entries = realloc(thread->deadlines.entries, room * sizeof *entries);
    if (!entries)
        return 0;
    thread->deadlines.entries = entries;
    thread->room = room;
    return 1;
}

static int32_t create_socket(struct thread *thread, dcsctp_socket *socket) {
    uint8_t seed[32];
    fill_random(seed, sizeof seed);
    return dcsctp_create(socket, &thread->options, seed, thread->now);
}

/* Makes an association with a peer; NULL where no memory is left. */
static struct association *make(struct thread *thread, const struct sockaddr_in *peer) {
    struct association **list = list_of(thread, peer), *it;
    if (!grow(thread) || !(it = calloc(1, sizeof *it)))
        return NULL;
    if (create_socket(thread, &it->socket) != DCSCTP_OK) {
        free(it);
        return NULL;
    }
    it->peer = *peer;
    it->gone_at = thread->now + TO_CONNECT * SECOND;
    it->deadline.moment = it->gone_at;
    deadlines_add(&thread->deadlines, &it->deadline);
    it->next = *list;
    *list = it;
    return it;
}

static void forget(struct thread *thread, struct association *gone) {
    struct association **it = list_of(thread, &gone->peer);
    while (*it != gone)
        it = &(*it)->next;
    *it = gone->next;
    deadlines_remove(&thread->deadlines, &gone->deadline);
    thread->counts.connected -= (uint64_t)gone->is_connected;
    dcsctp_destroy(&gone->socket);
    free(gone);
}

/* ---- One association ------------------------------------------------------------------------ */

/* Sends the packet that was taken. If the system doesn't, it is lost, as it may be on its way. */
static int32_t send_packet(struct thread *thread, struct association *it) {
    const struct start *start = thread->start;
    uint8_t packet[PACKET];
    size_t length;
    int32_t result = dcsctp_event_bytes(&it->socket, packet, sizeof packet, &length);
    if (result != DCSCTP_OK)
        return result;
    record(thread, packet, length);
    if (sendto(start->sockets[start->index % start->socket_count], packet, length, MSG_DONTWAIT,
               (struct sockaddr *)&it->peer, sizeof it->peer) >= 0)
        thread->counts.sent++;
    return DCSCTP_OK;
}

static int32_t handle_event(struct thread *thread, struct association *it,
                            const dcsctp_event *event) {
    switch (event->kind) {
    case DCSCTP_EVENT_SEND_PACKET:
        return send_packet(thread, it);
    case DCSCTP_EVENT_CONNECTED:
        /* A peer that restarts is connected already. */
        thread->counts.connected += (uint64_t)!it->is_connected;
        it->is_connected = 1;
        it->has_message = it->is_full = 0;
        it->gone_at = DCSCTP_NEVER;
        return thread->ends_at == DCSCTP_NEVER ? DCSCTP_OK : dcsctp_shutdown(&it->socket);
    case DCSCTP_EVENT_CLOSED:
    case DCSCTP_EVENT_ABORTED:
        /* The last packet may be lost. Then the peer sends its own again, and needs an answer. */
        thread->counts.connected -= (uint64_t)it->is_connected;
        thread->counts.aborted += event->kind == DCSCTP_EVENT_ABORTED;
        it->is_connected = it->has_message = it->is_full = 0;
        it->gone_at = thread->now + LINGER * SECOND;
        break;
    case DCSCTP_EVENT_TOTAL_BUFFERED_AMOUNT_LOW:
        it->is_full = 0;
        break;
    default:
        break;
    }
    return DCSCTP_OK;
}

/* Sends back the message that was taken last. If there is no room, it stays taken, and no other is
 * taken: so the receive window fills, and the peer waits. */
static int32_t echo(struct thread *thread, struct association *it) {
    const dcsctp_send_options how = DCSCTP_SEND_INIT;
    size_t length;
    int32_t result = dcsctp_message_bytes(&it->socket, thread->bytes, WINDOW, &length);
    if (result == DCSCTP_OK)
        result = dcsctp_send(&it->socket, it->message.stream_id, it->message.ppid, thread->bytes,
                             length, &how);
    it->is_full = result == DCSCTP_ERROR_RESOURCE_EXHAUSTION;
    it->has_message = it->is_full;
    thread->counts.messages += result == DCSCTP_OK;
    return it->is_full || result == DCSCTP_ERROR_SHUTTING_DOWN ? DCSCTP_OK : result;
}

/* Takes all events, and as many messages as can be sent back. */
static int32_t take_all(struct thread *thread, struct association *it) {
    dcsctp_event event;
    for (;;) {
        int32_t result = DCSCTP_OK;
        while (result == DCSCTP_OK && dcsctp_poll_event(&it->socket, &event) == 1)
            result = handle_event(thread, it, &event);
        if (result == DCSCTP_OK && !it->has_message)
            it->has_message = dcsctp_get_next_message(&it->socket, &it->message) == 1;
        if (result != DCSCTP_OK || !it->has_message || it->is_full)
            return result;
        result = echo(thread, it);
        if (result != DCSCTP_OK)
            return result;
    }
}

/* ---- From one process to the next ----------------------------------------------------------- */

/* Continues, in a new socket, from a snapshot. */
static int32_t restore(struct thread *thread, struct association *it, const uint8_t *bytes,
                       size_t length) {
    dcsctp_destroy(&it->socket);
    int32_t result = create_socket(thread, &it->socket);
    if (result == DCSCTP_OK)
        result = dcsctp_restore_from_state(&it->socket, bytes, length);
    return result == DCSCTP_OK ? take_all(thread, it) : result;
}

/* Continues here, since the snapshot has too many messages for a note. */
static int32_t keep(struct thread *thread, struct association *it, size_t length) {
    uint8_t *bytes = malloc(length);
    int32_t result = DCSCTP_ERROR_OUT_OF_MEMORY;
    if (bytes)
        result = dcsctp_handover_bytes(&it->socket, bytes, length, &length);
    if (result == DCSCTP_OK)
        result = restore(thread, it, bytes, length);
    free(bytes);
    return result;
}

/* Hands an association to the next process, if it is ready. Returns GONE if it did. A snapshot that
 * can't be sent is too large, or the next process has ended: then the association stays. */
static int32_t hand_over(struct thread *thread, struct association *it) {
    struct note note = {NOTE_ASSOCIATION, 0, it->peer, clock_now(), (uint64_t)it->is_silent};
    const int next = thread->next[port_thread(&it->peer, thread->next_count)];
    uint32_t reasons;
    size_t length;
    int32_t result = dcsctp_get_handover_readiness(&it->socket, &reasons);
    if (result != DCSCTP_OK || reasons != 0 || !it->is_connected || it->has_message ||
        thread->now < it->offers_at)
        return result;
    it->offers_at = thread->now + RETRY;
    result = dcsctp_get_handover_state_and_close(&it->socket);
    if (result == DCSCTP_OK)
        result = dcsctp_handover_bytes(&it->socket, thread->bytes, NOTE, &length);
    if (result == DCSCTP_ERROR_BUFFER_TOO_SMALL)
        return keep(thread, it, length);
    if (result != DCSCTP_OK)
        return result;
    if (note_send(next, &note, thread->bytes, length) != 0)
        return restore(thread, it, thread->bytes, length);
    thread->counts.handed++;
    return GONE;
}

/* ---- Each association ----------------------------------------------------------------------- */

/* Follows each call that hands something to an association, with its result. Where that is an
 * error, no memory above all, this association is given up, and no other. */
static void serve(struct thread *thread, struct association *it, int32_t result) {
    uint64_t moment;
    if (result == DCSCTP_OK)
        result = take_all(thread, it);
    if (result == DCSCTP_OK && thread->next_count > 0)
        result = hand_over(thread, it);
    if (result == DCSCTP_OK)
        result = dcsctp_poll_timeout(&it->socket, &moment);
    if (result == DCSCTP_OK) {
        moment = earlier(moment, it->gone_at);
        if (it->offers_at > thread->now)
            moment = earlier(moment, it->offers_at);
        deadlines_move(&thread->deadlines, &it->deadline, moment);
        return;
    }
    thread->counts.failed += result != GONE;
    forget(thread, it);
}

/* Asks a peer to send no messages, or to go on. */
static int32_t ask(dcsctp_socket *socket, const char *text) {
    const dcsctp_send_options how = DCSCTP_SEND_INIT;
    int32_t result = dcsctp_send(socket, 0, STRING, (const uint8_t *)text, strlen(text), &how);
    return result == DCSCTP_ERROR_RESOURCE_EXHAUSTION || result == DCSCTP_ERROR_SHUTTING_DOWN
               ? DCSCTP_OK
               : result;
}

static int32_t ask_to_speak(dcsctp_socket *socket) {
    return ask(socket, SPEECH);
}

/* Takes over an association of the process before this one. */
static void take_over(struct thread *thread, const struct note *note, size_t length) {
    struct association *it = find(thread, &note->peer);
    if (it)
        forget(thread, it); /* its INIT came here, but its peer has an association */
    it = make(thread, &note->peer);
    if (!it) {
        thread->counts.failed++;
        return;
    }
    int32_t result = restore(thread, it, thread->bytes, length);
    if (result == DCSCTP_OK && note->is_silent)
        result = ask_to_speak(&it->socket);
    thread->counts.taken += result == DCSCTP_OK;
    serve(thread, it, result);
    const uint64_t away = clock_now() - note->moment;
    thread->counts.away = away > thread->counts.away ? away : thread->counts.away;
}

/* Offers some of the table's lists to the next process. After a while, the peers of what is left
 * are asked to be silent, once. */
static void leave(struct thread *thread) {
    const size_t end = (size_t)1 << thread->table_bits;
    for (size_t i = 0; i < BATCH && thread->cursor < end; i++, thread->cursor++)
        for (struct association *it = thread->table[thread->cursor], *next; it; it = next) {
            int32_t result = DCSCTP_OK;
            next = it->next;
            if (thread->silence_at == DCSCTP_NEVER && it->is_connected && !it->is_silent) {
                result = ask(&it->socket, SILENCE);
                it->is_silent = 1;
                thread->counts.silenced++;
            }
            serve(thread, it, result);
        }
    if (thread->now >= thread->silence_at) {
        thread->silence_at = DCSCTP_NEVER;
        thread->cursor = 0;
    }
}

/* Lets the next process read the sockets, once it has all associations. */
static void end_leaving(struct thread *thread) {
    struct note note = {NOTE_SOCKET, 0, {0}, 0, 0};
    for (unsigned i = 0; i < thread->start->socket_count; i++)
        if (thread->reads[i] && !thread->keeps_sockets) {
            epoll_ctl(thread->epoll, EPOLL_CTL_DEL, thread->start->sockets[i], NULL);
            note.index = i;
            note_send(thread->next[i % thread->next_count], &note, NULL, 0);
        }
    note.kind = NOTE_LEFT;
    note_send(thread->start->first, &note, NULL, 0);
    thread->has_left = 1;
}

/* ---- All of them ---------------------------------------------------------------------------- */

/* The association that a packet is for, or NULL. An INIT makes one, or gives its peer time. */
static struct association *receiver_of(struct thread *thread, const struct sockaddr_in *peer,
                                       const uint8_t *packet, size_t length) {
    struct association *it = find(thread, peer);
    if (thread->ends_at != DCSCTP_NEVER || thread->next_count > 0 || !is_init(packet, length))
        return it;
    if (!it) {
        if (thread->deadlines.count < thread->start->capacity)
            it = make(thread, peer);
        thread->counts.made += it != NULL;
        thread->counts.refused += it == NULL;
        return it;
    }
    if (!it->is_connected)
        it->gone_at = thread->now + TO_CONNECT * SECOND;
    return it;
}

static void forward(struct thread *thread, int channel, const struct sockaddr_in *peer,
                    const uint8_t *packet, size_t length) {
    const struct note note = {NOTE_PACKET, 0, *peer, 0, 0};
    thread->counts.forwarded += note_send(channel, &note, packet, length) == 0;
}

static void handle_packet(struct thread *thread, const struct sockaddr_in *peer,
                          const uint8_t *packet, size_t length) {
    struct association *it = receiver_of(thread, peer, packet, length);
    if (!it && thread->next_count > 0)
        forward(thread, thread->next[port_thread(peer, thread->next_count)], peer, packet, length);
    if (!it)
        return;
    int32_t result = dcsctp_advance_time(&it->socket, thread->now);
    if (result == DCSCTP_OK)
        result = dcsctp_handle_input(&it->socket, packet, length);
    serve(thread, it, result);
}

/* Hands in the packets that have come, so many at most. */
static void take_packets(struct thread *thread, int file) {
    const struct start *start = thread->start;
    uint8_t packet[PACKET];
    for (int i = 0; i < BATCH; i++) {
        struct sockaddr_in peer;
        socklen_t size = sizeof peer;
        ssize_t length = recvfrom(file, packet, sizeof packet, MSG_DONTWAIT,
                                  (struct sockaddr *)&peer, &size);
        if (length < 0)
            break;
        thread->counts.received++;
        record(thread, packet, (size_t)length);
        const unsigned owner = port_thread(&peer, start->threads);
        if (owner == start->index)
            handle_packet(thread, &peer, packet, (size_t)length);
        else
            forward(thread, start->channels[owner], &peer, packet, (size_t)length);
    }
}

static void handle_timers(struct thread *thread) {
    struct deadline *first;
    while ((first = deadlines_first(&thread->deadlines)) && first->moment <= thread->now) {
        struct association *it = (struct association *)first;
        if (it->gone_at <= thread->now)
            forget(thread, it);
        else
            serve(thread, it, dcsctp_advance_time(&it->socket, thread->now));
    }
}

/* Makes a call for each association that is connected. */
static void call_all(struct thread *thread, int32_t (*call)(dcsctp_socket *)) {
    for (size_t i = 0; i < (size_t)1 << thread->table_bits; i++)
        for (struct association *it = thread->table[i], *next; it; it = next) {
            next = it->next;
            if (it->is_connected)
                serve(thread, it, call(&it->socket));
        }
}

/* ---- Notes ---------------------------------------------------------------------------------- */

static void watch(struct thread *thread, int file) {
    struct epoll_event event = {EPOLLIN, {.fd = file}};
    if (epoll_ctl(thread->epoll, EPOLL_CTL_ADD, file, &event) != 0)
        fail("epoll");
}

static void read_socket(struct thread *thread, unsigned index) {
    const struct note note = {NOTE_READS, index, {0}, 0, 0};
    if (thread->reads[index])
        return;
    watch(thread, thread->start->sockets[index]);
    thread->reads[index] = 1;
    note_send(thread->start->first, &note, NULL, 0);
}

static void begin_leaving(struct thread *thread, uint32_t index, size_t length) {
    thread->keeps_sockets = index == 1;
    thread->next_count = (unsigned)(length / sizeof thread->next[0]);
    memcpy(thread->next, thread->bytes, length);
    thread->cursor = 0;
    thread->silence_at = thread->now + PATIENCE;
}

/* The next process has ended: what is still here stays. */
static void stop_leaving(struct thread *thread) {
    for (unsigned i = 0; thread->has_left && i < thread->start->socket_count; i++)
        if (thread->reads[i] && !thread->keeps_sockets)
            watch(thread, thread->start->sockets[i]);
    thread->next_count = 0;
    thread->has_left = 0;
    call_all(thread, ask_to_speak);
}

static void report(struct thread *thread, uint32_t index) {
    const struct note note = {NOTE_COUNTS, index, {0}, 0, 0};
    note_send(thread->start->first, &note, &thread->counts, sizeof thread->counts);
}

static void handle_note(struct thread *thread, const struct note *note, size_t length) {
    uint8_t packet[PACKET];
    switch (note->kind) {
    case NOTE_PACKET:
        memcpy(packet, thread->bytes, length); /* (the bytes get a message that it completes) */
        handle_packet(thread, &note->peer, packet, length);
        break;
    case NOTE_ASSOCIATION:
        take_over(thread, note, length);
        break;
    case NOTE_SOCKET:
        read_socket(thread, note->index);
        break;
    case NOTE_LEAVE:
        begin_leaving(thread, note->index, length);
        break;
    case NOTE_STAY:
        stop_leaving(thread);
        break;
    case NOTE_REPORT:
        report(thread, note->index);
        break;
    case NOTE_END:
        thread->ends_at = thread->now + TO_END * SECOND;
        call_all(thread, dcsctp_shutdown);
        break;
    default:
        break;
    }
}

static void take_notes(struct thread *thread) {
    struct note note;
    size_t length;
    for (int i = 0; i < BATCH && note_take(thread->start->own, &note, thread->bytes, &length); i++)
        handle_note(thread, &note, length);
}

/* ---- The loop ------------------------------------------------------------------------------- */

static void create(struct thread *thread, struct start *start) {
    thread->start = start;
    thread->now = clock_now();
    thread->ends_at = DCSCTP_NEVER;
    thread->table_bits = 1;
    while ((size_t)1 << thread->table_bits < start->capacity)
        thread->table_bits++;
    thread->table = calloc((size_t)1 << thread->table_bits, sizeof *thread->table);
    thread->room = start->capacity;
    thread->deadlines.entries = calloc(thread->room, sizeof *thread->deadlines.entries);
    thread->epoll = epoll_create1(EPOLL_CLOEXEC);
    if (!thread->table || !thread->deadlines.entries || thread->epoll < 0)
        fail("thread");
    fill_random(&thread->secret, sizeof thread->secret);
    dcsctp_options_init(&thread->options);
    thread->options.max_receiver_window_buffer_size = WINDOW;
    thread->options.max_send_buffer_size = SEND_BUFFER;
    thread->options.per_stream_send_queue_limit = SEND_BUFFER;
    thread->options.total_buffered_amount_low_threshold = SEND_BUFFER / 2;
    thread->options.enable_handover_with_outstanding_data = 1;
    watch(thread, start->own);
}

/* How many milliseconds there are until there is something to do; -1 if there is nothing. */
static int milliseconds(const struct thread *thread) {
    const struct deadline *first = deadlines_first(&thread->deadlines);
    const uint64_t now = clock_now();
    uint64_t moment = first ? first->moment : DCSCTP_NEVER;
    moment = earlier(moment, thread->ends_at);
    if (thread->next_count > 0 && !thread->has_left) {
        moment = earlier(moment, thread->silence_at);
        moment = thread->cursor >> thread->table_bits ? moment : 0;
    }
    if (moment == DCSCTP_NEVER)
        return -1;
    if (moment <= now)
        return 0;
    return moment - now < 60 * SECOND ? (int)((moment - now + 999999) / 1000000) : 60000;
}

static void turn(struct thread *thread) {
    struct epoll_event events[16];
    int count = epoll_wait(thread->epoll, events, 16, milliseconds(thread));
    if (count < 0 && errno != EINTR)
        fail("epoll_wait");
    thread->now = clock_now();
    for (int i = 0; i < count; i++) {
        if (events[i].data.fd == thread->start->own)
            take_notes(thread);
        else
            take_packets(thread, events[i].data.fd);
    }
    handle_timers(thread);
    if (thread->next_count > 0 && !thread->has_left) {
        leave(thread);
        if (thread->deadlines.count == 0)
            end_leaving(thread);
    }
}

void *thread_run(void *start) {
    const struct note ended = {NOTE_ENDED, 0, {0}, 0, 0};
    struct thread *thread = calloc(1, sizeof *thread);
    if (!thread)
        fail("thread");
    create(thread, start);
    while (thread->ends_at == DCSCTP_NEVER || thread->deadlines.count > 0) {
        turn(thread);
        if (thread->now >= thread->ends_at)
            break;
    }
    const uint64_t left = thread->counts.connected;
    struct deadline *first;
    call_all(thread, dcsctp_close);
    while ((first = deadlines_first(&thread->deadlines)))
        forget(thread, (struct association *)first);
    thread->counts.aborted += left;
    thread->start->counts = thread->counts;
    note_send(thread->start->first, &ended, NULL, 0);
    close(thread->epoll);
    free(thread->table);
    free(thread->deadlines.entries);
    free(thread);
    return NULL;
}
