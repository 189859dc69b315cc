/* Queries: they change nothing of a socket, even where it can't be written, and what was taken is shown where
 * it lies. What a socket has counted outlasts its association. Its verification tag is that of the packets. */
#define _GNU_SOURCE
#include "pair.h"

#include <sys/mman.h>

static struct pair pair;

/* ---- Sockets that can't be written ---------------------------------------------------------- */

/* What all queries of a socket return and write. */
struct answers {
    int32_t results[18];
    uint64_t deadline;
    size_t ready, amount, threshold, bytes_length, streams_length, message_length, snapshot_length;
    size_t packet_length, payload_length;
    const uint8_t *packet, *payload;
    dcsctp_options options;
    dcsctp_metrics metrics;
    dcsctp_counts counts;
    uint32_t reasons, tag;
    uint16_t priority, streams[4];
    uint8_t bytes[1500], message[1500], snapshot[5000];
};

static struct answers ask(const dcsctp_socket *socket) {
    struct answers all;
    memset(&all, 0, sizeof all);
    all.options.size = sizeof all.options;
    all.metrics.size = sizeof all.metrics;
    all.counts.size = sizeof all.counts;
    const int32_t results[] = {
        dcsctp_state(socket),
        dcsctp_has_failed(socket),
        dcsctp_verification_tag(socket, &all.tag),
        dcsctp_poll_timeout(socket, &all.deadline),
        dcsctp_messages_ready_count(socket, &all.ready),
        dcsctp_buffered_amount(socket, 1, &all.amount),
        dcsctp_buffered_amount_low_threshold(socket, 1, &all.threshold),
        dcsctp_get_stream_priority(socket, 1, &all.priority),
        dcsctp_get_options(socket, &all.options),
        dcsctp_get_metrics(socket, &all.metrics),
        dcsctp_get_counts(socket, &all.counts),
        dcsctp_get_handover_readiness(socket, &all.reasons),
        dcsctp_event_view(socket, &all.packet, &all.packet_length),
        dcsctp_event_bytes(socket, all.bytes, sizeof all.bytes, &all.bytes_length),
        dcsctp_event_streams(socket, all.streams, 4, &all.streams_length),
        dcsctp_message_view(socket, &all.payload, &all.payload_length),
        dcsctp_message_bytes(socket, all.message, sizeof all.message, &all.message_length),
        dcsctp_handover_bytes(socket, all.snapshot, sizeof all.snapshot, &all.snapshot_length),
    };
    memcpy(all.results, results, sizeof results);
    return all;
}

/* The socket is moved to a page, and asked twice there: as it is, and where the page can't be written. */
static void asked_alike(const char *name, dcsctp_socket *socket) {
    dcsctp_socket *page = mmap(NULL, 65536, PROT_READ | PROT_WRITE, MAP_PRIVATE | MAP_ANONYMOUS, -1, 0);
    EQUAL("a page", page != MAP_FAILED, 1);
    *page = *socket;
    const struct answers first = ask(page);
    EQUAL("it can't be written", mprotect(page, 65536, PROT_READ), 0);
    const struct answers second = ask(page);
    EQUAL(name, memcmp(&first, &second, sizeof first), 0);
    EQUAL(name, page->at == socket->at && page->mark == socket->mark, 1);
    munmap(page, 65536);
}

/* Without a socket, with one that has nothing, and with one from which each kind was taken. */
static void sockets_that_cant_be_written(void) {
    const dcsctp_options options = quiet_options();
    const uint16_t ids[] = {1};
    dcsctp_socket none = DCSCTP_SOCKET_INIT;
    dcsctp_message message;
    asked_alike("none", &none);
    create_pair(&pair, &options, &options);
    asked_alike("new", &pair.a.socket);
    destroy_pair(&pair);
    connect_pair(&pair, &options, &options);
    EQUAL("send", send_bytes(&pair.a, 1, 10), DCSCTP_OK);
    take_packet(&pair.a);
    asked_alike("with a packet", &pair.a.socket);
    EQUAL("it arrives", dcsctp_handle_input(&pair.b.socket, pair.a.packet, pair.a.length), 0);
    EQUAL("a message", dcsctp_get_next_message(&pair.b.socket, &message), 1);
    asked_alike("with a message", &pair.b.socket);
    settle(&pair);
    EQUAL("reset", dcsctp_reset_streams(&pair.a.socket, ids, 1), DCSCTP_OK);
    EQUAL("its request", carry(&pair.a, &pair.b), 1);
    EQUAL("its event", take(&pair.b), DCSCTP_EVENT_INCOMING_STREAM_RESET);
    asked_alike("with streams", &pair.b.socket);
    settle(&pair);
    EQUAL("handover", dcsctp_get_handover_state_and_close(&pair.b.socket), DCSCTP_OK);
    asked_alike("with a snapshot", &pair.b.socket);
    destroy_pair(&pair);
}

/* ---- Views ---------------------------------------------------------------------------------- */

/* What is shown has the bytes that are copied, and it is hard to miss a byte of them. */
static void same_bytes(const char *name, const uint8_t *shown, size_t shown_length,
                       const uint8_t *copied, size_t copied_length) {
    EQUAL(name, shown_length, copied_length);
    EQUAL(name, memcmp(shown, copied, copied_length), 0);
}

/* Nothing is shown: the length is 0, and the pointer isn't written. */
static void shows_nothing(const char *name, const dcsctp_socket *socket, int is_message) {
    const uint8_t mark = 77, *at = &mark;
    size_t length = 77;
    EQUAL(name, is_message ? dcsctp_message_view(socket, &at, &length)
                           : dcsctp_event_view(socket, &at, &length),
          DCSCTP_ERROR_NOTHING_TO_COPY);
    EQUAL(name, length, 0);
    EQUAL(name, at == &mark, 1);
}

/* Packets go to the other end from where they lie. Returns how many there were. */
static size_t carry_in_place(struct end *from, struct end *to) {
    dcsctp_event event;
    size_t count = 0;
    while (dcsctp_poll_event(&from->socket, &event) == 1) {
        const uint8_t *bytes = NULL;
        size_t length = 77;
        if (event.kind != DCSCTP_EVENT_SEND_PACKET) {
            shows_nothing("another event", &from->socket, 0);
            continue;
        }
        EQUAL("a packet", dcsctp_event_view(&from->socket, &bytes, &length), DCSCTP_OK);
        EQUAL("its length", length, event.length);
        /* what was shown stays while the socket is asked */
        const struct answers all = ask(&from->socket);
        same_bytes("a packet", bytes, length, all.bytes, all.bytes_length);
        EQUAL("again", all.packet == bytes, 1);
        EQUAL("handled", dcsctp_handle_input(&to->socket, bytes, length), DCSCTP_OK);
        count++;
    }
    shows_nothing("no event is left", &from->socket, 0);
    return count;
}

/* An association, two messages and its end, without a copy. */
static void without_copies(void) {
    const dcsctp_options options = quiet_options();
    const dcsctp_send_options how = DCSCTP_SEND_INIT;
    const char *texts[] = {"hello", "and good bye"};
    dcsctp_message message;
    create_pair(&pair, &options, &options);
    shows_nothing("no event yet", &pair.a.socket, 0);
    shows_nothing("no message yet", &pair.b.socket, 1);
    EQUAL("connect", dcsctp_connect(&pair.a.socket), DCSCTP_OK);
    for (int i = 0; i < 2; i++)
        EQUAL("send", dcsctp_send(&pair.a.socket, 1, 51, (const uint8_t *)texts[i], strlen(texts[i]), &how),
              DCSCTP_OK);
    while (carry_in_place(&pair.a, &pair.b) + carry_in_place(&pair.b, &pair.a) > 0)
        ;
    EQUAL("connected", dcsctp_state(&pair.b.socket), DCSCTP_STATE_CONNECTED);
    for (int i = 0; i < 2; i++) {
        const uint8_t *bytes = NULL;
        size_t length = 77;
        EQUAL("a message", dcsctp_get_next_message(&pair.b.socket, &message), 1);
        EQUAL("shown", dcsctp_message_view(&pair.b.socket, &bytes, &length), DCSCTP_OK);
        ask(&pair.b.socket);
        same_bytes("a message", bytes, length, (const uint8_t *)texts[i], strlen(texts[i]));
    }
    EQUAL("no third", dcsctp_get_next_message(&pair.b.socket, &message), 0);
    shows_nothing("no message is left", &pair.b.socket, 1);
    EQUAL("close", dcsctp_close(&pair.a.socket), DCSCTP_OK);
    EQUAL("the last packet", carry_in_place(&pair.a, &pair.b), 1);
    EQUAL("closed", dcsctp_state(&pair.b.socket), DCSCTP_STATE_CLOSED);
    destroy_pair(&pair);
}

/* ---- Counts --------------------------------------------------------------------------------- */

static dcsctp_counts counts_of(const struct end *end) {
    dcsctp_counts counts;
    counts.size = sizeof counts;
    EQUAL("counts", dcsctp_get_counts(&end->socket, &counts), DCSCTP_OK);
    EQUAL("size", counts.size, 32);
    return counts;
}

/* The counts are those of the packets that were taken and handed in here, and of the messages. */
static void counted(const char *name, size_t of_a, size_t of_b, size_t messages) {
    const dcsctp_counts a = counts_of(&pair.a), b = counts_of(&pair.b);
    EQUAL(name, a.tx_packets_count, of_a);
    EQUAL(name, b.rx_packets_count, of_a);
    EQUAL(name, b.tx_packets_count, of_b);
    EQUAL(name, a.rx_packets_count, of_b);
    EQUAL(name, a.tx_messages_count, messages);
    EQUAL(name, b.tx_messages_count, 0);
}

/* What was counted is there before an association, in it, after its end, and in the next. */
static void counts(void) {
    const dcsctp_options options = quiet_options();
    dcsctp_metrics metrics;
    metrics.size = sizeof metrics;
    create_pair(&pair, &options, &options);
    counted("new", 0, 0, 0);
    EQUAL("connect", dcsctp_connect(&pair.a.socket), DCSCTP_OK);
    settle(&pair);
    /* INIT and COOKIE ECHO; INIT ACK and COOKIE ACK (RFC 9260, section 5.1) */
    counted("connected", 2, 2, 0);
    for (int i = 0; i < 3; i++)
        EQUAL("send", send_bytes(&pair.a, 1, 10), DCSCTP_OK);
    settle(&pair);
    counted("with messages", pair.a.packets, pair.b.packets, 3);
    EQUAL("close", dcsctp_close(&pair.a.socket), DCSCTP_OK);
    settle(&pair);
    EQUAL("no metrics", dcsctp_get_metrics(&pair.a.socket, &metrics), 0);
    counted("closed", pair.a.packets, pair.b.packets, 3);
    EQUAL("connect again", dcsctp_connect(&pair.a.socket), DCSCTP_OK);
    settle(&pair);
    counted("again", pair.a.packets, pair.b.packets, 3);
    EQUAL("it sent", metrics_of(&pair.a).tx_packets_count, counts_of(&pair.a).tx_packets_count);
    destroy_pair(&pair);
}

/* ---- The verification tag ------------------------------------------------------------------- */

enum { TAG = 4, FIRST_CHUNK = 12, INITIATE_TAG = 16 }; /* where a packet has them (RFC 9260, section 3) */
enum { INIT = 1, INIT_ACK = 2, ABORT = 6, COOKIE_ECHO = 10 };

/* The tag of an end: 0 where there is no association, and only there (RFC 9260, section 5.3.1). */
static uint32_t tag_of(const struct end *end) {
    uint32_t tag = 77;
    EQUAL("a tag", dcsctp_verification_tag(&end->socket, &tag), DCSCTP_OK);
    EQUAL("0 if closed", tag == 0, dcsctp_state(&end->socket) == DCSCTP_STATE_CLOSED);
    return tag;
}

/* Takes the next packet of an end, which begins with this chunk and has this tag, and hands it to the other. */
static void carry_one(const char *name, struct end *from, struct end *to, uint32_t chunk, uint32_t tag) {
    take_packet(from);
    EQUAL(name, from->packet[FIRST_CHUNK], chunk);
    EQUAL(name, u32_at(from->packet + TAG), tag);
    EQUAL(name, dcsctp_handle_input(&to->socket, from->packet, from->length), DCSCTP_OK);
}

/* Takes all events of an end. Each packet but an INIT has the tag of the other end, and is handed to it. Returns how
 * many there were. */
static size_t carry_tagged(struct end *from, struct end *to) {
    size_t count = 0;
    uint32_t kind;
    while ((kind = take(from)) != DCSCTP_EVENT_NONE) {
        if (kind != DCSCTP_EVENT_SEND_PACKET)
            continue;
        EQUAL("the tag of a packet", u32_at(from->packet + TAG),
              from->packet[FIRST_CHUNK] == INIT ? 0 : tag_of(to));
        EQUAL("handled", dcsctp_handle_input(&to->socket, from->packet, from->length), DCSCTP_OK);
        count++;
    }
    return count;
}

/* Messages both ways, until no packet is left. Neither tag changes. */
static void exchange_tagged(struct end *a, struct end *b) {
    const uint32_t of_a = tag_of(a), of_b = tag_of(b);
    EQUAL("send", send_bytes(a, 1, 3000), DCSCTP_OK);
    EQUAL("send", send_bytes(b, 1, 3000), DCSCTP_OK);
    size_t packets = 0, more;
    while ((more = carry_tagged(a, b) + carry_tagged(b, a)) > 0)
        packets += more;
    EQUAL("packets", packets > 6, 1);
    EQUAL("A's tag", tag_of(a), of_a);
    EQUAL("B's tag", tag_of(b), of_b);
}

/* `a` connects to `b`, which is closed or has an association. The tag of `a` is that of its INIT. The tag of `b` is
 * that of its INIT ACK, once the COOKIE ECHO has come (RFC 9260, sections 3.3.2, 3.3.3, 5.1 and 5.2.4). */
static void connect_tagged(struct end *a, struct end *b) {
    const uint32_t before = tag_of(b);
    EQUAL("before", tag_of(a), 0);
    EQUAL("connect", dcsctp_connect(&a->socket), DCSCTP_OK);
    const uint32_t of_a = tag_of(a);
    carry_one("INIT", a, b, INIT, 0);
    EQUAL("the tag of an INIT", u32_at(a->packet + INITIATE_TAG), of_a);
    EQUAL("an INIT changes no tag", tag_of(b), before);
    carry_one("INIT ACK", b, a, INIT_ACK, of_a);
    const uint32_t of_b = u32_at(b->packet + INITIATE_TAG);
    EQUAL("another association", of_b != before, 1);
    EQUAL("an INIT ACK changes no tag", tag_of(a), of_a);
    carry_one("COOKIE ECHO", a, b, COOKIE_ECHO, of_b);
    EQUAL("the tag of an INIT ACK", tag_of(b), of_b);
    EQUAL("two tags", of_a != of_b, 1);
    exchange_tagged(a, b);
    EQUAL("connected", dcsctp_state(&a->socket), DCSCTP_STATE_CONNECTED);
}

/* In an association, after it, in the next, and after a restart of the peer. */
static void tags_of_associations(const dcsctp_options *options) {
    static struct end again;
    create_pair(&pair, options, options);
    connect_tagged(&pair.a, &pair.b);
    EQUAL("close", dcsctp_close(&pair.a.socket), DCSCTP_OK);
    EQUAL("closed", tag_of(&pair.a), 0);
    carry_one("ABORT", &pair.a, &pair.b, ABORT, tag_of(&pair.b));
    EQUAL("aborted", tag_of(&pair.b), 0);
    settle(&pair);
    connect_tagged(&pair.b, &pair.a);
    EQUAL("A again", create(&again, options, 3, BEGIN), DCSCTP_OK);
    connect_tagged(&again, &pair.b);
    EQUAL("a restart", pair.b.seen[DCSCTP_EVENT_CONNECTION_RESTARTED], 1);
    EQUAL("shutdown", dcsctp_shutdown(&pair.b.socket), DCSCTP_OK);
    while (carry_tagged(&pair.b, &again) + carry_tagged(&again, &pair.b) > 0)
        ;
    EQUAL("shut down", tag_of(&again), 0);
    EQUAL("shut down", tag_of(&pair.b), 0);
    dcsctp_destroy(&again.socket);
    destroy_pair(&pair);
}

/* Both ends connect, and each keeps the tag of its INIT (RFC 9260, section 5.2.1). */
static void tags_of_both_that_connect(const dcsctp_options *options) {
    create_pair(&pair, options, options);
    EQUAL("connect", dcsctp_connect(&pair.a.socket), DCSCTP_OK);
    EQUAL("connect", dcsctp_connect(&pair.b.socket), DCSCTP_OK);
    const uint32_t of_a = tag_of(&pair.a), of_b = tag_of(&pair.b);
    while (carry_tagged(&pair.a, &pair.b) + carry_tagged(&pair.b, &pair.a) > 0)
        ;
    EQUAL("connected", dcsctp_state(&pair.b.socket), DCSCTP_STATE_CONNECTED);
    EQUAL("A's tag", tag_of(&pair.a), of_a);
    EQUAL("B's tag", tag_of(&pair.b), of_b);
    exchange_tagged(&pair.a, &pair.b);
    destroy_pair(&pair);
}

/* It is handed over with its association. */
static void tag_of_a_handover(const dcsctp_options *options) {
    static struct end next;
    uint8_t snapshot[5000];
    size_t length = 0;
    create_pair(&pair, options, options);
    connect_tagged(&pair.a, &pair.b);
    pass(&pair, 1 * SECONDS);
    settle(&pair);
    const uint32_t of_a = tag_of(&pair.a);
    EQUAL("handover", dcsctp_get_handover_state_and_close(&pair.a.socket), DCSCTP_OK);
    EQUAL("bytes", dcsctp_handover_bytes(&pair.a.socket, snapshot, sizeof snapshot, &length), DCSCTP_OK);
    EQUAL("here", tag_of(&pair.a), 0);
    EQUAL("another process", create(&next, options, 3, pair.now), DCSCTP_OK);
    EQUAL("restore", dcsctp_restore_from_state(&next.socket, snapshot, length), DCSCTP_OK);
    EQUAL("there", tag_of(&next), of_a);
    exchange_tagged(&next, &pair.b);
    dcsctp_destroy(&next.socket);
    destroy_pair(&pair);
}

static void tags(void) {
    dcsctp_options options = quiet_options();
    for (options.follow_rfc = 0; options.follow_rfc <= 1; options.follow_rfc++) {
        tags_of_associations(&options);
        tags_of_both_that_connect(&options);
        tag_of_a_handover(&options);
    }
}

int main(void) {
    sockets_that_cant_be_written();
    without_copies();
    counts();
    tags();
    puts("queries: they change nothing, show what was taken, count, and name the tag of packets");
    return 0;
}
