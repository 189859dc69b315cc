/* Messages that are ready when their association ends, and weren't taken: by `follow_rfc` they can still be
 * taken until the next association begins, and else they are lost. */
#include "pair.h"

static struct pair pair;

/* How many messages can be taken. Each is `hello`, copied and shown. */
static size_t take_hellos(struct end *end) {
    dcsctp_message message;
    size_t count = 0, ready = 77;
    EQUAL("ready", dcsctp_messages_ready_count(&end->socket, &ready), DCSCTP_OK);
    while (dcsctp_get_next_message(&end->socket, &message) == 1) {
        uint8_t bytes[5];
        const uint8_t *view = NULL;
        size_t length = 77;
        EQUAL("its stream", message.stream_id, 1);
        EQUAL("its protocol", message.ppid, 51);
        EQUAL("its bytes", dcsctp_message_bytes(&end->socket, bytes, 5, &length), DCSCTP_OK);
        EQUAL("its bytes", length == 5 && memcmp(bytes, "hello", 5) == 0, 1);
        EQUAL("its view", dcsctp_message_view(&end->socket, &view, &length), DCSCTP_OK);
        EQUAL("its view", length == 5 && memcmp(view, "hello", 5) == 0, 1);
        count++;
    }
    EQUAL("all that were ready", count, ready);
    return count;
}

/* A pair that is connected. A has sent a message, which isn't taken from A yet. */
static void say_hello(uint32_t follow_rfc) {
    dcsctp_options options = quiet_options();
    const dcsctp_send_options how = DCSCTP_SEND_INIT;
    options.follow_rfc = follow_rfc;
    connect_pair(&pair, &options, &options);
    EQUAL("send", dcsctp_send(&pair.a.socket, 1, 51, (const uint8_t *)"hello", 5, &how), DCSCTP_OK);
}

/* B is closed, with this last event, and has the message or not. */
static void after_the_end(const char *name, uint32_t kind, uint32_t follow_rfc) {
    while (take(&pair.b) != DCSCTP_EVENT_NONE)
        ;
    EQUAL(name, dcsctp_state(&pair.b.socket), DCSCTP_STATE_CLOSED);
    EQUAL(name, pair.b.seen[kind], 1);
    EQUAL(name, take_hellos(&pair.b), follow_rfc);
    EQUAL(name, take_hellos(&pair.b), 0);
    destroy_pair(&pair);
}

/* The packets of a message and of an ABORT come together, and are handed in one after the other. */
static void packets_of_one_batch(uint32_t follow_rfc) {
    say_hello(follow_rfc);
    EQUAL("close", dcsctp_close(&pair.a.socket), DCSCTP_OK);
    EQUAL("DATA and ABORT", carry(&pair.a, &pair.b), 2);
    after_the_end("packets of one batch", DCSCTP_EVENT_ABORTED, follow_rfc);
}

/* They come in one packet: behind the DATA stands an ABORT (RFC 9260, section 3.3.7). */
static void chunks_of_one_packet(uint32_t follow_rfc) {
    static const uint8_t abort_chunk[] = {6, 0, 0, 4};
    say_hello(follow_rfc);
    take_packet(&pair.a);
    EQUAL("DATA", pair.a.packet[12], 0);
    memcpy(pair.a.packet + pair.a.length, abort_chunk, 4);
    put_checksum(pair.a.packet, pair.a.length + 4);
    EQUAL("both", dcsctp_handle_input(&pair.b.socket, pair.a.packet, pair.a.length + 4), DCSCTP_OK);
    after_the_end("chunks of one packet", DCSCTP_EVENT_ABORTED, follow_rfc);
}

/* The peer shuts down. */
static void peer_shuts_down(uint32_t follow_rfc) {
    say_hello(follow_rfc);
    settle(&pair);
    EQUAL("shutdown", dcsctp_shutdown(&pair.a.socket), DCSCTP_OK);
    for (int i = 0; i < 10 && dcsctp_state(&pair.b.socket) != DCSCTP_STATE_CLOSED; i++) {
        settle(&pair);
        pass(&pair, 1 * SECONDS);
    }
    after_the_end("the peer shuts down", DCSCTP_EVENT_CLOSED, follow_rfc);
}

/* This end closes, or shuts down, before it takes the message. */
static void this_end_ends(int shuts_down, uint32_t follow_rfc) {
    say_hello(follow_rfc);
    settle(&pair);
    EQUAL("the end", shuts_down ? dcsctp_shutdown(&pair.b.socket) : dcsctp_close(&pair.b.socket), DCSCTP_OK);
    for (int i = 0; i < 10 && dcsctp_state(&pair.b.socket) != DCSCTP_STATE_CLOSED; i++) {
        settle(&pair);
        pass(&pair, 1 * SECONDS);
    }
    after_the_end("this end", DCSCTP_EVENT_CLOSED, follow_rfc);
}

/* A message that wasn't taken before the next association is lost, by whichever end that begins. */
static void until_the_next(int which) {
    say_hello(1);
    EQUAL("close", dcsctp_close(&pair.a.socket), DCSCTP_OK);
    settle(&pair);
    EQUAL("closed", dcsctp_state(&pair.b.socket), DCSCTP_STATE_CLOSED);
    EQUAL("connect", dcsctp_connect(which ? &pair.b.socket : &pair.a.socket), DCSCTP_OK);
    settle(&pair);
    EQUAL("connected", dcsctp_state(&pair.b.socket), DCSCTP_STATE_CONNECTED);
    EQUAL("connected twice", pair.b.seen[DCSCTP_EVENT_CONNECTED], 2);
    EQUAL("it is lost", take_hellos(&pair.b), 0);
    destroy_pair(&pair);
}

int main(void) {
    for (uint32_t follow_rfc = 0; follow_rfc <= 1; follow_rfc++) {
        packets_of_one_batch(follow_rfc);
        chunks_of_one_packet(follow_rfc);
        peer_shuts_down(follow_rfc);
        this_end_ends(0, follow_rfc);
        this_end_ends(1, follow_rfc);
    }
    until_the_next(0);
    until_the_next(1);
    puts("kept: messages that are ready outlast their association");
    return 0;
}
