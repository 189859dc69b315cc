/* The version, the numbers behind the names of dcsctp.h, and what dcsctp_error_text and
 * dcsctp_event_name say of each number, known or not. */
#include "pair.h"

#define COUNT(rows) (sizeof(rows) / sizeof *(rows))

/* Ends the program unless a text is the one that is expected. */
static void says(const char *name, const char *text, const char *expected) {
    if (strcmp(text, expected) != 0) {
        fprintf(stderr, "names: %s: '%s', not '%s'\n", name, text, expected);
        exit(1);
    }
}

/* A name of dcsctp.h, its number, and its text. */
struct row {
    int64_t name, number;
    const char *text;
};

static void errors(void) {
    static const struct row rows[] = {
        {DCSCTP_OK, 0, "no error"},
        {DCSCTP_ERROR_OUT_OF_MEMORY, -1, "out of memory"},
        {DCSCTP_ERROR_FAILED, -2, "an allocation failed in an earlier call"},
        {DCSCTP_ERROR_NO_SOCKET, -3, "there is no socket"},
        {DCSCTP_ERROR_ALREADY_CREATED, -4, "there is a socket already"},
        {DCSCTP_ERROR_INVALID_OPTIONS, -5, "no socket can be made with these options or this seed"},
        {DCSCTP_ERROR_BUFFER_TOO_SMALL, -6, "the buffer is too small"},
        {DCSCTP_ERROR_NOTHING_TO_COPY, -7, "there is nothing to copy"},
        {DCSCTP_ERROR_EMPTY_PAYLOAD, -8, "the message has no bytes"},
        {DCSCTP_ERROR_MESSAGE_TOO_LARGE, -9, "the message is too large"},
        {DCSCTP_ERROR_RESOURCE_EXHAUSTION, -10, "the send buffer is full"},
        {DCSCTP_ERROR_SHUTTING_DOWN, -11, "the association is being shut down"},
        {DCSCTP_ERROR_NOT_CONNECTED, -12, "the peer isn't connected"},
        {DCSCTP_ERROR_NOT_SUPPORTED, -13, "the peer doesn't reset streams"},
        {DCSCTP_ERROR_NOT_READY, -14, "the socket can't be handed over now"},
        {DCSCTP_ERROR_INVALID_SNAPSHOT, -15, "the snapshot isn't valid"},
        {DCSCTP_ERROR_NOT_CLOSED, -16, "the socket isn't closed"},
        {DCSCTP_ERROR_INVALID_SEND_OPTIONS, -17, "the message can't be sent with these options"},
        {DCSCTP_ERROR_WRONG_SIZE, -18, "the struct has another size in the library"},
        {DCSCTP_ERROR_OTHER_OPTIONS, -19, "the snapshot is of a socket with other options"},
        {DCSCTP_ERROR_HAS_CHANNELS, -20, "the socket has data channels"},
        {DCSCTP_ERROR_NO_CHANNEL, -21, "there is no such data channel"},
        {DCSCTP_ERROR_STREAM_IN_USE, -22, "the stream is in use"},
        {DCSCTP_ERROR_ENDED, -23, "the association has ended"},
    };
    for (size_t i = 0; i < COUNT(rows); i++) {
        EQUAL(rows[i].text, rows[i].name, rows[i].number);
        says("an error", dcsctp_error_text((int32_t)rows[i].number), rows[i].text);
    }
    EQUAL("no seed", DCSCTP_ERROR_NO_SEED, -1002);
    for (int32_t number = -(int32_t)COUNT(rows); number > -70000; number--)
        says("an unknown error", dcsctp_error_text(number),
             number == -1002 ? "the system has no random numbers" : "unknown");
    says("the least number", dcsctp_error_text(INT32_MIN), "unknown");
    for (int32_t number = 1; number < 70000; number++)
        says("no error", dcsctp_error_text(number), "no error");
    says("the greatest number", dcsctp_error_text(INT32_MAX), "no error");
}

static void events(void) {
    static const struct row rows[] = {
        {DCSCTP_EVENT_NONE, 0, "none"},
        {DCSCTP_EVENT_SEND_PACKET, 1, "send packet"},
        {DCSCTP_EVENT_CONNECTED, 2, "connected"},
        {DCSCTP_EVENT_CLOSED, 3, "closed"},
        {DCSCTP_EVENT_CONNECTION_RESTARTED, 4, "connection restarted"},
        {DCSCTP_EVENT_ABORTED, 5, "aborted"},
        {DCSCTP_EVENT_ERROR, 6, "error"},
        {DCSCTP_EVENT_BUFFERED_AMOUNT_LOW, 7, "buffered amount low"},
        {DCSCTP_EVENT_TOTAL_BUFFERED_AMOUNT_LOW, 8, "total buffered amount low"},
        {DCSCTP_EVENT_STREAMS_RESET_FAILED, 9, "streams reset failed"},
        {DCSCTP_EVENT_STREAMS_RESET_PERFORMED, 10, "streams reset performed"},
        {DCSCTP_EVENT_INCOMING_STREAM_RESET, 11, "incoming stream reset"},
        {DCSCTP_EVENT_LIFECYCLE_FULLY_SENT, 12, "message fully sent"},
        {DCSCTP_EVENT_LIFECYCLE_MAYBE_EXPIRED, 13, "message maybe expired"},
        {DCSCTP_EVENT_LIFECYCLE_EXPIRED, 14, "message expired"},
        {DCSCTP_EVENT_LIFECYCLE_DELIVERED, 15, "message delivered"},
        {DCSCTP_EVENT_LIFECYCLE_END, 16, "message ended"},
    };
    EQUAL("all kinds", COUNT(rows), KINDS);
    for (size_t i = 0; i < COUNT(rows); i++) {
        EQUAL(rows[i].text, rows[i].name, rows[i].number);
        says("a kind of event", dcsctp_event_name((uint32_t)rows[i].number), rows[i].text);
    }
    for (uint32_t number = COUNT(rows); number < 70000; number++)
        says("an unknown kind", dcsctp_event_name(number), "unknown");
    says("the greatest number", dcsctp_event_name(UINT32_MAX), "unknown");
}

/* The names that have no text. */
static void others(void) {
    static const struct row rows[] = {
        {DCSCTP_KIND_NO_ERROR, 0, "no error"},
        {DCSCTP_KIND_TOO_MANY_RETRIES, 1, "too many retries"},
        {DCSCTP_KIND_NOT_CONNECTED, 2, "not connected"},
        {DCSCTP_KIND_PARSE_FAILED, 3, "parse failed"},
        {DCSCTP_KIND_WRONG_SEQUENCE, 4, "wrong sequence"},
        {DCSCTP_KIND_PEER_REPORTED, 5, "peer reported"},
        {DCSCTP_KIND_PROTOCOL_VIOLATION, 6, "protocol violation"},
        {DCSCTP_KIND_RESOURCE_EXHAUSTION, 7, "resource exhaustion"},
        {DCSCTP_KIND_UNSUPPORTED_OPERATION, 8, "unsupported operation"},
        {DCSCTP_STATE_CLOSED, 0, "closed"},
        {DCSCTP_STATE_CONNECTING, 1, "connecting"},
        {DCSCTP_STATE_CONNECTED, 2, "connected"},
        {DCSCTP_STATE_SHUTTING_DOWN, 3, "shutting down"},
        {DCSCTP_PEER_UNKNOWN, 0, "unknown"},
        {DCSCTP_PEER_DCSCTP_RS, 1, "in Rust"},
        {DCSCTP_PEER_DCSCTP_CC, 2, "in C++"},
        {DCSCTP_PEER_USRSCTP, 3, "usrsctp"},
        {DCSCTP_PEER_OTHER, 4, "other"},
        {DCSCTP_CHANNEL_RELIABLE, 0, "reliable"},
        {DCSCTP_CHANNEL_RETRANSMISSIONS, 1, "retransmissions"},
        {DCSCTP_CHANNEL_LIFETIME, 2, "lifetime"},
        {DCSCTP_CHANNEL_TEXT, 1, "text"},
        {DCSCTP_CHANNEL_BINARY, 2, "binary"},
        {DCSCTP_CHANNEL_EVENT_NONE, 0, "none"},
        {DCSCTP_CHANNEL_EVENT_SEND_PACKET, 1, "send packet"},
        {DCSCTP_CHANNEL_EVENT_CONNECTED, 2, "connected"},
        {DCSCTP_CHANNEL_EVENT_OPENED, 3, "opened"},
        {DCSCTP_CHANNEL_EVENT_INCOMING, 4, "incoming"},
        {DCSCTP_CHANNEL_EVENT_MESSAGE, 5, "message"},
        {DCSCTP_CHANNEL_EVENT_BUFFERED_AMOUNT_LOW, 6, "buffered amount low"},
        {DCSCTP_CHANNEL_EVENT_CLOSED, 7, "closed"},
        {DCSCTP_CHANNEL_EVENT_ENDED, 8, "ended"},
        {DCSCTP_CHANNEL_CLOSED_BY_RESETS, 0, "by resets"},
        {DCSCTP_CHANNEL_REFUSED, 1, "refused"},
        {DCSCTP_CHANNEL_CANT_BE_RESET, 2, "can't be reset"},
        {DCSCTP_CHANNEL_LOST, 3, "lost"},
        {DCSCTP_CHANNEL_NO_STREAM, 4, "no stream"},
        {DCSCTP_CHANNEL_CONNECTING, 0, "connecting"},
        {DCSCTP_CHANNEL_OPEN, 1, "open"},
        {DCSCTP_CHANNEL_CLOSING, 2, "closing"},
        {DCSCTP_CHANNEL_CLOSED, 3, "closed"},
    };
    for (size_t i = 0; i < COUNT(rows); i++)
        EQUAL(rows[i].text, rows[i].name, rows[i].number);
}

#ifdef UNPROVED
#define MARK DCSCTP_VERSION_UNPROVED
#else
#define MARK 0
#endif

/* The library is of the version that the header says: 0.1.0. Its highest bit says that it isn't proved. */
static void version(void) {
    const uint32_t version = dcsctp_version() - MARK;
    EQUAL("of the header", version, DCSCTP_VERSION);
    EQUAL("as a number", version, 256);
    EQUAL("major", version >> 16, DCSCTP_VERSION_MAJOR);
    EQUAL("minor", version >> 8 & 255, DCSCTP_VERSION_MINOR);
    EQUAL("patch", version & 255, DCSCTP_VERSION_PATCH);
    EQUAL("mark", DCSCTP_VERSION_UNPROVED, 0x80000000);
}

int main(void) {
    version();
    errors();
    events();
    others();
    puts("names: each has its number and its text");
    return 0;
}
