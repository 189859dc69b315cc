/*
 * Two sockets over a link that loses one packet: a ladder of what each sends, and its user sees.
 *
 *     demo [FILE]
 *
 * The packets also go to FILE (out/demo.pcap), which Wireshark opens. Time is virtual: a packet
 * takes 20 ms, and nobody waits. The client sends messages on two streams. One of them is lost: the
 * next one on its stream waits for it, and those on the other stream don't. It is sent again after
 * three acknowledgements that lack it, before any timer. Then the client resets a stream, whose
 * numbers (ssn) begin again at 0, and shuts the association down.
 *
 * Exits with 0 only if all of that was seen.
 */
#include "trace.h"

#include <dcsctp.h>

#include <stdlib.h>
#include <string.h>

static const uint64_t MILLISECOND = 1000000, DELAY = 20000000, MINUTE = 60000000000;

/* The link holds so many packets, of at most so many bytes. The lines of the ladder are WIDTH
 * columns apart. 51 says that a message is a text (RFC 8831, section 8). */
enum { FLYING = 32, PACKET = 1200, WIDTH = 88, TEXT = 51 };
enum { CLIENT, SERVER };
static const uint16_t PORTS[] = {5001, 5000}; /* two, so that Wireshark shows who sends */

/* What the users do, and when. A message is for a stream. */
enum action { CONNECT, SEND, RESET, SHUTDOWN };
static const struct step {
    unsigned at;
    int end;
    enum action action;
    uint16_t stream;
    const char *text;
} STEPS[] = {
    {0, CLIENT, CONNECT, 0, ""},       {0, CLIENT, SEND, 1, "one"},
    {100, CLIENT, SEND, 1, "two"},     {105, CLIENT, SEND, 2, "three"},
    {110, CLIENT, SEND, 2, "four"},    {115, CLIENT, SEND, 1, "five"},
    {400, CLIENT, RESET, 1, ""},       {500, CLIENT, SEND, 1, "six"},
    {510, SERVER, SEND, 2, "thanks"},  {800, CLIENT, SHUTDOWN, 0, ""},
};
enum { STEP_COUNT = sizeof STEPS / sizeof *STEPS };

/* The message that is lost when it is sent first; and what each user must read, with the messages
 * of a stream in the order they were sent. */
static const char *const LOST = "two";
static const char *const READ[] = {"thanks ", "one three four two five six "};

struct packet {
    uint8_t bytes[PACKET];
    size_t length;
    uint64_t arrives;
    int to; /* the end that gets it */
};

struct demo {
    dcsctp_socket ends[2];
    struct packet flying[FLYING];
    size_t flying_count;
    uint64_t now;
    FILE *pcap;
    size_t steps;     /* how many are done */
    char read[2][50]; /* texts that each user has read */
    unsigned packets, lost, again, messages, connected, resets, closed;
    int is_wrong;     /* an event came that shouldn't */
};

static void fail(const char *what, const char *why) {
    fprintf(stderr, "demo: %s: %s\n", what, why);
    exit(1);
}

static void check(const char *what, int32_t result) {
    if (result < 0)
        fail(what, dcsctp_error_text(result));
}

/* ---- The ladder ----------------------------------------------------------------------------- */

/* Prints what the user of an end does or sees, beside the line of that end. */
static void print_user(const struct demo *demo, int end, const char *what) {
    printf("%4u  ", (unsigned)(demo->now / MILLISECOND));
    if (end == CLIENT)
        printf("* %-*s|\n", WIDTH - 1, what);
    else
        printf("|%*s *\n", WIDTH - 1, what);
}

/* How much of a text fits into a line, up to a blank. */
static int fitting(const char *text, int room) {
    if (strlen(text) <= (size_t)room)
        return (int)strlen(text);
    while (room > 1 && text[room] != ' ')
        room--;
    return room;
}

/* Prints a packet as an arrow with its chunks, without the ports. */
static void print_packet(const struct demo *demo, const struct packet *packet, int is_lost) {
    const char *head = packet->to == CLIENT ? "<-" : "--", *tail = packet->to == CLIENT ? "-" : ">";
    char text[1000], dashes[WIDTH];
    dcsctp_trace_packet(text, sizeof text, packet->bytes, packet->length);
    memset(dashes, '-', sizeof dashes);
    if (is_lost)
        tail = "X lost  ";
    const char *at = strchr(text, ' ') + 1;
    for (int line = 0; *at; line++) {
        const int length = fitting(at, WIDTH - 14), blank = WIDTH - 4 - length;
        if (line > 0)
            printf("      |   %.*s%*s|\n", length, at, blank + 1, "");
        else
            printf("%4u  |%s %.*s %.*s%s|\n", (unsigned)(demo->now / MILLISECOND), head, length, at,
                   blank - (int)strlen(tail), dashes, tail);
        at += length;
        at += strspn(at, " ");
    }
}

/* ---- The link ------------------------------------------------------------------------------- */

/* Does a packet have a message with this text? */
static int has_text(const struct packet *packet, const char *text) {
    const size_t length = strlen(text);
    for (size_t i = 12; i + length <= packet->length; i++)
        if (memcmp(packet->bytes + i, text, length) == 0)
            return 1;
    return 0;
}

/* Sends the packet that was taken from an end, or loses it. */
static void send_packet(struct demo *demo, int from) {
    struct packet *packet = &demo->flying[demo->flying_count];
    if (demo->flying_count == FLYING)
        fail("the link", "too many packets");
    check("event_bytes", dcsctp_event_bytes(&demo->ends[from], packet->bytes, PACKET,
                                            &packet->length));
    packet->to = from == CLIENT ? SERVER : CLIENT;
    packet->arrives = demo->now + DELAY;
    const int is_named = has_text(packet, LOST), is_lost = is_named && demo->lost == 0;
    demo->again += is_named && !is_lost;
    demo->lost += is_lost;
    demo->packets++;
    print_packet(demo, packet, is_lost);
    if (dcsctp_pcap_packet(demo->pcap, demo->now, packet->bytes, packet->length) != 0)
        fail("the file", "it can't be written");
    demo->flying_count += !is_lost;
}

/* ---- The ends ------------------------------------------------------------------------------- */

static void handle_event(struct demo *demo, int end, const dcsctp_event *event) {
    switch (event->kind) {
    case DCSCTP_EVENT_SEND_PACKET:
        send_packet(demo, end);
        return;
    case DCSCTP_EVENT_CONNECTED:
        demo->connected++;
        break;
    case DCSCTP_EVENT_CLOSED:
        demo->closed++;
        break;
    case DCSCTP_EVENT_STREAMS_RESET_PERFORMED: /* one at the client, and one at the server */
    case DCSCTP_EVENT_INCOMING_STREAM_RESET:
        demo->resets++;
        break;
    case DCSCTP_EVENT_BUFFERED_AMOUNT_LOW: /* all was sent; this program doesn't wait for it */
        return;
    default:
        demo->is_wrong = 1;
        break;
    }
    print_user(demo, end, dcsctp_event_name(event->kind));
}

static void read_message(struct demo *demo, int end, const dcsctp_message *message) {
    char text[20], line[80], *read = demo->read[end];
    const size_t before = strlen(read);
    size_t length;
    check("message_bytes", dcsctp_message_bytes(&demo->ends[end], (uint8_t *)text, sizeof text,
                                                &length));
    snprintf(line, sizeof line, "reads \"%.*s\" on stream %u", (int)length, text,
             (unsigned)message->stream_id);
    print_user(demo, end, line);
    snprintf(read + before, sizeof demo->read[end] - before, "%.*s ", (int)length, text);
    demo->messages++;
}

/* Takes all events and messages of an end. It follows each call that may add some. */
static void drain(struct demo *demo, int end) {
    dcsctp_event event;
    dcsctp_message message;
    while (dcsctp_poll_event(&demo->ends[end], &event) == 1)
        handle_event(demo, end, &event);
    while (dcsctp_get_next_message(&demo->ends[end], &message) == 1)
        read_message(demo, end, &message);
}

static void create(struct demo *demo, int end) {
    dcsctp_options options;
    uint8_t seed[32];
    dcsctp_options_init(&options);
    options.mtu = PACKET;
    options.local_port = PORTS[end];
    options.remote_port = PORTS[end == CLIENT ? SERVER : CLIENT];
    /* Each run is the same. Your program calls dcsctp_random_seed. */
    memset(seed, end + 1, sizeof seed);
    check("create", dcsctp_create(&demo->ends[end], &options, seed, 0));
}

/* Does the next step. */
static void act(struct demo *demo) {
    const struct step *step = &STEPS[demo->steps++];
    const dcsctp_send_options how = DCSCTP_SEND_INIT;
    dcsctp_socket *socket = &demo->ends[step->end];
    char line[80];
    int32_t result = DCSCTP_OK;
    switch (step->action) {
    case CONNECT:
        print_user(demo, step->end, "connects");
        result = dcsctp_connect(socket);
        break;
    case SEND:
        snprintf(line, sizeof line, "sends \"%s\" on stream %u", step->text,
                 (unsigned)step->stream);
        print_user(demo, step->end, line);
        result = dcsctp_send(socket, step->stream, TEXT, (const uint8_t *)step->text,
                             strlen(step->text), &how);
        break;
    case RESET:
        snprintf(line, sizeof line, "resets stream %u", (unsigned)step->stream);
        print_user(demo, step->end, line);
        result = dcsctp_reset_streams(socket, &step->stream, 1);
        break;
    case SHUTDOWN:
        print_user(demo, step->end, "shuts down");
        result = dcsctp_shutdown(socket);
        break;
    }
    check("a step", result);
    drain(demo, step->end);
}

/* ---- Time ----------------------------------------------------------------------------------- */

/* The next moment at which something happens: a step, an arrival or a deadline. */
static uint64_t next_moment(struct demo *demo) {
    uint64_t first = DCSCTP_NEVER, moment;
    if (demo->steps < STEP_COUNT)
        first = STEPS[demo->steps].at * MILLISECOND;
    if (demo->flying_count > 0 && demo->flying[0].arrives < first)
        first = demo->flying[0].arrives;
    for (int end = 0; end < 2; end++) {
        check("poll_timeout", dcsctp_poll_timeout(&demo->ends[end], &moment));
        first = moment < first ? moment : first;
    }
    return first;
}

/* Runs until both ends are closed. Packets arrive in the order they were sent. */
static void run(struct demo *demo) {
    while (demo->closed < 2 && (demo->now = next_moment(demo)) < MINUTE) {
        for (int end = 0; end < 2; end++) {
            check("advance_time", dcsctp_advance_time(&demo->ends[end], demo->now));
            drain(demo, end);
        }
        while (demo->flying_count > 0 && demo->flying[0].arrives <= demo->now) {
            const struct packet packet = demo->flying[0];
            memmove(demo->flying, demo->flying + 1, --demo->flying_count * sizeof packet);
            check("handle_input", dcsctp_handle_input(&demo->ends[packet.to], packet.bytes,
                                                      packet.length));
            drain(demo, packet.to);
        }
        while (demo->steps < STEP_COUNT && STEPS[demo->steps].at * MILLISECOND <= demo->now)
            act(demo);
    }
}

int main(int argc, char **argv) {
    static struct demo demo;
    const char *path = argc > 1 ? argv[1] : "out/demo.pcap";
    if (argc > 2 || !(demo.pcap = dcsctp_pcap_open(path)))
        fail(path, argc > 2 ? "usage: demo [FILE]" : "it can't be written");
    create(&demo, CLIENT);
    create(&demo, SERVER);
    printf("  ms  client%*s\n", WIDTH - 4, "server");
    run(&demo);
    dcsctp_destroy(&demo.ends[CLIENT]);
    dcsctp_destroy(&demo.ends[SERVER]);
    if (dcsctp_pcap_close(demo.pcap) != 0)
        fail(path, "it can't be written");
    printf("demo: %u packets, %u lost and sent again, %u connected, %u messages read, "
           "%u stream reset, %u closed\n", demo.packets, demo.again, demo.connected, demo.messages,
           demo.resets / 2, demo.closed);
    return demo.connected != 2 || strcmp(demo.read[CLIENT], READ[CLIENT]) != 0 ||
           strcmp(demo.read[SERVER], READ[SERVER]) != 0 || demo.lost != 1 || demo.again != 1 ||
           demo.resets != 2 || demo.closed != 2 || demo.is_wrong;
}
