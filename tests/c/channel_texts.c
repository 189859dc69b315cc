/* Runs texts of data channels: what two ends do, and what must come of it.
 *
 *     channel_texts [FILE..]        tests/c/channels/(any).text, if none is named
 *
 * A has channels. B is its peer: a socket that sends what a text says, or has channels, too. A line
 * that begins with `==` names a test. It runs with `follow_rfc` and without it. Then come lines
 * `with ..`, which set what is said below, and lines that do something:
 *
 *     A begins ROLE             gives it channels; ROLE is client, server or undecided
 *     A is ROLE                 sets the role later
 *     A connects
 *     A joins ROLE              begins and connects
 *     A opens LABEL ..          then any of: protocol TEXT, unordered, retransmissions N, lifetime N,
 *                               priority N, on STREAM
 *     A says #N text BYTES      or bytes BYTES
 *     A closes #N
 *     A shows #N                its state and stream; without #N how many streams are in use
 *     A aborts
 *     B sends STREAM PPID BYTES past the channels, if B has none
 *     B resets STREAM           the same; all: a request that names no stream
 *     B denies                  refuses the last reset that A asked for (RFC 6525, section 4.4)
 *     B loses all               its packets from now on; all but N: after so many; none: no more
 *     wait MILLISECONDS
 *
 * After each all packets are carried until none is left, and time stands still but for `wait`. The
 * indented lines after it are what came, in its order: data and resets that an end with channels
 * sends, what its user is told, and the error of a call. Packets come first. A channel is #1 if its
 * end has named it first. BYTES are digits, in which dots have no meaning, and "text". Lines that
 * begin with `//` are comments.
 *
 *     with limits MESSAGE TEXT CHANNELS      dcsctp_channel_limits of A
 *     with streams N            that both ends announce
 *     with buffer N             max_send_buffer_size of A
 *     with rto MILLISECONDS     rto_initial and rto_min
 *     with no-resets            B's INIT ACK doesn't list RE-CONFIG */
#define _POSIX_C_SOURCE 200809L
#include "pair.h"

#include <glob.h>
#include <stdarg.h>

enum {
    LINE = 400,
    MOST_LINES = 2000,
    MOST_OUT = 40,
    MOST_WORDS = 24,
    MOST_CHANNELS = 16,
    DATA = 0,
    INIT = 1,
    INIT_ACK = 2,
    RECONFIG = 130,
    FORWARD_TSN = 192,
    STEP = 10 /* milliseconds */
};

struct party {
    char name;
    struct party *peer;
    struct end end;
    int has_channels, hides_resets;
    long left;                      /* how many packets arrive before all are lost; -1: no loss */
    uint64_t channels[MOST_CHANNELS];
    unsigned channel_count;
    uint8_t header[12];             /* of the last packet */
    uint32_t first_tsn, last_tsn, request; /* request: the last one to reset streams */
};

static struct party a, b;
static uint64_t now;
static dcsctp_options options;
static dcsctp_channel_limits limits;
static size_t send_buffer; /* of A */
static int is_created;

/* ---- Lines ---------------------------------------------------------------------------------- */

static char out[MOST_OUT][LINE]; /* what came of a line */
static unsigned out_count;

__attribute__((format(printf, 1, 2))) static void put(const char *form, ...) {
    va_list arguments;
    EQUAL("few lines", out_count < MOST_OUT, 1);
    va_start(arguments, form);
    vsnprintf(out[out_count++], LINE, form, arguments);
    va_end(arguments);
}

/* Bytes as digits; - if there are none. */
static const char *digits(const void *bytes, size_t length) {
    static char texts[2][LINE];
    static unsigned next;
    char *to = texts[next++ % 2];
    EQUAL("few bytes", length < LINE / 2, 1);
    strcpy(to, "-");
    for (size_t i = 0; i < length; i++)
        sprintf(to + 2 * i, "%02x", ((const uint8_t *)bytes)[i]);
    return to;
}

/* Writes a line's words, each as one space ends it, with texts as digits. */
static void plain(char *to, const char *from) {
    int is_text = 0;
    const char *begin = to;
    for (from += strspn(from, " "); *from; from++) {
        if (*from == '"') {
            is_text = !is_text;
            if (!is_text && (to == begin || to[-1] == ' '))
                *to++ = '-';
        } else if (is_text) {
            to += sprintf(to, "%02x", (uint8_t)*from);
        } else if (*from != '.' && !(*from == ' ' && (from[1] == ' ' || from[1] == 0))) {
            *to++ = *from;
        }
    }
    *to = 0;
}

static char *words[MOST_WORDS]; /* of the present line */
static unsigned word_count;

static void split(char *line) {
    word_count = 0;
    for (char *it = strtok(line, " "); it && word_count < MOST_WORDS; it = strtok(NULL, " "))
        words[word_count++] = it;
    for (unsigned i = word_count; i < MOST_WORDS; i++)
        words[i] = line + strlen(line);
}

/* The bytes of a word. */
static size_t bytes_of(const char *word, uint8_t *bytes) {
    size_t length = 0;
    unsigned byte;
    for (; sscanf(word, "%2x", &byte) == 1; word += 2)
        bytes[length++] = (uint8_t)byte;
    return length;
}

static uint32_t number_of(const char *word) {
    return (uint32_t)strtoul(word, NULL, 10);
}

/* ---- Channels by their order ---------------------------------------------------------------- */

/* The place of a channel among those that its end has named. */
static unsigned place_of(struct party *party, uint64_t channel) {
    unsigned i = 0;
    while (i < party->channel_count && party->channels[i] != channel)
        i++;
    EQUAL("few channels", i < MOST_CHANNELS, 1);
    if (i == party->channel_count)
        party->channels[party->channel_count++] = channel;
    return i + 1;
}

/* The channel of a word #N. */
static uint64_t channel_of(const struct party *party, const char *word) {
    const uint32_t place = number_of(word + 1);
    return place >= 1 && place <= party->channel_count ? party->channels[place - 1] : 0;
}

/* ---- What an end sends ---------------------------------------------------------------------- */

static void put_reconfig(struct party *party, const uint8_t *at, size_t length) {
    if (u16_at(at + 4) != 13)
        return;
    party->request = u32_at(at + 8);
    if (!party->has_channels)
        return;
    for (size_t i = 20; i < length; i += 2)
        put("%c resets %u", party->name, (unsigned)u16_at(at + i));
    if (length == 20)
        put("%c resets all", party->name);
}

static void put_chunk(struct party *party, const uint8_t *at, size_t length) {
    if (at[0] == INIT || at[0] == INIT_ACK) {
        party->first_tsn = u32_at(at + 16);
        party->last_tsn = party->first_tsn - 1;
    } else if (at[0] == DATA) {
        party->last_tsn = u32_at(at + 4);
        if (party->has_channels)
            put("%c sends %u %u %s%s%s", party->name, (unsigned)u16_at(at + 8),
                (unsigned)u32_at(at + 12), digits(at + 16, length - 16),
                at[1] & 4 ? " unordered" : "", (at[1] & 3) == 3 ? "" : " part");
    } else if (at[0] == RECONFIG) {
        put_reconfig(party, at, length);
    } else if (at[0] == FORWARD_TSN) {
        put("%c skips", party->name);
    }
}

/* Takes the support of RE-CONFIG out of an INIT ACK (RFC 6525, section 3.1). */
static void hide_resets(uint8_t *packet, size_t length) {
    size_t count = 0;
    const size_t at = packet[12] == INIT_ACK ? find_parameter(packet, length, 0x8008, &count) : 0;
    for (size_t i = at; at > 0 && i < at + count; i++)
        if (packet[i] == RECONFIG)
            packet[i] = FORWARD_TSN;
    put_checksum(packet, length);
}

static void send_packet(struct party *party, const uint8_t *bytes, size_t length) {
    static uint8_t packet[LONGEST_PACKET];
    memcpy(packet, bytes, length);
    if (party->hides_resets)
        hide_resets(packet, length);
    for (size_t at = 12; at + 4 <= length; at += (u16_at(packet + at + 2) + 3) / 4 * 4)
        put_chunk(party, packet + at, u16_at(packet + at + 2));
    memcpy(party->header, packet, sizeof party->header);
    if (party->left != 0)
        EQUAL("handled", dcsctp_handle_input(&party->peer->end.socket, packet, length), 0);
    party->left -= party->left > 0;
}

/* ---- What a user is told -------------------------------------------------------------------- */

/* How a channel's messages go out. */
static const char *delivery_of(const dcsctp_channel_options *of) {
    static char text[80];
    static const char *const limit[] = {"", " retransmissions", " lifetime"};
    size_t length = (size_t)sprintf(text, "%s%s", of->is_unordered ? " unordered" : "",
                                    limit[of->reliability]);
    if (of->reliability != DCSCTP_CHANNEL_RELIABLE)
        length += (size_t)sprintf(text + length, " %u", (unsigned)of->limit);
    sprintf(text + length, " priority %u", of->priority);
    return text;
}

static void put_incoming(struct party *party, unsigned place) {
    dcsctp_channel_options it = DCSCTP_CHANNEL_OPTIONS_INIT;
    EQUAL("options", dcsctp_channel_get_options(&party->end.socket, &it), 0);
    put("%c tells incoming #%u %s protocol %s%s", party->name, place,
        digits(it.label, it.label_length), digits(it.protocol, it.protocol_length),
        delivery_of(&it));
}

static void put_message(struct party *party, const dcsctp_channel_event *event) {
    const uint8_t *bytes;
    size_t length;
    EQUAL("a message", dcsctp_channel_view(&party->end.socket, &bytes, &length), 0);
    put("%c tells %s #%u %s", party->name, event->detail == DCSCTP_CHANNEL_TEXT ? "text" : "bytes",
        place_of(party, event->channel), digits(bytes, length));
}

static void put_event(struct party *party, const dcsctp_channel_event *event) {
    static const char *const ends[] = {"", " refused", " can't be reset", " lost", " no stream"};
    const unsigned place = event->channel ? place_of(party, event->channel) : 0;
    switch (event->kind) {
    case DCSCTP_CHANNEL_EVENT_CONNECTED:
        put("%c tells connected", party->name);
        break;
    case DCSCTP_CHANNEL_EVENT_OPENED:
        put("%c tells opened #%u", party->name, place);
        break;
    case DCSCTP_CHANNEL_EVENT_INCOMING:
        put_incoming(party, place);
        break;
    case DCSCTP_CHANNEL_EVENT_MESSAGE:
        put_message(party, event);
        break;
    case DCSCTP_CHANNEL_EVENT_BUFFERED_AMOUNT_LOW:
        put("%c tells low #%u", party->name, place);
        break;
    case DCSCTP_CHANNEL_EVENT_CLOSED:
        put("%c tells closed #%u%s", party->name, place, ends[event->detail]);
        break;
    case DCSCTP_CHANNEL_EVENT_ENDED:
        put("%c tells ended", party->name);
    }
}

/* ---- Packets and time ----------------------------------------------------------------------- */

/* Takes all that an end has. Returns how many packets there were. */
static unsigned run_channels(struct party *party) {
    dcsctp_channel_event event;
    const uint8_t *packet;
    size_t length;
    unsigned packets = 0;
    while (dcsctp_channel_poll(&party->end.socket, &event) == 1) {
        if (event.kind != DCSCTP_CHANNEL_EVENT_SEND_PACKET) {
            put_event(party, &event);
            continue;
        }
        EQUAL("a packet", dcsctp_channel_view(&party->end.socket, &packet, &length), 0);
        send_packet(party, packet, length);
        packets++;
    }
    return packets;
}

/* The same of one without channels, whose messages are dropped. */
static unsigned run_plain(struct party *party) {
    dcsctp_message message;
    unsigned packets = 0;
    for (uint32_t kind; (kind = take(&party->end)) != DCSCTP_EVENT_NONE;)
        if (kind == DCSCTP_EVENT_SEND_PACKET) {
            send_packet(party, party->end.packet, party->end.length);
            packets++;
        }
    while (dcsctp_get_next_message(&party->end.socket, &message) == 1)
        ;
    return packets;
}

static unsigned run(struct party *party) {
    return party->has_channels ? run_channels(party) : run_plain(party);
}

static void settle_both(void) {
    while (run(&a) + run(&b) > 0)
        ;
}

static void pass_time(uint32_t milliseconds) {
    for (uint32_t passed = 0; passed < milliseconds; passed += STEP) {
        now += STEP * MILLISECONDS;
        EQUAL("time", dcsctp_advance_time(&a.end.socket, now), 0);
        EQUAL("time", dcsctp_advance_time(&b.end.socket, now), 0);
        settle_both();
    }
}

/* ---- Lines that do something ---------------------------------------------------------------- */

/* The error of a call. */
static void put_result(const struct party *party, int32_t result) {
    static const struct {
        int32_t error;
        const char *name;
    } names[] = {
        {DCSCTP_ERROR_INVALID_OPTIONS, "INVALID_OPTIONS"},
        {DCSCTP_ERROR_MESSAGE_TOO_LARGE, "MESSAGE_TOO_LARGE"},
        {DCSCTP_ERROR_RESOURCE_EXHAUSTION, "RESOURCE_EXHAUSTION"},
        {DCSCTP_ERROR_NO_CHANNEL, "NO_CHANNEL"},
        {DCSCTP_ERROR_STREAM_IN_USE, "STREAM_IN_USE"},
        {DCSCTP_ERROR_ENDED, "ENDED"},
    };
    size_t i = 0;
    while (i < sizeof names / sizeof names[0] && names[i].error != result)
        i++;
    if (result < 0)
        put("%c gets %s", party->name,
            i < sizeof names / sizeof names[0] ? names[i].name : dcsctp_error_text(result));
}

static void set_role(struct party *party, const char *role) {
    if (strcmp(role, "undecided") != 0)
        put_result(party,
                   dcsctp_channel_set_role(&party->end.socket, strcmp(role, "client") == 0));
}

static void begin(struct party *party) {
    const dcsctp_channel_limits usual = DCSCTP_CHANNEL_LIMITS_INIT;
    EQUAL("begin", dcsctp_channel_begin(&party->end.socket, party == &a ? &limits : &usual), 0);
    EQUAL("time", dcsctp_advance_time(&party->end.socket, now), 0);
    party->has_channels = 1;
    set_role(party, words[2]);
}

static void is_role(struct party *party) {
    set_role(party, words[2]);
}

static void connect_to(struct party *party) {
    put_result(party, dcsctp_connect(&party->end.socket));
}

static void join(struct party *party) {
    begin(party);
    connect_to(party);
}

/* Reads what follows the label. */
static void read_how(dcsctp_channel_options *how, uint8_t *protocol) {
    for (unsigned i = 3; i < word_count; i++) {
        const char *word = words[i];
        if (strcmp(word, "unordered") == 0) {
            how->is_unordered = 1;
            continue;
        }
        const uint32_t number = number_of(words[++i]);
        if (strcmp(word, "protocol") == 0) {
            how->protocol_length = bytes_of(words[i], protocol);
        } else if (strcmp(word, "priority") == 0) {
            how->priority = (uint16_t)number;
        } else if (strcmp(word, "on") == 0) {
            how->is_negotiated = 1;
            how->stream = (uint16_t)number;
        } else {
            how->reliability = strcmp(word, "lifetime") == 0 ? DCSCTP_CHANNEL_LIFETIME
                                                             : DCSCTP_CHANNEL_RETRANSMISSIONS;
            how->limit = number;
        }
    }
}

static void open_channel(struct party *party) {
    uint8_t label[LINE], protocol[LINE];
    dcsctp_channel_options how = DCSCTP_CHANNEL_OPTIONS_INIT;
    uint64_t channel = 0;
    how.label = (const char *)label;
    how.label_length = bytes_of(words[2], label);
    how.protocol = (const char *)protocol;
    read_how(&how, protocol);
    put_result(party, dcsctp_channel_open(&party->end.socket, &how, &channel));
    if (channel != 0)
        place_of(party, channel);
}

static void say(struct party *party) {
    uint8_t bytes[LINE];
    const size_t length = bytes_of(words[4], bytes);
    const uint32_t kind =
        strcmp(words[3], "text") == 0 ? DCSCTP_CHANNEL_TEXT : DCSCTP_CHANNEL_BINARY;
    put_result(party, dcsctp_channel_send(&party->end.socket, channel_of(party, words[2]), kind,
                                          bytes, length));
}

static void close_channel(struct party *party) {
    put_result(party, dcsctp_channel_close(&party->end.socket, channel_of(party, words[2])));
}

static void show(struct party *party) {
    static const char *const states[] = {"connecting", "open", "closing", "closed"};
    const uint64_t channel = channel_of(party, words[2]);
    uint16_t stream = 0;
    size_t count = 0;
    if (word_count == 2) {
        EQUAL("count", dcsctp_channel_count(&party->end.socket, &count), 0);
        put("%c uses %u", party->name, (unsigned)count);
        return;
    }
    const int32_t state = dcsctp_channel_state(&party->end.socket, channel);
    EQUAL("a state", state >= 0 && state < 4, 1);
    if (dcsctp_channel_stream(&party->end.socket, channel, &stream) == DCSCTP_OK)
        put("%c has %s %s on %u", party->name, words[2], states[state], stream);
    else
        put("%c has %s %s", party->name, words[2], states[state]);
}

static void abort_association(struct party *party) {
    EQUAL("close", dcsctp_close(&party->end.socket), 0);
}

static void send_plainly(struct party *party) {
    const dcsctp_send_options how = DCSCTP_SEND_INIT;
    uint8_t bytes[LINE];
    const size_t length = bytes_of(words[4], bytes);
    put_result(party, dcsctp_send(&party->end.socket, (uint16_t)number_of(words[2]),
                                  number_of(words[3]), bytes, length, &how));
}

/* A request that names no stream is of all of them (RFC 6525, section 4.1). Requests are counted from
 * the first TSN on. */
static void reset_streams(struct party *party) {
    uint8_t chunk[20] = {RECONFIG, 0, 0, 20, 0, 13, 0, 16};
    const uint16_t stream = (uint16_t)number_of(words[2]);
    if (strcmp(words[2], "all") != 0) {
        put_result(party, dcsctp_reset_streams(&party->end.socket, &stream, 1));
        return;
    }
    put_u32(chunk + 8, party->first_tsn);
    put_u32(chunk + 16, party->last_tsn);
    EQUAL("handled", forge(&party->peer->end, party->header, chunk, sizeof chunk), 0);
}

/* Result 2 is "denied" (RFC 6525, section 4.4). */
static void deny(struct party *party) {
    uint8_t chunk[16] = {RECONFIG, 0, 0, 16, 0, 16, 0, 12};
    put_u32(chunk + 8, party->peer->request);
    put_u32(chunk + 12, 2);
    EQUAL("handled", forge(&party->peer->end, party->header, chunk, sizeof chunk), 0);
}

static void lose(struct party *party) {
    party->left = strcmp(words[2], "none") == 0 ? -1 : (long)number_of(words[4]);
}

static void create_party(struct party *party, char name, struct party *peer, uint8_t seed) {
    const int hides_resets = party->hides_resets;
    dcsctp_options of = options;
    memset(party, 0, sizeof *party);
    of.max_send_buffer_size = name == 'A' ? send_buffer : options.max_send_buffer_size;
    EQUAL("create", create(&party->end, &of, seed, BEGIN), 0);
    party->name = name;
    party->peer = peer;
    party->left = -1;
    party->hides_resets = hides_resets;
}

/* Ends that were agreed on before. */
static int set_option(void) {
    if (strcmp(words[1], "limits") == 0) {
        limits.max_message_size = number_of(words[2]);
        limits.max_text = number_of(words[3]);
        limits.max_channels = number_of(words[4]);
    } else if (strcmp(words[1], "streams") == 0) {
        options.announced_maximum_incoming_streams = (uint16_t)number_of(words[2]);
        options.announced_maximum_outgoing_streams = (uint16_t)number_of(words[2]);
    } else if (strcmp(words[1], "buffer") == 0) {
        send_buffer = number_of(words[2]);
    } else if (strcmp(words[1], "rto") == 0) {
        options.rto_initial = options.rto_min = number_of(words[2]) * MILLISECONDS;
    } else if (strcmp(words[1], "no-resets") == 0) {
        b.hides_resets = 1;
    } else {
        return 0;
    }
    return 1;
}

/* Does what a line says. Returns whether it says something. */
static int perform(char *line) {
    static const struct {
        const char *verb;
        void (*call)(struct party *);
    } verbs[] = {
        {"begins", begin}, {"is", is_role}, {"connects", connect_to}, {"joins", join},
        {"opens", open_channel}, {"says", say}, {"closes", close_channel}, {"shows", show}, {"aborts", abort_association},
        {"sends", send_plainly}, {"resets", reset_streams}, {"denies", deny}, {"loses", lose},
    };
    split(line);
    if (strcmp(words[0], "with") == 0)
        return set_option();
    if (!is_created) {
        create_party(&a, 'A', &b, 1);
        create_party(&b, 'B', &a, 2);
        is_created = 1;
    }
    if (strcmp(words[0], "wait") == 0) {
        pass_time(number_of(words[1]));
        return 1;
    }
    struct party *party = strcmp(words[0], "A") == 0 ? &a : strcmp(words[0], "B") == 0 ? &b : NULL;
    for (size_t i = 0; party && i < sizeof verbs / sizeof verbs[0]; i++)
        if (strcmp(words[1], verbs[i].verb) == 0) {
            verbs[i].call(party);
            settle_both();
            return 1;
        }
    return 0;
}

/* ---- Texts ---------------------------------------------------------------------------------- */

static char lines[MOST_LINES][LINE];
static unsigned line_count;
static const char *file;
static unsigned passed, failed;

static void read_file(void) {
    FILE *in = fopen(file, "r");
    if (!in) {
        perror(file);
        exit(1);
    }
    for (line_count = 0; line_count < MOST_LINES && fgets(lines[line_count], LINE, in); line_count++)
        lines[line_count][strcspn(lines[line_count], "\n")] = 0;
    EQUAL("few lines", feof(in) != 0, 1);
    fclose(in);
}

/* Is it indented: what comes of a line? */
static int is_outcome(unsigned i) {
    return i < line_count && lines[i][0] == ' ';
}

static int is_name(unsigned i) {
    return strncmp(lines[i], "==", 2) == 0;
}

static int is_nothing(unsigned i) {
    return lines[i][0] == 0 || strncmp(lines[i], "//", 2) == 0;
}

/* Compares what came of line `i` with the indented lines after it. */
static int is_expected(unsigned i) {
    char expected[2 * LINE];
    unsigned count = 0;
    int is_equal = 1;
    for (; is_outcome(i + 1 + count); count++) {
        plain(expected, lines[i + 1 + count]);
        is_equal &= count < out_count && strcmp(expected, out[count]) == 0;
    }
    if (is_equal && count == out_count)
        return 1;
    fprintf(stderr, "%s:%u: %s (follow_rfc %u)\n  expected\n", file, i + 1, lines[i],
            options.follow_rfc);
    for (unsigned k = 0; k < count; k++) {
        plain(expected, lines[i + 1 + k]);
        fprintf(stderr, "    %s\n", expected);
    }
    fprintf(stderr, "  found\n");
    for (unsigned k = 0; k < out_count; k++)
        fprintf(stderr, "    %s\n", out[k]);
    return 0;
}

static int run_line(unsigned i) {
    char line[2 * LINE];
    plain(line, lines[i]);
    out_count = 0;
    if (perform(line))
        return is_expected(i);
    fprintf(stderr, "%s:%u: a line that says nothing: %s\n", file, i + 1, lines[i]);
    return 0;
}

/* Runs a test, whose name is at `from`, with one setting. */
static int run_test(unsigned from, uint32_t follow_rfc) {
    int is_good = 1;
    is_created = 0;
    now = BEGIN;
    options = quiet_options();
    send_buffer = options.max_send_buffer_size;
    options.follow_rfc = follow_rfc;
    memset(&limits, 0, sizeof limits);
    limits.size = sizeof limits;
    b.hides_resets = 0;
    for (unsigned i = from + 1; is_good && i < line_count && !is_name(i); i++)
        if (!is_nothing(i) && !is_outcome(i))
            is_good = run_line(i);
    if (is_created) {
        dcsctp_destroy(&a.end.socket);
        dcsctp_destroy(&b.end.socket);
    }
    return is_good && is_created;
}

static void run_file(const char *name) {
    const unsigned before = passed + failed;
    file = name;
    read_file();
    for (unsigned i = 0; i < line_count; i++) {
        if (!is_name(i))
            continue;
        const int is_good = run_test(i, 0) & run_test(i, 1);
        if (!is_good)
            fprintf(stderr, "%s:%u: failed: %s\n", file, i + 1, lines[i] + 2 + (lines[i][2] == ' '));
        passed += is_good;
        failed += !is_good;
    }
    EQUAL("a file has a test", passed + failed > before, 1);
}

int main(int argc, char **argv) {
    glob_t found = {0};
    if (argc < 2)
        EQUAL("texts", glob("tests/c/channels/*.text", 0, NULL, &found), 0);
    for (int i = 1; i < argc; i++)
        run_file(argv[i]);
    for (size_t i = 0; i < found.gl_pathc; i++)
        run_file(found.gl_pathv[i]);
    if (argc < 2)
        globfree(&found);
    printf("channel texts: %u passed, %u failed\n", passed, failed);
    return failed != 0;
}
