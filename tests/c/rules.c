/* What rules of `follow_rfc` give, for scripts/c-rules.sh: two sockets over a link that loses
 * packets, in virtual time.
 *
 *     rules NAME off|on SEED NUMBER..    tries it, and prints names and values
 *
 * Both ends have the option, or neither has. Other options are upstream's by default. */
#include "pair.h"

enum { A, B, LANE = 4096, LONGEST = 1200, NUMBERS = 2000 };

/* Packets on their way from an end, in their order. */
struct lane {
    struct {
        uint64_t arrives;
        size_t length;
        uint8_t bytes[LONGEST];
    } packets[LANE];
    size_t first, count;
    uint64_t free; /* when its bottleneck has sent all that waits for it */
};

/* The link, and what has happened on it. */
static struct {
    uint64_t now;
    uint64_t delay;        /* one way */
    uint64_t permille;     /* how many packets are lost */
    uint64_t rate;         /* bytes a second at the bottleneck; 0: there is none */
    uint64_t queue;        /* how long a packet may wait for it */
    int dark;              /* all packets are lost */
    int drops;             /* so many packets of A are lost next */
    int paused;            /* B's user takes nothing */
    size_t taken;          /* messages that B's user has taken */
    size_t twice;          /* chunks of data that came to B again */
    uint64_t came[65536];  /* the last TSN at B with these 16 bits, plus 1 */
    uint8_t seen[NUMBERS]; /* which messages B's user has taken, by their numbers */
    uint8_t echo[LONGEST]; /* the last COOKIE ECHO of A */
    size_t echo_length;
} link;

static struct lane lanes[2];
static struct end ends[2];
static dcsctp_options options;
static uint64_t random_state;

/* A random number below `limit` (splitmix64). */
static uint64_t below(uint64_t limit) {
    uint64_t word = random_state += 0x9e3779b97f4a7c15;
    word = (word ^ word >> 30) * 0xbf58476d1ce4e5b9;
    word = (word ^ word >> 27) * 0x94d049bb133111eb;
    return (word ^ word >> 31) % limit;
}

/* ---- The link ------------------------------------------------------------------------------- */

/* When the bottleneck has sent a packet that comes to it now; DCSCTP_NEVER if it is dropped. */
static uint64_t sent_at(struct lane *lane, size_t length) {
    enum { HEADERS = 60 }; /* of IP, UDP and DTLS */
    if (link.rate == 0)
        return link.now;
    if (lane->free < link.now)
        lane->free = link.now;
    if (lane->free - link.now > link.queue)
        return DCSCTP_NEVER;
    return lane->free += (length + HEADERS) * SECONDS / link.rate;
}

/* Puts the last packet of an end on the link. */
static void transmit(int from) {
    const struct end *end = &ends[from];
    struct lane *lane = &lanes[from];
    EQUAL("a packet that isn't too long", end->length <= LONGEST, 1);
    if (from == A && end->packet[12] == 10) {
        memcpy(link.echo, end->packet, end->length);
        link.echo_length = end->length;
    }
    const int dropped = from == A && link.drops > 0;
    link.drops -= dropped;
    if (link.dark || dropped || below(1000) < link.permille)
        return;
    const uint64_t sent = sent_at(lane, end->length);
    if (sent == DCSCTP_NEVER)
        return;
    EQUAL("room on the link", lane->count < LANE, 1);
    const size_t at = (lane->first + lane->count++) % LANE;
    lane->packets[at].arrives = sent + link.delay;
    lane->packets[at].length = end->length;
    memcpy(lane->packets[at].bytes, end->packet, end->length);
}

/* Counts the chunks of data in a packet for B that had come before. */
static void count_chunks(const uint8_t *packet, size_t length) {
    for (size_t at = 12; at + 4 <= length; at += (u16_at(packet + at + 2) + 3) / 4 * 4) {
        EQUAL("a chunk has a header", u16_at(packet + at + 2) >= 4, 1);
        if (packet[at] != 0)
            continue;
        const uint32_t tsn = u32_at(packet + at + 4);
        link.twice += link.came[tsn % 65536] == UINT64_C(1) + tsn;
        link.came[tsn % 65536] = UINT64_C(1) + tsn;
    }
}

/* Takes the messages of an end. Returns how many there were. */
static size_t take_all(int from) {
    dcsctp_message message;
    const uint8_t *bytes;
    size_t count = 0, length;
    while (dcsctp_get_next_message(&ends[from].socket, &message) == 1) {
        count++;
        EQUAL("a message", dcsctp_message_view(&ends[from].socket, &bytes, &length), 0);
        if (from == B)
            link.seen[u32_at(bytes)] = 1;
    }
    if (from == B)
        link.taken += count;
    return count;
}

/* Takes all from an end, and handles its deadlines, as the loop of dcsctp.h does. */
static void serve(int who) {
    uint64_t deadline;
    int again;
    do {
        uint32_t kind;
        again = 0;
        while ((kind = take(&ends[who])) != DCSCTP_EVENT_NONE) {
            again = 1;
            if (kind == DCSCTP_EVENT_SEND_PACKET)
                transmit(who);
        }
        if (who == A || !link.paused)
            again |= take_all(who) > 0;
        EQUAL("a deadline", dcsctp_poll_timeout(&ends[who].socket, &deadline), 0);
        again |= deadline <= link.now;
        EQUAL("the time", dcsctp_advance_time(&ends[who].socket, link.now), 0);
    } while (again);
}

/* Hands an end the first packet that has arrived. */
static void deliver(int to) {
    struct lane *lane = &lanes[!to];
    const size_t at = lane->first;
    if (lane->count == 0 || lane->packets[at].arrives > link.now)
        return;
    lane->first = (lane->first + 1) % LANE;
    lane->count--;
    if (to == B)
        count_chunks(lane->packets[at].bytes, lane->packets[at].length);
    EQUAL("a packet",
          dcsctp_handle_input(&ends[to].socket, lane->packets[at].bytes, lane->packets[at].length),
          0);
    serve(to);
}

/* When something is due at an end, or arrives there. */
static uint64_t due_at(int who) {
    const struct lane *lane = &lanes[!who];
    uint64_t moment;
    EQUAL("a deadline", dcsctp_poll_timeout(&ends[who].socket, &moment), 0);
    if (lane->count > 0 && lane->packets[lane->first].arrives < moment)
        moment = lane->packets[lane->first].arrives;
    return moment;
}

/* Goes on for a time. */
static void run(uint64_t nanoseconds) {
    const uint64_t end = link.now + nanoseconds;
    for (int over = 0; !over;) {
        const uint64_t of_a = due_at(A), of_b = due_at(B), first = of_a < of_b ? of_a : of_b;
        over = first > end;
        if (over || first > link.now)
            link.now = over ? end : first;
        for (int who = A; who <= B; who++) {
            EQUAL("the time", dcsctp_advance_time(&ends[who].socket, link.now), 0);
            serve(who);
            deliver(who);
        }
    }
}

/* ---- Two ends ------------------------------------------------------------------------------- */

/* Creates two sockets of these seeds, on a link without loss. */
static void begin_seeded(uint64_t round_trip, const uint8_t seeds[2]) {
    memset(&link, 0, sizeof link);
    link.now = BEGIN;
    link.delay = round_trip / 2;
    for (int who = A; who <= B; who++) {
        lanes[who].first = lanes[who].count = 0;
        lanes[who].free = 0;
        EQUAL("a socket", create(&ends[who], &options, seeds[who], BEGIN), 0);
    }
}

/* The same with random seeds. */
static void begin(uint64_t round_trip) {
    const uint8_t a = (uint8_t)(1 + below(255));
    begin_seeded(round_trip, (const uint8_t[2]){a, (uint8_t)(1 + below(255))});
}

static void finish(void) {
    dcsctp_destroy(&ends[A].socket);
    dcsctp_destroy(&ends[B].socket);
}

static int both_are(int32_t state) {
    return dcsctp_state(&ends[A].socket) == state && dcsctp_state(&ends[B].socket) == state;
}

static unsigned abort_count(void) {
    return ends[A].seen[DCSCTP_EVENT_ABORTED] + ends[B].seen[DCSCTP_EVENT_ABORTED];
}

/* A connects. They have a minute. */
static void connect_ends(void) {
    const uint64_t end = link.now + 60 * SECONDS;
    EQUAL("connect", dcsctp_connect(&ends[A].socket), 0);
    serve(A);
    while (!both_are(DCSCTP_STATE_CONNECTED) && link.now < end)
        run(10 * MILLISECONDS);
}

/* Two sockets that have connected. */
static void begin_connected(uint64_t round_trip) {
    begin(round_trip);
    connect_ends();
    EQUAL("both are connected", both_are(DCSCTP_STATE_CONNECTED), 1);
}

/* Sends a message with a number on stream 1. Returns whether there was room for it. */
static int send_numbered(int from, uint32_t number, size_t length, const dcsctp_send_options *how) {
    static uint8_t bytes[10000];
    EQUAL("a number", number < NUMBERS && length >= 4 && length <= sizeof bytes, 1);
    put_u32(bytes, number);
    const int32_t result = dcsctp_send(&ends[from].socket, 1, 51, bytes, length, how);
    EQUAL("sent, or without room",
          result == DCSCTP_OK || result == DCSCTP_ERROR_RESOURCE_EXHAUSTION, 1);
    serve(from);
    return result == DCSCTP_OK;
}

static const dcsctp_send_options reliable = DCSCTP_SEND_INIT;

/* A sends so many messages of 10,000 bytes. Prints how long it took, and chunks that came twice. */
static void transfer(uint32_t count, uint64_t step) {
    const uint64_t start = link.now;
    uint32_t number = 0;
    while (link.taken < count && link.now < start + 3600 * SECONDS) {
        while (number < count && send_numbered(A, number, 10000, &reliable))
            number++;
        run(step);
    }
    EQUAL("all came", link.taken, count);
    printf("seconds %.2f twice %zu\n", (double)(link.now - start) / SECONDS, link.twice);
    finish();
}

/* ---- What is tried -------------------------------------------------------------------------- */

/* B takes nothing for given[0] minutes and up to six more, while A has more to send. What reports
 * to A that the window is open again is lost. If given[1] isn't 0, waits last that many seconds at
 * most, and limits are those of C. */
static void reports(const uint64_t *given) {
    if (given[1] > 0) {
        options.max_timer_backoff_duration = given[1] * SECONDS;
        options.max_retransmissions = 60;
    }
    begin_connected(50 * MILLISECONDS);
    const uint64_t start = link.now, end = start + (60 * given[0] + below(360)) * SECONDS;
    link.paused = 1;
    for (uint32_t i = 0; link.now < start + 20 * SECONDS; run(100 * MILLISECONDS))
        while (send_numbered(A, i % NUMBERS, 10000, &reliable))
            i++;
    run(end - link.now);
    const unsigned aborted = abort_count();
    const size_t packets = ends[B].packets;
    link.dark = 1;
    link.paused = 0;
    serve(B);
    link.dark = 0;
    EQUAL("there is a report, by the option", ends[B].packets > packets,
          aborted == 0 && options.follow_rfc);
    const size_t held = link.taken;
    while (aborted == 0 && link.taken == held && link.now < end + 7200 * SECONDS)
        run(10 * MILLISECONDS);
    printf("count %d", aborted > 0);
    if (link.taken > held)
        printf(" seconds %.2f", (double)(link.now - end) / SECONDS);
    printf("\n");
    finish();
}

/* 2 MB at a round trip of given[0] ms, after given[1] idle seconds. */
static void trips(const uint64_t *given) {
    begin_connected(given[0] * MILLISECONDS);
    run(given[1] * SECONDS);
    transfer(200, 10 * MILLISECONDS);
}

/* 20 MB over a bottleneck of 12.5 MB a second, where packets wait given[0] ms at most. */
static void bottleneck(const uint64_t *given) {
    begin_connected(20 * MILLISECONDS);
    link.rate = 12500000;
    link.queue = given[0] * MILLISECONDS;
    transfer(2000, MILLISECONDS);
}

/* A connects again, to a peer that it has given up. given[0] of 1,000 packets are lost. Returns
 * whether this association was aborted. */
static int next_is_aborted(const uint64_t *given) {
    begin_connected(50 * MILLISECONDS);
    link.dark = 1;
    EQUAL("a message", send_numbered(A, 0, 500, &reliable), 1);
    run(3000 * SECONDS);
    EQUAL("given up", both_are(DCSCTP_STATE_CLOSED), 1);
    const unsigned before = abort_count();
    link.dark = 0;
    link.permille = given[0];
    connect_ends();
    for (uint32_t i = 0; i < 100 && both_are(DCSCTP_STATE_CONNECTED); i++) {
        for (int from = A; from <= B; from++)
            EQUAL("a message", send_numbered(from, i, 1000, &reliable), 1);
        run(100 * MILLISECONDS);
    }
    run(20 * SECONDS);
    const int aborted = abort_count() > before;
    finish();
    return aborted;
}

/* How many of ten such associations are aborted. */
static void next(const uint64_t *given) {
    int aborted = 0;
    for (int round = 0; round < 10; round++)
        aborted += next_is_aborted(given);
    printf("count %d\n", aborted);
}

/* A sends reliable messages, and others on the same stream that it abandons once they are lost. It
 * shuts down when nothing is queued. given[0] of 1,000 packets are lost. Returns whether a reliable
 * message is. */
static int close_loses(const uint64_t *given) {
    static const dcsctp_send_options once = {.flags = DCSCTP_SEND_MAX_RETRANSMISSIONS};
    const uint32_t count = 10 + (uint32_t)below(30);
    uint8_t expected[NUMBERS];
    size_t queued = 1;
    int lost = 0;
    begin_connected(50 * MILLISECONDS);
    link.permille = given[0];
    for (uint32_t i = 0; i < count; i++) {
        expected[i] = below(2) == 0;
        EQUAL("a message", send_numbered(A, i, 200 + below(1500), expected[i] ? &reliable : &once),
              1);
        run(below(30) * MILLISECONDS);
    }
    for (; queued > 0; run(queued > 0 ? MILLISECONDS : 0))
        EQUAL("queued", dcsctp_buffered_amount(&ends[A].socket, 1, &queued), 0);
    EQUAL("shutdown", dcsctp_shutdown(&ends[A].socket), 0);
    serve(A);
    run(600 * SECONDS);
    EQUAL("A is closed", ends[A].seen[DCSCTP_EVENT_CLOSED], 1);
    for (uint32_t i = 0; i < count; i++)
        lost |= expected[i] && !link.seen[i];
    finish();
    return lost;
}

/* How many of 100 such closes lose one. */
static void abandoned(const uint64_t *given) {
    int lost = 0;
    for (int round = 0; round < 100; round++)
        lost += close_loses(given);
    printf("count %d\n", lost);
}

/* After given[0] ms an ABORT answers the INIT of A. */
static void aborts(const uint64_t *given) {
    static const uint8_t abort_chunk[4] = {6, 0, 0, 4};
    uint8_t header[12] = {5000 >> 8, 5000 & 255, 5000 >> 8, 5000 & 255};
    begin(0);
    link.dark = 1;
    EQUAL("connect", dcsctp_connect(&ends[A].socket), 0);
    serve(A);
    memcpy(header + 4, ends[A].packet + 16, 4);
    run(given[0] * MILLISECONDS);
    const uint64_t start = link.now;
    EQUAL("the ABORT", forge(&ends[A], header, abort_chunk, sizeof abort_chunk), 0);
    serve(A);
    while (abort_count() == 0)
        run(10 * MILLISECONDS);
    printf("seconds %.2f\n", (double)(link.now - start) / SECONDS);
    finish();
}

/* A's cookie may be given[0] ms old, and the way to B and back takes 50. When does A give up? */
static void stale(const uint64_t *given) {
    options.cookie_lifetime = given[0] * MILLISECONDS;
    begin(50 * MILLISECONDS);
    const uint64_t start = link.now;
    EQUAL("connect", dcsctp_connect(&ends[A].socket), 0);
    serve(A);
    while (abort_count() == 0)
        run(10 * MILLISECONDS);
    printf("seconds %.2f\n", (double)(link.now - start) / SECONDS);
    finish();
}

/* The first of 20 messages is lost, and B has a window of given[0] bytes. Are they still not there
 * after ten minutes? */
static void missing(const uint64_t *given) {
    options.max_receiver_window_buffer_size = given[0];
    begin_connected(50 * MILLISECONDS);
    link.drops = 1;
    for (uint32_t i = 0; i < 20; i++)
        EQUAL("a message", send_numbered(A, i, 600 + below(500), &reliable), 1);
    run(600 * SECONDS);
    printf("count %d\n", link.taken < 20);
    finish();
}

/* The COOKIE ECHO comes again, given[0] seconds after an orderly end. Does it leave an association
 * behind at B, where A has none? */
static void cookies(const uint64_t *given) {
    begin_connected(50 * MILLISECONDS);
    EQUAL("a message", send_numbered(A, 0, 1000, &reliable), 1);
    run(SECONDS);
    EQUAL("shutdown", dcsctp_shutdown(&ends[A].socket), 0);
    serve(A);
    run(given[0] * SECONDS);
    EQUAL("both are closed", both_are(DCSCTP_STATE_CLOSED), 1);
    EQUAL("the COOKIE ECHO", dcsctp_handle_input(&ends[B].socket, link.echo, link.echo_length), 0);
    serve(B);
    run(60 * SECONDS);
    printf("count %d\n", !both_are(DCSCTP_STATE_CLOSED));
    finish();
}

/* A COOKIE ECHO that nobody has a cookie for comes to a closed socket. Does it connect? */
static void forged(const uint64_t *given) {
    static const uint8_t echo[] = {10, 0, 0, 60, 'd', 'c', 'S', 'C', 'T', 'P', 'r', '0',
                                   0, 0, 0, 11, 0, 0, 0, 22, 0, 0, 0, 33, 0, 0, 0, 44,
                                   0, 1, 0, 0, 0, 0, 0, 0, 0, 0, 0, 0, 1, 0, 1, 0,
                                   0, 0, 0, 0, 255, 255, 255, 255, 0, 0, 3, 70, 48, 184, 160, 0};
    static const uint8_t header[12] = {19, 136, 19, 136, 0, 0, 0, 22};
    begin(given[0] * MILLISECONDS);
    EQUAL("a forged packet", forge(&ends[B], header, echo, sizeof echo), 0);
    serve(B);
    printf("count %d\n", dcsctp_state(&ends[B].socket) == DCSCTP_STATE_CONNECTED);
    finish();
}

/* 100 associations connect at the same time. How many of their first HEARTBEATs does the fullest
 * millisecond have? */
static void beats(const uint64_t *given) {
    enum { ASSOCIATIONS = 100, MOST = 60000 };
    static unsigned together[MOST];
    const uint64_t first = below(255);
    unsigned most = 0;
    for (uint64_t i = 0; i < ASSOCIATIONS; i++) {
        const uint8_t seed = (uint8_t)(1 + (first + i) % 255);
        uint64_t due = 0;
        begin_seeded(given[0] * MILLISECONDS, (const uint8_t[2]){seed, (uint8_t)(256 - seed)});
        connect_ends();
        EQUAL("a deadline", dcsctp_poll_timeout(&ends[A].socket, &due), 0);
        const uint64_t millisecond = (due - BEGIN) / MILLISECONDS;
        EQUAL("within a minute", millisecond < MOST, 1);
        if (++together[millisecond] > most)
            most = together[millisecond];
        finish();
    }
    printf("count %u\n", most);
}

/* A connects over a link that is dark for given[0] s. No wait may be longer than given[1] s. When are
 * both connected? */
static void dark(const uint64_t *given) {
    options.max_timer_backoff_duration = given[1] * SECONDS;
    options.max_init_retransmits = 60;
    begin(50 * MILLISECONDS);
    const uint64_t start = link.now;
    link.dark = 1;
    EQUAL("connect", dcsctp_connect(&ends[A].socket), 0);
    serve(A);
    run(given[0] * SECONDS);
    link.dark = 0;
    while (!both_are(DCSCTP_STATE_CONNECTED))
        run(10 * MILLISECONDS);
    printf("seconds %.2f\n", (double)(link.now - start) / SECONDS);
    finish();
}

/* A queues a message, connects, and shuts down as soon as it has sent a COOKIE ECHO, while given[0] of
 * 1,000 packets are lost. How often does the message not come within ten minutes, of 1,000? */
static void farewells(const uint64_t *given) {
    unsigned lost = 0;
    for (int i = 0; i < 1000; i++) {
        begin(50 * MILLISECONDS);
        link.permille = given[0];
        EQUAL("a message", send_numbered(A, 0, 1000, &reliable), 1);
        EQUAL("connect", dcsctp_connect(&ends[A].socket), 0);
        serve(A);
        while (link.echo_length == 0)
            run(10 * MILLISECONDS);
        EQUAL("shutdown", dcsctp_shutdown(&ends[A].socket), 0);
        serve(A);
        run(600 * SECONDS);
        lost += link.taken == 0;
        finish();
    }
    printf("count %u\n", lost);
}

static const struct {
    const char *name;
    void (*try)(const uint64_t *given);
} tried[] = {{"reports", reports}, {"trips", trips},         {"bottleneck", bottleneck},
             {"next", next},       {"abandoned", abandoned}, {"aborts", aborts},
             {"missing", missing}, {"cookies", cookies},     {"stale", stale},
             {"forged", forged},   {"beats", beats},         {"dark", dark},
             {"farewells", farewells}};

int main(int count, char **words) {
    uint64_t given[2] = {0, 0};
    for (int i = 4; i < count && i < 6; i++)
        given[i - 4] = strtoull(words[i], NULL, 10);
    dcsctp_options_init(&options);
    options.max_timer_backoff_duration = DCSCTP_NEVER;
    options.max_retransmissions = 10;
    options.max_init_retransmits = 8;
    for (size_t i = 0; count > 3 && i < sizeof tried / sizeof *tried; i++)
        if (strcmp(words[1], tried[i].name) == 0) {
            options.follow_rfc = strcmp(words[2], "on") == 0;
            random_state = strtoull(words[3], NULL, 10);
            tried[i].try(given);
            return 0;
        }
    fprintf(stderr, "usage: rules NAME off|on SEED NUMBER..\n");
    return 2;
}
