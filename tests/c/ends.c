/* How an association ends: how long a silent peer is waited for, which event reports it, what a
 * lost last packet does, and what happens to messages that nobody has taken. */
#include "pair.h"

static struct pair pair;

/* ---- A peer that is silent ------------------------------------------------------------------ */

/* Goes from deadline to deadline, and loses each packet, until the socket is closed. Returns how
 * long that took. */
static uint64_t given_up(struct end *end, uint64_t now) {
    const uint64_t begin = now;
    while (dcsctp_state(&end->socket) != DCSCTP_STATE_CLOSED) {
        EQUAL("deadline", dcsctp_poll_timeout(&end->socket, &now), DCSCTP_OK);
        EQUAL("there is one", now != DCSCTP_NEVER, 1);
        EQUAL("time", dcsctp_advance_time(&end->socket, now), DCSCTP_OK);
        carry(end, NULL);
    }
    EQUAL("it is reported", end->seen[DCSCTP_EVENT_ABORTED], 1);
    EQUAL("kind", end->last[DCSCTP_EVENT_ABORTED].error_kind, DCSCTP_KIND_TOO_MANY_RETRIES);
    EQUAL("by that alone", end->seen[DCSCTP_EVENT_CLOSED], 0);
    return now - begin;
}

static dcsctp_options default_options(void) {
    dcsctp_options options;
    dcsctp_options_init(&options);
    return options;
}

/* An INIT goes out 61 times, and in the other run a COOKIE ECHO. The waits are 1 s, 2 s, and 3 s 59
 * times, which are 180 s together. */
static void no_handshake(void) {
    const dcsctp_options options = default_options();
    create_pair(&pair, &options, &options);
    EQUAL("connect", dcsctp_connect(&pair.a.socket), DCSCTP_OK);
    EQUAL("no INIT ACK", given_up(&pair.a, BEGIN), 180 * SECONDS);
    EQUAL("61 times", pair.a.packets, 61);
    destroy_pair(&pair);
    create_pair(&pair, &options, &options);
    EQUAL("connect", dcsctp_connect(&pair.a.socket), DCSCTP_OK);
    EQUAL("INIT", carry(&pair.a, &pair.b), 1);
    EQUAL("INIT ACK", carry(&pair.b, &pair.a), 1);
    EQUAL("no COOKIE ACK", given_up(&pair.a, BEGIN), 180 * SECONDS);
    EQUAL("61 times, after the INIT", pair.a.packets, 1 + 61);
    destroy_pair(&pair);
}

/* Nothing is sent but a HEARTBEAT each 30.25 to 30.75 s. Half a second after the 61st, which is one
 * more than `max_retransmissions`, an ABORT follows. With 10 it is the eleventh. */
static void idle(void) {
    const dcsctp_options quiet = quiet_options();
    dcsctp_options options = default_options();
    connect_pair(&pair, &options, &options);
    size_t before = pair.a.packets;
    uint64_t wait = heartbeat_wait(&pair.a, &options);
    EQUAL("as dcsctp.h says", 61 * 30250 + 500, 1845750);
    EQUAL("as dcsctp.h says", 61 * 30750 + 500, 1876250);
    EQUAL("at the least", wait >= 30250 * MILLISECONDS, 1);
    EQUAL("at the most", wait < 30750 * MILLISECONDS, 1);
    EQUAL("idle", given_up(&pair.a, BEGIN), 61 * wait + 500 * MILLISECONDS);
    EQUAL("61 HEARTBEAT and an ABORT", pair.a.packets - before, 62);
    destroy_pair(&pair);
    options.max_retransmissions = 10;
    connect_pair(&pair, &options, &options);
    wait = heartbeat_wait(&pair.a, &options);
    EQUAL("10", given_up(&pair.a, BEGIN), 11 * wait + 500 * MILLISECONDS);
    destroy_pair(&pair);
    connect_pair(&pair, &quiet, &quiet);
    EQUAL("without heartbeats it waits forever",
          until_deadline(&pair, &pair.a) == DCSCTP_NEVER, 1);
    destroy_pair(&pair);
}

/* The next HEARTBEAT goes out before, or as, the wait for an answer to the last one ends. So none
 * counts. A nanosecond later each does. With `follow_rfc` the interval is half of `rto_initial` longer
 * at the least, so each counts from there on. */
static void too_many_heartbeats(void) {
    dcsctp_options options = default_options();
    options.follow_rfc = 0;
    options.heartbeat_interval = options.rto_initial;
    connect_pair(&pair, &options, &options);
    for (int i = 0; i < 1000; i++) {
        pass(&pair, until_deadline(&pair, &pair.a));
        carry(&pair.a, NULL);
    }
    EQUAL("500 s later", pair.now, BEGIN + 500 * SECONDS);
    EQUAL("A", dcsctp_state(&pair.a.socket), DCSCTP_STATE_CONNECTED);
    destroy_pair(&pair);
    options.heartbeat_interval++;
    connect_pair(&pair, &options, &options);
    EQUAL("longer", given_up(&pair.a, BEGIN), 62 * 500 * MILLISECONDS + 61);
    destroy_pair(&pair);
    options.follow_rfc = 1;
    options.heartbeat_interval = options.rto_initial / 2 + 1;
    connect_pair(&pair, &options, &options);
    uint64_t wait = heartbeat_wait(&pair.a, &options);
    EQUAL("by the RFC", given_up(&pair.a, BEGIN), 61 * wait + 500 * MILLISECONDS);
    destroy_pair(&pair);
}

/* 61 waits for an answer to data or SHUTDOWN, which is one more than `max_retransmissions`. Each is
 * twice the last one, and at most 3 s, the default of `max_timer_backoff_duration`. The first is
 * `rto_initial`, or `rto_min` after a round trip of no time. */
#define FROM_INITIAL ((500 + 1000 + 2000 + 58 * 3000) * MILLISECONDS) /* 177.5 s */
#define FROM_LEAST ((400 + 800 + 1600 + 58 * 3000) * MILLISECONDS)    /* 176.8 s */

/* A message is lost however often it is sent. A HEARTBEAT would go out 30 s after the last packet of
 * data, and none is due: it takes as long without. With 10 retransmissions the eleventh wait ends at
 * 3.5 + 8 * 3 s. */
static void data_before_a_round_trip(void) {
    dcsctp_options options = default_options();
    const dcsctp_options quiet = quiet_options();
    EQUAL("as dcsctp.h says", FROM_INITIAL, 177500 * MILLISECONDS);
    EQUAL("as dcsctp.h says", FROM_LEAST, 176800 * MILLISECONDS);
    connect_pair(&pair, &options, &options);
    EQUAL("send", send_bytes(&pair.a, 1, 10), DCSCTP_OK);
    EQUAL("with heartbeats", given_up(&pair.a, BEGIN), FROM_INITIAL);
    destroy_pair(&pair);
    connect_pair(&pair, &quiet, &quiet);
    EQUAL("send", send_bytes(&pair.a, 1, 10), DCSCTP_OK);
    EQUAL("without", given_up(&pair.a, BEGIN), FROM_INITIAL);
    destroy_pair(&pair);
    options.max_retransmissions = 10;
    connect_pair(&pair, &options, &options);
    EQUAL("send", send_bytes(&pair.a, 1, 10), DCSCTP_OK);
    EQUAL("10", given_up(&pair.a, BEGIN), 27500 * MILLISECONDS);
    destroy_pair(&pair);
}

/* Connects, and sends a message that takes no time there and back, so that the round trip is known.
 * The next message is lost. */
static void lose_after_a_round_trip(const dcsctp_options *options) {
    connect_pair(&pair, options, options);
    EQUAL("send", send_bytes(&pair.a, 1, 10), DCSCTP_OK);
    settle(&pair);
    EQUAL("a round trip of no time", metrics_of(&pair.a).srtt, 0);
    EQUAL("acknowledged", metrics_of(&pair.a).unack_data_count, 0);
    EQUAL("send", send_bytes(&pair.a, 1, 20), DCSCTP_OK);
    EQUAL("lost", carry(&pair.a, NULL), 1);
}

/* The same with the least timeout. */
static void data_after_a_round_trip(void) {
    dcsctp_options options = default_options();
    const dcsctp_options quiet = quiet_options();
    lose_after_a_round_trip(&options);
    EQUAL("the least timeout", until_deadline(&pair, &pair.a), 400 * MILLISECONDS);
    EQUAL("with heartbeats", given_up(&pair.a, BEGIN), FROM_LEAST);
    destroy_pair(&pair);
    lose_after_a_round_trip(&quiet);
    EQUAL("without", given_up(&pair.a, BEGIN), FROM_LEAST);
    destroy_pair(&pair);
    options.max_retransmissions = 10;
    lose_after_a_round_trip(&options);
    EQUAL("10", given_up(&pair.a, BEGIN), (2800 + 8 * 3000) * MILLISECONDS);
    destroy_pair(&pair);
}

/* The longest timeout there may be, 60 s. Waits after the first alone are cut, so the 61st ends
 * after 60 + 60 * 3 s. A HEARTBEAT would go out at least 60 s after data: the half of the timeout
 * more than the 30 s. */
static void at_the_longest_timeout(void) {
    dcsctp_options options = quiet_options();
    options.rto_initial = options.rto_max;
    for (int has_heartbeats = 0; has_heartbeats <= 1; has_heartbeats++) {
        options.heartbeat_interval = has_heartbeats ? 30 * SECONDS : 0;
        connect_pair(&pair, &options, &options);
        EQUAL("send", send_bytes(&pair.a, 1, 10), DCSCTP_OK);
        EQUAL("data", given_up(&pair.a, BEGIN), 240 * SECONDS);
        destroy_pair(&pair);
        connect_pair(&pair, &options, &options);
        EQUAL("shutdown", dcsctp_shutdown(&pair.a.socket), DCSCTP_OK);
        EQUAL("SHUTDOWN", given_up(&pair.a, BEGIN), 240 * SECONDS);
        destroy_pair(&pair);
    }
}

/* A SHUTDOWN that isn't answered is sent again as data is. Without `follow_rfc` its waits double
 * without a limit, and the 61st HEARTBEAT that isn't answered ends it. */
static void no_end_of_a_shutdown(void) {
    const dcsctp_options quiet = quiet_options();
    dcsctp_options options = default_options();
    connect_pair(&pair, &options, &options);
    EQUAL("shutdown", dcsctp_shutdown(&pair.a.socket), DCSCTP_OK);
    EQUAL("with heartbeats", given_up(&pair.a, BEGIN), FROM_INITIAL);
    destroy_pair(&pair);
    connect_pair(&pair, &quiet, &quiet);
    EQUAL("shutdown", dcsctp_shutdown(&pair.a.socket), DCSCTP_OK);
    EQUAL("without", given_up(&pair.a, BEGIN), FROM_INITIAL);
    destroy_pair(&pair);
    options.follow_rfc = 0;
    connect_pair(&pair, &options, &options);
    EQUAL("shutdown", dcsctp_shutdown(&pair.a.socket), DCSCTP_OK);
    EQUAL("without follow_rfc", given_up(&pair.a, BEGIN), 1830500 * MILLISECONDS);
    destroy_pair(&pair);
}

/* The other column of the table at dcsctp_options, without heartbeats: the handshake. */
static void no_handshake_without_heartbeats(void) {
    const dcsctp_options quiet = quiet_options();
    create_pair(&pair, &quiet, &quiet);
    EQUAL("connect", dcsctp_connect(&pair.a.socket), DCSCTP_OK);
    EQUAL("no INIT ACK", given_up(&pair.a, BEGIN), 180 * SECONDS);
    destroy_pair(&pair);
    create_pair(&pair, &quiet, &quiet);
    EQUAL("connect", dcsctp_connect(&pair.a.socket), DCSCTP_OK);
    EQUAL("INIT", carry(&pair.a, &pair.b), 1);
    EQUAL("INIT ACK", carry(&pair.b, &pair.a), 1);
    EQUAL("no COOKIE ACK", given_up(&pair.a, BEGIN), 180 * SECONDS);
    destroy_pair(&pair);
}

/* Upstream's defaults: no wait is cut, and the eleventh error ends it. Of data the waits are 0.5, 1,
 * 2 s and so on. Seven of them end by 63.5 s, and the eighth at 127.5 s. A HEARTBEAT goes out 30 s
 * after the last packet of data, at 61.5 s, 93.5 s and 123.5 s. So the eleventh error comes at
 * 127.5 s. At the least timeout eight waits end by 102 s, and a HEARTBEAT at 80.8 s isn't answered.
 * The ninth would end at 204.4 s: before that HEARTBEATs go out at 132 s and 162 s, and the wait for
 * the second ends half a second later. Without heartbeats it is the eleventh wait. */
static void as_upstream(void) {
    dcsctp_options options = default_options();
    options.follow_rfc = 0;
    options.max_timer_backoff_duration = DCSCTP_NEVER;
    options.max_retransmissions = 10;
    options.max_init_retransmits = 8;
    create_pair(&pair, &options, &options);
    EQUAL("connect", dcsctp_connect(&pair.a.socket), DCSCTP_OK);
    EQUAL("no INIT ACK", given_up(&pair.a, BEGIN), 511 * SECONDS);
    destroy_pair(&pair);
    for (int has_heartbeats = 0; has_heartbeats <= 1; has_heartbeats++) {
        options.heartbeat_interval = has_heartbeats ? 30 * SECONDS : 0;
        connect_pair(&pair, &options, &options);
        EQUAL("send", send_bytes(&pair.a, 1, 10), DCSCTP_OK);
        EQUAL("data", given_up(&pair.a, BEGIN),
              has_heartbeats ? 127500 * MILLISECONDS : 500 * MILLISECONDS * ((1 << 11) - 1));
        destroy_pair(&pair);
        lose_after_a_round_trip(&options);
        EQUAL("at the least timeout", given_up(&pair.a, BEGIN),
              has_heartbeats ? 162500 * MILLISECONDS : 400 * MILLISECONDS * ((1 << 11) - 1));
        destroy_pair(&pair);
        connect_pair(&pair, &options, &options);
        EQUAL("shutdown", dcsctp_shutdown(&pair.a.socket), DCSCTP_OK);
        EQUAL("SHUTDOWN", given_up(&pair.a, BEGIN),
              has_heartbeats ? 330500 * MILLISECONDS : 500 * MILLISECONDS * ((1 << 11) - 1));
        destroy_pair(&pair);
    }
}

/* What docs/guide/c.md has for who must know soon: a HEARTBEAT each 2.25 to 2.75 s, and the fourth
 * error ends it. At the least timeout data goes out after 0.4, 1.2 and 2.8 s, and then a HEARTBEAT. An
 * answer is awaited for 500 ms. */
static void soon(void) {
    dcsctp_options options = default_options();
    options.heartbeat_interval = 2 * SECONDS;
    options.max_retransmissions = 3;
    connect_pair(&pair, &options, &options);
    uint64_t wait = heartbeat_wait(&pair.a, &options);
    EQUAL("idle", given_up(&pair.a, BEGIN), 4 * wait + 500 * MILLISECONDS);
    destroy_pair(&pair);
    lose_after_a_round_trip(&options);
    wait = heartbeat_wait(&pair.a, &options);
    EQUAL("data", given_up(&pair.a, BEGIN), 2800 * MILLISECONDS + wait + 500 * MILLISECONDS);
    destroy_pair(&pair);
}

/* A link is down: nothing arrives, either way. A message of that time arrives by the first packet
 * that goes out afterwards, unless the sender has given up. At the least timeout the 60th wait ends
 * at 2.8 + 57 * 3 s, and the tenth at 2.8 + 7 * 3 s. */
static void link_is_down(void) {
    static const struct {
        uint32_t max_retransmissions;
        uint64_t down, again; /* milliseconds, and those until it is sent again */
    } rows[] = {
        {60, 150000, 152800}, {60, 173700, 173800}, {60, 173900, 0},
        {10, 23700, 23800},   {10, 25000, 0},
    };
    for (size_t i = 0; i < sizeof rows / sizeof rows[0]; i++) {
        dcsctp_options options = default_options();
        options.max_retransmissions = rows[i].max_retransmissions;
        lose_after_a_round_trip(&options);
        EQUAL("taken before", take_messages(&pair.b, 10), 1);
        for (uint64_t wait; (wait = until_deadline(&pair, &pair.a)) != DCSCTP_NEVER &&
                            pair.now + wait <= BEGIN + rows[i].down * MILLISECONDS;) {
            pass(&pair, wait);
            carry(&pair.a, NULL);
            carry(&pair.b, NULL);
        }
        if (rows[i].again) {
            pass(&pair, until_deadline(&pair, &pair.a));
            EQUAL("sent again", pair.now - BEGIN, rows[i].again * MILLISECONDS);
            settle(&pair);
            EQUAL("it arrives", take_messages(&pair.b, 20), 1);
            pass(&pair, 1 * SECONDS);
            settle(&pair);
            EQUAL("acknowledged", metrics_of(&pair.a).unack_data_count, 0);
        } else {
            pass(&pair, until_deadline(&pair, &pair.a));
            carry(&pair.a, NULL);
            EQUAL("given up", pair.a.seen[DCSCTP_EVENT_ABORTED], 1);
        }
        destroy_pair(&pair);
    }
}

/* ---- The last packets ----------------------------------------------------------------------- */

/* SHUTDOWN, SHUTDOWN ACK and SHUTDOWN COMPLETE (RFC 9260, section 9.2). The last one is lost, and
 * the answers to the first repeats of SHUTDOWN ACK, too. A is closed, and answers each repeat
 * (section 8.4). B is closed by the answer that arrives: 0.5, 1.5 and 3.5 s later, so within the
 * 4 s for which dcsctp.h has A continue. */
static void last_packet_is_lost(void) {
    static const uint64_t later[] = {500, 1500, 3500};
    for (uint32_t follow_rfc = 0; follow_rfc <= 1; follow_rfc++)
        for (size_t lost = 0; lost < 3; lost++) {
            dcsctp_options options = default_options();
            options.follow_rfc = follow_rfc;
            connect_pair(&pair, &options, &options);
            EQUAL("shutdown", dcsctp_shutdown(&pair.a.socket), DCSCTP_OK);
            EQUAL("SHUTDOWN", carry(&pair.a, &pair.b), 1);
            EQUAL("SHUTDOWN ACK", carry(&pair.b, &pair.a), 1);
            EQUAL("SHUTDOWN COMPLETE is lost", carry(&pair.a, NULL), 1);
            EQUAL("A is over", pair.a.seen[DCSCTP_EVENT_CLOSED], 1);
            for (size_t repeat = 0; repeat <= lost; repeat++) {
                EQUAL("B waits", dcsctp_state(&pair.b.socket), DCSCTP_STATE_SHUTTING_DOWN);
                pass(&pair, until_deadline(&pair, &pair.b));
                EQUAL("when", pair.now - BEGIN, later[repeat] * MILLISECONDS);
                EQUAL("SHUTDOWN ACK again", carry(&pair.b, &pair.a), 1);
                EQUAL("an answer", carry(&pair.a, repeat < lost ? NULL : &pair.b), 1);
            }
            carry(&pair.b, NULL);
            EQUAL("B is over", pair.b.seen[DCSCTP_EVENT_CLOSED], 1);
            EQUAL("in good order", pair.b.seen[DCSCTP_EVENT_ABORTED], 0);
            EQUAL("A has ended once", pair.a.seen[DCSCTP_EVENT_CLOSED], 1);
            destroy_pair(&pair);
        }
}

/* The same, but A has stopped. */
static void first_to_close_has_stopped(void) {
    const dcsctp_options options = default_options();
    connect_pair(&pair, &options, &options);
    EQUAL("shutdown", dcsctp_shutdown(&pair.a.socket), DCSCTP_OK);
    EQUAL("SHUTDOWN", carry(&pair.a, &pair.b), 1);
    EQUAL("SHUTDOWN ACK", carry(&pair.b, &pair.a), 1);
    EQUAL("B is aborted", given_up(&pair.b, BEGIN), FROM_INITIAL);
    destroy_pair(&pair);
}

/* A shutdown before the association is made. Until the INIT ACK comes it ends all at once, and the
 * message that was queued is lost. After that it waits for the handshake, and with `follow_rfc` for
 * the message: A is connected, and then shuts down. Messages are refused from the call on. */
static void shutdown_before_connected(uint32_t follow_rfc) {
    dcsctp_options options = default_options();
    options.follow_rfc = follow_rfc;
    for (size_t packets = 0; packets <= 3; packets++) {
        const int is_answered = packets >= 2;
        create_pair(&pair, &options, &options);
        EQUAL("send", send_bytes(&pair.a, 1, 10), DCSCTP_OK);
        EQUAL("connect", dcsctp_connect(&pair.a.socket), DCSCTP_OK);
        for (size_t i = 0; i < packets; i++)
            EQUAL("a packet", i == 1 ? carry(&pair.b, &pair.a) : carry(&pair.a, &pair.b), 1);
        EQUAL("shutdown", dcsctp_shutdown(&pair.a.socket), DCSCTP_OK);
        EQUAL("A", dcsctp_state(&pair.a.socket),
              !is_answered ? DCSCTP_STATE_CLOSED
              : follow_rfc ? DCSCTP_STATE_CONNECTING
                           : DCSCTP_STATE_SHUTTING_DOWN);
        if (is_answered)
            EQUAL("send", send_bytes(&pair.a, 1, 10), DCSCTP_ERROR_SHUTTING_DOWN);
        settle(&pair);
        EQUAL("A was connected", pair.a.seen[DCSCTP_EVENT_CONNECTED], is_answered && follow_rfc);
        EQUAL("A is closed", pair.a.seen[DCSCTP_EVENT_CLOSED], 1);
        EQUAL("B", pair.b.seen[DCSCTP_EVENT_CONNECTED], is_answered);
        EQUAL("the message", take_messages(&pair.b, 10), is_answered && follow_rfc);
        destroy_pair(&pair);
    }
}

/* The COOKIE ECHO, the message with it, and a repetition of both are lost. With `follow_rfc` they are
 * sent again after 1 and 2 s (RFC 9260, section 5.1.6), and the shutdown waits for their answer. */
static void shutdown_waits_for_a_lost_cookie_echo(void) {
    const dcsctp_options options = default_options();
    create_pair(&pair, &options, &options);
    EQUAL("send", send_bytes(&pair.a, 1, 10), DCSCTP_OK);
    EQUAL("connect", dcsctp_connect(&pair.a.socket), DCSCTP_OK);
    EQUAL("INIT", carry(&pair.a, &pair.b), 1);
    EQUAL("INIT ACK", carry(&pair.b, &pair.a), 1);
    EQUAL("shutdown", dcsctp_shutdown(&pair.a.socket), DCSCTP_OK);
    EQUAL("shutdown again", dcsctp_shutdown(&pair.a.socket), DCSCTP_OK);
    EQUAL("COOKIE ECHO is lost", carry(&pair.a, NULL), 1);
    pass(&pair, 1 * SECONDS);
    EQUAL("again", carry(&pair.a, NULL), 1);
    pass(&pair, 2 * SECONDS);
    settle(&pair);
    EQUAL("A was connected", pair.a.seen[DCSCTP_EVENT_CONNECTED], 1);
    while (pair.now < BEGIN + 4 * SECONDS && !pair.a.seen[DCSCTP_EVENT_CLOSED]) {
        pass(&pair, 100 * MILLISECONDS);
        settle(&pair);
    }
    EQUAL("A is closed", pair.a.seen[DCSCTP_EVENT_CLOSED], 1);
    EQUAL("B is closed", pair.b.seen[DCSCTP_EVENT_CLOSED], 1);
    EQUAL("none was aborted", pair.a.seen[DCSCTP_EVENT_ABORTED] + pair.b.seen[DCSCTP_EVENT_ABORTED], 0);
    EQUAL("the message", take_messages(&pair.b, 10), 1);
    destroy_pair(&pair);
}

/* Without an answer to the COOKIE ECHO the shutdown ends with the handshake, and doesn't outlast it. */
static void waiting_shutdown_ends_with_its_association(void) {
    dcsctp_options options = default_options();
    options.max_init_retransmits = 0;
    create_pair(&pair, &options, &options);
    EQUAL("connect", dcsctp_connect(&pair.a.socket), DCSCTP_OK);
    EQUAL("INIT", carry(&pair.a, &pair.b), 1);
    EQUAL("INIT ACK", carry(&pair.b, &pair.a), 1);
    EQUAL("shutdown", dcsctp_shutdown(&pair.a.socket), DCSCTP_OK);
    EQUAL("COOKIE ECHO is lost", carry(&pair.a, NULL), 1);
    pass(&pair, 1 * SECONDS);
    carry(&pair.a, NULL);
    EQUAL("A is given up", pair.a.seen[DCSCTP_EVENT_ABORTED], 1);
    EQUAL("connect anew", dcsctp_connect(&pair.a.socket), DCSCTP_OK);
    settle(&pair);
    EQUAL("A", dcsctp_state(&pair.a.socket), DCSCTP_STATE_CONNECTED);
    EQUAL("send", send_bytes(&pair.a, 1, 10), DCSCTP_OK);
    destroy_pair(&pair);
}

/* ---- A reader that pauses ------------------------------------------------------------------- */

/* A sends to B, which takes nothing, until the window is full, and more. */
static void fill_window(const dcsctp_options *of_a, const dcsctp_options *of_b) {
    dcsctp_options small = *of_b;
    small.max_receiver_window_buffer_size = 10000;
    connect_pair(&pair, of_a, &small);
    for (int i = 0; i < 40; i++)
        EQUAL("send", send_bytes(&pair.a, 1, 1000), DCSCTP_OK);
}

/* B takes no messages for at least 15 minutes, and answers each probe of A. The wait for the next
 * probe doubles each time, up to `max_timer_backoff_duration`, and with `follow_rfc` up to `rto_max`.
 * After a probe B takes all, and the packet that reports it is lost. Where nothing limits the waits,
 * probes came at 400 ms * (2^n - 1): at 818.8 s and, after a wait of 819.2 s, at 1,638 s. The next
 * wait is 1,638.4 s. */
static void paused_reader(uint64_t cap, uint32_t follow_rfc, uint64_t longest_in_seconds,
                          uint64_t next_in_seconds) {
    dcsctp_options options = quiet_options();
    const dcsctp_options of_b = quiet_options();
    uint64_t longest = 0;
    options.max_timer_backoff_duration = cap;
    options.follow_rfc = follow_rfc;
    fill_window(&options, &of_b);
    while (pair.now < BEGIN + 900 * SECONDS) {
        settle(&pair);
        const uint64_t of_a = until_deadline(&pair, &pair.a), to_b = until_deadline(&pair, &pair.b);
        if (of_a != DCSCTP_NEVER && of_a > longest)
            longest = of_a;
        pass(&pair, of_a < to_b ? of_a : to_b);
    }
    EQUAL("still connected", dcsctp_state(&pair.a.socket), DCSCTP_STATE_CONNECTED);
    EQUAL("the window was full", take_messages(&pair.b, 1000) < 40, 1);
    pass(&pair, 0);
    EQUAL("the window is reported, and that is lost", carry(&pair.b, NULL), 1);
    EQUAL("the longest wait", longest / SECONDS, longest_in_seconds);
    EQUAL("until the next probe", until_deadline(&pair, &pair.a) / SECONDS, next_in_seconds);
    destroy_pair(&pair);
}

/* The same without `follow_rfc` at one end: each probe is an error, since B doesn't answer it, or A
 * doesn't count the answer. And no HEARTBEAT goes out, since data does each 3 s. So a live peer is
 * given up, after as long as a silent one: 2.8 + 58 * 3 s. At A with `follow_rfc` the answers to a
 * request to reset another stream count. By upstream's limits waits grow, and HEARTBEATs go out
 * between. */
static void paused_reader_without_the_option(void) {
    static const struct {
        uint32_t at_a, at_b;
        int resets, by_upstream, is_given_up;
    } rows[] = {
        {0, 0, 0, 0, 1}, {1, 0, 0, 0, 1}, {0, 1, 0, 0, 1}, {1, 1, 0, 0, 0},
        {0, 0, 1, 0, 1}, {1, 0, 1, 0, 0}, {0, 1, 1, 0, 1}, {1, 1, 1, 0, 0},
        {0, 0, 0, 1, 0}, {1, 0, 0, 1, 0}, {0, 1, 0, 1, 0}, {1, 1, 0, 1, 0},
    };
    for (size_t i = 0; i < sizeof rows / sizeof rows[0]; i++) {
        const uint16_t stream = 2;
        dcsctp_options of_a = default_options(), of_b = default_options();
        of_a.follow_rfc = rows[i].at_a;
        of_b.follow_rfc = rows[i].at_b;
        if (rows[i].by_upstream) {
            of_a.max_timer_backoff_duration = DCSCTP_NEVER;
            of_a.max_retransmissions = 10;
        }
        fill_window(&of_a, &of_b);
        settle(&pair);
        if (rows[i].resets)
            EQUAL("reset", dcsctp_reset_streams(&pair.a.socket, &stream, 1), DCSCTP_OK);
        while (pair.now < BEGIN + 900 * SECONDS && !pair.a.seen[DCSCTP_EVENT_ABORTED]) {
            settle(&pair);
            const uint64_t to_a = until_deadline(&pair, &pair.a), to_b = until_deadline(&pair, &pair.b);
            pass(&pair, to_a < to_b ? to_a : to_b);
            carry(&pair.a, &pair.b);
        }
        EQUAL("given up", pair.a.seen[DCSCTP_EVENT_ABORTED], rows[i].is_given_up);
        if (rows[i].is_given_up)
            EQUAL("when", pair.now - BEGIN, FROM_LEAST);
        destroy_pair(&pair);
    }
}

/* ---- Messages that nobody has taken --------------------------------------------------------- */

static void a_closes(void) {
    EQUAL("close", dcsctp_close(&pair.a.socket), DCSCTP_OK);
    EQUAL("ABORT", carry(&pair.a, &pair.b), 1);
}

static void b_closes(void) {
    EQUAL("close", dcsctp_close(&pair.b.socket), DCSCTP_OK);
}

static void a_shuts_down(void) {
    EQUAL("shutdown", dcsctp_shutdown(&pair.a.socket), DCSCTP_OK);
    settle(&pair);
}

static void b_shuts_down(void) {
    EQUAL("shutdown", dcsctp_shutdown(&pair.b.socket), DCSCTP_OK);
    settle(&pair);
}

static void b_gives_up(void) {
    EQUAL("send", send_bytes(&pair.b, 1, 10), DCSCTP_OK);
    EQUAL("no answer", given_up(&pair.b, pair.now), FROM_INITIAL);
}

static void a_restarts(void) {
    const dcsctp_options options = quiet_options();
    dcsctp_destroy(&pair.a.socket);
    EQUAL("another A", create(&pair.a, &options, 3, pair.now), DCSCTP_OK);
    EQUAL("connect", dcsctp_connect(&pair.a.socket), DCSCTP_OK);
    settle(&pair);
    EQUAL("B gets an event", pair.b.seen[DCSCTP_EVENT_CONNECTION_RESTARTED], 1);
}

static size_t ready_count(struct end *end) {
    size_t count = 77;
    EQUAL("ready", dcsctp_messages_ready_count(&end->socket, &count), DCSCTP_OK);
    return count;
}

/* Connects, and sends two messages to B, the second of which is `last` bytes long. A gets the event
 * that both were delivered. */
static void deliver_two(size_t last, uint32_t follow_rfc) {
    dcsctp_options options = quiet_options();
    const dcsctp_send_options how = {.lifecycle_id = 7};
    static const uint8_t bytes[100];
    options.follow_rfc = follow_rfc;
    connect_pair(&pair, &options, &options);
    EQUAL("send", dcsctp_send(&pair.a.socket, 1, 51, bytes, 10, &how), DCSCTP_OK);
    EQUAL("send", dcsctp_send(&pair.a.socket, 1, 51, bytes, last, &how), DCSCTP_OK);
    settle(&pair);
    pass(&pair, 200 * MILLISECONDS);
    settle(&pair);
    EQUAL("both count as delivered", pair.a.seen[DCSCTP_EVENT_LIFECYCLE_DELIVERED], 2);
    EQUAL("both are ready", ready_count(&pair.b), 2);
}

/* Of two messages one is taken, and the other isn't. That one is gone once the association has ended,
 * but with `follow_rfc` only once the peer has begun another one. The bytes of the first can still be copied. */
static void untaken_messages(uint32_t follow_rfc) {
    const struct {
        const char *name;
        void (*end)(void);
        int32_t state;
    } rows[] = {
        {"the peer closes", a_closes, DCSCTP_STATE_CLOSED},
        {"this end closes", b_closes, DCSCTP_STATE_CLOSED},
        {"the peer shuts down", a_shuts_down, DCSCTP_STATE_CLOSED},
        {"this end shuts down", b_shuts_down, DCSCTP_STATE_CLOSED},
        {"the peer is silent", b_gives_up, DCSCTP_STATE_CLOSED},
        {"the peer restarts", a_restarts, DCSCTP_STATE_CONNECTED},
    };
    for (size_t i = 0; i < sizeof rows / sizeof rows[0]; i++) {
        uint8_t bytes[100];
        dcsctp_message message;
        size_t length = 77;
        const int is_kept = follow_rfc && rows[i].state == DCSCTP_STATE_CLOSED;
        deliver_two(20, follow_rfc);
        EQUAL(rows[i].name, dcsctp_get_next_message(&pair.b.socket, &message), 1);
        rows[i].end();
        EQUAL(rows[i].name, dcsctp_state(&pair.b.socket), rows[i].state);
        EQUAL(rows[i].name, ready_count(&pair.b), (size_t)is_kept);
        EQUAL(rows[i].name, dcsctp_message_bytes(&pair.b.socket, bytes, 100, &length), DCSCTP_OK);
        EQUAL(rows[i].name, length, 10);
        EQUAL(rows[i].name, dcsctp_get_next_message(&pair.b.socket, &message), is_kept);
        EQUAL(rows[i].name, message.length, is_kept ? 20 : 0);
        destroy_pair(&pair);
    }
}

/* A message and an ABORT arrive one after the other. The message is there if it is taken between
 * the two. If both come in one packet, it is by `follow_rfc` alone. */
static void message_before_an_abort(uint32_t follow_rfc) {
    static const uint8_t abort_chunk[] = {6, 0, 0, 4};
    dcsctp_options options = quiet_options();
    uint8_t packet[100];
    options.follow_rfc = follow_rfc;
    for (int together = 0; together <= 1; together++) {
        connect_pair(&pair, &options, &options);
        EQUAL("send", send_bytes(&pair.a, 1, 10), DCSCTP_OK);
        EQUAL("it is under way", carry(&pair.a, NULL), 1);
        size_t length = pair.a.length;
        memcpy(packet, pair.a.packet, length);
        if (together) {
            memcpy(packet + length, abort_chunk, sizeof abort_chunk);
            length += sizeof abort_chunk;
            put_checksum(packet, length);
        }
        EQUAL("handled", dcsctp_handle_input(&pair.b.socket, packet, length), DCSCTP_OK);
        EQUAL("the message", take_messages(&pair.b, 10), !together || follow_rfc);
        if (!together)
            EQUAL("ABORT", forge(&pair.b, packet, abort_chunk, sizeof abort_chunk), DCSCTP_OK);
        EQUAL("closed", dcsctp_state(&pair.b.socket), DCSCTP_STATE_CLOSED);
        destroy_pair(&pair);
    }
}

int main(void) {
    no_handshake();
    idle();
    too_many_heartbeats();
    data_before_a_round_trip();
    data_after_a_round_trip();
    at_the_longest_timeout();
    no_end_of_a_shutdown();
    no_handshake_without_heartbeats();
    as_upstream();
    soon();
    link_is_down();
    last_packet_is_lost();
    first_to_close_has_stopped();
    paused_reader(default_options().max_timer_backoff_duration, 1, 3, 3);
    paused_reader(5 * SECONDS, 1, 5, 5);
    paused_reader(DCSCTP_NEVER, 1, 60, 60);
    paused_reader(DCSCTP_NEVER, 0, 819, 1638);
    paused_reader_without_the_option();
    for (uint32_t follow_rfc = 0; follow_rfc <= 1; follow_rfc++) {
        shutdown_before_connected(follow_rfc);
        untaken_messages(follow_rfc);
        message_before_an_abort(follow_rfc);
    }
    shutdown_waits_for_a_lost_cookie_echo();
    waiting_shutdown_ends_with_its_association();
    puts("ends: as dcsctp.h says");
    return 0;
}
