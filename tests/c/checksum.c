/* dcsctp_checksum.h, and `checksum_offload`: what it computes is what others publish and what the
 * library computes; and a socket with the switch does what it does without, but for the checksum
 * field. */
#include "pair.h"

#include <dcsctp_checksum.h>

/* ---- What is computed ----------------------------------------------------------------------- */

/* CRC32c of bytes, by tables and by the processor. */
static void same_sum(const char *name, const uint8_t *bytes, size_t length, uint32_t expected) {
    EQUAL(name, (uint32_t)~dcsctp_sum_by_tables(0xffffffff, bytes, length), expected);
    if (dcsctp_sum_has_instructions())
        EQUAL(name, (uint32_t)~dcsctp_sum_by_processor(0xffffffff, bytes, length), expected);
}

/* The check value of CRC32c, the vectors that iSCSI publishes (RFC 3720, appendix B.4), and entries
 * of the table of RFC 9260, appendix A: the register after a byte, from 0. */
static void published(void) {
    static const uint8_t read_10[48] = {1, 0xc0, [16] = 0x14, [22] = 4, [27] = 0x14, [31] = 0x18,
                                        0x28, [40] = 2};
    const struct {
        uint8_t byte;
        uint32_t entry;
    } rows[] = {{1, 0xf26b8303}, {2, 0xe13b70f7}, {3, 0x1350f3f4}, {16, 0x105ec76f},
                {128, 0x82f63b78}, {254, 0x5f16d052}, {255, 0xad7d5351}};
    uint8_t bytes[32] = {0};
    same_sum("no bytes", bytes, 0, 0);
    same_sum("nine digits", (const uint8_t *)"123456789", 9, 0xe3069283);
    same_sum("zeros", bytes, sizeof bytes, 0x8a9136aa);
    memset(bytes, 255, sizeof bytes);
    same_sum("ones", bytes, sizeof bytes, 0x62a8ab43);
    for (int i = 0; i < 32; i++)
        bytes[i] = (uint8_t)i;
    same_sum("ascending", bytes, sizeof bytes, 0x46dd794e);
    for (int i = 0; i < 32; i++)
        bytes[i] = (uint8_t)(31 - i);
    same_sum("descending", bytes, sizeof bytes, 0x113fdb5c);
    same_sum("an iSCSI Read (10)", read_10, sizeof read_10, 0xd9963a56);
    for (size_t i = 0; i < sizeof rows / sizeof rows[0]; i++) {
        EQUAL("an entry", dcsctp_sum_by_tables(0, &rows[i].byte, 1), rows[i].entry);
        if (dcsctp_sum_has_instructions())
            EQUAL("an entry", dcsctp_sum_by_processor(0, &rows[i].byte, 1), rows[i].entry);
    }
}

/* Each length at each alignment, against a bit at a time. */
static void every_length(void) {
    enum { LONGEST = 2000, ALIGNMENTS = 64 };
    static uint8_t bytes[LONGEST + ALIGNMENTS];
    for (size_t i = 0; i < sizeof bytes; i++)
        bytes[i] = (uint8_t)(i * i * 31 + i / 7);
    for (size_t from = 0; from < ALIGNMENTS; from++) {
        uint32_t expected = 0xffffffff;
        for (size_t length = 0; length <= LONGEST; length++) {
            same_sum("a length", bytes + from, length, ~expected);
            expected ^= bytes[from + length];
            for (int bit = 0; bit < 8; bit++)
                expected = expected & 1 ? expected >> 1 ^ 0x82f63b78 : expected >> 1;
        }
    }
}

/* The three calls at a length. None of them takes it where `is_length` is 0, and then none writes. */
static void at_length(const char *name, uint8_t *packet, size_t length, int is_length) {
    uint8_t field[4] = {7, 7, 7, 7};
    EQUAL(name, dcsctp_packet_checksum(packet, length, field), is_length);
    EQUAL(name, memcmp(field, "\7\7\7\7", 4) == 0, !is_length);
    EQUAL(name, dcsctp_finish_packet(packet, length), is_length);
    EQUAL(name, dcsctp_check_packet(packet, length, 0), is_length);
    EQUAL(name, dcsctp_check_packet(packet, length, 1), is_length);
    if (is_length)
        EQUAL(name, memcmp(packet + 8, field, 4), 0);
}

/* A length that no packet has is refused, and nothing is read or written: each block is as long as
 * it says, and begins with zeros in the field, which another rule would find right. */
static void lengths(void) {
    const size_t too_long[] = {65536, 65537, SIZE_MAX / 2, SIZE_MAX - 11, SIZE_MAX};
    for (size_t length = 0; length <= 12; length++) {
        uint8_t *packet = calloc(1, length ? length : 1);
        EQUAL("a block", packet != NULL, 1);
        at_length("a short packet", packet, length, length == 12);
        for (size_t i = 0; length < 12 && i < length; i++)
            EQUAL("unchanged", packet[i], 0);
        free(packet);
    }
    for (size_t i = 0; i < sizeof too_long / sizeof too_long[0]; i++) {
        uint8_t packet[12] = {0};
        at_length("a long packet", packet, too_long[i], 0);
        for (size_t at = 0; at < 12; at++)
            EQUAL("unchanged", packet[at], 0);
    }
    uint8_t *longest = calloc(1, 65535);
    EQUAL("a block", longest != NULL, 1);
    at_length("the longest packet", longest, 65535, 1);
    free(longest);
}

/* Packets of each length: they are finished as put_checksum does it, and then found right. A wrong
 * bit is found, in the field too. */
static void packets(void) {
    uint8_t packet[1300], expected[1300];
    for (size_t length = 12; length <= sizeof packet; length++) {
        memset(packet, (int)length, length);
        memcpy(expected, packet, length);
        EQUAL("finished", dcsctp_finish_packet(packet, length), 1);
        put_checksum(expected, length);
        EQUAL("a packet", memcmp(packet, expected, length), 0);
        EQUAL("right", dcsctp_check_packet(packet, length, 0), 1);
        EQUAL("right", dcsctp_check_packet(packet, length, 1), 1);
        for (size_t bit = length % 8; bit < 8 * length; bit += 8 * 5 + 1) {
            packet[bit / 8] ^= (uint8_t)(1 << bit % 8);
            EQUAL("a wrong bit", dcsctp_check_packet(packet, length, 0), 0);
            EQUAL("a wrong bit", dcsctp_check_packet(packet, length, 1), 0);
            packet[bit / 8] ^= (uint8_t)(1 << bit % 8);
        }
        memset(packet + 8, 0, 4);
        EQUAL("none", dcsctp_check_packet(packet, length, 0), 0);
        EQUAL("none by zero checksum", dcsctp_check_packet(packet, length, 1), 1);
    }
}

/* ---- Against the library -------------------------------------------------------------------- */

static struct pair plain, offload;

/* The options of a pair, by whether it makes checksums itself. */
static dcsctp_options options_of(uint16_t checksum_offload, uint32_t zero_checksum_method) {
    dcsctp_options options = quiet_options();
    options.mtu = 1400;
    options.max_burst = 100;
    options.enable_handover_with_outstanding_data = 1;
    options.checksum_offload = checksum_offload;
    options.zero_checksum_method = zero_checksum_method;
    return options;
}

/* Takes an event of both. It is the same, but that the one packet has no checksum. Finishing adds
 * the one of the library, unless that leaves it out, too. */
static uint32_t take_both(struct end *with, struct end *without) {
    static const uint8_t zeros[4];
    uint8_t checksum[4];
    const uint8_t *view = NULL;
    size_t length = 0;
    const uint32_t kind = take(with);
    EQUAL("the same event", take(without), kind);
    EQUAL("the same event",
          memcmp(&with->last[kind], &without->last[kind], sizeof with->last[kind]), 0);
    EQUAL("the same text", strcmp(with->text, without->text), 0);
    if (kind != DCSCTP_EVENT_SEND_PACKET)
        return kind;
    EQUAL("a view", dcsctp_event_view(&without->socket, &view, &length), DCSCTP_OK);
    EQUAL("the same bytes", memcmp(view, without->packet, without->length), 0);
    EQUAL("no checksum", memcmp(without->packet + 8, zeros, 4), 0);
    EQUAL("the same front", memcmp(with->packet, without->packet, 8), 0);
    EQUAL("the same rest", memcmp(with->packet + 12, without->packet + 12, with->length - 12), 0);
    EQUAL("its checksum", dcsctp_packet_checksum(view, length, checksum), 1);
    EQUAL("finished", dcsctp_finish_packet(without->packet, without->length), 1);
    EQUAL("the same checksum", memcmp(without->packet + 8, checksum, 4), 0);
    EQUAL("the view stays", memcmp(view + 8, zeros, 4), 0);
    if (memcmp(with->packet + 8, zeros, 4) != 0)
        EQUAL("as the library", memcmp(with->packet, without->packet, with->length), 0);
    return kind;
}

/* Carries packets from one end to the other, of both pairs. Those of the pair with the switch have
 * any checksum. Returns how many there were. */
static size_t carry_both(struct end *from, struct end *to, struct end *from_too,
                         struct end *to_too) {
    static const uint32_t wrong[] = {0, 1, 0x80000000, 0xffffffff};
    size_t count = 0;
    uint32_t kind;
    while ((kind = take_both(from, from_too)) != DCSCTP_EVENT_NONE) {
        if (kind != DCSCTP_EVENT_SEND_PACKET)
            continue;
        EQUAL("right", dcsctp_check_packet(from_too->packet, from_too->length, 0), 1);
        put_u32(from_too->packet + 8, wrong[count++ % 4]);
        EQUAL("input", dcsctp_handle_input(&to->socket, from->packet, from->length), 0);
        EQUAL("input", dcsctp_handle_input(&to_too->socket, from_too->packet, from_too->length), 0);
    }
    return count;
}

static void settle_both(void) {
    while (carry_both(&plain.a, &plain.b, &offload.a, &offload.b) +
               carry_both(&plain.b, &plain.a, &offload.b, &offload.a) > 0)
        ;
}

/* Sends a message of so many bytes from A in both pairs, and takes it at B. */
static void carry_message(size_t length) {
    EQUAL("send", send_bytes(&plain.a, 1, length), DCSCTP_OK);
    EQUAL("send", send_bytes(&offload.a, 1, length), DCSCTP_OK);
    settle_both();
    EQUAL("it came", take_messages(&plain.b, length), 1);
    EQUAL("it came", take_messages(&offload.b, length), 1);
}

/* Two pairs with the same seeds, of which one has the switch. */
static void connect_both(uint32_t zero_checksum_method) {
    const dcsctp_options with = options_of(0, zero_checksum_method);
    const dcsctp_options without = options_of(0x8000, zero_checksum_method);
    create_pair(&plain, &with, &with);
    create_pair(&offload, &without, &without);
    EQUAL("connect", dcsctp_connect(&plain.a.socket), DCSCTP_OK);
    EQUAL("connect", dcsctp_connect(&offload.a.socket), DCSCTP_OK);
    settle_both();
    EQUAL("connected", dcsctp_state(&offload.b.socket), DCSCTP_STATE_CONNECTED);
    EQUAL("by zero checksum", metrics_of(&offload.a).uses_zero_checksum, zero_checksum_method != 0);
}

/* Whole associations: the same packets at the same times, of each length, to the end. */
static void associations(void) {
    const uint16_t stream = 1;
    for (uint32_t method = 0; method <= 1; method++) {
        connect_both(method);
        for (size_t length = 1; length <= 1600; length += length < 1200 ? 5 : 37)
            carry_message(length);
        carry_message(100000);
        EQUAL("reset", dcsctp_reset_streams(&plain.a.socket, &stream, 1), DCSCTP_OK);
        EQUAL("reset", dcsctp_reset_streams(&offload.a.socket, &stream, 1), DCSCTP_OK);
        settle_both();
        EQUAL("it was reset", offload.a.seen[DCSCTP_EVENT_STREAMS_RESET_PERFORMED], 1);
        for (int i = 0; i < 3; i++) {
            EQUAL("lost", send_bytes(&plain.a, 2, 10), DCSCTP_OK);
            EQUAL("lost", send_bytes(&offload.a, 2, 10), DCSCTP_OK);
            while (take_both(&plain.a, &offload.a) != DCSCTP_EVENT_NONE)
                ;
            pass(&plain, 4 * SECONDS);
            pass(&offload, 4 * SECONDS);
        }
        settle_both();
        EQUAL("all came", take_messages(&plain.b, 10), 3);
        EQUAL("all came", take_messages(&offload.b, 10), 3);
        EQUAL("shutdown", dcsctp_shutdown(&plain.a.socket), DCSCTP_OK);
        EQUAL("shutdown", dcsctp_shutdown(&offload.a.socket), DCSCTP_OK);
        pass(&plain, 1 * SECONDS);
        pass(&offload, 1 * SECONDS);
        settle_both();
        EQUAL("closed", offload.a.seen[DCSCTP_EVENT_CLOSED], 1);
        destroy_pair(&plain);
        destroy_pair(&offload);
    }
}

/* Carries packets of an end with the switch, each finished, or of one without, each checked. */
static size_t carry_one(struct end *from, struct end *to, const dcsctp_options *of_from) {
    size_t before = from->packets;
    uint32_t kind;
    while ((kind = take(from)) != DCSCTP_EVENT_NONE) {
        if (kind != DCSCTP_EVENT_SEND_PACKET)
            continue;
        if (of_from->checksum_offload)
            EQUAL("finished", dcsctp_finish_packet(from->packet, from->length), 1);
        EQUAL("right",
              dcsctp_check_packet(from->packet, from->length, of_from->zero_checksum_method), 1);
        EQUAL("in", dcsctp_handle_input(&to->socket, from->packet, from->length), DCSCTP_OK);
    }
    return from->packets - before;
}

/* A socket with the switch talks to one without: what leaves is finished, and what comes in is
 * right. */
static void mixed(void) {
    for (uint32_t method = 0; method <= 1; method++) {
        const dcsctp_options with = options_of(0, method), without = options_of(1, method);
        struct pair *pair = &offload;
        create_pair(pair, &without, &with);
        EQUAL("connect", dcsctp_connect(&pair->a.socket), DCSCTP_OK);
        EQUAL("send", send_bytes(&pair->a, 1, 50000), DCSCTP_OK);
        while (carry_one(&pair->a, &pair->b, &without) + carry_one(&pair->b, &pair->a, &with) > 0)
            ;
        EQUAL("it came", take_messages(&pair->b, 50000), 1);
        EQUAL("no error", pair->a.seen[DCSCTP_EVENT_ERROR] + pair->b.seen[DCSCTP_EVENT_ERROR], 0);
        EQUAL("by zero checksum", metrics_of(&pair->a).uses_zero_checksum, method);
        destroy_pair(pair);
    }
}

/* The library accepts an INIT where dcsctp_check_packet does, by the method that its socket
 * announces. */
static void accepted(void) {
    const struct {
        const char *name;
        uint32_t field, method;
        int is_right;
    } rows[] = {
        {"right", 0, 0, 1},
        {"right, by DTLS", 0, 1, 1},
        {"none", 0, 0, 0},
        {"none, by DTLS", 0, 1, 0},
        {"none, by another method", 0, 77, 0},
        {"wrong", 1, 0, 0},
        {"wrong, by DTLS", 1, 1, 0},
    };
    for (size_t i = 0; i < sizeof rows / sizeof rows[0]; i++) {
        const dcsctp_options options = options_of(0, rows[i].method);
        create_pair(&plain, &options, &options);
        EQUAL("connect", dcsctp_connect(&plain.a.socket), DCSCTP_OK);
        EQUAL("an INIT", take(&plain.a), DCSCTP_EVENT_SEND_PACKET);
        EQUAL("it has a checksum", u32_at(plain.a.packet + 8) != 0, 1);
        if (!rows[i].is_right)
            put_u32(plain.a.packet + 8, rows[i].field);
        const int accepts = dcsctp_check_packet(plain.a.packet, plain.a.length, rows[i].method);
        EQUAL("in", dcsctp_handle_input(&plain.b.socket, plain.a.packet, plain.a.length), 0);
        EQUAL(rows[i].name, take(&plain.b),
              accepts ? DCSCTP_EVENT_SEND_PACKET : DCSCTP_EVENT_ERROR);
        destroy_pair(&plain);
    }
}

/* The switch is the socket's own: a snapshot neither keeps nor changes it. What waits leaves by the
 * switch of the socket that was restored. */
static void handed_over(void) {
    static uint8_t snapshot[1 << 20];
    struct pair *pair = &offload;
    for (uint16_t run = 0; run < 4; run++) {
        const uint16_t to = run / 2;
        const dcsctp_options before = options_of(run % 2, 0), after = options_of(to, 0);
        dcsctp_options told;
        size_t length = 0;
        told.size = sizeof told;
        create_pair(pair, &before, &before);
        EQUAL("connect", dcsctp_connect(&pair->a.socket), DCSCTP_OK);
        for (int i = 0; i < 4; i++) {
            struct end *from = i % 2 ? &pair->b : &pair->a, *other = i % 2 ? &pair->a : &pair->b;
            take_packet(from);
            EQUAL("in", dcsctp_handle_input(&other->socket, from->packet, from->length), DCSCTP_OK);
        }
        EQUAL("send", send_bytes(&pair->a, 1, 250000), DCSCTP_OK);
        EQUAL("hand over", dcsctp_get_handover_state_and_close(&pair->a.socket), DCSCTP_OK);
        EQUAL("snapshot",
              dcsctp_handover_bytes(&pair->a.socket, snapshot, sizeof snapshot, &length), 0);
        dcsctp_destroy(&pair->a.socket);
        EQUAL("another", create(&pair->a, &after, 9, pair->now), DCSCTP_OK);
        EQUAL("restore", dcsctp_restore_from_state(&pair->a.socket, snapshot, length), DCSCTP_OK);
        EQUAL("options", dcsctp_get_options(&pair->a.socket, &told), DCSCTP_OK);
        EQUAL("its own switch", told.checksum_offload, to);
        EQUAL("time", dcsctp_advance_time(&pair->a.socket, pair->now += 4 * SECONDS), DCSCTP_OK);
        take_packet(&pair->a);
        EQUAL("no checksum", u32_at(pair->a.packet + 8) == 0, to);
        pair->b.packet[8] ^= 1;
        const unsigned errors = pair->a.seen[DCSCTP_EVENT_ERROR];
        while (take(&pair->a) != DCSCTP_EVENT_NONE)
            ;
        EQUAL("in", dcsctp_handle_input(&pair->a.socket, pair->b.packet, pair->b.length), 0);
        while (take(&pair->a) != DCSCTP_EVENT_NONE)
            ;
        EQUAL("a wrong checksum", pair->a.seen[DCSCTP_EVENT_ERROR] - errors, !to);
        destroy_pair(pair);
    }
}

/* A socket without the switch, and one without checks, says so. */
static void told(void) {
    const struct {
        const char *name;
        uint16_t offload;
        uint32_t unchecked, told;
    } rows[] = {
        {"neither", 0, 0, 0},
        {"the switch", 1, 0, 0},
        {"no checks", 0, 2, 1},
        {"both", 256, 1, 0},
    };
    for (size_t i = 0; i < sizeof rows / sizeof rows[0]; i++) {
        dcsctp_options options = options_of(rows[i].offload, 0);
        struct end *end = &plain.a;
        options.disable_checksum_verification = rows[i].unchecked;
        EQUAL("create", create(end, &options, 1, BEGIN), DCSCTP_OK);
        EQUAL("options", dcsctp_get_options(&end->socket, &options), DCSCTP_OK);
        EQUAL(rows[i].name, options.checksum_offload, rows[i].offload != 0);
        EQUAL(rows[i].name, options.disable_checksum_verification, rows[i].told);
        dcsctp_destroy(&end->socket);
    }
}

int main(void) {
    published();
    every_length();
    lengths();
    packets();
    associations();
    mixed();
    accepted();
    handed_over();
    told();
    puts("checksum: it is the published one, and what the library computes");
    return 0;
}
