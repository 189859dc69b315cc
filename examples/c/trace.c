/* SCTP packets as text, and as a file for Wireshark: see trace.h. */
#include "trace.h"

#include <inttypes.h>
#include <stdarg.h>

/* ---- Text and bytes ------------------------------------------------------------------------- */

/* Where text is written, how much room there is, and how long the text is so far. */
struct text {
    char *at;
    size_t size, length;
};

static void put(struct text *text, const char *format, ...) {
    const int has_room = text->length < text->size;
    va_list values;
    va_start(values, format);
    const int more = vsnprintf(has_room ? text->at + text->length : NULL,
                               has_room ? text->size - text->length : 0, format, values);
    va_end(values);
    if (more > 0)
        text->length += (size_t)more;
}

/* A packet or a part of it. */
struct view {
    const uint8_t *at;
    size_t length;
};

/* The bytes after the first `count`. There are as many. */
static struct view after(struct view bytes, size_t count) {
    bytes.at += count;
    bytes.length -= count;
    return bytes;
}

static unsigned u16(struct view bytes, size_t at) {
    return (unsigned)bytes.at[at] << 8 | bytes.at[at + 1];
}

static uint32_t u32(struct view bytes, size_t at) {
    return (uint32_t)u16(bytes, at) << 16 | u16(bytes, at + 2);
}

/* Bytes of a header: all chunks, parameters and causes have their length in its last two. */
enum { HEAD = 4 };

/* Takes the next chunk, parameter or cause, and its padding. 1: it is whole. 0: there is none. -1:
 * what is left is shorter than a header, or than the length in it. */
static int take(struct view *rest, struct view *item) {
    if (rest->length == 0)
        return 0;
    if (rest->length < HEAD || u16(*rest, 2) < HEAD || u16(*rest, 2) > rest->length)
        return -1;
    item->at = rest->at;
    item->length = u16(*rest, 2);
    const size_t padded = (item->length + 3) & ~(size_t)3;
    *rest = after(*rest, padded < rest->length ? padded : rest->length);
    return 1;
}

/* ---- Kinds of chunk, parameter and cause ---------------------------------------------------- */

/* A kind: its number, its name, its least length, the letters of its flags from bit 0 on, and a
 * function for its fields. That gets all bytes from the header on, at least the least length. */
struct kind {
    unsigned number;
    const char *name;
    size_t least;
    const char *flags;
    void (*put)(struct text *text, struct view item);
};

#define COUNT(table) (sizeof(table) / sizeof *(table))

static const struct kind *find(const struct kind *table, size_t count, unsigned number) {
    for (size_t i = 0; i < count; i++)
        if (table[i].number == number)
            return &table[i];
    return NULL;
}

/* The fields of an item, or how long it is where it has none. */
static void put_fields(struct text *text, const struct kind *kind, struct view item) {
    if (kind && item.length < kind->least)
        put(text, " malformed: length field is %zu, not %zu or more", item.length, kind->least);
    else if (kind && kind->put)
        kind->put(text, item);
    else if (item.length > HEAD)
        put(text, " length=%zu", item.length - HEAD);
}

/* What is left where no item could be taken. */
static void put_rest(struct text *text, struct view rest) {
    if (rest.length < HEAD)
        put(text, " malformed: %zu bytes left", rest.length);
    else if (u16(rest, 2) < HEAD)
        put(text, " malformed: length field is %u", u16(rest, 2));
    else
        put(text, " malformed: length field is %u, with %zu bytes left", u16(rest, 2), rest.length);
}

/* A text of the peer's, in quotes. */
static void put_quoted(struct text *text, struct view bytes) {
    put(text, " \"");
    for (size_t i = 0; i < bytes.length; i++) {
        const unsigned byte = bytes.at[i];
        if (byte < 0x20 || byte > 0x7e || byte == '"' || byte == '\\')
            put(text, "\\x%02x", byte);
        else
            put(text, "%c", (int)byte);
    }
    put(text, "\"");
}

/* Numbers of two bytes, such as streams. */
static void put_numbers(struct text *text, const char *name, struct view bytes) {
    size_t at = 0;
    if (bytes.length > 1)
        put(text, " %s=", name);
    for (; at + 2 <= bytes.length; at += 2)
        put(text, "%s%u", at > 0 ? "," : "", u16(bytes, at));
    if (at < bytes.length)
        put(text, " malformed: %zu byte left", bytes.length - at);
}

/* ---- Parameters ----------------------------------------------------------------------------- */

static void put_chunk_name(struct text *text, unsigned number);

/* Chunk types (RFC 5061, section 4.2.7). */
static void put_extensions(struct text *text, struct view item) {
    for (size_t i = HEAD; i < item.length; i++) {
        put(text, i > HEAD ? ", " : " ");
        put_chunk_name(text, item.at[i]);
    }
}

static void put_parameter_name(struct text *text, unsigned number);

/* A parameter that the peer doesn't know, by name alone: it may have another in it, and so on. */
static void put_unrecognized(struct text *text, struct view item) {
    put(text, ": ");
    put_parameter_name(text, u16(item, HEAD));
}

static void put_cookie_preservative(struct text *text, struct view item) {
    put(text, " milliseconds=%u", (unsigned)u32(item, 4));
}

static void put_address_types(struct text *text, struct view item) {
    put_numbers(text, "types", after(item, HEAD));
}

/* RFC 9653, section 4. */
static void put_zero_checksum(struct text *text, struct view item) {
    put(text, " method=%u", (unsigned)u32(item, 4));
}

/* RFC 6525, section 4.1. */
static void put_outgoing_reset(struct text *text, struct view item) {
    put(text, " request=%u response=%u last-tsn=%u", (unsigned)u32(item, 4), (unsigned)u32(item, 8),
        (unsigned)u32(item, 12));
    put_numbers(text, "streams", after(item, 16));
}

/* RFC 6525, section 4.2. */
static void put_incoming_reset(struct text *text, struct view item) {
    put(text, " request=%u", (unsigned)u32(item, 4));
    put_numbers(text, "streams", after(item, 8));
}

/* RFC 6525, section 4.3. */
static void put_tsn_reset(struct text *text, struct view item) {
    put(text, " request=%u", (unsigned)u32(item, 4));
}

/* RFC 6525, section 4.4. */
static void put_response(struct text *text, struct view item) {
    static const char *const results[] = {
        "Success - Nothing to do", "Success - Performed", "Denied", "Error - Wrong SSN",
        "Error - Request already in progress", "Error - Bad Sequence Number", "In progress"};
    const uint32_t result = u32(item, 8);
    put(text, " response=%u result=%u", (unsigned)u32(item, 4), (unsigned)result);
    if (result < COUNT(results))
        put(text, " (%s)", results[result]);
    if (item.length >= 20)
        put(text, " sender-next-tsn=%u receiver-next-tsn=%u", (unsigned)u32(item, 12),
            (unsigned)u32(item, 16));
}

/* RFC 6525, sections 4.5 and 4.6. */
static void put_add_streams(struct text *text, struct view item) {
    put(text, " request=%u new-streams=%u", (unsigned)u32(item, 4), u16(item, 8));
}

static const struct kind PARAMETERS[] = {
    {1, "Heartbeat Info", 4, NULL, NULL},
    {5, "IPv4 Address", 8, NULL, NULL},
    {6, "IPv6 Address", 20, NULL, NULL},
    {7, "State Cookie", 4, NULL, NULL},
    {8, "Unrecognized Parameter", 8, NULL, put_unrecognized},
    {9, "Cookie Preservative", 8, NULL, put_cookie_preservative},
    {11, "Host Name Address", 4, NULL, NULL},
    {12, "Supported Address Types", 4, NULL, put_address_types},
    {13, "Outgoing SSN Reset Request", 16, NULL, put_outgoing_reset},
    {14, "Incoming SSN Reset Request", 8, NULL, put_incoming_reset},
    {15, "SSN/TSN Reset Request", 8, NULL, put_tsn_reset},
    {16, "Re-configuration Response", 12, NULL, put_response},
    {17, "Add Outgoing Streams Request", 12, NULL, put_add_streams},
    {18, "Add Incoming Streams Request", 12, NULL, put_add_streams},
    {0x8000, "ECN Capable", 4, NULL, NULL},
    {0x8001, "Zero Checksum Acceptable", 8, NULL, put_zero_checksum},
    {0x8002, "Random", 4, NULL, NULL},
    {0x8003, "Chunk List", 4, NULL, put_extensions},
    {0x8004, "Requested HMAC Algorithm", 4, NULL, NULL},
    {0x8005, "Padding", 4, NULL, NULL},
    {0x8008, "Supported Extensions", 4, NULL, put_extensions},
    {0xc000, "Forward-TSN-Supported", 4, NULL, NULL},
    {0xc006, "Adaptation Layer Indication", 8, NULL, NULL},
};

static void put_parameter_name(struct text *text, unsigned number) {
    const struct kind *kind = find(PARAMETERS, COUNT(PARAMETERS), number);
    if (kind)
        put(text, "%s", kind->name);
    else
        put(text, "parameter 0x%04x", number);
}

static void put_parameters(struct text *text, struct view rest) {
    struct view item;
    int taken;
    while ((taken = take(&rest, &item)) == 1) {
        put(text, " [");
        put_parameter_name(text, u16(item, 0));
        put_fields(text, find(PARAMETERS, COUNT(PARAMETERS), u16(item, 0)), item);
        put(text, "]");
    }
    if (taken < 0)
        put_rest(text, rest);
}

/* ---- Causes of ERROR and ABORT (RFC 9260, section 3.3.10) ----------------------------------- */

static void put_stream(struct text *text, struct view item) {
    put(text, " stream=%u", u16(item, 4));
}

static void put_missing(struct text *text, struct view item) {
    for (size_t at = 8; at + 2 <= item.length; at += 2) {
        put(text, at > 8 ? ", " : ": ");
        put_parameter_name(text, u16(item, at));
    }
    if (u32(item, 4) != (item.length - 8) / 2)
        put(text, " malformed: their number is %u", (unsigned)u32(item, 4));
}

static void put_staleness(struct text *text, struct view item) {
    put(text, " microseconds=%u", (unsigned)u32(item, 4));
}

static void put_unrecognized_chunk(struct text *text, struct view item) {
    put(text, ": ");
    put_chunk_name(text, item.at[HEAD]);
}

/* Parameters, by name only. */
static void put_unrecognized_all(struct text *text, struct view item) {
    struct view rest = after(item, HEAD), parameter;
    const char *before = ": ";
    int taken;
    while ((taken = take(&rest, &parameter)) == 1) {
        put(text, "%s", before);
        put_parameter_name(text, u16(parameter, 0));
        before = ", ";
    }
    if (taken < 0)
        put_rest(text, rest);
}

static void put_no_user_data(struct text *text, struct view item) {
    put(text, " tsn=%u", (unsigned)u32(item, 4));
}

static void put_reason(struct text *text, struct view item) {
    if (item.length > HEAD)
        put_quoted(text, after(item, HEAD));
}

static const struct kind CAUSES[] = {
    {1, "Invalid Stream Identifier", 8, NULL, put_stream},
    {2, "Missing Mandatory Parameter", 8, NULL, put_missing},
    {3, "Stale Cookie", 8, NULL, put_staleness},
    {4, "Out of Resource", 4, NULL, NULL},
    {5, "Unresolvable Address", 4, NULL, put_unrecognized_all},
    {6, "Unrecognized Chunk Type", 8, NULL, put_unrecognized_chunk},
    {7, "Invalid Mandatory Parameter", 4, NULL, NULL},
    {8, "Unrecognized Parameters", 4, NULL, put_unrecognized_all},
    {9, "No User Data", 8, NULL, put_no_user_data},
    {10, "Cookie Received While Shutting Down", 4, NULL, NULL},
    {11, "Restart of an Association with New Addresses", 4, NULL, put_unrecognized_all},
    {12, "User-Initiated Abort", 4, NULL, put_reason},
    {13, "Protocol Violation", 4, NULL, put_reason},
};

static void put_causes(struct text *text, struct view chunk) {
    struct view rest = after(chunk, HEAD), item;
    int taken;
    while ((taken = take(&rest, &item)) == 1) {
        const struct kind *kind = find(CAUSES, COUNT(CAUSES), u16(item, 0));
        if (kind)
            put(text, " [%s", kind->name);
        else
            put(text, " [cause 0x%04x", u16(item, 0));
        put_fields(text, kind, item);
        put(text, "]");
    }
    if (taken < 0)
        put_rest(text, rest);
}

/* ---- Chunks --------------------------------------------------------------------------------- */

/* RFC 9260, section 3.3.1. */
static void put_data(struct text *text, struct view chunk) {
    put(text, " tsn=%u stream=%u ssn=%u ppid=%u length=%zu", (unsigned)u32(chunk, 4), u16(chunk, 8),
        u16(chunk, 10), (unsigned)u32(chunk, 12), chunk.length - 16);
}

/* RFC 8260, section 2.1. The first part of a message has a PPID, and the others have a number. */
static void put_i_data(struct text *text, struct view chunk) {
    const char *name = chunk.at[1] & 2 ? "ppid" : "fsn";
    put(text, " tsn=%u stream=%u mid=%u %s=%u length=%zu", (unsigned)u32(chunk, 4), u16(chunk, 8),
        (unsigned)u32(chunk, 12), name, (unsigned)u32(chunk, 16), chunk.length - 20);
}

/* RFC 9260, sections 3.3.2 and 3.3.3. */
static void put_init(struct text *text, struct view chunk) {
    put(text, " tag=0x%08x window=%u out=%u in=%u tsn=%u", (unsigned)u32(chunk, 4),
        (unsigned)u32(chunk, 8), u16(chunk, 12), u16(chunk, 14), (unsigned)u32(chunk, 16));
    put_parameters(text, after(chunk, 20));
}

/* RFC 9260, section 3.3.4. */
static void put_sack(struct text *text, struct view chunk) {
    const uint32_t cumulative = u32(chunk, 4);
    const size_t gaps = u16(chunk, 12), duplicates = u16(chunk, 14);
    const struct view rest = after(chunk, 16);
    put(text, " cumulative=%u window=%u", (unsigned)cumulative, (unsigned)u32(chunk, 8));
    for (size_t i = 0; i < gaps && 4 * i + 4 <= rest.length; i++) {
        const uint32_t first = cumulative + u16(rest, 4 * i);
        const uint32_t last = cumulative + u16(rest, 4 * i + 2);
        put(text, "%s%u", i > 0 ? "," : " gaps=", (unsigned)first);
        if (last != first)
            put(text, "-%u", (unsigned)last);
    }
    for (size_t i = gaps; i < gaps + duplicates && 4 * i + 4 <= rest.length; i++)
        put(text, "%s%u", i > gaps ? "," : " duplicates=", (unsigned)u32(rest, 4 * i));
    if (rest.length != 4 * (gaps + duplicates))
        put(text, " malformed: %zu gaps and %zu duplicates in %zu bytes", gaps, duplicates,
            rest.length);
}

static void put_all_parameters(struct text *text, struct view chunk) {
    put_parameters(text, after(chunk, HEAD));
}

/* RFC 9260, section 3.3.8. */
static void put_cumulative(struct text *text, struct view chunk) {
    put(text, " cumulative=%u", (unsigned)u32(chunk, 4));
}

/* RFC 3758, section 3.2. */
static void put_forward_tsn(struct text *text, struct view chunk) {
    size_t at = 8;
    put_cumulative(text, chunk);
    for (; at + 4 <= chunk.length; at += 4)
        put(text, "%s%u:%u", at > 8 ? "," : " streams=", u16(chunk, at), u16(chunk, at + 2));
    if (at < chunk.length)
        put(text, " malformed: %zu bytes left", chunk.length - at);
}

/* RFC 8260, section 2.3.1. */
static void put_i_forward_tsn(struct text *text, struct view chunk) {
    size_t at = 8;
    put_cumulative(text, chunk);
    for (; at + 8 <= chunk.length; at += 8)
        put(text, "%s%u:%u%s", at > 8 ? "," : " streams=", u16(chunk, at),
            (unsigned)u32(chunk, at + 4), chunk.at[at + 3] & 1 ? "U" : "");
    if (at < chunk.length)
        put(text, " malformed: %zu bytes left", chunk.length - at);
}

static const struct kind CHUNKS[] = {
    {0, "DATA", 16, "EBUI", put_data},
    {1, "INIT", 20, "", put_init},
    {2, "INIT ACK", 20, "", put_init},
    {3, "SACK", 16, "", put_sack},
    {4, "HEARTBEAT", 4, "", put_all_parameters},
    {5, "HEARTBEAT ACK", 4, "", put_all_parameters},
    {6, "ABORT", 4, "T", put_causes},
    {7, "SHUTDOWN", 8, "", put_cumulative},
    {8, "SHUTDOWN ACK", 4, "", NULL},
    {9, "ERROR", 4, "", put_causes},
    {10, "COOKIE ECHO", 4, "", NULL},
    {11, "COOKIE ACK", 4, "", NULL},
    {12, "ECNE", 4, "", NULL},
    {13, "CWR", 4, "", NULL},
    {14, "SHUTDOWN COMPLETE", 4, "T", NULL},
    {15, "AUTH", 4, "", NULL},
    {64, "I-DATA", 20, "EBUI", put_i_data},
    {128, "ASCONF-ACK", 4, "", NULL},
    {130, "RE-CONFIG", 4, "", put_all_parameters},
    {132, "PAD", 4, "", NULL},
    {192, "FORWARD-TSN", 8, "", put_forward_tsn},
    {193, "ASCONF", 4, "", NULL},
    {194, "I-FORWARD-TSN", 8, "", put_i_forward_tsn},
};

static void put_chunk_name(struct text *text, unsigned number) {
    const struct kind *kind = find(CHUNKS, COUNT(CHUNKS), number);
    if (kind)
        put(text, "%s", kind->name);
    else
        put(text, "chunk %u", number);
}

/* The flags that are set: letters from the highest bit on, and a number for those without one. */
static void put_flags(struct text *text, const char *letters, unsigned flags) {
    unsigned known = 0;
    if (flags == 0)
        return;
    put(text, " flags=");
    while (letters[known])
        known++;
    for (unsigned bit = known; bit-- > 0;)
        if (flags >> bit & 1)
            put(text, "%c", letters[bit]);
    if (flags >> known)
        put(text, "%s0x%02x", flags & ((1u << known) - 1) ? "+" : "", flags >> known << known);
}

/* ---- Packets -------------------------------------------------------------------------------- */

enum { COMMON_HEADER = 12 };

/* CRC32c of a packet whose checksum counts as zero (RFC 9260, section 6.8 and appendix A). */
static uint32_t checksum_of(struct view packet) {
    uint32_t crc = 0xffffffff;
    for (size_t i = 0; i < packet.length; i++) {
        crc ^= i >= 8 && i < COMMON_HEADER ? 0u : packet.at[i];
        for (int bit = 0; bit < 8; bit++)
            crc = crc >> 1 ^ (crc & 1 ? 0x82f63b78u : 0u);
    }
    return ~crc;
}

static void put_header(struct text *text, struct view packet) {
    const uint8_t *at = packet.at + 8; /* the one number that is little endian */
    const uint32_t sum =
        at[0] | (uint32_t)at[1] << 8 | (uint32_t)at[2] << 16 | (uint32_t)at[3] << 24;
    put(text, "%u>%u tag=0x%08x", u16(packet, 0), u16(packet, 2), (unsigned)u32(packet, 4));
    if (sum != checksum_of(packet))
        put(text, " checksum=%s", sum == 0 ? "zero" : "wrong");
}

size_t dcsctp_trace_packet(char *to, size_t size, const uint8_t *packet, size_t length) {
    struct text text = {to, size, 0};
    struct view rest = {packet, length}, chunk;
    const char *before = " ";
    int taken;
    if (length < COMMON_HEADER) {
        put(&text, "malformed: %zu bytes", length);
        return text.length;
    }
    put_header(&text, rest);
    rest = after(rest, COMMON_HEADER);
    while ((taken = take(&rest, &chunk)) == 1) {
        const struct kind *kind = find(CHUNKS, COUNT(CHUNKS), chunk.at[0]);
        put(&text, "%s", before);
        put_chunk_name(&text, chunk.at[0]);
        put_fields(&text, kind, chunk);
        put_flags(&text, kind ? kind->flags : "", chunk.at[1]);
        before = "; ";
    }
    if (taken < 0 && rest.length >= HEAD) {
        put(&text, "%s", before);
        put_chunk_name(&text, rest.at[0]);
    }
    if (taken < 0)
        put_rest(&text, rest);
    else if (length % 4 != 0)
        put(&text, " malformed: no padding");
    return text.length;
}

size_t dcsctp_trace_line(char *to, size_t size, enum dcsctp_trace_direction direction,
                         uint64_t moment, const uint8_t *packet, size_t length) {
    const uint64_t second = 1000000000;
    struct text text = {to, size, 0};
    put(&text, "%" PRIu64 ".%09" PRIu64 " %s ", moment / second, moment % second,
        direction == DCSCTP_TRACE_SENT ? "sent" : "received");
    const int has_room = text.length < size;
    return text.length + dcsctp_trace_packet(has_room ? to + text.length : NULL,
                                             has_room ? size - text.length : 0, packet, length);
}

/* ---- A file for Wireshark ------------------------------------------------------------------- */

/* Of pcap: nanoseconds, version 2.4, and packets of SCTP. */
enum { VERSION_MAJOR = 2, VERSION_MINOR = 4, LONGEST = 65535, LINKTYPE_SCTP = 248 };
static const uint32_t MAGIC = 0xa1b23c4d;

static int write_u32(FILE *file, uint32_t number) {
    const uint8_t bytes[4] = {(uint8_t)(number >> 24), (uint8_t)(number >> 16),
                              (uint8_t)(number >> 8), (uint8_t)number};
    return fwrite(bytes, 1, sizeof bytes, file) == sizeof bytes ? 0 : -1;
}

FILE *dcsctp_pcap_open(const char *path) {
    FILE *file = fopen(path, "wb");
    if (!file)
        return NULL;
    if (write_u32(file, MAGIC) == 0 &&
        write_u32(file, (uint32_t)VERSION_MAJOR << 16 | VERSION_MINOR) == 0 &&
        write_u32(file, 0) == 0 && write_u32(file, 0) == 0 && write_u32(file, LONGEST) == 0 &&
        write_u32(file, LINKTYPE_SCTP) == 0)
        return file;
    fclose(file);
    return NULL;
}

int dcsctp_pcap_packet(FILE *file, uint64_t moment, const uint8_t *packet, size_t length) {
    const uint32_t kept = length < LONGEST ? (uint32_t)length : (uint32_t)LONGEST;
    if (write_u32(file, (uint32_t)(moment / 1000000000u)) != 0 ||
        write_u32(file, (uint32_t)(moment % 1000000000u)) != 0 || write_u32(file, kept) != 0 ||
        write_u32(file, (uint32_t)length) != 0)
        return -1;
    return fwrite(packet, 1, kept, file) == kept ? 0 : -1;
}

int dcsctp_pcap_close(FILE *file) {
    const int failed = ferror(file);
    return fclose(file) != 0 || failed ? -1 : 0;
}
