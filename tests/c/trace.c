/*
 * examples/c/trace.c: the lines of packets that were made by hand from the figures of the RFCs; any
 * bytes; and a pcap file.
 *
 *     trace [COUNT [FILE]]        COUNT packets of any bytes, 20,000 by default
 *
 * FILE gets the packets of any bytes and their lines, in the form of trace.txt. The test of the
 * Rust crate compares its own lines (make check-rust).
 */
#define _GNU_SOURCE
#include "../../examples/c/trace.h"

#include <assert.h>
#include <inttypes.h>
#include <stdlib.h>
#include <string.h>
#include <unistd.h>

/* The rows that the test of the Rust crate reads, too. */
static const char *const ROWS = "bindings/rust/dcsctp-socket/tests/trace.txt";

/* Bytes of a packet, of a line of the file, and rows of the file, at most. */
enum { LONGEST = 300, LINE = 1000, MOST = 100 };

struct row {
    char name[LINE], line[LINE];
    enum dcsctp_trace_direction direction;
    uint64_t moment;
    uint8_t bytes[LONGEST];
    size_t length;
};
static struct row rows[MOST];
static size_t row_count;

/* Reads hexadecimal digits, between which there may be blanks. */
static size_t read_hex(const char *hex, uint8_t *bytes) {
    size_t digits = 0;
    for (; *hex; hex++) {
        const char *const all = "0123456789abcdef", *at = strchr(all, *hex);
        if (*hex == ' ')
            continue;
        assert(at && digits < 2 * LONGEST);
        const uint8_t digit = (uint8_t)(at - all);
        bytes[digits / 2] = (uint8_t)(digits % 2 ? bytes[digits / 2] << 4 | digit : digit);
        digits++;
    }
    assert(digits % 2 == 0);
    return digits / 2;
}

/* Reads a line that is neither empty nor a comment. */
static int read_line(FILE *file, char *line) {
    while (fgets(line, LINE, file)) {
        assert(strchr(line, '\n'));
        line[strcspn(line, "\n")] = 0;
        if (*line && *line != '#')
            return 1;
    }
    return 0;
}

static void read_rows(void) {
    FILE *file = fopen(ROWS, "r");
    char packet[LINE], direction[10];
    int hex;
    if (!file) {
        fprintf(stderr, "trace: no %s: call it from the repository's folder\n", ROWS);
        exit(1);
    }
    for (struct row *row = rows; read_line(file, row->name); row++) {
        assert(++row_count < MOST && read_line(file, packet) && read_line(file, row->line));
        assert(sscanf(packet, "%9s %" SCNu64 "%n", direction, &row->moment, &hex) == 2);
        const int is_sent = strcmp(direction, "sent") == 0;
        assert(is_sent || strcmp(direction, "received") == 0);
        row->direction = is_sent ? DCSCTP_TRACE_SENT : DCSCTP_TRACE_RECEIVED;
        row->length = read_hex(packet + hex, row->bytes);
    }
    assert(row_count > 50);
    fclose(file);
}

/* Traces the first bytes of a row, in exactly their own memory, so that a sanitizer sees a read
 * after them. */
static size_t trace(char *text, size_t size, const struct row *row, size_t length) {
    uint8_t *packet = malloc(length > 0 ? length : 1);
    assert(packet);
    memcpy(packet, row->bytes, length);
    const size_t result =
        dcsctp_trace_line(text, size, row->direction, row->moment, packet, length);
    free(packet);
    return result;
}

/* ---- Packets -------------------------------------------------------------------------------- */

static void expect(const struct row *row, const char *text, size_t whole, const char *expected) {
    if (strcmp(text, expected) != 0 || whole != strlen(expected)) {
        fprintf(stderr, "trace: %s:\n  %s\nnot\n  %s\n", row->name, text, expected);
        exit(1);
    }
}

/* A buffer of any size gets the front part that fits, with a zero at its end, and no other byte. */
static void fits(const struct row *row) {
    const size_t whole = strlen(row->line);
    char text[LINE + 3];
    assert(trace(NULL, 0, row, row->length) == whole);
    for (size_t size = 0; size <= whole + 2; size++) {
        memset(text, 'x', sizeof text);
        assert(trace(text, size, row, row->length) == whole && text[size] == 'x');
        if (size == 0)
            continue;
        assert(strncmp(text, row->line, size - 1) == 0);
        assert(strlen(text) == (size <= whole ? size - 1 : whole));
    }
}

/* The text of the packet alone is what the line has after two blanks. */
static void packets_of_the_rfcs(void) {
    char text[LINE];
    for (const struct row *row = rows; row < rows + row_count; row++) {
        expect(row, text, trace(text, sizeof text, row, row->length), row->line);
        const size_t whole = dcsctp_trace_packet(text, sizeof text, row->bytes, row->length);
        expect(row, text, whole, strchr(strchr(row->line, ' ') + 1, ' ') + 1);
        fits(row);
        for (size_t cut = 0; cut < row->length; cut++)
            trace(text, sizeof text, row, cut);
    }
}

/* ---- Any bytes ------------------------------------------------------------------------------ */

static size_t below(size_t limit) {
    return (size_t)random() % limit;
}

/* A byte of any value, or a small one, as those of lengths and types are. */
static uint8_t any_byte(void) {
    return (uint8_t)below(below(2) ? 256 : 16);
}

/* A packet of the file with up to three other bytes, or one of chance alone. It may be cut. */
static void change(struct row *row) {
    *row = rows[below(row_count)];
    row->direction = below(2) ? DCSCTP_TRACE_SENT : DCSCTP_TRACE_RECEIVED;
    row->moment = ((uint64_t)random() << 33 ^ (uint64_t)random() << 2) >> below(64);
    if (below(4) == 0) {
        row->length = below(LONGEST);
        for (size_t at = 0; at < row->length; at++)
            row->bytes[at] = any_byte();
    }
    for (size_t changes = below(4); changes > 0 && row->length > 0; changes--)
        row->bytes[below(row->length)] = any_byte();
    if (below(4) == 0 && row->length > 0)
        row->length = below(row->length);
}

static void write_row(FILE *file, long number, const struct row *row, const char *text) {
    fprintf(file, "packet %ld\n%s %" PRIu64 " ", number,
            row->direction == DCSCTP_TRACE_SENT ? "sent" : "received", row->moment);
    for (size_t at = 0; at < row->length; at++)
        fprintf(file, "%02x", row->bytes[at]);
    fprintf(file, "\n%s\n", text);
}

/* All that is expected here of a line is that it is as long as was said, and can be printed. */
static void any_bytes(long count, FILE *file) {
    static char text[200000];
    static struct row row;
    srandom(1);
    for (long number = 0; number < count; number++) {
        change(&row);
        const size_t whole = trace(text, sizeof text, &row, row.length);
        assert(whole < sizeof text && whole == strlen(text));
        for (const char *at = text; *at; at++)
            assert(*at >= ' ' && *at <= '~');
        if (file)
            write_row(file, number, &row, text);
    }
}

/* ---- The file ------------------------------------------------------------------------------- */

/* The header of the file, and two records (draft-ietf-opsawg-pcap, sections 4 and 5): nanoseconds,
 * version 2.4, two fields of zero, the longest packet, and LINKTYPE_SCTP. */
static void file_is_pcap(void) {
    static const char *const expected =
        "a1b23c4d 0002 0004 00000000 00000000 0000ffff 000000f8"
        " 00000001 3b9ac9ff 0000000c 0000000c 1388 1388 01020304 00000000"
        " 5f5e1000 00000000 00000001 00000001 61";
    uint8_t bytes[LONGEST], read[LONGEST];
    char path[] = "/tmp/trace-XXXXXX";
    const int made = mkstemp(path);
    assert(made >= 0 && close(made) == 0);
    FILE *file = dcsctp_pcap_open(path);
    assert(file);
    const size_t header = read_hex("1388 1388 01020304 00000000", bytes);
    assert(dcsctp_pcap_packet(file, 1999999999, bytes, header) == 0);
    assert(dcsctp_pcap_packet(file, 1600000000000000000, (const uint8_t *)"a", 1) == 0);
    assert(dcsctp_pcap_close(file) == 0);
    file = fopen(path, "rb");
    assert(file);
    const size_t length = fread(read, 1, sizeof read, file);
    fclose(file);
    remove(path);
    assert(length == read_hex(expected, bytes) && memcmp(read, bytes, length) == 0);
}

static void failures_are_reported(void) {
    assert(!dcsctp_pcap_open("/no/such/folder/file.pcap"));
    FILE *full = dcsctp_pcap_open("/dev/full");
    assert(full);
    dcsctp_pcap_packet(full, 0, (const uint8_t *)"a", 1);
    assert(dcsctp_pcap_close(full) == -1);
}

int main(int argc, char **argv) {
    FILE *file = argc > 2 ? fopen(argv[2], "w") : NULL;
    assert(argc <= 2 || file);
    read_rows();
    packets_of_the_rfcs();
    any_bytes(argc > 1 ? strtol(argv[1], NULL, 10) : 20000, file);
    assert(!file || fclose(file) == 0);
    file_is_pcap();
    failures_are_reported();
    puts("trace: packets are read as the RFCs have them, any bytes are safe, and the file is pcap");
    return 0;
}
