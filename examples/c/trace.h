/*
 * SCTP packets as text, and as a file for Wireshark. Copy this file and trace.c into your program.
 * They need the C library alone. To log all packets, do this with each that a socket sends; and
 * with each that you hand in, as DCSCTP_TRACE_RECEIVED:
 *
 *     char text[1000];
 *     dcsctp_trace_line(text, sizeof text, DCSCTP_TRACE_SENT, now, packet, length);
 *     puts(text);
 *
 * prints, for example, this as one line:
 *
 *     12.045000000 sent 5000>5000 tag=0x5d3a9b12 SACK cumulative=17 window=5242880 gaps=19-20;
 *     DATA tsn=8 stream=1 ssn=0 ppid=51 length=5 flags=BE
 *
 * demo.c shows how the other functions are used.
 */
#ifndef TRACE_H
#define TRACE_H

#include <stddef.h>
#include <stdint.h>
#include <stdio.h>

#ifdef __cplusplus
extern "C" {
#endif

/* Writes what a packet has as one line of text. As snprintf does, it writes at most `size` bytes,
 * the last of which is zero, and returns the length of the whole text. `text` may be NULL if `size`
 * is 0. Nothing is allocated.
 *
 * `packet` may have any bytes. What can't be read as the RFCs say has "malformed" after it. Then
 * the rest of the same chunk or packet may be missing.
 *
 * First come the ports and the verification tag; then `checksum=zero` (RFC 9653) or
 * `checksum=wrong` if it isn't right; then all chunks, with "; " between them. Chunks, parameters,
 * causes and results have the names of RFC 9260, 3758, 6525, 8260 and 9653, or a number.
 *
 * - `length` counts the bytes of user data, of a cookie, or of a parameter's value, without header
 *   and padding.
 * - `gaps` and `duplicates` of a SACK are TSNs. In the packet, gaps count from the cumulative TSN.
 * - `streams` of a FORWARD-TSN are STREAM:SSN. Those of an I-FORWARD-TSN are STREAM:MID, with a U
 *   if unordered.
 * - Parameters and causes are in brackets. */
size_t dcsctp_trace_packet(char *text, size_t size, const uint8_t *packet, size_t length);

/* Which way a packet goes. */
enum dcsctp_trace_direction { DCSCTP_TRACE_SENT, DCSCTP_TRACE_RECEIVED };

/* Writes a line of a log, without a newline: the moment in seconds, with nine decimals; `sent` or
 * `received`; and the text of dcsctp_trace_packet, which says what `text` and `size` are. `moment`
 * is in nanoseconds, by any clock. */
size_t dcsctp_trace_line(char *text, size_t size, enum dcsctp_trace_direction direction,
                         uint64_t moment, const uint8_t *packet, size_t length);

/* Creates a file of packets, or empties one. Wireshark, tshark and tcpdump read it: it is pcap with
 * nanoseconds, of packets that begin with the SCTP header (LINKTYPE_SCTP, 248). Write what goes
 * into DTLS and what comes out of it. NULL: the file can't be written, and errno says why. */
FILE *dcsctp_pcap_open(const char *path);

/* Adds a packet. `moment` is in nanoseconds. Since 1970, as by CLOCK_REALTIME, it is a date in
 * Wireshark; by another clock only differences mean something. Returns 0, or -1 if the file can't
 * be written. */
int dcsctp_pcap_packet(FILE *file, uint64_t moment, const uint8_t *packet, size_t length);

/* Closes the file. Returns 0, or -1 if not all of it was written. */
int dcsctp_pcap_close(FILE *file);

#ifdef __cplusplus
}
#endif

#endif
