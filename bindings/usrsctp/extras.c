/* Dumps, checksums, and the calls that aren't there: see facade.c. */
#include "facade.h"

#include <dcsctp_checksum.h>
#include <stdio.h>
#include <stdlib.h>
#include <string.h>
#include <time.h>

/* A packet as text that text2pcap reads: `O 12:34:56.123456 0000 13 88 .. # SCTP_PACKET`, between
 * ends of lines. `I` is a packet that came in. */
char *usrsctp_dumppacket(const void *packet, size_t length, int is_outbound) {
    static const char digits[] = "0123456789abcdef", end[] = " # SCTP_PACKET\n";
    const uint8_t *bytes = packet;
    char head[32];
    struct timespec time;
    struct tm local;
    size_t at;
    char *text;
    if (!packet || length > INT32_MAX / 4)
        return NULL;
    clock_gettime(CLOCK_REALTIME, &time);
    if (!localtime_r(&time.tv_sec, &local))
        return NULL;
    at = (size_t)snprintf(head, sizeof head, "\n%c %02d:%02d:%02d.%06ld 0000",
                          is_outbound == SCTP_DUMP_OUTBOUND ? 'O' : 'I', local.tm_hour % 24,
                          local.tm_min % 60, local.tm_sec % 61, time.tv_nsec / 1000);
    text = malloc(at + 3 * length + sizeof end);
    if (!text)
        return NULL;
    memcpy(text, head, at);
    for (size_t i = 0; i < length; i++) {
        text[at++] = ' ';
        text[at++] = digits[bytes[i] >> 4];
        text[at++] = digits[bytes[i] & 15];
    }
    memcpy(text + at, end, sizeof end);
    return text;
}

void usrsctp_freedumpbuffer(char *text) {
    free(text);
}

/* The CRC32c of a packet whose sum is 0, in the order of its bytes in memory. */
uint32_t usrsctp_crc32c(void *packet, size_t length) {
    uint32_t crc = ~dcsctp_sum_after(UINT32_MAX, packet, length);
#if __BYTE_ORDER__ == __ORDER_BIG_ENDIAN__
    crc = __builtin_bswap32(crc);
#endif
    return crc;
}

int usrsctp_bindx(struct socket *s, struct sockaddr *names, int count, int flags) {
    (void)s, (void)names, (void)count, (void)flags;
    return facade_fail(ENOTSUP);
}

int usrsctp_connectx(struct socket *s, const struct sockaddr *names, int count, sctp_assoc_t *id) {
    (void)s, (void)names, (void)count, (void)id;
    return facade_fail(ENOTSUP);
}

struct socket *usrsctp_peeloff(struct socket *s, sctp_assoc_t id) {
    (void)s, (void)id;
    errno = ENOTSUP;
    return NULL;
}

int usrsctp_getpaddrs(struct socket *s, sctp_assoc_t id, struct sockaddr **names) {
    (void)s, (void)id, (void)names;
    return facade_fail(ENOTSUP);
}

int usrsctp_getladdrs(struct socket *s, sctp_assoc_t id, struct sockaddr **names) {
    (void)s, (void)id, (void)names;
    return facade_fail(ENOTSUP);
}

void usrsctp_freepaddrs(struct sockaddr *names) {
    (void)names; /* (none were given) */
}

void usrsctp_freeladdrs(struct sockaddr *names) {
    (void)names;
}
