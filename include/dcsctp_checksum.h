/*
 * dcsctp_checksum.h: the checksum of a packet, CRC32c (RFC 9260, section 6.8 and appendix A), for
 * sockets with `checksum_offload` of dcsctp_options. It is written in C, and isn't proved.
 *
 * Include it where packets leave and come in. That is all: it needs no library and no flag of the
 * compiler. On x86-64 it asks the processor, at run time, for SSE4.2 and PCLMULQDQ; on ARM it uses
 * the instructions for CRC32c if the compiler may. Elsewhere it reads tables of 8 KiB.
 *
 *     case DCSCTP_EVENT_SEND_PACKET:
 *         if (dcsctp_event_bytes(&s, packet, sizeof packet, &length) == DCSCTP_OK &&
 *                 dcsctp_finish_packet(packet, length))
 *             send(fd, packet, length, 0);
 *         break;
 *     ...
 *     if (dcsctp_check_packet(packet, n, options.zero_checksum_method))
 *         result = dcsctp_handle_input(&s, packet, n);
 *
 * Finish a copy, never the bytes that dcsctp_event_view shows: those are the socket's. To send them
 * without a copy, put the checksum between them:
 *
 *         if (dcsctp_event_view(&s, &view, &length) == DCSCTP_OK &&
 *                 dcsctp_packet_checksum(view, length, sum)) {
 *             struct iovec parts[] = {
 *                 {(void *)view, 8}, {sum, 4}, {(void *)(view + 12), length - 12}};
 *             writev(fd, parts, 3);
 *         }
 *
 * A packet has 12 to 65,535 bytes. Each call returns 0 at another length, and then reads and writes
 * nothing: the -1 of a failed recv is such a length.
 */
#ifndef DCSCTP_CHECKSUM_H
#define DCSCTP_CHECKSUM_H

#include <stddef.h>
#include <stdint.h>
#include <string.h>

#if defined(__x86_64__) && (defined(__GNUC__) || defined(__clang__))
#include <nmmintrin.h>
#include <wmmintrin.h>
#define DCSCTP_SUM_X86
#elif defined(__aarch64__) && defined(__ARM_FEATURE_CRC32) && !defined(__AARCH64EB__)
#include <arm_acle.h>
#define DCSCTP_SUM_ARM
#endif

#if defined(__GNUC__) || defined(__clang__)
#define DCSCTP_SUM_CALL __attribute__((nonnull))
#define DCSCTP_SUM_CHECKED __attribute__((nonnull, warn_unused_result))
#else
#define DCSCTP_SUM_CALL
#define DCSCTP_SUM_CHECKED
#endif

#ifdef __cplusplus
extern "C" {
#endif

/* ---- By tables, eight bytes a step ---------------------------------------------------------- */

/* The entry of a byte is the exclusive or of those of its bits. Row k has these for a byte that k
 * other bytes of the step follow. */
#define DCSCTP_SUM_BITS(n, a, b, c, d, e, f, g, h)                                                \
    (((n) & 1 ? a : 0u) ^ ((n) & 2 ? b : 0u) ^ ((n) & 4 ? c : 0u) ^ ((n) & 8 ? d : 0u) ^          \
     ((n) & 16 ? e : 0u) ^ ((n) & 32 ? f : 0u) ^ ((n) & 64 ? g : 0u) ^ ((n) & 128 ? h : 0u))
#define DCSCTP_SUM_ROW_0(n)                                                                       \
    DCSCTP_SUM_BITS(n, 0xf26b8303u, 0xe13b70f7u, 0xc79a971fu, 0x8ad958cfu,                        \
                    0x105ec76fu, 0x20bd8edeu, 0x417b1dbcu, 0x82f63b78u)
#define DCSCTP_SUM_ROW_1(n)                                                                       \
    DCSCTP_SUM_BITS(n, 0x13a29877u, 0x274530eeu, 0x4e8a61dcu, 0x9d14c3b8u,                        \
                    0x3fc5f181u, 0x7f8be302u, 0xff17c604u, 0xfbc3faf9u)
#define DCSCTP_SUM_ROW_2(n)                                                                       \
    DCSCTP_SUM_BITS(n, 0xa541927eu, 0x4f6f520du, 0x9edea41au, 0x38513ec5u,                        \
                    0x70a27d8au, 0xe144fb14u, 0xc76580d9u, 0x8b277743u)
#define DCSCTP_SUM_ROW_3(n)                                                                       \
    DCSCTP_SUM_BITS(n, 0xdd45aab8u, 0xbf672381u, 0x7b2231f3u, 0xf64463e6u,                        \
                    0xe964b13du, 0xd725148bu, 0xaba65fe7u, 0x52a0c93fu)
#define DCSCTP_SUM_ROW_4(n)                                                                       \
    DCSCTP_SUM_BITS(n, 0x38116facu, 0x7022df58u, 0xe045beb0u, 0xc5670b91u,                        \
                    0x8f2261d3u, 0x1ba8b557u, 0x37516aaeu, 0x6ea2d55cu)
#define DCSCTP_SUM_ROW_5(n)                                                                       \
    DCSCTP_SUM_BITS(n, 0xef306b19u, 0xdb8ca0c3u, 0xb2f53777u, 0x6006181fu,                        \
                    0xc00c303eu, 0x85f4168du, 0x0e045bebu, 0x1c08b7d6u)
#define DCSCTP_SUM_ROW_6(n)                                                                       \
    DCSCTP_SUM_BITS(n, 0x68032cc8u, 0xd0065990u, 0xa5e0c5d1u, 0x4e2dfd53u,                        \
                    0x9c5bfaa6u, 0x3d5b83bdu, 0x7ab7077au, 0xf56e0ef4u)
#define DCSCTP_SUM_ROW_7(n)                                                                       \
    DCSCTP_SUM_BITS(n, 0x493c7d27u, 0x9278fa4eu, 0x211d826du, 0x423b04dau,                        \
                    0x847609b4u, 0x0d006599u, 0x1a00cb32u, 0x34019664u)
#define DCSCTP_SUM_4(row, n) row(n), row((n) + 1), row((n) + 2), row((n) + 3)
#define DCSCTP_SUM_16(row, n)                                                                     \
    DCSCTP_SUM_4(row, n), DCSCTP_SUM_4(row, (n) + 4), DCSCTP_SUM_4(row, (n) + 8),                 \
        DCSCTP_SUM_4(row, (n) + 12)
#define DCSCTP_SUM_64(row, n)                                                                     \
    DCSCTP_SUM_16(row, n), DCSCTP_SUM_16(row, (n) + 16), DCSCTP_SUM_16(row, (n) + 32),            \
        DCSCTP_SUM_16(row, (n) + 48)
#define DCSCTP_SUM_256(row)                                                                       \
    { DCSCTP_SUM_64(row, 0), DCSCTP_SUM_64(row, 64), DCSCTP_SUM_64(row, 128),                     \
      DCSCTP_SUM_64(row, 192) }

/* The register after more bytes. */
static inline uint32_t dcsctp_sum_by_tables(uint32_t sum, const uint8_t *at, size_t length) {
    static const uint32_t entry[8][256] = {
        DCSCTP_SUM_256(DCSCTP_SUM_ROW_0), DCSCTP_SUM_256(DCSCTP_SUM_ROW_1),
        DCSCTP_SUM_256(DCSCTP_SUM_ROW_2), DCSCTP_SUM_256(DCSCTP_SUM_ROW_3),
        DCSCTP_SUM_256(DCSCTP_SUM_ROW_4), DCSCTP_SUM_256(DCSCTP_SUM_ROW_5),
        DCSCTP_SUM_256(DCSCTP_SUM_ROW_6), DCSCTP_SUM_256(DCSCTP_SUM_ROW_7),
    };
    for (; length >= 8; length -= 8, at += 8)
        sum = entry[7][(sum ^ at[0]) & 255] ^ entry[6][(sum >> 8 ^ at[1]) & 255] ^
              entry[5][(sum >> 16 ^ at[2]) & 255] ^ entry[4][sum >> 24 ^ at[3]] ^
              entry[3][at[4]] ^ entry[2][at[5]] ^ entry[1][at[6]] ^ entry[0][at[7]];
    for (; length > 0; length--, at++)
        sum = sum >> 8 ^ entry[0][(sum ^ *at) & 255];
    return sum;
}

#undef DCSCTP_SUM_BITS
#undef DCSCTP_SUM_ROW_0
#undef DCSCTP_SUM_ROW_1
#undef DCSCTP_SUM_ROW_2
#undef DCSCTP_SUM_ROW_3
#undef DCSCTP_SUM_ROW_4
#undef DCSCTP_SUM_ROW_5
#undef DCSCTP_SUM_ROW_6
#undef DCSCTP_SUM_ROW_7
#undef DCSCTP_SUM_4
#undef DCSCTP_SUM_16
#undef DCSCTP_SUM_64
#undef DCSCTP_SUM_256

/* ---- By the processor ----------------------------------------------------------------------- */

#ifdef DCSCTP_SUM_X86
/* The same by SSE4.2. Three blocks of 128 bytes are read side by side, since one instruction waits
 * for the last one of its block. Then PCLMULQDQ moves the first two registers past the bytes that
 * follow their blocks: times x^(2048 - 33), and x^(1024 - 33), modulo the polynomial. */
__attribute__((target("sse4.2,pclmul"))) static inline uint32_t
dcsctp_sum_by_processor(uint32_t sum, const uint8_t *at, size_t length) {
    enum { BLOCK = 128 };
    const __m128i past = _mm_set_epi64x(0x0d3b6092, 0xb9e02b86);
    uint64_t first = sum, word;
    uint32_t half;
    for (; length >= 3 * BLOCK; length -= 3 * BLOCK, at += 2 * BLOCK) {
        uint64_t second = 0, third = 0;
        for (const uint8_t *end = at + BLOCK; at < end; at += 8) {
            memcpy(&word, at, 8);
            first = _mm_crc32_u64(first, word);
            memcpy(&word, at + BLOCK, 8);
            second = _mm_crc32_u64(second, word);
            memcpy(&word, at + 2 * BLOCK, 8);
            third = _mm_crc32_u64(third, word);
        }
        const __m128i moved =
            _mm_xor_si128(_mm_clmulepi64_si128(_mm_cvtsi64_si128((long long)first), past, 0x00),
                          _mm_clmulepi64_si128(_mm_cvtsi64_si128((long long)second), past, 0x10));
        first = third ^ _mm_crc32_u64(0, (uint64_t)_mm_cvtsi128_si64(moved));
    }
    for (; length >= 8; length -= 8, at += 8) {
        memcpy(&word, at, 8);
        first = _mm_crc32_u64(first, word);
    }
    sum = (uint32_t)first;
    if (length >= 4) {
        memcpy(&half, at, 4);
        sum = _mm_crc32_u32(sum, half);
        length -= 4;
        at += 4;
    }
    for (; length > 0; length--, at++)
        sum = _mm_crc32_u8(sum, *at);
    return sum;
}

static inline int dcsctp_sum_has_instructions(void) {
    return __builtin_cpu_supports("sse4.2") && __builtin_cpu_supports("pclmul");
}
#elif defined(DCSCTP_SUM_ARM)
static inline uint32_t dcsctp_sum_by_processor(uint32_t sum, const uint8_t *at, size_t length) {
    uint64_t word;
    for (; length >= 8; length -= 8, at += 8) {
        memcpy(&word, at, 8);
        sum = __crc32cd(sum, word);
    }
    for (; length > 0; length--, at++)
        sum = __crc32cb(sum, *at);
    return sum;
}

static inline int dcsctp_sum_has_instructions(void) {
    return 1;
}
#else
static inline uint32_t dcsctp_sum_by_processor(uint32_t sum, const uint8_t *at, size_t length) {
    return dcsctp_sum_by_tables(sum, at, length);
}

static inline int dcsctp_sum_has_instructions(void) {
    return 0;
}
#endif

/* The register after more bytes. It begins as all ones, and the CRC32c has the other bits. */
static inline uint32_t dcsctp_sum_after(uint32_t sum, const uint8_t *at, size_t length) {
    if (dcsctp_sum_has_instructions())
        return dcsctp_sum_by_processor(sum, at, length);
    return dcsctp_sum_by_tables(sum, at, length);
}

/* ---- Packets -------------------------------------------------------------------------------- */

/* The checksum of a packet whose length is right. Its field, bytes 8 to 11, counts as zeros. */
static inline uint32_t dcsctp_sum_of_packet(const uint8_t *packet, size_t length) {
    uint8_t header[12] = {0};
    memcpy(header, packet, 8);
    return ~dcsctp_sum_after(dcsctp_sum_after(0xffffffffu, header, 12), packet + 12, length - 12);
}

/* Has a packet such a length? */
static inline int dcsctp_sum_is_length(size_t length) {
    return length >= 12 && length <= 65535;
}

/* Writes the four bytes of a packet's checksum, as they are sent in its bytes 8 to 11. Whatever
 * these are in `packet` counts as zeros. Returns 1; or 0 at a length that no packet has. */
static inline int dcsctp_packet_checksum(const uint8_t *packet, size_t length,
                                         uint8_t checksum[4]) DCSCTP_SUM_CHECKED;
static inline int dcsctp_packet_checksum(const uint8_t *packet, size_t length,
                                         uint8_t checksum[4]) {
    if (!dcsctp_sum_is_length(length))
        return 0;
    const uint32_t sum = dcsctp_sum_of_packet(packet, length);
    for (int i = 0; i < 4; i++)
        checksum[i] = (uint8_t)(sum >> 8 * i);
    return 1;
}

/* Fills in the checksum of a packet that leaves: its bytes 8 to 11, and no others. Returns 1; or 0
 * at a length that no packet has, and then writes nothing. A packet that the library gives always
 * has one.
 *
 * Where both ends announce zero checksum (RFC 9653), the library leaves it out of most packets.
 * These may be finished, too: a checksum that is right is always accepted. */
static inline int dcsctp_finish_packet(uint8_t *packet, size_t length) DCSCTP_SUM_CALL;
static inline int dcsctp_finish_packet(uint8_t *packet, size_t length) {
    uint8_t checksum[4];
    if (!dcsctp_packet_checksum(packet, length, checksum))
        return 0;
    memcpy(packet + 8, checksum, 4);
    return 1;
}

/* Returns 1 if a packet that comes in may be handed in, else 0: drop it then. Its checksum is
 * right; or it has none, and the socket announces zero checksum, as its peer then knows. Pass
 * `zero_checksum_method` of the options: at 0 a packet without a checksum is refused. It is the
 * rule by which the library checks (RFC 9653, section 5.3). */
static inline int dcsctp_check_packet(const uint8_t *packet, size_t length,
                                      uint32_t zero_checksum_method) DCSCTP_SUM_CHECKED;
static inline int dcsctp_check_packet(const uint8_t *packet, size_t length,
                                      uint32_t zero_checksum_method) {
    static const uint8_t none[4] = {0, 0, 0, 0};
    uint8_t checksum[4];
    if (!dcsctp_sum_is_length(length))
        return 0;
    if (zero_checksum_method != 0 && memcmp(packet + 8, none, 4) == 0)
        return 1;
    return dcsctp_packet_checksum(packet, length, checksum) && memcmp(packet + 8, checksum, 4) == 0;
}

#ifdef __cplusplus
}
#endif

#endif
