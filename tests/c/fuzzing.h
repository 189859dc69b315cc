/* What the fuzzers share: a check, what counts as coverage, and the bytes of an input. */
#ifndef FUZZING_H
#define FUZZING_H

#include <stdint.h>
#include <stdio.h>
#include <stdlib.h>

#define EXPECT(what, is_so)                                                                        \
    do {                                                                                           \
        if (!(is_so)) {                                                                            \
            fprintf(stderr, "%s:%d: %s: %s\n", __FILE__, __LINE__, (what), #is_so);                \
            abort();                                                                               \
        }                                                                                          \
    } while (0)

int LLVMFuzzerTestOneInput(const uint8_t *bytes, size_t length);

/* The library isn't compiled for libFuzzer. So what can be seen of it counts as coverage: results,
 * events, texts, and the chunks of packets. */
__attribute__((section("__libfuzzer_extra_counters"))) static uint8_t counters[1 << 13];

static void saw(uint32_t a, uint32_t b, uint32_t c) {
    uint32_t hash = (a * 31 + b) * 0x9e3779b1u + c * 0x85ebca77u;
    uint8_t *counter = &counters[(hash ^ hash >> 15) % sizeof counters];
    *counter = (uint8_t)(*counter + (*counter < 255));
}

/* ---- The input: missing bytes are zeros ----------------------------------------------------- */

static const uint8_t *input;
static size_t input_left;

static uint8_t byte(void) {
    if (input_left == 0)
        return 0;
    input_left--;
    return *input++;
}

static uint16_t two_bytes(void) {
    uint16_t high = byte();
    return (uint16_t)(high << 8 | byte());
}

/* One of a table's numbers. */
#define ONE_OF(table) ((table)[byte() % (sizeof(table) / sizeof *(table))])

#endif
