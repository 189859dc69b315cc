/* dcsctp_random_seed: it writes all 32 bytes, no two seeds are alike, and it continues after a signal
 * and after a short read. getrandom is replaced by a function that plays what the kernel may do. */
#include <sys/random.h>
#include <sys/types.h>

static ssize_t kernel(void *buffer, size_t length, unsigned int flags);
#define getrandom kernel
#include "pair.h"
#undef getrandom

/* What kernel() does next: so many bytes, or an error where it is negative. 0: it asks the system. */
static const int *plan;
static size_t calls, asked;

static ssize_t kernel(void *buffer, size_t length, unsigned int flags) {
    EQUAL("flags", flags, 0);
    calls++;
    asked = length;
    if (!plan)
        return getrandom(buffer, length, flags);
    const int next = *plan++;
    if (next < 0) {
        errno = -next;
        return -1;
    }
    EQUAL("no more than there is room for", (size_t)next <= length, 1);
    memset(buffer, 0xa0 + (int)calls, (size_t)next);
    return next;
}

/* A system that gives what it is asked for. A byte of a random seed is 0 in 1 of 256, so each byte
 * is seen with another value in 16 seeds, but for 1 in 10^38. */
static void by_the_system(void) {
    uint8_t seeds[16][34];
    int has_changed[32] = {0};
    plan = NULL;
    memset(seeds, 0x5a, sizeof seeds);
    for (int i = 0; i < 16; i++) {
        EQUAL("a seed", dcsctp_random_seed(seeds[i] + 1), DCSCTP_OK);
        EQUAL("the byte before", seeds[i][0], 0x5a);
        EQUAL("the byte after", seeds[i][33], 0x5a);
        for (int byte = 0; byte < 32; byte++)
            has_changed[byte] |= seeds[i][1 + byte] != 0x5a;
        for (int other = 0; other < i; other++)
            EQUAL("another seed", memcmp(seeds[i] + 1, seeds[other] + 1, 32) != 0, 1);
    }
    for (int byte = 0; byte < 32; byte++)
        EQUAL("each byte is written", has_changed[byte], 1);
}

static void by_a_plan(void) {
    static const struct {
        const char *name;
        int plan[8];
        int32_t result;
        size_t calls, asked; /* and of the last one */
        uint8_t last;        /* the last byte of the seed */
    } rows[] = {
        {"whole", {32}, DCSCTP_OK, 1, 32, 0xa1},
        {"a signal first", {-EINTR, 32}, DCSCTP_OK, 2, 32, 0xa2},
        {"short reads", {1, 20, 11}, DCSCTP_OK, 3, 11, 0xa3},
        {"a signal between", {31, -EINTR, -EINTR, 1}, DCSCTP_OK, 4, 1, 0xa4},
        {"no such call", {-ENOSYS}, DCSCTP_ERROR_NO_SEED, 1, 32, 0x5a},
        {"an error later", {16, -EIO}, DCSCTP_ERROR_NO_SEED, 2, 16, 0x5a},
        {"no bytes", {16, 0}, DCSCTP_ERROR_NO_SEED, 2, 16, 0x5a},
    };
    for (size_t i = 0; i < sizeof rows / sizeof rows[0]; i++) {
        uint8_t seed[32];
        memset(seed, 0x5a, sizeof seed);
        plan = rows[i].plan;
        calls = 0;
        EQUAL(rows[i].name, dcsctp_random_seed(seed), rows[i].result);
        EQUAL(rows[i].name, calls, rows[i].calls);
        EQUAL(rows[i].name, asked, rows[i].asked);
        EQUAL(rows[i].name, seed[31], rows[i].last);
    }
}

int main(void) {
    by_the_system();
    by_a_plan();
    puts("seed: 32 new bytes, or an error");
    return 0;
}
