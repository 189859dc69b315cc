/* examples/c/deadlines.c: deadlines that come, move and go at random, beside a plain array. */
#define _GNU_SOURCE
#include "../../examples/c/deadlines.h"

#include <assert.h>
#include <stdio.h>
#include <stdlib.h>
#include <string.h>

enum { FEW = 5, MOST = 100, STEPS = 200000, MOMENTS = 50 };

static struct deadline ones[MOST], *entries[MOST];
static int is_there[MOST];

/* The first one is as early as the earliest of those that are there. */
static void first_is_earliest(const struct deadlines *all) {
    const struct deadline *first = deadlines_first(all), *least = NULL;
    size_t count = 0;
    for (int i = 0; i < MOST; i++) {
        count += (size_t)is_there[i];
        if (is_there[i] && (!least || ones[i].moment < least->moment))
            least = &ones[i];
    }
    assert(all->count == count);
    assert(!first == !least);
    if (first) {
        assert(first->moment == least->moment);
        assert(is_there[first - ones]);
    }
}

int main(void) {
    struct deadlines all = {entries, 0};
    assert(!deadlines_first(&all));
    srandom(1);
    for (int step = 0; step < STEPS; step++) {
        /* (a few of them, then all) */
        const int it = (int)(random() % (step < STEPS / 2 ? FEW : MOST));
        const uint64_t moment = (uint64_t)(random() % MOMENTS);
        /* (there are many for a time, and few for a time) */
        const int adds = random() % 10 < (step / 1000 % 2 ? 8 : 2);
        if (!is_there[it] && adds) {
            ones[it].moment = moment;
            deadlines_add(&all, &ones[it]);
            is_there[it] = 1;
        } else if (is_there[it] && !adds) {
            deadlines_remove(&all, &ones[it]);
            is_there[it] = 0;
        } else if (is_there[it]) {
            deadlines_move(&all, &ones[it], moment);
            assert(ones[it].moment == moment);
        }
        first_is_earliest(&all);
    }
    puts("deadlines: the first is the earliest, whatever was added, moved and removed");
    return 0;
}
