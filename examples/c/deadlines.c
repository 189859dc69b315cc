/* Deadlines of many sockets: see deadlines.h. */
#include "deadlines.h"

static void put(struct deadlines *all, size_t place, struct deadline *one) {
    all->entries[place] = one;
    one->place = place;
}

/* Moves one towards the first place, past all that are later. */
static void rise(struct deadlines *all, struct deadline *one) {
    size_t place = one->place;
    while (place > 0 && all->entries[(place - 1) / 2]->moment > one->moment) {
        put(all, place, all->entries[(place - 1) / 2]);
        place = (place - 1) / 2;
    }
    put(all, place, one);
}

/* Moves one away from the first place, past all that are earlier. */
static void sink(struct deadlines *all, struct deadline *one) {
    size_t place = one->place, next;
    while ((next = 2 * place + 1) < all->count) {
        if (next + 1 < all->count &&
            all->entries[next + 1]->moment < all->entries[next]->moment)
            next++;
        if (all->entries[next]->moment >= one->moment)
            break;
        put(all, place, all->entries[next]);
        place = next;
    }
    put(all, place, one);
}

struct deadline *deadlines_first(const struct deadlines *all) {
    return all->count > 0 ? all->entries[0] : NULL;
}

void deadlines_add(struct deadlines *all, struct deadline *one) {
    put(all, all->count++, one);
    rise(all, one);
}

void deadlines_move(struct deadlines *all, struct deadline *one, uint64_t moment) {
    one->moment = moment;
    rise(all, one);
    sink(all, one);
}

void deadlines_remove(struct deadlines *all, struct deadline *one) {
    struct deadline *last = all->entries[--all->count];
    if (last == one)
        return;
    put(all, one->place, last);
    rise(all, last);
    sink(all, last);
}
