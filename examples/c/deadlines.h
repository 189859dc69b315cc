/*
 * Deadlines of many sockets, of which the earliest is first. Copy this file and deadlines.c into
 * your program. server.c shows how they are used.
 *
 * Put a `struct deadline` into what has one. Each call takes a time that grows with the logarithm
 * of how many there are.
 */
#ifndef DEADLINES_H
#define DEADLINES_H

#include <stddef.h>
#include <stdint.h>

struct deadline {
    uint64_t moment;
    size_t place; /* private */
};

/* A binary heap. Set `entries` to an array with room for all. */
struct deadlines {
    struct deadline **entries;
    size_t count;
};

/* The earliest one; NULL where there is none. */
struct deadline *deadlines_first(const struct deadlines *all);

/* Adds one with its `moment`. */
void deadlines_add(struct deadlines *all, struct deadline *one);

/* Moves one that was added to another moment. */
void deadlines_move(struct deadlines *all, struct deadline *one, uint64_t moment);

/* Removes one that was added. */
void deadlines_remove(struct deadlines *all, struct deadline *one);

#endif
