/* A malloc that refuses. scripts/refusals.sh preloads it into a program (LD_PRELOAD), and says what it refuses:
 *
 *     REFUSED=N       the allocation of this number, from 1; 0 or nothing: none
 *     REFUSED_ON=1    each allocation after that, too
 *     MARKED=1        each allocation between two marks
 *
 * A mark is an allocation of a size that no program needs otherwise: 100,003 bytes begin a span, and 100,019 end it. Both
 * are given. Without MARKED they are allocations like any other.
 *
 * At the program's exit it says on standard error how many allocations there were, as 'allocations N'. With MARKED it also
 * says how many spans were begun, 'spans N', and how many allocations were refused in them, 'inside N'. A program that
 * aborts says nothing. The counts are for programs of one thread. */
#include <errno.h>
#include <stdio.h>
#include <stdlib.h>

#define SPAN_BEGINS 100003
#define SPAN_ENDS 100019

/* What stands behind malloc, realloc and calloc in the C library. */
void *__libc_malloc(size_t size);
void *__libc_realloc(void *block, size_t size);
void *__libc_calloc(size_t count, size_t size);

static unsigned long refused; /* the number of the first that is refused; 0: none is */
static int refuses_on;        /* so is each after it */
static int is_marked;         /* so is each in a span */

static unsigned long allocations;
static unsigned long spans;
static unsigned long inside; /* allocations in spans */
static int is_in_span;

/* The number in this variable; 0 where there is none. */
static unsigned long number(const char *name) {
    const char *text = getenv(name);
    return text ? strtoul(text, NULL, 10) : 0;
}

/* Allocations before this aren't the program's. */
__attribute__((constructor)) static void begin(void) {
    refused = number("REFUSED");
    refuses_on = number("REFUSED_ON") != 0;
    is_marked = number("MARKED") != 0;
    allocations = 0;
}

__attribute__((destructor)) static void end(void) {
    fprintf(stderr, "allocations %lu\n", allocations);
    if (is_marked)
        fprintf(stderr, "spans %lu\ninside %lu\n", spans, inside);
}

/* Is an allocation of so many bytes refused for the span that it is in? */
static int is_refused_in_span(size_t size) {
    if (size == SPAN_BEGINS) {
        spans++;
        is_in_span = 1;
        return 0;
    }
    if (size == SPAN_ENDS)
        is_in_span = 0;
    inside += is_in_span;
    return is_in_span;
}

/* Is this allocation refused? It is asked once for each. */
static int is_refused(size_t size) {
    allocations++;
    if (allocations == refused || (refuses_on && refused && allocations > refused) ||
        (is_marked && is_refused_in_span(size))) {
        errno = ENOMEM;
        return 1;
    }
    return 0;
}

void *malloc(size_t size) {
    return is_refused(size) ? NULL : __libc_malloc(size);
}

void *realloc(void *block, size_t size) {
    return is_refused(size) ? NULL : __libc_realloc(block, size);
}

void *calloc(size_t count, size_t size) {
    return is_refused(size) ? NULL : __libc_calloc(count, size);
}
