/* Memory that a test refuses where it wants, and counts what isn't given back. Such a test is linked
 * with --wrap=malloc,--wrap=realloc,--wrap=free. */
#ifndef REFUSING_H
#define REFUSING_H

#include "wrapped.h"

static long blocks; /* how many aren't given back */

/* Is this allocation refused? It is asked once for each, and the test says it. */
static int is_refused(size_t size);

void *__wrap_malloc(size_t size) {
    void *block = is_refused(size) ? NULL : __real_malloc(size);
    blocks += block != NULL;
    return block;
}

void *__wrap_realloc(void *block, size_t size) {
    return is_refused(size) ? NULL : __real_realloc(block, size);
}

void __wrap_free(void *block) {
    blocks -= block != NULL;
    __real_free(block);
}

#endif
