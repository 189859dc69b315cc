/* The functions that --wrap=malloc,--wrap=realloc,--wrap=free puts in the place of those of the C
 * library, and those of the C library. */
#ifndef WRAPPED_H
#define WRAPPED_H

#include <stddef.h>

void *__real_malloc(size_t size);
void *__real_realloc(void *block, size_t size);
void __real_free(void *block);
void *__wrap_malloc(size_t size);
void *__wrap_realloc(void *block, size_t size);
void __wrap_free(void *block);

#endif
