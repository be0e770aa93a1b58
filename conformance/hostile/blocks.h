/* Requests for memory, for programs that are linked with --wrap for malloc, realloc and free: the blocks that weren't
   given back are counted, one request can be refused by its number, and each of more than 4 MiB is refused. Where a size_t
   has 32 bits, malloc's blocks lie at multiples of 8, and posix_memalign is asked for others, so it is wrapped too. */
#ifndef BLOCKS_H
#define BLOCKS_H

#include <stdatomic.h>
#include <stdbool.h>
#include <stddef.h>
#include <stdint.h>
#include <stdio.h>

enum { MOST_BYTES = 1 << 22 };

extern void *__real_malloc(size_t size);
extern void *__real_realloc(void *old, size_t size);
extern void __real_free(void *old);
void *__wrap_malloc(size_t size);
void *__wrap_realloc(void *old, size_t size);
void __wrap_free(void *old);

/* The blocks that any thread asked for and none has given back. */
static atomic_long blocks;
/* The requests of this thread, and the number of the one that is refused, if any is. What beside.py writes sets them too. */
_Thread_local long requests, refused;

/* Whether this thread has made no request, for calls that take no memory; if it has, it prints how many. */
static inline bool none_requested(void) {
    if (requests != 0)
        printf("%ld requests for memory\n", requests);
    return requests == 0;
}

static int is_refused(size_t size) {
    requests++;
    return requests == refused || size > MOST_BYTES;
}

void *__wrap_malloc(size_t size) {
    void *block = is_refused(size) ? NULL : __real_malloc(size);
    blocks += block != NULL;
    return block;
}

void *__wrap_realloc(void *old, size_t size) {
    void *block = is_refused(size) ? NULL : __real_realloc(old, size);
    blocks += block != NULL && old == NULL;
    return block;
}

#if SIZE_MAX == UINT32_MAX
extern int __real_posix_memalign(void **block, size_t alignment, size_t size);
int __wrap_posix_memalign(void **block, size_t alignment, size_t size);

int __wrap_posix_memalign(void **block, size_t alignment, size_t size) {
    int error = is_refused(size) ? 12 : __real_posix_memalign(block, alignment, size);
    blocks += error == 0;
    return error;
}
#endif

void __wrap_free(void *old) {
    blocks -= old != NULL;
    __real_free(old);
}

#endif
