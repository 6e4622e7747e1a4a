/* With IGNORED from 1 to 19 an answer that has to be looked at isn't: a compiler warns of that, in C and in C++. Of one that is cast to
 * void it doesn't. The headers are read as after windows.h, which has these words. */
#define near
#define far
#define small char
#define interface struct

#include "peachanchor.h"

#include "tlsf_cache.h"
#include "tlsf_locked.h"
#include "tlsf_parts.h"

#ifndef IGNORED
#define IGNORED 0
#endif

uint32_t give(struct tlsf_heap *heap, struct tlsf_name *name, void *memory);

uint32_t give(struct tlsf_heap *heap, struct tlsf_name *name, void *memory) {
    uint32_t at = 0;
    void *p = memory;
    struct tlsf_cache cache = TLSF_CACHE_CLOSED;
    struct tlsf_locked locked = TLSF_LOCKED_CLOSED;
    struct tlsf_parts parts = TLSF_PARTS_CLOSED;
#if IGNORED == 1
    tlsf_allocate(heap, 8, name);
#elif IGNORED == 2
    tlsf_open_in(heap, 4, 1, memory, 4096);
#elif IGNORED == 3
    tlsf_malloc(heap, 8);
#elif IGNORED == 4
    tlsf_realloc(heap, p, 8);
#elif IGNORED == 5
    tlsf_name_at(heap, p, name);
#elif IGNORED == 6
    tlsf_allocate_at(heap, 8, 8, TLSF_UNFILLED, name, &p);
#elif IGNORED == 7
    tlsf_check(heap, 0, 1, &at, &at);
#elif IGNORED == 8
    tlsf_calloc(heap, 8, 8);
#elif IGNORED == 9
    tlsf_allocate_place(heap, 8);
#elif IGNORED == 10
    tlsf_cache_open(&cache, heap);
#elif IGNORED == 11
    tlsf_cache_malloc(&cache, 8);
#elif IGNORED == 12
    tlsf_cache_realloc(&cache, p, 8);
#elif IGNORED == 13
    tlsf_cache_calloc(&cache, 8, 8);
#elif IGNORED == 14
    tlsf_locked_open(&locked, 4, 1, 4096, true);
#elif IGNORED == 15
    tlsf_locked_malloc(&locked, 8);
#elif IGNORED == 16
    tlsf_locked_allocate(&locked, 8, name);
#elif IGNORED == 17
    tlsf_aligned_realloc(heap, p, 64, 8);
#elif IGNORED == 18
    tlsf_parts_add(&parts, memory, 4096);
#elif IGNORED == 19
    tlsf_parts_malloc(&parts, 8);
#endif
    /* What is cast to void may be ignored, */
    (void)tlsf_allocate(heap, 8, name);
    (void)tlsf_check(heap, 0, 1, &at, &at);
    (void)tlsf_malloc(heap, 8);
    (void)tlsf_allocate_place(heap, 8);
    /* and so may what frees, releases or closes. */
    tlsf_free(heap, p);
    tlsf_release(heap, *name);
    tlsf_release_place(heap, at);
    tlsf_cache_free(&cache, TLSF_NULL);
    tlsf_cache_flush(&cache);
    tlsf_cache_close(&cache);
    tlsf_locked_free(&locked, TLSF_NULL);
    tlsf_locked_release(&locked, *name);
    tlsf_locked_close(&locked);
    tlsf_parts_free(&parts, TLSF_NULL);
    tlsf_parts_release(&parts, *name);
    tlsf_parts_remove(&parts, memory);
    tlsf_parts_close(&parts);
    tlsf_close(heap);
    return tlsf_allocate(heap, 8, name);
}
