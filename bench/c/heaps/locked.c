/* A heap of level 4 behind a lock with priority inheritance (tlsf_locked.h), which no other thread takes. bench/peers compiles it. */
#include "tlsf_locked.h"

struct own {
    struct tlsf_locked heap;
};

static uint32_t own_open(struct own *own, void *memory, size_t bytes) { return tlsf_locked_open_in(&own->heap, 4, 1, memory, bytes, true); }
static void *own_malloc(struct own *own, size_t len) { return tlsf_locked_malloc(&own->heap, len); }
static void *own_calloc(struct own *own, size_t count, size_t each) { return tlsf_locked_calloc(&own->heap, count, each); }
static void *own_realloc(struct own *own, void *block, size_t len) { return tlsf_locked_realloc(&own->heap, block, len); }
static void own_free(struct own *own, void *block) { (void)tlsf_locked_free(&own->heap, block); }

#include "calls.h"
