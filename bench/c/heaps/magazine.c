/* A heap of level 4 behind a magazine (tlsf_cache.h). bench/peers compiles it. */
#include "tlsf_cache.h"

struct own {
    struct tlsf_heap heap;
    struct tlsf_cache cache;
};

static uint32_t own_open(struct own *own, void *memory, size_t bytes) {
    const uint32_t answer = tlsf_open_in(&own->heap, 4, 1, memory, bytes);
    return answer == TLSF_OK ? tlsf_cache_open(&own->cache, &own->heap) : answer;
}
static void *own_malloc(struct own *own, size_t len) { return tlsf_cache_malloc(&own->cache, len); }
static void *own_calloc(struct own *own, size_t count, size_t each) { return tlsf_cache_calloc(&own->cache, count, each); }
static void *own_realloc(struct own *own, void *block, size_t len) { return tlsf_cache_realloc(&own->cache, block, len); }
static void own_free(struct own *own, void *block) { (void)tlsf_cache_free(&own->cache, block); }

#include "calls.h"
