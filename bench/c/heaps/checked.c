/* A heap of level 4 whose calls look first at the headers that they are about to follow (tlsf_checked.h). bench/peers compiles it. */
#define TLSF_CHECKED
#include "peachanchor.h"

struct own {
    struct tlsf_heap heap;
};

static uint32_t own_open(struct own *own, void *memory, size_t bytes) { return tlsf_open_in(&own->heap, 4, 1, memory, bytes); }
static void *own_malloc(struct own *own, size_t len) { return tlsf_malloc(&own->heap, len); }
static void *own_calloc(struct own *own, size_t count, size_t each) { return tlsf_calloc(&own->heap, count, each); }
static void *own_realloc(struct own *own, void *block, size_t len) { return tlsf_realloc(&own->heap, block, len); }
static void own_free(struct own *own, void *block) { (void)tlsf_free(&own->heap, block); }

#include "calls.h"
