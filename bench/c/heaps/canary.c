/* A heap of level 4 whose blocks end with 8 bytes that a free looks at: so it tells of a write past the payload. No header of this
 * repository does so; it is here to be measured beside TLSF_CHECKED. bench/peers compiles it. */
#include "peachanchor.h"

#include <stdlib.h>
#include <string.h>

struct own {
    struct tlsf_heap heap;
};
enum { CANARY = sizeof(uint64_t) };

static uint32_t own_open(struct own *own, void *memory, size_t bytes) { return tlsf_open_in(&own->heap, 4, 1, memory, bytes); }

static uint64_t canary_of(const void *block) { return (uintptr_t)block ^ 0x9e3779b97f4a7c15; }

/* A block with its last bytes written, or null. */
static void *ended(struct own *own, void *block) {
    const uint64_t canary = canary_of(block);
    if (block) memcpy((char *)block + tlsf_usable_size(&own->heap, block) - CANARY, &canary, CANARY);
    return block;
}

/* Ends the process where the last bytes of a live block were overwritten. */
static void look_at(struct own *own, const void *block) {
    uint64_t canary;
    const size_t bytes = tlsf_usable_size(&own->heap, block);
    if (!bytes) return;
    memcpy(&canary, (const char *)block + bytes - CANARY, CANARY);
    if (canary != canary_of(block)) abort();
}

static void *own_malloc(struct own *own, size_t len) { return ended(own, tlsf_malloc(&own->heap, len + CANARY)); }
static void *own_calloc(struct own *own, size_t count, size_t each) {
    return ended(own, tlsf_calloc(&own->heap, 1, count * each + CANARY));
}
static void *own_realloc(struct own *own, void *block, size_t len) {
    look_at(own, block);
    return ended(own, tlsf_realloc(&own->heap, block, len + CANARY));
}
static void own_free(struct own *own, void *block) {
    look_at(own, block);
    (void)tlsf_free(&own->heap, block);
}

#include "calls.h"
