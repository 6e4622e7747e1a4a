/* A heap of level 4 whose last 64 freed blocks stay live, filled with a byte that the free of the 65th looks for: so it tells of a write
 * after a free. No header of this repository does so; it is here to be measured beside TLSF_CHECKED. bench/peers compiles it. */
#include "peachanchor.h"

#include <stdlib.h>
#include <string.h>

enum { KEPT = 64, FILL = 0xdf };
struct own {
    struct tlsf_heap heap;
    void *kept[KEPT];
    unsigned next;
};

static uint32_t own_open(struct own *own, void *memory, size_t bytes) { return tlsf_open_in(&own->heap, 4, 1, memory, bytes); }

/* Frees a block that was kept, or ends the process where it was written to. */
static void let_go(struct own *own, unsigned char *block) {
    const size_t bytes = tlsf_usable_size(&own->heap, block);
    if (bytes && (block[0] != FILL || memcmp(block, block + 1, bytes - 1) != 0)) abort();
    (void)tlsf_free(&own->heap, block);
}

/* Whether anything was kept, which goes. */
static int lets_all_go(struct own *own) {
    int any = 0;
    for (unsigned i = 0; i < KEPT; i++) {
        if (own->kept[i]) any = 1, let_go(own, own->kept[i]);
        own->kept[i] = NULL;
    }
    return any;
}

static void *own_malloc(struct own *own, size_t len) {
    void *const block = tlsf_malloc(&own->heap, len);
    return block || !lets_all_go(own) ? block : tlsf_malloc(&own->heap, len);
}
static void *own_calloc(struct own *own, size_t count, size_t each) {
    void *const block = tlsf_calloc(&own->heap, count, each);
    return block || !lets_all_go(own) ? block : tlsf_calloc(&own->heap, count, each);
}
static void *own_realloc(struct own *own, void *block, size_t len) {
    void *const moved = tlsf_realloc(&own->heap, block, len);
    return moved || !len || !lets_all_go(own) ? moved : tlsf_realloc(&own->heap, block, len);
}
static void own_free(struct own *own, void *block) {
    const size_t bytes = tlsf_usable_size(&own->heap, block);
    void **const kept = &own->kept[own->next++ % KEPT];
    if (!bytes) return; /* it isn't live */
    memset(block, FILL, bytes);
    if (*kept) let_go(own, *kept);
    *kept = block;
}

#include "calls.h"
