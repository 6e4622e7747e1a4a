/* A call that is C has one address in all files of a program, the library's, and does there what it does where it is inline. Two files
 * are made of this one, of which the second is compiled with OTHER. */
#include "peachanchor.h"

#include <stdio.h>
#include <string.h>

struct addresses {
    struct tlsf_heap *(*near)(struct tlsf_near_heap *);
    void *(*give)(struct tlsf_heap *, size_t);
    void *(*give_zeros)(struct tlsf_heap *, size_t, size_t);
    void *(*give_aligned)(struct tlsf_heap *, size_t, size_t);
    void *(*resize)(struct tlsf_heap *, void *, size_t);
    void *(*resize_aligned)(struct tlsf_heap *, void *, size_t, size_t);
    uint32_t (*take_back)(struct tlsf_heap *, void *);
    size_t (*usable)(struct tlsf_heap *, const void *);
    size_t (*size)(const void *);
    uint32_t (*name_of)(struct tlsf_heap *, const void *, struct tlsf_name *);
    uint32_t (*give_named)(struct tlsf_heap *, size_t, size_t, uint32_t, struct tlsf_name *, void **);
    size_t (*rounded)(size_t);
    uint32_t (*place_of)(const struct tlsf_heap *, const void *);
    uint64_t *(*base)(const struct tlsf_heap *);
    uint32_t (*words_for)(uint32_t, uint32_t, size_t, size_t, uint32_t *);
    TLSF_BY_VALUE void *(*at)(uint64_t *, struct tlsf_name);
    const char *(*text_of)(uint32_t);
};

#define ALL \
    { \
        tlsf_near, tlsf_malloc, tlsf_calloc, tlsf_aligned_alloc, tlsf_realloc, tlsf_aligned_realloc, tlsf_free, tlsf_usable_size, \
            tlsf_block_size, tlsf_name_at, tlsf_allocate_at, tlsf_rounded, tlsf_place_of, tlsf_base, tlsf_words_for, tlsf_at, tlsf_text_of \
    }

struct addresses addresses_there(void);

#ifdef OTHER
struct addresses addresses_there(void) {
    const struct addresses all = ALL;
    return all;
}
#else
#define MUST(holds) \
    if (!(holds)) return fprintf(stderr, "addresses: %s doesn't hold\n", #holds), 1

int main(void) {
    const struct addresses here = ALL, there = addresses_there();
    static struct tlsf_near_heap near;
    struct tlsf_name name, again;
    void *payload = NULL;
    uint32_t words = 0, others = 1;
    char *p, *q;
    MUST(tlsf_words_for(4, 2, 8, 64, &others) == TLSF_OK && tlsf_base(tlsf_near(&near)) == NULL);
    MUST(memcmp(&here, &there, sizeof here) == 0);
    MUST(tlsf_open_near(&near, 5, 1, 2000) == TLSF_OK);
    struct tlsf_heap *const heap = there.near(&near);
    MUST(heap == tlsf_near(&near));
    MUST((p = there.give(heap, 20)) && there.usable(heap, p) == tlsf_usable_size(heap, p) && there.rounded(20) == tlsf_rounded(20));
    MUST(there.place_of(heap, p) == tlsf_place_of(heap, p) && there.name_of(heap, p, &name) == TLSF_OK);
    MUST((q = there.give_zeros(heap, 3, 5)) && q[14] == 0 && (q = there.resize(heap, q, 600)) && q[14] == 0);
    MUST((payload = there.give_aligned(heap, 256, 8)) && (uintptr_t)payload % 256 == 0 && there.size(payload) == tlsf_block_size(payload));
    MUST((payload = there.resize_aligned(heap, payload, 512, 900)) && (uintptr_t)payload % 512 == 0 && there.size(payload) >= 900);
    MUST(there.give_named(heap, 8, 64, TLSF_UNFILLED, &again, &payload) == TLSF_OK && tlsf_payload(heap, again, NULL) == payload);
    MUST(there.base(heap) == tlsf_base(heap) && there.at(there.base(heap), name) == p && tlsf_at(tlsf_base(heap), name) == p);
    MUST(there.words_for(4, 2, 8, 64, &words) == TLSF_OK && words == others);
    MUST(there.take_back(heap, p) == TLSF_OK && tlsf_payload(heap, name, NULL) == NULL);
    MUST(there.text_of(TLSF_FULL) == tlsf_text_of(TLSF_FULL));
    return tlsf_close(heap) == TLSF_OK ? 0 : 1;
}
#endif
