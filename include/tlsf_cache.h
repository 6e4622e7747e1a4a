/* A magazine before a heap: it keeps blocks that were freed, and gives them again with no call of the heap. Most requests then take a
 * fraction of the time. A free takes about as long as before, since the heap is asked whether a live block begins there. It is for
 * C11 and later, and for C++17 and later, by gcc or clang.
 *
 *     #include <tlsf_cache.h>
 *     struct tlsf_cache cache = TLSF_CACHE_CLOSED;
 *     if (tlsf_open(&heap, 4, 1, 65536) || tlsf_cache_open(&cache, &heap)) return 1;
 *     void *p = tlsf_cache_malloc(&cache, 100);
 *     tlsf_cache_free(&cache, p);
 *     tlsf_cache_close(&cache);                      // before its heap
 *
 * It keeps 8 blocks at most of each of 33 sizes: of 8, 24, 40 .. 520 bytes, in steps of 16. Longer blocks go to the heap, and so do
 * those for which there is no slot. A heap whose `align` is 32 or 64 has blocks of each second or fourth size alone.
 * A block that is kept is live for the heap, so each promise of the heap holds as it did. All is
 * inline, over calls of peachanchor.h alone. It takes no memory, and writes to no payload but to fill it for tlsf_cache_calloc.
 *
 * WHAT IT COSTS
 *   Room. It holds back 264 blocks at most. They have 69,696 bytes of payload, and 76,032 with their headers: the sum of
 *     8 * (16 * k + 32) over each k from 0 to 32. A block whose rest was too small for another one has up to 24 bytes more.
 *   Requests. Where the heap answers TLSF_NO_FIT all that is kept goes back, and the heap is asked once more. So no request is
 *     refused for the sake of what is kept. But blocks lie elsewhere than without a magazine. So a request may be refused that would be
 *     served, and served that would be refused. tlsf_counts has the first answer as refused.
 *   The worst call. Of tlsf_cache_malloc and of what is made of it, it is two of the heap's own calls, with 264 releases between them.
 *     Of tlsf_cache_realloc it is the same after a look. Of tlsf_cache_free it is a look and a release.
 *     A heap with the words of tlsf_words for TLSF_CACHE_MOST blocks more never answers TLSF_NO_FIT. So no call gives all back
 *     there, and the worst one is the heap's own.
 *   Double frees. A free of a block that is kept is refused as TLSF_STALE: each slot of its size is looked at. Once the block was given
 *     again a late free isn't seen, as with the heap alone. But here the next request of that size gets it.
 *   Names. A block that is kept and given again has the name that it had. So a name isn't refused that is older than the free. Whoever
 *     takes names of blocks, as for a lane, gives these blocks back by name alone.
 *   Reports. tlsf_report, tlsf_counts, tlsf_check, tlsf_block_at and a dump have blocks that are kept as live ones.
 *     tlsf_cache_report tells how many these are. A trace of TLSF_TRACE has the calls that reach the heap.
 * With TLSF_ASAN or TLSF_VALGRIND a block that is kept is marked as a free one is. Calls answer as without marks.
 *
 * WHAT THE CALLER OWES, besides the rules of peachanchor.h. Nothing checks these.
 *   1. A magazine is a handle, and belongs to the thread that its heap belongs to. No signal handler calls it.
 *   2. A heap has one open magazine at most, which is closed before the heap is.
 *   3. A magazine is flushed before its heap is reset.
 *   4. A block that is kept is the magazine's. No call of the heap frees, releases or resizes it, by a pointer, a name or a drain.
 *      Else it is given again while it is free.
 * All other blocks may go either way. A block that the heap gave may be freed here. One that the magazine gave may be released by a call
 * of the heap, as where another thread posts its name to a lane. Then it goes past the magazine.
 */
#ifndef TLSF_CACHE_H
#define TLSF_CACHE_H

/* Behind a tlsf.h of compat/ some names of peachanchor.h are macros, which lead elsewhere. */
#ifdef TLSF_COMPAT
#error "tlsf_cache.h comes before a tlsf.h of compat/"
#endif
#include "peachanchor.h"

#ifndef TLSF_GNU
#error "tlsf_cache.h is for gcc and clang"
#endif

/* In C++ too these calls cast as C does. */
#ifdef __cplusplus
#pragma GCC diagnostic push
#pragma GCC diagnostic ignored "-Wold-style-cast"
#endif

#ifdef __cplusplus
extern "C" {
#endif

/* How many sizes there are, how many blocks of each are kept, how many of all, and the bytes of the longest. */
enum {
    TLSF_CACHE_SIZES = 33,
    TLSF_CACHE_EACH = 8,
    TLSF_CACHE_MOST = TLSF_CACHE_SIZES * TLSF_CACHE_EACH,
    TLSF_CACHE_LONGEST = 16 * TLSF_CACHE_SIZES - 8
};

/* A magazine. Its fields are its calls' own. Slots have places: the first `count` of a size are in use, and each other one has UINT32_MAX,
 * which is no place. */
struct tlsf_cache {
    struct tlsf_heap *heap; /* null: it is closed */
    uint64_t *base;         /* the heap's */
    uint32_t at[TLSF_CACHE_SIZES][TLSF_CACHE_EACH] __attribute__((aligned(16)));
    uint32_t count[TLSF_CACHE_SIZES];
    uint32_t mask; /* the words that pointers of the heap are aligned to, less one: a place has none of these bits */
};

/* A magazine that isn't open, to begin with alone. One whose bytes are all zero is closed too. */
#define TLSF_CACHE_CLOSED \
    { TLSF_NULL, TLSF_NULL, {{0}}, {0}, 0 }

/* The blocks that a magazine keeps, and the bytes of their payload. Those of tlsf_report less these are the program's. */
struct tlsf_cache_usage {
    uint32_t blocks;
    uint32_t bytes;
};

/* Opens a magazine before an open heap. It keeps nothing yet.
 * Refused, in this order: TLSF_IN_USE where the magazine is open, TLSF_IS_CLOSED where the heap isn't. */
TLSF_ANSWER TLSF_BODY uint32_t tlsf_cache_open(struct tlsf_cache *cache, struct tlsf_heap *heap) TLSF_NOEXCEPT;

/* Releases all that is kept, 264 blocks at most. After it the heap's live blocks are those that the program holds, and no two free
 * blocks touch. Where blocks lie, serials, ticks and the order of free lists differ from those of a heap without a magazine.
 * Refused: TLSF_IS_CLOSED. Where the heap refuses a release its first refusal is the answer, and the magazine is empty all the
 * same: TLSF_STALE tells that rule 3 or 4 was broken, and TLSF_IS_CLOSED that rule 2 was. TLSF_DAMAGED is that of TLSF_CHECKED. */
TLSF_BODY uint32_t tlsf_cache_flush(struct tlsf_cache *cache) TLSF_NOEXCEPT;

/* The same, and closes the magazine, whatever the answer. The heap stays open. */
TLSF_BODY uint32_t tlsf_cache_close(struct tlsf_cache *cache) TLSF_NOEXCEPT;

/* How much is kept, by a walk over 33 counts. Refused: TLSF_IS_CLOSED. */
TLSF_ANSWER TLSF_BODY uint32_t tlsf_cache_report(const struct tlsf_cache *cache, struct tlsf_cache_usage *usage) TLSF_NOEXCEPT;

/* As tlsf_malloc. Where a block of that size is kept it is the one that was freed last. */
TLSF_ANSWER TLSF_BODY void *tlsf_cache_malloc(struct tlsf_cache *cache, size_t len) TLSF_NOEXCEPT;

/* As tlsf_calloc: tlsf_cache_malloc of `count * each` bytes, filled with zeros here. */
TLSF_ANSWER TLSF_BODY void *tlsf_cache_calloc(struct tlsf_cache *cache, size_t count, size_t each) TLSF_NOEXCEPT;

/* As tlsf_aligned_alloc. Up to the heap's own alignment it is tlsf_cache_malloc, and above it the heap is asked. */
TLSF_ANSWER TLSF_BODY void *tlsf_cache_aligned_alloc(struct tlsf_cache *cache, size_t align, size_t len) TLSF_NOEXCEPT;

/* As tlsf_realloc, on the heap. A block that has the bytes for `len` and no more stays with no call but a look. Where the block
 * moves its old one goes to the heap. A null pointer is tlsf_cache_malloc's, and a `len` of 0 is tlsf_cache_free's. Null, too, for a
 * block that is kept. */
TLSF_ANSWER TLSF_BODY void *tlsf_cache_realloc(struct tlsf_cache *cache, void *p, size_t len) TLSF_NOEXCEPT;

/* As tlsf_free. One proved call, tlsf_place, shows whether a live block's payload begins at `p`. It is kept where there is a slot, and
 * else released. TLSF_STALE also where it is kept already. A null pointer is TLSF_OK. */
TLSF_BODY uint32_t tlsf_cache_free(struct tlsf_cache *cache, void *p) TLSF_NOEXCEPT;

/* As tlsf_usable_size; 0 also where the block is kept. */
TLSF_BODY size_t tlsf_cache_usable_size(struct tlsf_cache *cache, const void *p) TLSF_NOEXCEPT;

/* --- The calls, and their parts ------------------------------------------------------------------------------------- */

/* The bytes of a size. */
TLSF_BODY uint32_t tlsf_cache_bytes(uint32_t size) TLSF_NOEXCEPT { return 16 * size + 8; }

/* The bytes that the heap is asked for where the program asks for `len`: those of a size, or what the heap makes of it. */
TLSF_BODY size_t tlsf_cache_asked(size_t len) TLSF_NOEXCEPT {
    return len <= TLSF_CACHE_LONGEST ? tlsf_cache_bytes(((uint32_t)len + 7) / 16) : len;
}

/* The size of a block of `len` bytes; a number that no size has where such a block isn't kept. */
TLSF_BODY uint32_t tlsf_cache_size(uint32_t len) TLSF_NOEXCEPT { return (len - 8) >> 4 | (len - 8) << 28; }

/* Four slots, which are compared at once; and what two numbers of 64 bits hold of the outcome. */
typedef uint32_t tlsf_cache_four __attribute__((vector_size(16), may_alias));
typedef uint64_t tlsf_cache_two __attribute__((vector_size(16)));

/* Whether one of the slots of a size has that place. */
TLSF_BODY bool tlsf_cache_has(const uint32_t *slots, uint32_t at) TLSF_NOEXCEPT {
    const tlsf_cache_four *const all = (const tlsf_cache_four *)(const void *)slots;
    const tlsf_cache_four wanted = {at, at, at, at};
    const tlsf_cache_two found = (tlsf_cache_two)((all[0] == wanted) | (all[1] == wanted));
    return (found[0] | found[1]) != 0;
}

/* Looks at a pointer: the place and the bytes of the live block that isn't kept, or TLSF_STALE, or TLSF_IS_CLOSED. */
TLSF_BODY uint32_t tlsf_cache_look(struct tlsf_cache *cache, const void *p, uint32_t *at, uint32_t *len) TLSF_NOEXCEPT {
    struct tlsf_name name;
    uint32_t bytes;
    if (cache->heap == TLSF_NULL) return TLSF_IS_CLOSED;
    *at = tlsf_place_of(cache->heap, p);
    const uint32_t answer = tlsf_place(cache->heap, *at, &name, &bytes);
    if (answer != TLSF_OK) return answer;
    *len = bytes;
    const uint32_t size = tlsf_cache_size(bytes);
    if (size >= TLSF_CACHE_SIZES || !tlsf_cache_has(cache->at[size], *at)) return TLSF_OK;
    TLSF_ASKED(cache->base + *at + 3, 0, bytes); /* a look marks it as live */
    return TLSF_STALE;
}

TLSF_BODY uint32_t tlsf_cache_open(struct tlsf_cache *cache, struct tlsf_heap *heap) TLSF_NOEXCEPT {
    if (cache->heap != TLSF_NULL) return TLSF_IN_USE;
    if (!heap->is_open) return TLSF_IS_CLOSED;
    cache->heap = heap;
    cache->base = heap->base;
    TLSF_SET(cache->at, 0xff, sizeof cache->at);
    TLSF_SET(cache->count, 0, sizeof cache->count);
    cache->mask = (uint32_t)tlsf_align_of(heap) / 8 - 1;
    return TLSF_OK;
}

TLSF_BODY uint32_t tlsf_cache_flush(struct tlsf_cache *cache) TLSF_NOEXCEPT {
    uint32_t first = TLSF_OK;
    if (cache->heap == TLSF_NULL) return TLSF_IS_CLOSED;
    for (uint32_t size = 0; size < TLSF_CACHE_SIZES; size++) {
        while (cache->count[size] != 0) {
            uint32_t *const slot = &cache->at[size][--cache->count[size]];
            const uint32_t answer = tlsf_release_place(cache->heap, *slot);
            *slot = UINT32_MAX;
            if (first == TLSF_OK) first = answer;
        }
    }
    return first;
}

TLSF_BODY uint32_t tlsf_cache_close(struct tlsf_cache *cache) TLSF_NOEXCEPT {
    const uint32_t answer = tlsf_cache_flush(cache);
    cache->heap = TLSF_NULL;
    return answer;
}

TLSF_BODY uint32_t tlsf_cache_report(const struct tlsf_cache *cache, struct tlsf_cache_usage *usage) TLSF_NOEXCEPT {
    struct tlsf_cache_usage sums = {0, 0};
    if (cache->heap == TLSF_NULL) return TLSF_IS_CLOSED;
    for (uint32_t size = 0; size < TLSF_CACHE_SIZES; size++) {
        sums.blocks += cache->count[size];
        sums.bytes += cache->count[size] * tlsf_cache_bytes(size);
    }
    *usage = sums;
    return TLSF_OK;
}

/* Gives all back, and says whether there was any. A request that is longer than any region is not worth it. */
TLSF_RARE bool tlsf_cache_gives(struct tlsf_cache *cache, size_t len) TLSF_NOEXCEPT {
    struct tlsf_cache_usage kept = {0, 0};
    if (len > TLSF_LONGEST || tlsf_cache_report(cache, &kept) != TLSF_OK || kept.blocks == 0) return false;
    (void)tlsf_cache_flush(cache);
    return true;
}

TLSF_RARE struct tlsf_placed tlsf_cache_ask_again(struct tlsf_cache *cache, size_t len, size_t align) TLSF_NOEXCEPT {
    const struct tlsf_placed refused = {0, TLSF_NO_FIT, 0};
    return tlsf_cache_gives(cache, len) ? tlsf_allocate_for(cache->heap, len, align) : refused;
}

/* Asks the heap, and once more after all went back to it where it has no room. It stands apart, so that a call of a block that is kept
 * needs no frame. */
TLSF_APART void *tlsf_cache_ask(struct tlsf_cache *cache, size_t len, size_t align) TLSF_NOEXCEPT {
    const size_t bytes = tlsf_cache_asked(len);
    if (cache->heap == TLSF_NULL) return TLSF_NULL;
    struct tlsf_placed it = tlsf_allocate_for(cache->heap, bytes, align);
    if (it.answer == TLSF_NO_FIT) it = tlsf_cache_ask_again(cache, bytes, align);
    if (it.answer != TLSF_OK) return TLSF_NULL;
    TLSF_ASKED(cache->base + it.at + 3, len, tlsf_rounded_to(tlsf_align_of(cache->heap), bytes));
    return cache->base + it.at + 3;
}

/* Takes the last block of a size out of its slot; there is one. */
TLSF_BODY void *tlsf_cache_take(struct tlsf_cache *cache, uint32_t size, size_t len) TLSF_NOEXCEPT {
    const uint32_t last = cache->count[size] - 1;
    uint64_t *const p = cache->base + cache->at[size][last] + 3;
    cache->count[size] = last;
    cache->at[size][last] = UINT32_MAX;
    TLSF_USED(p, tlsf_cache_bytes(size));
    TLSF_ASKED(p, len, tlsf_cache_bytes(size));
    return p;
}

TLSF_BODY void *tlsf_cache_malloc(struct tlsf_cache *cache, size_t len) TLSF_NOEXCEPT {
    if (len <= TLSF_CACHE_LONGEST) {
        const uint32_t size = ((uint32_t)len + 7) / 16;
        if (cache->count[size] != 0) return tlsf_cache_take(cache, size, len);
    }
    return tlsf_cache_ask(cache, len, 1);
}

TLSF_BODY void *tlsf_cache_calloc(struct tlsf_cache *cache, size_t count, size_t each) TLSF_NOEXCEPT {
    if (each != 0 && count > TLSF_LONGEST / each) return TLSF_NULL;
    void *const p = tlsf_cache_malloc(cache, count * each);
    return p == TLSF_NULL ? p : TLSF_SET(p, 0, count * each);
}

TLSF_BODY void *tlsf_cache_aligned_alloc(struct tlsf_cache *cache, size_t align, size_t len) TLSF_NOEXCEPT {
    const bool is_plain = align <= 8 * ((size_t)cache->mask + 1) && align != 0 && (align & (align - 1)) == 0;
    return is_plain ? tlsf_cache_malloc(cache, len) : tlsf_cache_ask(cache, len, align);
}

TLSF_RARE void *tlsf_cache_move_again(struct tlsf_cache *cache, void *p, size_t len) TLSF_NOEXCEPT {
    return tlsf_cache_gives(cache, len) ? tlsf_realloc(cache->heap, p, len) : TLSF_NULL;
}

TLSF_BODY void *tlsf_cache_realloc(struct tlsf_cache *cache, void *p, size_t len) TLSF_NOEXCEPT {
    uint32_t at = 0, had = 0;
    if (p == TLSF_NULL) return tlsf_cache_malloc(cache, len);
    if (len == 0) (void)tlsf_cache_free(cache, p);
    if (len == 0 || len > TLSF_LONGEST) return TLSF_NULL;
    const uint32_t answer = tlsf_cache_look(cache, p, &at, &had);
    if (TLSF_TOLD(cache->heap, "tlsf_cache_realloc", answer, at) != TLSF_OK) return TLSF_NULL;
    if (had == (len <= TLSF_CACHE_LONGEST ? tlsf_cache_asked(len) : tlsf_rounded(len))) {
        TLSF_ASKED(p, len, had);
        return p;
    }
    const size_t bytes = tlsf_cache_asked(len);
    void *moved = tlsf_realloc(cache->heap, p, bytes);
    if (moved == TLSF_NULL) moved = tlsf_cache_move_again(cache, p, bytes);
    if (moved != TLSF_NULL) TLSF_ASKED(moved, len, bytes);
    return moved;
}

TLSF_BODY uint32_t tlsf_cache_free(struct tlsf_cache *cache, void *p) TLSF_NOEXCEPT {
    uint32_t at = 0, len = 0;
    if (p == TLSF_NULL) return TLSF_OK;
    tlsf_fetch((uintptr_t)p - 24);
    const uint32_t answer = tlsf_cache_look(cache, p, &at, &len);
    if (answer != TLSF_OK) return TLSF_TOLD(cache->heap, "tlsf_cache_free", answer, at);
    const uint32_t size = tlsf_cache_size(len);
    /* A block by name may begin where its payload is aligned to less than malloc's. */
    if (size >= TLSF_CACHE_SIZES || (at & cache->mask) != 0 || cache->count[size] == TLSF_CACHE_EACH)
        return tlsf_release_place(cache->heap, at);
    cache->at[size][cache->count[size]++] = at;
    TLSF_ASKED(p, 0, len);
    return TLSF_OK;
}

TLSF_BODY size_t tlsf_cache_usable_size(struct tlsf_cache *cache, const void *p) TLSF_NOEXCEPT {
    uint32_t at = 0, len = 0;
    return tlsf_cache_look(cache, p, &at, &len) == TLSF_OK ? len : 0;
}

#ifdef __cplusplus
}
#endif
#ifdef __cplusplus
#pragma GCC diagnostic pop
#endif
#endif
