/* A magazine before a heap, call by call and then by chance. Each call by chance is made on a heap with no magazine too. Each byte of
 * each block is looked at. The two heaps hold the same, less what is kept, before a flush and after it. With names some blocks are
 * made by name, so that some lie at 8 bytes more than a multiple of 16. By chance both heaps are aligned to ALIGN. How often the
 * magazine calls the heap is counted. wrong.edits has wrong magazines. CACHE [CALLS] [SEED] [LEVEL] [names | plain] [ALIGN] */
#include "chance.h"
#include "peachanchor.h"

#include <string.h>

/* How often the magazine calls the heap. Marks have names of their own for these. */
static long looks, releases, asks;
#if !defined(TLSF_ASAN) && !defined(TLSF_VALGRIND)
static inline uint32_t counted_place(struct tlsf_heap *heap, uint32_t at, struct tlsf_name *name, uint32_t *len) {
    looks++;
    return tlsf_place(heap, at, name, len);
}
static inline uint32_t counted_release_place(struct tlsf_heap *heap, uint32_t at) {
    releases++;
    return tlsf_release_place(heap, at);
}
static inline struct tlsf_placed counted_allocate_for(struct tlsf_heap *heap, size_t len, size_t align) {
    asks++;
    return tlsf_allocate_for(heap, len, align);
}
static inline void *counted_realloc(struct tlsf_heap *heap, void *p, size_t len) {
    asks++;
    return tlsf_realloc(heap, p, len);
}
#define tlsf_place counted_place
#define tlsf_release_place counted_release_place
#define tlsf_allocate_for counted_allocate_for
#define tlsf_realloc counted_realloc
#include "tlsf_cache.h"
#undef tlsf_place
#undef tlsf_release_place
#undef tlsf_allocate_for
#undef tlsf_realloc
#else
#define NOT_COUNTED
#include "tlsf_cache.h"
#endif

enum { MOST = 160, LONGEST = 900, WORDS = 3001 };

struct block {
    unsigned char *p, *twin; /* the same block of the heap with no magazine; null: the slot is free */
    size_t len;
    unsigned char fill;
};

static struct tlsf_heap heap = TLSF_CLOSED, plain = TLSF_CLOSED, other = TLSF_CLOSED;
static struct tlsf_cache cache = TLSF_CACHE_CLOSED;
static struct block blocks[MOST];
static long counts[4];
static uint32_t level = 4;
static size_t own_align = TLSF_ALIGN; /* of both heaps */

static size_t any_len(void) { return below(4) ? below(200) : below(LONGEST + 1); }

static struct tlsf_cache_usage kept(void) {
    struct tlsf_cache_usage usage = {0, 0};
    wants("what is kept", tlsf_cache_report(&cache, &usage), TLSF_OK);
    return usage;
}

static struct tlsf_heap_report report_of(struct tlsf_heap *of) {
    struct tlsf_heap_report r = {0, 0, 0, 0, 0, 0, 0, 0, 0, 0};
    wants("report", tlsf_report(of, &r), TLSF_OK);
    return r;
}

static uint32_t refused(void) {
    struct tlsf_heap_counts c = {0, 0, 0, 0};
    wants("counts", tlsf_counts(&heap, &c), TLSF_OK);
    return c.refused;
}

/* So many calls of the heap since the last time: looks, releases, and requests for a block. */
static void wants_calls(const char *what, long of_looks, long of_releases, long of_asks) {
#ifndef NOT_COUNTED
    if (looks != of_looks || releases != of_releases || asks != of_asks) {
        printf("turn %ld: %s: %ld looks, %ld releases and %ld requests\n", turn, what, looks, releases, asks);
        exit(1);
    }
#else
    (void)what, (void)of_looks, (void)of_releases, (void)of_asks;
#endif
    looks = releases = asks = 0;
}

static void open_with(uint32_t words) {
    wants("open", tlsf_open(&heap, level, 1, words) + tlsf_cache_open(&cache, &heap), TLSF_OK);
    looks = releases = asks = 0;
}

static void close_with(void) {
    const uint32_t live = report_of(&heap).live_blocks - kept().blocks;
    wants("close", tlsf_cache_close(&cache), TLSF_OK);
    wants("live blocks after it", report_of(&heap).live_blocks, live);
    wants("close", tlsf_close(&heap), TLSF_OK);
}

static void *get(size_t len) {
    void *p = tlsf_cache_malloc(&cache, len);
    wants("a block", p != NULL && (uintptr_t)p % own_align == 0, 1);
    memset(p, 0xa5, len);
    return p;
}

static void end(void *p) { wants("free", tlsf_cache_free(&cache, p), TLSF_OK); }

/* --- Call by call --------------------------------------------------------------------------------------------------- */

static void closed_ones(void) {
    struct tlsf_cache_usage usage = {7, 7};
    int own = 0;
    wants("a closed magazine", tlsf_cache_malloc(&cache, 8) == NULL && tlsf_cache_malloc(&cache, 5000) == NULL, 1);
    wants("its other calls",
          !tlsf_cache_calloc(&cache, 2, 4) && !tlsf_cache_aligned_alloc(&cache, 64, 8) && !tlsf_cache_realloc(&cache, &own, 8), 1);
    wants("its free", tlsf_cache_free(&cache, &own), TLSF_IS_CLOSED);
    wants("its free of null", tlsf_cache_free(&cache, NULL), TLSF_OK);
    wants("its size", tlsf_cache_usable_size(&cache, &own), 0);
    wants("its flush", tlsf_cache_flush(&cache), TLSF_IS_CLOSED);
    wants("its close", tlsf_cache_close(&cache), TLSF_IS_CLOSED);
    wants("its report", tlsf_cache_report(&cache, &usage), TLSF_IS_CLOSED);
    wants("as before", usage.blocks + usage.bytes, 14);
    wants("before a closed heap", tlsf_cache_open(&cache, &heap), TLSF_IS_CLOSED);
    open_with(400);
    wants("opened twice", tlsf_cache_open(&cache, &heap), TLSF_IN_USE);
    wants("the heap's own end", tlsf_close(&heap), TLSF_OK);
    wants("over a closed heap", tlsf_cache_malloc(&cache, 8) == NULL, 1);
    wants("free there", tlsf_cache_free(&cache, &own), TLSF_IS_CLOSED);
    wants("close there", tlsf_cache_close(&cache), TLSF_OK);
    wants("and once more", tlsf_cache_close(&cache), TLSF_IS_CLOSED);
}

/* A block of each length up to 520 bytes is kept, and the one that was freed last comes first. Longer ones aren't kept. */
static void each_length(void) {
    open_with(4000);
    for (size_t len = 0; len <= TLSF_CACHE_LONGEST + 40; len++) {
        void *const p = get(len), *const q = get(len), *const wall = get(TLSF_CACHE_LONGEST + 1);
        const size_t longest = len > 8 ? len : 8, usable = tlsf_cache_usable_size(&cache, p);
        wants("usable", usable, len <= TLSF_CACHE_LONGEST ? (longest + 7) / 16 * 16 + 8 : tlsf_rounded(len));
        end(p), end(q);
        const struct tlsf_cache_usage usage = kept();
        wants("blocks that are kept", usage.blocks, len <= TLSF_CACHE_LONGEST ? 2 : 0);
        wants("bytes that are kept", usage.bytes, usage.blocks * usable);
        wants_calls("two blocks of a length", 3, len <= TLSF_CACHE_LONGEST ? 0 : 2, 3);
        if (usage.blocks != 0) {
            wants("the last comes first", get(usable) == q && get(usable < 24 ? 0 : usable - 15) == p, 1);
            wants_calls("two that were kept", 0, 0, 0);
            end(p), end(q);
        }
        end(wall);
        wants("flush", tlsf_cache_flush(&cache), TLSF_OK);
        wants("all is free", report_of(&heap).free_blocks == 1 && report_of(&heap).free_words == 4000, 1);
        looks = releases = 0;
    }
    close_with();
}

/* All slots are filled: so much is held back, and a flush of it is so many calls. The block for which there is no slot is released. */
static void all_slots(void) {
    void *held[TLSF_CACHE_SIZES][TLSF_CACHE_EACH + 1];
    open_with(16000);
    for (uint32_t size = 0; size < TLSF_CACHE_SIZES; size++)
        for (uint32_t k = 0; k <= TLSF_CACHE_EACH; k++) held[size][k] = get(16 * size + below(9));
    wants_calls("blocks of all sizes", 0, 0, TLSF_CACHE_MOST + TLSF_CACHE_SIZES);
    for (uint32_t k = 0; k <= TLSF_CACHE_EACH; k++)
        for (uint32_t size = 0; size < TLSF_CACHE_SIZES; size++) end(held[size][k]);
    wants_calls("frees of all sizes", TLSF_CACHE_MOST + TLSF_CACHE_SIZES, TLSF_CACHE_SIZES, 0);
    const struct tlsf_cache_usage usage = kept();
    wants("blocks", usage.blocks, 264);
    wants("bytes", usage.bytes, 69696);
    wants("live blocks", report_of(&heap).live_blocks, 264);
    wants("live bytes", 8 * report_of(&heap).live_words, 76032);
    for (uint32_t size = 0; size < TLSF_CACHE_SIZES; size++)
        for (uint32_t k = 0; k <= TLSF_CACHE_EACH; k++) {
            wants("a second free", tlsf_cache_free(&cache, held[size][k]), TLSF_STALE);
            wants("its realloc", tlsf_cache_realloc(&cache, held[size][k], 16 * size + 8) == NULL, 1);
            wants("its size", tlsf_cache_usable_size(&cache, held[size][k]), 0);
        }
    wants("nothing else is kept", kept().blocks, 264);
    looks = releases = asks = 0;
    wants("flush", tlsf_cache_flush(&cache), TLSF_OK);
    wants_calls("a flush", 0, TLSF_CACHE_MOST, 0);
    wants("none is live", report_of(&heap).live_blocks + kept().blocks, 0);
    close_with();
}

/* Of blocks that were given again a second free is no second one; each is given once. */
static void freed_twice(void) {
    void *held[TLSF_CACHE_EACH], *again[TLSF_CACHE_EACH];
    open_with(4000);
    for (uint32_t n = 1; n <= TLSF_CACHE_EACH; n++) {
        for (uint32_t k = 0; k < n; k++) held[k] = get(100);
        for (uint32_t k = 0; k < n; k++) {
            end(held[k]);
            for (uint32_t i = 0; i <= k; i++) wants("a second free", tlsf_cache_free(&cache, held[i]), TLSF_STALE);
        }
        for (uint32_t k = 0; k < n; k++) {
            again[k] = get(104);
            for (uint32_t i = 0; i < k; i++) wants("given once", again[k] != again[i], 1);
            wants("and live", tlsf_cache_usable_size(&cache, again[k]), 104);
        }
        wants("all came from the magazine", kept().blocks, 0);
        for (uint32_t k = 0; k < n; k++) end(held[k]);
        wants("flush", tlsf_cache_flush(&cache), TLSF_OK);
        wants("after it", tlsf_cache_free(&cache, held[0]), TLSF_STALE);
    }
    close_with();
}

static void sizes_that_wrap(void) {
    static const size_t too_long[] = {SIZE_MAX, SIZE_MAX - 6, SIZE_MAX - 7, SIZE_MAX / 2 + 1, PAST_32, PAST_32 + 8, ((size_t)1 << 27) + 1};
    open_with(4000);
    void *const p = get(8), *const q = get(8);
    end(q);
    for (size_t k = 0; k < sizeof too_long / sizeof *too_long; k++) {
        const size_t len = too_long[k];
        wants("malloc", tlsf_cache_malloc(&cache, len) == NULL, 1);
        wants("calloc",
              !tlsf_cache_calloc(&cache, len, 1) && !tlsf_cache_calloc(&cache, len, len) && !tlsf_cache_calloc(&cache, 8, len / 8 + 1), 1);
        wants("realloc", tlsf_cache_realloc(&cache, p, len) == NULL && tlsf_cache_realloc(&cache, NULL, len) == NULL, 1);
        wants("aligned_alloc", !tlsf_cache_aligned_alloc(&cache, 8, len) && !tlsf_cache_aligned_alloc(&cache, 64, len), 1);
    }
    for (size_t align = 0; align < 9000; align++)
        if (align == 0 || (align & (align - 1)) != 0) wants("an alignment", tlsf_cache_aligned_alloc(&cache, align, 8) == NULL, 1);
    wants("nothing goes back for these", kept().blocks, 1);
    wants("a block stays", tlsf_cache_usable_size(&cache, p), 8);
    close_with();
}

/* --- Where the heap has no room ------------------------------------------------------------------------------------- */

/* Fills the heap by blocks of 100 bytes, of which the magazine then keeps eight that touch: so much is free after a flush alone. */
static void *fill_up(void) {
    void *held[64], *p;
    uint32_t n = 0;
    open_with(900);
    while (n < 64 && (p = tlsf_cache_malloc(&cache, 100)) != NULL) held[n++] = memset(p, 0xa5, 100);
    wants("blocks fill it", n > 20 && n < 64 && kept().blocks == 0, 1);
    for (uint32_t k = 2; k < 2 + TLSF_CACHE_EACH; k++) end(held[k]);
    looks = releases = asks = 0;
    return held[0];
}

static void *ask(int way, void *p) {
    switch (way) {
    case 0: return tlsf_cache_malloc(&cache, 800);
    case 1: return tlsf_cache_calloc(&cache, 8, 100);
    case 2: return tlsf_cache_aligned_alloc(&cache, 64, 600);
    case 3: return tlsf_cache_realloc(&cache, p, 800);
    default: return tlsf_cache_malloc(&cache, 300);
    }
}

static void no_room(void) {
    for (int way = 0; way < 5; way++) {
        unsigned char *const p = fill_up();
        const uint32_t before = refused();
        unsigned char *const q = ask(way, p);
        wants("served after a flush", q != NULL, 1);
        wants("nothing is kept", kept().blocks, 0);
        wants_calls("the worst call", way == 3, TLSF_CACHE_EACH, 2);
        wants("one refusal", refused(), before + 1);
        for (int k = 0; k < 800 && way == 1; k++) wants("a zero", q[k], 0);
        for (int k = 0; k < 100 && way == 3; k++) wants("a byte that moved", q[k], 0xa5);
        memset(q, 1, way == 4 ? 300 : 600);
        wants("no room", tlsf_cache_malloc(&cache, 5000) == NULL, 1);
        wants_calls("nothing could go back", 0, 0, 1);
        wants("asked once", refused(), before + 2);
        end(way == 3 ? q : p);
        close_with();
    }
}

/* A request that fits nowhere gives all back, once. */
static void never_fits(void) {
    unsigned char *const p = fill_up();
    const uint32_t before = refused();
    wants("no room", tlsf_cache_malloc(&cache, 7000) == NULL, 1);
    wants_calls("a refusal", 0, TLSF_CACHE_EACH, 2);
    wants("asked twice", refused(), before + 2);
    wants("none is kept", kept().blocks, 0);
    wants("realloc", tlsf_cache_realloc(&cache, p, 7000) == NULL, 1);
    wants_calls("a refused realloc", 1, 0, 1);
    for (int k = 0; k < 100; k++) wants("a byte as before", p[k], 0xa5);
    close_with();
}

/* A heap that has the words for so many blocks more is never asked twice. */
static void words_for_all(void) {
    void *held[40] = {NULL};
    uint32_t words = 0;
    wants("words", tlsf_words(level, 40 + TLSF_CACHE_MOST, tlsf_rounded(LONGEST), &words), TLSF_OK);
    open_with(words);
    for (turn = 0; turn < 20000; turn++) {
        void **const p = &held[below(40)];
        if (*p) end(*p), *p = NULL;
        else *p = get(below(LONGEST + 1));
    }
    wants("refusals", refused(), 0);
    close_with();
}

/* --- What is resized ------------------------------------------------------------------------------------------------- */

static void resized(void) {
    open_with(4000);
    unsigned char *const p = get(40), *const wall = get(40);
    wants_calls("two blocks", 0, 0, 2);
    wants("as long", tlsf_cache_realloc(&cache, p, 25) == p && tlsf_cache_realloc(&cache, p, 40) == p, 1);
    wants_calls("a block that stays is only looked at", 2, 0, 0);
    memset(p, 3, 40);
    unsigned char *const q = tlsf_cache_realloc(&cache, p, 400);
    wants("it moves", q != NULL && q != p, 1);
    wants("its old one is free", tlsf_cache_usable_size(&cache, p) + kept().blocks, 0);
    for (int k = 0; k < 40; k++) wants("a byte", q[k], 3);
    wants("shorter where it stands", tlsf_cache_realloc(&cache, q, 10) == q, 1);
    wants("so many bytes", tlsf_cache_usable_size(&cache, q), 24);
    wants("to nothing", tlsf_cache_realloc(&cache, q, 0) == NULL && tlsf_cache_realloc(&cache, NULL, 0) != NULL, 1);
    wants("is kept as it is now", get(24) == q, 1);
    wants("of a kept one to nothing", (end(wall), tlsf_cache_realloc(&cache, wall, 0) == NULL) && kept().blocks == 1, 1);
    close_with();
}

/* --- Pointers that no block of the program's has ----------------------------------------------------------------------- */

static void foreign_ones(void) {
    unsigned char outside[64] = {0};
    open_with(4000);
    wants("another heap", tlsf_open(&other, level, 2, 4000), TLSF_OK);
    unsigned char *const p = get(100), *const theirs = tlsf_malloc(&other, 100);
    for (int k = -32; k < 128; k++)
        if (k != 0) wants("a pointer beside it", tlsf_cache_free(&cache, p + k), TLSF_STALE);
    wants("another heap's", tlsf_cache_free(&cache, theirs), TLSF_STALE);
    wants("none of a heap's", tlsf_cache_free(&cache, outside + 8), TLSF_STALE);
    wants("their realloc", tlsf_cache_realloc(&cache, theirs, 50) == NULL && tlsf_cache_realloc(&cache, p + 16, 50) == NULL, 1);
    wants("their size", tlsf_cache_usable_size(&cache, theirs) + tlsf_cache_usable_size(&cache, p + 8), 0);
    wants("nothing is kept", kept().blocks, 0);
    end(p);
    close_with();
    wants("the other heap's own", tlsf_free(&other, theirs) + tlsf_close(&other), TLSF_OK);
}

/* Blocks by name that malloc's calls would give misaligned, or with fewer bytes, aren't kept. */
static void blocks_by_name(void) {
    static const uint32_t lens[] = {0, 8, 9, 12, 16, 24, 25, 40, 47, 520, 528};
    struct tlsf_name names[2];
    open_with(4000);
    for (size_t k = 0; k < sizeof lens / sizeof *lens; k++) {
        const uint32_t len = lens[k];
        wants("a block of five words", tlsf_allocate(&heap, 16, &names[0]), TLSF_OK);
        wants("a block", tlsf_allocate(&heap, len, &names[1]), TLSF_OK);
        unsigned char *const p = tlsf_payload(&heap, names[1], NULL);
        wants("its bytes", tlsf_cache_usable_size(&cache, p), len);
        end(p);
        wants("is kept", kept().blocks, len % 16 == 8 && len <= TLSF_CACHE_LONGEST && (uintptr_t)p % own_align == 0);
        end(tlsf_payload(&heap, names[0], NULL));
        unsigned char *const q = get(len);
        wants("bytes", tlsf_cache_usable_size(&cache, q) >= len, 1);
        end(q);
        wants("flush", tlsf_cache_flush(&cache), TLSF_OK);
    }
    close_with();
}

/* Rule 3: a kept block that the heap took back. A flush tells. */
static void rule_3_broken(void) {
    open_with(400);
    void *const p = get(40), *const q = get(40);
    end(p), end(q);
    wants("behind its back", tlsf_free(&heap, p), TLSF_OK);
    wants("is told", tlsf_cache_flush(&cache), TLSF_STALE);
    wants("and all is free", report_of(&heap).live_blocks + kept().blocks, 0);
    wants("once", tlsf_cache_flush(&cache), TLSF_OK);
    close_with();
}

/* --- By chance, beside a heap with no magazine -------------------------------------------------------------------------- */

static void check_bytes(const struct block *b, size_t len) {
    for (size_t k = 0; k < len; k++) wants("a byte of a block", b->p[k], b->fill);
}

/* Both heaps gave a block or refused. Where one alone did, as where blocks lie otherwise, its block goes back. */
static void take_in(struct block *b, void *p, void *twin, size_t len, size_t align) {
    counts[p == NULL]++;
    if (p == NULL) wants("refused, and something is kept", kept().blocks, 0);
    else wants("alignment", (uintptr_t)p % align, 0);
    if (p != NULL && twin != NULL) {
        wants("usable size", tlsf_cache_usable_size(&cache, p) >= len, 1);
        b->p = p, b->twin = twin, b->len = len;
        b->fill = (unsigned char)below(256);
        memset(p, b->fill, len);
        return;
    }
    counts[2] += p != NULL || twin != NULL;
    wants("goes back", tlsf_cache_free(&cache, p) + tlsf_free(&plain, twin), TLSF_OK);
}

static void *by_name(struct tlsf_heap *of, uint32_t len) {
    struct tlsf_name name;
    return tlsf_allocate(of, len, &name) == TLSF_OK ? tlsf_payload(of, name, NULL) : NULL;
}

static void give(struct block *b, int with_names) {
    const size_t len = any_len(), align = (size_t)1 << below(11);
    const uint32_t way = below(with_names ? 12 : 10);
    if (way == 0) {
        take_in(b, tlsf_cache_aligned_alloc(&cache, align, len), tlsf_aligned_alloc(&plain, align, len), len,
                align > own_align ? align : own_align);
    } else if (way == 1) {
        unsigned char *const p = tlsf_cache_calloc(&cache, len, 1);
        for (size_t k = 0; p && k < len; k++) wants("a zero", p[k], 0);
        take_in(b, p, tlsf_calloc(&plain, len, 1), len, own_align);
    } else if (way >= 10) {
        void *p = by_name(&heap, (uint32_t)len);
        if (p == NULL && tlsf_cache_flush(&cache) == TLSF_OK) p = by_name(&heap, (uint32_t)len);
        take_in(b, p, by_name(&plain, (uint32_t)len), len, 8);
    } else {
        void *const p = way == 2 ? tlsf_cache_realloc(&cache, NULL, len) : tlsf_cache_malloc(&cache, len);
        take_in(b, p, tlsf_malloc(&plain, len), len, own_align);
    }
}

static void leave(struct block *b) {
    wants("free", tlsf_cache_free(&cache, b->p), TLSF_OK);
    wants("a second free", tlsf_cache_free(&cache, b->p), TLSF_STALE);
    wants("a third, at its bytes", tlsf_cache_free(&cache, b->p + 8), TLSF_STALE);
    wants("free", tlsf_free(&plain, b->twin), TLSF_OK);
    b->p = NULL;
}

/* Where one heap alone gives so many bytes, both blocks go. */
static void resize(struct block *b) {
    const size_t len = any_len() + 1, had = b->len;
    unsigned char *const p = tlsf_cache_realloc(&cache, b->p, len), *const twin = tlsf_realloc(&plain, b->twin, len);
    counts[3] += p != NULL && p != b->p;
    if (p != NULL) b->p = p;
    else wants("refused, and something is kept", len > had && kept().blocks == 0, 1);
    if (twin != NULL) b->twin = twin;
    check_bytes(b, p == NULL || had < len ? had : len);
    if (p != NULL && twin != NULL) {
        b->len = len;
        memset(p, b->fill, len);
    } else if (p != NULL || twin != NULL) {
        leave(b);
    }
}

/* What both heaps hold is the same, but for what is kept; and it is what the program holds. Where odd blocks are resized, their bytes
 * are those of the words that they got. */
static void compare(int is_flushed) {
    uint32_t next = 0, damaged = 0, live = 0;
    size_t bytes = 0;
    if (is_flushed) wants("flush", tlsf_cache_flush(&cache), TLSF_OK);
    const struct tlsf_heap_report r = report_of(&heap), s = report_of(&plain);
    const struct tlsf_cache_usage usage = kept();
    for (int k = 0; k < MOST; k++) {
        if (!blocks[k].p) continue;
        check_bytes(&blocks[k], blocks[k].len);
        bytes += tlsf_cache_usable_size(&cache, blocks[k].p);
        live++;
    }
    wants("kept after a flush", is_flushed && usage.blocks + usage.bytes != 0, 0);
    wants("live blocks", r.live_blocks - usage.blocks, live);
    wants("live bytes", r.live_bytes - usage.bytes, bytes);
    wants("live blocks of the other", s.live_blocks, live);
    if (TLSF_ALIGN == 16 && !heap.is_mixed) wants("its live bytes", s.live_bytes, bytes);
    wants("all words", r.live_words + r.free_words, WORDS);
    wants("headers agree", tlsf_check(&heap, 0, UINT32_MAX, &next, &damaged), TLSF_OK);
}

static void by_chance(long calls, int with_names) {
    heap.align = plain.align = (uint8_t)own_align;
    open_with(WORDS);
    wants("the heap beside it", tlsf_open(&plain, level, 2, WORDS), TLSF_OK);
    for (turn = 0; turn < calls; turn++) {
        struct block *const b = &blocks[below(MOST)];
        if (b->p) check_bytes(b, b->len);
        if (!b->p) give(b, with_names);
        else if (below(4) == 0) resize(b);
        else leave(b);
        if (turn % 100 == 0) compare(turn % 300 == 0);
    }
    for (int k = 0; k < MOST; k++)
        if (blocks[k].p) leave(&blocks[k]);
    compare(0);
    compare(1);
    wants("one free block", report_of(&heap).live_blocks == 0 && report_of(&heap).free_blocks == 1, 1);
    close_with();
    wants("close", tlsf_close(&plain), TLSF_OK);
}

int main(int argc, char **argv) {
    const long calls = argc > 1 ? strtol(argv[1], NULL, 10) : 20000;
    level = argc > 3 ? (uint32_t)strtoul(argv[3], NULL, 10) : 4;
    state = 88172645463325252u + 7919 * (argc > 2 ? strtoul(argv[2], NULL, 10) : 0);
    closed_ones();
    each_length();
    all_slots();
    freed_twice();
    sizes_that_wrap();
    no_room();
    never_fits();
    words_for_all();
    resized();
    foreign_ones();
    blocks_by_name();
    rule_3_broken();
    const int with_names = argc > 4 && strcmp(argv[4], "names") == 0;
    if (argc > 5) own_align = strtoul(argv[5], NULL, 10);
    by_chance(calls, with_names);
    printf("level %u%s: %ld given, %ld refused, %ld by one heap alone, %ld moved\n", (unsigned)level, with_names ? ", with names" : "",
           counts[0], counts[1], counts[2], counts[3]);
    return 0;
}
