/* compat/mattconte/tlsf.h, beside peachanchor.h in one file: each edge as mattconte/tlsf has it, what reaches tlsf_assert, pools that come
 * and go, and calls by chance against a table. Two pools adjoin, and aren't joined. It prints how many blocks of a length fill a pool.
 * With TLSF_CHECKED a function is told of refusals besides. wrong.edits has wrong lines.
 * MATTCONTE [CALLS] [SEED] [fills] */
#include "chance.h"

#include <stdbool.h>
#include <string.h>

/* What is told, in place of an end by assert. */
static long told;
static void tell(bool holds) { told += !holds; }
#define tlsf_assert(holds) tell(holds)
/* The calls by chance are on a region of a number of its own, which a trace may have. */
static uint32_t first_number = 1;
#define TLSF_COMPAT_NUMBER first_number

#include "compat/mattconte/tlsf.h"
#include "peachanchor.h"

enum { MOST = 120, LONGEST = 3000, POOL = 1 << 15, SLOTS = 4, ALL = 1 << 20 };

struct block {
    unsigned char *p; /* null: the slot is free */
    size_t len;
    int pool;
    unsigned char fill;
};

static _Alignas(64) unsigned char memory[ALL];
static struct block blocks[MOST];
static bool is_added[SLOTS];
static long counts[3];

static void told_once(const char *what) {
    wants(what, (uint64_t)told, 1);
    told = 0;
}

static void untold(const char *what) { wants(what, (uint64_t)told, 0); }

/* In memory that holds any bytes. */
static tlsf_t new_pool(size_t bytes) {
    memset(memory, 0xa5, sizeof memory);
    const tlsf_t tlsf = tlsf_create_with_pool(memory, bytes);
    wants("it lies at the start", tlsf == memory, 1);
    return tlsf;
}

/* --- Edges ---------------------------------------------------------------------------------------------------------- */

static void sizes(void) {
    wants("small", tlsf_size() <= 64 && tlsf_size() >= sizeof(struct tlsf_parts), 1);
    wants("align", tlsf_align_size(), TLSF_COMPAT_ALIGN);
    wants("the least block", tlsf_block_size_min(), TLSF_COMPAT_ALIGN == 64 ? 40 : 8);
    wants("the longest", tlsf_block_size_max(), ((size_t)1 << (TLSF_COMPAT_LEVEL == 4 ? 23 : 27)) - 24);
    wants("overhead", tlsf_alloc_overhead(), 24);
}

static void opens(void) {
    wants("no memory", tlsf_create(NULL) == NULL && tlsf_create_with_pool(NULL, 99999) == NULL, 1);
    for (int at = 1; at < (int)sizeof(void *); at++)
        wants("misaligned", tlsf_create(memory + at) == NULL && tlsf_create_with_pool(memory + at, 99999) == NULL, 1);
    memset(memory, 0xa5, sizeof memory);
    for (size_t bytes = 0; bytes < tlsf_size(); bytes++) wants("too short for itself", tlsf_create_with_pool(memory, bytes) == NULL, 1);
    for (size_t k = 0; k < sizeof memory; k++) wants("nothing is written", memory[k], 0xa5);
    wants("too short for a pool", tlsf_create_with_pool(memory, tlsf_size() + 100) == NULL, 1);
    for (size_t k = tlsf_size() + 100; k < sizeof memory; k++) wants("nothing behind", memory[k], 0xa5);
    const tlsf_t none = tlsf_create(memory);
    wants("it has no pool", tlsf_get_pool(none) == NULL && tlsf_malloc(none, 1) == NULL && tlsf_check(none) == 0, 1);
    wants("too short for a pool", tlsf_add_pool(none, memory + POOL, 100) == NULL, 1);
    wants("misaligned", tlsf_add_pool(none, memory + POOL + 1, POOL) == NULL, 1);
    wants("one is added", tlsf_add_pool(none, memory + POOL, POOL) == memory + POOL && tlsf_get_pool(none) == memory + POOL, 1);
    wants("it serves", tlsf_malloc(none, 1) != NULL, 1);
    tlsf_destroy(none);
    const tlsf_t tlsf = new_pool(POOL);
    wants("its pool", tlsf_get_pool(tlsf) == (char *)tlsf + tlsf_size(), 1);
    for (size_t k = POOL; k < sizeof memory; k++) wants("nothing behind", memory[k], 0xa5);
    tlsf_destroy(tlsf);
    wants("no more", tlsf_malloc(tlsf, 1) == NULL, 1);
    untold("that is no error");
}

static void edges(void) {
    static const size_t too_long[] = {SIZE_MAX, SIZE_MAX - 7, SIZE_MAX / 2, PAST_32, PAST_32 + 100, ((size_t)1 << 27) + 1, ALL};
    const tlsf_t tlsf = new_pool(ALL);
    wants("malloc(0)", tlsf_malloc(tlsf, 0) == NULL && tlsf_memalign(tlsf, 64, 0) == NULL, 1);
    wants("realloc(NULL, 0)", tlsf_realloc(tlsf, NULL, 0) == NULL, 1);
    tlsf_free(tlsf, NULL);
    unsigned char *p = tlsf_malloc(tlsf, 16);
    wants("no more bytes than aligning takes", tlsf_block_size(p),
          (40 + TLSF_COMPAT_ALIGN - 1) / TLSF_COMPAT_ALIGN * TLSF_COMPAT_ALIGN - 24);
    tlsf_free(tlsf, p);
    p = tlsf_realloc(tlsf, NULL, 100);
    wants("realloc(NULL, 100)", p != NULL && tlsf_block_size(p) >= 100 && tlsf_block_size(NULL) == 0, 1);
    memset(p, 7, tlsf_block_size(p));
    for (size_t k = 0; k < sizeof too_long / sizeof *too_long; k++) {
        wants("too long", tlsf_malloc(tlsf, too_long[k]) == NULL && tlsf_memalign(tlsf, 64, too_long[k]) == NULL, 1);
        wants("it stays", tlsf_realloc(tlsf, p, too_long[k]) == NULL && p[99] == 7, 1);
    }
    p = tlsf_realloc(tlsf, p, 5000);
    wants("it grows", p != NULL && p[0] == 7 && p[99] == 7 && tlsf_block_size(p) >= 5000, 1);
    wants("realloc(p, 0)", tlsf_realloc(tlsf, p, 0) == NULL, 1);
    for (size_t align = 0; align <= (size_t)1 << 17; align = align ? 2 * align : 1) {
        p = tlsf_memalign(tlsf, align, 100);
        wants("memalign", p != NULL && (uintptr_t)p % (align < TLSF_COMPAT_ALIGN ? TLSF_COMPAT_ALIGN : align) == 0, 1);
        tlsf_free(tlsf, p);
    }
    untold("that is no error");
    wants("no alignment", tlsf_memalign(tlsf, 96, 100) == NULL, 1);
    told_once("it is told");
    tlsf_destroy(tlsf);
}

/* By pointers to the calls, as in a table of functions. */
static void by_address(void) {
    void *(*const give)(tlsf_t, size_t) = tlsf_malloc, *(*const change)(tlsf_t, void *, size_t) = tlsf_realloc;
    void (*const end)(tlsf_t, void *) = tlsf_free;
    int (*const look)(tlsf_t) = tlsf_check;
    const tlsf_t tlsf = new_pool(POOL);
    void *const p = change(tlsf, give(tlsf, 10), 2000);
    wants("a block", p != NULL && look(tlsf) == 0, 1);
    end(tlsf, p);
    tlsf_destroy(tlsf);
}

/* --- What is told --------------------------------------------------------------------------------------------------- */

#ifdef TLSF_CHECKED
static long refused;
static void on_refusal(struct tlsf_heap *heap, const char *call, uint32_t answer, uint32_t at, void *context) {
    (void)heap, (void)call, (void)at, (void)context;
    refused += answer == TLSF_STALE || answer == TLSF_DAMAGED;
}
#endif

static void errors(void) {
    const tlsf_t tlsf = new_pool(POOL), other = tlsf_create_with_pool(memory + POOL, POOL);
    unsigned char outside[64] = {0};
    unsigned char *const p = tlsf_malloc(tlsf, 40), *const q = tlsf_malloc(tlsf, 40), *const r = tlsf_malloc(other, 40);
    memset(q, 3, 40);
    tlsf_free(tlsf, p);
    untold("a free");
#ifdef TLSF_CHECKED
    wants("a function", tlsf_on_refusal(&tlsf_parts_next((struct tlsf_parts *)tlsf, NULL)->heap, on_refusal, NULL), TLSF_OK);
#endif
    unsigned char *const wrong[] = {p, q + 8, q - 8, q + 1, r, outside, outside + 8};
    for (size_t k = 0; k < sizeof wrong / sizeof *wrong; k++) {
        tlsf_free(tlsf, wrong[k]);
        told_once("a wrong free");
        wants("a wrong realloc", tlsf_realloc(tlsf, wrong[k], 100) == NULL, 1);
        told_once("it is told");
        wants("a wrong realloc to nothing", tlsf_realloc(tlsf, wrong[k], 0) == NULL, 1);
        told_once("it is told");
    }
#ifdef TLSF_CHECKED
    wants("each is told to the function", (uint64_t)refused, 3 * sizeof wrong / sizeof *wrong);
#endif
    wants("they change nothing", tlsf_check(tlsf) == 0 && tlsf_check(other) == 0 && q[39] == 3 && tlsf_block_size(q) == 40, 1);
    wants("no room isn't told", tlsf_realloc(tlsf, q, 2 * POOL) == NULL, 1);
    untold("no room");
    tlsf_remove_pool(tlsf, memory + 2 * POOL);
    told_once("no such pool");
    tlsf_remove_pool(other, tlsf_get_pool(other));
    told_once("live blocks");
    wants("it is removed", tlsf_get_pool(other) == NULL, 1);
    tlsf_destroy(tlsf);
    tlsf_destroy(other);
}

/* A header that was overrun: both checks say so. With marks nothing but the library touches one. */
static void damage(void) {
#ifndef TLSF_MARKED
    const tlsf_t tlsf = new_pool(POOL);
    void *const p = tlsf_malloc(tlsf, 40), *const q = tlsf_malloc(tlsf, 40);
    const struct tlsf_part *const part = tlsf_parts_next((struct tlsf_parts *)tlsf, NULL);
    uint64_t *const header = part->heap.base + tlsf_place_of(&part->heap, q);
    *header ^= 64;
    wants("damaged", tlsf_check(tlsf) != 0, 1);
    told_once("it is told");
    wants("its pool", tlsf_check_pool(tlsf_get_pool(tlsf)) != 0, 1);
    told_once("it is told");
#ifdef TLSF_CHECKED
    refused = 0;
    wants("a function", tlsf_on_refusal(&tlsf_parts_next((struct tlsf_parts *)tlsf, NULL)->heap, on_refusal, NULL), TLSF_OK);
    tlsf_free(tlsf, p);
    told_once("a free beside it is refused");
    wants("and told", (uint64_t)refused, 1);
#endif
    *header ^= 64;
    wants("sound", tlsf_check(tlsf) == 0 && tlsf_check_pool(tlsf_get_pool(tlsf)) == 0, 1);
    tlsf_free(tlsf, p);
    tlsf_free(tlsf, q);
    untold("it is sound");
    tlsf_destroy(tlsf);
#endif
}

/* --- By chance ------------------------------------------------------------------------------------------------------ */

static int pool_of(const void *p) { return (int)(((const unsigned char *)p - memory) / POOL); }

static void check_bytes(const struct block *b, size_t len) {
    for (size_t k = 0; k < len; k++) wants("a byte of a block", b->p[k], b->fill);
}

static void take_in(struct block *b, void *p, size_t len, size_t align) {
    wants("alignment", (uintptr_t)p % align, 0);
    wants("in a pool", is_added[pool_of(p)], 1);
    wants("its size", tlsf_block_size(p) >= len, 1);
    b->p = p;
    b->len = len;
    b->pool = pool_of(p);
    b->fill = (unsigned char)below(256);
    memset(p, b->fill, len);
}

struct walk {
    uint32_t used, unused, last_was_free;
    size_t bytes;
};

static void look(void *ptr, size_t size, int used, void *user) {
    struct walk *const walk = (struct walk *)user;
    if (!used) {
        wants("free blocks are joined", walk->last_was_free, 0);
        walk->last_was_free = 1;
        walk->unused++;
        return;
    }
    walk->last_was_free = 0;
    wants("its size", size, tlsf_block_size(ptr));
    for (int k = 0; k < MOST; k++)
        if (blocks[k].p == ptr) walk->used++, walk->bytes += blocks[k].len;
}

static void check_all(tlsf_t tlsf) {
    for (int slot = 0; slot < SLOTS; slot++) {
        struct walk walk = {0, 0, 0, 0};
        uint32_t live = 0;
        size_t bytes = 0;
        if (!is_added[slot]) continue;
        const pool_t pool = slot == 0 ? (pool_t)(memory + tlsf_size()) : (pool_t)(memory + slot * POOL);
        for (int k = 0; k < MOST; k++)
            if (blocks[k].p && blocks[k].pool == slot) check_bytes(&blocks[k], blocks[k].len), live++, bytes += blocks[k].len;
        tlsf_walk_pool(pool, look, &walk);
        wants("live blocks of the pool", walk.used, live);
        wants("their bytes", walk.bytes, bytes);
        wants("what is free", walk.unused <= live + 1, 1);
        wants("the pool is sound", tlsf_check_pool(pool) == 0, 1);
    }
    wants("all is sound", tlsf_check(tlsf) == 0, 1);
}

static void give(tlsf_t tlsf, struct block *b) {
    const size_t len = 1 + below(below(3) ? 200 : LONGEST), align = below(4) ? 1 : (size_t)1 << below(11);
    void *const p = align > 1 ? tlsf_memalign(tlsf, align, len) : below(2) ? tlsf_malloc(tlsf, len) : tlsf_realloc(tlsf, NULL, len);
    counts[p == NULL]++;
    if (p) take_in(b, p, len, align < TLSF_COMPAT_ALIGN ? TLSF_COMPAT_ALIGN : align);
}

static void resize(tlsf_t tlsf, struct block *b) {
    const size_t len = 1 + below(LONGEST), had = b->len;
    unsigned char *const p = tlsf_realloc(tlsf, b->p, len);
    if (p == NULL) {
        wants("one that isn't longer", len > had, 1);
        check_bytes(b, had);
        return;
    }
    counts[2] += p != b->p;
    b->p = p;
    check_bytes(b, had < len ? had : len);
    take_in(b, p, len, TLSF_COMPAT_ALIGN);
}

static void leave(tlsf_t tlsf, struct block *b) {
    if (below(5)) tlsf_free(tlsf, b->p);
    else wants("to nothing", tlsf_realloc(tlsf, b->p, 0) == NULL, 1);
    untold("a block that is live");
    tlsf_free(tlsf, b->p);
    told_once("a second free");
    b->p = NULL;
}

/* Pools 1 and 2 adjoin. One goes once its blocks were freed. */
static void come_and_go(tlsf_t tlsf, int slot) {
    unsigned char *const at = memory + slot * POOL;
    if (!is_added[slot]) {
        wants("add a pool", tlsf_add_pool(tlsf, at, POOL) == at, 1);
        wants("not again", tlsf_add_pool(tlsf, at + 8, POOL / 2) == NULL, 1);
    } else {
        for (int k = 0; k < MOST; k++)
            if (blocks[k].p && blocks[k].pool == slot) leave(tlsf, &blocks[k]);
        tlsf_remove_pool(tlsf, at);
        untold("a pool without blocks");
        memset(at, 0xa5, POOL);
    }
    is_added[slot] = !is_added[slot];
}

static void by_chance(long calls) {
    first_number = 1000;
    const tlsf_t tlsf = new_pool(POOL);
    is_added[0] = true;
    for (turn = 0; turn < calls; turn++) {
        struct block *const b = &blocks[below(MOST)];
        const uint32_t kind = below(300);
        if (b->p) check_bytes(b, b->len);
        if (kind == 0) come_and_go(tlsf, 1 + (int)below(SLOTS - 1));
        else if (!b->p) give(tlsf, b);
        else if (kind < 90) resize(tlsf, b);
        else leave(tlsf, b);
        if (turn % 200 == 0) check_all(tlsf);
    }
    tlsf_destroy(tlsf);
}

/* Two pools that adjoin aren't one: no block is longer than one of them has room for. */
static void pools(void) {
    const tlsf_t tlsf = new_pool(POOL);
    wants("the next memory", tlsf_add_pool(tlsf, memory + POOL, POOL) == memory + POOL, 1);
    wants("they aren't joined", tlsf_malloc(tlsf, POOL + POOL / 2) == NULL, 1);
    void *const p = tlsf_malloc(tlsf, POOL / 2), *const q = tlsf_malloc(tlsf, POOL / 2);
    wants("first the first", pool_of(p) == 0 && pool_of(q) == 1, 1);
    tlsf_free(tlsf, p);
    void *const moved = tlsf_realloc(tlsf, q, POOL - POOL / 4);
    wants("where there is room", moved != NULL && pool_of(moved) <= 1, 1);
    tlsf_free(tlsf, moved);
    tlsf_remove_pool(tlsf, memory + POOL);
    tlsf_remove_pool(tlsf, memory + tlsf_size());
    wants("none is left", tlsf_get_pool(tlsf) == NULL && tlsf_malloc(tlsf, 1) == NULL, 1);
    untold("they were empty");
    tlsf_destroy(tlsf);
}

/* A walker that frees each block, or each second or third one. It is called for each block once. */
struct sweep {
    tlsf_t tlsf;
    uint32_t seen, step;
};

static void sweep(void *ptr, size_t size, int used, void *user) {
    struct sweep *const it = (struct sweep *)user;
    (void)size;
    if (used && ++it->seen % it->step == 0) tlsf_free(it->tlsf, ptr);
}

static void walker_frees(void) {
    for (uint32_t step = 1; step < 4; step++) {
        struct sweep it = {new_pool(POOL), 0, step};
        void *p[40];
        for (int k = 0; k < 40; k++) p[k] = tlsf_malloc(it.tlsf, 1 + below(300));
        for (int k = 0; k < 40; k += 5) tlsf_free(it.tlsf, p[k]);
        for (uint32_t round = 0, left = 32; round < 6; round++, left -= left / step) {
            it.seen = 0;
            tlsf_walk_pool(tlsf_get_pool(it.tlsf), sweep, &it);
            wants("each live block is seen once", it.seen, left);
        }
        untold("each was live");
        tlsf_destroy(it.tlsf);
    }
}

/* --- Room ------------------------------------------------------------------------------------------------------------- */

static void fills(void) {
    static const size_t lens[] = {8, 24, 32, 64, 100, 256, 1000, 4000};
    for (size_t k = 0; k < sizeof lens / sizeof *lens; k++) {
        const tlsf_t tlsf = new_pool(ALL);
        unsigned long blocks_of = 0;
        while (tlsf_malloc(tlsf, lens[k])) blocks_of++;
        const unsigned long thousandths = (unsigned long)(blocks_of * lens[k] * 1000 / ALL);
        printf("1 MiB of blocks of %lu bytes: %lu, %lu.%lu %%\n", (unsigned long)lens[k], blocks_of, thousandths / 10, thousandths % 10);
        tlsf_destroy(tlsf);
    }
    for (size_t bytes = tlsf_size(); bytes < POOL; bytes += 8) {
        const tlsf_t tlsf = tlsf_create_with_pool(memory, bytes);
        if (tlsf == NULL || !tlsf_malloc(tlsf, 1)) continue;
        wants("the least pool for a block", bytes < 3000, 1);
        tlsf_destroy(tlsf);
        break;
    }
}

int main(int argc, char **argv) {
    const long calls = argc > 1 ? strtol(argv[1], NULL, 10) : 20000;
    state = 88172645463325252u + 7919 * (argc > 2 ? strtoul(argv[2], NULL, 10) : 0);
    sizes();
    opens();
    edges();
    by_address();
    errors();
    damage();
    pools();
    walker_frees();
    by_chance(calls);
    if (argc > 3) fills();
    else printf("%ld given, %ld refused, %ld moved\n", counts[0], counts[1], counts[2]);
    return 0;
}
