/* malloc's calls by chance on two heaps, against a table: one heap in memory of the program's, one in malloc's. What each block
 * holds is looked at byte by byte, and each answer is judged. Pointers that no live block has are given to each call, and some
 * blocks are made or released by name. Each power of two is an alignment, and heaps have the words that were told for both kinds. Both
 * heaps are aligned to ALIGN. wrong.edits has wrong lines. POINTERS [CALLS] [SEED] [LEVEL] [names | plain] [ALIGN] */
#include "chance.h"
#include "peachanchor.h"

#include <string.h>

enum { HEAPS = 2, MOST = 200, LONGEST = 700, WORDS = 2401, NUMBER = 5, GUARD = 64, HEADER = 3 };

struct block {
    unsigned char *p; /* null: the slot is free */
    size_t len;
    unsigned char fill;
};

struct model {
    struct tlsf_heap heap;
    struct block blocks[MOST];
    void *gone[MOST]; /* freed before, and not given again since; or null */
    uint32_t live, refused, longest, most_words;
};

static struct model models[HEAPS] = {{.heap = TLSF_CLOSED}, {.heap = TLSF_CLOSED}};
static unsigned char *memory, *inside;
static long counts[4];
static int with_names;
static uint8_t own_align; /* of both heaps; 0: they say none */

static size_t align_of(uint8_t own) { return own == 0 ? TLSF_ALIGN : own; }

/* The bytes of a block that has room for `len`: with its header a multiple of the alignment. */
static size_t rounded_of(size_t len, size_t align) { return ((len ? len : 1) + 24 + align - 1) / align * align - 24; }

static size_t any_len(void) { return below(5) ? below(120) : below(LONGEST + 1); }

static struct tlsf_heap_report report_of(struct model *m) {
    struct tlsf_heap_report r = {0, 0, 0, 0, 0, 0, 0, 0, 0, 0};
    wants("report", tlsf_report(&m->heap, &r), TLSF_OK);
    return r;
}

/* --- What a block has to be ----------------------------------------------------------------------------------------- */

static void check_bytes(const struct block *b, size_t len) {
    for (size_t k = 0; k < len; k++) wants("a byte of a block", b->p[k], b->fill);
}

/* No two live blocks overlap, since each byte of each has its block's value. */
static void fill(struct block *b) {
    b->fill = (unsigned char)below(256);
    memset(b->p, b->fill, b->len);
}

/* A block that was given: its pointer is aligned and in the region, and it isn't one of those that are gone any more. */
static void take_in(struct model *m, struct block *b, void *p, size_t len, size_t align) {
    const size_t offset = (uintptr_t)p - (uintptr_t)m->heap.base;
    wants("alignment", (uintptr_t)p % align, 0);
    wants("in the region", offset >= 8 * HEADER && offset + len <= 8 * (size_t)WORDS, 1);
    wants("usable size", tlsf_usable_size(&m->heap, p) >= len, 1);
    wants("the same from the pointer", tlsf_block_size(p), tlsf_usable_size(&m->heap, p));
    for (int k = 0; k < MOST; k++)
        if (m->gone[k] == p) m->gone[k] = NULL;
    b->p = p;
    b->len = len;
}

/* By what the report grants a request has to be served, where aligning takes no more than `extra` bytes. */
static int is_served(struct model *m, const void *p, size_t len, size_t extra) {
    const struct tlsf_heap_report r = report_of(m);
    const size_t wanted = rounded_of(len, align_of(own_align));
    const int has_room = r.free_blocks != 0;
    counts[p == NULL]++;
    if (p) return 1;
    wants("refused, though there is room", has_room && wanted + extra <= r.grant, 0);
    return 0;
}

/* --- The calls ------------------------------------------------------------------------------------------------------ */

static void give_plain(struct model *m, struct block *b) {
    const size_t len = any_len();
    const int is_zero = below(3) == 0;
    void *p = is_zero ? tlsf_calloc(&m->heap, len, 1) : below(2) ? tlsf_malloc(&m->heap, len) : tlsf_realloc(&m->heap, NULL, len);
    if (!is_served(m, p, len, with_names ? 32 + align_of(own_align) : 0)) return;
    take_in(m, b, p, len, align_of(own_align));
    b->fill = 0;
    if (is_zero) check_bytes(b, len);
    fill(b);
}

static void give_aligned(struct model *m, struct block *b) {
    const size_t len = any_len(), align = (size_t)1 << below(15);
    void *p = tlsf_aligned_alloc(&m->heap, align, len);
    if (!is_served(m, p, len, 32 + (align > align_of(own_align) ? align : align_of(own_align)))) return;
    take_in(m, b, p, len, align > align_of(own_align) ? align : align_of(own_align));
    fill(b);
}

static void give_named(struct model *m, struct block *b) {
    const int is_odd = with_names && below(2);
    const size_t any = any_len(), len = is_odd ? any / 16 * 16 + 9 + any % 8 : any; /* of an odd number of words */
    const uint32_t flags = below(2) ? TLSF_UNFILLED : 0;
    struct tlsf_name name = {0, 0, 0}, found = {1, 1, 1};
    void *p = NULL;
    uint32_t answer = is_odd ? tlsf_allocate(&m->heap, len, &name) : tlsf_allocate_at(&m->heap, len, 64, flags, &name, &p);
    if (answer == TLSF_OK && is_odd) p = tlsf_payload(&m->heap, name, NULL);
    wants("answer", answer, p ? TLSF_OK : TLSF_NO_FIT);
    if (!is_served(m, p, len, 32 + 64)) return;
    take_in(m, b, p, len, is_odd ? 8 : 64);
    wants("name", tlsf_name_at(&m->heap, p, &found), TLSF_OK);
    wants("the same name", found.heap == name.heap && found.at == name.at && found.serial == name.serial, 1);
    b->fill = 0;
    if (is_odd || !flags) check_bytes(b, tlsf_usable_size(&m->heap, p));
    fill(b);
}

static void give(struct model *m, struct block *b) {
    const uint32_t kind = below(8);
    if (kind == 0) give_aligned(m, b);
    else if (kind < (with_names ? 4 : 2)) give_named(m, b);
    else give_plain(m, b);
    m->live += b->p != NULL;
}

static void resize(struct model *m, struct block *b) {
    const size_t len = any_len() + 1, had = b->len, own = align_of(own_align), align = below(3) ? 0 : (size_t)1 << below(15);
    unsigned char *p = align ? tlsf_aligned_realloc(&m->heap, b->p, align, len) : tlsf_realloc(&m->heap, b->p, len);
    if (!p) {
        wants("a block that isn't longer, and aligned", len > had || (align && (uintptr_t)b->p % align), 1);
        (void)is_served(m, p, len, with_names || align ? 32 + (align > own ? align : own) : 0);
        return;
    }
    counts[2] += p != b->p;
    if (p != b->p) take_in(m, b, p, len, align > own ? align : own);
    if (align) wants("an alignment", (uintptr_t)p % align, 0);
    wants("usable size", tlsf_usable_size(&m->heap, p) >= len && tlsf_block_size(p) == tlsf_usable_size(&m->heap, p), 1);
    b->len = len;
    check_bytes(b, had < len ? had : len);
    fill(b);
}

static void end(struct model *m, struct block *b) {
    struct tlsf_name name = {0, 0, 0};
    const uint32_t way = below(8);
    if (way == 0) {
        wants("name", tlsf_name_at(&m->heap, b->p, &name), TLSF_OK);
        wants("release by name", tlsf_release(&m->heap, name), TLSF_OK);
        wants("release again", tlsf_release(&m->heap, name), TLSF_STALE);
    } else if (way == 1) {
        wants("realloc to nothing",
              below(2) ? tlsf_realloc(&m->heap, b->p, 0) == NULL : tlsf_aligned_realloc(&m->heap, b->p, 32, 0) == NULL, 1);
    } else {
        wants("free", tlsf_free(&m->heap, b->p), TLSF_OK);
    }
    wants("a second free", tlsf_free(&m->heap, b->p), TLSF_STALE);
    m->gone[below(MOST)] = b->p;
    b->p = NULL;
    m->live--;
}

/* --- Pointers that no live block has -------------------------------------------------------------------------------- */

static unsigned char *wild(struct model *m, struct model *other, struct block *b) {
    unsigned char *const p = b->p ? b->p : (unsigned char *)m->heap.base + 24;
    switch (below(8)) {
    case 0: return b->p && b->len > 16 ? p + 1 + below((uint32_t)b->len - 1) : p - 8;
    case 1: return p - 8;
    case 2: return p + 8;
    case 3: return p + 1 + below(7);
    case 4: return other->blocks[below(MOST)].p;
    case 5: return (unsigned char *)m->heap.base + 8 * (uintptr_t)WORDS + below(4096);
    case 6: return (unsigned char *)(((uintptr_t)below(1u << 30) << (8 * sizeof p - 31)) + below(64));
    default: return m->gone[below(MOST)];
    }
}

static int is_given(const struct model *m, const unsigned char *p) {
    for (int k = 0; k < MOST; k++)
        if (m->blocks[k].p == p) return 1;
    return 0;
}

static void refuse_wild(struct model *m, struct model *other, struct block *b) {
    unsigned char *const p = wild(m, other, b);
    struct tlsf_name name = {9, 9, 9};
    if (!p || is_given(m, p)) return;
    counts[3]++;
    wants("free of a wild pointer", tlsf_free(&m->heap, p), TLSF_STALE);
    wants("its usable size", tlsf_usable_size(&m->heap, p), 0);
    wants("its realloc", tlsf_realloc(&m->heap, p, 40) == NULL, 1);
    wants("its aligned realloc", tlsf_aligned_realloc(&m->heap, p, (size_t)1 << below(13), 40) == NULL, 1);
    wants("its name", tlsf_name_at(&m->heap, p, &name), TLSF_STALE);
    wants("the name as before", name.heap == 9 && name.at == 9 && name.serial == 9, 1);
}

static void refuse_sizes(struct model *m, void *live) {
    static const size_t too_long[] = {SIZE_MAX, SIZE_MAX - 7, SIZE_MAX / 2, PAST_32, PAST_32 + 8, ((size_t)1 << 27) + 1};
    const size_t len = too_long[below(6)];
    struct tlsf_name name = {9, 9, 9};
    void *p = NULL;
    const size_t any = below(2) ? (size_t)below(1u << 30) * 5 : SIZE_MAX - below(40), rounded = tlsf_rounded(any);
    wants("rounded",
          rounded == SIZE_MAX ? any > SIZE_MAX - 15 : rounded >= any && rounded - any < TLSF_ALIGN && (rounded + 24) % TLSF_ALIGN == 0, 1);
    wants("the longest", tlsf_rounded(SIZE_MAX), SIZE_MAX);
    wants("nearly", tlsf_rounded(SIZE_MAX - 15) >= SIZE_MAX - 15 && tlsf_rounded(SIZE_MAX - 14) == SIZE_MAX, 1);
    wants("free of null", tlsf_free(&m->heap, NULL), TLSF_OK);
    wants("malloc", tlsf_malloc(&m->heap, len) == NULL, 1);
    wants("realloc", tlsf_realloc(&m->heap, live, len) == NULL, 1);
    wants("aligned_realloc", !tlsf_aligned_realloc(&m->heap, live, 64, len) && !tlsf_aligned_realloc(&m->heap, NULL, 64, len), 1);
    wants("of no alignment",
          !tlsf_aligned_realloc(&m->heap, live, 0, 0) && !tlsf_aligned_realloc(&m->heap, live, 24, 0) &&
              !tlsf_aligned_realloc(&m->heap, live, 12, 8),
          1);
    wants("it stays", live == NULL || tlsf_usable_size(&m->heap, live) > 0, 1);
    wants("calloc",
          tlsf_calloc(&m->heap, len, len) == NULL && tlsf_calloc(&m->heap, len, 1) == NULL && tlsf_calloc(&m->heap, 8, len / 8 + 1) == NULL,
          1);
    wants("aligned_alloc", tlsf_aligned_alloc(&m->heap, 64, len) == NULL, 1);
    wants("no alignment",
          !tlsf_aligned_alloc(&m->heap, 0, 8) && !tlsf_aligned_alloc(&m->heap, 24, 8) && !tlsf_aligned_alloc(&m->heap, 8193, 8), 1);
    wants("allocate_at", tlsf_allocate_at(&m->heap, len, 8, 0, &name, &p), TLSF_NO_FIT);
    wants("allocate_at 3", tlsf_allocate_at(&m->heap, 8, 3, 0, &name, &p), TLSF_BAD_SIZE);
    wants("as before", name.heap == 9 && p == NULL, 1);
}

/* --- The whole heap ------------------------------------------------------------------------------------------------- */

static void check_all(struct model *m) {
    struct tlsf_heap_counts c = {0, 0, 0, 0};
    struct tlsf_block_info it = {0, 0, 0, 0, 0};
    uint32_t at = 0, live = 0, words = 0;
    for (int k = 0; k < MOST; k++)
        if (m->blocks[k].p) check_bytes(&m->blocks[k], m->blocks[k].len);
    for (; tlsf_block_at(&m->heap, at, &it) == TLSF_OK; at += it.size) {
        wants("a place that is aligned", !with_names && 8 * at % align_of(own_align), 0);
        wants("a block's words hold its bytes", 8 * (size_t)it.size >= 8 * HEADER + it.len, 1);
        live += it.is_live;
        words += it.is_live ? it.size : 0;
    }
    wants("blocks end where the region does", at, WORDS);
    wants("live blocks", live, m->live);
    wants("counts", tlsf_counts(&m->heap, &c), TLSF_OK);
    wants("words in use", c.words, words);
    if (words > m->most_words) m->most_words = words;
    wants("the most words", c.most_words >= m->most_words, 1);
    m->most_words = c.most_words;
}

static void count_refusals(struct model *m) {
    struct tlsf_heap_counts c = {0, 0, 0, 0};
    const uint32_t len = 8 * WORDS + 8 * below(WORDS);
    wants("too long", tlsf_allocate_place(&m->heap, len).answer, TLSF_NO_FIT);
    wants("counts", tlsf_counts(&m->heap, &c), TLSF_OK);
    if (len > m->longest) m->longest = len;
    wants("the longest that was refused", c.longest_refused, m->longest);
    wants("refusals", c.refused > m->refused, 1);
    m->refused = c.refused;
}

/* The bytes that have room for as many words at any alignment. */
static size_t bytes_of(uint32_t level) { return tlsf_bytes(level, WORDS) + (own_align > 16 ? own_align - 16u : 0); }

static void open_all(uint32_t level) {
    const size_t bytes = bytes_of(level);
    memory = malloc(bytes + 3 * GUARD);
    if (!memory) exit(2);
    memset(memory, 0xa5, bytes + 3 * GUARD);
    inside = memory + GUARD;
    inside += (31 - (uintptr_t)inside) % 64 + 2; /* at the worst alignment, as many words as were asked for */
    models[0].heap.align = models[1].heap.align = own_align;
    wants("open in", tlsf_open_in(&models[0].heap, level, NUMBER, inside, bytes), TLSF_OK);
    wants("open", tlsf_open(&models[1].heap, level, NUMBER + 1, WORDS), TLSF_OK);
}

static void close_all(uint32_t level) {
    const size_t bytes = bytes_of(level);
    for (int h = 0; h < HEAPS; h++) {
        struct model *m = &models[h];
        for (int k = 0; k < MOST; k++)
            if (m->blocks[k].p) end(m, &m->blocks[k]);
        const struct tlsf_heap_report r = report_of(m);
        wants("one free block", r.live_blocks == 0 && r.free_blocks == 1 && r.free_words == WORDS, 1);
        wants("close", tlsf_close(&m->heap), TLSF_OK);
        wants("closed", tlsf_malloc(&m->heap, 8) == NULL && tlsf_free(&m->heap, inside) == TLSF_IS_CLOSED, 1);
    }
    for (size_t k = 0; k < bytes + 3 * GUARD; k++)
        if (memory + k < inside || memory + k >= inside + bytes) wants("a byte outside", memory[k], 0xa5);
    free(memory);
}

/* A block that would have room with one word more: it moves, and what is free begins at an odd place. */
static void lacks_one_word(void) {
    struct tlsf_heap heap = TLSF_CLOSED;
    struct tlsf_name names[3];
    heap.align = 16;
    wants("open", tlsf_open(&heap, 4, 1, 400), TLSF_OK);
    unsigned char *p = tlsf_malloc(&heap, 24), *q = p;
    for (int k = 0; k < 3; k++) wants("five words", tlsf_allocate(&heap, 16, &names[k]), TLSF_OK);
    wants("release", tlsf_release(&heap, names[0]), TLSF_OK);
    p = tlsf_realloc(&heap, p, 64); /* 12 words, where 6 and 5 are */
    wants("moved, and aligned", p && p != q && (uintptr_t)p % 16 == 0, 1);
    q = p;
    p = tlsf_realloc(&heap, p, 20);
    wants("it stays where it is shorter", p == q, 1);
    wants("close", tlsf_close(&heap), TLSF_OK);
}

/* Blocks of an odd number of words are noted, whichever call makes them, and opening forgets them. */
static void odd_blocks_are_noted(void) {
    struct tlsf_heap heap = TLSF_CLOSED;
    struct tlsf_name name;
    for (int way = 0; way < 3; way++) {
        wants("open", tlsf_open(&heap, 4, 1, 400), TLSF_OK);
        wants("an even block", tlsf_allocate(&heap, 24, &name) + tlsf_resize(&heap, name, 8) + tlsf_reallocate(&heap, &name, 40), TLSF_OK);
        wants("isn't noted", heap.is_mixed, false);
        wants("an odd one",
              way == 0   ? tlsf_allocate(&heap, 9, &name)
              : way == 1 ? tlsf_resize(&heap, name, 16)
                         : tlsf_reallocate(&heap, &name, 48),
              TLSF_OK);
        wants("is noted", heap.is_mixed, true);
        wants("close", tlsf_close(&heap), TLSF_OK);
    }
}

/* A block of that alignment by both calls, and none of an alignment beside it. */
static void aligns(struct tlsf_heap *heap, size_t align, uint32_t answer) {
    const struct tlsf_name before = {9, 9, 9};
    struct tlsf_name name = before;
    void *at = NULL;
    wants("an alignment beside it", tlsf_aligned_alloc(heap, align + align / 2, 8) == NULL || align == 1, 1);
    if (align > 1) wants("beside it, by name", tlsf_allocate_at(heap, 8, align | align >> 1, 0, &name, &at), TLSF_BAD_SIZE);
    unsigned char *const p = tlsf_aligned_alloc(heap, align, 100);
    wants("a pointer", p != NULL && (uintptr_t)p % align == 0, answer == TLSF_OK);
    if (p) memset(p, 0xa5, 100);
    wants("free", tlsf_free(heap, p), TLSF_OK);
    wants("by name", tlsf_allocate_at(heap, 100, align, 0, &name, &at), answer);
    wants("the name as before", name.serial == 9 && at == NULL, answer != TLSF_OK);
    if (answer != TLSF_OK) return;
    wants("aligned", (uintptr_t)at % align, 0);
    for (size_t k = 0; k < 100; k++) wants("a zero", ((unsigned char *)at)[k], 0);
    wants("no more words than before", tlsf_usable_size(heap, at) <= 104 + 24, 1);
    wants("release", tlsf_release(heap, name), TLSF_OK);
}

/* Each power of two is an alignment. In a region of 2 MiB there is room for one of 1 MiB, and in none for one above 2^27. */
static void any_alignment(uint32_t level) {
    const volatile size_t longest = SIZE_MAX; /* in plain sight gcc would warn of it */
    struct tlsf_heap heap = TLSF_CLOSED;
    struct tlsf_name name = {9, 9, 9};
    void *at = NULL;
    for (size_t align = 1; align != 0; align *= 2)
        wants("closed", tlsf_allocate_at(&heap, 8, align, 0, &name, &at) == TLSF_IS_CLOSED && !tlsf_aligned_alloc(&heap, align, 8), 1);
    wants("open", tlsf_open(&heap, level, 1, 1u << 18), TLSF_OK);
    for (size_t align = 1; align <= (size_t)1 << 20; align *= 2) aligns(&heap, align, TLSF_OK);
    for (size_t align = (size_t)1 << 28; align != 0; align *= 2) aligns(&heap, align, TLSF_NO_FIT);
    wants("of no length", tlsf_allocate_at(&heap, 0, SIZE_MAX / 2 + 1, 0, &name, &at), TLSF_NO_FIT);
    wants("of each length", tlsf_allocate_at(&heap, longest, SIZE_MAX / 2 + 1, 0, &name, &at), TLSF_NO_FIT);
    wants("close", tlsf_close(&heap), TLSF_OK);
}

/* A block that is aligned stays where there is room, and any other one moves. */
static void aligned_reallocs(uint32_t level) {
    struct tlsf_heap heap = TLSF_CLOSED;
    struct tlsf_name name;
    unsigned char *q;
    heap.align = 16;
    wants("no bytes of null", tlsf_block_size(NULL), 0);
    wants("open", tlsf_open(&heap, level, 1, 4000), TLSF_OK);
    unsigned char *p = tlsf_aligned_realloc(&heap, NULL, 256, 100);
    wants("null asks for a block", p != NULL && (uintptr_t)p % 256 == 0, 1);
    memset(p, 3, 100);
    for (size_t len = 90; len < 3000; len += 300) {
        wants("aligned, it stays", tlsf_aligned_realloc(&heap, p, 256, len) == p && tlsf_aligned_realloc(&heap, p, 8, len + 9) == p, 1);
        wants("its bytes", tlsf_block_size(p) >= len + 9 && tlsf_block_size(p) < len + 9 + 16, 1);
    }
    wants("shorter too", tlsf_aligned_realloc(&heap, p, 256, 90) == p && tlsf_block_size(p) < 110, 1);
    q = tlsf_malloc(&heap, 40);
    while ((uintptr_t)q % 512 == 0) q = tlsf_malloc(&heap, 40);
    memset(q, 7, 40);
    p = tlsf_aligned_realloc(&heap, q, 512, 30);
    wants("else it moves, also where it is shorter", p != NULL && p != q && (uintptr_t)p % 512 == 0, 1);
    for (int k = 0; k < 30; k++) wants("a byte that moved", p[k], 7);
    wants("its old block is free", tlsf_free(&heap, q), TLSF_STALE);
    wants("a block by name", tlsf_allocate(&heap, 16, &name), TLSF_OK); /* of five words: the next begins at an odd place */
    wants("another", tlsf_allocate(&heap, 24, &name), TLSF_OK);
    q = tlsf_payload(&heap, name, NULL);
    if ((uintptr_t)q % 16 == 0) wants("another", tlsf_allocate(&heap, 16, &name) + tlsf_allocate(&heap, 24, &name), TLSF_OK);
    q = tlsf_payload(&heap, name, NULL);
    wants("aligned to 8", (uintptr_t)q % 16, 8);
    wants("it stays so", tlsf_aligned_realloc(&heap, q, 8, 20) == q, 1);
    q = tlsf_aligned_realloc(&heap, q, 16, 20);
    wants("and moves to be aligned to more", q != NULL && (uintptr_t)q % 16 == 0, 1);
    wants("no room", tlsf_aligned_realloc(&heap, p, 1u << 20, 30) == NULL && tlsf_block_size(p) >= 30, 1);
    wants("to nothing", tlsf_aligned_realloc(&heap, p, 512, 0) == NULL && tlsf_free(&heap, p) == TLSF_STALE, 1);
    wants("close", tlsf_close(&heap), TLSF_OK);
    wants("closed", tlsf_aligned_realloc(&heap, NULL, 64, 8) == NULL && tlsf_aligned_realloc(&heap, p, 64, 8) == NULL, 1);
}

/* Blocks of `len` bytes, as many as the heap was sized for, by each call in turn. */
static void serves(uint32_t level, uint32_t blocks, size_t len, size_t align) {
    struct tlsf_heap heap = TLSF_CLOSED;
    struct tlsf_name names[8];
    void *at = NULL;
    uint32_t words = 0, others = 0;
    wants("words for", tlsf_words_for(level, blocks, len, align, &words), TLSF_OK);
    wants("words", tlsf_words(level, blocks, tlsf_rounded(len) + 32 + (align < 16 ? 16 : align), &others), TLSF_OK);
    wants("as many", words, others);
    wants("open", tlsf_open(&heap, level, 1, words), TLSF_OK);
    for (uint32_t round = 0; round < 6; round++) {
        for (uint32_t k = round == 0 ? 0 : round % 2; k < blocks; k += round == 0 ? 1 : 2)
            wants("room",
                  (k + round / 2) % 3 == 0 ? tlsf_allocate(&heap, len, &names[k])
                                           : tlsf_allocate_at(&heap, len, align, TLSF_UNFILLED, &names[k], &at),
                  TLSF_OK);
        for (uint32_t k = (round + 1) % 2; k < blocks; k += 2) wants("release", tlsf_release(&heap, names[k]), TLSF_OK);
    }
    wants("close", tlsf_close(&heap), TLSF_OK);
}

static void words_for_any_call(uint32_t level) {
    static const size_t too_long[] = {(size_t)1 << 27, ((size_t)1 << 27) + 1, (size_t)1 << 31, SIZE_MAX / 2 + 1, SIZE_MAX - 40, SIZE_MAX};
    uint32_t words = 7;
    for (uint32_t blocks = 1; blocks <= 8; blocks += 3)
        for (size_t len = 0; len <= 500; len = 2 * len + 1)
            for (size_t align = 1; align <= 16384; align *= 4) serves(level, blocks, len, align);
    for (size_t k = 0; k < sizeof too_long / sizeof *too_long; k++) {
        wants("too long", tlsf_words_for(level, 1, too_long[k], 64, &words), TLSF_BAD_SIZE);
        wants("too much aligned", tlsf_words_for(level, 1, 8, too_long[k], &words), TLSF_BAD_SIZE);
        wants("both", tlsf_words_for(level, 2, too_long[k], too_long[k], &words), TLSF_BAD_SIZE);
        wants("as before", words, 7);
        wants("no blocks", tlsf_words_for(level, 0, too_long[k], too_long[k], &words), TLSF_OK);
        wants("the least heap", words, 4);
        words = 7;
    }
    wants("level 3", tlsf_words_for(3, 1, 8, 8, &words) + tlsf_words_for(6, 1, SIZE_MAX, SIZE_MAX, &words), 2 * TLSF_BAD_LEVEL);
}

/* From a name to a pointer with no call of the heap, as in another thread. */
static void names_to_pointers(uint32_t level) {
    struct tlsf_heap heap = TLSF_CLOSED;
    struct tlsf_name name = {1, 77, 3};
    uint64_t *base = NULL;
    uint32_t len = 0;
    wants("no base of a closed heap, and no pointer", tlsf_base(&heap) == NULL && tlsf_at(NULL, name) == NULL, 1);
    wants("open", tlsf_open(&heap, level, 1, 400), TLSF_OK);
    for (int k = 0; k < 4; k++) {
        wants("a block", tlsf_allocate(&heap, 20, &name), TLSF_OK);
        wants("its base", tlsf_locate(&heap, name, &base, &len) == TLSF_OK && tlsf_base(&heap) == base, 1);
        wants("its pointer", tlsf_at(base, name) == tlsf_payload(&heap, name, NULL), 1);
    }
    wants("close", tlsf_close(&heap), TLSF_OK);
    wants("no base once it is closed", tlsf_base(&heap) == NULL, 1);
}

int main(int argc, char **argv) {
    const long calls = argc > 1 ? strtol(argv[1], NULL, 10) : 20000;
    const uint32_t level = argc > 3 ? (uint32_t)strtoul(argv[3], NULL, 10) : 4;
    state = 88172645463325252u + 7919 * (argc > 2 ? strtoul(argv[2], NULL, 10) : 0);
    with_names = argc > 4 && strcmp(argv[4], "names") == 0;
    own_align = argc > 5 ? (uint8_t)strtoul(argv[5], NULL, 10) : 0;
    lacks_one_word();
    odd_blocks_are_noted();
    any_alignment(level);
    aligned_reallocs(level);
    words_for_any_call(level);
    names_to_pointers(level);
    open_all(level);
    for (turn = 0; turn < calls; turn++) {
        const uint32_t h = below(HEAPS), kind = below(10);
        struct model *m = &models[h];
        struct block *b = &m->blocks[below(MOST)];
        if (b->p) check_bytes(b, b->len);
        if (kind == 9) refuse_wild(m, &models[1 - h], b);
        else if (kind == 8 && below(20) == 0) refuse_sizes(m, b->p), count_refusals(m);
        else if (!b->p) give(m, b);
        else if (kind < 4) resize(m, b);
        else end(m, b);
        if (turn % 200 == 0) check_all(m);
    }
    close_all(level);
    printf("level %u%s: %ld given, %ld refused, %ld moved, %ld wild pointers refused\n", (unsigned)level, with_names ? ", with names" : "",
           counts[0], counts[1], counts[2], counts[3]);
    return 0;
}
