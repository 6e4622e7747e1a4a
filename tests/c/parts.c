/* A pool of several regions, step by step and then by chance against a table. Each region lies in memory of its own, with bytes of the
 * program's before and behind that have to stay. Regions come and go at chance, with their blocks. Each byte of each block is looked at.
 * By pointer alone it is told exactly which region serves, by what tlsf_report grants. wrong.edits has wrong lines.
 * PARTS [CALLS] [SEED] [LEVEL] [names | plain] [ALIGN] */
#include "chance.h"
#include "tlsf_parts.h"

#include <string.h>

enum { REGIONS = 6, MOST = 160, LONGEST = 900, GUARD = 64, NUMBER = 40, MIB = 1 << 20 };

struct memory {
    unsigned char *all, *at; /* the region's begins at `at`, at any alignment */
    size_t bytes;
    bool is_added;
};

struct block {
    unsigned char *p; /* null: the slot is free */
    size_t len;
    struct memory *of;
    struct tlsf_name name;
    unsigned char fill;
    bool is_named;
};

static struct tlsf_parts parts = TLSF_PARTS_CLOSED;
static struct memory memories[REGIONS];
static struct block blocks[MOST];
static long counts[5];
static uint32_t level = 4, numbers;
static size_t own_align = TLSF_ALIGN;
static bool with_names;

static size_t any_len(void) { return below(4) ? below(200) : below(LONGEST + 1); }

static size_t rounded_of(size_t len) { return ((len ? len : 1) + 24 + own_align - 1) / own_align * own_align - 24; }

/* --- Regions -------------------------------------------------------------------------------------------------------- */

static struct memory *memory_of(const struct tlsf_part *part) {
    for (int k = 0; k < REGIONS; k++)
        if (memories[k].is_added && memories[k].at == part->memory) return &memories[k];
    return NULL;
}

static void check_guards(const struct memory *m) {
    for (unsigned char *it = m->all; it < m->at; it++) wants("a byte in front", *it, 0xa5);
    for (unsigned char *it = m->at + m->bytes; it < m->all + m->bytes + 2 * GUARD; it++) wants("a byte behind", *it, 0xa5);
}

static uint32_t count_of_parts(void) {
    struct tlsf_parts_usage usage = {9, 9, 9, 9};
    wants("counts", tlsf_parts_counts(&parts, &usage), TLSF_OK);
    return usage.parts;
}

static void add(struct memory *m) {
    const uint32_t before = count_of_parts();
    m->bytes = tlsf_parts_bytes(level, own_align, 100 + below(1200)) + below(9);
    m->all = malloc(m->bytes + 2 * GUARD);
    if (!m->all) exit(2);
    memset(m->all, 0xa5, m->bytes + 2 * GUARD);
    m->at = m->all + GUARD / 2 + below(17);
    wants("add", tlsf_parts_add(&parts, m->at, m->bytes), TLSF_OK);
    wants("one more", count_of_parts(), before + 1);
    wants("the last one", parts.last->memory == m->at && parts.last->heap.number == NUMBER + numbers, 1);
    wants("again", tlsf_parts_add(&parts, m->at, m->bytes), TLSF_IN_USE);
    wants("the last byte of it", tlsf_parts_add(&parts, m->at + m->bytes - 1, 4096), TLSF_IN_USE);
    wants("all in front, and its first byte", tlsf_parts_add(&parts, m->at - GUARD / 2, GUARD), TLSF_IN_USE);
    numbers++;
    m->is_added = true;
}

static void remove_memory(struct memory *m) {
    const uint32_t before = count_of_parts();
    for (int k = 0; k < MOST; k++) {
        struct block *const b = &blocks[k];
        if (b->p && b->of == m) b->p = NULL, counts[3]++;
    }
    wants("remove", tlsf_parts_remove(&parts, m->at), TLSF_OK);
    wants("one less", count_of_parts(), before - 1);
    wants("remove again", tlsf_parts_remove(&parts, m->at), TLSF_STALE);
    wants("free there", tlsf_parts_free(&parts, m->at + 200), TLSF_STALE);
    check_guards(m);
    memset(m->at, 0x5a, m->bytes);
    free(m->all);
    m->is_added = false;
}

/* The bytes that a region grants a request; 0 where it grants none. */
static size_t grant_of(struct tlsf_part *part) {
    struct tlsf_heap_report r = {0, 0, 0, 0, 0, 0, 0, 0, 0, 0};
    wants("report", tlsf_report(&part->heap, &r), TLSF_OK);
    return r.free_blocks ? r.grant : 0;
}

static uint32_t refused_of(struct tlsf_part *part) {
    struct tlsf_heap_counts c = {0, 0, 0, 0};
    wants("counts", tlsf_counts(&part->heap, &c), TLSF_OK);
    return c.refused;
}

/* The first region that grants so many bytes, but for one. */
static struct tlsf_part *first_with(size_t bytes, const struct tlsf_part *but) {
    struct tlsf_part *part = NULL;
    while ((part = tlsf_parts_next(&parts, part)) != NULL)
        if (part != but && grant_of(part) >= bytes) break;
    return part;
}

static struct tlsf_part *part_at(const void *p) {
    struct tlsf_part *part = NULL;
    while ((part = tlsf_parts_next(&parts, part)) != NULL) {
        const unsigned char *const from = part->memory;
        if ((const unsigned char *)p >= from && (const unsigned char *)p < from + part->length + 8) break;
    }
    return part;
}

/* --- Blocks --------------------------------------------------------------------------------------------------------- */

static void check_bytes(const struct block *b, size_t len) {
    for (size_t k = 0; k < len; k++) wants("a byte of a block", b->p[k], b->fill);
}

static void take_in(struct block *b, void *p, size_t len, size_t align) {
    struct tlsf_part *const part = part_at(p);
    wants("in a region", part != NULL && memory_of(part) != NULL, 1);
    wants("alignment", (uintptr_t)p % align, 0);
    wants("usable size", tlsf_parts_usable_size(&parts, p) >= len, 1);
    wants("name", tlsf_parts_name_at(&parts, p, &b->name), TLSF_OK);
    wants("the heap of its name", tlsf_parts_heap(&parts, b->name) == &part->heap && b->name.heap == part->heap.number, 1);
    wants("the payload of its name", tlsf_parts_payload(&parts, b->name, NULL) == p, 1);
    b->p = p;
    b->len = len;
    b->of = memory_of(part);
    b->fill = (unsigned char)below(256);
    memset(p, b->fill, len);
}

/* Which region served is told before by what is granted: exactly, or where blocks are aligned otherwise within `extra` bytes. */
static void is_first(struct tlsf_part *exact, struct tlsf_part *sure, const void *p, size_t extra) {
    struct tlsf_part *const part = p ? part_at(p) : NULL;
    counts[p == NULL]++;
    if (extra == 0) wants("the first region with room", part == exact, 1);
    if (part == NULL || sure == NULL) wants("refused, though there is room", part == NULL && sure != NULL, 0);
    for (struct tlsf_part *it = part; it != NULL && it != sure; it = it->next)
        wants("an earlier one has room", it->next == NULL && sure != NULL, 0);
}

static void give(struct block *b) {
    const size_t len = any_len(), align = (size_t)1 << below(10), rounded = rounded_of(len);
    const uint32_t way = below(with_names ? 8 : 6);
    const size_t extra = way == 0 && align > own_align ? 32 + align : with_names ? 32 + own_align : 0;
    struct tlsf_part *const exact = first_with(rounded, NULL), *const sure = first_with(rounded + extra, NULL);
    struct tlsf_name name = {0, 0, 0};
    unsigned char *p = NULL;
    b->is_named = way >= 6;
    switch (way) {
    case 0: p = tlsf_parts_aligned_alloc(&parts, align, len); break;
    case 1: p = tlsf_parts_calloc(&parts, len, 1); break;
    case 2: p = tlsf_parts_realloc(&parts, NULL, len); break;
    case 3: p = tlsf_parts_aligned_realloc(&parts, NULL, 8, len); break;
    case 4:
    case 5: p = tlsf_parts_malloc(&parts, len); break;
    default:
        if (tlsf_parts_allocate(&parts, len, &name) == TLSF_OK) p = tlsf_parts_payload(&parts, name, NULL);
    }
    for (size_t k = 0; p && (way == 1 || way >= 6) && k < len; k++) wants("a zero", p[k], 0);
    is_first(exact, sure, p, extra);
    if (p) take_in(b, p, len, way >= 6 ? 8 : way == 0 && align > own_align ? align : own_align);
}

static void leave(struct block *b) {
    unsigned char *const p = b->p;
    const uint32_t way = below(6);
    if (way == 0) wants("to nothing", tlsf_parts_realloc(&parts, p, 0) == NULL, 1);
    else if (way == 1) wants("release", tlsf_parts_release(&parts, b->name), TLSF_OK);
    else wants("free", tlsf_parts_free(&parts, p), TLSF_OK);
    wants("a second free", tlsf_parts_free(&parts, p), TLSF_STALE);
    wants("into a block", tlsf_parts_free(&parts, p + 8), TLSF_STALE);
    wants("a second release", tlsf_parts_release(&parts, b->name), TLSF_STALE);
    wants("no size", tlsf_parts_usable_size(&parts, p), 0);
    wants("no payload", tlsf_parts_payload(&parts, b->name, NULL) == NULL, 1);
    wants("its realloc", tlsf_parts_realloc(&parts, p, 10) == NULL && tlsf_parts_aligned_realloc(&parts, p, 8, 10) == NULL, 1);
    wants("its reallocate", tlsf_parts_reallocate(&parts, &b->name, 10), TLSF_STALE);
    b->p = NULL;
}

/* A block stays in its region where that has room, and goes to the first other one that has. */
static void resize(struct block *b) {
    const size_t len = any_len() + 1, had = b->len, rounded = rounded_of(len);
    struct tlsf_part *const from = part_at(b->p), *const other = first_with(rounded, from);
    const size_t bytes = tlsf_parts_usable_size(&parts, b->p); /* of the block */
    const struct tlsf_name name = b->name;
    struct tlsf_name now = name;
    const uint32_t way = below(b->is_named ? 4 : 3);
    const size_t align = way == 0 ? (size_t)1 << below(10) : 8;
    const bool is_exact = !with_names && align <= own_align;
    unsigned char *p = b->p;
    if (way == 3) {
        const uint32_t answer = tlsf_parts_reallocate(&parts, &now, len);
        p = answer == TLSF_OK ? tlsf_parts_payload(&parts, now, NULL) : NULL;
        wants("its answer", answer, p ? TLSF_OK : TLSF_NO_FIT);
    } else {
        p = way ? tlsf_parts_realloc(&parts, p, len) : tlsf_parts_aligned_realloc(&parts, p, align, len);
    }
    if (p == NULL) {
        wants("refused, though another region has room", is_exact && other != NULL, 0);
        wants("a block that isn't longer", len > had || (uintptr_t)b->p % align, 1);
        wants("its name as before", memcmp(&now, &name, sizeof now) == 0, 1);
        check_bytes(b, had);
        return;
    }
    b->p = p;
    check_bytes(b, had < len ? had : len);
    for (size_t k = bytes; k < len && way == 3; k++) wants("a new byte", p[k], 0);
    if (part_at(p) != from) {
        counts[2]++;
        wants("the first other region with room", !is_exact || part_at(p) == other, 1);
        wants("the old name", tlsf_parts_release(&parts, name), TLSF_STALE);
    }
    take_in(b, p, len, align);
    if (!b->is_named) wants("alignment", (uintptr_t)p % own_align, 0);
}

static void write_and_read(struct block *b) {
    uint8_t out[40] = {0};
    const uint32_t n = b->len < 40 ? (uint32_t)b->len : 40;
    wants("read", tlsf_parts_read(&parts, b->name, 0, out, n), TLSF_OK);
    for (uint32_t k = 0; k < n; k++) wants("a byte", out[k], b->fill);
    wants("past the end", tlsf_parts_read(&parts, b->name, 1u << 20, out, 1), TLSF_RANGE);
    memset(out, b->fill ^ 1, n);
    wants("write", tlsf_parts_write(&parts, b->name, 0, out, n), TLSF_OK);
    wants("it is there", n == 0 || b->p[n - 1] == (b->fill ^ 1), 1);
    memset(b->p, b->fill, b->len);
    wants("as long", tlsf_parts_resize(&parts, b->name, tlsf_parts_usable_size(&parts, b->p)), TLSF_OK);
}

/* --- The whole pool ---------------------------------------------------------------------------------------------------- */

static void check_all(void) {
    struct tlsf_parts_usage usage = {9, 9, 9, 9};
    struct tlsf_part *part = NULL;
    uint32_t live = 0, found = 0, regions = 0;
    uint64_t words = 0, all = 0, most = 0;
    for (int k = 0; k < MOST; k++)
        if (blocks[k].p) check_bytes(&blocks[k], blocks[k].len), live++;
    while ((part = tlsf_parts_next(&parts, part)) != NULL) {
        struct tlsf_block_info it = {0, 0, 0, 0, 0};
        uint32_t at = 0;
        for (; tlsf_block_at(&part->heap, at, &it) == TLSF_OK; at += it.size) found += it.is_live, words += it.is_live ? it.size : 0;
        struct tlsf_heap_counts its = {0, 0, 0, 0};
        wants("its counts", tlsf_counts(&part->heap, &its), TLSF_OK);
        wants("its bytes", part->bytes, 8 * (size_t)at);
        most += its.most_words;
        all += at;
        regions++;
        check_guards(memory_of(part));
    }
    wants("live blocks", found, live);
    wants("counts", tlsf_parts_counts(&parts, &usage), TLSF_OK);
    wants("words", usage.words, words);
    wants("all words", usage.all_words, all);
    wants("regions", usage.parts, regions);
    wants("the most", usage.most_words, most);
    wants("sound", tlsf_parts_check(&parts), TLSF_OK);
}

/* What is in no region is refused, and each call asks each region once at most. */
static void refuse_wild(void) {
    struct tlsf_name foreign = {NUMBER + numbers, 0, 1}, before = {NUMBER - 1, 0, 1};
    unsigned char outside[64] = {0};
    uint32_t refused[REGIONS], k = 0, len = 0;
    uint8_t few[4];
    for (struct tlsf_part *it = NULL; (it = tlsf_parts_next(&parts, it)) != NULL;) refused[k++] = refused_of(it);
    wants("no room", tlsf_parts_malloc(&parts, 1u << 25) == NULL, 1);
    k = 0;
    for (struct tlsf_part *it = NULL; (it = tlsf_parts_next(&parts, it)) != NULL; k++) wants("asked once", refused_of(it), refused[k] + 1);
    for (int at = 0; at < 64; at += 8) {
        wants("outside", tlsf_parts_free(&parts, outside + at), TLSF_STALE);
        wants("its size", tlsf_parts_usable_size(&parts, outside + at), 0);
        wants("its name", tlsf_parts_name_at(&parts, outside + at, &foreign), TLSF_STALE);
        wants("its realloc", tlsf_parts_realloc(&parts, outside + at, 8) == NULL, 1);
    }
    wants("a foreign name", tlsf_parts_release(&parts, foreign) + tlsf_parts_release(&parts, before), 2 * TLSF_FOREIGN);
    wants("its resize", tlsf_parts_resize(&parts, foreign, 8), TLSF_FOREIGN);
    wants("its reallocate", tlsf_parts_reallocate(&parts, &foreign, 8), TLSF_FOREIGN);
    wants("its bytes", tlsf_parts_read(&parts, foreign, 0, few, 1) + tlsf_parts_write(&parts, before, 0, outside, 1), 2 * TLSF_FOREIGN);
    wants("its payload", tlsf_parts_payload(&parts, foreign, &len) == NULL && tlsf_parts_heap(&parts, foreign) == NULL, 1);
    wants("null", tlsf_parts_free(&parts, NULL), TLSF_OK);
}

static void by_chance(long calls) {
    parts.align = (uint8_t)own_align;
    wants("open", tlsf_parts_open(&parts, level, NUMBER), TLSF_OK);
    wants("open again", tlsf_parts_open(&parts, level, NUMBER), TLSF_IN_USE);
    for (turn = 0; turn < calls; turn++) {
        struct block *const b = &blocks[below(MOST)];
        const uint32_t kind = below(200);
        if (kind == 0) {
            struct memory *const m = &memories[below(REGIONS)];
            if (m->is_added) remove_memory(m);
            else add(m);
        } else if (kind == 1) {
            refuse_wild();
        } else if (!b->p) {
            give(b);
        } else if (kind < 60) {
            resize(b);
        } else if (kind < 70 && b->len) {
            write_and_read(b);
        } else {
            leave(b);
        }
        if (turn % 100 == 0) check_all();
    }
    wants("close", tlsf_parts_close(&parts), TLSF_OK);
    for (int k = 0; k < REGIONS; k++) {
        if (!memories[k].is_added) continue;
        check_guards(&memories[k]);
        free(memories[k].all);
        memories[k].is_added = false;
    }
}

/* --- Step by step ----------------------------------------------------------------------------------------------------- */

static void closed_ones(void) {
    static uint64_t few[2000];
    struct tlsf_parts pool = TLSF_PARTS_CLOSED;
    struct tlsf_parts_usage usage = {9, 9, 9, 9};
    struct tlsf_name name = {1, 0, 1};
    for (int is_open = 0; is_open < 2; is_open++) {
        const uint32_t closed = TLSF_IS_CLOSED, none = is_open ? TLSF_FOREIGN : closed;
        wants("no block", !tlsf_parts_malloc(&pool, 8) && !tlsf_parts_calloc(&pool, 8, 1) && !tlsf_parts_aligned_alloc(&pool, 8, 8), 1);
        wants("no realloc", !tlsf_parts_realloc(&pool, few, 8) && !tlsf_parts_aligned_realloc(&pool, few, 8, 8), 1);
        wants("null", tlsf_parts_free(&pool, NULL), TLSF_OK);
        wants("free", tlsf_parts_free(&pool, few), is_open ? TLSF_STALE : closed);
        wants("name", tlsf_parts_name_at(&pool, few, &name), is_open ? TLSF_STALE : closed);
        wants("allocate", tlsf_parts_allocate(&pool, 8, &name), is_open ? TLSF_NO_FIT : closed);
        wants("release", tlsf_parts_release(&pool, name), none);
        wants("resize", tlsf_parts_resize(&pool, name, 8), none);
        wants("reallocate", tlsf_parts_reallocate(&pool, &name, 8), none);
        wants("payload", !tlsf_parts_payload(&pool, name, NULL) && !tlsf_parts_usable_size(&pool, few) && !tlsf_parts_next(&pool, NULL), 1);
        wants("remove", tlsf_parts_remove(&pool, few), is_open ? TLSF_STALE : closed);
        wants("check", tlsf_parts_check(&pool), is_open ? TLSF_OK : closed);
        wants("counts", tlsf_parts_counts(&pool, &usage), is_open ? TLSF_OK : closed);
        wants("what they are", usage.parts, is_open ? 0 : 9);
        if (is_open) break;
        wants("add", tlsf_parts_add(&pool, few, sizeof few), closed);
        wants("close", tlsf_parts_close(&pool), closed);
        wants("level 3", tlsf_parts_open(&pool, 3, 1) + tlsf_parts_open(&pool, 6, 1), 2 * TLSF_BAD_LEVEL);
        pool.align = 24;
        wants("aligned to 24", tlsf_parts_open(&pool, 4, 1), TLSF_BAD_SIZE);
        pool.align = 0;
        wants("open", tlsf_parts_open(&pool, 4, UINT32_MAX), TLSF_OK);
    }
    wants("no memory", tlsf_parts_add(&pool, NULL, 9999), TLSF_BAD_MEMORY);
    wants("past the end", tlsf_parts_add(&pool, few, SIZE_MAX - 8), TLSF_BAD_MEMORY);
    for (size_t bytes = 0; bytes <= 200; bytes++) wants("too few bytes", tlsf_parts_add(&pool, few, bytes), TLSF_BAD_SIZE);
    wants("the last number", tlsf_parts_add(&pool, few, 8000), TLSF_OK);
    wants("numbers are used up", tlsf_parts_add(&pool, few + 1000, 8000), TLSF_WORN);
    wants("close", tlsf_parts_close(&pool), TLSF_OK);
    wants("and again", tlsf_parts_close(&pool), TLSF_IS_CLOSED);
    wants("open anew", tlsf_parts_open(&pool, 4, UINT32_MAX) + tlsf_parts_add(&pool, few, sizeof few), TLSF_OK);
    wants("close", tlsf_parts_close(&pool), TLSF_OK);
}

/* Each alignment of memory has room for so many words in so many bytes, and none fewer at the worst. */
static void bytes_that_it_takes(void) {
    static _Alignas(64) unsigned char few[20000];
    const volatile size_t too_long = SIZE_MAX; /* in plain sight gcc would warn of it */
    struct tlsf_parts pool = TLSF_PARTS_CLOSED;
    wants("no such region", tlsf_parts_bytes(4, 16, (1u << 20) + 1) + tlsf_parts_bytes(5, 16, (1u << 24) + 1) + tlsf_parts_bytes(3, 16, 9),
          0);
    for (uint32_t align = 8; align <= 64; align *= 2) {
        const size_t bytes = tlsf_parts_bytes(5, align, 1000);
        bool is_tight = false;
        wants("a rest of 4 KiB is a region", tlsf_parts_bytes(5, align, 4) <= TLSF_PARTS_LEAST, 1);
        for (int at = 0; at < 64; at++) {
            for (int lacks = 0; lacks < 2; lacks++) {
                struct tlsf_block_info whole = {0, 0, 0, 0, 0};
                pool.align = (uint8_t)align;
                wants("open", tlsf_parts_open(&pool, 5, 1) + tlsf_parts_add(&pool, few + at, bytes - (size_t)lacks), TLSF_OK);
                wants("its block", tlsf_block_at(&pool.first->heap, 0, &whole), TLSF_OK);
                wants("its words", whole.size >= 1000 || lacks, 1);
                is_tight |= whole.size < 1000;
                for (size_t k = 0; k < 40; k++) wants("too long", tlsf_parts_malloc(&pool, too_long - k) == NULL, 1);
                void *const p = tlsf_parts_malloc(&pool, 1);
                wants("aligned", p != NULL && (uintptr_t)p % align == 0 && tlsf_parts_close(&pool) == TLSF_OK, 1);
            }
        }
        wants("a byte less is too few somewhere", is_tight, 1);
    }
}

/* Memory above the largest region becomes several, and goes as one. A rest of less than 4 KiB is none. */
static void long_memory(uint32_t of_level, size_t longest, size_t bytes, uint32_t wanted) {
    unsigned char *const memory = malloc(bytes + 2);
    static uint64_t few[2000];
    struct tlsf_parts pool = TLSF_PARTS_CLOSED;
    struct tlsf_parts_usage usage = {0, 0, 0, 0};
    if (!memory) exit(2);
    memory[0] = memory[bytes + 1] = 0xa5;
    wants("open", tlsf_parts_open(&pool, of_level, 7) + tlsf_parts_add(&pool, few, sizeof few), TLSF_OK);
    wants("add", tlsf_parts_add(&pool, memory + 1, bytes), TLSF_OK);
    wants("counts", tlsf_parts_counts(&pool, &usage), TLSF_OK);
    wants("regions", usage.parts, 1 + wanted);
    wants("words", 8 * usage.all_words <= bytes + sizeof few && 8 * usage.all_words >= bytes / 67 * 65, 1);
    unsigned char *p = tlsf_parts_malloc(&pool, longest - 32), *q = tlsf_parts_malloc(&pool, longest - 32);
    wants("the longest blocks", p != NULL && (q != NULL) == (wanted > 2) && tlsf_parts_malloc(&pool, longest) == NULL, 1);
    p[0] = p[longest - 33] = 1;
    wants("it shrinks", tlsf_parts_realloc(&pool, p, 20) == p && tlsf_parts_free(&pool, q) == TLSF_OK, 1);
    q = tlsf_parts_realloc(&pool, p, longest - 32);
    wants("and grows again", q == p, 1);
    wants("a name of the last number", pool.last->heap.number, 7 + wanted);
    wants("remove", tlsf_parts_remove(&pool, memory + 1), TLSF_OK);
    wants("one is left", pool.first == pool.last && tlsf_parts_free(&pool, p) == TLSF_STALE, 1);
    wants("the bytes beside", memory[0] + memory[bytes + 1], 2 * 0xa5);
    wants("a block of the other", tlsf_parts_malloc(&pool, 100) != NULL && tlsf_parts_close(&pool) == TLSF_OK, 1);
    free(memory);
}

/* Where numbers are used up amid long memory nothing of it is added. */
static void numbers_run_out(void) {
    unsigned char *const memory = malloc(20 * (size_t)MIB);
    static uint64_t few[2000];
    struct tlsf_parts pool = TLSF_PARTS_CLOSED;
    struct tlsf_name name = {0, 0, 0};
    if (!memory) exit(2);
    wants("open", tlsf_parts_open(&pool, 4, UINT32_MAX - 2) + tlsf_parts_add(&pool, few, sizeof few), TLSF_OK);
    wants("three are wanted", tlsf_parts_add(&pool, memory, 20 * (size_t)MIB), TLSF_WORN);
    wants("none is added", pool.first == pool.last && pool.first->next == NULL, 1);
    wants("the first is there", tlsf_parts_allocate(&pool, 8, &name) == TLSF_OK && name.heap == UINT32_MAX - 2, 1);
    wants("close", tlsf_parts_close(&pool), TLSF_OK);
    free(memory);
}

/* By name from the first region into the second, where the first is full. New bytes are zero. */
static void moves_by_name(void) {
    static uint64_t one[1000], two[2000];
    struct tlsf_parts pool = TLSF_PARTS_CLOSED;
    struct tlsf_name name = {0, 0, 0}, wall = {0, 0, 0};
    uint32_t len = 0;
    memset(two, 0xff, sizeof two);
    wants("open", tlsf_parts_open(&pool, 4, 1) + tlsf_parts_add(&pool, one, sizeof one) + tlsf_parts_add(&pool, two, sizeof two), TLSF_OK);
    wants("blocks", tlsf_parts_allocate(&pool, 50, &name) + tlsf_parts_allocate(&pool, 8, &wall), TLSF_OK);
    memset(tlsf_parts_payload(&pool, name, NULL), 3, 50);
    const struct tlsf_name old = name;
    struct tlsf_name large = {0, 0, 0};
    wants("the second has room", tlsf_parts_allocate(&pool, 9000, &large) == TLSF_OK && large.heap == 2, 1);
    wants("release", tlsf_parts_release(&pool, large), TLSF_OK);
    wants("no room in place", tlsf_parts_resize(&pool, name, 6000), TLSF_NO_ROOM);
    wants("it moves", tlsf_parts_reallocate(&pool, &name, 6000), TLSF_OK);
    wants("to the second region", name.heap, 2);
    const unsigned char *const p = tlsf_parts_payload(&pool, name, &len);
    wants("its length", len, 6000);
    for (int k = 0; k < 6000; k++) wants("its bytes", p[k], k < 50 ? 3 : 0);
    wants("the old name", tlsf_parts_release(&pool, old), TLSF_STALE);
#ifndef TLSF_MARKED /* then nothing but the library touches a header */
    uint64_t *const header = tlsf_parts_heap(&pool, name)->base + name.at;
    header[0] ^= 64;
    wants("damaged", tlsf_parts_check(&pool), TLSF_DAMAGED);
    header[0] ^= 64;
    wants("sound", tlsf_parts_check(&pool), TLSF_OK);
#endif
    wants("no region has so many", tlsf_parts_reallocate(&pool, &name, 60000), TLSF_NO_FIT);
    wants("as before", name.heap == 2 && p[49] == 3 && tlsf_parts_release(&pool, name) == TLSF_OK, 1);
    wants("the first is taken away", tlsf_parts_remove(&pool, one), TLSF_OK);
    wants("its names are foreign", tlsf_parts_release(&pool, wall), TLSF_FOREIGN);
    wants("close", tlsf_parts_close(&pool), TLSF_OK);
}

int main(int argc, char **argv) {
    const long calls = argc > 1 ? strtol(argv[1], NULL, 10) : 20000;
    state = 88172645463325252u + 7919 * (argc > 2 ? strtoul(argv[2], NULL, 10) : 0);
    level = argc > 3 ? (uint32_t)strtoul(argv[3], NULL, 10) : 4;
    with_names = argc > 4 && strcmp(argv[4], "names") == 0;
    if (argc > 5) own_align = strtoul(argv[5], NULL, 10);
    closed_ones();
    bytes_that_it_takes();
    moves_by_name();
    numbers_run_out();
    long_memory(4, 8 * (size_t)MIB, 20 * (size_t)MIB, 3);
    long_memory(4, 8 * (size_t)MIB, 8 * (size_t)MIB + 8 * MIB / 64 + 4200, 1);
    if (calls >= 20000) long_memory(5, 128 * (size_t)MIB, 300 * (size_t)MIB, 3);
    by_chance(calls);
    printf("level %u%s: %ld given, %ld refused, %ld moved to another region, %ld gone with theirs\n", (unsigned)level,
           with_names ? ", with names" : "", counts[0], counts[1], counts[2], counts[3]);
    return 0;
}
