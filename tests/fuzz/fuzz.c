/* Bytes as calls of the heap, for libFuzzer: two heaps in memory of any alignment, and beside them a table of what is live. Each
 * answer is held against the table: alignment, room, bytes that stay, zeros, refusals and their counts, names, walks and checks.
 * At the end something is written past a payload, and tlsf_check has to come back all the same. tests/fuzz/run builds it. */
#include <peachanchor.h>

#include <stdio.h>
#include <stdlib.h>
#include <string.h>

#ifdef TLSF_ASAN
enum { DAMAGED_KIND = 16 }; /* none: ASan reports what is written past a payload */
#else
enum { DAMAGED_KIND = 15 };
#endif
enum { BLOCKS = 48, GONE = 16, FRONT = 32, GUARD = 64, MOST_WORDS = 3000 };

/* `bytes` are known, by the seed that they were filled with. */
struct block {
    unsigned char *p;
    size_t bytes, usable;
    struct tlsf_name name;
    unsigned char seed;
};

/* The first heap has a handle that leads to its fields, the second is a near heap. */
struct area {
    struct tlsf_heap *heap, plain;
    struct tlsf_near_heap near;
    unsigned char *memory, *buffer;
    size_t bytes;
    uint32_t words, most_words, refused, longest_refused;
    bool is_mixed;     /* a block of it was asked for by name, and may have an odd number of words */
    bool is_uncounted; /* something was refused of which peachanchor.h leaves open whether it counts */
    struct block blocks[BLOCKS];
    void *gone[GONE]; /* pointers that were freed */
    struct tlsf_name stale[GONE];
    uint32_t gone_count;
};

static struct area areas[2];
static const uint8_t *input, *input_end;
static unsigned char seeds;

#define MUST(holds) ((holds) ? (void)0 : fail(#holds, __LINE__))

static void fail(const char *what, int line) {
    fprintf(stderr, "fuzz.c:%d: wrong: %s\n", line, what);
    abort();
}

static uint32_t byte(void) { return input < input_end ? *input++ : 0; }
static uint32_t number(void) { return byte() | byte() << 8; }

/* Mostly short, now and then longer, and seldom far too long. */
static size_t length(void) {
    const uint32_t kind = byte(), n = number();
    return kind < 200 ? n % 130 : kind < 250 ? n : kind < 254 ? (size_t)n << (kind % 32) : SIZE_MAX - n;
}

/* --- The table --------------------------------------------------------------------------------------------------------- */

static unsigned char pattern(unsigned char seed, size_t at) { return (unsigned char)(seed + at * 7 + at / 256); }

static void fill(struct block *it, size_t from, size_t to) {
    for (size_t k = from; k < to; k++) it->p[k] = pattern(it->seed, k);
}

static void see_bytes(const struct block *it, size_t bytes) {
    for (size_t k = 0; k < bytes; k++) MUST(it->p[k] == pattern(it->seed, k));
}

static struct block *block_of(struct area *a, const void *p) {
    for (uint32_t k = 0; k < BLOCKS; k++)
        if (a->blocks[k].p != NULL && a->blocks[k].p == p) return &a->blocks[k];
    return NULL;
}

/* A new or moved block lies in the memory, and no other does where it and its header lie. */
static void see_place(struct area *a, const struct block *it, size_t align) {
    MUST((uintptr_t)it->p % align == 0 && it->p >= a->memory + 24 && it->p + it->usable <= a->memory + a->bytes);
    for (uint32_t k = 0; k < BLOCKS; k++) {
        const struct block *other = &a->blocks[k];
        if (other->p != NULL && other != it) MUST(it->p + it->usable + 24 <= other->p || other->p + other->usable + 24 <= it->p);
    }
}

static void enter(struct area *a, struct block *it, void *p, size_t n, size_t align) {
    it->p = p;
    it->bytes = n;
    it->usable = tlsf_usable_size(a->heap, p);
    it->seed = seeds++;
    MUST(it->usable >= n && tlsf_name_at(a->heap, p, &it->name) == TLSF_OK && a->heap->base + it->name.at + 3 == p);
    see_place(a, it, align);
    fill(it, 0, n);
}

static void leave(struct area *a, struct block *it) {
    a->gone[a->gone_count % GONE] = it->p;
    a->stale[a->gone_count++ % GONE] = it->name;
    it->p = NULL;
}

/* The longest allocate that isn't refused now. */
static size_t grant(struct area *a) {
    struct tlsf_heap_report report;
    MUST(tlsf_report(a->heap, &report) == TLSF_OK);
    return report.free_blocks != 0 ? report.grant : 0;
}

static void count_refused(struct area *a, size_t n) {
    if (n > TLSF_LONGEST) return; /* refused by peachanchor.h alone */
    a->refused++;
    if (tlsf_rounded(n) > a->longest_refused) a->longest_refused = (uint32_t)tlsf_rounded(n);
}

/* --- Calls ------------------------------------------------------------------------------------------------------------- */

static struct block *an_empty(struct area *a) {
    struct block *it = &a->blocks[byte() % BLOCKS];
    return it->p == NULL ? it : NULL;
}

static struct block *a_live(struct area *a) {
    const uint32_t from = byte();
    for (uint32_t k = 0; k < BLOCKS; k++)
        if (a->blocks[(from + k) % BLOCKS].p != NULL) return &a->blocks[(from + k) % BLOCKS];
    return NULL;
}

/* A pointer comes just where there is room for it, as the report says; on a mixed heap it may want more. */
static void see_refusal(struct area *a, const void *p, size_t n, size_t had) {
    const bool has_room = n <= TLSF_LONGEST && had != 0 && tlsf_rounded(n) <= had;
    if (p != NULL) MUST(has_room);
    else MUST(!has_room || a->is_mixed);
}

static void do_malloc(struct area *a) {
    struct block *it = an_empty(a);
    const size_t n = length(), had = grant(a);
    if (it == NULL) return;
    void *p = tlsf_malloc(a->heap, n);
    see_refusal(a, p, n, had);
    if (p != NULL) enter(a, it, p, n, 16);
    else count_refused(a, n);
}

static void do_calloc(struct area *a) {
    struct block *it = an_empty(a);
    const size_t count = length(), each = byte() < 240 ? byte() % 9 : length(), had = grant(a);
    if (it == NULL) return;
    unsigned char *p = tlsf_calloc(a->heap, count, each);
    if (each != 0 && count > TLSF_LONGEST / each) {
        MUST(p == NULL);
        return;
    }
    see_refusal(a, p, count * each, had);
    for (size_t k = 0; p != NULL && k < count * each; k++) MUST(p[k] == 0);
    if (p != NULL) enter(a, it, p, count * each, 16);
    else count_refused(a, count * each);
}

static void do_aligned(struct area *a) {
    struct block *it = an_empty(a);
    const size_t align = byte() % 8 != 0 ? (size_t)1 << byte() % 18 : number(), n = length(), had = grant(a);
    if (it == NULL) return;
    void *p = tlsf_aligned_alloc(a->heap, align, n);
    if (align == 0 || (align & (align - 1)) != 0) {
        MUST(p == NULL);
        return;
    }
    if (p != NULL) enter(a, it, p, n, align);
    if (p != NULL || n > TLSF_LONGEST || align > TLSF_LONGEST) return;
    /* above 16 bytes a block is asked for that has room for the alignment and for one of four words in front */
    MUST(a->is_mixed || had < tlsf_rounded(n) + (align > 16 ? 32 + align : 0) || had == 0);
    a->is_uncounted = true; /* that one counts, where it is refused */
}

/* The bytes of a changed block up to the smaller length; what a refusal leaves is as before. */
static void do_realloc(struct area *a) {
    struct block *it = a_live(a);
    const size_t n = length();
    if (it == NULL) return;
    const size_t stay = it->bytes < n ? it->bytes : n;
    struct block had = *it;
    unsigned char *p = tlsf_realloc(a->heap, it->p, n);
    if (n == 0) {
        MUST(p == NULL);
        leave(a, it);
        return;
    }
    if (p == NULL) {
        MUST(tlsf_usable_size(a->heap, it->p) == had.usable && (n > TLSF_LONGEST || tlsf_rounded(n) > had.usable));
        see_bytes(it, it->bytes);
        count_refused(a, n);
        return;
    }
    if (p != had.p) leave(a, it);
    it->p = p;
    see_bytes(it, stay);
    enter(a, it, p, n, p == had.p && a->is_mixed ? 8 : 16); /* a block by name keeps its alignment where it stays */
}

static void do_free(struct area *a) {
    struct block *it = a_live(a);
    if (it == NULL) return;
    see_bytes(it, it->bytes);
    if (byte() % 4 == 0) MUST(tlsf_release(a->heap, it->name) == TLSF_OK);
    else MUST(tlsf_free(a->heap, it->p) == TLSF_OK);
    MUST(tlsf_free(a->heap, it->p) == TLSF_STALE && tlsf_release(a->heap, it->name) == TLSF_STALE);
    leave(a, it);
}

/* --- What is no block's ------------------------------------------------------------------------------------------------- */

static void *wild(struct area *a) {
    struct block *near = a_live(a);
    const uint32_t kind = byte() % 6, n = number();
    if (kind == 0 && near != NULL) return near->p + (int)(n % 97) - 48;
    if (kind == 1) return a->gone[n % GONE];
    if (kind == 2) return a->memory + n % (a->bytes + 64) - 32 * (n % 3);
    if (kind == 3) return areas[a == areas].blocks[n % BLOCKS].p;
    if (kind == 4) return (unsigned char *)a->heap->base + 8 * (n % a->words) + 24;
    return (void *)(uintptr_t)((uint64_t)number() << 48 | (uint64_t)number() << 32 | (uint64_t)number() << 16 | n);
}

static void do_wild(struct area *a) {
    struct tlsf_name name = {7, 7, 7};
    void *p = wild(a);
    const struct block *it = block_of(a, p);
    if (p == NULL) MUST(tlsf_free(a->heap, p) == TLSF_OK && tlsf_usable_size(a->heap, p) == 0);
    else if (it != NULL) MUST(tlsf_usable_size(a->heap, p) == it->usable);
    if (p == NULL || it != NULL) return;
    MUST(tlsf_usable_size(a->heap, p) == 0 && tlsf_name_at(a->heap, p, &name) == TLSF_STALE && name.serial == 7);
    MUST(tlsf_realloc(a->heap, p, 1 + number()) == NULL && tlsf_free(a->heap, p) == TLSF_STALE);
}

/* Names that outlived their blocks, forged ones and those of the other heap. */
static void do_stale(struct area *a) {
    struct tlsf_name name = a->stale[byte() % GONE];
    const struct block *live = a_live(a), *others = a_live(&areas[a == areas]);
    uint32_t want = TLSF_STALE;
    if (byte() % 3 == 0 && live != NULL) name = live->name, name.serial += 1 + byte();
    else if (byte() % 3 == 0 && live != NULL) name = live->name, name.at += 1 + byte();
    else if (byte() % 3 == 0 && others != NULL) name = others->name;
    if (name.heap != (a == areas ? 1u : 2u)) want = TLSF_FOREIGN;
    for (uint32_t k = 0; k < BLOCKS; k++)
        if (a->blocks[k].p != NULL && memcmp(&a->blocks[k].name, &name, sizeof name) == 0) return;
    unsigned char one = 0;
    MUST(tlsf_release(a->heap, name) == want && tlsf_resize(a->heap, name, number()) == want);
    MUST(tlsf_read(a->heap, name, 0, &one, 1) == want && tlsf_write(a->heap, name, 0, &one, 1) == want);
    MUST(tlsf_payload(a->heap, name, NULL) == NULL);
}

/* --- Blocks by name ------------------------------------------------------------------------------------------------------ */

static void do_allocate(struct area *a) {
    struct block *it = an_empty(a);
    const uint32_t n = number() % 900;
    struct tlsf_name name = {7, 7, 7};
    if (it == NULL) return;
    const size_t had = grant(a);
    a->is_mixed = true;
    if (tlsf_allocate(a->heap, n, &name) != TLSF_OK) {
        MUST((had < n || had == 0) && name.heap == 7 && name.at == 7 && name.serial == 7);
        a->refused++;
        if (n > a->longest_refused) a->longest_refused = n;
        return;
    }
    unsigned char *p = tlsf_payload(a->heap, name, NULL);
    MUST(p != NULL && had >= n);
    for (uint32_t k = 0; k < n; k++) MUST(p[k] == 0);
    enter(a, it, p, n, 8);
    MUST(it->usable == n && memcmp(&it->name, &name, sizeof name) == 0);
}

static void do_allocate_at(struct area *a) {
    struct block *it = an_empty(a);
    const size_t align = (size_t)1 << byte() % 13, n = length();
    const uint32_t flags = byte() % 2 == 0 ? TLSF_UNFILLED : 0;
    struct tlsf_name name = {7, 7, 7};
    void *p = a;
    if (it == NULL) return;
    a->is_uncounted = true;
    if (tlsf_allocate_at(a->heap, n, align, flags, &name, &p) != TLSF_OK) {
        MUST(p == a && name.serial == 7);
        return;
    }
    for (size_t k = 0; flags == 0 && k < n; k++) MUST(((unsigned char *)p)[k] == 0);
    enter(a, it, p, n, align);
    MUST(memcmp(&it->name, &name, sizeof name) == 0);
}

/* Copies into a payload and out of it, up to its end and past it. */
static void do_copy(struct area *a) {
    static unsigned char bytes[1 << 16];
    struct block *it = a_live(a);
    if (it == NULL || it->usable + 2 > sizeof bytes) return;
    it->seed = seeds++;
    for (size_t k = 0; k < it->usable; k++) bytes[k] = pattern(it->seed, k);
    MUST(tlsf_write(a->heap, it->name, 0, bytes, it->usable) == TLSF_OK);
    see_bytes(it, it->usable);
    const uint32_t at = number() % (uint32_t)(it->usable + 2);
    const size_t left = at <= it->usable ? it->usable - at : 0, n = byte() % 2 == 0 ? left : left + 1 + byte();
    const uint32_t want = at + n > it->usable ? TLSF_RANGE : TLSF_OK;
    MUST(n + at > sizeof bytes || tlsf_write(a->heap, it->name, at, bytes + at, n) == want);
    memset(bytes, 0x11, sizeof bytes);
    MUST(n > sizeof bytes || tlsf_read(a->heap, it->name, at, bytes, n) == want);
    for (size_t k = 0; k < n && k < sizeof bytes; k++) MUST(bytes[k] == (want == TLSF_OK ? pattern(it->seed, at + k) : 0x11));
}

static void do_resize(struct area *a) {
    struct block *it = a_live(a);
    const uint32_t n = number() % 900;
    if (it == NULL) return;
    const size_t stay = it->bytes < n ? it->bytes : n, had = it->usable;
    struct tlsf_name name = it->name;
    a->is_mixed = true;
    const bool moves = byte() % 2 == 0;
    const uint32_t answer = moves ? tlsf_reallocate(a->heap, &name, n) : tlsf_resize(a->heap, name, n);
    if (answer != TLSF_OK) {
        MUST(answer == (moves ? TLSF_NO_FIT : TLSF_NO_ROOM) && n > had && tlsf_usable_size(a->heap, it->p) == had);
        see_bytes(it, it->bytes);
        a->refused += moves;
        if (moves && n > a->longest_refused) a->longest_refused = n;
        return;
    }
    if (name.at != it->name.at) leave(a, it);
    it->p = tlsf_payload(a->heap, name, NULL);
    see_bytes(it, stay);
    for (size_t k = had; k < n; k++) MUST(it->p[k] == 0);
    enter(a, it, it->p, n, 8);
    MUST(it->usable == n);
}

/* --- The whole heap ------------------------------------------------------------------------------------------------------ */

/* Each live block is one of the table, and no free block touches another. */
static void do_walk(struct area *a) {
    struct tlsf_block_info at = {0, 0, 0, 0, 0};
    struct tlsf_heap_report report;
    uint32_t from = 0, live = 0, words = 0, bytes = 0, was_free = 0;
    for (; tlsf_block_at(a->heap, from, &at) == TLSF_OK; from += at.size) {
        const struct block *it = block_of(a, a->heap->base + at.at + 3);
        MUST(at.at == from && at.size >= 4 && (at.is_live != 0) == (it != NULL) && !(was_free && !at.is_live));
        if (it != NULL) {
            MUST(at.len == it->usable && at.mark == it->name.serial && 8 * (at.size - 3) >= at.len);
            live++;
            words += at.size;
            bytes += at.len;
        }
        was_free = !at.is_live;
    }
    MUST(from == a->words && tlsf_report(a->heap, &report) == TLSF_OK);
    MUST(report.live_blocks == live && report.live_words == words && report.live_bytes == bytes);
    MUST(report.free_words == from - words);
}

static void do_counts(struct area *a) {
    struct tlsf_heap_counts counts;
    struct tlsf_heap_report report;
    MUST(tlsf_counts(a->heap, &counts) == TLSF_OK && tlsf_report(a->heap, &report) == TLSF_OK);
    MUST(counts.refused >= a->refused && counts.longest_refused >= a->longest_refused);
    if (a->is_uncounted || a->is_mixed) a->refused = counts.refused, a->longest_refused = counts.longest_refused;
    a->is_uncounted = false;
    MUST(counts.refused == a->refused && counts.longest_refused == a->longest_refused);
    MUST(counts.words == report.live_words && counts.most_words >= counts.words && counts.most_words >= a->most_words);
    a->most_words = counts.most_words;
}

static void do_check(struct area *a) {
    const uint32_t most = 1 + byte() % 9, wild_place = number() % (2 * a->words);
    uint32_t from = 0, damaged = 77, looks = 0;
    struct tlsf_block_info at;
    do MUST(tlsf_check(a->heap, from, most, &from, &damaged) == TLSF_OK && damaged == 77 && ++looks <= a->words);
    while (from != 0);
    if (tlsf_block_at(a->heap, wild_place, &at) != TLSF_OK)
        MUST(tlsf_check(a->heap, wild_place, most, &from, &damaged) == TLSF_STALE && from == 0 && damaged == 77);
}

/* What lies past a payload is written over, as a fault in a program does: the check comes back, and says a place that is one. */
static void do_damage(struct area *a) {
    const struct block *it = a_live(a);
    uint32_t from = 0, damaged = 0, looks = 0, answer;
    if (it == NULL) return;
    unsigned char *end = (unsigned char *)(a->heap->base + a->words), *at = it->p + it->usable + byte() % 32;
    for (uint32_t n = 1 + byte() % 24; n > 0 && at < end; n--) *at++ = (unsigned char)byte();
    do answer = tlsf_check(a->heap, from, 5, &from, &damaged);
    while (answer == TLSF_OK && from != 0 && ++looks <= a->words);
    MUST(looks <= a->words && (answer == TLSF_OK || (answer == TLSF_DAMAGED && damaged < a->words)));
}

/* --- An input ------------------------------------------------------------------------------------------------------------ */

static uint32_t open_in(struct area *a, uint32_t level, uint32_t heap, size_t bytes) {
    return heap == 1 ? tlsf_open_in(&a->plain, level, heap, a->memory, bytes) : tlsf_open_near_in(&a->near, level, heap, a->memory, bytes);
}

static bool begin(struct area *a, uint32_t heap) {
    struct tlsf_heap_report report;
    const uint32_t level = 4 + byte() % 2, words = 4 + number() % MOST_WORDS, skew = byte() % FRONT, more = byte() % 100;
    memset(a, 0, sizeof *a);
    a->heap = heap == 1 ? &a->plain : tlsf_near(&a->near);
    a->bytes = (heap == 1 ? tlsf_bytes(level, words) : tlsf_near_bytes(level, words)) + more;
    a->buffer = malloc(FRONT + a->bytes + GUARD);
    if (a->buffer == NULL) return false;
    a->memory = a->buffer + skew;
    memset(a->buffer, 0xa5, FRONT + a->bytes + GUARD);
    MUST(open_in(a, level, heap, byte() % 32) == TLSF_BAD_SIZE && !a->heap->is_open);
    MUST(open_in(a, level, heap, a->bytes) == TLSF_OK);
    MUST(tlsf_report(a->heap, &report) == TLSF_OK && report.live_blocks == 0 && report.free_blocks == 1);
    a->words = report.free_words;
    MUST(a->words >= words && (uintptr_t)a->heap->base % 16 == 8);
    return true;
}

/* Nothing outside of the memory was written, and once all is free there is one free block. */
static void end(struct area *a) {
    struct tlsf_heap_report report;
    for (uint32_t k = 0; k < BLOCKS; k++) {
        struct block *it = &a->blocks[k];
        if (it->p == NULL) continue;
        see_bytes(it, it->bytes);
        MUST(tlsf_free(a->heap, it->p) == TLSF_OK);
        it->p = NULL;
    }
    MUST(tlsf_report(a->heap, &report) == TLSF_OK && report.live_blocks == 0 && report.free_blocks == 1);
    MUST(report.free_words == a->words && tlsf_close(a->heap) == TLSF_OK && tlsf_malloc(a->heap, 8) == NULL);
    for (unsigned char *p = a->buffer; p < a->memory; p++) MUST(*p == 0xa5);
    for (unsigned char *p = a->memory + a->bytes; p < a->buffer + FRONT + a->bytes + GUARD; p++) MUST(*p == 0xa5);
}

int LLVMFuzzerTestOneInput(const uint8_t *bytes, size_t n);

int LLVMFuzzerTestOneInput(const uint8_t *bytes, size_t n) {
    static void (*const calls[])(struct area *) = {do_malloc,      do_malloc, do_malloc, do_calloc, do_aligned, do_realloc, do_realloc,
                                                   do_free,        do_free,   do_free,   do_wild,   do_stale,   do_copy,    do_allocate,
                                                   do_allocate_at, do_resize, do_walk,   do_counts, do_check};
    input = bytes;
    input_end = bytes + n;
    seeds = 0;
    const uint32_t kind = byte(); /* one input in two has no blocks by name, so that all blocks are even */
    if (!begin(&areas[0], 1) || !begin(&areas[1], 2)) abort();
    while (input < input_end) {
        const uint32_t what = byte(), call = what / 2 % (sizeof calls / sizeof *calls);
        if (kind % 2 == 0 && (calls[call] == do_allocate || calls[call] == do_resize)) continue;
        calls[call](&areas[what % 2]);
    }
    for (int k = 0; k < 2; k++) do_walk(&areas[k]), do_counts(&areas[k]), do_check(&areas[k]);
    if (kind % 16 == DAMAGED_KIND) do_damage(&areas[0]), (void)tlsf_close(areas[0].heap), end(&areas[1]);
    else end(&areas[0]), end(&areas[1]);
    for (int k = 0; k < 2; k++) free(areas[k].buffer);
    return 0;
}
