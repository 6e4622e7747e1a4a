/* A pool of several regions behind one handle. Regions are added and taken away at any time, and each is a heap of peachanchor.h. So a
 * pool may have more than 128 MiB, and memory that comes in pieces. It is for C11 and later, and for C++17 and later, by gcc or clang.
 *
 *     #include <tlsf_parts.h>
 *     static struct tlsf_parts parts;                                       // its bytes are zero, so it is closed
 *     if (tlsf_parts_open(&parts, 5, 1) || tlsf_parts_add(&parts, sram, sizeof sram)) return 1;
 *     void *p = tlsf_parts_malloc(&parts, 100);
 *     if (tlsf_parts_add(&parts, sdram, sdram_bytes)) return 1;             // later, where more is wanted
 *     tlsf_parts_free(&parts, p);
 *     tlsf_parts_remove(&parts, sdram);                                     // with all blocks that lie there
 *     tlsf_parts_close(&parts);
 *
 * A request goes to the regions in the order in which they were added, and the first with room serves it. So fast memory comes first, and
 * a region that was added last is the first to be empty. A block lies in one region. No two regions are joined, also where their memory
 * adjoins: the longest block is that of the largest region, 128 MiB at level 5. All is inline, over calls of peachanchor.h alone, so
 * what is proved of these holds for each region. It takes no memory but what is added. Each region has this header's own fields at the
 * start of its memory, 64 bytes on 64 bits.
 *
 * WHAT IT COSTS
 *   Requests. At most one call of peachanchor.h for each region: as many calls as there are full regions in front of the one that serves.
 *     One that is refused is asked of all.
 *   By pointer. A free, a look or a realloc reads two fields of each region up to that of the pointer, and makes its call there. A
 *     pointer in no region goes to the first one, which refuses it. So what looks first (tlsf_checked.h) tells of it too.
 *   By name. As by pointer: the heap's number tells the region. Regions have numbers from the one on that the pool is opened with.
 *   A realloc for which its region has no room: one call besides for each other region, a copy and a free.
 *   The worst call grows with the number of regions, which is no bound of peachanchor.h. With one region it is that of its call.
 * What writes a trace has the calls on one region: the first, or that of TLSF_TRACE_NUMBER.
 *
 * WHAT THE CALLER OWES, besides the rules of peachanchor.h. Nothing checks these.
 *   1. A pool is a handle, which is closed before it is opened. One thread at a time calls it, or any of its regions.
 *   2. Memory that was added is the pool's alone until it is removed or the pool is closed. The handle doesn't lie there.
 *   3. No call of peachanchor.h opens or closes a region.
 * All other calls of peachanchor.h may be made on the heap of a region, as tlsf_report, tlsf_check or tlsf_drain. */
#ifndef TLSF_PARTS_H
#define TLSF_PARTS_H

/* Behind a tlsf.h of compat/ some names of peachanchor.h are macros, which lead elsewhere. */
#ifdef TLSF_COMPAT
#error "tlsf_parts.h comes before a tlsf.h of compat/"
#endif
#include "peachanchor.h"

#ifndef TLSF_GNU
#error "tlsf_parts.h is for gcc and clang"
#endif

/* In C++ too these calls cast as C does. */
#ifdef __cplusplus
#pragma GCC diagnostic push
#pragma GCC diagnostic ignored "-Wold-style-cast"
#ifndef __clang__ /* with 32 bits some types are the same */
#pragma GCC diagnostic ignored "-Wuseless-cast"
#endif
#endif

#ifdef __cplusplus
extern "C" {
#endif

/* A region, which begins at the first multiple of 8 in its memory. Calls of peachanchor.h take its `heap`; all is written by this header
 * alone. */
struct tlsf_part {
    struct tlsf_heap heap;
    TLSF_AT_8 struct tlsf_part *next; /* the region that was added after it, or null */
    TLSF_AT_8 void *memory;           /* as tlsf_parts_add got it: regions that it cut long memory into have the same */
    size_t bytes;                     /* of the heap's words */
    size_t length;                    /* of its memory, with what is in front of the words and behind */
};

/* A pool. Its fields are its calls' own, but for `align`: what pointers to its blocks are aligned to, as a heap's, which the program may
 * write before the pool is opened. */
struct tlsf_parts {
    TLSF_AT_8 struct tlsf_part *first; /* null: there is no region */
    TLSF_AT_8 struct tlsf_part *last;
    TLSF_AT_8 uint64_t number; /* the next region's */
    uint32_t level;
    bool is_open;
    uint8_t align;
};

/* One that isn't open, to begin with alone. One whose bytes are all zero is closed too. */
/* clang-format off */
#define TLSF_PARTS_CLOSED { TLSF_NULL, TLSF_NULL, 0, 0, false, 0 }
/* clang-format on */

/* What all regions have counted together, as tlsf_counts. */
struct tlsf_parts_usage {
    uint32_t parts;      /* regions */
    uint64_t words;      /* in live blocks now, with their headers */
    uint64_t most_words; /* the sum of the most that each region ever had: with one region the most there ever were */
    uint64_t all_words;  /* that the regions have */
};

/* Opens a pool that has no region yet, in a closed handle. Its regions will be of that level, and their names have numbers from `number`
 * on, one more each time that a region is added: so give other heaps other numbers.
 * Refused, in this order: TLSF_IN_USE, TLSF_BAD_LEVEL, TLSF_BAD_SIZE for an `align` that no heap has. */
TLSF_ANSWER TLSF_BODY uint32_t tlsf_parts_open(struct tlsf_parts *parts, uint32_t level, uint32_t number) TLSF_NOEXCEPT;

/* Adds `bytes` bytes from `memory` on, at any alignment, as the last region. Where they are more than the largest region takes they are
 * cut into several, and a rest of less than 4 KiB is left out. All is the caller's again once it is removed.
 * Refused, in this order: TLSF_IS_CLOSED, TLSF_BAD_MEMORY as tlsf_open_in, TLSF_IN_USE where some of it is a region's, TLSF_BAD_SIZE where
 * fewer than 4 words fit, TLSF_WORN where numbers are used up. */
TLSF_ANSWER TLSF_BODY uint32_t tlsf_parts_add(struct tlsf_parts *parts, void *memory, size_t bytes) TLSF_NOEXCEPT;

/* The fewest bytes in which tlsf_parts_add finds room for so many words, at any alignment of `memory`. It is 0 where no region of that
 * level has so many. */
TLSF_BODY size_t tlsf_parts_bytes(uint32_t level, size_t align, uint32_t words) TLSF_NOEXCEPT;

/* Takes away what tlsf_parts_add got as `memory`, with all blocks that lie there: tlsf_counts of a region's heap tells whether there are
 * any. Other regions stay. Refused: TLSF_IS_CLOSED; TLSF_STALE where no region has that `memory`. */
TLSF_BODY uint32_t tlsf_parts_remove(struct tlsf_parts *parts, const void *memory) TLSF_NOEXCEPT;

/* Closes the pool, with all regions and blocks. Refused: TLSF_IS_CLOSED. */
TLSF_BODY uint32_t tlsf_parts_close(struct tlsf_parts *parts) TLSF_NOEXCEPT;

/* The region after `part`, or the first one where that is null; null where there is none. */
TLSF_BODY struct tlsf_part *tlsf_parts_next(const struct tlsf_parts *parts, const struct tlsf_part *part) TLSF_NOEXCEPT;

/* Sums over all regions, by tlsf_counts of each. Refused: TLSF_IS_CLOSED. */
TLSF_ANSWER TLSF_BODY uint32_t tlsf_parts_counts(struct tlsf_parts *parts, struct tlsf_parts_usage *usage) TLSF_NOEXCEPT;

/* tlsf_check of each whole region, up to the first that is refused, whose answer it is. Refused: TLSF_IS_CLOSED, TLSF_DAMAGED. */
TLSF_ANSWER TLSF_BODY uint32_t tlsf_parts_check(struct tlsf_parts *parts) TLSF_NOEXCEPT;

/* As the calls of peachanchor.h by pointer. `p` is any pointer. A block that its own region can't resize moves to another one, where
 * that has room. */
TLSF_ANSWER TLSF_BODY void *tlsf_parts_malloc(struct tlsf_parts *parts, size_t len) TLSF_NOEXCEPT;
TLSF_ANSWER TLSF_BODY void *tlsf_parts_calloc(struct tlsf_parts *parts, size_t count, size_t each) TLSF_NOEXCEPT;
TLSF_ANSWER TLSF_BODY void *tlsf_parts_aligned_alloc(struct tlsf_parts *parts, size_t align, size_t len) TLSF_NOEXCEPT;
TLSF_ANSWER TLSF_BODY void *tlsf_parts_realloc(struct tlsf_parts *parts, void *p, size_t len) TLSF_NOEXCEPT;
TLSF_ANSWER TLSF_BODY void *tlsf_parts_aligned_realloc(struct tlsf_parts *parts, void *p, size_t align, size_t len) TLSF_NOEXCEPT;
TLSF_BODY uint32_t tlsf_parts_free(struct tlsf_parts *parts, void *p) TLSF_NOEXCEPT;
TLSF_BODY size_t tlsf_parts_usable_size(struct tlsf_parts *parts, const void *p) TLSF_NOEXCEPT;
TLSF_ANSWER TLSF_BODY uint32_t tlsf_parts_name_at(struct tlsf_parts *parts, const void *p, struct tlsf_name *name) TLSF_NOEXCEPT;

/* As the calls of peachanchor.h by name. A name of no region is TLSF_FOREIGN, also one of a region that was removed. An allocate that
 * is refused has the answer of the last region, and is TLSF_NO_FIT where there is none. tlsf_parts_reallocate may move a block to another
 * region, and then its name has another number. */
TLSF_ANSWER TLSF_BODY uint32_t tlsf_parts_allocate(struct tlsf_parts *parts, size_t len, struct tlsf_name *name) TLSF_NOEXCEPT;
TLSF_BODY uint32_t tlsf_parts_release(struct tlsf_parts *parts, struct tlsf_name name) TLSF_NOEXCEPT;
TLSF_ANSWER TLSF_BODY uint32_t tlsf_parts_resize(struct tlsf_parts *parts, struct tlsf_name name, size_t len) TLSF_NOEXCEPT;
TLSF_ANSWER TLSF_BODY uint32_t tlsf_parts_reallocate(struct tlsf_parts *parts, struct tlsf_name *name, size_t len) TLSF_NOEXCEPT;
TLSF_ANSWER TLSF_BODY uint32_t tlsf_parts_write(struct tlsf_parts *parts, struct tlsf_name name, uint32_t at, const uint8_t *bytes,
                                                size_t n) TLSF_NOEXCEPT;
TLSF_ANSWER TLSF_BODY uint32_t tlsf_parts_read(struct tlsf_parts *parts, struct tlsf_name name, uint32_t at, uint8_t *out,
                                               size_t n) TLSF_NOEXCEPT;
TLSF_BODY void *tlsf_parts_payload(struct tlsf_parts *parts, struct tlsf_name name, uint32_t *len) TLSF_NOEXCEPT;

/* The heap of the region that a name is of, or null: for tlsf_locate and others. */
TLSF_BODY struct tlsf_heap *tlsf_parts_heap(const struct tlsf_parts *parts, struct tlsf_name name) TLSF_NOEXCEPT;

/* --- The calls, and their parts ------------------------------------------------------------------------------------- */

enum { TLSF_PARTS_LEAST = 4096 }; /* a shorter rest of long memory is no region */

/* The words that the largest region of a level has. */
TLSF_BODY uint32_t tlsf_parts_most(uint32_t level) TLSF_NOEXCEPT { return UINT32_C(1) << (level == 4 ? 20 : 24); }

TLSF_BODY size_t tlsf_parts_bytes(uint32_t level, size_t align, uint32_t words) TLSF_NOEXCEPT {
    const size_t bytes = tlsf_bytes(level, words);
    return bytes == 0 ? 0 : sizeof(struct tlsf_part) + bytes + (align > 16 ? align - 16 : 0);
}

TLSF_BODY uint32_t tlsf_parts_open(struct tlsf_parts *parts, uint32_t level, uint32_t number) TLSF_NOEXCEPT {
    const uint8_t align = parts->align;
    if (parts->is_open) return TLSF_IN_USE;
    if (level != 4 && level != 5) return TLSF_BAD_LEVEL;
    if (align != 0 && align != 8 && align != 16 && align != 32 && align != 64) return TLSF_BAD_SIZE;
    parts->first = parts->last = TLSF_NULL;
    parts->number = number;
    parts->level = level;
    parts->is_open = true;
    return TLSF_OK;
}

/* Whether some of these bytes are a region's, with the fields in front of it. */
TLSF_BODY bool tlsf_parts_overlap(const struct tlsf_parts *parts, uintptr_t from, uintptr_t to) TLSF_NOEXCEPT {
    for (const struct tlsf_part *it = parts->first; it != TLSF_NULL; it = it->next)
        if (from < (uintptr_t)it + it->length && (uintptr_t)it < to) return true;
    return false;
}

/* Opens a region in these bytes, behind its own fields, and adds it as the last one. */
TLSF_BODY uint32_t tlsf_parts_open_one(struct tlsf_parts *parts, struct tlsf_part *part, size_t bytes, void *memory) TLSF_NOEXCEPT {
    struct tlsf_block_info whole = {0, 0, 0, 0, 0};
    if (parts->number > UINT32_MAX) return TLSF_WORN;
    TLSF_SET(part, 0, sizeof *part);
    part->heap.align = parts->align;
    const uint32_t answer = tlsf_open_in(&part->heap, parts->level, (uint32_t)parts->number, part + 1, bytes - sizeof *part);
    if (answer != TLSF_OK) return answer;
    if (tlsf_block_at(&part->heap, 0, &whole) == TLSF_OK) part->bytes = 8 * (size_t)whole.size;
    part->memory = memory;
    part->length = bytes;
    if (parts->last == TLSF_NULL) parts->first = part;
    else parts->last->next = part;
    parts->last = part;
    parts->number++;
    return TLSF_OK;
}

TLSF_BODY uint32_t tlsf_parts_add(struct tlsf_parts *parts, void *memory, size_t bytes) TLSF_NOEXCEPT {
    const uintptr_t from = (uintptr_t)memory, skipped = -from & 7;
    const size_t most = tlsf_parts_bytes(parts->level, parts->align, tlsf_parts_most(parts->level));
    uint32_t answer = TLSF_BAD_SIZE;
    if (!parts->is_open) return TLSF_IS_CLOSED;
    if (from == 0 || from + bytes < from) return TLSF_BAD_MEMORY;
    if (tlsf_parts_overlap(parts, from, from + bytes)) return TLSF_IN_USE;
    for (size_t at = skipped; at < bytes && bytes - at > sizeof(struct tlsf_part);) {
        const size_t own = bytes - at < most ? bytes - at : most & ~(size_t)7;
        if (answer == TLSF_OK && own < TLSF_PARTS_LEAST) break;
        answer = tlsf_parts_open_one(parts, (struct tlsf_part *)(void *)((unsigned char *)memory + at), own, memory);
        if (answer != TLSF_OK) break;
        at += own;
    }
    if (answer != TLSF_OK) (void)tlsf_parts_remove(parts, memory); /* those in front of it, where there are any */
    return answer;
}

TLSF_BODY uint32_t tlsf_parts_remove(struct tlsf_parts *parts, const void *memory) TLSF_NOEXCEPT {
    struct tlsf_part *before = TLSF_NULL, *next;
    uint32_t answer = parts->is_open ? TLSF_STALE : TLSF_IS_CLOSED;
    for (struct tlsf_part *it = parts->first; it != TLSF_NULL; it = next) {
        next = it->next;
        if (it->memory != memory) {
            before = it;
            continue;
        }
        if (before == TLSF_NULL) parts->first = next;
        else before->next = next;
        (void)tlsf_close(&it->heap);
        answer = TLSF_OK;
    }
    parts->last = before;
    return answer;
}

TLSF_BODY uint32_t tlsf_parts_close(struct tlsf_parts *parts) TLSF_NOEXCEPT {
    if (!parts->is_open) return TLSF_IS_CLOSED;
    for (struct tlsf_part *it = parts->first, *next; it != TLSF_NULL; it = next) {
        next = it->next;
        (void)tlsf_close(&it->heap);
    }
    parts->first = parts->last = TLSF_NULL;
    parts->is_open = false;
    return TLSF_OK;
}

TLSF_BODY struct tlsf_part *tlsf_parts_next(const struct tlsf_parts *parts, const struct tlsf_part *part) TLSF_NOEXCEPT {
    return part == TLSF_NULL ? parts->first : part->next;
}

TLSF_BODY uint32_t tlsf_parts_counts(struct tlsf_parts *parts, struct tlsf_parts_usage *usage) TLSF_NOEXCEPT {
    struct tlsf_parts_usage sums = {0, 0, 0, 0};
    if (!parts->is_open) return TLSF_IS_CLOSED;
    for (struct tlsf_part *it = parts->first; it != TLSF_NULL; it = it->next) {
        struct tlsf_heap_counts counts = {0, 0, 0, 0};
        const uint32_t answer = tlsf_counts(&it->heap, &counts);
        if (answer != TLSF_OK) return answer;
        sums.parts++;
        sums.words += counts.words;
        sums.most_words += counts.most_words;
        sums.all_words += it->bytes / 8;
    }
    *usage = sums;
    return TLSF_OK;
}

TLSF_BODY uint32_t tlsf_parts_check(struct tlsf_parts *parts) TLSF_NOEXCEPT {
    uint32_t next = 0, damaged = 0, answer = parts->is_open ? TLSF_OK : TLSF_IS_CLOSED;
    for (struct tlsf_part *it = parts->first; it != TLSF_NULL && answer == TLSF_OK; it = it->next)
        answer = tlsf_check(&it->heap, 0, UINT32_MAX, &next, &damaged);
    return answer;
}

/* What a call answers where there is no region. */
TLSF_BODY uint32_t tlsf_parts_none(const struct tlsf_parts *parts, uint32_t answer) TLSF_NOEXCEPT {
    return parts->is_open ? answer : (uint32_t)TLSF_IS_CLOSED;
}

/* The region that has this address, or else the first one, or null. */
TLSF_BODY struct tlsf_part *tlsf_parts_of(const struct tlsf_parts *parts, const void *p) TLSF_NOEXCEPT {
    for (struct tlsf_part *it = parts->first; it != TLSF_NULL; it = it->next)
        if ((uintptr_t)p - (uintptr_t)it->heap.base < it->bytes) return it;
    return parts->first;
}

/* --- By pointer ------------------------------------------------------------------------------------------------------- */

/* tlsf_malloc. Aligned to 8, no block is misaligned: then this is its call with no look. */
TLSF_BODY void *tlsf_parts_ask(struct tlsf_heap *heap, size_t len) TLSF_NOEXCEPT {
    if (heap->align != 8 || len > TLSF_LONGEST) return tlsf_malloc(heap, len);
    const struct tlsf_placed it = tlsf_allocate_place(heap, tlsf_rounded_to(8, len));
    return tlsf_asked_at(heap, it.answer, it.at, len);
}

TLSF_BODY void *tlsf_parts_malloc(struct tlsf_parts *parts, size_t len) TLSF_NOEXCEPT {
    void *p = TLSF_NULL;
    for (struct tlsf_part *it = parts->first; it != TLSF_NULL && p == TLSF_NULL; it = it->next) p = tlsf_parts_ask(&it->heap, len);
    return p;
}

TLSF_BODY void *tlsf_parts_calloc(struct tlsf_parts *parts, size_t count, size_t each) TLSF_NOEXCEPT {
    void *p = TLSF_NULL;
    for (struct tlsf_part *it = parts->first; it != TLSF_NULL && p == TLSF_NULL; it = it->next) p = tlsf_calloc(&it->heap, count, each);
    return p;
}

TLSF_BODY void *tlsf_parts_aligned_alloc(struct tlsf_parts *parts, size_t align, size_t len) TLSF_NOEXCEPT {
    void *p = TLSF_NULL;
    for (struct tlsf_part *it = parts->first; it != TLSF_NULL && p == TLSF_NULL; it = it->next)
        p = tlsf_aligned_alloc(&it->heap, align, len);
    return p;
}

TLSF_BODY uint32_t tlsf_parts_free(struct tlsf_parts *parts, void *p) TLSF_NOEXCEPT {
    if (p == TLSF_NULL) return TLSF_OK;
    struct tlsf_part *const part = tlsf_parts_of(parts, p);
    return part == TLSF_NULL ? tlsf_parts_none(parts, TLSF_STALE) : tlsf_free(&part->heap, p);
}

TLSF_BODY size_t tlsf_parts_usable_size(struct tlsf_parts *parts, const void *p) TLSF_NOEXCEPT {
    struct tlsf_part *const part = tlsf_parts_of(parts, p);
    return part == TLSF_NULL ? 0 : tlsf_usable_size(&part->heap, p);
}

TLSF_BODY uint32_t tlsf_parts_name_at(struct tlsf_parts *parts, const void *p, struct tlsf_name *name) TLSF_NOEXCEPT {
    struct tlsf_part *const part = tlsf_parts_of(parts, p);
    return part == TLSF_NULL ? tlsf_parts_none(parts, TLSF_STALE) : tlsf_name_at(&part->heap, p, name);
}

/* Moves a block that its region can't resize to another one. `align` is at least 1. Null also where `p` is no live block. */
TLSF_RARE void *tlsf_parts_move(struct tlsf_parts *parts, struct tlsf_part *from, void *p, size_t align, size_t len) TLSF_NOEXCEPT {
    struct tlsf_name name = {0, 0, 0};
    uint32_t had = 0;
    void *moved = TLSF_NULL;
    if (parts->first == parts->last || tlsf_place(&from->heap, tlsf_place_of(&from->heap, p), &name, &had) != TLSF_OK) return TLSF_NULL;
    for (struct tlsf_part *it = parts->first; it != TLSF_NULL && moved == TLSF_NULL; it = it->next)
        if (it != from) moved = tlsf_aligned_alloc(&it->heap, align, len);
    if (moved == TLSF_NULL) return TLSF_NULL;
    TLSF_COPY(moved, p, had < len ? had : len);
    (void)tlsf_free(&from->heap, p);
    return moved;
}

TLSF_BODY void *tlsf_parts_realloc(struct tlsf_parts *parts, void *p, size_t len) TLSF_NOEXCEPT {
    if (p == TLSF_NULL) return tlsf_parts_malloc(parts, len);
    struct tlsf_part *const part = tlsf_parts_of(parts, p);
    if (part == TLSF_NULL) return TLSF_NULL;
    void *const changed = tlsf_realloc(&part->heap, p, len);
    return changed != TLSF_NULL || len == 0 ? changed : tlsf_parts_move(parts, part, p, 1, len);
}

TLSF_BODY void *tlsf_parts_aligned_realloc(struct tlsf_parts *parts, void *p, size_t align, size_t len) TLSF_NOEXCEPT {
    if (p == TLSF_NULL) return tlsf_parts_aligned_alloc(parts, align, len);
    struct tlsf_part *const part = tlsf_parts_of(parts, p);
    if (part == TLSF_NULL) return TLSF_NULL;
    void *const changed = tlsf_aligned_realloc(&part->heap, p, align, len);
    return changed != TLSF_NULL || len == 0 ? changed : tlsf_parts_move(parts, part, p, align, len);
}

/* --- By name ------------------------------------------------------------------------------------------------------------ */

TLSF_BODY struct tlsf_heap *tlsf_parts_heap(const struct tlsf_parts *parts, struct tlsf_name name) TLSF_NOEXCEPT {
    struct tlsf_part *it = parts->first;
    while (it != TLSF_NULL && it->heap.number != name.heap) it = it->next;
    return it == TLSF_NULL ? TLSF_NULL : &it->heap;
}

TLSF_BODY uint32_t tlsf_parts_allocate(struct tlsf_parts *parts, size_t len, struct tlsf_name *name) TLSF_NOEXCEPT {
    uint32_t answer = tlsf_parts_none(parts, TLSF_NO_FIT);
    for (struct tlsf_part *it = parts->first; it != TLSF_NULL && answer != TLSF_OK; it = it->next)
        answer = tlsf_allocate(&it->heap, len, name);
    return answer;
}

TLSF_BODY uint32_t tlsf_parts_release(struct tlsf_parts *parts, struct tlsf_name name) TLSF_NOEXCEPT {
    struct tlsf_heap *const heap = tlsf_parts_heap(parts, name);
    return heap == TLSF_NULL ? tlsf_parts_none(parts, TLSF_FOREIGN) : tlsf_release(heap, name);
}

TLSF_BODY uint32_t tlsf_parts_resize(struct tlsf_parts *parts, struct tlsf_name name, size_t len) TLSF_NOEXCEPT {
    struct tlsf_heap *const heap = tlsf_parts_heap(parts, name);
    return heap == TLSF_NULL ? tlsf_parts_none(parts, TLSF_FOREIGN) : tlsf_resize(heap, name, len);
}

TLSF_BODY void *tlsf_parts_payload(struct tlsf_parts *parts, struct tlsf_name name, uint32_t *len) TLSF_NOEXCEPT {
    struct tlsf_heap *const heap = tlsf_parts_heap(parts, name);
    return heap == TLSF_NULL ? TLSF_NULL : tlsf_payload(heap, name, len);
}

TLSF_BODY uint32_t tlsf_parts_write(struct tlsf_parts *parts, struct tlsf_name name, uint32_t at, const uint8_t *bytes,
                                    size_t n) TLSF_NOEXCEPT {
    struct tlsf_heap *const heap = tlsf_parts_heap(parts, name);
    return heap == TLSF_NULL ? tlsf_parts_none(parts, TLSF_FOREIGN) : tlsf_write(heap, name, at, bytes, n);
}

TLSF_BODY uint32_t tlsf_parts_read(struct tlsf_parts *parts, struct tlsf_name name, uint32_t at, uint8_t *out, size_t n) TLSF_NOEXCEPT {
    struct tlsf_heap *const heap = tlsf_parts_heap(parts, name);
    return heap == TLSF_NULL ? tlsf_parts_none(parts, TLSF_FOREIGN) : tlsf_read(heap, name, at, out, n);
}

/* The live block of that name moves from its region, which has no room, to another one. */
TLSF_RARE uint32_t tlsf_parts_move_named(struct tlsf_parts *parts, struct tlsf_heap *from, struct tlsf_name *name,
                                         size_t len) TLSF_NOEXCEPT {
    struct tlsf_name moved = {0, 0, 0};
    uint64_t *base = TLSF_NULL;
    uint32_t had = 0, answer = TLSF_NO_FIT;
    struct tlsf_part *it = parts->first;
    if (tlsf_locate(from, *name, &base, &had) != TLSF_OK) return TLSF_NO_FIT;
    for (; it != TLSF_NULL; it = it->next) {
        if (&it->heap != from) answer = tlsf_allocate(&it->heap, len, &moved);
        if (answer == TLSF_OK) break;
    }
    if (answer != TLSF_OK) return TLSF_NO_FIT;
    TLSF_COPY(it->heap.base + moved.at + 3, base + name->at + 3, had < len ? had : len);
    (void)tlsf_release(from, *name);
    *name = moved;
    return TLSF_OK;
}

TLSF_BODY uint32_t tlsf_parts_reallocate(struct tlsf_parts *parts, struct tlsf_name *name, size_t len) TLSF_NOEXCEPT {
    struct tlsf_heap *const heap = tlsf_parts_heap(parts, *name);
    if (heap == TLSF_NULL) return tlsf_parts_none(parts, TLSF_FOREIGN);
    const uint32_t answer = tlsf_reallocate(heap, name, len);
    return answer == TLSF_NO_FIT ? tlsf_parts_move_named(parts, heap, name, len) : answer;
}

#ifdef __cplusplus
}
#endif
#ifdef __cplusplus
#pragma GCC diagnostic pop
#endif
#endif
