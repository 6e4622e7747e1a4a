/* The bodies of the calls of peachanchor.h that are C, and what is inline. peachanchor.h includes it, and says what each does. */
#ifndef TLSF_INLINE_H
#define TLSF_INLINE_H

/* In C++ too these calls cast as C does. */
#if defined(__cplusplus) && defined(TLSF_GNU)
#pragma GCC diagnostic push
#pragma GCC diagnostic ignored "-Wold-style-cast"
#ifndef __clang__ /* with 32 bits some types are the same */
#pragma GCC diagnostic ignored "-Wuseless-cast"
#endif
#endif

/* What fills and copies, by no header: string.h is the C library's, and may be missing. */
#ifdef TLSF_GNU
#define TLSF_SET __builtin_memset
#define TLSF_COPY __builtin_memcpy
#else
#include <string.h>
#define TLSF_SET memset
#define TLSF_COPY memcpy
#endif

/* What these three name otherwise is called from here on: first what writes a trace, then what marks, then what looks first, so that no
 * mark follows a header before it was looked at. Who asked for a payload may use so many bytes of it, and what is copied out of it is
 * used. */
#ifdef TLSF_TRACE
#include "tlsf_trace.h"
#endif
#ifdef TLSF_MARKED
#include "tlsf_marks.h"
#endif
#ifndef TLSF_ASKED
#define TLSF_ASKED(payload, len, rounded) ((void)(len))
#define TLSF_USED(payload, len) ((void)0)
#define TLSF_LEN_BEFORE(payload, len) TLSF_COPY(len, (const unsigned char *)(payload)-8, 8)
#endif
#ifdef TLSF_CHECKED
#include "tlsf_checked.h"
#else
#define TLSF_IS_DAMAGED(heap, call, at) false
#define TLSF_TOLD(heap, call, answer, at) (answer)
#define TLSF_RELEASE_SEEN(heap, at) tlsf_release_place(heap, at)
#endif

#ifdef __cplusplus
extern "C" {
#endif

/* Where the proved calls find what the header's structs have. */
#ifdef __cplusplus
#define TLSF_LIES(kind, field, byte) static_assert(offsetof(struct kind, field) == byte, #kind " lies otherwise than the calls find it")
#define TLSF_TAKES(kind, bytes) static_assert(sizeof(struct kind) == bytes, #kind " lies otherwise than the calls find it")
#else
#define TLSF_LIES(kind, field, byte) _Static_assert(offsetof(struct kind, field) == byte, #kind " lies otherwise than the calls find it")
#define TLSF_TAKES(kind, bytes) _Static_assert(sizeof(struct kind) == bytes, #kind " lies otherwise than the calls find it")
#endif
TLSF_LIES(tlsf_heap, is_open, 8);
TLSF_LIES(tlsf_heap, base, 16);
TLSF_LIES(tlsf_heap, number, 24);
TLSF_LIES(tlsf_heap, is_mixed, 28);
TLSF_LIES(tlsf_heap, align, 29);
TLSF_TAKES(tlsf_heap, 32);
TLSF_LIES(tlsf_post_end, is_open, 8);
TLSF_TAKES(tlsf_post_end, 16);
TLSF_LIES(tlsf_take_end, is_open, 8);
TLSF_TAKES(tlsf_take_end, 16);
TLSF_LIES(tlsf_queue, is_open, 8);
TLSF_TAKES(tlsf_queue, 16);
TLSF_LIES(tlsf_poster, is_open, 8);
TLSF_TAKES(tlsf_poster, 16);
TLSF_LIES(tlsf_offsets, is_open, 8);
TLSF_TAKES(tlsf_offsets, 16);
TLSF_LIES(tlsf_pools, is_open, 8);
TLSF_TAKES(tlsf_pools, 16);
TLSF_LIES(tlsf_name, serial, 8);
TLSF_TAKES(tlsf_name, 16);
TLSF_LIES(tlsf_placed, serial, 8);
TLSF_TAKES(tlsf_placed, 16);
TLSF_LIES(tlsf_heap_report, age, 40);
TLSF_TAKES(tlsf_heap_report, 48);
TLSF_TAKES(tlsf_heap_counts, 16);
TLSF_LIES(tlsf_block_info, mark, 16);
TLSF_TAKES(tlsf_block_info, 24);
TLSF_LIES(tlsf_span, offset, 16);
TLSF_TAKES(tlsf_span, 32);
TLSF_LIES(tlsf_offsets_usage, held, 8);
TLSF_TAKES(tlsf_offsets_usage, 32);
TLSF_LIES(tlsf_kind, len, 8);
TLSF_TAKES(tlsf_kind, 16);
#undef TLSF_LIES
#undef TLSF_TAKES

#define TLSF_LONGEST (UINT64_C(1) << 27) /* no region has so many bytes */

TLSF_SHORT_CALL size_t tlsf_rounded(size_t len) TLSF_NOEXCEPT {
    return len > SIZE_MAX - 15 ? SIZE_MAX : ((len + 7) / 8 | (TLSF_ALIGN == 16 || len == 0)) * 8;
}

TLSF_SHORT_CALL uint32_t tlsf_place_of(const struct tlsf_heap *heap, const void *p) TLSF_NOEXCEPT {
    const uint64_t offset = (uintptr_t)p - (uintptr_t)heap->base - 24;
    const uint64_t at = offset >> 3 | offset << 61;
    return at < UINT32_MAX ? (uint32_t)at : UINT32_MAX;
}

/* The handle lies at a multiple of 64, so three lines have it, the heap's number, its tick, where its words lie, and its bitmaps. Each
 * is on its way to the cache before one is looked at. */
TLSF_SHORT_CALL struct tlsf_heap *tlsf_near(struct tlsf_near_heap *heap) TLSF_NOEXCEPT {
    unsigned char *const at = heap->room + (-(uintptr_t)heap->room & 63);
#ifdef TLSF_GNU
    __builtin_prefetch(at + 64, 1);
    __builtin_prefetch(at + 128, 1);
#endif
    return (struct tlsf_heap *)(void *)at;
}

TLSF_SHORT_CALL uint64_t *tlsf_base(const struct tlsf_heap *heap) TLSF_NOEXCEPT { return heap->is_open ? heap->base : TLSF_NULL; }

TLSF_SHORT_CALL TLSF_BY_VALUE void *tlsf_at(uint64_t *base, struct tlsf_name name) TLSF_NOEXCEPT {
    return base == TLSF_NULL ? TLSF_NULL : base + name.at + 3;
}

/* The last word of the header is the payload's length. */
TLSF_SHORT_CALL size_t tlsf_block_size(const void *p) TLSF_NOEXCEPT {
    uint64_t len = 0;
#ifdef TLSF_GNU
    __asm__("" : "+r"(p)); /* else gcc, which knows of the block's bytes alone, would warn */
#endif
    if (p != TLSF_NULL) TLSF_LEN_BEFORE(p, &len);
    return (size_t)len;
}

/* A block's header on its way to the cache, while the library looks at its own fields: both are cold in a call that comes rarely. */
TLSF_BODY void tlsf_fetch(uintptr_t header) TLSF_NOEXCEPT {
#ifdef TLSF_GNU
    __builtin_prefetch((const void *)header, 1); /* whatever it is, it is not followed */
#else
    (void)header;
#endif
}

TLSF_BODY void tlsf_fetch_named(const struct tlsf_heap *heap, struct tlsf_name name) TLSF_NOEXCEPT {
    tlsf_fetch((uintptr_t)heap->base + 8 * (uintptr_t)name.at);
}

/* --- By pointer ------------------------------------------------------------------------------------------------------- */

/* What stands apart: in C gcc warns of what is inline and isn't to be inlined. What isn't on the way of a heap whose blocks all have an
 * even number of words. And what only fetches. */
#ifndef TLSF_GNU
#define TLSF_APART TLSF_BODY
#define TLSF_RARE TLSF_BODY
#define TLSF_THIN TLSF_BODY
#else
#ifdef __cplusplus
#define TLSF_APART TLSF_BODY __attribute__((noinline))
#else
#define TLSF_APART static __attribute__((noinline, unused))
#endif
#define TLSF_RARE TLSF_APART __attribute__((cold))
#define TLSF_THIN TLSF_BODY __attribute__((always_inline))
#endif

/* A place for `len` bytes at a multiple of `align` bytes, a power of two from 16 to TLSF_LONGEST. */
TLSF_BODY struct tlsf_placed tlsf_align_place(struct tlsf_heap *heap, size_t len, size_t align) TLSF_NOEXCEPT {
    return tlsf_allocate_aligned(heap, len, (uint32_t)(align / 8), (uint32_t)((uintptr_t)heap->base & (align - 1)) / 8);
}

/* Whether each block that tlsf_rounded bytes were asked for begins where a pointer is aligned to TLSF_ALIGN, and to no more. As a number:
 * a processor compares one with 0 in fewer instructions. */
TLSF_BODY bool tlsf_is_plain(const struct tlsf_heap *heap) TLSF_NOEXCEPT {
    return TLSF_ALIGN == 8 ? heap->align <= TLSF_ALIGN : *(const unsigned char *)&heap->is_mixed == 0;
}

/* What pointers to blocks of a heap are aligned to. */
TLSF_BODY size_t tlsf_align_of(const struct tlsf_heap *heap) TLSF_NOEXCEPT { return heap->align == 0 ? TLSF_ALIGN : heap->align; }

/* tlsf_rounded where pointers are aligned to `align`: with a header the bytes are a multiple of it. `len` is TLSF_LONGEST at most. */
TLSF_BODY size_t tlsf_rounded_to(size_t align, size_t len) TLSF_NOEXCEPT {
    return (((len == 0 ? 1 : len) + 24 + align - 1) & ~(align - 1)) - 24;
}

/* The bytes that a pointer to a block has which was asked for `len`. */
TLSF_BODY size_t tlsf_own_rounded(const struct tlsf_heap *heap, size_t len) TLSF_NOEXCEPT {
    const size_t own = tlsf_align_of(heap);
    return sizeof heap != 4 && own == TLSF_ALIGN ? tlsf_rounded(len) : tlsf_rounded_to(own, len);
}

/* A place for `len` bytes, TLSF_LONGEST at most, in a heap that isn't plain. A misaligned block goes back for one that is aligned. */
TLSF_RARE struct tlsf_placed tlsf_mixed_place(struct tlsf_heap *heap, size_t len, size_t align) TLSF_NOEXCEPT {
    const size_t own = tlsf_align_of(heap), rounded = tlsf_own_rounded(heap, len);
    if (align > own) return tlsf_align_place(heap, rounded, align);
    const struct tlsf_placed it = tlsf_allocate_place(heap, rounded);
    if (it.answer != TLSF_OK || ((uintptr_t)(heap->base + it.at + 3) & (own - 1)) == 0) return it;
    TLSF_RELEASE_SEEN(heap, it.at);
    return tlsf_align_place(heap, rounded, own);
}

#if defined(TLSF_TRACE) || defined(TLSF_MARKED) || defined(TLSF_CHECKED)
/* Where calls are written, marked or looked at first, the call of malloc's is one of them. */
TLSF_ANSWER TLSF_BODY size_t tlsf_made_payload(struct tlsf_heap *heap, size_t len) TLSF_NOEXCEPT {
    struct tlsf_placed it = {0, TLSF_NO_FIT, 0};
    if (len <= TLSF_LONGEST) it = tlsf_allocate_place(heap, (len + 7) / 16 * 16 + 8);
    return it.answer != TLSF_OK ? 0 : 8 * ((size_t)it.at + 3);
}
#define tlsf_allocate_payload tlsf_made_payload
#endif

/* What a request is answered that no heap has room for: where no block begins is told by an open handle that no call is using. */
TLSF_RARE uint32_t tlsf_too_long(struct tlsf_heap *heap) TLSF_NOEXCEPT {
    struct tlsf_block_info none = {0, 0, 0, 0, 0};
    return tlsf_block_at(heap, UINT32_MAX, &none) == TLSF_IS_CLOSED ? TLSF_IS_CLOSED : TLSF_NO_FIT;
}

/* A place for `len` bytes at that alignment, unfilled; TLSF_BAD_SIZE where it is no power of two. */
TLSF_ANSWER TLSF_BODY struct tlsf_placed tlsf_allocate_for(struct tlsf_heap *heap, size_t len, size_t align) TLSF_NOEXCEPT {
    struct tlsf_placed refused = {0, TLSF_BAD_SIZE, 0};
    if (align == 0 || (align & (align - 1)) != 0) return refused;
    if (len > TLSF_LONGEST || align > TLSF_LONGEST) {
        refused.answer = tlsf_too_long(heap);
        return refused;
    }
    if (!tlsf_is_plain(heap)) return tlsf_mixed_place(heap, len, align);
    return align <= TLSF_ALIGN ? tlsf_allocate_place(heap, tlsf_rounded(len)) : tlsf_align_place(heap, tlsf_rounded(len), align);
}

/* The address of a payload of which `len` bytes were asked for, or null where there is none. */
TLSF_BODY void *tlsf_asked_at(struct tlsf_heap *heap, uint32_t answer, uint32_t at, size_t len) TLSF_NOEXCEPT {
    if (answer != TLSF_OK) return TLSF_NULL;
    TLSF_ASKED(heap->base + at + 3, len, tlsf_own_rounded(heap, len));
    return heap->base + at + 3;
}

/* The bodies, where they are inline, and once in the library. */
#if defined(TLSF_INLINE) || defined(TLSF_POINTERS)
TLSF_CALL void *tlsf_aligned_alloc(struct tlsf_heap *heap, size_t align, size_t len) TLSF_NOEXCEPT {
    const struct tlsf_placed it = tlsf_allocate_for(heap, len, align);
    return tlsf_asked_at(heap, it.answer, it.at, len);
}

/* The same address, which a call keeps for what comes after the next. In the library the compiler doesn't know that it is the same: it
 * would save it in front of the test before, and fetch it back. */
TLSF_BODY struct tlsf_heap *tlsf_kept(struct tlsf_heap *heap) TLSF_NOEXCEPT {
#if defined(TLSF_POINTERS) && defined(TLSF_GNU)
    __asm__("" : "+r"(heap));
#endif
    return heap;
}

/* tlsf_malloc in a heap that has an alignment of its own. With 32 bits, where flash is short, it serves each heap that isn't plain. */
TLSF_RARE void *tlsf_malloc_own(struct tlsf_heap *heap, size_t len) TLSF_NOEXCEPT {
    if (len > TLSF_LONGEST) return TLSF_NULL;
    const struct tlsf_placed it = tlsf_mixed_place(heap, len, 1);
    return tlsf_asked_at(heap, it.answer, it.at, len);
}

/* Gives a misaligned block of tlsf_malloc's back for one that is aligned. The block has the length, so that the call keeps none. */
TLSF_RARE void *tlsf_malloc_again(struct tlsf_heap *heap, const void *p) TLSF_NOEXCEPT {
    struct tlsf_block_info it = {0, 0, 0, 0, 0};
    if (tlsf_block_at(heap, tlsf_place_of(heap, p), &it) != TLSF_OK) return TLSF_NULL;
    TLSF_RELEASE_SEEN(heap, it.at);
    const struct tlsf_placed aligned = tlsf_align_place(heap, it.len, TLSF_ALIGN);
    return aligned.answer == TLSF_OK ? heap->base + aligned.at + 3 : TLSF_NULL;
}

/* tlsf_malloc in a heap that isn't plain. */
TLSF_RARE void *tlsf_malloc_mixed(struct tlsf_heap *heap, size_t len) TLSF_NOEXCEPT {
    if (sizeof heap == 4 || tlsf_align_of(heap) != TLSF_ALIGN) return tlsf_malloc_own(heap, len);
    struct tlsf_heap *const kept = tlsf_kept(heap);
    const size_t byte = tlsf_allocate_payload(heap, len);
    if (byte == 0) return TLSF_NULL;
    void *p = (unsigned char *)kept->base + byte;
    if ((uintptr_t)p % TLSF_ALIGN != 0) p = tlsf_malloc_again(kept, p);
    if (p != TLSF_NULL) TLSF_ASKED(p, len, tlsf_rounded(len));
    return p;
}

/* No payload begins at a region's first byte, so 0 says that there is none. */
TLSF_CALL void *tlsf_malloc(struct tlsf_heap *heap, size_t len) TLSF_NOEXCEPT {
    if (!tlsf_is_plain(heap)) return tlsf_malloc_mixed(heap, len);
    if (TLSF_ALIGN == 8) {
        if (len > TLSF_LONGEST) return TLSF_NULL;
        const struct tlsf_placed it = tlsf_allocate_place(heap, tlsf_rounded(len));
        return tlsf_asked_at(heap, it.answer, it.at, len);
    }
    struct tlsf_heap *const kept = tlsf_kept(heap);
    const size_t byte = tlsf_allocate_payload(heap, len);
    if (byte == 0) return TLSF_NULL;
    void *const p = (unsigned char *)kept->base + byte;
    TLSF_ASKED(p, len, tlsf_rounded(len));
    return p;
}

TLSF_CALL uint32_t tlsf_words_for(uint32_t level, uint32_t blocks, size_t len, size_t align, uint32_t *words) TLSF_NOEXCEPT {
    const size_t most = TLSF_LONGEST; /* for more there is no region, and up to it nothing overflows */
    const size_t room = 32 + (align < 16 ? 16 : align < most ? align : most);
    return tlsf_words(level, blocks, tlsf_rounded(len < most ? len : most) + room, words);
}

TLSF_CALL void *tlsf_calloc(struct tlsf_heap *heap, size_t count, size_t each) TLSF_NOEXCEPT {
    struct tlsf_name name = {0, 0, 0};
    if (each != 0 && count > TLSF_LONGEST / each) return TLSF_NULL;
    const size_t len = count * each;
    if (!tlsf_is_plain(heap)) {
        void *const p = tlsf_malloc(heap, len);
        return p == TLSF_NULL ? p : TLSF_SET(p, 0, len);
    }
    const uint32_t answer = tlsf_allocate(heap, tlsf_rounded(len), &name);
    return tlsf_asked_at(heap, answer, name.at, len);
}

TLSF_CALL uint32_t tlsf_free(struct tlsf_heap *heap, void *p) TLSF_NOEXCEPT {
    if (p == TLSF_NULL) return TLSF_OK;
    tlsf_fetch((uintptr_t)p - 24); /* known before the handle is in the cache */
    return tlsf_release_place(heap, tlsf_place_of(heap, p));
}

TLSF_CALL size_t tlsf_usable_size(struct tlsf_heap *heap, const void *p) TLSF_NOEXCEPT {
    struct tlsf_name name = {0, 0, 0};
    uint32_t len = 0;
    return tlsf_place(heap, tlsf_place_of(heap, p), &name, &len) == TLSF_OK ? len : 0;
}

TLSF_CALL uint32_t tlsf_name_at(struct tlsf_heap *heap, const void *p, struct tlsf_name *name) TLSF_NOEXCEPT {
    struct tlsf_name found = {0, 0, 0};
    uint32_t len = 0;
    const uint32_t answer = tlsf_place(heap, tlsf_place_of(heap, p), &found, &len);
    if (answer == TLSF_OK) *name = found;
    return answer;
}

/* Whether a live block may have so many words where it stands, by a look at the block behind it. */
TLSF_BODY bool tlsf_has_room(struct tlsf_heap *heap, const struct tlsf_block_info *it, size_t words) TLSF_NOEXCEPT {
    struct tlsf_block_info behind = {0, 0, 0, 0, 0};
    if (it->size >= words) return true;
    return tlsf_block_at(heap, it->at + it->size, &behind) == TLSF_OK && behind.is_live == 0 && it->size + behind.size >= words;
}

/* Gives the live block at `at` its bytes, where it stands or in a new block, and the address of its payload. */
TLSF_BODY void *tlsf_resized_at(struct tlsf_heap *heap, uint32_t at, size_t rounded, size_t len) TLSF_NOEXCEPT {
    if (tlsf_resize_place(heap, at, rounded, &at) != TLSF_OK) return TLSF_NULL;
    TLSF_ASKED(heap->base + at + 3, len, rounded);
    return heap->base + at + 3;
}

/* Moves a live block to one that was given for it; null where none was. */
TLSF_THIN void *tlsf_moved_to(struct tlsf_heap *heap, const struct tlsf_block_info *it, void *p, void *moved, size_t len) TLSF_NOEXCEPT {
    if (moved == TLSF_NULL) return TLSF_NULL;
    TLSF_USED(p, it->len);
    TLSF_COPY(moved, p, it->len < len ? it->len : len);
    TLSF_RELEASE_SEEN(heap, it->at);
    return moved;
}

/* tlsf_realloc of a block in a heap that isn't plain. One that has enough words for `len`, but not for what that is rounded to, keeps the
 * words that it has. It is a call of its own, so that the usual way needs no frame for what it looks at. */
TLSF_RARE void *tlsf_realloc_mixed(struct tlsf_heap *heap, void *p, size_t len) TLSF_NOEXCEPT {
    struct tlsf_block_info it = {0, 0, 0, 0, 0};
    const uint32_t at = tlsf_place_of(heap, p);
    const size_t own = tlsf_align_of(heap);
    size_t rounded = tlsf_own_rounded(heap, len);
    if (own == 8) return tlsf_resized_at(heap, at, rounded, len); /* each block is so aligned, wherever it goes */
    if (TLSF_IS_DAMAGED(heap, "tlsf_resize_place", at)) return TLSF_NULL;
    if (tlsf_block_at(heap, at, &it) != TLSF_OK || it.is_live == 0) return tlsf_resized_at(heap, at, rounded, len); /* refused */
    if (8 * (it.size - 3) >= len && 8 * (it.size - 3) < rounded) rounded = 8 * (it.size - 3);
    if (tlsf_has_room(heap, &it, 3 + rounded / 8)) return tlsf_resized_at(heap, at, rounded, len);
    return tlsf_moved_to(heap, &it, p, tlsf_malloc(heap, len), len);
}

TLSF_CALL void *tlsf_realloc(struct tlsf_heap *heap, void *p, size_t len) TLSF_NOEXCEPT {
    if (p == TLSF_NULL) return tlsf_malloc(heap, len);
    if (len == 0) tlsf_free(heap, p);
    if (len == 0 || len > TLSF_LONGEST) return TLSF_NULL;
    if (!tlsf_is_plain(heap)) return tlsf_realloc_mixed(heap, p, len);
    return tlsf_resized_at(heap, tlsf_place_of(heap, p), tlsf_rounded(len), len);
}

/* tlsf_aligned_realloc where tlsf_realloc's block might be aligned to less. It keeps words as tlsf_realloc_mixed does. */
TLSF_BODY void *tlsf_realloc_aligned(struct tlsf_heap *heap, void *p, size_t align, size_t len) TLSF_NOEXCEPT {
    struct tlsf_block_info it = {0, 0, 0, 0, 0};
    const uint32_t at = tlsf_place_of(heap, p);
    size_t rounded = tlsf_own_rounded(heap, len);
    if (TLSF_IS_DAMAGED(heap, "tlsf_resize_place", at)) return TLSF_NULL;
    if (tlsf_block_at(heap, at, &it) != TLSF_OK || it.is_live == 0) return tlsf_resized_at(heap, at, rounded, len); /* refused */
    if (8 * (it.size - 3) >= len && 8 * (it.size - 3) < rounded) rounded = 8 * (it.size - 3);
    if (((uintptr_t)p & (align - 1)) == 0 && tlsf_has_room(heap, &it, 3 + rounded / 8)) return tlsf_resized_at(heap, at, rounded, len);
    return tlsf_moved_to(heap, &it, p, tlsf_aligned_alloc(heap, align, len), len);
}

TLSF_CALL void *tlsf_aligned_realloc(struct tlsf_heap *heap, void *p, size_t align, size_t len) TLSF_NOEXCEPT {
    if (p == TLSF_NULL) return tlsf_aligned_alloc(heap, align, len);
    if (align == 0 || (align & (align - 1)) != 0) return TLSF_NULL;
    if (len == 0) tlsf_free(heap, p);
    if (len == 0 || len > TLSF_LONGEST) return TLSF_NULL;
    if (align <= tlsf_align_of(heap) && ((uintptr_t)p & (align - 1)) == 0) return tlsf_realloc(heap, p, len);
    return tlsf_realloc_aligned(heap, p, align, len);
}

TLSF_CALL uint32_t tlsf_allocate_at(struct tlsf_heap *heap, size_t len, size_t align, uint32_t flags, struct tlsf_name *name,
                                    void **payload) TLSF_NOEXCEPT {
    const struct tlsf_placed it = tlsf_allocate_for(heap, len, align);
    const struct tlsf_name own = {heap->number, it.at, it.serial};
    if (it.answer != TLSF_OK) return it.answer;
    if ((flags & TLSF_UNFILLED) == 0) TLSF_SET(heap->base + it.at + 3, 0, tlsf_own_rounded(heap, len));
    *name = own;
    *payload = heap->base + it.at + 3;
    return TLSF_OK;
}

TLSF_CALL TLSF_BY_VALUE void *tlsf_payload(struct tlsf_heap *heap, struct tlsf_name name, uint32_t *len) TLSF_NOEXCEPT {
    uint64_t *base = TLSF_NULL;
    uint32_t bytes = 0;
    if (tlsf_locate(heap, name, &base, &bytes) != TLSF_OK) return TLSF_NULL;
    if (len != TLSF_NULL) *len = bytes;
    return base + name.at + 3;
}

/* --- Pools by pointer: a part has the base and the number that a heap's handle has ------------------------------------------ */

/* The part whose region begins the fewest bytes in front of `p`: if `p` lies in a region it is that one's. One that begins behind `p`
 * counts as nearly all addresses in front of it, and no region is so long. Its address goes to `own`, which tells the place. */
TLSF_BODY uint32_t tlsf_pools_part_of(struct tlsf_pools *pools, const void *p, struct tlsf_heap *own) TLSF_NOEXCEPT {
    uint32_t part = 0, found = 0, number = 0;
    uint64_t *base = TLSF_NULL;
    for (; tlsf_pools_part(pools, part, &base, &number) == TLSF_OK; part++) {
        if (part != 0 && (uintptr_t)p - (uintptr_t)base > (uintptr_t)p - (uintptr_t)own->base) continue;
        own->base = base;
        found = part;
    }
    return found;
}

/* The live block whose payload begins at `p`: its name and its length. */
TLSF_BODY uint32_t tlsf_pools_block(struct tlsf_pools *pools, const void *p, struct tlsf_name *name, uint32_t *len) TLSF_NOEXCEPT {
    struct tlsf_heap own = TLSF_CLOSED;
    const uint32_t part = tlsf_pools_part_of(pools, p, &own);
    return tlsf_pools_place(pools, part, tlsf_place_of(&own, p), name, len);
}

TLSF_CALL uint32_t tlsf_pools_name_at(struct tlsf_pools *pools, const void *p, struct tlsf_name *name) TLSF_NOEXCEPT {
    uint32_t len = 0;
    return tlsf_pools_block(pools, p, name, &len);
}

TLSF_CALL size_t tlsf_pools_usable_size(struct tlsf_pools *pools, const void *p) TLSF_NOEXCEPT {
    struct tlsf_name name = {0, 0, 0};
    uint32_t len = 0;
    return tlsf_pools_block(pools, p, &name, &len) == TLSF_OK ? len : 0;
}

TLSF_CALL uint32_t tlsf_pools_free(struct tlsf_pools *pools, void *p) TLSF_NOEXCEPT {
    struct tlsf_name name = {0, 0, 0};
    if (p == TLSF_NULL) return TLSF_OK;
    const uint32_t answer = tlsf_pools_name_at(pools, p, &name);
    return answer != TLSF_OK ? answer : tlsf_pools_release(pools, name);
}

/* A block of all bytes of a row. Numbers rise by one from part to part, so that of the first tells which part has the block. */
TLSF_BODY void *tlsf_pools_give(struct tlsf_pools *pools, uint32_t bytes) TLSF_NOEXCEPT {
    struct tlsf_name name = {0, 0, 0};
    uint32_t number = 0;
    uint64_t *base = TLSF_NULL;
    if (tlsf_pools_allocate(pools, bytes, &name) != TLSF_OK || tlsf_pools_part(pools, 0, &base, &number) != TLSF_OK) return TLSF_NULL;
    if (name.heap != number && tlsf_pools_part(pools, name.heap - number, &base, &number) != TLSF_OK) return TLSF_NULL;
    return base + name.at + 3;
}

TLSF_CALL void *tlsf_pools_malloc(struct tlsf_pools *pools, size_t len) TLSF_NOEXCEPT {
    uint32_t bytes = 0;
    return tlsf_pools_row(pools, len, &bytes) == TLSF_OK ? tlsf_pools_give(pools, bytes) : TLSF_NULL;
}

TLSF_CALL void *tlsf_pools_realloc(struct tlsf_pools *pools, void *p, size_t len) TLSF_NOEXCEPT {
    struct tlsf_name name = {0, 0, 0};
    uint32_t had = 0, bytes = 0;
    if (p == TLSF_NULL) return tlsf_pools_malloc(pools, len);
    if (len == 0) tlsf_pools_free(pools, p);
    if (len == 0 || tlsf_pools_block(pools, p, &name, &had) != TLSF_OK || tlsf_pools_row(pools, len, &bytes) != TLSF_OK) return TLSF_NULL;
    if (len <= had && had <= bytes) return p; /* rows rise, so what it had counts for the row of `len` */
    void *const moved = tlsf_pools_give(pools, bytes);
    if (moved == TLSF_NULL) return TLSF_NULL;
    TLSF_COPY(moved, p, had < len ? had : len);
    tlsf_pools_release(pools, name);
    return moved;
}

TLSF_CALL const char *tlsf_text_of(uint32_t answer) TLSF_NOEXCEPT {
    switch (answer) {
    case TLSF_OK: return "done";
    case TLSF_NO_FIT: return "no free block fits";
    case TLSF_WORN: return "the ticks or the numbers are used up";
    case TLSF_FOREIGN: return "a name of another heap";
    case TLSF_STALE: return "no live block has that name or address";
    case TLSF_BAD_SIZE: return "a size out of range";
    case TLSF_NO_MEMORY: return "no memory";
    case TLSF_RANGE: return "bytes past the end of the payload";
    case TLSF_FULL: return "the lane or queue is full";
    case TLSF_NO_ROOM: return "no room where the block stands";
    case TLSF_NOT_WRITTEN: return "a line was not written";
    case TLSF_IS_CLOSED: return "the handle is closed";
    case TLSF_IN_USE: return "the handle is open already";
    case TLSF_BAD_LEVEL: return "a level is 4 or 5";
    case TLSF_EMPTY: return "the lane or queue is empty";
    case TLSF_DAMAGED: return "a header is damaged";
    case TLSF_BUSY: return "another thread is in the way: try again";
    case TLSF_ROW_FULL: return "all blocks of that row are held";
    case TLSF_BAD_MEMORY: return "memory that is null, or past the end of the address space";
    case TLSF_OTHER_KIND: return "the handle holds something of another kind";
    default: return "no answer of this library";
    }
}
#endif

/* --- Drains: blocks of names that come are cold, since another thread had them ------------------------------------------- */

/* Whether blocks lie near each other, 512 bytes for each: then they come to the cache by themselves. */
TLSF_BODY bool tlsf_lie_near(const struct tlsf_name *names, size_t n) TLSF_NOEXCEPT {
    uint32_t first = UINT32_MAX, last = 0;
    for (size_t k = 0; k < n; k++) {
        if (names[k].at < first) first = names[k].at;
        if (names[k].at > last) last = names[k].at;
    }
    return n != 0 && last - first < 64 * n;
}

#if defined(TLSF_TRACE) || defined(TLSF_MARKED) || defined(TLSF_CHECKED)
/* Where calls are written, marked or looked at first, each name is released by a call of its own. */
TLSF_BODY uint32_t tlsf_released_all(struct tlsf_heap *heap, const struct tlsf_name *names, size_t n) TLSF_NOEXCEPT {
    struct tlsf_heap_counts counts = {0, 0, 0, 0};
    const uint32_t answer = tlsf_counts(heap, &counts); /* what the heap refuses, before a name is released */
    for (size_t k = 0; answer == TLSF_OK && k < n; k++) (void)tlsf_release(heap, names[k]);
    return answer;
}
#define tlsf_release_all tlsf_released_all
#endif

/* Releases blocks in the order of their names, whatever the heap answers. All their headers are on their way first. */
TLSF_BODY void tlsf_release_ahead(struct tlsf_heap *heap, const struct tlsf_name *names, size_t n) TLSF_NOEXCEPT {
    for (size_t k = 0; k < n; k++) tlsf_fetch_named(heap, names[k]);
    (void)tlsf_release_all(heap, names, n);
}

/* The rest of a lane's names, by the archive's call. It knows no marks, looks at no header before, and writes no trace: then none are
 * left to it. */
TLSF_BODY uint32_t tlsf_drain_rest(struct tlsf_heap *heap, struct tlsf_take_end *take, uint32_t most) TLSF_NOEXCEPT {
    uint32_t came = 0;
    tlsf_drain(heap, take, most, &came);
    return came;
}

#if defined(TLSF_TRACE) || defined(TLSF_CHECKED) || defined(TLSF_MARKED)
#define TLSF_LIE_NEAR(names, n) false
#else
#define TLSF_LIE_NEAR(names, n) tlsf_lie_near(names, n)
#endif

/* A few names first, since most often few are there. */
TLSF_BODY uint32_t tlsf_drain_ahead(struct tlsf_heap *heap, struct tlsf_take_end *take, uint32_t most, uint32_t *came) TLSF_NOEXCEPT {
    struct tlsf_heap_counts counts = {0, 0, 0, 0};
    struct tlsf_name names[32];
    uint32_t count = 0, some = 8, answer = tlsf_counts(heap, &counts); /* what the heap refuses, before a name is taken */
    size_t part = 0;
    if (answer != TLSF_OK) return answer;
    for (bool goes_on = true; goes_on; some = 32) {
        if (some > most - count) some = most - count;
        part = 0;
        answer = tlsf_take_all(take, names, some, &part);
        if (count == 0 && answer != TLSF_OK && answer != TLSF_EMPTY) return answer;
        tlsf_release_ahead(heap, names, part);
        count += (uint32_t)part;
        goes_on = part == some && count < most;
        if (goes_on && TLSF_LIE_NEAR(names, part)) {
            count += tlsf_drain_rest(heap, take, most - count);
            goes_on = false;
        }
    }
    *came = count;
    return TLSF_OK;
}

/* Four names are taken one by one, and each header is on its way as its name comes. */
TLSF_BODY uint32_t tlsf_queue_drain_ahead(struct tlsf_heap *heap, struct tlsf_queue *queue, uint32_t most, uint32_t *came) TLSF_NOEXCEPT {
    struct tlsf_name names[4];
    uint32_t count = 0, part = 0;
    const uint32_t answer = tlsf_queue_drain(heap, queue, 0, &part); /* what it refuses, before a name is taken */
    if (answer != TLSF_OK) return answer;
    do {
        for (part = 0; part < 4 && part < most - count && tlsf_queue_take(queue, &names[part]) == TLSF_OK; part++)
            tlsf_fetch_named(heap, names[part]);
        (void)tlsf_release_all(heap, names, part);
        count += part;
    } while (part == 4);
    *came = count;
    return TLSF_OK;
}

/* --- By name ------------------------------------------------------------------------------------------------------------ */

/* Where it is the proved call's own name. What traces or marks has named another one. */
#ifndef tlsf_release
TLSF_THIN uint32_t tlsf_release_fetched(struct tlsf_heap *heap, struct tlsf_name name) TLSF_NOEXCEPT {
    tlsf_fetch_named(heap, name);
    return tlsf_release(heap, name);
}
#define tlsf_release(...) tlsf_release_fetched(__VA_ARGS__)
#endif
#define tlsf_drain(...) tlsf_drain_ahead(__VA_ARGS__)
#define tlsf_queue_drain(...) tlsf_queue_drain_ahead(__VA_ARGS__)

#ifdef __cplusplus
}
#endif
#if defined(__cplusplus) && defined(TLSF_GNU)
#pragma GCC diagnostic pop
#endif
#endif
