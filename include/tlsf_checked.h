/* Looks at the headers that a call is about to follow, before it follows them. peachanchor.h includes this where TLSF_CHECKED is defined
 * before it, in each file of the program that calls the heap:
 *
 *     #define TLSF_CHECKED
 *     #include <peachanchor.h>
 *     static void on_refusal(struct tlsf_heap *heap, const char *call, uint32_t answer, uint32_t at, void *context) { abort(); }
 *     tlsf_on_refusal(&heap, on_refusal, NULL);
 *
 * A call that would follow a damaged header is refused as TLSF_DAMAGED, or answers null, and changes nothing. So a header that an
 * overrun or a write after a free has changed ends in an answer, and not in a crash or a loop. A release and a resize look at the
 * block and both its neighbours by tlsf_check_around, and an allocate at the block that it would take by tlsf_check_request. A call
 * that may move a block looks at both. No block takes more room.
 *
 * A call that tells the length of a block, reads or writes looks around the block too: by name, by pointer and by place.
 *
 * The program's own function is told of each TLSF_DAMAGED, and of each TLSF_STALE and TLSF_FOREIGN of a call that gives, takes back or
 * resizes. So it is told of a double free too, where the answer is dropped, as C++ containers do. Offsets and pools aren't looked at, and
 * neither are tlsf_report, tlsf_block_at and a dump. What the look doesn't see stands at tlsf_check. It needs gcc or clang. */
#ifndef TLSF_CHECKED_H
#define TLSF_CHECKED_H

#ifdef __cplusplus
extern "C" {
#endif

/* The program's function: the heap, the call that was refused, its answer, and a place. That is the place of the damaged block, or else
 * the one that was given. Of tlsf_free the call is tlsf_release_place, and of each call by pointer the one of peachanchor.h that it makes.
 * The function makes no call on the heap, but it may end the process. */
typedef void tlsf_refusal_function(struct tlsf_heap *heap, const char *call, uint32_t answer, uint32_t at, void *context);

enum { TLSF_REFUSAL_HEAPS = 64 };

/* Whose function is whose. A row is written by the thread that has the heap. */
struct tlsf_refusal_row {
    struct tlsf_heap *heap; /* or null, where the row is free */
    tlsf_refusal_function *function;
    void *context;
};

/* One table for the whole program. */
#ifdef __cplusplus
inline struct tlsf_refusal_row tlsf_refusal_rows[TLSF_REFUSAL_HEAPS];
#else
__attribute__((weak)) struct tlsf_refusal_row tlsf_refusal_rows[TLSF_REFUSAL_HEAPS];
#endif

/* The row of a heap, or null. */
static inline struct tlsf_refusal_row *tlsf_refusal_row_of(const struct tlsf_heap *heap) TLSF_NOEXCEPT {
    for (uint32_t i = 0; i < TLSF_REFUSAL_HEAPS; i++)
        if (__atomic_load_n(&tlsf_refusal_rows[i].heap, __ATOMIC_ACQUIRE) == heap) return &tlsf_refusal_rows[i];
    return TLSF_NULL;
}

/* A free row that is this heap's from now on, or null where there is none. */
static inline struct tlsf_refusal_row *tlsf_refusal_claim(struct tlsf_heap *heap) TLSF_NOEXCEPT {
    for (uint32_t i = 0; i < TLSF_REFUSAL_HEAPS; i++) {
        struct tlsf_heap *none = TLSF_NULL;
        if (__atomic_compare_exchange_n(&tlsf_refusal_rows[i].heap, &none, heap, false, __ATOMIC_ACQ_REL, __ATOMIC_RELAXED))
            return &tlsf_refusal_rows[i];
    }
    return TLSF_NULL;
}

/* Takes a row back. */
static inline void tlsf_refusal_free(struct tlsf_refusal_row *row) TLSF_NOEXCEPT {
    if (row != TLSF_NULL) __atomic_store_n(&row->heap, (struct tlsf_heap *)TLSF_NULL, __ATOMIC_RELEASE);
}

/* Has the function called from now on, with `context`, where a call on the heap is refused so; null takes it back. Closing the heap
 * takes it back too. It is called where calls on the heap may be.
 * Refused: TLSF_FULL, where 64 heaps have one. */
TLSF_ANSWER static inline uint32_t tlsf_on_refusal(struct tlsf_heap *heap, tlsf_refusal_function *function, void *context) TLSF_NOEXCEPT {
    struct tlsf_refusal_row *row = tlsf_refusal_row_of(heap);
    if (function == TLSF_NULL) {
        tlsf_refusal_free(row);
        return TLSF_OK;
    }
    if (row == TLSF_NULL) row = tlsf_refusal_claim(heap);
    if (row == TLSF_NULL) return TLSF_FULL;
    row->function = function;
    row->context = context;
    return TLSF_OK;
}

/* Tells of a refusal, and answers it. */
static __attribute__((noinline, cold, unused)) uint32_t tlsf_refused(struct tlsf_heap *heap, const char *call, uint32_t answer,
                                                                     uint32_t at) TLSF_NOEXCEPT {
    const struct tlsf_refusal_row *row = tlsf_refusal_row_of(heap);
    if (row != TLSF_NULL) row->function(heap, call, answer, at, row->context);
    return answer;
}

/* Tells of an answer that says that there is no such block. */
static inline uint32_t tlsf_told(struct tlsf_heap *heap, const char *call, uint32_t answer, uint32_t at) TLSF_NOEXCEPT {
    return answer == TLSF_STALE || answer == TLSF_FOREIGN ? tlsf_refused(heap, call, answer, at) : answer;
}

/* --- Looks: whether the call has to be refused ----------------------------------------------------------------------- */

static inline bool tlsf_is_damaged_around(struct tlsf_heap *heap, const char *call, uint32_t at) TLSF_NOEXCEPT {
    uint32_t damaged = 0;
    if (tlsf_check_around(heap, at, &damaged) != TLSF_DAMAGED) return false;
    (void)tlsf_refused(heap, call, TLSF_DAMAGED, damaged);
    return true;
}

/* A name of another heap is refused as one, whatever lies at its place. */
static inline bool tlsf_is_damaged_at(struct tlsf_heap *heap, const char *call, struct tlsf_name name) TLSF_NOEXCEPT {
    return name.heap == heap->number && tlsf_is_damaged_around(heap, call, name.at);
}

static inline bool tlsf_is_damaged_for(struct tlsf_heap *heap, const char *call, size_t len) TLSF_NOEXCEPT {
    uint32_t damaged = 0;
    if (tlsf_check_request(heap, len, &damaged) != TLSF_DAMAGED) return false;
    (void)tlsf_refused(heap, call, TLSF_DAMAGED, damaged);
    return true;
}

/* --- The calls in place of those of peachanchor.h --------------------------------------------------------------------------- */

static inline uint32_t tlsf_checked_close(struct tlsf_heap *heap) TLSF_NOEXCEPT {
    const uint32_t answer = tlsf_close(heap);
    if (answer == TLSF_OK) tlsf_refusal_free(tlsf_refusal_row_of(heap));
    return answer;
}

TLSF_ANSWER static inline uint32_t tlsf_checked_allocate(struct tlsf_heap *heap, size_t len, struct tlsf_name *name) TLSF_NOEXCEPT {
    if (tlsf_is_damaged_for(heap, "tlsf_allocate", len)) return TLSF_DAMAGED;
    return tlsf_allocate(heap, len, name);
}

TLSF_ANSWER static inline struct tlsf_placed tlsf_checked_allocate_place(struct tlsf_heap *heap, size_t len) TLSF_NOEXCEPT {
    const struct tlsf_placed refused = {0, TLSF_DAMAGED, 0};
    if (tlsf_is_damaged_for(heap, "tlsf_allocate_place", len)) return refused;
    return tlsf_allocate_place(heap, len);
}

/* The heap takes a block of `step + 4` words more than are wanted. */
TLSF_ANSWER static inline struct tlsf_placed tlsf_checked_allocate_aligned(struct tlsf_heap *heap, size_t len, uint32_t step,
                                                                           uint32_t skew) TLSF_NOEXCEPT {
    const struct tlsf_placed refused = {0, TLSF_DAMAGED, 0};
    const size_t bytes = len < 8 ? 8 : len < UINT32_MAX ? len : UINT32_MAX;
    if (tlsf_is_damaged_for(heap, "tlsf_allocate_aligned", bytes + 8 * ((size_t)(step == 0 ? 1 : step) + 4))) return refused;
    return tlsf_allocate_aligned(heap, len, step, skew);
}

static inline uint32_t tlsf_checked_release(struct tlsf_heap *heap, struct tlsf_name name) TLSF_NOEXCEPT {
    if (tlsf_is_damaged_at(heap, "tlsf_release", name)) return TLSF_DAMAGED;
    return tlsf_told(heap, "tlsf_release", tlsf_release(heap, name), name.at);
}

static inline uint32_t tlsf_checked_release_place(struct tlsf_heap *heap, uint32_t at) TLSF_NOEXCEPT {
    if (tlsf_is_damaged_around(heap, "tlsf_release_place", at)) return TLSF_DAMAGED;
    return tlsf_told(heap, "tlsf_release_place", tlsf_release_place(heap, at), at);
}

TLSF_ANSWER static inline uint32_t tlsf_checked_resize(struct tlsf_heap *heap, struct tlsf_name name, size_t len) TLSF_NOEXCEPT {
    if (tlsf_is_damaged_at(heap, "tlsf_resize", name)) return TLSF_DAMAGED;
    return tlsf_told(heap, "tlsf_resize", tlsf_resize(heap, name, len), name.at);
}

TLSF_ANSWER static inline uint32_t tlsf_checked_reallocate(struct tlsf_heap *heap, struct tlsf_name *name, size_t len) TLSF_NOEXCEPT {
    const uint32_t at = name->at;
    if (tlsf_is_damaged_at(heap, "tlsf_reallocate", *name)) return TLSF_DAMAGED;
    if (tlsf_is_damaged_for(heap, "tlsf_reallocate", len)) return TLSF_DAMAGED;
    return tlsf_told(heap, "tlsf_reallocate", tlsf_reallocate(heap, name, len), at);
}

TLSF_ANSWER static inline uint32_t tlsf_checked_resize_place(struct tlsf_heap *heap, uint32_t at, size_t len,
                                                             uint32_t *new_at) TLSF_NOEXCEPT {
    if (tlsf_is_damaged_around(heap, "tlsf_resize_place", at)) return TLSF_DAMAGED;
    if (tlsf_is_damaged_for(heap, "tlsf_resize_place", len)) return TLSF_DAMAGED;
    return tlsf_told(heap, "tlsf_resize_place", tlsf_resize_place(heap, at, len, new_at), at);
}

/* --- Calls that tell of a block, or read or write its payload: they are about to use its length ------------------------------ */

TLSF_ANSWER static inline uint32_t tlsf_checked_place(struct tlsf_heap *heap, uint32_t at, struct tlsf_name *name,
                                                      uint32_t *len) TLSF_NOEXCEPT {
    if (tlsf_is_damaged_around(heap, "tlsf_place", at)) return TLSF_DAMAGED;
    return tlsf_place(heap, at, name, len);
}

TLSF_ANSWER static inline uint32_t tlsf_checked_locate(struct tlsf_heap *heap, struct tlsf_name name, uint64_t **base,
                                                       uint32_t *len) TLSF_NOEXCEPT {
    if (tlsf_is_damaged_at(heap, "tlsf_locate", name)) return TLSF_DAMAGED;
    return tlsf_locate(heap, name, base, len);
}

TLSF_ANSWER static inline uint32_t tlsf_checked_read(struct tlsf_heap *heap, struct tlsf_name name, uint32_t at, uint8_t *out,
                                                     size_t n) TLSF_NOEXCEPT {
    if (tlsf_is_damaged_at(heap, "tlsf_read", name)) return TLSF_DAMAGED;
    return tlsf_read(heap, name, at, out, n);
}

TLSF_ANSWER static inline uint32_t tlsf_checked_write(struct tlsf_heap *heap, struct tlsf_name name, uint32_t at, const uint8_t *bytes,
                                                      size_t n) TLSF_NOEXCEPT {
    if (tlsf_is_damaged_at(heap, "tlsf_write", name)) return TLSF_DAMAGED;
    return tlsf_write(heap, name, at, bytes, n);
}

/* --- For tlsf_inline.h and tlsf_cache.h --------------------------------------------------------------------------------- */

/* Gives a block back that the same call has looked at, or was given in a place that it has looked at. Another look might refuse it
 * for what is no part of the call, and the block would be lost. */
static inline uint32_t tlsf_release_seen(struct tlsf_heap *heap, uint32_t at) TLSF_NOEXCEPT { return tlsf_release_place(heap, at); }

#define TLSF_IS_DAMAGED(heap, call, at) tlsf_is_damaged_around(heap, call, at)
#define TLSF_TOLD(heap, call, answer, at) tlsf_told(heap, call, answer, at)
#define TLSF_RELEASE_SEEN(heap, at) tlsf_release_seen(heap, at)

#ifdef __cplusplus
}
#endif

/* What tlsf_trace.h or tlsf_marks.h may have named before. */
#undef tlsf_close
#undef tlsf_allocate
#undef tlsf_allocate_place
#undef tlsf_allocate_aligned
#undef tlsf_release
#undef tlsf_release_place
#undef tlsf_resize
#undef tlsf_resize_place
#undef tlsf_reallocate
#undef tlsf_place
#undef tlsf_locate
#undef tlsf_read
#undef tlsf_write
#define tlsf_close tlsf_checked_close
#define tlsf_allocate tlsf_checked_allocate
#define tlsf_allocate_place tlsf_checked_allocate_place
#define tlsf_allocate_aligned tlsf_checked_allocate_aligned
#define tlsf_release tlsf_checked_release
#define tlsf_release_place tlsf_checked_release_place
#define tlsf_resize tlsf_checked_resize
#define tlsf_resize_place tlsf_checked_resize_place
#define tlsf_reallocate tlsf_checked_reallocate
#define tlsf_place tlsf_checked_place
#define tlsf_locate tlsf_checked_locate
#define tlsf_read tlsf_checked_read
#define tlsf_write tlsf_checked_write
#endif
