/* Marks what isn't live, so that an overrun or a use after free is told where it happens, and tells in which order lanes and queues hand
 * names over. peachanchor.h includes this where one of these is defined before it, in each file of the program that calls the heap:
 *
 *   TLSF_ASAN      for -fsanitize=address: what isn't payload is poisoned.
 *   TLSF_VALGRIND  for valgrind: to memcheck what isn't payload may not be touched, and new payload isn't initialised unless
 *                  the call fills it; to helgrind lanes and queues are told.
 *   TLSF_TSAN      for -fsanitize=thread: lanes and queues are told.
 *
 * What a thread did before it put a name in comes before all that another does once it has taken that name, or drained it. So payload
 * that was handed over is no race, and what touches it on the wrong side is one. Nothing is told of other names, as of those that wait.
 *
 * Marks hold for memory of tlsf_open_in too. Lanes aren't marked. Of what malloc's calls give, the bytes that were asked for are
 * payload. Once tlsf_usable_size or tlsf_name_at was asked, all bytes of the block are, and of tlsf_allocate_at from the start.
 * Calls answer as they do without marks, and take longer: a move is made of an allocate, a copy and a release, and closing looks
 * at all blocks. */
#ifndef TLSF_MARKS_H
#define TLSF_MARKS_H

#if defined(TLSF_ASAN) + defined(TLSF_VALGRIND) + defined(TLSF_TSAN) > 1
#error "one of TLSF_ASAN, TLSF_VALGRIND and TLSF_TSAN"
#endif
#ifndef TLSF_VALGRIND
#define TLSF_BEGIN_CALL ((void)0)
#define TLSF_END_CALL ((void)0)
#endif
#ifdef TLSF_ASAN
#include <sanitizer/asan_interface.h>
#elif defined(TLSF_TSAN)
#include <sanitizer/tsan_interface.h>
#else
#include <valgrind/memcheck.h>
#ifdef __has_include
#if __has_include(<valgrind/helgrind.h>)
#include <valgrind/helgrind.h>
#endif
#endif
#ifndef ANNOTATE_HAPPENS_BEFORE
#define ANNOTATE_HAPPENS_BEFORE(of) ((void)(of))
#define ANNOTATE_HAPPENS_AFTER(of) ((void)(of))
#endif
/* The heap's own reads and writes of its headers aren't reported. */
#define TLSF_BEGIN_CALL VALGRIND_DISABLE_ERROR_REPORTING
#define TLSF_END_CALL VALGRIND_ENABLE_ERROR_REPORTING
#endif

#ifdef __cplusplus
extern "C" {
#endif

#ifndef TLSF_TSAN
/* --- Marks ---------------------------------------------------------------------------------------------------------- */

/* `n` bytes from byte `from` of a payload on may not be touched. */
static inline void tlsf_mark_dead(void *payload, size_t from, size_t n) TLSF_NOEXCEPT {
#ifdef TLSF_ASAN
    ASAN_POISON_MEMORY_REGION((char *)payload + from, n);
#else
    (void)VALGRIND_MAKE_MEM_NOACCESS((char *)payload + from, n);
#endif
}

/* The first `n` bytes of a payload may be touched. Those that might not be until now aren't initialised. */
static inline void tlsf_mark_live(void *payload, size_t n) TLSF_NOEXCEPT {
#ifdef TLSF_ASAN
    ASAN_UNPOISON_MEMORY_REGION(payload, n);
#else
    VALGRIND_DISABLE_ERROR_REPORTING;
    const uintptr_t first = VALGRIND_CHECK_MEM_IS_ADDRESSABLE(payload, n);
    VALGRIND_ENABLE_ERROR_REPORTING;
    if (first != 0) (void)VALGRIND_MAKE_MEM_UNDEFINED(first, (uintptr_t)payload + n - first);
#endif
}

/* `n` bytes may be touched, and are initialised. */
static inline void tlsf_mark_filled(void *from, size_t n) TLSF_NOEXCEPT {
#ifdef TLSF_ASAN
    ASAN_UNPOISON_MEMORY_REGION(from, n);
#else
    (void)VALGRIND_MAKE_MEM_DEFINED(from, n);
#endif
}

/* What malloc's calls gave: no more than was asked for. */
#define TLSF_ASKED(payload, len, rounded) tlsf_mark_dead(payload, len, (rounded) - (len))
#define TLSF_USED(payload, len) tlsf_mark_live(payload, len)

/* The last word of a live block's header, which the program reads by tlsf_block_size. Who asks for the length may use it. */
#ifdef TLSF_ASAN
__attribute__((noinline, unused, no_sanitize_address))
#else
__attribute__((unused))
#endif
static void
tlsf_mark_len(const void *payload, uint64_t *len) TLSF_NOEXCEPT {
    TLSF_BEGIN_CALL;
    *len = *(const volatile uint64_t *)(const void *)((const char *)payload - 8);
    TLSF_END_CALL;
    tlsf_mark_live((void *)(uintptr_t)payload, (size_t)*len);
}
#define TLSF_LEN_BEFORE(payload, len) tlsf_mark_len(payload, len)

static inline void *tlsf_mark_at(const struct tlsf_heap *heap, uint32_t at) TLSF_NOEXCEPT { return heap->base + at + 3; }

#ifdef TLSF_ASAN
/* What the library fills and copies with, in place of memset and memcpy, which would report what isn't live yet. */
#define TLSF_UNCHECKED __attribute__((weak, noinline, no_sanitize_address))
TLSF_UNCHECKED void *tlsf_memory_set(void *to, int byte, size_t n);
TLSF_UNCHECKED void *tlsf_memory_cpy(void *to, const void *from, size_t n);
TLSF_UNCHECKED void *tlsf_memory_move(void *to, const void *from, size_t n);
void *tlsf_memory_set(void *to, int byte, size_t n) {
    volatile unsigned char *p = (volatile unsigned char *)to;
    while (n-- != 0) *p++ = (unsigned char)byte;
    return to;
}
void *tlsf_memory_cpy(void *to, const void *from, size_t n) {
    volatile unsigned char *p = (volatile unsigned char *)to;
    const volatile unsigned char *q = (const volatile unsigned char *)from;
    while (n-- != 0) *p++ = *q++;
    return to;
}
/* The library moves payload between blocks alone, which never overlap. */
void *tlsf_memory_move(void *to, const void *from, size_t n) { return tlsf_memory_cpy(to, from, n); }
#endif

/* --- Looks ---------------------------------------------------------------------------------------------------------- */

TLSF_ANSWER static inline uint32_t tlsf_marked_block_at(struct tlsf_heap *heap, uint32_t at, struct tlsf_block_info *block) TLSF_NOEXCEPT {
    TLSF_BEGIN_CALL;
    const uint32_t answer = tlsf_block_at(heap, at, block);
    TLSF_END_CALL;
    return answer;
}

TLSF_ANSWER static inline uint32_t tlsf_marked_counts(struct tlsf_heap *heap, struct tlsf_heap_counts *counts) TLSF_NOEXCEPT {
    TLSF_BEGIN_CALL;
    const uint32_t answer = tlsf_counts(heap, counts);
    TLSF_END_CALL;
    return answer;
}

TLSF_ANSWER static inline uint32_t tlsf_marked_report(struct tlsf_heap *heap, struct tlsf_heap_report *report) TLSF_NOEXCEPT {
    TLSF_BEGIN_CALL;
    const uint32_t answer = tlsf_report(heap, report);
    TLSF_END_CALL;
    return answer;
}

TLSF_ANSWER static inline uint32_t tlsf_marked_check(struct tlsf_heap *heap, uint32_t from, uint32_t most, uint32_t *next,
                                                     uint32_t *damaged) TLSF_NOEXCEPT {
    TLSF_BEGIN_CALL;
    const uint32_t answer = tlsf_check(heap, from, most, next, damaged);
    TLSF_END_CALL;
    return answer;
}

TLSF_ANSWER static inline uint32_t tlsf_marked_check_around(struct tlsf_heap *heap, uint32_t at, uint32_t *damaged) TLSF_NOEXCEPT {
    TLSF_BEGIN_CALL;
    const uint32_t answer = tlsf_check_around(heap, at, damaged);
    TLSF_END_CALL;
    return answer;
}

TLSF_ANSWER static inline uint32_t tlsf_marked_check_request(struct tlsf_heap *heap, size_t len, uint32_t *damaged) TLSF_NOEXCEPT {
    TLSF_BEGIN_CALL;
    const uint32_t answer = tlsf_check_request(heap, len, damaged);
    TLSF_END_CALL;
    return answer;
}

/* Who asks for the length may use it. */
TLSF_ANSWER static inline uint32_t tlsf_marked_place(struct tlsf_heap *heap, uint32_t at, struct tlsf_name *name,
                                                     uint32_t *len) TLSF_NOEXCEPT {
    TLSF_BEGIN_CALL;
    const uint32_t answer = tlsf_place(heap, at, name, len);
    TLSF_END_CALL;
    if (answer == TLSF_OK) tlsf_mark_live(tlsf_mark_at(heap, at), *len);
    return answer;
}

TLSF_ANSWER static inline uint32_t tlsf_marked_locate(struct tlsf_heap *heap, struct tlsf_name name, uint64_t **base,
                                                      uint32_t *len) TLSF_NOEXCEPT {
    TLSF_BEGIN_CALL;
    const uint32_t answer = tlsf_locate(heap, name, base, len);
    TLSF_END_CALL;
    if (answer == TLSF_OK) tlsf_mark_live(tlsf_mark_at(heap, name.at), *len);
    return answer;
}

/* The bytes of the live block of that name; 0 where the call has to be refused. */
static inline uint32_t tlsf_marked_len(struct tlsf_heap *heap, struct tlsf_name name) TLSF_NOEXCEPT {
    uint64_t *base = TLSF_NULL;
    uint32_t len = 0;
    return tlsf_marked_locate(heap, name, &base, &len) == TLSF_OK ? len : 0;
}

TLSF_ANSWER static inline uint32_t tlsf_marked_write(struct tlsf_heap *heap, struct tlsf_name name, uint32_t at, const uint8_t *bytes,
                                                     size_t n) TLSF_NOEXCEPT {
    (void)tlsf_marked_len(heap, name);
    TLSF_BEGIN_CALL;
    const uint32_t answer = tlsf_write(heap, name, at, bytes, n);
    TLSF_END_CALL;
    return answer;
}

TLSF_ANSWER static inline uint32_t tlsf_marked_read(struct tlsf_heap *heap, struct tlsf_name name, uint32_t at, uint8_t *out,
                                                    size_t n) TLSF_NOEXCEPT {
    (void)tlsf_marked_len(heap, name);
    TLSF_BEGIN_CALL;
    const uint32_t answer = tlsf_read(heap, name, at, out, n);
    TLSF_END_CALL;
    return answer;
}

/* --- Opening and closing -------------------------------------------------------------------------------------------- */

static inline uint32_t tlsf_mark_region(struct tlsf_heap *heap, uint32_t answer) TLSF_NOEXCEPT {
    struct tlsf_block_info whole = {0, 0, 0, 0, 0};
    if (answer == TLSF_OK && tlsf_marked_block_at(heap, 0, &whole) == TLSF_OK) tlsf_mark_dead(heap->base, 0, (size_t)whole.size * 8);
    return answer;
}

TLSF_ANSWER static inline uint32_t tlsf_marked_open(struct tlsf_heap *heap, uint32_t level, uint32_t number, uint32_t words) TLSF_NOEXCEPT {
    return tlsf_mark_region(heap, tlsf_open(heap, level, number, words));
}

TLSF_ANSWER static inline uint32_t tlsf_marked_open_in(struct tlsf_heap *heap, uint32_t level, uint32_t number, void *memory,
                                                       size_t bytes) TLSF_NOEXCEPT {
    return tlsf_mark_region(heap, tlsf_open_in(heap, level, number, memory, bytes));
}

TLSF_ANSWER static inline uint32_t tlsf_marked_open_near(struct tlsf_near_heap *heap, uint32_t level, uint32_t number,
                                                         uint32_t words) TLSF_NOEXCEPT {
    return tlsf_mark_region(tlsf_near(heap), tlsf_open_near(heap, level, number, words));
}

TLSF_ANSWER static inline uint32_t tlsf_marked_open_near_in(struct tlsf_near_heap *heap, uint32_t level, uint32_t number, void *memory,
                                                            size_t bytes) TLSF_NOEXCEPT {
    return tlsf_mark_region(tlsf_near(heap), tlsf_open_near_in(heap, level, number, memory, bytes));
}

static inline uint32_t tlsf_marked_close(struct tlsf_heap *heap) TLSF_NOEXCEPT {
    struct tlsf_heap_report sums = {0, 0, 0, 0, 0, 0, 0, 0, 0, 0};
    uint32_t next = 0, damaged = 0;
    TLSF_BEGIN_CALL;
    const uint32_t checked = tlsf_check(heap, 0, UINT32_MAX, &next, &damaged);
    TLSF_END_CALL;
    /* A report on a damaged heap may never end, so the memory of that one stays marked. */
    if (checked == TLSF_OK && tlsf_marked_report(heap, &sums) == TLSF_OK)
        tlsf_mark_filled(heap->base, ((size_t)sums.live_words + sums.free_words) * 8);
    return tlsf_close(heap);
}

static inline uint32_t tlsf_marked_reset(struct tlsf_heap *heap) TLSF_NOEXCEPT {
    TLSF_BEGIN_CALL;
    const uint32_t answer = tlsf_reset(heap);
    TLSF_END_CALL;
    return tlsf_mark_region(heap, answer);
}

/* --- What gives and takes back ---------------------------------------------------------------------------------------- */

TLSF_ANSWER static inline struct tlsf_placed tlsf_marked_allocate_place(struct tlsf_heap *heap, size_t len) TLSF_NOEXCEPT {
    TLSF_BEGIN_CALL;
    const struct tlsf_placed it = tlsf_allocate_place(heap, len);
    TLSF_END_CALL;
    if (it.answer == TLSF_OK) tlsf_mark_live(tlsf_mark_at(heap, it.at), len);
    return it;
}

TLSF_ANSWER static inline struct tlsf_placed tlsf_marked_allocate_aligned(struct tlsf_heap *heap, size_t len, uint32_t step,
                                                                          uint32_t skew) TLSF_NOEXCEPT {
    TLSF_BEGIN_CALL;
    const struct tlsf_placed it = tlsf_allocate_aligned(heap, len, step, skew);
    TLSF_END_CALL;
    if (it.answer == TLSF_OK) tlsf_mark_live(tlsf_mark_at(heap, it.at), len);
    return it;
}

TLSF_ANSWER static inline uint32_t tlsf_marked_allocate(struct tlsf_heap *heap, size_t len, struct tlsf_name *name) TLSF_NOEXCEPT {
    TLSF_BEGIN_CALL;
    const uint32_t answer = tlsf_allocate(heap, len, name);
    TLSF_END_CALL;
    if (answer == TLSF_OK) tlsf_mark_filled(tlsf_mark_at(heap, name->at), len);
    return answer;
}

static inline uint32_t tlsf_marked_release_place(struct tlsf_heap *heap, uint32_t at) TLSF_NOEXCEPT {
    struct tlsf_block_info it = {0, 0, 0, 0, 0};
    const uint32_t looked = tlsf_marked_block_at(heap, at, &it);
    TLSF_BEGIN_CALL;
    const uint32_t answer = tlsf_release_place(heap, at);
    TLSF_END_CALL;
    if (looked == TLSF_OK && answer == TLSF_OK) tlsf_mark_dead(tlsf_mark_at(heap, at), 0, it.len);
    return answer;
}

static inline uint32_t tlsf_marked_release(struct tlsf_heap *heap, struct tlsf_name name) TLSF_NOEXCEPT {
    const uint32_t len = tlsf_marked_len(heap, name);
    TLSF_BEGIN_CALL;
    const uint32_t answer = tlsf_release(heap, name);
    TLSF_END_CALL;
    if (answer == TLSF_OK) tlsf_mark_dead(tlsf_mark_at(heap, name.at), 0, len);
    return answer;
}

/* --- What resizes ----------------------------------------------------------------------------------------------------- */

/* Whether the live block at a place may have so many bytes where it stands; `*had` is what it has. */
static inline bool tlsf_mark_stays(struct tlsf_heap *heap, uint32_t at, size_t len, uint32_t *had) TLSF_NOEXCEPT {
    struct tlsf_block_info it = {0, 0, 0, 0, 0}, behind = {0, 0, 0, 0, 0};
    if (tlsf_marked_block_at(heap, at, &it) != TLSF_OK || it.is_live == 0) return false;
    *had = it.len;
    if (tlsf_marked_block_at(heap, at + it.size, &behind) != TLSF_OK || behind.is_live != 0) behind.size = 0;
    return 3 + (len > 8 ? len / 8 + (len % 8 != 0) : 1) <= (size_t)it.size + behind.size;
}

static inline void tlsf_mark_copy(struct tlsf_heap *heap, uint32_t from, uint32_t to, uint32_t had, size_t len) TLSF_NOEXCEPT {
    tlsf_mark_live(tlsf_mark_at(heap, from), had);
    TLSF_COPY(tlsf_mark_at(heap, to), tlsf_mark_at(heap, from), had < len ? had : len);
}

TLSF_ANSWER static inline uint32_t tlsf_marked_resize_place(struct tlsf_heap *heap, uint32_t at, size_t len,
                                                            uint32_t *new_at) TLSF_NOEXCEPT {
    struct tlsf_name name = {0, 0, 0};
    uint32_t had = 0;
    const bool stays = tlsf_mark_stays(heap, at, len, &had);
    uint32_t answer = tlsf_marked_place(heap, at, &name, &had);
    if (answer == TLSF_OK && !stays) {
        const struct tlsf_placed to = tlsf_marked_allocate_place(heap, len);
        if (to.answer != TLSF_OK) return to.answer;
        tlsf_mark_copy(heap, at, to.at, had, len);
        tlsf_marked_release_place(heap, at);
        *new_at = to.at;
        return TLSF_OK;
    }
    TLSF_BEGIN_CALL;
    answer = tlsf_resize_place(heap, at, len, new_at); /* also where it is refused: a trace has it */
    TLSF_END_CALL;
    if (answer == TLSF_OK && len > had) tlsf_mark_live(tlsf_mark_at(heap, at), len);
    if (answer == TLSF_OK && len < had) tlsf_mark_dead(tlsf_mark_at(heap, at), len, had - len);
    return answer;
}

TLSF_ANSWER static inline uint32_t tlsf_marked_resize(struct tlsf_heap *heap, struct tlsf_name name, size_t len) TLSF_NOEXCEPT {
    const uint32_t had = tlsf_marked_len(heap, name);
    TLSF_BEGIN_CALL;
    const uint32_t answer = tlsf_resize(heap, name, len);
    TLSF_END_CALL;
    if (answer == TLSF_OK && len > had) tlsf_mark_filled((char *)tlsf_mark_at(heap, name.at) + had, len - had);
    if (answer == TLSF_OK && len < had) tlsf_mark_dead(tlsf_mark_at(heap, name.at), len, had - len);
    return answer;
}

TLSF_ANSWER static inline uint32_t tlsf_marked_reallocate(struct tlsf_heap *heap, struct tlsf_name *name, size_t len) TLSF_NOEXCEPT {
    struct tlsf_name moved = {0, 0, 0};
    uint64_t *base = TLSF_NULL;
    uint32_t had = 0, answer = tlsf_marked_locate(heap, *name, &base, &had);
    if (answer != TLSF_OK || tlsf_mark_stays(heap, name->at, len, &had)) return tlsf_marked_resize(heap, *name, len);
    answer = tlsf_marked_allocate(heap, len, &moved);
    if (answer != TLSF_OK) return answer;
    tlsf_mark_copy(heap, name->at, moved.at, had, len);
    tlsf_marked_release(heap, *name);
    *name = moved;
    return TLSF_OK;
}
#endif

#ifndef TLSF_ASAN
/* --- Lanes and queues: what was done before a put comes before what is done after the take ---------------------------------- */

/* A byte for each place, which stands for its handing over. Places that share one are ordered more than they need be. */
enum { TLSF_ORDERS = 1 << 16 };
#ifdef __cplusplus
inline char tlsf_orders[TLSF_ORDERS];
#else
__attribute__((weak)) char tlsf_orders[TLSF_ORDERS];
#endif

static inline char *tlsf_order_of(struct tlsf_name name) TLSF_NOEXCEPT {
    return &tlsf_orders[(name.at + name.heap * UINT32_C(0x85ebca6b)) * UINT32_C(0x9e3779b1) >> 16];
}

/* The second is told of names that came. The first is told before, and so of names that aren't put too. */
static inline void tlsf_mark_put(const struct tlsf_name *names, size_t n) TLSF_NOEXCEPT {
    for (size_t k = 0; k < n; k++) {
#ifdef TLSF_TSAN
        __tsan_release(tlsf_order_of(names[k]));
#else
        ANNOTATE_HAPPENS_BEFORE(tlsf_order_of(names[k]));
#endif
    }
}

static inline uint32_t tlsf_mark_taken(uint32_t answer, const struct tlsf_name *names, const size_t *n) TLSF_NOEXCEPT {
    for (size_t k = 0; answer == TLSF_OK && k < *n; k++) {
#ifdef TLSF_TSAN
        __tsan_acquire(tlsf_order_of(names[k]));
#else
        ANNOTATE_HAPPENS_AFTER(tlsf_order_of(names[k]));
#endif
    }
    return answer;
}

TLSF_ANSWER static inline uint32_t tlsf_marked_put(struct tlsf_post_end *post, struct tlsf_name name) TLSF_NOEXCEPT {
    tlsf_mark_put(&name, 1);
    TLSF_BEGIN_CALL;
    const uint32_t answer = tlsf_put(post, name);
    TLSF_END_CALL;
    return answer;
}

TLSF_ANSWER static inline uint32_t tlsf_marked_put_all(struct tlsf_post_end *post, const struct tlsf_name *names, size_t n,
                                                       size_t *went) TLSF_NOEXCEPT {
    tlsf_mark_put(names, n);
    TLSF_BEGIN_CALL;
    const uint32_t answer = tlsf_put_all(post, names, n, went);
    TLSF_END_CALL;
    return answer;
}

TLSF_ANSWER static inline uint32_t tlsf_marked_queue_post(struct tlsf_poster *poster, struct tlsf_name name) TLSF_NOEXCEPT {
    tlsf_mark_put(&name, 1);
    TLSF_BEGIN_CALL;
    const uint32_t answer = tlsf_queue_post(poster, name);
    TLSF_END_CALL;
    return answer;
}

TLSF_ANSWER static inline uint32_t tlsf_marked_take(struct tlsf_take_end *take, struct tlsf_name *name) TLSF_NOEXCEPT {
    const size_t one = 1;
    TLSF_BEGIN_CALL;
    const uint32_t answer = tlsf_take(take, name);
    TLSF_END_CALL;
    return tlsf_mark_taken(answer, name, &one);
}

TLSF_ANSWER static inline uint32_t tlsf_marked_take_all(struct tlsf_take_end *take, struct tlsf_name *names, size_t n,
                                                        size_t *came) TLSF_NOEXCEPT {
    TLSF_BEGIN_CALL;
    const uint32_t answer = tlsf_take_all(take, names, n, came);
    TLSF_END_CALL;
    return tlsf_mark_taken(answer, names, came);
}

TLSF_ANSWER static inline uint32_t tlsf_marked_queue_take(struct tlsf_queue *queue, struct tlsf_name *name) TLSF_NOEXCEPT {
    const size_t one = 1;
    TLSF_BEGIN_CALL;
    const uint32_t answer = tlsf_queue_take(queue, name);
    TLSF_END_CALL;
    return tlsf_mark_taken(answer, name, &one);
}
#endif

#ifdef __cplusplus
}
#endif

#ifndef TLSF_ASAN
#define tlsf_put tlsf_marked_put
#define tlsf_put_all tlsf_marked_put_all
#define tlsf_queue_post tlsf_marked_queue_post
#define tlsf_take tlsf_marked_take
#define tlsf_take_all tlsf_marked_take_all
#define tlsf_queue_take tlsf_marked_queue_take
#endif

#ifndef TLSF_TSAN

/* What tlsf_trace.h may have named before. */
#undef tlsf_open
#undef tlsf_open_in
#undef tlsf_open_near
#undef tlsf_open_near_in
#undef tlsf_close
#undef tlsf_reset
#undef tlsf_allocate
#undef tlsf_allocate_place
#undef tlsf_allocate_aligned
#undef tlsf_release
#undef tlsf_release_place
#undef tlsf_resize
#undef tlsf_resize_place
#undef tlsf_reallocate
#define tlsf_open tlsf_marked_open
#define tlsf_open_in tlsf_marked_open_in
#define tlsf_open_near tlsf_marked_open_near
#define tlsf_open_near_in tlsf_marked_open_near_in
#define tlsf_close tlsf_marked_close
#define tlsf_reset tlsf_marked_reset
#define tlsf_allocate tlsf_marked_allocate
#define tlsf_allocate_place tlsf_marked_allocate_place
#define tlsf_allocate_aligned tlsf_marked_allocate_aligned
#define tlsf_release tlsf_marked_release
#define tlsf_release_place tlsf_marked_release_place
#define tlsf_resize tlsf_marked_resize
#define tlsf_resize_place tlsf_marked_resize_place
#define tlsf_reallocate tlsf_marked_reallocate
#define tlsf_place tlsf_marked_place
#define tlsf_locate tlsf_marked_locate
#define tlsf_read tlsf_marked_read
#define tlsf_write tlsf_marked_write
#define tlsf_block_at tlsf_marked_block_at
#define tlsf_counts tlsf_marked_counts
#define tlsf_report tlsf_marked_report
#define tlsf_check tlsf_marked_check
#define tlsf_check_around tlsf_marked_check_around
#define tlsf_check_request tlsf_marked_check_request
#endif
#endif
