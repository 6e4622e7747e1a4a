/* Writes a program's own calls on a heap as a trace (docs/TRACE.md), which `tlsf replay`, `map`, `plot`, `size` and `check` take.
 * peachanchor.h includes this where TLSF_TRACE is defined, in front of its inline calls, so that they are written too:
 *
 *     #include <stdio.h>
 *     static FILE *trace;          // opened by the program; null writes nothing
 *     #define TLSF_TRACE trace
 *     #include <peachanchor.h>
 *
 * Written are the calls on one heap: the first that is opened, or with `#define TLSF_TRACE_NUMBER 2` the first of number 2. The
 * trace begins when it is opened, and ends when it is closed. Its places and serials, and what it refuses, are those of the
 * heap: a block that moves is an `a` line and an `f` line, a drain is an `f` line for each name, and a block that is aligned to
 * more than the heap's bytes is what the heap makes of it, in two lines or five. Of these five a replay takes one tick more than the heap
 * does, so each later serial is higher by 1. A reset is an `f` line for each live block, though it takes one tick. Every file of the
 * program that calls the heap defines TLSF_TRACE. It needs gcc or clang, and half a megabyte of memory.
 *
 * Payloads and lanes are left out. So are these, of which the program tells on standard error, each once, since a trace has no
 * comments:
 *   - other heaps;
 *   - calls on what isn't a block of the heap, as a wild pointer or a forged name: they change nothing;
 *   - all that comes behind 32,768 lines, the most that a trace has.
 */
#ifndef TLSF_TRACE_H
#define TLSF_TRACE_H

#include <inttypes.h>
#include <stdio.h>

enum { TLSF_TRACE_LINES = 32768, TLSF_TRACE_LISTS = 512 };
/* What is said once. */
enum { TLSF_TRACE_FULL = 1, TLSF_TRACE_UNKNOWN = 2, TLSF_TRACE_OTHER = 4 };

/* Labels are counted from 0, one for each `a` line. The blocks of places that are equal in their last bits have a list, the last
 * that was allocated first: `first` and `next` are labels and 1 more, or 0. */
struct tlsf_trace {
    uint64_t *base; /* of the region of the heap whose calls are written, or null */
    bool has_begun;
    uint32_t said;
    uint32_t level, lines, labels;
    uint32_t first[TLSF_TRACE_LISTS];
    struct {
        uint64_t serial;
        uint32_t at;
        uint32_t next;
    } block[TLSF_TRACE_LINES];
};

/* One for the whole program. Only calls on the heap that is traced touch it, beside what is atomic. */
#ifdef __cplusplus
inline struct tlsf_trace tlsf_trace;
#else
__attribute__((weak)) struct tlsf_trace tlsf_trace;
#endif

static inline FILE *tlsf_trace_file(void) TLSF_NOEXCEPT { return TLSF_TRACE; }

static inline void tlsf_trace_say(uint32_t what, const char *text) TLSF_NOEXCEPT {
    if ((__atomic_fetch_or(&tlsf_trace.said, what, __ATOMIC_RELAXED) & what) != 0 || tlsf_trace_file() == stderr) return;
    fprintf(stderr, "tlsf_trace: %s\n", text);
}

static inline bool tlsf_trace_is_of(const struct tlsf_heap *heap) TLSF_NOEXCEPT {
    return heap->base != TLSF_NULL && heap->base == __atomic_load_n(&tlsf_trace.base, __ATOMIC_RELAXED);
}

static inline void tlsf_trace_end(void) TLSF_NOEXCEPT {
    FILE *to = tlsf_trace_file();
    __atomic_store_n(&tlsf_trace.base, TLSF_NULL, __ATOMIC_RELAXED);
    if (to != TLSF_NULL) fflush(to);
}

/* Whether a call on the heap is written: it is traced, and there is room for so many lines. Where there isn't, the trace ends. */
static inline bool tlsf_trace_takes(const struct tlsf_heap *heap, uint32_t lines) TLSF_NOEXCEPT {
    if (!tlsf_trace_is_of(heap) || tlsf_trace_file() == TLSF_NULL) return false;
    if (tlsf_trace.lines + lines <= TLSF_TRACE_LINES) return true;
    tlsf_trace_say(TLSF_TRACE_FULL, "the trace ends before the program does: it has 32,768 lines at most");
    tlsf_trace_end();
    return false;
}

/* The label and 1 more of the block at that place and of that serial, or of the last one at that place where `serial` is null;
 * or 0. */
static inline uint32_t tlsf_trace_label(uint32_t at, const uint64_t *serial) TLSF_NOEXCEPT {
    uint32_t n = tlsf_trace.first[at % TLSF_TRACE_LISTS];
    while (n != 0 && (tlsf_trace.block[n - 1].at != at || (serial != TLSF_NULL && tlsf_trace.block[n - 1].serial != *serial)))
        n = tlsf_trace.block[n - 1].next;
    return n;
}

/* Begins with a heap that was opened now. Only its sums tell how many words it has. */
static inline void tlsf_trace_begin(struct tlsf_heap *heap, uint32_t level, uint32_t number) TLSF_NOEXCEPT {
    struct tlsf_heap_report sums = {0, 0, 0, 0, 0, 0, 0, 0, 0, 0};
    FILE *to = tlsf_trace_file();
#ifdef TLSF_TRACE_NUMBER
    if (number != TLSF_TRACE_NUMBER) return;
#else
    (void)number;
#endif
    if (to == TLSF_NULL || tlsf_report(heap, &sums) != TLSF_OK) return;
    if (__atomic_exchange_n(&tlsf_trace.has_begun, true, __ATOMIC_RELAXED)) {
        tlsf_trace_say(TLSF_TRACE_OTHER, "left out: another heap, since a trace has the calls on one");
        return;
    }
    tlsf_trace.level = level;
    tlsf_trace.lines = 1;
    fprintf(to, "tlsf %" PRIu32 " 1 %" PRIu32 " 1\n", level - 3, sums.free_words + sums.live_words);
    __atomic_store_n(&tlsf_trace.base, heap->base, __ATOMIC_RELAXED);
}

/* A line: `a` and `r` have a length, and `f` has none. A trace's lengths have 32 bits, as many as a heap looks at. */
static inline void tlsf_trace_line(char kind, uint32_t label, size_t len) TLSF_NOEXCEPT {
    const uint32_t bytes = len < UINT32_MAX ? (uint32_t)len : UINT32_MAX;
    FILE *to = tlsf_trace_file();
    tlsf_trace.lines++;
    if (to == TLSF_NULL) return;
    if (kind == 'f') fprintf(to, "f 0 %" PRIu32 "\n", label);
    else fprintf(to, "%c 0 %" PRIu32 " %" PRIu32 "\n", kind, label, bytes);
}

/* An allocate: accepted, or refused for want of room. It leaves room for an `f` line, which is the second one where a block
 * moves. */
static inline void tlsf_trace_given(const struct tlsf_heap *heap, struct tlsf_placed it, size_t len) TLSF_NOEXCEPT {
    if ((it.answer != TLSF_OK && it.answer != TLSF_NO_FIT) || !tlsf_trace_takes(heap, 2)) return;
    if (it.answer == TLSF_OK) {
        uint32_t *first = &tlsf_trace.first[it.at % TLSF_TRACE_LISTS];
        tlsf_trace.block[tlsf_trace.labels].serial = it.serial;
        tlsf_trace.block[tlsf_trace.labels].at = it.at;
        tlsf_trace.block[tlsf_trace.labels].next = *first;
        *first = tlsf_trace.labels + 1;
    }
    tlsf_trace_line('a', tlsf_trace.labels++, len);
}

/* The same where a call wrote a name, if it was accepted. */
static inline void tlsf_trace_named(const struct tlsf_heap *heap, uint32_t answer, const struct tlsf_name *name, size_t len) TLSF_NOEXCEPT {
    const struct tlsf_placed it = {name->at, answer, name->serial};
    tlsf_trace_given(heap, it, len);
}

/* A release, `f`, or a resize where the block stands, `r`: accepted, or refused for a reason that the trace has too. */
static inline void tlsf_trace_changed(const struct tlsf_heap *heap, uint32_t answer, uint32_t at, const uint64_t *serial,
                                      const size_t *len) TLSF_NOEXCEPT {
    uint32_t found;
    if ((answer != TLSF_OK && answer != TLSF_STALE && answer != TLSF_NO_ROOM) || !tlsf_trace_takes(heap, 1)) return;
    found = tlsf_trace_label(at, serial);
    if (found == 0) {
        tlsf_trace_say(TLSF_TRACE_UNKNOWN, "left out: a call on what is no block of the heap");
        return;
    }
    tlsf_trace_line(len != TLSF_NULL ? 'r' : 'f', found - 1, len != TLSF_NULL ? *len : 0);
}

/* The words of the free block in front of an aligned one that were left when it was aligned, or 0. They are four at least, and less
 * than four more than `step`; a block in front of one that wasn't moved on is live. */
static inline uint32_t tlsf_trace_gap(struct tlsf_heap *heap, uint32_t at, uint32_t step) TLSF_NOEXCEPT {
    struct tlsf_block_info it = {0, 0, 0, 0, 0};
    for (uint32_t gap = 4; gap <= at && gap < step + 4; gap++)
        if (tlsf_block_at(heap, at - gap, &it) == TLSF_OK && it.size == gap) return it.is_live != 0 ? 0 : gap;
    return 0;
}

/* The least words of the size class of so many. */
static inline uint32_t tlsf_trace_class_low(uint32_t words) TLSF_NOEXCEPT {
    uint32_t step = 1;
    while (words / step >= 2u << tlsf_trace.level) step *= 2;
    return words / step * step;
}

/* A block that was aligned, as the heap makes it. One of `step + 4` words more is given. Where its payload lies right it is cut. Else
 * it is cut to the words in front, and released at last. In between the free words behind it give the block. The heap takes
 * them by their place. Here it is asked for the least words of their class, which finds them since they became free last, and
 * which is then resized to those that are wanted. */
static inline void tlsf_trace_given_aligned(struct tlsf_heap *heap, struct tlsf_placed it, size_t len, uint32_t step) TLSF_NOEXCEPT {
    const uint64_t bytes = len < 8 ? 8 : len < UINT32_MAX ? len : UINT32_MAX, wanted = bytes + 8 * ((uint64_t)(step == 0 ? 1 : step) + 4);
    const uint32_t longest = wanted < UINT32_MAX ? (uint32_t)wanted : UINT32_MAX, front = tlsf_trace.labels;
    struct tlsf_block_info own = {0, 0, 0, 0, 0}, behind = {0, 0, 0, 0, 0};
    uint32_t gap;
    if (!tlsf_trace_takes(heap, 5) || (it.answer == TLSF_OK && tlsf_block_at(heap, it.at, &own) != TLSF_OK)) return;
    gap = it.answer == TLSF_OK ? tlsf_trace_gap(heap, it.at, step) : 0;
    if (gap == 0) {
        tlsf_trace_given(heap, it, longest);
        if (it.answer == TLSF_OK) tlsf_trace_changed(heap, TLSF_OK, it.at, &it.serial, &len);
        return;
    }
    if (tlsf_block_at(heap, it.at + own.size, &behind) == TLSF_OK && behind.is_live == 0) own.size += behind.size;
    tlsf_trace_line('a', tlsf_trace.labels++, longest);
    tlsf_trace_line('r', front, 8 * (gap - 3));
    tlsf_trace_given(heap, it, 8 * (tlsf_trace_class_low(own.size) - 3));
    tlsf_trace_line('r', front + 1, len);
    tlsf_trace_line('f', front, 0);
}

/* --- The calls in place of those of peachanchor.h ------------------------------------------------------------------------ */

TLSF_ANSWER static inline uint32_t tlsf_traced_open(struct tlsf_heap *heap, uint32_t level, uint32_t number, uint32_t words) TLSF_NOEXCEPT {
    const uint32_t answer = tlsf_open(heap, level, number, words);
    if (answer == TLSF_OK) tlsf_trace_begin(heap, level, number);
    return answer;
}

TLSF_ANSWER static inline uint32_t tlsf_traced_open_in(struct tlsf_heap *heap, uint32_t level, uint32_t number, void *memory,
                                                       size_t bytes) TLSF_NOEXCEPT {
    const uint32_t answer = tlsf_open_in(heap, level, number, memory, bytes);
    if (answer == TLSF_OK) tlsf_trace_begin(heap, level, number);
    return answer;
}

TLSF_ANSWER static inline uint32_t tlsf_traced_open_near(struct tlsf_near_heap *heap, uint32_t level, uint32_t number,
                                                         uint32_t words) TLSF_NOEXCEPT {
    const uint32_t answer = tlsf_open_near(heap, level, number, words);
    if (answer == TLSF_OK) tlsf_trace_begin(tlsf_near(heap), level, number);
    return answer;
}

TLSF_ANSWER static inline uint32_t tlsf_traced_open_near_in(struct tlsf_near_heap *heap, uint32_t level, uint32_t number, void *memory,
                                                            size_t bytes) TLSF_NOEXCEPT {
    const uint32_t answer = tlsf_open_near_in(heap, level, number, memory, bytes);
    if (answer == TLSF_OK) tlsf_trace_begin(tlsf_near(heap), level, number);
    return answer;
}

static inline uint32_t tlsf_traced_close(struct tlsf_heap *heap) TLSF_NOEXCEPT {
    const bool ends = tlsf_trace_is_of(heap);
    const uint32_t answer = tlsf_close(heap);
    if (ends && answer == TLSF_OK) tlsf_trace_end();
    return answer;
}

TLSF_ANSWER static inline uint32_t tlsf_traced_allocate(struct tlsf_heap *heap, size_t len, struct tlsf_name *name) TLSF_NOEXCEPT {
    const uint32_t answer = tlsf_allocate(heap, len, name);
    tlsf_trace_named(heap, answer, name, len);
    return answer;
}

TLSF_ANSWER static inline struct tlsf_placed tlsf_traced_allocate_place(struct tlsf_heap *heap, size_t len) TLSF_NOEXCEPT {
    const struct tlsf_placed it = tlsf_allocate_place(heap, len);
    tlsf_trace_given(heap, it, len);
    return it;
}

TLSF_ANSWER static inline struct tlsf_placed tlsf_traced_allocate_aligned(struct tlsf_heap *heap, size_t len, uint32_t step,
                                                                          uint32_t skew) TLSF_NOEXCEPT {
    const struct tlsf_placed it = tlsf_allocate_aligned(heap, len, step, skew);
    tlsf_trace_given_aligned(heap, it, len, step);
    return it;
}

static inline uint32_t tlsf_traced_release(struct tlsf_heap *heap, struct tlsf_name name) TLSF_NOEXCEPT {
    const uint32_t answer = tlsf_release(heap, name);
    tlsf_trace_changed(heap, answer, name.at, &name.serial, TLSF_NULL);
    return answer;
}

/* A trace has no line for it. Each line of a live block takes a tick of a replay's. */
static inline uint32_t tlsf_traced_reset(struct tlsf_heap *heap) TLSF_NOEXCEPT {
    struct tlsf_block_info it = {0, 0, 0, 0, 0};
    /* Of a damaged size it ends. */
    for (uint32_t at = 0; tlsf_trace_is_of(heap) && tlsf_block_at(heap, at, &it) == TLSF_OK && at + it.size > at; at += it.size)
        if (it.is_live != 0) tlsf_trace_changed(heap, TLSF_OK, at, &it.mark, TLSF_NULL);
    return tlsf_reset(heap);
}

static inline uint32_t tlsf_traced_release_place(struct tlsf_heap *heap, uint32_t at) TLSF_NOEXCEPT {
    const uint32_t answer = tlsf_release_place(heap, at);
    tlsf_trace_changed(heap, answer, at, TLSF_NULL, TLSF_NULL);
    return answer;
}

TLSF_ANSWER static inline uint32_t tlsf_traced_resize(struct tlsf_heap *heap, struct tlsf_name name, size_t len) TLSF_NOEXCEPT {
    const uint32_t answer = tlsf_resize(heap, name, len);
    tlsf_trace_changed(heap, answer, name.at, &name.serial, &len);
    return answer;
}

/* Where it moves, the new block is allocated before the old one is released. */
TLSF_ANSWER static inline uint32_t tlsf_traced_reallocate(struct tlsf_heap *heap, struct tlsf_name *name, size_t len) TLSF_NOEXCEPT {
    const struct tlsf_name before = *name;
    const uint32_t answer = tlsf_reallocate(heap, name, len);
    const bool moves = answer == TLSF_NO_FIT || (answer == TLSF_OK && name->at != before.at);
    if (moves) tlsf_trace_named(heap, answer, name, len);
    if (answer != TLSF_NO_FIT) tlsf_trace_changed(heap, answer, before.at, &before.serial, moves ? TLSF_NULL : &len);
    return answer;
}

TLSF_ANSWER static inline uint32_t tlsf_traced_resize_place(struct tlsf_heap *heap, uint32_t at, size_t len,
                                                            uint32_t *new_at) TLSF_NOEXCEPT {
    const uint32_t answer = tlsf_resize_place(heap, at, len, new_at);
    const bool moves = answer == TLSF_NO_FIT || (answer == TLSF_OK && *new_at != at);
    struct tlsf_name name = {0, 0, 0};
    uint32_t had = 0;
    if (answer == TLSF_OK && moves && tlsf_place(heap, *new_at, &name, &had) != TLSF_OK) return answer;
    if (moves) tlsf_trace_named(heap, answer, &name, len);
    if (answer != TLSF_NO_FIT) tlsf_trace_changed(heap, answer, at, TLSF_NULL, moves ? TLSF_NULL : &len);
    return answer;
}

#define tlsf_open tlsf_traced_open
#define tlsf_open_in tlsf_traced_open_in
#define tlsf_open_near tlsf_traced_open_near
#define tlsf_open_near_in tlsf_traced_open_near_in
#define tlsf_close tlsf_traced_close
#define tlsf_reset tlsf_traced_reset
#define tlsf_allocate tlsf_traced_allocate
#define tlsf_allocate_place tlsf_traced_allocate_place
#define tlsf_allocate_aligned tlsf_traced_allocate_aligned
#define tlsf_release tlsf_traced_release
#define tlsf_release_place tlsf_traced_release_place
#define tlsf_resize tlsf_traced_resize
#define tlsf_reallocate tlsf_traced_reallocate
#define tlsf_resize_place tlsf_traced_resize_place

#endif
