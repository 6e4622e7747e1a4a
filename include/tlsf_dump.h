/* A heap as it stands, written as a trace: calls that make the same heap out of a new one. `tlsf map < TRACE` draws it, and what
 * else reads a trace takes it too: a line `a 0 65535 5200` at its end asks whether 5,200 bytes would find room. Include peachanchor.h
 * first.
 *
 *   #include "tlsf_dump.h"
 *   if (tlsf_dump(&heap, 4, to) != TLSF_OK) ..
 *
 * The same are: level and words; each block's place, words, bytes and whether it is live; in which order free blocks became
 * free; and so each number of tlsf_report but `age`. Not the same are ticks, serials and payload. Labels count the blocks of
 * the heap from 0, in the order of their places.
 *
 * It only looks at the heap, and takes no memory. Its time grows with the blocks, and with the free ones times the blocks. It needs
 * the C library's snprintf.
 */
#ifndef TLSF_DUMP_H
#define TLSF_DUMP_H

#include <inttypes.h>
#include <stdio.h>

/* In C++ too these calls cast as C does. */
#if defined(__cplusplus) && defined(TLSF_GNU)
#pragma GCC diagnostic push
#pragma GCC diagnostic ignored "-Wold-style-cast"
#endif

/* The most lines that a trace has, and how many free blocks are found by one walk. */
enum { TLSF_DUMP_LINES = 32768, TLSF_DUMP_FOUND = 64 };

/* Takes a line of a trace, which has so many bytes and ends with a line feed. Where it answers false, no more lines come. */
typedef bool tlsf_dump_put(void *user, const char *line, size_t bytes);

struct tlsf_dump_out {
    tlsf_dump_put *put;
    void *user;
    bool goes_on;
};

/* A free block, by the tick since which it is free, and its label. */
struct tlsf_dump_free {
    uint64_t since;
    uint32_t label;
};

/* A line: `a` and `r` have a length, and `f` has none. */
static inline void tlsf_dump_line(struct tlsf_dump_out *out, char kind, uint32_t label, uint32_t len) TLSF_NOEXCEPT {
    char line[32];
    int bytes;
    if (!out->goes_on) return;
    if (kind == 'f') bytes = snprintf(line, sizeof line, "f 0 %" PRIu32 "\n", label);
    else bytes = snprintf(line, sizeof line, "%c 0 %" PRIu32 " %" PRIu32 "\n", kind, label, len);
    out->goes_on = bytes > 0 && out->put(out->user, line, (size_t)bytes);
}

/* The words that a block of so many bytes wants. */
static inline uint32_t tlsf_dump_want(uint32_t len) TLSF_NOEXCEPT { return len <= 8 ? 4 : 3 + (uint32_t)(((uint64_t)len + 7) / 8); }

/* Whether a request for so many words is sure to find room in one free block of `room` words: a search rounds up to the next class,
 * which is less than a part of 2^level away. */
static inline bool tlsf_dump_finds(uint32_t level, uint32_t words, uint32_t room) TLSF_NOEXCEPT {
    return room >= words + (words >> level) + 1;
}

/* The bytes for which a new block is as large as this one; they are those of a live one, unless it has words that they don't want. */
static inline uint32_t tlsf_dump_len(const struct tlsf_block_info *it) TLSF_NOEXCEPT {
    return it->is_live != 0 && tlsf_dump_want(it->len) == it->size ? it->len : 8 * (it->size - 3);
}

/* The block at `at`. Refused: TLSF_DAMAGED, where none is there or it has no words. */
static inline uint32_t tlsf_dump_block(struct tlsf_heap *heap, uint32_t at, uint32_t words, struct tlsf_block_info *it) TLSF_NOEXCEPT {
    const uint32_t answer = tlsf_block_at(heap, at, it);
    return answer == TLSF_OK && it->size >= 4 && it->size <= words - at ? TLSF_OK : TLSF_DAMAGED;
}

/* How many lines a heap of so many words needs. */
static inline uint32_t tlsf_dump_count(struct tlsf_heap *heap, uint32_t level, uint32_t words, uint32_t *lines) TLSF_NOEXCEPT {
    struct tlsf_block_info it = {0, 0, 0, 0, 0};
    *lines = 1;
    for (uint32_t at = 0; at < words; at += it.size) {
        if (tlsf_dump_block(heap, at, words, &it) != TLSF_OK) return TLSF_DAMAGED;
        *lines += tlsf_dump_finds(level, it.size, words - at) ? 1 : 2;
        if (it.is_live == 0 || tlsf_dump_want(it.len) != it.size) *lines += 1;
    }
    return TLSF_OK;
}

/* Each block in the order of the places, as if it were live: what is left of the heap is one free block behind it. Where a search
 * might not find that, the least block is asked for, and then grows to its words. */
static inline void tlsf_dump_blocks(struct tlsf_dump_out *out, struct tlsf_heap *heap, uint32_t level, uint32_t words) TLSF_NOEXCEPT {
    struct tlsf_block_info it = {0, 0, 0, 0, 0};
    uint32_t label = 0;
    for (uint32_t at = 0; at < words; at += it.size, label++) {
        if (tlsf_dump_block(heap, at, words, &it) != TLSF_OK) return;
        if (tlsf_dump_finds(level, it.size, words - at)) tlsf_dump_line(out, 'a', label, tlsf_dump_len(&it));
        else {
            tlsf_dump_line(out, 'a', label, 0);
            tlsf_dump_line(out, 'r', label, tlsf_dump_len(&it));
        }
    }
}

/* The bytes of live blocks that have more words than these want. All is live by now, so a block keeps its words. */
static inline void tlsf_dump_rests(struct tlsf_dump_out *out, struct tlsf_heap *heap, uint32_t words) TLSF_NOEXCEPT {
    struct tlsf_block_info it = {0, 0, 0, 0, 0};
    uint32_t label = 0;
    for (uint32_t at = 0; at < words; at += it.size, label++) {
        if (tlsf_dump_block(heap, at, words, &it) != TLSF_OK) return;
        if (it.is_live != 0 && tlsf_dump_want(it.len) != it.size) tlsf_dump_line(out, 'r', label, it.len);
    }
}

static inline bool tlsf_dump_is_before(const struct tlsf_dump_free *one, const struct tlsf_dump_free *other) TLSF_NOEXCEPT {
    return one->since < other->since || (one->since == other->since && one->label < other->label);
}

/* Of the free blocks that became free after `last`, or of all where it is null, those that did first: at most TLSF_DUMP_FOUND of
 * them, in their order. Answers how many. */
static inline uint32_t tlsf_dump_oldest(struct tlsf_heap *heap, uint32_t words, const struct tlsf_dump_free *last,
                                        struct tlsf_dump_free found[TLSF_DUMP_FOUND]) TLSF_NOEXCEPT {
    struct tlsf_block_info it = {0, 0, 0, 0, 0};
    uint32_t label = 0, count = 0;
    for (uint32_t at = 0; at < words; at += it.size, label++) {
        struct tlsf_dump_free own = {0, 0};
        uint32_t k;
        if (tlsf_dump_block(heap, at, words, &it) != TLSF_OK) return count;
        own.since = it.mark;
        own.label = label;
        if (it.is_live != 0 || (last != TLSF_NULL && !tlsf_dump_is_before(last, &own))) continue;
        if (count < TLSF_DUMP_FOUND) count++;
        else if (!tlsf_dump_is_before(&own, &found[count - 1])) continue;
        for (k = count - 1; k > 0 && tlsf_dump_is_before(&own, &found[k - 1]); k--) found[k] = found[k - 1];
        found[k] = own;
    }
    return count;
}

/* The releases of free blocks, the one first that is free longest. */
static inline void tlsf_dump_releases(struct tlsf_dump_out *out, struct tlsf_heap *heap, uint32_t words) TLSF_NOEXCEPT {
    struct tlsf_dump_free found[TLSF_DUMP_FOUND], last = {0, 0};
    uint32_t count = tlsf_dump_oldest(heap, words, TLSF_NULL, found);
    while (count > 0 && out->goes_on) {
        for (uint32_t k = 0; k < count; k++) tlsf_dump_line(out, 'f', found[k].label, 0);
        last = found[count - 1];
        count = tlsf_dump_oldest(heap, words, &last, found);
    }
}

/* Gives the lines of a heap of that level, 4 or 5, to `put`, which gets `user` with each. Nobody else calls the heap meanwhile.
 * Refused: TLSF_IS_CLOSED; TLSF_BAD_LEVEL; TLSF_DAMAGED where a walk over the blocks doesn't end at the end; TLSF_BAD_SIZE where
 * the trace would have more than 32,768 lines. Of these no line comes. TLSF_NOT_WRITTEN where `put` answered false. */
TLSF_ANSWER static inline uint32_t tlsf_dump_lines(struct tlsf_heap *heap, uint32_t level, tlsf_dump_put *put, void *user) TLSF_NOEXCEPT {
    struct tlsf_heap_report sums = {0, 0, 0, 0, 0, 0, 0, 0, 0, 0};
    struct tlsf_dump_out out = {put, user, true};
    uint32_t answer = tlsf_report(heap, &sums), words, lines = 0;
    char line[32];
    int bytes;
    if (answer != TLSF_OK) return answer;
    if (level != 4 && level != 5) return TLSF_BAD_LEVEL;
    words = sums.live_words + sums.free_words;
    answer = tlsf_dump_count(heap, level, words, &lines);
    if (answer != TLSF_OK) return answer;
    if (lines > TLSF_DUMP_LINES) return TLSF_BAD_SIZE;
    bytes = snprintf(line, sizeof line, "tlsf %" PRIu32 " 1 %" PRIu32 " 1\n", level - 3, words);
    out.goes_on = bytes > 0 && put(user, line, (size_t)bytes);
    tlsf_dump_blocks(&out, heap, level, words);
    tlsf_dump_rests(&out, heap, words);
    tlsf_dump_releases(&out, heap, words);
    return out.goes_on ? TLSF_OK : TLSF_NOT_WRITTEN;
}

static inline bool tlsf_dump_put_file(void *user, const char *line, size_t bytes) TLSF_NOEXCEPT {
    return fwrite(line, 1, bytes, (FILE *)user) == bytes;
}

/* The same into a file, which stays open. Refused as tlsf_dump_lines is; TLSF_NOT_WRITTEN where a write fails. What the file keeps in
 * its buffer is written where it is flushed or closed. */
TLSF_ANSWER static inline uint32_t tlsf_dump(struct tlsf_heap *heap, uint32_t level, FILE *to) TLSF_NOEXCEPT {
    return tlsf_dump_lines(heap, level, tlsf_dump_put_file, to);
}

#if defined(__cplusplus) && defined(TLSF_GNU)
#pragma GCC diagnostic pop
#endif
#endif
