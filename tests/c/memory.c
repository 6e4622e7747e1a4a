/* Heaps, lanes, queues and arenas of offsets in memory of the program's, at each alignment: what they take, that nothing else is
 * written, that no malloc and no free is called, and that it is the program's again. The own fields of a near heap lie in it, and no
 * other piece does. No piece of a lane or a queue shares its lines with another piece. Null and MAP_FAILED are refused, and nothing is
 * taken. Where malloc aligns to less than 16 bytes, each piece lies in what it gave all the same. With NO_MALLOC there is no malloc, and
 * tlsf_open is refused. Link with -Wl,--wrap=malloc,--wrap=free,--wrap=tlsf_memory_alloc. */
#include "piece.h"
#include "peachanchor.h"

#include <pthread.h>
#include <stdio.h>
#include <stdlib.h>
#include <string.h>

enum { ROOM = 3 << 17, GUARD = 128, FILLED = 0xa5, LINES = 128, PIECES = 1100 };

static _Alignas(LINES) unsigned char room[2][ROOM];
static unsigned char filled[ROOM];

/* The heaps of each kind that are opened in `room`, and what lies beside a near heap. */
static struct tlsf_heap plain;
static struct {
    unsigned char front[GUARD];
    struct tlsf_near_heap heap;
    unsigned char behind[GUARD];
} near;

static int calls; /* of malloc and free */
static int is_counted;

#ifdef NO_MALLOC
#define NEW_ANSWER TLSF_NO_MEMORY
#else
#define NEW_ANSWER TLSF_OK
#endif

/* While it isn't 0 what malloc gives lies so many bytes behind a multiple of LINES: a malloc that aligns to 8 alone may do that by 8. */
static size_t off_line;
static struct { unsigned char *from, *to, *real; } taken[2 * LINES]; /* by it, and not yet freed */

void *__real_malloc(size_t n);
void __real_free(void *p);
void *__wrap_malloc(size_t n);
void __wrap_free(void *p);
void *__wrap_malloc(size_t n) {
    size_t k = 0;
    if (is_counted) calls++;
    if (off_line == 0) return __real_malloc(n);
    while (taken[k].real) k++;
    taken[k].real = __real_malloc(n + 2 * LINES);
    taken[k].from = taken[k].real + (-(uintptr_t)taken[k].real & (LINES - 1)) + off_line;
    taken[k].to = taken[k].from + n;
    return taken[k].from;
}
void __wrap_free(void *p) {
    if (is_counted) calls++;
    for (size_t k = 0; k < 2 * LINES; k++) {
        if (p == NULL || taken[k].from != p) continue;
        p = taken[k].real;
        memset(&taken[k], 0, sizeof *taken);
    }
    __real_free(p);
}

static void wants(const char *what, uint64_t got, uint64_t wanted) {
    if (got == wanted) return;
    printf("%s: %llu, and not %llu\n", what, (unsigned long long)got, (unsigned long long)wanted);
    exit(1);
}

/* What the proved code asks for, but for what lies in the near heap: where the last piece ends, and where all would that lie as close
 * together as they may; and the first and the last lines of the pieces since `pieces` was 0, each of two cache lines. */
static _Thread_local const unsigned char *last_end;
static _Thread_local size_t close_end;
static _Thread_local int pieces_in_near;
static _Thread_local struct { uintptr_t first, last; } lines[PIECES];
static _Thread_local size_t pieces;
PAIR struct piece __wrap_tlsf_memory_alloc(size_t bytes, size_t align) {
    const struct piece piece = __real_tlsf_memory_alloc(bytes, align);
    const unsigned char *const at = piece.at;
    if (piece.is_there && at >= near.front && at < near.behind + GUARD) {
        wants("behind the handle of the near heap", at - 8 >= (unsigned char *)(tlsf_near(&near.heap) + 1) && at + bytes <= near.behind, 1);
        pieces_in_near++;
        return piece;
    }
    for (size_t k = 0; k < 2 * LINES; k++)
        if (taken[k].real && at >= taken[k].from - LINES && at < taken[k].to + LINES)
            wants("a piece in what malloc gave", at - 8 >= taken[k].from && at + bytes <= taken[k].to, 1);
    last_end = at + bytes;
    close_end = (close_end + 15) / 16 * 16 + 8 + bytes;
    if (pieces < PIECES && piece.is_there) {
        lines[pieces].first = ((uintptr_t)piece.at - 8) / LINES;
        lines[pieces++].last = ((uintptr_t)last_end - 1) / LINES;
    }
    return piece;
}

static uint32_t words_of(struct tlsf_heap *heap) {
    struct tlsf_heap_report r = {0, 0, 0, 0, 0, 0, 0, 0, 0, 0};
    wants("report", tlsf_report(heap, &r), TLSF_OK);
    return r.live_words + r.free_words;
}

/* Whether all is as it was filled, but for `bytes` bytes from `from` on. */
static void check_outside(const unsigned char *all, const unsigned char *from, size_t bytes) {
    const size_t before = (size_t)(from - all), behind = before + bytes;
    wants("a byte in front is another", memcmp(all, filled, before) != 0, 0);
    wants("a byte behind is another", behind < ROOM && memcmp(all + behind, filled, ROOM - behind) != 0, 0);
}

/* Fills all payload of a heap, and sees that it lies in its memory. */
static void use(struct tlsf_heap *heap, const unsigned char *from, size_t bytes) {
    struct tlsf_name name = {0, 0, 0};
    uint64_t *base = NULL;
    uint32_t len = 0, count = 0;
    while (tlsf_allocate(heap, 40, &name) == TLSF_OK || tlsf_allocate(heap, 8, &name) == TLSF_OK) {
        wants("locate", tlsf_locate(heap, name, &base, &len), TLSF_OK);
        unsigned char *p = (unsigned char *)(base + name.at + 3);
        wants("in its memory", p >= from && p + len <= from + bytes, 1);
        wants("the base, 8 bytes behind a multiple of 16", (uintptr_t)base % 16, 8);
        memset(p, 0x5a, len);
        count++;
    }
    wants("some block", count > 0, 1);
}

/* --- Heaps ---------------------------------------------------------------------------------------------------------- */

/* A kind of heaps: how one is opened, what it takes, its handle, and how many pieces lie in the near heap. */
struct kind {
    uint32_t (*open)(uint32_t level, uint32_t words);
    uint32_t (*open_in)(uint32_t level, void *memory, size_t bytes);
    size_t (*bytes)(uint32_t level, uint32_t words);
    struct tlsf_heap *heap;
    int pieces_in_near;
};
static uint32_t open_plain(uint32_t level, uint32_t words) { return tlsf_open(&plain, level, 1, words); }
static uint32_t open_plain_in(uint32_t level, void *memory, size_t bytes) { return tlsf_open_in(&plain, level, 1, memory, bytes); }
static uint32_t open_near(uint32_t level, uint32_t words) { return tlsf_open_near(&near.heap, level, 1, words); }
static uint32_t open_near_in(uint32_t level, void *memory, size_t bytes) { return tlsf_open_near_in(&near.heap, level, 1, memory, bytes); }
static const struct kind plain_kind = {open_plain, open_plain_in, tlsf_bytes, &plain, 0};
static struct kind near_kind = {open_near, open_near_in, tlsf_near_bytes, NULL, 1};

/* A heap in so many bytes at an alignment; how many words it has, 0 where it is refused. */
static uint32_t heap_in(const struct kind *kind, uint32_t level, size_t align, size_t bytes) {
    unsigned char *const from = room[0] + GUARD + align;
    memset(room[0], FILLED, ROOM);
    memset(&near, FILLED, sizeof near);
    memset(tlsf_near(&near.heap), 0, sizeof(struct tlsf_heap));
    pieces_in_near = 0;
    const uint32_t answer = kind->open_in(level, from, bytes);
    if (answer != TLSF_OK) {
        wants("refused", answer, TLSF_BAD_SIZE);
        check_outside(room[0], from, 0);
        return 0;
    }
    const uint32_t words = words_of(kind->heap);
    wants("pieces in the near heap", (size_t)pieces_in_near, (size_t)kind->pieces_in_near);
    if (align == 1) wants("the last byte", (size_t)(last_end - from), kind->bytes(level, words));
    wants("in use", kind->open_in(3, from, 0), TLSF_IN_USE);
    use(kind->heap, from, bytes);
    wants("close", tlsf_close(kind->heap), TLSF_OK);
    check_outside(room[0], from, kind->bytes(level, words) < bytes ? kind->bytes(level, words) : bytes);
    for (size_t k = 0; k < GUARD; k++) wants("a byte beside the near heap", near.front[k] + near.behind[k], 2 * FILLED);
    return words;
}

/* No fewer bytes would do: the pieces that the same heap takes of malloc, one behind the other. */
static void check_least(const struct kind *kind, uint32_t level, uint32_t words) {
    close_end = 0;
    if (kind->open(level, words) == TLSF_NO_MEMORY) return;
    wants("the least bytes", kind->bytes(level, words), 15 + close_end);
    wants("the words", words_of(kind->heap), words);
    wants("close", tlsf_close(kind->heap), TLSF_OK);
}

static void heaps(const struct kind *kind, uint32_t level) {
    static const uint32_t sizes[] = {4, 5, 6, 7, 8, 31, 32, 63, 64, 65, 66, 127, 128, 129, 130, 1000, 1001, 4095, 4096, 4097};
    const uint32_t most = level == 4 ? 1u << 20 : 1u << 24;
    for (size_t k = 0; k < sizeof sizes / sizeof *sizes; k++) {
        const size_t bytes = kind->bytes(level, sizes[k]);
        uint32_t least = UINT32_MAX;
        check_least(kind, level, sizes[k]);
        for (size_t align = 0; align < 16; align++) {
            const uint32_t words = heap_in(kind, level, align, bytes), fewer = heap_in(kind, level, align, bytes - 1);
            wants("as many words as were asked for", words >= sizes[k], 1);
            least = fewer < least ? fewer : least;
        }
        wants("fewer words in one byte fewer", least < sizes[k], 1);
    }
    for (size_t bytes = 0; bytes < kind->bytes(level, 4) - 16; bytes += 1 + bytes / 50)
        wants("too few bytes", heap_in(kind, level, bytes % 16, bytes), 0);
    for (size_t bytes = kind->bytes(level, 500), last = 0; bytes < kind->bytes(level, 600); bytes++) {
        const uint32_t words = heap_in(kind, level, 3, bytes);
        wants("more words in more bytes", words >= last && words <= last + (last ? 2 : 600), 1);
        last = words;
    }
    wants("no such sizes", kind->bytes(level, 3) + kind->bytes(level, most + 1), 0);
    wants("the largest", kind->bytes(level, most) > 8u << 20, 1);
}

/* More than a heap may have: as many words as it may, and the rest stays as it is. */
static void too_much(void) {
    struct tlsf_heap heap = TLSF_CLOSED;
    const size_t bytes = tlsf_bytes(4, 1u << 20), all = bytes + 100000;
    unsigned char *const memory = malloc(all);
    if (!memory) exit(2);
    memset(memory, FILLED, all);
    wants("open in more than it may have", tlsf_open_in(&heap, 4, 1, memory, all), TLSF_OK);
    wants("the most words", words_of(&heap), 1u << 20);
    wants("close", tlsf_close(&heap), TLSF_OK);
    for (size_t k = bytes; k < all; k++) wants("a byte of the rest", memory[k], FILLED);
    wants("open in all there is", tlsf_open_in(&heap, 4, 1, memory, SIZE_MAX / 8 + 4096), TLSF_OK);
    wants("the most words", words_of(&heap), 1u << 20);
    wants("close", tlsf_close(&heap), TLSF_OK);
    free(memory);
}

static void refusals(void) {
    struct tlsf_heap heap = TLSF_CLOSED, none = TLSF_CLOSED;
    struct tlsf_name name = {0, 0, 0};
    wants("levels", tlsf_bytes(3, 64) + tlsf_bytes(6, 64) + tlsf_near_bytes(3, 64) + tlsf_near_bytes(6, 64), 0);
    wants("a near heap of level 3", tlsf_open_near_in(&near.heap, 3, 1, room[0], 8), TLSF_BAD_LEVEL);
    wants("a near heap of level 6", tlsf_open_near(&near.heap, 6, 1, 64), TLSF_BAD_LEVEL);
    wants("a near heap of 3 words", tlsf_open_near(&near.heap, 5, 1, 3), TLSF_BAD_SIZE);
    wants("level 3", tlsf_open_in(&heap, 3, 1, room[0], 8), TLSF_BAD_LEVEL);
    wants("no room", tlsf_open_in(&heap, 4, 1, room[0], 8), TLSF_BAD_SIZE);
    pieces_in_near = 0;
    wants("a heap", tlsf_open_in(&heap, 4, 1, room[0], ROOM), TLSF_OK);
    wants("pieces in a near heap that was refused", (size_t)pieces_in_near, 0);
    wants("in use", tlsf_open_in(&heap, 3, 1, room[1], 8), TLSF_IN_USE);
    wants("still there", tlsf_allocate(&heap, 8, &name), TLSF_OK);
    wants("close", tlsf_close(&heap), TLSF_OK);
    wants("no malloc so far", (size_t)calls, 0);
    wants("by malloc", tlsf_open(&none, 4, 1, 64), NEW_ANSWER);
    if (none.is_open) wants("close", tlsf_close(&none), TLSF_OK);
    wants("malloc and free", calls != 0, NEW_ANSWER == TLSF_OK);
}

/* --- Lanes ---------------------------------------------------------------------------------------------------------- */

/* So many pieces lie on lines of their own: of a lane its ring, its names and its two ends. */
static void check_lines(size_t wanted) {
    wants("pieces", pieces, wanted);
    for (size_t k = 0; k < pieces; k++)
        for (size_t j = 0; j < k; j++) wants("lines apart", lines[j].last < lines[k].first || lines[k].last < lines[j].first, 1);
}

static uint32_t lane_in(uint32_t capacity, size_t align, size_t bytes) {
    struct tlsf_post_end post = TLSF_POST_CLOSED;
    struct tlsf_take_end take = TLSF_TAKE_CLOSED;
    struct tlsf_name name = {1, 2, 3}, got = {0, 0, 0};
    unsigned char *const from = room[0] + GUARD + align;
    memset(room[0], FILLED, ROOM);
    pieces = 0;
    const uint32_t answer = tlsf_lane_open_in(&post, &take, capacity, from, bytes);
    if (answer != TLSF_OK) {
        check_outside(room[0], from, 0);
        return answer;
    }
    check_lines(4);
    if (align == 1) wants("the last line", ((uintptr_t)last_end + LINES - 1) / LINES * LINES - (uintptr_t)from, tlsf_lane_bytes(capacity));
    for (uint32_t k = 0; k < capacity; k++) wants("put", tlsf_put(&post, name), TLSF_OK);
    wants("put one more", tlsf_put(&post, name), TLSF_FULL);
    wants("take", tlsf_take(&take, &got), TLSF_OK);
    wants("the name", got.serial, 3);
    wants("close", align % 2 ? tlsf_post_close(&post) : tlsf_take_close(&take), TLSF_OK);
    wants("close the other", align % 2 ? tlsf_take_close(&take) : tlsf_post_close(&post), TLSF_OK);
    check_outside(room[0], from, tlsf_lane_bytes(capacity));
    return answer;
}

static void lanes(void) {
    static const uint32_t sizes[] = {1, 2, 3, 64, 1023, 1024};
    for (size_t k = 0; k < sizeof sizes / sizeof *sizes; k++) {
        const size_t bytes = tlsf_lane_bytes(sizes[k]);
        for (size_t align = 0; align < LINES; align++) wants("a lane", lane_in(sizes[k], align, bytes + align), TLSF_OK);
        wants("one byte fewer", lane_in(sizes[k], 1, bytes - 1), TLSF_BAD_SIZE);
    }
    wants("no such lanes", tlsf_lane_bytes(0) + tlsf_lane_bytes(1025), 0);
    wants("for 0", lane_in(0, 0, ROOM / 2), TLSF_BAD_SIZE);
    wants("for 1,025", lane_in(1025, 0, ROOM / 2), TLSF_BAD_SIZE);
}

/* The same of lanes in memory of malloc's, beside which other memory is taken. */
static void lanes_of_malloc(void) {
    struct tlsf_post_end post[3] = {TLSF_POST_CLOSED, TLSF_POST_CLOSED, TLSF_POST_CLOSED};
    struct tlsf_take_end take[3] = {TLSF_TAKE_CLOSED, TLSF_TAKE_CLOSED, TLSF_TAKE_CLOSED};
    for (size_t k = 0; k < 3; k++) {
        pieces = 0;
        wants("a lane", tlsf_lane_open(&post[k], &take[k], 1 + 7 * (uint32_t)k), NEW_ANSWER);
        if (NEW_ANSWER == TLSF_OK) check_lines(4);
    }
    for (size_t k = 0; k < 3; k++)
        wants("close", tlsf_post_close(&post[k]) + tlsf_take_close(&take[k]), NEW_ANSWER == TLSF_OK ? 0 : 2 * TLSF_IS_CLOSED);
}

/* Heaps of each alignment, near heaps, lanes, queues, arenas and pools by a malloc that aligns as little. */
static void by_malloc_off_line(size_t off) {
    static const struct tlsf_kind rows[] = {{3, 24}, {2, 1000}};
    struct tlsf_post_end post = TLSF_POST_CLOSED;
    struct tlsf_take_end take = TLSF_TAKE_CLOSED;
    struct tlsf_queue queue = TLSF_QUEUE_CLOSED;
    struct tlsf_offsets offsets = TLSF_OFFSETS_CLOSED;
    struct tlsf_pools pools = TLSF_POOLS_CLOSED;
    struct tlsf_near_heap third = TLSF_NEAR_CLOSED;
    off_line = off;
    for (uint32_t words = 4; words < 4 + LINES; words++) {
        plain.align = tlsf_near(&third)->align = (uint8_t)(words % 5 == 4 ? 0 : 8 << words % 5);
        wants("a heap", tlsf_open(&plain, 4, 1, words) + tlsf_close(&plain), TLSF_OK);
        wants("a near heap", tlsf_open_near(&third, 5, 1, words) + tlsf_close(tlsf_near(&third)), TLSF_OK);
        wants("a lane", tlsf_lane_open(&post, &take, words) + tlsf_post_close(&post) + tlsf_take_close(&take), TLSF_OK);
        wants("a queue", tlsf_queue_open(&queue, words, words) + tlsf_queue_close(&queue), TLSF_OK);
        wants("an arena", tlsf_offsets_open(&offsets, 4, 1, 64, words) + tlsf_offsets_close(&offsets), TLSF_OK);
    }
    plain.align = 0;
    wants("pools", tlsf_pools_open(&pools, 4, 1, rows, 2) + tlsf_pools_close(&pools), TLSF_OK);
    off_line = 0;
    for (size_t k = 0; k < 2 * LINES; k++) wants("all is freed", taken[k].real != NULL, 0);
}

/* --- Queues --------------------------------------------------------------------------------------------------------- */

static uint32_t queue_in(uint32_t posters, uint32_t capacity, size_t align, size_t bytes) {
    struct tlsf_queue queue = TLSF_QUEUE_CLOSED;
    struct tlsf_poster poster = TLSF_POSTER_CLOSED;
    struct tlsf_name name = {1, 2, 3}, got = {0, 0, 0};
    unsigned char *const from = room[0] + GUARD + align;
    memset(room[0], FILLED, ROOM);
    pieces = 0;
    const uint32_t answer = tlsf_queue_open_in(&queue, posters, capacity, from, bytes);
    if (answer != TLSF_OK) {
        check_outside(room[0], from, 0);
        return answer;
    }
    check_lines(8 + posters);
    if (align == 1)
        wants("the last line", ((uintptr_t)last_end + LINES - 1) / LINES * LINES - (uintptr_t)from, tlsf_queue_bytes(posters, capacity));
    wants("open twice", tlsf_queue_open_in(&queue, 0, capacity, from, 0), TLSF_IN_USE);
    for (uint32_t k = 1; k < posters; k++) wants("a poster", tlsf_poster_open(&queue, &poster) + tlsf_poster_close(&poster), TLSF_OK);
    wants("the last poster", tlsf_poster_open(&queue, &poster), TLSF_OK);
    for (uint32_t k = 0; k < capacity; k++) wants("post", tlsf_queue_post(&poster, name), TLSF_OK);
    wants("post one more", tlsf_queue_post(&poster, name), TLSF_FULL);
    wants("take", tlsf_queue_take(&queue, &got), TLSF_OK);
    wants("the name", got.serial, 3);
    wants("close", align % 2 ? tlsf_poster_close(&poster) : tlsf_queue_close(&queue), TLSF_OK);
    wants("close the other", align % 2 ? tlsf_queue_close(&queue) : tlsf_poster_close(&poster), TLSF_OK);
    check_outside(room[0], from, tlsf_queue_bytes(posters, capacity));
    return answer;
}

static void queues(void) {
    static const uint32_t sizes[][2] = {{1, 1}, {1, 2}, {2, 3}, {3, 64}, {17, 1023}, {63, 5}, {1024, 2}, {2, 1024}};
    for (size_t k = 0; k < sizeof sizes / sizeof *sizes; k++) {
        const uint32_t posters = sizes[k][0], capacity = sizes[k][1];
        const size_t bytes = tlsf_queue_bytes(posters, capacity);
        for (size_t align = 0; align < LINES; align += posters < 64 ? 1 : 21)
            wants("a queue", queue_in(posters, capacity, align, bytes + align), TLSF_OK);
        wants("one byte fewer", queue_in(posters, capacity, 1, bytes - 1), TLSF_BAD_SIZE);
        wants("no bytes", queue_in(posters, capacity, 1, 0), TLSF_BAD_SIZE);
    }
    wants("no such queues", tlsf_queue_bytes(0, 1) + tlsf_queue_bytes(1, 0) + tlsf_queue_bytes(1025, 1) + tlsf_queue_bytes(1, 1025), 0);
    wants("for no poster", queue_in(0, 1, 0, ROOM / 2), TLSF_BAD_SIZE);
    wants("for 1,025", queue_in(1025, 1, 0, ROOM / 2), TLSF_BAD_SIZE);
    wants("of no name", queue_in(1, 0, 0, ROOM / 2), TLSF_BAD_SIZE);
    wants("of 1,025", queue_in(1, 1025, 0, ROOM / 2), TLSF_BAD_SIZE);
}

/* --- Arenas of offsets ---------------------------------------------------------------------------------------------- */

static uint32_t offsets_in(uint32_t level, uint32_t units, size_t align, size_t bytes) {
    struct tlsf_offsets offsets = TLSF_OFFSETS_CLOSED;
    struct tlsf_span span = {{0, 0, 0}, 0, 0};
    struct tlsf_offsets_usage usage = {0, 0, 0, 0};
    unsigned char *const from = room[0] + GUARD + align;
    uint64_t held = 0;
    memset(room[0], FILLED, ROOM);
    const uint32_t answer = tlsf_offsets_open_in(&offsets, level, 7, 64, units, from, bytes);
    if (answer != TLSF_OK) {
        check_outside(room[0], from, 0);
        return answer;
    }
    if (align == 1) wants("the last byte", (size_t)(last_end - from), tlsf_offsets_bytes(level, units));
    wants("open twice", tlsf_offsets_open_in(&offsets, 3, 7, 64, units, from, 0), TLSF_IN_USE);
    while (tlsf_offsets_allocate(&offsets, 256, &span) == TLSF_OK) held += span.size;
    wants("all of it", held, 64 * (uint64_t)units);
    wants("report", tlsf_offsets_report(&offsets, &usage), TLSF_OK);
    wants("held", usage.held, held);
    wants("close", tlsf_offsets_close(&offsets), TLSF_OK);
    check_outside(room[0], from, tlsf_offsets_bytes(level, units));
    return answer;
}

static void arenas(uint32_t level) {
    static const uint32_t sizes[] = {4, 5, 63, 64, 65, 1000, 4096, 4097};
    const uint32_t most = level == 4 ? 1u << 20 : 1u << 24;
    for (size_t k = 0; k < sizeof sizes / sizeof *sizes; k++) {
        const size_t bytes = tlsf_offsets_bytes(level, sizes[k]);
        for (size_t align = 0; align < 16; align++) wants("an arena", offsets_in(level, sizes[k], align, bytes), TLSF_OK);
        wants("one byte fewer", offsets_in(level, sizes[k], 1, bytes - 1), TLSF_BAD_SIZE);
        wants("no bytes", offsets_in(level, sizes[k], 1, 0), TLSF_BAD_SIZE);
    }
    wants("no such sizes", tlsf_offsets_bytes(level, 3) + tlsf_offsets_bytes(level, most + 1) + tlsf_offsets_bytes(level + 2, 64), 0);
    wants("of 3 units", offsets_in(level, 3, 0, ROOM / 2), TLSF_BAD_SIZE);
    wants("of too many", offsets_in(level, most + 1, 0, ROOM / 2), TLSF_BAD_SIZE);
    wants("of no level", offsets_in(level == 4 ? 3 : 6, 64, 0, 0), TLSF_BAD_LEVEL);
}

/* --- Memory that isn't there ---------------------------------------------------------------------------------------------- */

/* Null, MAP_FAILED, and what would go past the end of the address space: each is refused before its size is, and nothing is taken. */
static void nowhere(unsigned char *memory, size_t bytes) {
    struct tlsf_heap heap = TLSF_CLOSED;
    struct tlsf_near_heap third = TLSF_NEAR_CLOSED;
    struct tlsf_post_end post = TLSF_POST_CLOSED;
    struct tlsf_take_end take = TLSF_TAKE_CLOSED;
    struct tlsf_queue queue = TLSF_QUEUE_CLOSED;
    struct tlsf_offsets offsets = TLSF_OFFSETS_CLOSED;
    const int before = calls;
    wants("a heap nowhere", tlsf_open_in(&heap, 4, 1, memory, bytes), TLSF_BAD_MEMORY);
    wants("a level first", tlsf_open_in(&heap, 3, 1, memory, bytes), TLSF_BAD_LEVEL);
    wants("a near heap nowhere", tlsf_open_near_in(&third, 5, 1, memory, bytes), TLSF_BAD_MEMORY);
    wants("a lane nowhere", tlsf_lane_open_in(&post, &take, 8, memory, bytes), TLSF_BAD_MEMORY);
    wants("a lane of too many nowhere", tlsf_lane_open_in(&post, &take, 1025, memory, bytes), TLSF_BAD_MEMORY);
    wants("a queue nowhere", tlsf_queue_open_in(&queue, 2, 8, memory, bytes), TLSF_BAD_MEMORY);
    wants("an arena nowhere", tlsf_offsets_open_in(&offsets, 4, 1, 64, 100, memory, bytes), TLSF_BAD_MEMORY);
    wants("all closed", heap.is_open || tlsf_near(&third)->is_open || post.is_open || take.is_open || queue.is_open || offsets.is_open, 0);
    wants("nothing taken", (size_t)(calls - before), 0);
    wants("a heap somewhere", tlsf_open_in(&heap, 4, 1, room[0], ROOM), TLSF_OK);
    wants("open first", tlsf_open_in(&heap, 3, 1, memory, bytes), TLSF_IN_USE);
    wants("close", tlsf_close(&heap), TLSF_OK);
}

static void no_memory(void) {
    nowhere(NULL, 1 << 16);
    nowhere(NULL, 0);
    nowhere((unsigned char *)UINTPTR_MAX, 1 << 16); /* MAP_FAILED */
    nowhere((unsigned char *)UINTPTR_MAX, 1);
    nowhere(room[0], SIZE_MAX - (uintptr_t)room[0] + 1);
    nowhere(room[0], SIZE_MAX);
}

/* --- Two threads that open at once ---------------------------------------------------------------------------------- */

static void *open_often(void *given) {
    unsigned char *const own = given;
    for (int turn = 0; turn < 3000; turn++) {
        struct tlsf_heap heap = TLSF_CLOSED, other = TLSF_CLOSED;
        struct tlsf_near_heap third = TLSF_NEAR_CLOSED;
        const size_t bytes = 4000 + (size_t)turn % 700;
        wants("near, in", tlsf_open_near_in(&third, 4 + (uint32_t)turn % 2, 3, own + bytes, bytes), TLSF_OK);
        wants("open in", tlsf_open_in(&heap, 4 + (uint32_t)turn % 2, 1, own, bytes), TLSF_OK);
        wants("by malloc meanwhile", tlsf_open(&other, 4, 2, 64), NEW_ANSWER);
        if (turn % 50 == 0) use(tlsf_near(&third), own + bytes, bytes);
        if (turn % 50 == 0) use(&heap, own, bytes);
        wants("close", tlsf_close(tlsf_near(&third)), TLSF_OK);
        wants("close", tlsf_close(&heap), TLSF_OK);
        if (other.is_open) wants("close", tlsf_close(&other), TLSF_OK);
    }
    return NULL;
}

static void threads(void) {
    pthread_t thread;
    if (pthread_create(&thread, NULL, open_often, room[1])) exit(2);
    (void)open_often(room[0]);
    pthread_join(thread, NULL);
}

int main(void) {
    memset(filled, FILLED, ROOM);
    near_kind.heap = tlsf_near(&near.heap);
    heaps(&plain_kind, 4);
    heaps(&plain_kind, 5);
    heaps(&near_kind, 4);
    heaps(&near_kind, 5);
    too_much();
    is_counted = 1;
    (void)heap_in(&plain_kind, 4, 0, ROOM / 2);
    (void)heap_in(&near_kind, 5, 0, ROOM / 2);
    lanes();
    queues();
    arenas(4);
    arenas(5);
    no_memory();
    refusals();
    is_counted = 0;
    lanes_of_malloc();
    if (NEW_ANSWER == TLSF_OK)
        for (size_t off = 1; off < LINES; off++) by_malloc_off_line(off);
    threads();
    printf("heaps, lanes, queues and arenas in memory of the program's: all as said\n");
    return 0;
}
