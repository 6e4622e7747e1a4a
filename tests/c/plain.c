/* A plain heap and a plain lane that answer as peachanchor.h says, by first fit over a table of blocks: what the tests beside it are
 * tried on, since one that passes on each library shows nothing. With a number from 1 to 14, 25, 26, 35 or 36 in the
 * environment's WRONG one thing in it is wrong, and random.c has to notice; from 15 to 24, from 27 to 30 or 37, and pointers.c
 * has to; from 31 to 34, and lengths.c has to. It is no real-time heap, and its lanes are for one thread. */
#include "peachanchor.h"
#undef tlsf_release /* the call itself */

#include <stdlib.h>
#include <string.h>

enum { HEADER = 3, LEAST = 4 };

static int wrong;

__attribute__((constructor)) static void read_wrong(void) {
    const char *const number = getenv("WRONG");
    wrong = number ? atoi(number) : 0;
}

struct piece {
    uint32_t at, words, len;
    uint64_t serial;
    bool is_live;
};

struct plain {
    uint64_t *region, tick;
    uint32_t words, number, count;
    struct piece *pieces;
    void *taken; /* the region's memory, where it is malloc's */
    struct tlsf_heap_counts counts;
};

struct ring {
    uint32_t capacity, count, ends;
    struct tlsf_name names[1026];
};

/* A length as the heap has it. The wrong heap of that number cuts it. */
static uint32_t saturated(size_t len, int number) { return len > UINT32_MAX && wrong != number ? UINT32_MAX : (uint32_t)len; }

static uint32_t want(uint32_t len) {
    const uint32_t words = HEADER + len / 8 + (len % 8 != 0);
    return words < LEAST ? LEAST : words;
}

/* Notes a block of an odd number of words, where it was given. */
static uint32_t note(struct tlsf_heap *heap, uint32_t answer, uint32_t len) {
    if (answer == TLSF_OK && want(len) % 2 && wrong != 30) heap->is_mixed = true;
    return answer;
}

static void insert(struct plain *p, uint32_t k, struct piece new) {
    memmove(&p->pieces[k + 1], &p->pieces[k], (p->count - k) * sizeof new);
    p->pieces[k] = new;
    p->count++;
}

static void remove_piece(struct plain *p, uint32_t k) {
    p->count--;
    memmove(&p->pieces[k], &p->pieces[k + 1], (p->count - k) * sizeof *p->pieces);
}

/* Joins free pieces that touch. */
static void merge(struct plain *p) {
    for (uint32_t k = 0; k + 1 < p->count;) {
        if (p->pieces[k].is_live || p->pieces[k + 1].is_live) {
            k++;
            continue;
        }
        p->pieces[k].words += p->pieces[k + 1].words;
        remove_piece(p, k + 1);
    }
}

static uint8_t *bytes_of(struct plain *p, const struct piece *it) { return (uint8_t *)(p->region + it->at + HEADER); }

/* Leaves a piece so many words, and what is over becomes free, if a block can be made of it. */
static void cut(struct plain *p, uint32_t k, uint32_t words) {
    struct piece rest = {p->pieces[k].at + words, p->pieces[k].words - words, 0, 0, false};
    if (rest.words < LEAST) return;
    p->pieces[k].words = words;
    insert(p, k + 1, rest);
}

/* The words in live blocks after a call, and what it was refused. */
static uint32_t counted(struct plain *p, uint32_t answer, uint32_t len) {
    struct tlsf_heap_counts *c = &p->counts;
    c->words = 0;
    for (uint32_t k = 0; k < p->count; k++) c->words += p->pieces[k].is_live ? p->pieces[k].words : 0;
    if (c->words > c->most_words) c->most_words = c->words;
    if (answer == TLSF_NO_FIT && wrong != 15) c->refused++;
    if (answer == TLSF_NO_FIT && len > c->longest_refused) c->longest_refused = len;
    return answer;
}

static uint32_t find(struct plain *p, struct tlsf_name name, struct piece **found) {
    if (wrong != 3 && name.heap != p->number) return TLSF_FOREIGN;
    for (uint32_t k = 0; k < p->count; k++) {
        *found = &p->pieces[k];
        if ((*found)->is_live && (*found)->at == name.at && (wrong == 2 || (*found)->serial == name.serial)) return TLSF_OK;
    }
    return TLSF_STALE;
}

static uint32_t open_over(struct tlsf_heap *heap, uint32_t level, uint32_t number, uint32_t words, uint64_t *region) {
    if (heap->is_open) return TLSF_IN_USE;
    if (level != 4 && level != 5) return TLSF_BAD_LEVEL;
    if (words < LEAST || words > (level == 4 ? 1u << 20 : 1u << 24)) return TLSF_BAD_SIZE;
    struct plain *p = calloc(1, sizeof *p);
    if (!p) return TLSF_NO_MEMORY;
    p->taken = region ? NULL : malloc((words + 1) * sizeof *region);
    p->region = region ? region : (uint64_t *)p->taken + 1;
    p->words = words;
    p->number = number;
    p->pieces = calloc(words / LEAST + 2, sizeof(struct piece));
    if (!p->pieces || (!region && !p->taken)) abort();
    memset(p->region, 0, words * sizeof *region);
    insert(p, 0, (struct piece){0, words, 0, 0, false});
    heap->held = p;
    heap->is_open = true;
    heap->base = p->region;
    heap->number = number + (wrong == 28);
    if (wrong != 29) heap->is_mixed = false;
    return TLSF_OK;
}

uint32_t tlsf_open(struct tlsf_heap *heap, uint32_t level, uint32_t number, uint32_t words) {
    return open_over(heap, level, number, words, NULL);
}

size_t tlsf_bytes(uint32_t level, uint32_t words) {
    return words < LEAST || words > (level == 4 ? 1u << 20 : level == 5 ? 1u << 24 : 0) ? 0 : 8 * (size_t)words + 23;
}

uint32_t tlsf_open_in(struct tlsf_heap *heap, uint32_t level, uint32_t number, void *memory, size_t bytes) {
    uint64_t *const region = (uint64_t *)(void *)((char *)memory + (-(uintptr_t)memory & 15) + 8);
    const size_t most = level == 4 ? 1u << 20 : 1u << 24, words = bytes < 23 + 8 * LEAST ? 0 : (bytes - 23) / 8;
    return open_over(heap, level, number, (uint32_t)(words < most ? words : most), region);
}

size_t tlsf_near_bytes(uint32_t level, uint32_t words) { return tlsf_bytes(level, words); }

uint32_t tlsf_open_near_in(struct tlsf_near_heap *near, uint32_t level, uint32_t number, void *memory, size_t bytes) {
    return tlsf_open_in(tlsf_near(near), level, number, memory, bytes);
}

uint32_t tlsf_close(struct tlsf_heap *heap) {
    if (!heap->is_open) return TLSF_IS_CLOSED;
    struct plain *p = heap->held;
    free(p->taken);
    free(p->pieces);
    free(p);
    heap->is_open = false;
    return TLSF_OK;
}

/* Makes a block of the end of a free piece, behind a gap of no words, or of as many as a block has at least. */
static uint32_t give(struct plain *p, uint32_t k, uint32_t gap, uint32_t words, uint32_t len) {
    if (gap) cut(p, k++, gap);
    cut(p, k, words);
    p->pieces[k].is_live = true;
    p->pieces[k].len = len;
    p->region[p->pieces[k].at + 2] = len; /* as docs/LAYOUT.md has it, for tlsf_block_size */
    p->pieces[k].serial = ++p->tick;
    return p->pieces[k].at;
}

/* The block that was given last at a place, or a refusal. */
static struct tlsf_placed placed(struct plain *p, uint32_t answer, uint32_t at, uint32_t len) {
    counted(p, answer, len);
    return (struct tlsf_placed){at, answer, answer == TLSF_OK ? p->tick + (wrong == 27) : 0};
}

struct tlsf_placed tlsf_allocate_place(struct tlsf_heap *heap, size_t bytes) {
    if (!heap->is_open) return (struct tlsf_placed){0, TLSF_IS_CLOSED, 0};
    struct plain *p = heap->held;
    const uint32_t len = saturated(bytes, 31);
    uint32_t k = 0;
    while (k < p->count && (p->pieces[k].is_live || p->pieces[k].words < want(len) + (wrong == 13))) k++;
    if (k == p->count) return placed(p, TLSF_NO_FIT, 0, len);
    const uint32_t at = give(p, k, 0, want(len) - (wrong == 6 && want(len) > LEAST), len);
    return placed(p, TLSF_OK, at, len);
}

struct tlsf_placed tlsf_allocate_aligned(struct tlsf_heap *heap, size_t bytes, uint32_t step, uint32_t skew) {
    if (!heap->is_open) return (struct tlsf_placed){0, TLSF_IS_CLOSED, 0};
    struct plain *p = heap->held;
    const uint32_t len = saturated(bytes, 31);
    for (uint32_t k = 0; k < p->count; k++) {
        const struct piece *it = &p->pieces[k];
        uint32_t gap = 0;
        while (gap < it->words && ((it->at + gap + HEADER + skew + (wrong == 16)) % step || (gap && gap < LEAST))) gap++;
        if (it->is_live || it->words < gap + want(len)) continue;
        const uint32_t at = give(p, k, gap, want(len), len);
        return placed(p, TLSF_OK, at, len);
    }
    return placed(p, TLSF_NO_FIT, 0, len);
}

uint32_t tlsf_allocate(struct tlsf_heap *heap, size_t len, struct tlsf_name *name) {
    if (wrong == 10) name->heap = ~0u;
    const struct tlsf_placed it = tlsf_allocate_place(heap, len);
    if (it.answer != TLSF_OK) return it.answer;
    struct plain *p = heap->held;
    if (wrong != 1) memset(p->region + it.at + HEADER, 0, len);
    *name = (struct tlsf_name){p->number, it.at, it.serial};
    return note(heap, TLSF_OK, (uint32_t)len);
}

static uint32_t release(struct plain *p, struct piece *found) {
    p->tick++;
    found->is_live = false;
    if (wrong != 7) merge(p);
    return counted(p, TLSF_OK, 0);
}

uint32_t tlsf_release(struct tlsf_heap *heap, struct tlsf_name name) {
    struct piece *found = NULL;
    if (!heap->is_open) return TLSF_IS_CLOSED;
    const uint32_t answer = find(heap->held, name, &found);
    return answer == TLSF_OK ? release(heap->held, found) : answer;
}

uint32_t tlsf_release_all(struct tlsf_heap *heap, const struct tlsf_name *names, size_t n) {
    for (size_t k = 0; heap->is_open && k < n; k++) (void)tlsf_release(heap, names[k]);
    return heap->is_open ? TLSF_OK : TLSF_IS_CLOSED;
}

/* Gives a block so many bytes where it stands, and leaves them as they are. */
static uint32_t resize(struct plain *p, struct piece *found, uint32_t len) {
    const uint32_t k = (uint32_t)(found - p->pieces);
    const uint32_t behind = k + 1 < p->count && !found[1].is_live ? found[1].words : 0;
    if (found->words + behind < want(len)) return TLSF_NO_ROOM;
    p->tick++;
    if (found->words < want(len) && behind) {
        found->words += behind;
        remove_piece(p, k + 1);
    }
    found->len = len;
    if (wrong != 37) p->region[found->at + 2] = len;
    cut(p, k, want(len));
    merge(p);
    return counted(p, TLSF_OK, 0);
}

uint32_t tlsf_resize(struct tlsf_heap *heap, struct tlsf_name name, size_t bytes) {
    struct piece *found = NULL;
    const uint32_t len = saturated(bytes, 32);
    if (!heap->is_open) return TLSF_IS_CLOSED;
    uint32_t answer = find(heap->held, name, &found);
    if (answer != TLSF_OK) return answer;
    const uint32_t had = found->len;
    answer = resize(heap->held, found, len);
    if (wrong != 4 && answer == TLSF_OK && len > had) memset(bytes_of(heap->held, found) + had, 0, len - had);
    return note(heap, answer, len);
}

static uint32_t at_place(struct tlsf_heap *heap, uint32_t at, struct piece **found) {
    if (!heap->is_open) return TLSF_IS_CLOSED;
    struct plain *p = heap->held;
    for (uint32_t k = 0; k < p->count; k++) {
        *found = &p->pieces[k];
        if ((*found)->at == at || (wrong == 17 && at > (*found)->at && at - (*found)->at < (*found)->words))
            return (*found)->is_live || wrong == 18 ? TLSF_OK : TLSF_STALE;
    }
    return TLSF_STALE;
}

uint32_t tlsf_release_place(struct tlsf_heap *heap, uint32_t at) {
    struct piece *found = NULL;
    const uint32_t answer = at_place(heap, at, &found);
    if (answer != TLSF_OK) return answer;
    return wrong == 19 ? TLSF_OK : release(heap->held, found);
}

size_t tlsf_allocate_payload(struct tlsf_heap *heap, size_t len) {
    struct tlsf_placed it = {0, TLSF_NO_FIT, 0};
    if (len <= TLSF_LONGEST) it = tlsf_allocate_place(heap, (len + 7) / 16 * 16 + 8);
    return it.answer == TLSF_OK ? 8 * ((size_t)it.at + HEADER) : 0;
}

uint32_t tlsf_place(struct tlsf_heap *heap, uint32_t at, struct tlsf_name *name, uint32_t *len) {
    struct piece *found = NULL;
    const uint32_t answer = at_place(heap, at, &found);
    if (answer != TLSF_OK) return answer;
    *name = (struct tlsf_name){((struct plain *)heap->held)->number, found->at, found->serial + (wrong == 20)};
    *len = found->len - (wrong == 21);
    return TLSF_OK;
}

static uint32_t least(uint32_t a, uint32_t b) { return a < b ? a : b; }

uint32_t tlsf_resize_place(struct tlsf_heap *heap, uint32_t at, size_t bytes, uint32_t *new_at) {
    struct piece *found = NULL;
    struct plain *p = heap->held;
    const uint32_t len = saturated(bytes, 33);
    uint32_t answer = at_place(heap, at, &found);
    if (answer != TLSF_OK) return answer;
    const uint32_t had = found->len;
    answer = resize(p, found, len);
    if (answer == TLSF_OK && wrong == 22) memset(bytes_of(p, found), 0, 1);
    if (answer == TLSF_OK) *new_at = at;
    if (answer != TLSF_NO_ROOM) return answer;
    const struct tlsf_placed it = tlsf_allocate_place(heap, len);
    if (it.answer != TLSF_OK) return it.answer;
    *new_at = it.at;
    memmove(p->region + *new_at + HEADER, p->region + at + HEADER, least(had, len));
    return tlsf_release_place(heap, at);
}

uint32_t tlsf_reallocate(struct tlsf_heap *heap, struct tlsf_name *name, size_t len) {
    uint32_t had = 0, at = 0;
    uint64_t *base = NULL;
    uint32_t answer = tlsf_locate(heap, *name, &base, &had);
    if (answer == TLSF_OK) answer = tlsf_resize_place(heap, name->at, len, &at);
    if (answer != TLSF_OK) return answer;
    if (len > had) memset((uint8_t *)(base + at + HEADER) + had, 0, len - had);
    return note(heap, tlsf_place(heap, at, name, &had), (uint32_t)len);
}

uint32_t tlsf_block_at(struct tlsf_heap *heap, uint32_t at, struct tlsf_block_info *block) {
    if (!heap->is_open) return TLSF_IS_CLOSED;
    const struct plain *p = heap->held;
    for (uint32_t k = 0; k < p->count; k++) {
        const struct piece *it = &p->pieces[k];
        if (it->at != at) continue;
        *block = (struct tlsf_block_info){at, it->words, it->is_live && wrong != 23, it->len, it->serial};
        if (!it->is_live) block->len = 0;
        return TLSF_OK;
    }
    return TLSF_STALE;
}

uint32_t tlsf_counts(struct tlsf_heap *heap, struct tlsf_heap_counts *counts) {
    if (!heap->is_open) return TLSF_IS_CLOSED;
    *counts = ((struct plain *)heap->held)->counts;
    if (wrong == 24) counts->most_words = counts->words;
    return TLSF_OK;
}

static uint32_t in_payload(struct tlsf_heap *heap, struct tlsf_name name, uint32_t at, size_t n, uint8_t **bytes) {
    if (!heap->is_open) return TLSF_IS_CLOSED;
    struct piece *found = NULL;
    const uint32_t answer = find(heap->held, name, &found);
    if (answer != TLSF_OK) return answer;
    *bytes = bytes_of(heap->held, found) + at;
    return at + (uint64_t)n > found->len ? TLSF_RANGE : TLSF_OK;
}

uint32_t tlsf_write(struct tlsf_heap *heap, struct tlsf_name name, uint32_t at, const uint8_t *bytes, size_t n) {
    uint8_t *to = NULL;
    uint32_t answer = in_payload(heap, name, at, n, &to);
    if (wrong == 5 && answer == TLSF_RANGE) answer = in_payload(heap, name, at, n - 1, &to);
    if (answer == TLSF_OK) memcpy(to, bytes, n);
    return answer;
}

uint32_t tlsf_read(struct tlsf_heap *heap, struct tlsf_name name, uint32_t at, uint8_t *out, size_t n) {
    uint8_t *from = NULL;
    const uint32_t answer = in_payload(heap, name, at, n, &from);
    if (wrong == 11 && answer == TLSF_RANGE) return TLSF_OK;
    if (answer == TLSF_OK) memcpy(out, from, n);
    return answer;
}

uint32_t tlsf_locate(struct tlsf_heap *heap, struct tlsf_name name, uint64_t **base, uint32_t *len) {
    if (!heap->is_open) return TLSF_IS_CLOSED;
    struct plain *p = heap->held;
    struct piece *found = NULL;
    const uint32_t answer = find(p, name, &found);
    if (answer != TLSF_OK) return answer;
    *base = p->region;
    *len = wrong == 12 ? (found->len + 7) / 8 * 8 : found->len;
    return TLSF_OK;
}

uint32_t tlsf_report(struct tlsf_heap *heap, struct tlsf_heap_report *report) {
    if (!heap->is_open) return TLSF_IS_CLOSED;
    struct plain *p = heap->held;
    struct tlsf_heap_report r = {0, 0, 0, 0, 0, 0, 0, 0, 0, 0};
    for (uint32_t k = 0; k < p->count; k++) {
        const struct piece *it = &p->pieces[k];
        if (it->is_live) r.live_blocks++, r.live_words += it->words, r.live_bytes += it->len;
        else r.free_blocks++, r.free_words += it->words;
        if (!it->is_live && it->words > r.largest) r.largest = it->words;
    }
    if (wrong == 14 && r.live_blocks > 9) r.live_bytes++;
    r.grant = r.largest ? 8 * (r.largest - HEADER) : 0;
    r.fragmentation = r.free_words ? 1000 - 1000 * r.largest / r.free_words : 0;
    r.waste = 8 * r.live_words - r.live_bytes;
    *report = r;
    return TLSF_OK;
}

/* It has no headers in its region, so none is ever damaged. */
uint32_t tlsf_check(struct tlsf_heap *heap, uint32_t from, uint32_t most, uint32_t *next, uint32_t *damaged) {
    struct tlsf_block_info it = {from, 0, 0, 0, 0};
    uint32_t answer = tlsf_block_at(heap, from, &it), at = from;
    if (answer != TLSF_OK) return answer;
    for (uint32_t k = 0; k < most && tlsf_block_at(heap, at, &it) == TLSF_OK; k++) at = it.at + it.size;
    *next = at == ((struct plain *)heap->held)->words ? 0 : at;
    (void)damaged;
    return TLSF_OK;
}

uint32_t tlsf_lane_open(struct tlsf_post_end *post, struct tlsf_take_end *take, uint32_t capacity) {
    if (post->is_open || take->is_open) return TLSF_IN_USE;
    if (!capacity || capacity > 1024) return TLSF_BAD_SIZE;
    struct ring *ring = calloc(1, sizeof *ring);
    if (!ring) return TLSF_NO_MEMORY;
    ring->capacity = capacity;
    ring->ends = 2;
    post->held = take->held = ring;
    post->is_open = take->is_open = true;
    return TLSF_OK;
}

static uint32_t close_end(void *held, bool *is_open) {
    struct ring *ring = held;
    if (!*is_open) return TLSF_IS_CLOSED;
    if (!--ring->ends) free(ring);
    *is_open = false;
    return TLSF_OK;
}

uint32_t tlsf_post_close(struct tlsf_post_end *post) { return close_end(post->held, &post->is_open); }
uint32_t tlsf_take_close(struct tlsf_take_end *take) { return close_end(take->held, &take->is_open); }

uint32_t tlsf_put(struct tlsf_post_end *post, struct tlsf_name name) {
    struct ring *ring = post->held;
    if (!post->is_open) return TLSF_IS_CLOSED;
    if (ring->count == ring->capacity + (wrong == 9)) return TLSF_FULL;
    ring->names[ring->count++] = name;
    return TLSF_OK;
}

uint32_t tlsf_put_all(struct tlsf_post_end *post, const struct tlsf_name *names, size_t n, size_t *went) {
    size_t count = 0;
    if (!post->is_open) return TLSF_IS_CLOSED;
    while (count < n && tlsf_put(post, names[wrong == 25 ? 0 : count]) == TLSF_OK) count++;
    *went = count + (wrong == 26 && count != n);
    return TLSF_OK;
}

uint32_t tlsf_take(struct tlsf_take_end *take, struct tlsf_name *name) {
    struct ring *ring = take->held;
    if (!take->is_open) return TLSF_IS_CLOSED;
    if (!ring->count) return TLSF_EMPTY;
    ring->count--;
    *name = ring->names[wrong == 8 ? ring->count : 0];
    if (wrong != 8) memmove(ring->names, ring->names + 1, ring->count * sizeof *name);
    return TLSF_OK;
}

uint32_t tlsf_take_all(struct tlsf_take_end *take, struct tlsf_name *names, size_t n, size_t *came) {
    size_t count = 0;
    if (!take->is_open) return TLSF_IS_CLOSED;
    while (count < n && count < 32 && tlsf_take(take, &names[wrong == 35 ? 0 : count]) == TLSF_OK) count++;
    if (count == 0 && n != 0) return TLSF_EMPTY;
    *came = count + (wrong == 36 && count != n);
    return TLSF_OK;
}

uint32_t(tlsf_drain)(struct tlsf_heap *heap, struct tlsf_take_end *take, uint32_t most, uint32_t *came) {
    struct tlsf_name name;
    if (!heap->is_open || !take->is_open) return TLSF_IS_CLOSED;
    for (*came = 0; *came < most && tlsf_take(take, &name) == TLSF_OK; ++*came) (void)tlsf_release(heap, name);
    return TLSF_OK;
}

/* By the law of the heap that it stands for, at level 4 and for small sizes. */
uint32_t tlsf_words(uint32_t level, uint32_t blocks, size_t bytes, uint32_t *words) {
    if (level != 4 && level != 5) return TLSF_BAD_LEVEL;
    *words = blocks == 0 ? LEAST : *words;
    if (blocks == 0) return TLSF_OK;
    const uint64_t m = want(saturated(bytes, 34)), found = (blocks - 1) * (m + 3) + blocks * (m - 1 + m / 16) + 1;
    if (found > (level == 4 ? 1u << 20 : 1u << 24)) return TLSF_BAD_SIZE;
    *words = (uint32_t)found;
    return TLSF_OK;
}

/* It has no pools: calls on them are refused as on closed handles. */
uint32_t tlsf_pools_allocate(struct tlsf_pools *pools, size_t len, struct tlsf_name *name) {
    return (void)pools, (void)len, (void)name, TLSF_IS_CLOSED;
}

uint32_t tlsf_pools_release(struct tlsf_pools *pools, struct tlsf_name name) { return (void)pools, (void)name, TLSF_IS_CLOSED; }

uint32_t tlsf_pools_part(struct tlsf_pools *pools, uint32_t part, uint64_t **base, uint32_t *number) {
    return (void)pools, (void)part, (void)base, (void)number, TLSF_IS_CLOSED;
}

uint32_t tlsf_pools_place(struct tlsf_pools *pools, uint32_t part, uint32_t at, struct tlsf_name *name, uint32_t *len) {
    return (void)pools, (void)part, (void)at, (void)name, (void)len, TLSF_IS_CLOSED;
}

uint32_t tlsf_pools_row(struct tlsf_pools *pools, size_t len, uint32_t *row_len) {
    return (void)pools, (void)len, (void)row_len, TLSF_IS_CLOSED;
}

uint32_t tlsf_pools_counts(struct tlsf_pools *pools, uint32_t row, uint32_t *held, uint32_t *most) {
    return (void)pools, (void)row, (void)held, (void)most, TLSF_IS_CLOSED;
}

uint32_t tlsf_pools_check(struct tlsf_pools *pools, uint32_t part, uint32_t from, uint32_t most, uint32_t *next, uint32_t *damaged) {
    return (void)pools, (void)part, (void)from, (void)most, (void)next, (void)damaged, TLSF_IS_CLOSED;
}
