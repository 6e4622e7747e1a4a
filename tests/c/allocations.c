/* No call takes memory or gives it back but one that opens or closes: each public call on open heaps, lanes, queues and arenas, accepted
 * and refused, many times. With `takes`, one turn does, which has to be told.
 * Link with -Wl,--wrap=malloc,--wrap=free,--wrap=tlsf_memory_alloc,--wrap=tlsf_memory_dealloc. */
#include "chance.h"
#include "piece.h"
#include "peachanchor.h"

#include "tlsf_cache.h"

#include <string.h>

enum { BLOCKS = 64, TURNS = 40000, KINDS = 62 };

static size_t calls; /* of malloc and free, and of what the proved code asks for */
static int is_counted;

void *__real_malloc(size_t n);
void __real_free(void *p);
void __real_tlsf_memory_dealloc(void *at);
void *__wrap_malloc(size_t n);
void __wrap_free(void *p);
void __wrap_tlsf_memory_dealloc(void *at);

static void count(void) {
    if (is_counted) calls++;
}
void *__wrap_malloc(size_t n) {
    count();
    return __real_malloc(n);
}
void __wrap_free(void *p) {
    count();
    __real_free(p);
}
PAIR struct piece __wrap_tlsf_memory_alloc(size_t bytes, size_t align) {
    count();
    return __real_tlsf_memory_alloc(bytes, align);
}
void __wrap_tlsf_memory_dealloc(void *at) {
    count();
    __real_tlsf_memory_dealloc(at);
}

static struct tlsf_heap heap, closed;
static struct tlsf_near_heap near, closed_near;
static struct tlsf_heap behind; /* a magazine */
static struct tlsf_cache cache, closed_cache;
static struct tlsf_post_end post, closed_post;
static struct tlsf_take_end take, closed_take;
static struct tlsf_queue queue, closed_queue;
static struct tlsf_poster poster[4], closed_poster;
static struct tlsf_offsets offsets, closed_offsets;
static struct tlsf_pools pools, closed_pools;
static const struct tlsf_kind rows[] = {{20, 100}, {10, 3000}};
static struct tlsf_span spans[BLOCKS];
static struct tlsf_name names[BLOCKS];
static void *pointers[BLOCKS], *cached[BLOCKS];
static uint8_t bytes[256];
static uint64_t sum; /* of what comes, so that none of it is ignored */

/* One call of each kind. A name or a pointer may be stale, and one in eight names is forged. */
static void do_calls_by_name(uint32_t kind, struct tlsf_name *name) {
    const uint32_t len = below(below(8) ? 200 : 40000);
    uint64_t *base = NULL;
    struct tlsf_name other = *name, taken[4];
    size_t went = 0;
    uint32_t n = 0;
    if (!below(8)) other.at = below(UINT32_MAX);
    switch (kind) {
    case 0: sum += tlsf_allocate(&heap, len, name); break;
    case 1: sum += below(50) ? tlsf_release(&heap, other) : tlsf_reset(&heap); break;
    case 2: sum += tlsf_resize(&heap, other, len); break;
    case 3: sum += tlsf_reallocate(&heap, name, len); break;
    case 4: sum += tlsf_write(&heap, other, below(300), bytes, below(256)); break;
    case 5: sum += tlsf_read(&heap, other, below(300), bytes, below(256)); break;
    case 6: sum += tlsf_locate(&heap, other, &base, &n); break;
    case 7: sum += tlsf_payload(&heap, other, &n) != NULL && tlsf_at(tlsf_base(&heap), *name) != NULL; break;
    case 8: sum += below(2) ? tlsf_put(&post, other) : tlsf_put_all(&post, names, below(4), &went); break;
    case 9: sum += below(2) ? tlsf_take(&take, name) : tlsf_take_all(&take, taken, below(5), &went); break;
    default: sum += tlsf_drain(&heap, &take, below(4), &n); break;
    }
}

static void do_calls_by_pointer(uint32_t kind, void **p) {
    const size_t len = below(below(8) ? 200 : 40000), align = (size_t)1 << below(17);
    struct tlsf_name name = {0, 0, 0};
    switch (kind) {
    case 11:
        if (!*p) *p = tlsf_malloc(&heap, len);
        break;
    case 12:
        if (!*p) *p = tlsf_calloc(&heap, len, 1 + below(3));
        break;
    case 13: {
        void *moved = tlsf_realloc(&heap, *p, len + 1);
        if (moved) *p = moved;
        break;
    }
    case 14:
        if (!*p) *p = tlsf_aligned_alloc(&heap, align, len);
        break;
    case 15:
        sum += tlsf_free(&heap, *p);
        *p = NULL;
        break;
    case 16: sum += tlsf_usable_size(&heap, *p); break;
    case 17: sum += tlsf_name_at(&heap, *p, &name); break;
    default:
        if (!*p) sum += tlsf_allocate_at(&heap, len, align, below(2), &name, p);
        break;
    }
}

static void do_calls_by_place(uint32_t kind, uint32_t *at) {
    const size_t len = tlsf_rounded(below(300));
    struct tlsf_block_info block;
    struct tlsf_name name;
    uint32_t n = 0;
    switch (kind) {
    case 19: sum += *at = tlsf_allocate_place(&heap, len).at; break;
    case 20: sum += *at = tlsf_allocate_aligned(&heap, len, below(64), below(4)).at; break;
    case 21: sum += tlsf_release_place(&heap, *at); break;
    case 22: sum += tlsf_resize_place(&heap, *at, len, at); break;
    case 23: sum += tlsf_place(&heap, *at, &name, &n); break;
    case 24: sum += tlsf_block_at(&heap, *at, &block); break;
    case 25: sum += tlsf_check(&heap, 0, below(100), &n, &n); break;
    default:
        sum += tlsf_check(&heap, below(5000), 3, &n, &n);
        sum += tlsf_check_around(&heap, *at, &n) + tlsf_check_request(&heap, len, &n);
        break;
    }
}

/* What a heap holds, sizes, and calls that are refused before they open or close. */
static void do_other_calls(uint32_t kind, uint32_t level) {
    struct tlsf_heap_report report;
    struct tlsf_heap_counts counts;
    uint32_t n = 0;
    switch (kind) {
    case 27: sum += tlsf_report(&heap, &report); break;
    case 28: sum += tlsf_counts(&heap, &counts); break;
    case 29:
        sum += below(2) ? tlsf_words(level, below(100), below(1000), &n) : tlsf_words_for(level, below(100), below(1000), 64, &n);
        break;
    case 30: sum += tlsf_bytes(level, below(5000)) + tlsf_lane_bytes(below(1030)); break;
    case 31: sum += tlsf_open(&heap, level, 1, 64) + tlsf_open(&closed, 6, 1, 64) + tlsf_open(&closed, level, 1, 3); break;
    case 32: sum += tlsf_open_in(&heap, level, 1, bytes, 256) + tlsf_open_in(&closed, level, 1, bytes, 8); break;
    case 33: sum += tlsf_lane_open(&post, &take, 4) + tlsf_lane_open(&closed_post, &closed_take, 0); break;
    case 34: sum += tlsf_lane_open_in(&closed_post, &closed_take, 4, bytes, 8); break;
    default:
        sum += tlsf_close(&closed) + tlsf_post_close(&closed_post) + tlsf_take_close(&closed_take) + (tlsf_text_of(below(41)) != NULL);
        break;
    }
}

/* Three of the four posters' handles get an end. */
static void do_calls_of_queues_and_offsets(uint32_t kind, const struct tlsf_name *name, struct tlsf_span *span) {
    struct tlsf_offsets_usage usage = {0, 0, 0, 0};
    struct tlsf_name came = {0, 0, 0};
    uint32_t n = 0;
    switch (kind) {
    case 36: sum += tlsf_poster_open(&queue, &poster[below(4)]); break;
    case 37: sum += tlsf_queue_post(&poster[below(4)], *name); break;
    case 38: sum += tlsf_queue_take(&queue, &came); break;
    case 39: sum += tlsf_queue_drain(&heap, &queue, below(4), &n); break;
    case 40: sum += tlsf_offsets_allocate(&offsets, below(40000), span); break;
    case 41: sum += tlsf_offsets_resize(&offsets, span, below(40000)); break;
    case 42: sum += tlsf_offsets_release(&offsets, span->name); break;
    case 43: sum += tlsf_offsets_report(&offsets, &usage) + usage.held; break;
    case 44:
        sum += tlsf_queue_open(&queue, 1, 1) + tlsf_queue_open(&closed_queue, 0, 1) + tlsf_offsets_open(&closed_offsets, 4, 1, 0, 64);
        break;
    case 45: sum += tlsf_queue_open_in(&closed_queue, 1, 1, bytes, 8) + tlsf_offsets_open_in(&closed_offsets, 4, 1, 1, 64, bytes, 8); break;
    default: sum += tlsf_queue_close(&closed_queue) + tlsf_poster_close(&closed_poster) + tlsf_offsets_close(&closed_offsets); break;
    }
}

static void do_calls_of_pools(uint32_t kind, struct tlsf_name *name) {
    static void *p;
    const size_t len = below(3100);
    struct tlsf_heap_report report;
    uint32_t n = 0, m = 0;
    switch (kind) {
    case 47:
        if (below(2)) sum += tlsf_pools_allocate(&pools, len, name);
        else if (!p) p = tlsf_pools_malloc(&pools, len);
        else sum += tlsf_pools_usable_size(&pools, p) + tlsf_pools_name_at(&pools, p, name);
        break;
    case 48:
        if (below(2)) sum += tlsf_pools_release(&pools, *name);
        else if (below(2)) sum += tlsf_pools_free(&pools, p), p = NULL;
        else {
            void *moved = tlsf_pools_realloc(&pools, p, len + 1);
            if (moved) p = moved;
        }
        break;
    case 49: sum += tlsf_pools_write(&pools, *name, below(200), bytes, below(256)); break;
    case 50: sum += tlsf_pools_read(&pools, *name, below(200), bytes, below(256)); break;
    case 51:
        sum += tlsf_pools_report(&pools, below(3), &report) + tlsf_pools_counts(&pools, below(3), &n, &m);
        sum += tlsf_pools_check(&pools, below(3), below(2) ? 0 : below(5000), below(100), &n, &m);
        break;
    default:
        sum += tlsf_pools_open(&pools, 4, 1, rows, 2) + tlsf_pools_open(&closed_pools, 4, 1, rows, 65) + tlsf_pools_close(&closed_pools);
        sum += tlsf_pools_open_in(&closed_pools, 4, 1, rows, 65, bytes, sizeof bytes) + tlsf_pools_bytes(4, rows, 2);
        break;
    }
}

/* Calls that only near heaps have, and two on one. */
static void do_calls_of_near_heaps(uint32_t kind, uint32_t level, void **p) {
    switch (kind) {
    case 53: sum += tlsf_open_near(&near, level, 1, 64) + tlsf_open_near(&closed_near, level, 1, 3); break;
    case 54: sum += tlsf_open_near_in(&near, level, 1, bytes, 256) + tlsf_open_near_in(&closed_near, 3, 1, bytes, 256); break;
    case 55: sum += (*p = tlsf_malloc(tlsf_near(&near), below(400))) != NULL; break;
    case 56: sum += tlsf_free(tlsf_near(&near), *p); break;
    default: sum += tlsf_near_bytes(level, below(5000)) + tlsf_close(tlsf_near(&closed_near)); break;
    }
}

/* Many blocks are short enough to be kept, and the heap behind the magazine is full now and then. */
static void do_calls_of_a_magazine(uint32_t kind, void **p) {
    const size_t len = below(below(8) ? 600 : 9000);
    struct tlsf_cache_usage usage = {0, 0};
    switch (kind) {
    case 58:
        if (!*p) *p = below(2) ? tlsf_cache_malloc(&cache, len) : tlsf_cache_calloc(&cache, len, 1);
        break;
    case 59:
        sum += tlsf_cache_free(&cache, *p) + tlsf_cache_usable_size(&cache, *p);
        *p = NULL;
        break;
    case 60: {
        void *moved = *p ? tlsf_cache_realloc(&cache, *p, len + 1) : tlsf_cache_aligned_alloc(&cache, 64, len);
        if (moved) *p = moved;
        break;
    }
    default:
        sum += tlsf_cache_open(&cache, &behind) + tlsf_cache_close(&closed_cache) + tlsf_cache_report(&cache, &usage) +
               (below(8) ? 0 : tlsf_cache_flush(&cache));
        break;
    }
}

static void do_call(uint32_t kind, uint32_t level) {
    static void *of_near;
    static uint32_t place;
    const uint32_t which = below(BLOCKS);
    if (kind < 11) do_calls_by_name(kind, &names[which]);
    else if (kind < 19) do_calls_by_pointer(kind, &pointers[which]);
    else if (kind < 27) do_calls_by_place(kind, &place);
    else if (kind < 36) do_other_calls(kind, level);
    else if (kind < 47) do_calls_of_queues_and_offsets(kind, &names[which], &spans[which]);
    else if (kind < 53) do_calls_of_pools(kind, &names[which]);
    else if (kind < 58) do_calls_of_near_heaps(kind, level, &of_near);
    else do_calls_of_a_magazine(kind, &cached[which]);
}

static void all_calls(uint32_t level, int takes) {
    memset(names, 0, sizeof names);
    memset(pointers, 0, sizeof pointers);
    memset(cached, 0, sizeof cached);
    is_counted = 1;
    wants("open", tlsf_open(&heap, level, 7, 5000) + tlsf_lane_open(&post, &take, 8), TLSF_OK);
    wants("open a near heap", tlsf_open_near(&near, level, 8, 5000), TLSF_OK);
    wants("open a magazine", tlsf_open(&behind, level, 9, 5000) + tlsf_cache_open(&cache, &behind), TLSF_OK);
    wants("open a queue", tlsf_queue_open(&queue, 3, 8), TLSF_OK);
    wants("open an arena of offsets", tlsf_offsets_open(&offsets, level, 7, 64, 5000), TLSF_OK);
    wants("open pools", tlsf_pools_open(&pools, level, 20, rows, 2), TLSF_OK);
    wants("opening takes memory", calls > 0, 1);
    for (turn = 0; turn < TURNS; turn++) {
        const uint32_t kind = below(KINDS);
        calls = 0;
        do_call(kind, level);
        if (takes && turn == TURNS / 2) {
            void *volatile taken = malloc(8); /* a compiler leaves out what it sees to be of no use */
            free(taken);
        }
        wants("calls of malloc and free in one of kind", calls ? kind : KINDS, KINDS);
    }
    wants("close", tlsf_close(&heap) + tlsf_post_close(&post) + tlsf_take_close(&take), TLSF_OK);
    wants("close a near heap", tlsf_close(tlsf_near(&near)), TLSF_OK);
    wants("close a magazine", tlsf_cache_close(&cache) + tlsf_close(&behind), TLSF_OK);
    wants("close a queue", tlsf_queue_close(&queue) + tlsf_offsets_close(&offsets) + tlsf_pools_close(&pools), TLSF_OK);
    for (uint32_t i = 0; i < 4; i++) sum += tlsf_poster_close(&poster[i]);
    wants("closing gives memory back", calls > 0, 1);
    is_counted = 0;
    calls = 0;
}

int main(int argc, char **argv) {
    const int takes = argc > 1 && !strcmp(argv[1], "takes");
    state = 88172645463325252u;
    all_calls(4, takes);
    all_calls(5, takes);
    printf("%d calls on each level take no memory: %s\n", TURNS, sum ? "all as said" : "none was answered");
    return 0;
}
