/* A heap whose calls look first (tlsf_checked.h). Each call that would follow a damaged header is refused, changes nothing, and tells
 * the program's function, once. So 400 writes past a payload end in no crash and no loop, whatever is called next: on the heap, through a
 * magazine and behind a lock, where blocks have even numbers of words and where some have odd ones. It is the same where a trace is
 * written besides (TRACED), and with marks (TLSF_ASAN, TLSF_VALGRIND, TLSF_TSAN). CHECKED [TURNS] [SEED] */
#define _DEFAULT_SOURCE
#ifdef TRACED
#include <stdio.h>
static FILE *trace;
#define TLSF_TRACE trace
#endif
#define TLSF_CHECKED
#include "chance.h"
#include "peachanchor.h"
#include "tlsf_cache.h"
#include "tlsf_locked.h"

#include <string.h>
#include <sys/mman.h>
#include <unistd.h>

enum { WORDS = 3000, MOST = 300, PAGE = 4096, GUARD = 16 * PAGE, CALLS = 2000 };

/* Who calls the heap: the program, or the program through a magazine or behind a lock. */
enum way { PLAIN, MAGAZINE, LOCKED, WAYS };

static struct tlsf_heap plain = TLSF_CLOSED, *heap = &plain;
static struct tlsf_cache cache = TLSF_CACHE_CLOSED;
static struct tlsf_locked locked = TLSF_LOCKED_CLOSED;
static enum way way;
static unsigned char *memory, *kept; /* of the heap, between pages that nobody may touch; and what it was */
static size_t bytes;
static uint32_t words; /* of the region */
static bool is_brief;

/* The test's own looks at all words and its writes past a payload, of which marks don't tell. */
#ifdef TLSF_ASAN
#define UNSEEN static __attribute__((noinline, no_sanitize_address))
#else
#define UNSEEN static
#endif
#ifndef TLSF_BEGIN_CALL
#define TLSF_BEGIN_CALL ((void)0)
#define TLSF_END_CALL ((void)0)
#endif
UNSEEN uint64_t word_at(const void *at) {
    TLSF_BEGIN_CALL;
    uint64_t word = *(const volatile uint64_t *)at;
    TLSF_END_CALL;
#ifdef TLSF_VALGRIND
    (void)VALGRIND_MAKE_MEM_DEFINED(&word, sizeof word);
#endif
    return word;
}
UNSEEN void put_byte(unsigned char *at, unsigned char byte) {
    TLSF_BEGIN_CALL;
    *(volatile unsigned char *)at = byte;
    TLSF_END_CALL;
}
UNSEEN void put_word(void *at, uint64_t word) {
    TLSF_BEGIN_CALL;
    *(volatile uint64_t *)at = word;
    TLSF_END_CALL;
}

/* What was told last, and how often. */
static struct {
    const struct tlsf_heap *heap;
    const char *call;
    uint32_t answer, at;
    long count;
} told;

static void tell(struct tlsf_heap *of, const char *call, uint32_t answer, uint32_t at, void *context) {
    wants("its own context", context == &told, 1);
    told.heap = of;
    told.call = call;
    told.answer = answer;
    told.at = at;
    told.count++;
}

#ifdef TLSF_ASAN
static unsigned char *marked; /* which words may not be touched */
#endif

UNSEEN void keep(void) {
    TLSF_BEGIN_CALL;
    for (size_t at = 0; at < bytes; at += 8) {
        *(volatile uint64_t *)(void *)(kept + at) = *(const volatile uint64_t *)(void *)(memory + at);
#ifdef TLSF_ASAN
        marked[at / 8] = __asan_address_is_poisoned(memory + at) != 0;
#endif
    }
    TLSF_END_CALL;
}

/* Whether each word is as it was kept, and may be touched just where it might be. */
UNSEEN bool is_kept(void) {
    size_t at = 0;
    TLSF_BEGIN_CALL;
    while (at < bytes && *(volatile uint64_t *)(void *)(kept + at) == *(const volatile uint64_t *)(void *)(memory + at)) at += 8;
    TLSF_END_CALL;
#ifdef TLSF_VALGRIND
    (void)VALGRIND_MAKE_MEM_DEFINED(&at, sizeof at); /* also where payload isn't initialised */
#endif
#ifdef TLSF_ASAN
    for (size_t word = 0; word < bytes / 8; word++)
        if (marked[word] != (__asan_address_is_poisoned(memory + 8 * word) != 0)) return false;
#endif
    return at >= bytes;
}

/* Nothing was told since the last look. */
static void untold(const char *what) { wants(what, (size_t)told.count, 0); }

/* One refusal was told since, of that call and that place, and the heap is as it was kept. */
static void refused(const char *call, uint32_t got, uint32_t answer, uint32_t at) {
    wants(call, got, answer);
    wants("one refusal", (size_t)told.count, 1);
    wants("the heap", told.heap == heap, 1);
    wants("the answer", told.answer, answer);
    wants("the place", told.at, at);
    if (strcmp(told.call, call) != 0) wants(told.call, 1, 0);
    wants("nothing has changed", is_kept(), 1);
    told.count = 0;
}

static void *guarded(size_t n) {
    unsigned char *all = mmap(NULL, n + 2 * GUARD, PROT_NONE, MAP_PRIVATE | MAP_ANONYMOUS, -1, 0);
    if (all == MAP_FAILED || mprotect(all + GUARD, n, PROT_READ | PROT_WRITE) != 0) exit(2);
    return all + GUARD;
}

/* A new heap, of which a trace is written, and of which one block has an odd number of words where it is mixed. */
static void open_heap(uint32_t level, enum way by, bool is_mixed) {
    struct tlsf_heap_report report;
    struct tlsf_name odd = {0, 0, 0};
    const size_t room = by == LOCKED ? tlsf_near_bytes(4, WORDS) : tlsf_bytes(4, WORDS);
    unsigned char *const at = memory + bytes - room;
#if defined(TLSF_ASAN) || defined(TLSF_VALGRIND)
    tlsf_mark_filled(memory, bytes); /* that of a damaged heap stays marked */
#endif
    memset(memory, 0, bytes);
#ifdef TRACED
    tlsf_trace.has_begun = false;
    tlsf_trace.labels = 0;
    memset(tlsf_trace.first, 0, sizeof tlsf_trace.first);
    rewind(trace);
#endif
    way = by;
    heap = by == LOCKED ? tlsf_near(&locked.heap) : &plain;
    heap->align = is_mixed ? 16 : 0;
    wants("open", by == LOCKED ? tlsf_locked_open_in(&locked, level, 1, at, room, false) : tlsf_open_in(heap, level, 1, at, room), TLSF_OK);
    wants("report", tlsf_report(heap, &report), TLSF_OK);
    words = report.free_words;
    if (by == MAGAZINE) wants("a magazine", tlsf_cache_open(&cache, heap), TLSF_OK);
    wants("a function", tlsf_on_refusal(heap, tell, &told), TLSF_OK);
    if (is_mixed) wants("an odd block", tlsf_allocate(heap, 16, &odd), TLSF_OK);
}

/* Of a damaged heap it ends too. */
static void close_heap(void) {
    if (way == MAGAZINE) tlsf_cache_close(&cache);
    if (way != LOCKED && below(2)) wants("reset", tlsf_reset(heap), TLSF_OK);
    wants("close", way == LOCKED ? tlsf_locked_close(&locked) : tlsf_close(heap), TLSF_OK);
    told.count = 0;
}

/* --- The calls by pointer, in each way -------------------------------------------------------------------------------- */

static void *give(size_t len) {
    return way == MAGAZINE ? tlsf_cache_malloc(&cache, len) : way == LOCKED ? tlsf_locked_malloc(&locked, len) : tlsf_malloc(heap, len);
}

static void *give_zeros(size_t count, size_t each) {
    if (way == MAGAZINE) return tlsf_cache_calloc(&cache, count, each);
    return way == LOCKED ? tlsf_locked_calloc(&locked, count, each) : tlsf_calloc(heap, count, each);
}

static void *give_aligned(size_t align, size_t len) {
    if (way == MAGAZINE) return tlsf_cache_aligned_alloc(&cache, align, len);
    return way == LOCKED ? tlsf_locked_aligned_alloc(&locked, align, len) : tlsf_aligned_alloc(heap, align, len);
}

static void *change(void *p, size_t len) {
    if (way == MAGAZINE) return tlsf_cache_realloc(&cache, p, len);
    return way == LOCKED ? tlsf_locked_realloc(&locked, p, len) : tlsf_realloc(heap, p, len);
}

static uint32_t end(void *p) {
    return way == MAGAZINE ? tlsf_cache_free(&cache, p) : way == LOCKED ? tlsf_locked_free(&locked, p) : tlsf_free(heap, p);
}

static size_t size_of(const void *p) {
    if (way == MAGAZINE) return tlsf_cache_usable_size(&cache, p);
    return way == LOCKED ? tlsf_locked_usable_size(&locked, p) : tlsf_usable_size(heap, p);
}

/* --- Writes past a payload, by chance ------------------------------------------------------------------------------ */

static void *given[MOST];

static void fill_heap(bool is_mixed) {
    struct tlsf_name name = {0, 0, 0};
    for (int k = 0; k < MOST; k++) {
        const bool is_named = is_mixed && below(4) == 0;
        given[k] = !is_named ? give(below(200)) : tlsf_allocate(heap, below(200), &name) == TLSF_OK ? tlsf_payload(heap, name, NULL) : NULL;
    }
    for (int k = 0; k < MOST; k++) {
        if (given[k] && below(3) == 0) {
            wants("free", end(given[k]), TLSF_OK);
            given[k] = NULL;
        }
    }
}

/* Writes up to 24 bytes behind the payload of a block, and answers which; -1 where that is the last one. */
static int overrun(void) {
    struct tlsf_block_info it = {0, 0, 0, 0, 0};
    unsigned char *const region = (unsigned char *)heap->base;
    int k = (int)below(MOST);
    while (!given[k]) k = (k + 1) % MOST;
    wants("its block", tlsf_block_at(heap, tlsf_place_of(heap, given[k]), &it), TLSF_OK);
    const size_t from = 8 * ((size_t)it.at + it.size), n = 1 + below(24);
    if (from + n > 8 * (size_t)words) return -1;
    for (size_t j = 0; j < n; j++) put_byte(region + from + j, (unsigned char)(below(3) ? below(256) : below(2) ? 0 : 255));
    return k;
}

/* A call by the name of a block that is held. */
static void go_on_by_name(int k) {
    struct tlsf_name name = {0, 0, 0};
    uint8_t few[8] = {0};
    uint32_t len = 0;
    if (tlsf_name_at(heap, given[k], &name) != TLSF_OK) return;
    const uint32_t kind = below(6);
    if (kind == 0 && tlsf_write(heap, name, below(40), few, 8) == TLSF_OK) few[0]++;
    if (kind == 1 && tlsf_read(heap, name, below(40), few, 8) == TLSF_OK) few[0]++;
    if (kind == 2 && tlsf_payload(heap, name, &len)) wants("its length", len <= 8 * WORDS, 1);
    if (kind == 3 && tlsf_reallocate(heap, &name, below(300)) == TLSF_OK) given[k] = tlsf_payload(heap, name, NULL);
    if (kind == 4 && tlsf_resize(heap, name, below(100)) == TLSF_OK) few[0]++;
    if (kind == 5 && tlsf_release(heap, name) == TLSF_OK) given[k] = NULL;
}

static void *go_on_by_giving(bool is_mixed) {
    struct tlsf_name name = {0, 0, 0};
    void *p = NULL;
    const uint32_t kind = below(8);
    if (kind == 0) return give_aligned((size_t)16 << below(5), below(200));
    if (kind == 1) return give_zeros(1 + below(8), below(30));
    if (kind == 2) return tlsf_allocate_at(heap, below(200), 64, 0, &name, &p) == TLSF_OK ? p : NULL;
    if (kind == 3 && is_mixed) return tlsf_allocate(heap, below(200), &name) == TLSF_OK ? tlsf_payload(heap, name, NULL) : NULL;
    return give(below(200));
}

/* The calls of a program that goes on: none crashes or loops, and each pointer that comes is in the heap. */
static void go_on(bool is_mixed) {
    for (int call = 0; call < CALLS; call++) {
        const int k = (int)below(MOST);
        const uint32_t kind = below(8);
        void *p = given[k];
        if (p && kind < 3) {
            void *const moved = change(p, 1 + below(300));
            if (moved) given[k] = moved;
        } else if (p && kind == 3) {
            wants("in the region", size_of(p) <= 8 * WORDS, 1);
        } else if (p && kind == 4 && way != MAGAZINE) {
            go_on_by_name(k);
        } else if (p) {
            if (end(p) == TLSF_OK) given[k] = NULL;
        } else {
            given[k] = go_on_by_giving(is_mixed);
        }
        const uintptr_t offset = (uintptr_t)given[k] - (uintptr_t)heap->base;
        if (given[k]) wants("in the heap", offset < 8 * (size_t)words, 1);
    }
}

static long overruns(long turns) {
    long tried = 0, damaged = 0;
    for (turn = 0; turn < turns; turn++) {
        const bool is_mixed = turn / 2 % 2 != 0;
        open_heap(4 + (uint32_t)turn % 2, (enum way)(turn / 4 % WAYS), is_mixed);
        fill_heap(is_mixed);
        untold("nothing is refused before");
        const int k = overrun();
        if (k >= 0) {
            keep();
            const uint32_t answer = end(given[k]);
            tried++;
            if (answer == TLSF_DAMAGED) {
                damaged++;
                refused(way == MAGAZINE ? "tlsf_place" : "tlsf_release_place", answer, TLSF_DAMAGED, told.at);
            } else {
                wants("a free that is harmless", answer, TLSF_OK);
                given[k] = NULL;
            }
            go_on(is_mixed);
        }
        close_heap();
    }
    printf("%ld writes past a payload: %ld are damage to the next free\n", tried, damaged);
    return turns < 400 || damaged * 10 > tried * 9;
}

/* --- Each call ------------------------------------------------------------------------------------------------------- */

static struct tlsf_name name_of(void *p) {
    struct tlsf_name name = {0, 0, 0};
    wants("its name", tlsf_name_at(heap, p, &name), TLSF_OK);
    return name;
}

/* The names in a lane and in a queue: a drain releases none of a damaged block, and tells of each. */
static void drains(struct tlsf_name name, uint32_t at) {
    struct tlsf_post_end post = TLSF_POST_CLOSED;
    struct tlsf_take_end take = TLSF_TAKE_CLOSED;
    struct tlsf_queue queue = TLSF_QUEUE_CLOSED;
    struct tlsf_poster poster = TLSF_POSTER_CLOSED;
    uint32_t came = 9;
    wants("a lane", tlsf_lane_open(&post, &take, 4), TLSF_OK);
    wants("put", tlsf_put(&post, name), TLSF_OK);
    wants("drain", tlsf_drain(heap, &take, 9, &came), TLSF_OK);
    wants("came", came, 1);
    refused("tlsf_release", told.answer, TLSF_DAMAGED, at);
    wants("a queue", tlsf_queue_open(&queue, 1, 4), TLSF_OK);
    wants("a poster", tlsf_poster_open(&queue, &poster), TLSF_OK);
    wants("post", tlsf_queue_post(&poster, name), TLSF_OK);
    wants("queue drain", tlsf_queue_drain(heap, &queue, 9, &came), TLSF_OK);
    wants("came", came, 1);
    refused("tlsf_release", told.answer, TLSF_DAMAGED, at);
    wants("close", tlsf_post_close(&post) | tlsf_take_close(&take) | tlsf_poster_close(&poster) | tlsf_queue_close(&queue), TLSF_OK);
}

/* With the header after a block damaged: the calls on the block, and on the one after it, are refused. */
static void around(unsigned char *before, void *block, void *next) {
    struct tlsf_name name = name_of(before), same = name, foreign = name, stale = name_of(next);
    uint64_t *const header = (uint64_t *)block - 3, was = word_at(header);
    const uint32_t at = tlsf_place_of(heap, block);
    uint32_t found = 77;
    size_t len = tlsf_usable_size(heap, before);
    put_byte(before + len, (unsigned char)(word_at(before + len) & 255) ^ 0x55);
    keep();
    wants("a look before", tlsf_check_around(heap, name.at, &found), TLSF_DAMAGED);
    wants("the place", found, at);
    refused("tlsf_release_place", tlsf_free(heap, before), TLSF_DAMAGED, at);
    refused("tlsf_release_place", tlsf_free(heap, block), TLSF_DAMAGED, at);
    /* The one after it no longer begins where that ends. */
    refused("tlsf_release_place", tlsf_free(heap, next), TLSF_DAMAGED, tlsf_place_of(heap, next));
    refused("tlsf_release", tlsf_release(heap, name), TLSF_DAMAGED, at);
    refused("tlsf_resize", tlsf_resize(heap, name, 1), TLSF_DAMAGED, at);
    refused("tlsf_reallocate", tlsf_reallocate(heap, &same, 500), TLSF_DAMAGED, at);
    wants("the same name", memcmp(&same, &name, sizeof name) == 0, 1);
    wants("no pointer", tlsf_realloc(heap, before, 500) == NULL, 1);
    refused("tlsf_resize_place", told.answer, TLSF_DAMAGED, at);
    drains(name, at);
    foreign.heap = 2;
    refused("tlsf_release", tlsf_release(heap, foreign), TLSF_FOREIGN, foreign.at);
    put_word(header, was);
    keep();
    wants("no room where it stands", tlsf_resize(heap, name, 4000), TLSF_NO_ROOM);
    untold("what the program is answered");
    stale.serial++;
    refused("tlsf_release", tlsf_release(heap, stale), TLSF_STALE, stale.at);
    refused("tlsf_resize", tlsf_resize(heap, stale, 9), TLSF_STALE, stale.at);
    refused("tlsf_reallocate", tlsf_reallocate(heap, &stale, 9), TLSF_STALE, stale.at);
    wants("no such block", tlsf_realloc(heap, before + 8, 9) == NULL, 1);
    refused("tlsf_resize_place", told.answer, TLSF_STALE, tlsf_place_of(heap, before + 8));
}

/* With the links of the great free block damaged: the requests that it would serve are refused, and no others. In a mixed heap a calloc,
 * and a realloc that moves, ask as malloc does. */
static void requests(void *block, void *hole, bool is_mixed) {
    struct tlsf_name name = {0, 0, 0}, own = name_of(block);
    struct tlsf_block_info it = {0, 0, 0, 0, 0}, rest = {0, 0, 0, 0, 0};
    uint32_t found = 77;
    void *p = NULL;
    for (uint32_t at = 0; tlsf_block_at(heap, at, &it) == TLSF_OK; at += it.size) rest = it;
    wants("it is free", rest.is_live, 0);
    uint64_t *const links = heap->base + rest.at + 2, was = word_at(links);
    put_word(links, 0x1234567800000070);
    keep();
    wants("a look before", tlsf_check_request(heap, 500, &found), TLSF_DAMAGED);
    wants("the place", found, rest.at);
    wants("no block", tlsf_malloc(heap, 500) == NULL, 1);
    refused("tlsf_allocate_place", told.answer, TLSF_DAMAGED, rest.at);
    wants("no block", tlsf_calloc(heap, 50, 10) == NULL, 1);
    refused(is_mixed ? "tlsf_allocate_place" : "tlsf_allocate", told.answer, TLSF_DAMAGED, rest.at);
    wants("no block", tlsf_aligned_alloc(heap, 64, 500) == NULL, 1);
    refused("tlsf_allocate_aligned", told.answer, TLSF_DAMAGED, rest.at);
    refused("tlsf_allocate", tlsf_allocate(heap, 500, &name), TLSF_DAMAGED, rest.at);
    refused("tlsf_allocate_place", tlsf_allocate_at(heap, 500, TLSF_ALIGN, 0, &name, &p), TLSF_DAMAGED, rest.at);
    refused("tlsf_reallocate", tlsf_reallocate(heap, &own, 500), TLSF_DAMAGED, rest.at);
    wants("no block", tlsf_realloc(heap, block, 500) == NULL, 1);
    refused(is_mixed ? "tlsf_allocate_place" : "tlsf_resize_place", told.answer, TLSF_DAMAGED, rest.at);
    wants("none is so large", tlsf_malloc(heap, 8 * WORDS) == NULL, 1);
    untold("a heap that is full");
    keep(); /* that was counted */
    /* The hole serves 40 bytes, and none that are aligned: those take some words more. */
    wants("no block", tlsf_aligned_alloc(heap, 64, 40) == NULL, 1);
    refused("tlsf_allocate_aligned", told.answer, TLSF_DAMAGED, rest.at);
    wants("the hole", tlsf_malloc(heap, 40) == hole, 1);
    untold("a block that is sound");
    put_word(links, was);
}

/* Ways to damage a header: a word of it, and the bits that are turned. */
static const struct {
    uint32_t word;
    uint64_t bits;
} damages[] = {{0, 1},          {0, 2},   {0, 64},        {0, 0xfffffffc}, {0, UINT64_C(1) << 34}, {0, UINT64_C(1) << 63},
               {2, UINT32_MAX}, {2, 512}, {2, UINT64_MAX}};

/* Each call on a block around which a look finds damage. */
static void refuse_each(void *p, struct tlsf_name name, uint32_t at) {
    static const size_t lens[] = {0, 1, 60, 200, 5000};
    struct tlsf_name same = name;
    uint8_t few[4] = {0};
    keep();
    refused("tlsf_release_place", tlsf_free(heap, p), TLSF_DAMAGED, at);
    for (size_t k = 0; k < sizeof lens / sizeof *lens; k++) {
        wants("no pointer", tlsf_realloc(heap, p, lens[k]) == NULL, 1);
        refused(lens[k] ? "tlsf_resize_place" : "tlsf_release_place", told.answer, TLSF_DAMAGED, at);
    }
    wants("no aligned pointer", tlsf_aligned_realloc(heap, p, 4096, 60) == NULL, 1);
    refused("tlsf_resize_place", told.answer, TLSF_DAMAGED, at);
    wants("no size", tlsf_usable_size(heap, p), 0);
    refused("tlsf_place", told.answer, TLSF_DAMAGED, at);
    refused("tlsf_place", tlsf_name_at(heap, p, &same), TLSF_DAMAGED, at);
    wants("no payload", tlsf_payload(heap, name, NULL) == NULL, 1);
    refused("tlsf_locate", told.answer, TLSF_DAMAGED, at);
    refused("tlsf_read", tlsf_read(heap, name, 0, few, 4), TLSF_DAMAGED, at);
    refused("tlsf_write", tlsf_write(heap, name, 0, few, 4), TLSF_DAMAGED, at);
    refused("tlsf_release", tlsf_release(heap, name), TLSF_DAMAGED, at);
    refused("tlsf_resize", tlsf_resize(heap, name, 60), TLSF_DAMAGED, at);
    refused("tlsf_reallocate", tlsf_reallocate(heap, &same, 60), TLSF_DAMAGED, at);
    wants("the same name", memcmp(&same, &name, sizeof name) == 0, 1);
    refused(way == MAGAZINE ? "tlsf_place" : "tlsf_release_place", end(p), TLSF_DAMAGED, at);
    wants("no pointer", change(p, 60) == NULL, 1);
    refused(way == MAGAZINE ? "tlsf_place" : "tlsf_resize_place", told.answer, TLSF_DAMAGED, at);
    wants("no size", size_of(p), 0);
    refused("tlsf_place", told.answer, TLSF_DAMAGED, at);
    if (way != LOCKED) return;
    wants("no payload", tlsf_locked_payload(&locked, name, NULL) == NULL, 1);
    refused("tlsf_locate", told.answer, TLSF_DAMAGED, at);
    refused("tlsf_release", tlsf_locked_release(&locked, name), TLSF_DAMAGED, at);
}

/* A pointer that was freed is told once, whichever call gets it, unless the call only looks. */
static void tell_of_freed(void *p) {
    const uint32_t at = tlsf_place_of(heap, p);
    keep();
    refused("tlsf_release_place", tlsf_free(heap, p), TLSF_STALE, at);
    wants("no pointer", tlsf_realloc(heap, p, 100) == NULL, 1);
    refused("tlsf_resize_place", told.answer, TLSF_STALE, at);
    wants("no aligned pointer", tlsf_aligned_realloc(heap, p, 4096, 100) == NULL, 1);
    refused("tlsf_resize_place", told.answer, TLSF_STALE, at);
    refused(way == MAGAZINE ? "tlsf_cache_free" : "tlsf_release_place", end(p), TLSF_STALE, at);
    wants("no pointer", change(p, 100) == NULL, 1);
    refused(way == MAGAZINE ? "tlsf_cache_realloc" : "tlsf_resize_place", told.answer, TLSF_STALE, at);
    wants("no size", tlsf_usable_size(heap, p), 0);
    wants("no size", size_of(p), 0);
    untold("a look");
}

/* The same of one that a magazine keeps. */
static void tell_of_freed_and_kept(void *p) {
    const uint32_t at = tlsf_place_of(heap, p);
    keep();
    refused("tlsf_cache_free", tlsf_cache_free(&cache, p), TLSF_STALE, at);
    wants("no pointer", tlsf_cache_realloc(&cache, p, 100) == NULL, 1);
    refused("tlsf_cache_realloc", told.answer, TLSF_STALE, at);
}

/* A row of blocks with a free one among them: each header is damaged in each way, and each block is called. */
static void each_damage(enum way by, bool is_mixed) {
    enum { ROW = 8, FREE = 5 };
    void *row[ROW];
    struct tlsf_name names[ROW];
    uint32_t at = 0;
    long refusals = 0;
    open_heap(4 + by % 2, by, is_mixed);
    for (int k = 0; k < ROW; k++) names[k] = name_of(row[k] = give(8 + 24 * (size_t)k));
    wants("free", tlsf_free(heap, row[FREE]), TLSF_OK);
    for (size_t d = 0; d < sizeof damages / sizeof *damages; d++)
        for (int k = 0; k < ROW; k++) {
            if (is_brief && below(8) != 0) continue;
            uint64_t *const word = (uint64_t *)row[k] - 3 + damages[d].word, was = word_at(word);
            put_word(word, was ^ damages[d].bits);
            for (int other = 0; other < ROW; other++)
                if (other != FREE && tlsf_check_around(heap, names[other].at, &at) == TLSF_DAMAGED) {
                    refuse_each(row[other], names[other], at);
                    refusals++;
                }
            put_word(word, was);
        }
    wants("most are damage", refusals > (is_brief ? 0 : (long)(ROW * sizeof damages / sizeof *damages)), 1);
    tell_of_freed(row[FREE]);
    wants("all is well again", end(row[0]), TLSF_OK);
    untold("a block that is sound");
    if (by == MAGAZINE) tell_of_freed_and_kept(row[0]);
    close_heap();
}

static uint32_t words_in_use(void) {
    struct tlsf_heap_counts counts = {0, 0, 0, 0};
    wants("counts", tlsf_counts(heap, &counts), TLSF_OK);
    return counts.words;
}

static struct tlsf_name named(size_t len) {
    struct tlsf_name name = {0, 0, 0};
    wants("a block", tlsf_allocate(heap, len, &name), TLSF_OK);
    return name;
}

/* In a mixed heap a request is served from a free block, whose rest comes before the first of another list. That one is damaged, and no
 * call follows its header. So nothing is told, and no block is lost where it is given back and aligned, or has moved. */
static void loses_none(int kind) {
    uint32_t next = 0, damaged = 0, had = 0;
    open_heap(4, PLAIN, true);
    const struct tlsf_name ahead = kind == 2 ? named(24) : named(464); /* free later, where it begins at an odd place */
    named(8);
    const struct tlsf_name first = named(64); /* of the list */
    const struct tlsf_name between = named(8), large = kind == 2 ? named(464) : ahead, old = named(8);
    named(8);
    wants("free", tlsf_release(heap, large) | tlsf_release(heap, first), TLSF_OK);
    put_word(heap->base + first.at, word_at(heap->base + first.at) ^ 1);
    had = words_in_use();
    void *const p = kind == 0   ? tlsf_malloc(heap, 376)
                    : kind == 1 ? tlsf_calloc(heap, 47, 8)
                    : kind == 3 ? tlsf_aligned_alloc(heap, 16, 376)
                                : tlsf_realloc(heap, heap->base + old.at + 3, 376);
    wants("it is given", p != NULL && (uintptr_t)p % 16 == 0, 1);
    untold("what no call follows");
    wants("words in use", words_in_use(), had + 50 - (kind == 2 ? 4 : 0));
    put_word(heap->base + first.at, word_at(heap->base + first.at) ^ 1);
    wants("all is sound", tlsf_check(heap, 0, UINT32_MAX, &next, &damaged), TLSF_OK);
    wants("free", tlsf_release(heap, between), TLSF_OK);
    close_heap();
}

static void each_call(bool is_mixed) {
    void *row[5];
    struct tlsf_heap many[TLSF_REFUSAL_HEAPS];
    turn = -1;
    open_heap(4, PLAIN, is_mixed);
    for (int k = 0; k < 5; k++) row[k] = tlsf_malloc(heap, 40);
    around(row[0], row[1], row[2]);
    wants("free", tlsf_free(heap, row[3]), TLSF_OK);
    keep();
    refused("tlsf_release_place", tlsf_free(heap, row[3]), TLSF_STALE, tlsf_place_of(heap, row[3]));
    requests(row[1], row[3], is_mixed);
    /* A function for each of 64 heaps and for no more, until one is closed or gives it back. */
    for (int k = 1; k < TLSF_REFUSAL_HEAPS; k++) wants("a function", tlsf_on_refusal(&many[k], tell, &told), TLSF_OK);
    wants("its own again", tlsf_on_refusal(heap, tell, &told), TLSF_OK);
    wants("one too many", tlsf_on_refusal(&many[0], tell, &told), TLSF_FULL);
    wants("none to take back", tlsf_on_refusal(&many[0], NULL, NULL), TLSF_OK);
    wants("taken back", tlsf_on_refusal(&many[1], NULL, NULL), TLSF_OK);
    wants("room again", tlsf_on_refusal(&many[0], tell, &told), TLSF_OK);
    wants("close", tlsf_close(heap), TLSF_OK);
    wants("closed", tlsf_close(heap), TLSF_IS_CLOSED);
    wants("closed", tlsf_free(heap, row[0]), TLSF_IS_CLOSED);
    untold("a closed heap");
    wants("room of the closed one", tlsf_on_refusal(&many[1], tell, &told), TLSF_OK);
    for (int k = 0; k < TLSF_REFUSAL_HEAPS; k++) wants("taken back", tlsf_on_refusal(&many[k], NULL, NULL), TLSF_OK);
    open_heap(5, PLAIN, is_mixed);
    wants("none is told", tlsf_on_refusal(heap, NULL, NULL), TLSF_OK);
    wants("nobody is told", tlsf_free(heap, memory), TLSF_STALE);
    untold("a function that was taken back");
    wants("close", tlsf_close(heap), TLSF_OK);
}

int main(int argc, char **argv) {
    const long turns = argc > 1 ? strtol(argv[1], NULL, 10) : 400;
    state = 88172645463325252u + 7919 * (argc > 2 ? strtoul(argv[2], NULL, 10) : 0);
    is_brief = turns < 100;
    alarm(is_brief ? 300 : 100); /* a call that loops ends it */
    bytes = (tlsf_bytes(5, WORDS) + PAGE - 1) / PAGE * PAGE;
    memory = guarded(bytes);
    kept = malloc(bytes);
    if (!kept) return 2;
#ifdef TRACED
    trace = tmpfile();
    if (!trace) return 2;
#endif
#ifdef TLSF_ASAN
    marked = malloc(bytes / 8);
    if (!marked) return 2;
#endif
    for (int is_mixed = 0; is_mixed < 2; is_mixed++) {
        each_call(is_mixed);
        for (int by = PLAIN; by < WAYS; by++) each_damage((enum way)by, is_mixed);
    }
    for (int kind = 0; kind < 4; kind++) loses_none(kind);
    return !overruns(turns);
}
