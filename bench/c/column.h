/* What a program of this folder measures, by one set of calls for all: a program takes this in once, and finds them by `calls_of`.
 *
 * COLUMN is level4, level5, near4 or near5 (a heap of the library, and a near one), system (what is loaded), nothing (calls that do
 * nothing: what a program's own loop takes) or, with -DAUTHORS, authors (TLSF 2.4, or a file of heaps/ with the calls of that).
 * By pointer nothing is filled. By name payload is made zero; where there are no names that is calloc, and free as ever. */
#include "peachanchor.h"

#include <stdbool.h>
#include <stdint.h>
#include <stdio.h>
#include <stdlib.h>
#include <string.h>
#include <sys/mman.h>
#include <time.h>

#ifdef AUTHORS
size_t init_memory_pool(size_t bytes, void *pool);
void *malloc_ex(size_t bytes, void *pool);
void *calloc_ex(size_t count, size_t bytes, void *pool);
void *realloc_ex(void *block, size_t bytes, void *pool);
void free_ex(void *block, void *pool);
#endif

struct block {
    struct tlsf_name name;
    void *at;
};

/* A heap is what `open` answers: null where it is refused. A release is never refused here. */
struct calls {
    void *(*open)(const char *column, size_t bytes, void *memory);
    bool (*allocate)(void *heap, struct block *block, size_t bytes);
    void (*release)(void *heap, struct block *block);
    bool (*resize)(void *heap, struct block *block, size_t bytes);
};

static void ends_if(bool refused, const char *what) {
    if (!refused) return;
    fprintf(stderr, "%s is refused\n", what);
    exit(1);
}

static double nanoseconds(void) {
    struct timespec now;
    clock_gettime(CLOCK_MONOTONIC_RAW, &now);
    return (double)now.tv_sec * 1e9 + (double)now.tv_nsec;
}

/* Memory of this program's own, whose pages are there, so that it measures no page fault of its own. */
static void *own_memory(size_t bytes) {
    void *const memory = mmap(NULL, bytes, PROT_READ | PROT_WRITE, MAP_PRIVATE | MAP_ANONYMOUS | MAP_POPULATE, -1, 0);
    ends_if(memory == MAP_FAILED, "memory");
    return memory;
}

/* A tool that counts instructions knows each call by the first two words of these names: none of them calls another. */
#define CALL __attribute__((noinline)) static

static inline bool keeps(struct block *it, void *moved) {
    if (moved) it->at = moved;
    return moved != NULL;
}

CALL bool do_allocate_level(void *heap, struct block *it, size_t n) { return (it->at = tlsf_malloc(heap, n)) != NULL; }
CALL void do_release_level(void *heap, struct block *it) { (void)tlsf_free(heap, it->at); }
CALL bool do_resize_level(void *heap, struct block *it, size_t n) { return keeps(it, tlsf_realloc(heap, it->at, n)); }

CALL bool do_allocate_named(void *heap, struct block *it, size_t n) { return !tlsf_allocate(heap, (uint32_t)n, &it->name); }
CALL void do_release_named(void *heap, struct block *it) { (void)tlsf_release(heap, it->name); }
CALL bool do_resize_named(void *heap, struct block *it, size_t n) { return !tlsf_reallocate(heap, &it->name, (uint32_t)n); }

CALL bool do_allocate_near(void *heap, struct block *it, size_t n) { return (it->at = tlsf_malloc(tlsf_near(heap), n)) != NULL; }
CALL void do_release_near(void *heap, struct block *it) { (void)tlsf_free(tlsf_near(heap), it->at); }
CALL bool do_resize_near(void *heap, struct block *it, size_t n) { return keeps(it, tlsf_realloc(tlsf_near(heap), it->at, n)); }

CALL bool do_allocate_near_named(void *heap, struct block *it, size_t n) { return !tlsf_allocate(tlsf_near(heap), (uint32_t)n, &it->name); }
CALL void do_release_near_named(void *heap, struct block *it) { (void)tlsf_release(tlsf_near(heap), it->name); }
CALL bool do_resize_near_named(void *heap, struct block *it, size_t n) { return !tlsf_reallocate(tlsf_near(heap), &it->name, (uint32_t)n); }

CALL bool do_allocate_system(void *heap, struct block *it, size_t n) { return (void)heap, (it->at = malloc(n)) != NULL; }
CALL bool do_allocate_system_zeroed(void *heap, struct block *it, size_t n) { return (void)heap, (it->at = calloc(1, n)) != NULL; }
CALL void do_release_system(void *heap, struct block *it) { (void)heap, free(it->at); }
CALL bool do_resize_system(void *heap, struct block *it, size_t n) { return (void)heap, keeps(it, realloc(it->at, n)); }

CALL bool do_allocate_nothing(void *heap, struct block *it, size_t n) { return (void)n, (it->at = heap) != NULL; }
CALL void do_release_nothing(void *heap, struct block *it) { __asm__ volatile("" : : "r"(heap), "r"(it)); }
CALL bool do_resize_nothing(void *heap, struct block *it, size_t n) { return (void)n, (it->at = heap) != NULL; }

/* --- Opening. A heap of the library and a pool of TLSF 2.4 lie in memory of the caller's. --- */

static uint32_t opened; /* the number of the next heap of the library */

static void *open_level(const char *column, size_t bytes, void *memory) {
    struct tlsf_heap *const heap = own_memory(sizeof *heap); /* on lines of its own */
    return tlsf_open_in(heap, (uint32_t)atoi(column + strlen("level")), opened++, memory, bytes) == TLSF_OK ? heap : NULL;
}

static void *open_near(const char *column, size_t bytes, void *memory) {
    struct tlsf_near_heap *const heap = own_memory(sizeof *heap);
    return tlsf_open_near_in(heap, (uint32_t)atoi(column + strlen("near")), opened++, memory, bytes) == TLSF_OK ? heap : NULL;
}

static void *open_system(const char *column, size_t bytes, void *memory) {
    static char some; /* what isn't null */
    return (void)column, (void)bytes, (void)memory, &some;
}

static void *open_nothing(const char *column, size_t bytes, void *memory) { return (void)column, (void)bytes, memory; }

#ifdef AUTHORS
CALL bool do_allocate_authors(void *pool, struct block *it, size_t n) { return (it->at = malloc_ex(n, pool)) != NULL; }
CALL bool do_allocate_authors_zeroed(void *pool, struct block *it, size_t n) { return (it->at = calloc_ex(1, n, pool)) != NULL; }
CALL void do_release_authors(void *pool, struct block *it) { free_ex(it->at, pool); }
CALL bool do_resize_authors(void *pool, struct block *it, size_t n) { return keeps(it, realloc_ex(it->at, n, pool)); }
static void *open_authors(const char *column, size_t bytes, void *memory) {
    memset(memory, 0, 4 * sizeof(size_t)); /* TLSF 2.4 takes a pool that has its mark for one that is open */
    return (void)column, init_memory_pool(bytes, memory) == (size_t)-1 ? NULL : memory;
}
#endif

#define OF(kind) \
    { open_##kind, do_allocate_##kind, do_release_##kind, do_resize_##kind }
#define ZEROED(kind) \
    { open_##kind, do_allocate_##kind##_zeroed, do_release_##kind, do_resize_##kind }

/* The calls of a column; the program ends where it isn't built. */
static struct calls calls_of(const char *column, bool is_by_name) {
    static const struct {
        const char *name;
        struct calls calls[2]; /* by pointer, by name */
    } all[] = {
        {"level", {OF(level), {open_level, do_allocate_named, do_release_named, do_resize_named}}},
        {"near", {OF(near), {open_near, do_allocate_near_named, do_release_near_named, do_resize_near_named}}},
        {"system", {OF(system), ZEROED(system)}},
        {"nothing", {OF(nothing), OF(nothing)}},
#ifdef AUTHORS
        {"authors", {OF(authors), ZEROED(authors)}},
#endif
    };
    for (size_t i = 0; i < sizeof all / sizeof *all; i++)
        if (!strncmp(column, all[i].name, strlen(all[i].name))) return all[i].calls[is_by_name];
    ends_if(true, "a column that isn't built");
    return all[0].calls[0];
}

/* Bytes of memory in which a heap of so many words is opened, or a pool of as much. */
static size_t bytes_for(const char *column, uint32_t words) {
    if (!strncmp(column, "level", strlen("level"))) return tlsf_bytes((uint32_t)atoi(column + strlen("level")), words);
    if (!strncmp(column, "near", strlen("near"))) return tlsf_near_bytes((uint32_t)atoi(column + strlen("near")), words);
    return 8 * (size_t)words;
}
