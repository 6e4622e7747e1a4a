/* Programs that touch what isn't live, which has to be told where it happens: with TLSF_ASAN by AddressSanitizer, with
 * TLSF_VALGRIND by memcheck. MARKED KIND: a kind below, or `right` for a program that touches nothing but payload. MARKED KIND in:
 * the same in memory of the program's. It prints what it was going to touch, and goes on if nobody stops it. */
#include "peachanchor.h"

#include "tlsf_cache.h"

#include <stdio.h>
#include <stdlib.h>
#include <string.h>

static struct tlsf_heap heap = TLSF_CLOSED;
static _Alignas(16) unsigned char memory[1 << 16];
static unsigned sum; /* of what was read, so that reads are made */

static void stop(const char *why) {
    printf("%s\n", why);
    fflush(stdout);
    _Exit(2);
}

static unsigned char *get(size_t len) {
    unsigned char *p = tlsf_malloc(&heap, len);
    if (!p) stop("no room");
    return p;
}

static unsigned char *get_named(uint32_t len, struct tlsf_name *name) {
    if (tlsf_allocate(&heap, len, name) != TLSF_OK) stop("no room");
    return tlsf_payload(&heap, *name, NULL);
}

static void read_at(const unsigned char *p) {
    if (*(const volatile unsigned char *)p == 77) sum++;
}

static void write_at(unsigned char *p) { *(volatile unsigned char *)p = 1; }

/* --- What is wrong -------------------------------------------------------------------------------------------------- */

static void overrun(void) { write_at(get(13) + 13); }
static void overrun_read(void) { read_at((unsigned char *)tlsf_calloc(&heap, 3, 8) + 24); }
static void underrun(void) { write_at(get(13) - 1); }

static void overrun_named(void) {
    struct tlsf_name name;
    write_at(get_named(13, &name) + 13);
}

static void overrun_aligned(void) {
    unsigned char *p = tlsf_aligned_alloc(&heap, 256, 40);
    if (p) write_at(p + 40);
}

static void used_after_free(void) {
    unsigned char *p = get(40);
    memset(p, 0, 40);
    tlsf_free(&heap, p);
    read_at(p + 20);
}

static void used_after_release(void) {
    struct tlsf_name name;
    unsigned char *p = get_named(40, &name);
    tlsf_release(&heap, name);
    write_at(p + 39);
}

static void used_after_move(void) {
    unsigned char *p = get(40);
    (void)get(40);
    if (tlsf_realloc(&heap, p, 4000) != p) write_at(p);
}

static void used_after_alignment(void) {
    unsigned char *p = get(40);
    while ((uintptr_t)p % 1024 == 0) p = get(40);
    if (tlsf_aligned_realloc(&heap, p, 1024, 40) != p) read_at(p);
}

static void overrun_after_alignment(void) {
    unsigned char *p = tlsf_aligned_realloc(&heap, get(40), 1024, 40);
    if (p) write_at(p + 40);
}

static void used_behind_end(void) {
    unsigned char *p = get(400);
    memset(p, 0, 400);
    p = tlsf_realloc(&heap, p, 100);
    if (p) read_at(p + 100);
}

static void used_after_resize(void) {
    struct tlsf_name name;
    unsigned char *p = get_named(400, &name);
    if (tlsf_resize(&heap, name, 99) == TLSF_OK) read_at(p + 99);
}

static void used_after_drain(void) {
    struct tlsf_post_end post = TLSF_POST_CLOSED;
    struct tlsf_take_end take = TLSF_TAKE_CLOSED;
    struct tlsf_name name;
    uint32_t came = 0;
    unsigned char *p = get_named(40, &name);
    if (tlsf_lane_open(&post, &take, 2) || tlsf_put(&post, name) || tlsf_drain(&heap, &take, 2, &came)) stop("no lane");
    read_at(p);
}

/* A pointer to what was released over a queue. */
static unsigned char *drained(void) {
    struct tlsf_queue queue = TLSF_QUEUE_CLOSED;
    struct tlsf_poster poster = TLSF_POSTER_CLOSED;
    struct tlsf_name name;
    uint32_t came = 0;
    unsigned char *p = get_named(40, &name);
    if (tlsf_queue_open(&queue, 1, 2) || tlsf_poster_open(&queue, &poster) || tlsf_queue_post(&poster, name)) stop("no queue");
    if (tlsf_queue_drain(&heap, &queue, 2, &came) || came != 1) stop("no drain");
    tlsf_queue_close(&queue);
    tlsf_poster_close(&poster);
    return p;
}

static void used_after_queue_drain(void) { read_at(drained()); }

/* A pointer to what a magazine keeps. */
static unsigned char *kept(struct tlsf_cache *cache) {
    if (tlsf_cache_open(cache, &heap)) stop("no magazine");
    unsigned char *p = tlsf_cache_malloc(cache, 40);
    if (!p) stop("no room");
    memset(p, 0, 40);
    if (tlsf_cache_free(cache, p)) stop("no free");
    return p;
}

static void used_while_kept(void) {
    struct tlsf_cache cache = TLSF_CACHE_CLOSED;
    read_at(kept(&cache) + 20);
}

static void used_after_second_free(void) {
    struct tlsf_cache cache = TLSF_CACHE_CLOSED;
    unsigned char *p = kept(&cache);
    if (tlsf_cache_free(&cache, p) != TLSF_STALE || tlsf_cache_usable_size(&cache, p) != 0) stop("a second free");
    write_at(p + 39);
}

static void overrun_after_kept(void) {
    struct tlsf_cache cache = TLSF_CACHE_CLOSED;
    unsigned char *p = kept(&cache);
    if (tlsf_cache_malloc(&cache, 30) == p) write_at(p + 30);
}

#ifdef TLSF_VALGRIND
static void not_initialised(void) {
    unsigned char *p = get(40);
    read_at(p + 3);
}

static void not_initialised_after_kept(void) {
    struct tlsf_cache cache = TLSF_CACHE_CLOSED;
    unsigned char *p = kept(&cache);
    if (tlsf_cache_malloc(&cache, 40) == p) read_at(p + 3);
}
#endif

/* --- What is right -------------------------------------------------------------------------------------------------- */

static void right_by_pointer(void) {
    unsigned char *p = get(13), *q = tlsf_calloc(&heap, 7, 9);
    memset(p, 1, 13);
    for (int k = 0; q && k < 63; k++) read_at(q + k);
    p = tlsf_realloc(&heap, p, 5000);
    if (!p) stop("no room");
    for (int k = 0; k < 13; k++) read_at(p + k);
    memset(p, 2, 5000);
    p = tlsf_realloc(&heap, p, 100);
    if (p) memset(p, 3, tlsf_usable_size(&heap, p));
    p = tlsf_aligned_realloc(&heap, p, 1024, 90);
    if (p) read_at(p + 89), memset(p, 4, tlsf_block_size(p));
    tlsf_free(&heap, p);
    tlsf_free(&heap, q);
}

static void right_by_name(void) {
    struct tlsf_name name, other, wrong = {9, 9, 9};
    uint8_t out[50] = {0};
    unsigned char *p = get_named(29, &name);
    (void)get_named(8, &other);
    for (int k = 0; k < 29; k++) read_at(p + k);
    if (tlsf_write(&heap, name, 9, out, 20) || tlsf_read(&heap, name, 0, out, 29)) stop("no copy");
    if (tlsf_resize(&heap, name, 5000) != TLSF_NO_ROOM || tlsf_reallocate(&heap, &name, 5000)) stop("no move");
    p = tlsf_payload(&heap, name, NULL);
    for (int k = 0; k < 5000; k++) read_at(p + k);
    if (tlsf_resize(&heap, name, 6000)) stop("no room");
    for (int k = 0; k < 6000; k++) read_at(p + k);
    if (tlsf_release(&heap, wrong) != TLSF_FOREIGN || tlsf_release(&heap, name) || tlsf_release(&heap, other)) stop("no release");
    p = get(10);
    if (tlsf_name_at(&heap, p, &name) || tlsf_read(&heap, name, 0, out, 10)) stop("no name");
    tlsf_free(&heap, p);
    p = NULL;
    if (tlsf_allocate_at(&heap, 10, 128, 0, &name, (void **)(void *)&p) || !p) stop("no block");
    for (int k = 0; k < 10; k++) read_at(p + k);
    tlsf_release(&heap, name);
}

static void right_by_magazine(void) {
    struct tlsf_cache cache = TLSF_CACHE_CLOSED;
    unsigned char *const p = kept(&cache), *const q = tlsf_cache_calloc(&cache, 3, 11);
    if (p != q) stop("no kept block");
    for (int k = 0; k < 33; k++) read_at(q + k);
    if (tlsf_cache_realloc(&cache, q, 40) != q) stop("it moves");
    memset(q, 1, 40);
    if (tlsf_cache_usable_size(&cache, q) != 40 || tlsf_cache_free(&cache, q) || tlsf_cache_close(&cache)) stop("no close");
    tlsf_free(&heap, get(40));
}

static void right(void) {
    struct tlsf_heap_report report;
    struct tlsf_heap_counts counts;
    for (int turn = 0; turn < 20; turn++) right_by_pointer(), right_by_name(), right_by_magazine();
    (void)drained();
    if (tlsf_report(&heap, &report) || tlsf_counts(&heap, &counts) || tlsf_close(&heap)) stop("no report");
    for (size_t k = 0; k < sizeof memory; k++) memory[k] = 1; /* the program's again */
}

static const struct {
    const char *name;
    void (*does)(void);
} kinds[] = {
    {"overrun", overrun},
    {"overrun_read", overrun_read},
    {"underrun", underrun},
    {"overrun_named", overrun_named},
    {"overrun_aligned", overrun_aligned},
    {"used_after_free", used_after_free},
    {"used_after_release", used_after_release},
    {"used_after_move", used_after_move},
    {"used_after_alignment", used_after_alignment},
    {"overrun_after_alignment", overrun_after_alignment},
    {"used_behind_end", used_behind_end},
    {"used_after_resize", used_after_resize},
    {"used_after_drain", used_after_drain},
    {"used_after_queue_drain", used_after_queue_drain},
    {"used_while_kept", used_while_kept},
    {"used_after_second_free", used_after_second_free},
    {"overrun_after_kept", overrun_after_kept},
#ifdef TLSF_VALGRIND
    {"not_initialised", not_initialised},
    {"not_initialised_after_kept", not_initialised_after_kept},
#endif
    {"right", right},
};

int main(int argc, char **argv) {
    const char *kind = argc > 1 ? argv[1] : "";
    const uint32_t answer = argc > 2 ? tlsf_open_in(&heap, 4, 1, memory + 5, sizeof memory - 5) : tlsf_open(&heap, 4, 1, 6000);
    if (answer != TLSF_OK) stop(tlsf_text_of(answer));
    for (size_t k = 0; k < sizeof kinds / sizeof *kinds; k++) {
        if (argc < 2) printf("%s\n", kinds[k].name);
        if (strcmp(kinds[k].name, kind) != 0) continue;
        kinds[k].does();
        printf("%s: done\n", kind);
    }
    return 0;
}
