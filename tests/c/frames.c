/* A heap for each frame of a game: blocks are allocated by name and by pointer until there is no room, and a reset takes them all
 * back. After it each name of before is refused, the heap is one free block, and the next frame has as much room. FRAMES LEVEL. */
#include "peachanchor.h"

#include <stdio.h>
#include <stdlib.h>
#include <string.h>

enum { WORDS = 4096, MOST = WORDS / 4 };

static struct tlsf_near_heap held = TLSF_NEAR_CLOSED;
static uint64_t state = 1;

static uint32_t below(uint32_t n) {
    state = state * 6364136223846793005u + 1442695040888963407u;
    return (uint32_t)((state >> 33) % n);
}

static void wants(const char *what, uint64_t got, uint64_t wanted) {
    if (got == wanted) return;
    printf("%s: %llu, and not %llu\n", what, (unsigned long long)got, (unsigned long long)wanted);
    exit(1);
}

/* A block of this many bytes, by name or by pointer, filled; or none, for want of room. */
static bool take(struct tlsf_heap *heap, uint32_t len, struct tlsf_name *name) {
    if (below(2)) {
        void *const p = tlsf_malloc(heap, len);
        if (p == NULL) return false;
        wants("name_at", tlsf_name_at(heap, p, name), TLSF_OK);
    } else if (tlsf_allocate(heap, len, name) != TLSF_OK) return false;
    uint8_t *const payload = tlsf_payload(heap, *name, NULL);
    memset(payload, (int)(name->serial % 251), len);
    return true;
}

static void look(struct tlsf_heap *heap, const struct tlsf_heap_counts *before) {
    struct tlsf_heap_counts counts = {1, 0, 0, 0};
    struct tlsf_heap_report report;
    uint32_t next = 1, damaged = 0;
    wants("counts", tlsf_counts(heap, &counts), TLSF_OK);
    wants("words in use", counts.words, 0);
    wants("most words", counts.most_words, before->most_words);
    wants("refused", counts.refused, before->refused);
    wants("report", tlsf_report(heap, &report), TLSF_OK);
    wants("one free block", (uint64_t)(report.free_blocks == 1 && report.live_blocks == 0 && report.largest == WORDS), 1);
    wants("age", report.age, 1);
    wants("check", tlsf_check(heap, 0, WORDS, &next, &damaged), TLSF_OK);
}

static uint32_t frame(struct tlsf_heap *heap) {
    static struct tlsf_name names[MOST];
    struct tlsf_heap_counts counts = {0, 0, 0, 0};
    uint32_t count = 0;
    uint8_t byte = 0;
    while (take(heap, below(below(8) ? 100 : 4000), &names[count])) count++;
    for (uint32_t k = 0; k < count; k += 3) wants("release", tlsf_release(heap, names[k]), TLSF_OK);
    wants("counts", tlsf_counts(heap, &counts), TLSF_OK);
    wants("reset", tlsf_reset(heap), TLSF_OK);
    look(heap, &counts);
    for (uint32_t k = 0; k < count; k++) {
        wants("a name of before", tlsf_release(heap, names[k]), TLSF_STALE);
        wants("its payload", tlsf_read(heap, names[k], 0, &byte, 0), TLSF_STALE);
    }
    return count;
}

int main(int argc, char **argv) {
    const int frames = argc > 1 ? atoi(argv[1]) : 10000;
    const uint32_t level = argc > 2 ? (uint32_t)atoi(argv[2]) : 4;
    struct tlsf_heap *const heap = tlsf_near(&held);
    struct tlsf_name all = {0, 0, 0}, again = {0, 0, 0};
    wants("reset of a closed heap", tlsf_reset(heap), TLSF_IS_CLOSED);
    wants("open", tlsf_open_near(&held, level, 1, WORDS), TLSF_OK);
    for (int n = 0; n < frames; n++) {
        if (frame(heap) == 0) wants("blocks", 0, 1);
        wants("all of the region", tlsf_allocate(heap, 8 * (WORDS - 3), &all), TLSF_OK);
        wants("reset", tlsf_reset(heap), TLSF_OK);
        wants("all again", tlsf_allocate(heap, 8 * (WORDS - 3), &again), TLSF_OK);
        wants("its place", again.at, all.at);
        wants("its serial", (uint64_t)(again.serial > all.serial), 1);
        wants("a name of that place", tlsf_release(heap, all), TLSF_STALE);
        wants("reset", tlsf_reset(heap), TLSF_OK);
    }
    wants("close", tlsf_close(heap), TLSF_OK);
    printf("%d frames\n", frames);
    return 0;
}
