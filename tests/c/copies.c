/* A copy of a handle is refused by each call once the heap, the end or the arena was closed by the other one, as long as the memory of
 * what it led to has no other use. The copy lies as it lay, and nothing in that memory is touched. COPIES LEVEL */
#include "peachanchor.h"

#include <stdio.h>
#include <stdlib.h>
#include <string.h>

enum { WORDS = 200, CAPACITY = 4 };

static _Alignas(64) unsigned char memory[8 * WORDS + 6144], after[sizeof memory];
static int copies;

static void wants(const char *what, uint32_t got, uint32_t wanted) {
    if (got == wanted) return;
    printf("copy %d: %s: %u, and not %u\n", copies, what, (unsigned)got, (unsigned)wanted);
    exit(1);
}

/* Each call that takes a heap, on one that is closed. */
static void is_refused(struct tlsf_heap *copy) {
    const struct tlsf_name name = {1, 0, 1};
    struct tlsf_name own = name;
    struct tlsf_heap_counts counts;
    struct tlsf_heap_report report;
    struct tlsf_block_info block;
    uint64_t *base = NULL;
    uint32_t at = 0, other = 0;
    uint8_t byte = 0;
    copies++;
    wants("allocate", tlsf_allocate(copy, 8, &own), TLSF_IS_CLOSED);
    wants("release", tlsf_release(copy, name), TLSF_IS_CLOSED);
    wants("release_all", tlsf_release_all(copy, &name, 1), TLSF_IS_CLOSED);
    wants("reset", tlsf_reset(copy), TLSF_IS_CLOSED);
    wants("resize", tlsf_resize(copy, name, 16), TLSF_IS_CLOSED);
    wants("reallocate", tlsf_reallocate(copy, &own, 16), TLSF_IS_CLOSED);
    wants("write", tlsf_write(copy, name, 0, &byte, 1), TLSF_IS_CLOSED);
    wants("read", tlsf_read(copy, name, 0, &byte, 1), TLSF_IS_CLOSED);
    wants("locate", tlsf_locate(copy, name, &base, &at), TLSF_IS_CLOSED);
    wants("report", tlsf_report(copy, &report), TLSF_IS_CLOSED);
    wants("counts", tlsf_counts(copy, &counts), TLSF_IS_CLOSED);
    wants("block_at", tlsf_block_at(copy, 0, &block), TLSF_IS_CLOSED);
    wants("check", tlsf_check(copy, 0, 1, &at, &other), TLSF_IS_CLOSED);
    wants("place", tlsf_place(copy, 0, &own, &at), TLSF_IS_CLOSED);
    wants("allocate_payload", (uint32_t)tlsf_allocate_payload(copy, 8), 0);
    wants("allocate_place", tlsf_allocate_place(copy, 8).answer, TLSF_IS_CLOSED);
    wants("allocate_aligned", tlsf_allocate_aligned(copy, 8, 2, 0).answer, TLSF_IS_CLOSED);
    wants("release_place", tlsf_release_place(copy, 0), TLSF_IS_CLOSED);
    wants("resize_place", tlsf_resize_place(copy, 0, 16, &at), TLSF_IS_CLOSED);
    wants("malloc", tlsf_malloc(copy, 8) == NULL, 1);
    wants("free", tlsf_free(copy, copy->base + 3), TLSF_IS_CLOSED);
    wants("a second close", tlsf_close(copy), TLSF_IS_CLOSED);
}

/* --- Ends and arenas: of each kind a copy that served, and what is asked of it once the other one is closed ------------------- */

static const struct tlsf_name no_name = {1, 0, 1};
static struct tlsf_heap drained = TLSF_CLOSED;

static void post_is_refused(struct tlsf_post_end *copy) {
    size_t went = 0;
    copies++;
    wants("put", tlsf_put(copy, no_name), TLSF_IS_CLOSED);
    wants("put_all", tlsf_put_all(copy, &no_name, 1, &went), TLSF_IS_CLOSED);
    wants("a second close", tlsf_post_close(copy), TLSF_IS_CLOSED);
}

static void take_is_refused(struct tlsf_take_end *copy) {
    struct tlsf_name name;
    size_t came = 0;
    uint32_t names = 0;
    copies++;
    wants("take", tlsf_take(copy, &name), TLSF_IS_CLOSED);
    wants("take_all", tlsf_take_all(copy, &name, 1, &came), TLSF_IS_CLOSED);
    wants("drain", tlsf_drain(&drained, copy, 1, &names), TLSF_IS_CLOSED);
    wants("the archive's drain", (tlsf_drain)(&drained, copy, 1, &names), TLSF_IS_CLOSED);
    wants("a second close", tlsf_take_close(copy), TLSF_IS_CLOSED);
}

static void queue_is_refused(struct tlsf_queue *copy) {
    struct tlsf_poster poster = TLSF_POSTER_CLOSED;
    struct tlsf_name name;
    uint32_t names = 0;
    copies++;
    wants("poster_open", tlsf_poster_open(copy, &poster), TLSF_IS_CLOSED);
    wants("queue_take", tlsf_queue_take(copy, &name), TLSF_IS_CLOSED);
    wants("queue_drain", tlsf_queue_drain(&drained, copy, 1, &names), TLSF_IS_CLOSED);
    wants("the archive's queue_drain", (tlsf_queue_drain)(&drained, copy, 1, &names), TLSF_IS_CLOSED);
    wants("a second close", tlsf_queue_close(copy), TLSF_IS_CLOSED);
}

static void poster_is_refused(struct tlsf_poster *copy) {
    copies++;
    wants("queue_post", tlsf_queue_post(copy, no_name), TLSF_IS_CLOSED);
    wants("a second close", tlsf_poster_close(copy), TLSF_IS_CLOSED);
}

static void offsets_are_refused(struct tlsf_offsets *copy, struct tlsf_span span) {
    struct tlsf_offsets_usage usage;
    copies++;
    wants("offsets_allocate", tlsf_offsets_allocate(copy, 8, &span), TLSF_IS_CLOSED);
    wants("offsets_resize", tlsf_offsets_resize(copy, &span, 16), TLSF_IS_CLOSED);
    wants("offsets_release", tlsf_offsets_release(copy, span.name), TLSF_IS_CLOSED);
    wants("offsets_report", tlsf_offsets_report(copy, &usage), TLSF_IS_CLOSED);
    wants("a second close", tlsf_offsets_close(copy), TLSF_IS_CLOSED);
}

static void pools_are_refused(struct tlsf_pools *copy, struct tlsf_name name) {
    struct tlsf_heap_report report;
    struct tlsf_name own;
    uint64_t *base;
    uint8_t byte = 0;
    uint32_t a, b;
    copies++;
    wants("pools_allocate", tlsf_pools_allocate(copy, 8, &own), TLSF_IS_CLOSED);
    wants("pools_write", tlsf_pools_write(copy, name, 0, &byte, 1), TLSF_IS_CLOSED);
    wants("pools_read", tlsf_pools_read(copy, name, 0, &byte, 1), TLSF_IS_CLOSED);
    wants("pools_release", tlsf_pools_release(copy, name), TLSF_IS_CLOSED);
    wants("pools_report", tlsf_pools_report(copy, 0, &report), TLSF_IS_CLOSED);
    wants("pools_counts", tlsf_pools_counts(copy, 0, &a, &b), TLSF_IS_CLOSED);
    wants("pools_check", tlsf_pools_check(copy, 0, 0, 1, &a, &b), TLSF_IS_CLOSED);
    wants("pools_part", tlsf_pools_part(copy, 0, &base, &a), TLSF_IS_CLOSED);
    wants("pools_place", tlsf_pools_place(copy, 0, 0, &own, &a), TLSF_IS_CLOSED);
    wants("pools_row", tlsf_pools_row(copy, 8, &a), TLSF_IS_CLOSED);
    wants("pools_malloc", tlsf_pools_malloc(copy, 8) == NULL, 1);
    wants("pools_name_at", tlsf_pools_name_at(copy, memory, &own), TLSF_IS_CLOSED);
    wants("pools_realloc", tlsf_pools_realloc(copy, memory + 64, 8) == NULL, 1);
    wants("pools_free", tlsf_pools_free(copy, memory + 64), TLSF_IS_CLOSED);
    wants("a second close", tlsf_pools_close(copy), TLSF_IS_CLOSED);
}

/* One end is asked while the other is open yet, and again after that. */
static void of_a_lane(void) {
    struct tlsf_post_end post = TLSF_POST_CLOSED;
    struct tlsf_take_end take = TLSF_TAKE_CLOSED;
    struct tlsf_name name;
    wants("lane_open_in", tlsf_lane_open_in(&post, &take, CAPACITY, memory, sizeof memory), TLSF_OK);
    struct tlsf_post_end post_copy = post;
    struct tlsf_take_end take_copy = take;
    wants("the copy of a post end serves", tlsf_put(&post_copy, no_name), TLSF_OK);
    wants("post_close", tlsf_post_close(&post), TLSF_OK);
    post_is_refused(&post_copy);
    wants("the copy of a take end serves", tlsf_take(&take_copy, &name), TLSF_OK);
    wants("take_close", tlsf_take_close(&take), TLSF_OK);
    memcpy(after, memory, sizeof memory);
    const struct tlsf_post_end post_before = post_copy;
    const struct tlsf_take_end take_before = take_copy;
    post_is_refused(&post_copy);
    take_is_refused(&take_copy);
    wants("the copy of a post end as before", memcmp(&post_copy, &post_before, sizeof post_copy) == 0, 1);
    wants("the copy of a take end as before", memcmp(&take_copy, &take_before, sizeof take_copy) == 0, 1);
    wants("the lane's memory as before", memcmp(memory, after, sizeof memory) == 0, 1);
}

static void of_a_queue(void) {
    struct tlsf_queue queue = TLSF_QUEUE_CLOSED;
    struct tlsf_poster poster = TLSF_POSTER_CLOSED;
    struct tlsf_name name;
    wants("queue_open_in", tlsf_queue_open_in(&queue, 2, CAPACITY, memory, sizeof memory), TLSF_OK);
    wants("poster_open", tlsf_poster_open(&queue, &poster), TLSF_OK);
    struct tlsf_queue queue_copy = queue;
    struct tlsf_poster poster_copy = poster;
    wants("the copy of a poster's end serves", tlsf_queue_post(&poster_copy, no_name), TLSF_OK);
    wants("poster_close", tlsf_poster_close(&poster), TLSF_OK);
    poster_is_refused(&poster_copy);
    wants("the copy of a queue serves", tlsf_queue_take(&queue_copy, &name), TLSF_OK);
    wants("queue_close", tlsf_queue_close(&queue), TLSF_OK);
    memcpy(after, memory, sizeof memory);
    const struct tlsf_poster poster_before = poster_copy;
    const struct tlsf_queue queue_before = queue_copy;
    poster_is_refused(&poster_copy);
    queue_is_refused(&queue_copy);
    wants("the copy of a poster as before", memcmp(&poster_copy, &poster_before, sizeof poster_copy) == 0, 1);
    wants("the copy of a queue as before", memcmp(&queue_copy, &queue_before, sizeof queue_copy) == 0, 1);
    wants("the queue's memory as before", memcmp(memory, after, sizeof memory) == 0, 1);
}

static void of_offsets(uint32_t level) {
    struct tlsf_offsets offsets = TLSF_OFFSETS_CLOSED;
    struct tlsf_span span;
    wants("offsets_open_in", tlsf_offsets_open_in(&offsets, level, 1, 8, WORDS, memory, sizeof memory), TLSF_OK);
    struct tlsf_offsets copy = offsets;
    wants("the copy of an arena serves", tlsf_offsets_allocate(&copy, 8, &span), TLSF_OK);
    wants("offsets_close", tlsf_offsets_close(&offsets), TLSF_OK);
    memcpy(after, memory, sizeof memory);
    const struct tlsf_offsets before = copy;
    offsets_are_refused(&copy, span);
    wants("the copy of an arena as before", memcmp(&copy, &before, sizeof copy) == 0, 1);
    wants("the arena's memory as before", memcmp(memory, after, sizeof memory) == 0, 1);
}

static void of_pools(uint32_t level) {
    const struct tlsf_kind rows[] = {{2, 16}};
    struct tlsf_pools pools = TLSF_POOLS_CLOSED;
    struct tlsf_name name;
    wants("pools_open_in", tlsf_pools_open_in(&pools, level, 1, rows, 1, memory, sizeof memory), TLSF_OK);
    struct tlsf_pools copy = pools;
    wants("the copy of pools serves", tlsf_pools_allocate(&copy, 16, &name), TLSF_OK);
    wants("pools_close", tlsf_pools_close(&pools), TLSF_OK);
    memcpy(after, memory, sizeof memory);
    const struct tlsf_pools before = copy;
    pools_are_refused(&copy, name);
    wants("the copy of pools as before", memcmp(&copy, &before, sizeof copy) == 0, 1);
    wants("the pools' memory as before", memcmp(memory, after, sizeof memory) == 0, 1);
}

int main(int argc, char **argv) {
    const uint32_t level = argc > 1 ? (uint32_t)strtoul(argv[1], NULL, 10) : 4;
    struct tlsf_heap heap = TLSF_CLOSED;
    struct tlsf_name name = {0, 0, 0};
    for (uint32_t opening = 1; opening < 4; opening++) {
        wants("open", tlsf_open_in(&heap, level, opening, memory, sizeof memory), TLSF_OK);
        wants("a block", tlsf_allocate(&heap, 8, &name), TLSF_OK);
        struct tlsf_heap copy = heap;
        wants("the copy serves", tlsf_release(&copy, name), TLSF_OK);
        wants("close", tlsf_close(&heap), TLSF_OK);
        memcpy(after, memory, sizeof memory);
        const struct tlsf_heap before = copy;
        is_refused(&copy);
        wants("the copy as before", memcmp(&copy, &before, sizeof copy) == 0, 1);
        wants("the memory as before", memcmp(memory, after, sizeof memory) == 0, 1);
    }
    wants("a heap to drain to", tlsf_open(&drained, level, 9, WORDS), TLSF_OK);
    of_a_lane();
    of_a_queue();
    of_offsets(level);
    of_pools(level);
    wants("its close", tlsf_close(&drained), TLSF_OK);
    printf("level %u: %d copies\n", (unsigned)level, copies);
    return 0;
}
