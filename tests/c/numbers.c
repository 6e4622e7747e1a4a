/* Numbers of heaps: threads get them at once, and no two are the same, nor among the eight that pools take from one on. Those that a
 * program chooses are below all. With `end` as many calls are made as there are numbers, and the next ones are refused.
 * NUMBERS [CALLS] [end] */
#include "chance.h"
#include "peachanchor.h"

#include <pthread.h>
#include <string.h>

enum { THREADS = 4, EACH = 8 };

static long calls = 20000;
static uint32_t *numbers[THREADS];

static uint32_t next_one(void) {
    uint32_t number = 7;
    wants("a number", tlsf_next_number(&number), TLSF_OK);
    return number;
}

static void *take(void *slot) {
    uint32_t **const own = slot;
    for (long k = 0; k < calls; k++) (*own)[k] = next_one();
    return NULL;
}

/* From 2^31 on each EACHth number was given, and once. */
static void each_once(void) {
    const size_t all = THREADS * (size_t)calls;
    unsigned char *const seen = calloc(all, 1);
    wants("room", seen != NULL, 1);
    for (size_t k = 0; k < all; k++) {
        const uint32_t number = numbers[k / (size_t)calls][k % (size_t)calls], n = (number - (1u << 31)) / EACH;
        wants("a number from 2^31 on, in steps", number >= 1u << 31 && number % EACH == 0 && n < all, 1);
        wants("a number that was given", seen[n]++, 0);
    }
    free(seen);
}

static void by_threads(void) {
    pthread_t thread[THREADS];
    for (int k = 0; k < THREADS; k++) wants("room", (numbers[k] = malloc((size_t)calls * sizeof **numbers)) != NULL, 1);
    for (int k = 0; k < THREADS; k++) wants("thread", (size_t)pthread_create(&thread[k], NULL, take, &numbers[k]), 0);
    for (int k = 0; k < THREADS; k++) wants("join", (size_t)pthread_join(thread[k], NULL), 0);
    each_once();
    for (int k = 0; k < THREADS; k++) free(numbers[k]);
}

/* Blocks of pools and of heaps that were opened by them are foreign to each other. */
static void of_heaps(void) {
    static const struct tlsf_kind rows[] = {{20, 8}, {10, 100}, {5, 2000}};
    struct tlsf_pools pools = TLSF_POOLS_CLOSED;
    struct tlsf_heap heap = TLSF_CLOSED;
    struct tlsf_name name, of_heap;
    wants("pools", tlsf_pools_open(&pools, 4, next_one(), rows, 3), TLSF_OK);
    wants("heap", tlsf_open(&heap, 4, next_one(), 100), TLSF_OK);
    wants("a block", tlsf_allocate(&heap, 8, &of_heap), TLSF_OK);
    wants("to the pools", tlsf_pools_release(&pools, of_heap), TLSF_FOREIGN);
    for (size_t k = 0; k < 3; k++) {
        wants("a block of a pool", tlsf_pools_allocate(&pools, (size_t)rows[k].len - below(8), &name), TLSF_OK);
        wants("to the heap", tlsf_release(&heap, name), TLSF_FOREIGN);
    }
    wants("close", tlsf_pools_close(&pools) + tlsf_close(&heap), TLSF_OK);
}

/* All that are left, in their order; then none comes, and nothing is written. */
static void to_the_end(void) {
    uint32_t last = next_one(), number = 0;
    while (tlsf_next_number(&number) == TLSF_OK) {
        if (number != last + EACH) wants("the next one", number, last + EACH);
        last = number;
    }
    wants("the last", last, UINT32_MAX - EACH + 1);
    number = 7;
    for (int k = 0; k < 3; k++) wants("none is left", tlsf_next_number(&number), TLSF_WORN);
    wants("nothing is written", number, 7);
}

int main(int argc, char **argv) {
    state = 88172645463325252u;
    if (argc > 1) calls = strtol(argv[1], NULL, 10);
    by_threads();
    of_heaps();
    if (argc > 2 && strcmp(argv[2], "end") == 0) to_the_end();
    return 0;
}
