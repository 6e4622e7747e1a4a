/* The atomic steps of c/atomics64.c, over a lock as a board with two cores gives it: what each answers and leaves, by chance, beside C's
 * own operators; and threads whose steps get in between each other's. ATOMICS [TURNS] */
#define _GNU_SOURCE /* for pthread_barrier_t */
#include "chance.h"

#include <pthread.h>

static pthread_mutex_t lock = PTHREAD_MUTEX_INITIALIZER;
static int locked(void) { return pthread_mutex_lock(&lock); }
#define TLSF_ATOMIC_BEGIN const int had = locked()
#define TLSF_ATOMIC_END (void)had, pthread_mutex_unlock(&lock)
#define __atomic_load_8 own_load
#define __atomic_store_8 own_store
#define __atomic_exchange_8 own_exchange
#define __atomic_fetch_add_8 own_fetch_add
#define __atomic_fetch_sub_8 own_fetch_sub
#define __atomic_compare_exchange_8 own_compare_exchange
#include "../../c/atomics64.c"

enum { ORDER = 5, THREADS = 3 };

static uint64_t any(void) { return below(2) ? below(3) : (uint64_t)below(UINT32_MAX) << 32 | below(UINT32_MAX); }

static void one_step(uint64_t *at, uint64_t *model) {
    const uint64_t value = any(), before = *model;
    uint64_t expected = below(2) ? before : any();
    const uint64_t asked = expected;
    switch (below(6)) {
    case 0: wants("load", own_load(at, ORDER), before); break;
    case 1: own_store(at, *model = value, ORDER); break;
    case 2: wants("exchange", own_exchange(at, *model = value, ORDER), before); break;
    case 3: wants("add", own_fetch_add(at, value, ORDER), before), *model += value; break;
    case 4: wants("subtract", own_fetch_sub(at, value, ORDER), before), *model -= value; break;
    default:
        wants("compare", own_compare_exchange(at, &expected, value, 0, ORDER, ORDER), before == asked);
        wants("what was there", expected, before);
        if (before == asked) *model = value;
    }
    wants("the value", *at, *model);
}

static uint64_t shared[3], turns;
static pthread_barrier_t all_there;

static void *steps(void *unused) {
    pthread_barrier_wait(&all_there);
    for (uint64_t k = 0; k < turns; k++) {
        uint64_t had = own_load(&shared[1], ORDER);
        own_fetch_add(&shared[0], UINT64_C(0x100000001), ORDER);
        while (!own_compare_exchange(&shared[1], &had, had + UINT64_C(0x300000003), 0, ORDER, ORDER)) {}
        own_fetch_sub(&shared[2], UINT64_C(0x200000001), ORDER);
    }
    return unused;
}

int main(int argc, char **argv) {
    uint64_t at = 0, model = 0;
    pthread_t threads[THREADS];
    turns = argc > 1 ? strtoull(argv[1], NULL, 10) : 10000;
    state = 1;
    for (; turn < (long)turns; turn++) one_step(&at, &model);
    if (pthread_barrier_init(&all_there, NULL, THREADS) != 0) return 2;
    for (int k = 0; k < THREADS; k++)
        if (pthread_create(&threads[k], NULL, steps, NULL) != 0) return 2;
    for (int k = 0; k < THREADS; k++) pthread_join(threads[k], NULL);
    wants("what threads added", shared[0], THREADS * turns * UINT64_C(0x100000001));
    wants("what they put by comparing", shared[1], THREADS * turns * UINT64_C(0x300000003));
    wants("what they subtracted", 0 - shared[2], THREADS * turns * UINT64_C(0x200000001));
    printf("%llu steps of each kind\n", (unsigned long long)(THREADS * turns));
    return 0;
}
