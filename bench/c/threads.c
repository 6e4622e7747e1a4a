/* Times programs of several threads that allocate, and free one another's blocks. bench/peers builds and runs it.
 *
 * THREADS COLUMN PROGRAM COUNT prints thousands a second, with the columns of column.h but near ones. COUNT is 2 or 4. In level4 and level5
 * each thread has a heap of its own, and frees blocks of the others' by name through a lane of 1,024 for each pair. It drains its lanes at
 * each sixteenth allocate, and wherever it waits. In authors each thread has a heap, and each heap a mutex. In system the allocator has all
 * threads. PROGRAM is one of these, whose blocks have 32 to 512 bytes:
 *   larson   each thread has 1,000 blocks, and puts another in the place of one 20,000 times; then it hands all on to the next thread, and so
 *            on ten times: pairs of a free and an allocate
 *   xmalloc  half of the threads allocate 256,000 blocks each, and hand them by 64 to one of the other half, which frees them: pairs
 *   mstress  each thread allocates or frees one of its own 1,000 places, or once in eight times swaps one with 1,024 places of all: calls */
#define _GNU_SOURCE
#include "column.h"

#include <pthread.h>
#include <stdatomic.h>

enum { MOST_THREADS = 4, CAPACITY = 1024, DRAINED = 32, PLACES = 1000, SHARED = 1024, WORDS = 1 << 20, LINES = 128 };
enum { HANDS = 10, REPLACED = 20000, BATCH = 64, BATCHES = 4000, PIPE = 16, STEPS = 200000 };
static int count; /* of threads */
static struct calls calls;

/* A block says in its first bytes whose it is: by its name, or by the number of its thread. */
static struct owner {
    _Alignas(LINES) void *heap;
    pthread_mutex_t lock;
    unsigned allocates;
    double done;
} owners[MOST_THREADS];
static struct lane {
    _Alignas(LINES) struct tlsf_post_end post;
    _Alignas(LINES) struct tlsf_take_end take;
} lanes[MOST_THREADS][MOST_THREADS]; /* from, to */

/* --- The ways to allocate and to free, and what a thread does while it waits --- */

struct way {
    void *(*allocate)(int me, size_t bytes);
    void (*release)(int me, void *at);
    void (*wait)(int me);
};
static struct way way;

static void drain_all(int me) {
    uint32_t came;
    for (int from = 0; from < count; from++)
        if (from != me) (void)tlsf_drain(owners[me].heap, &lanes[from][me].take, DRAINED, &came);
}

static void *allocate_own(int me, size_t bytes) {
    struct tlsf_name name;
    void *at;
    if (++owners[me].allocates % 16 == 0) drain_all(me);
    while (tlsf_allocate_at(owners[me].heap, bytes, 16, TLSF_UNFILLED, &name, &at)) drain_all(me);
    memcpy(at, &name, sizeof name);
    return at;
}

static void release_by_lane(int me, void *at) {
    struct tlsf_name name;
    memcpy(&name, at, sizeof name);
    if ((int)name.heap == me) (void)tlsf_release(owners[me].heap, name);
    else
        while (tlsf_put(&lanes[me][name.heap].post, name)) drain_all(me);
}

static void *allocate_locked(int me, size_t bytes) {
    struct block block;
    pthread_mutex_lock(&owners[me].lock);
    const bool is_given = calls.allocate(owners[me].heap, &block, bytes);
    pthread_mutex_unlock(&owners[me].lock);
    ends_if(!is_given, "a block");
    memcpy(block.at, &me, sizeof me);
    return block.at;
}

static void release_locked(int me, void *at) {
    struct block block = {.at = at};
    int owner;
    (void)me;
    memcpy(&owner, at, sizeof owner);
    pthread_mutex_lock(&owners[owner].lock);
    calls.release(owners[owner].heap, &block);
    pthread_mutex_unlock(&owners[owner].lock);
}

static void *allocate_free(int me, size_t bytes) {
    struct block block;
    ends_if(!calls.allocate(owners[me].heap, &block, bytes), "a block");
    memcpy(block.at, &me, sizeof me);
    return block.at;
}

static void release_free(int me, void *at) {
    struct block block = {.at = at};
    calls.release(owners[me].heap, &block);
}

static void wait_idly(int me) {
    (void)me;
    __builtin_ia32_pause();
}

static void open_all(const char *column) {
    static const struct way by_lanes = {allocate_own, release_by_lane, drain_all};
    static const struct way locked = {allocate_locked, release_locked, wait_idly};
    static const struct way freely = {allocate_free, release_free, wait_idly};
    const size_t bytes = bytes_for(column, WORDS);
    way = *column == 'l' ? by_lanes : *column == 'a' ? locked : freely;
    calls = calls_of(column, false);
    for (int me = 0; me < count; me++) {
        ends_if(!(owners[me].heap = calls.open(column, bytes, own_memory(bytes))), "the heap");
        ends_if(pthread_mutex_init(&owners[me].lock, NULL), "a mutex");
        for (int to = 0; to < count; to++)
            ends_if(to != me && tlsf_lane_open(&lanes[me][to].post, &lanes[me][to].take, CAPACITY), "a lane");
    }
}

/* --- The programs --- */

static _Alignas(LINES) atomic_int there, ended;
static _Alignas(LINES) atomic_uint phase;
static void *places[MOST_THREADS][PLACES];
static _Alignas(LINES) _Atomic(void *) shared[SHARED];
static struct pipe {
    _Alignas(LINES) atomic_size_t tail;
    _Alignas(LINES) atomic_size_t head;
    void *batches[PIPE][BATCH];
} pipes[MOST_THREADS / 2];

/* Waits until all threads are here. */
static void meet(int me) {
    const unsigned now = atomic_load(&phase);
    if (atomic_fetch_add(&there, 1) == count - 1) {
        atomic_store(&there, 0);
        atomic_fetch_add(&phase, 1);
    }
    while (atomic_load(&phase) == now) way.wait(me);
}

static uint64_t next(uint64_t *state) {
    uint64_t z = (*state += 0x9e3779b97f4a7c15u);
    z = (z ^ (z >> 30)) * 0xbf58476d1ce4e5b9u;
    z = (z ^ (z >> 27)) * 0x94d049bb133111ebu;
    return z ^ (z >> 31);
}

static void *some_block(int me, uint64_t random) { return way.allocate(me, 32 + (random & UINT32_MAX) % 481); }

static void larson(int me, uint64_t *state) {
    for (int turn = 0; turn < HANDS; turn++) {
        void **const own = places[(me + turn) % count];
        for (int i = 0; i < REPLACED; i++) {
            const uint64_t random = next(state);
            void **const at = &own[(random >> 32) % PLACES];
            way.release(me, *at);
            *at = some_block(me, random);
        }
        owners[me].done += REPLACED;
        meet(me);
    }
}

static void xmalloc(int me, uint64_t *state) {
    struct pipe *const pipe = &pipes[me % (count / 2)];
    for (size_t k = 0; k < BATCHES && me < count / 2; k++) {
        while (k - atomic_load_explicit(&pipe->head, memory_order_acquire) == PIPE) way.wait(me);
        for (int i = 0; i < BATCH; i++) pipe->batches[k % PIPE][i] = some_block(me, next(state));
        atomic_store_explicit(&pipe->tail, k + 1, memory_order_release);
        owners[me].done += BATCH;
    }
    for (size_t k = 0; k < BATCHES && me >= count / 2; k++) {
        while (atomic_load_explicit(&pipe->tail, memory_order_acquire) == k) way.wait(me);
        for (int i = 0; i < BATCH; i++) way.release(me, pipe->batches[k % PIPE][i]);
        atomic_store_explicit(&pipe->head, k + 1, memory_order_release);
    }
}

static void mstress(int me, uint64_t *state) {
    void **const own = places[me];
    for (int i = 0; i < STEPS; i++) {
        const uint64_t random = next(state);
        void **const at = &own[(random >> 32) % PLACES];
        if (random % 8 == 0) {
            *at = atomic_exchange(&shared[(random >> 8) % SHARED], *at);
            continue;
        }
        if (*at) way.release(me, *at);
        *at = *at ? NULL : some_block(me, random >> 3);
        owners[me].done++;
    }
}

static const char *program;
static double began;

static void *run(void *own) {
    const int me = (int)((struct owner *)own - owners);
    uint64_t state = 77 + (uint64_t)me;
    for (int i = 0; i < PLACES && *program == 'l'; i++) places[me][i] = some_block(me, next(&state));
    meet(me);
    if (!me) began = nanoseconds();
    meet(me);
    if (*program == 'l') larson(me, &state);
    else if (*program == 'x') xmalloc(me, &state);
    else mstress(me, &state);
    atomic_fetch_add(&ended, 1);
    while (atomic_load(&ended) < count) way.wait(me); /* nobody waits for a slot of a lane that is drained no more */
    return NULL;
}

int main(int argc, char **argv) {
    if (argc != 4 || !strchr("lxm", *argv[2])) return 2;
    program = argv[2];
    count = atoi(argv[3]);
    if (count != 2 && count != MOST_THREADS) return 2;
    open_all(argv[1]);
    pthread_t threads[MOST_THREADS];
    for (int me = 1; me < count; me++) ends_if(pthread_create(&threads[me], NULL, run, &owners[me]), "a thread");
    run(&owners[0]);
    const double took = nanoseconds() - began;
    double done = 0;
    for (int me = 0; me < count; me++) {
        if (me) pthread_join(threads[me], NULL);
        done += owners[me].done;
    }
    printf("%.0f\n", done * 1e6 / took);
    return 0;
}
