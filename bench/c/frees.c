/* Times frees of another thread's blocks, and names through the lanes of the C library. bench/peers builds and runs it.
 *
 * FREES WAY COLUMN PATTERN [POSTERS [ORDER]] prints one or two figures. The owner has 80,000 blocks of 8 bytes for each poster, 1 to 3
 * threads, which free them: in the order of their places, or by chance where ORDER is random. WAY is
 *   lanes  their names go through a lane of 1,024 from each, and the owner drains them
 *   called the same, by the archive's own drain, as by a pointer to the call
 *   beside the same, with the heap's handle in the cache line that a poster reads for each name; else it has a line of its own
 *   queue  the same through one queue of 1,024 for all
 *   ring   the same through a ring in C, of acquire and release, from which the owner copies up to 64 names before he stores the head
 *   lock   a poster frees them itself, and each call of any thread is under a lock
 * COLUMN, of lock, is level4 (a heap of the library, under a mutex), system (what is loaded) or, with -DAUTHORS, authors (TLSF 2.4, its
 * lock); it is level4 for the others. A poster that finds no slot waits for some hundred nanoseconds. PATTERN is
 *   waits  the owner drains until all is back, or waits for the posters: thousands of frees a second; with one poster in the others
 *   works  the owner makes 16 pairs of 64 bytes, drains at most 64 names, and so on: thousands of frees a second; of its pairs meanwhile
 *   turns  the other thread frees 128 blocks in each 100 microseconds, and the owner drains 50 microseconds later: picoseconds that a free
 *          takes the other thread, and that a drained name takes the owner; medians
 *   full   the lane fills for 100 microseconds beside a poster that doesn't wait but tries again at once, and is drained: nanoseconds of
 *          such a drain of 1,024 names; the median
 *
 * FREES BETWEEN prints nanoseconds. BETWEEN is alone (one thread puts and takes by turns), stream (one thread puts, another takes), echo
 * (two threads send one name to and fro through two lanes: half of a round) or line (two threads write one cache line by turns, each once
 * it has seen what the other wrote: half of a round). */
#define _GNU_SOURCE
#include "peachanchor.h"

#include <pthread.h>
#include <stdatomic.h>
#include <stdio.h>
#include <stdlib.h>
#include <string.h>
#include <time.h>

#ifdef AUTHORS
size_t init_memory_pool(size_t bytes, void *pool);
void *authors_malloc(size_t bytes);
void authors_free(void *block);
#endif

enum { EACH = 80000, MOST_POSTERS = 3, CAPACITY = 1024, TURN = 128, MOST_TURNS = EACH / TURN + 1, PERIOD = 100000, SLICE = 64 };
enum { NAMES = 1 << 20 }; /* that go between two threads */

/* What each poster reads for each name, beside a handle as a caller may declare it. */
static struct {
    _Alignas(128) struct tlsf_heap handle;
    enum { LANES, QUEUE, RING, LOCK } way;
    enum { WAITS, WORKS, TURNS, FULL } pattern;
    enum { LEVEL_4, SYSTEM, AUTHORS_OWN } column;
} shown;
static struct { _Alignas(128) struct tlsf_heap handle; } apart;
static struct tlsf_heap *heap = &apart.handle;
static uint32_t (*drain_called)(struct tlsf_heap *, struct tlsf_take_end *, uint32_t, uint32_t *);
static pthread_mutex_t lock = PTHREAD_MUTEX_INITIALIZER;
static struct lane {
    _Alignas(128) struct tlsf_post_end post;
    _Alignas(128) struct tlsf_take_end take;
} lanes[MOST_POSTERS];
static _Alignas(128) struct tlsf_queue queue;
static union block {
    struct tlsf_name name;
    void *at;
} blocks[MOST_POSTERS][EACH];
static struct poster {
    _Alignas(128) struct tlsf_poster end;
    const union block *own;
    struct tlsf_post_end *lane;
    size_t read; /* from the blocks, into this processor's cache */
} posters[MOST_POSTERS];
static pthread_t threads[MOST_POSTERS];
static _Alignas(128) atomic_int ready, ended;
static int count;     /* of posters */
static double begins; /* the first turn */

static double nanoseconds(void) {
    struct timespec now;
    clock_gettime(CLOCK_MONOTONIC, &now);
    return (double)now.tv_sec * 1e9 + (double)now.tv_nsec;
}

static void wait_until(double due) {
    while (nanoseconds() < due) {}
}

/* --- A ring in C --- */

static _Alignas(128) struct tlsf_name names[CAPACITY];
static _Alignas(128) struct {
    atomic_size_t at;
    size_t other; /* where the other one stood when it was last asked */
} head, tail;

/* Puts as many as there are slots, with one store. */
static size_t ring_put(const union block *from, size_t n) {
    const size_t at = atomic_load_explicit(&tail.at, memory_order_relaxed);
    if (at - tail.other + n > CAPACITY) tail.other = atomic_load_explicit(&head.at, memory_order_acquire);
    if (n > CAPACITY - (at - tail.other)) n = CAPACITY - (at - tail.other);
    for (size_t k = 0; k < n; k++) names[(at + k) % CAPACITY] = from[k].name;
    if (n) atomic_store_explicit(&tail.at, at + n, memory_order_release);
    return n;
}

static size_t ring_drain(size_t most) {
    struct tlsf_name some[SLICE];
    size_t came = 0, n = SLICE;
    while (came < most && n == SLICE) {
        const size_t at = atomic_load_explicit(&head.at, memory_order_relaxed);
        if (head.other - at < SLICE) head.other = atomic_load_explicit(&tail.at, memory_order_acquire);
        n = head.other - at < SLICE ? head.other - at : SLICE;
        if (n > most - came) n = most - came;
        for (size_t k = 0; k < n; k++) some[k] = names[(at + k) % CAPACITY];
        if (n) atomic_store_explicit(&head.at, at + n, memory_order_release);
        for (size_t k = 0; k < n; k++) (void)tlsf_release(heap, some[k]);
        came += n;
    }
    return came;
}

/* --- Calls of any thread --- */

static void *give(size_t bytes, struct tlsf_name *name) {
#ifdef AUTHORS
    if (shown.column == AUTHORS_OWN) return authors_malloc(bytes);
#endif
    if (shown.column == SYSTEM) return malloc(bytes);
    if (shown.way == LOCK) pthread_mutex_lock(&lock);
    const uint32_t answer = tlsf_allocate(heap, (uint32_t)bytes, name);
    if (shown.way == LOCK) pthread_mutex_unlock(&lock);
    return answer == TLSF_OK ? name : NULL;
}

static void take_back(void *at, const struct tlsf_name *name) {
#ifdef AUTHORS
    if (shown.column == AUTHORS_OWN) {
        authors_free(at);
        return;
    }
#endif
    if (shown.column == SYSTEM) {
        free(at);
        return;
    }
    if (shown.way == LOCK) pthread_mutex_lock(&lock);
    (void)tlsf_release(heap, *name);
    if (shown.way == LOCK) pthread_mutex_unlock(&lock);
}

/* Frees blocks from another thread, and says how many: fewer than `n` where there is no slot. */
static size_t put(struct poster *by, const union block *from, size_t n) {
    struct tlsf_name some[TURN];
    size_t went = 0;
    if (shown.way == LOCK) {
        for (; went < n; went++) take_back(from[went].at, &from[went].name);
    } else if (shown.way == RING) {
        went = ring_put(from, n);
    } else if (shown.way == QUEUE) {
        while (went < n && tlsf_queue_post(&by->end, from[went].name) == TLSF_OK) went++;
    } else if (n == 1) {
        went = tlsf_put(by->lane, from->name) == TLSF_OK;
    } else {
        for (size_t k = 0; k < n; k++) some[k] = from[k].name;
        if (tlsf_put_all(by->lane, some, n, &went) != TLSF_OK) exit(1);
    }
    return went;
}

static size_t drain(size_t most) {
    uint32_t came = 0;
    size_t all = 0;
    if (shown.way == RING) return ring_drain(most);
    if (shown.way == QUEUE) (void)tlsf_queue_drain(heap, &queue, (uint32_t)most, &came);
    for (int k = 0; shown.way == LANES && k < count; k++, all += came)
        if (drain_called) (void)drain_called(heap, &lanes[k].take, (uint32_t)most, &came);
        else (void)tlsf_drain(heap, &lanes[k].take, (uint32_t)most, &came);
    return shown.way == QUEUE ? came : all;
}

/* --- Patterns of frees --- */

static float post_times[MOST_TURNS], drain_times[MOST_TURNS];
static size_t posts, drains;

static void *post_all(void *given) {
    struct poster *by = given;
    size_t done = 0;
    for (size_t k = 0; k < EACH; k++) by->read += by->own[k].name.heap;
    atomic_fetch_add(&ready, 1);
    while (atomic_load(&ready) <= MOST_POSTERS) {}
    for (; shown.pattern == TURNS && done < EACH; posts++) {
        wait_until(begins + PERIOD * (double)posts);
        const double from = nanoseconds();
        const size_t went = put(by, by->own + done, EACH - done < TURN ? EACH - done : TURN);
        post_times[posts] = went ? (float)((nanoseconds() - from) * 1000 / (double)went) : 0;
        done += went;
        if (!went) posts--;
    }
    while (done < EACH) {
        if (put(by, by->own + done, 1)) done++;
        else if (shown.pattern != FULL)
            for (int k = 0; k < 30; k++) __builtin_ia32_pause();
    }
    atomic_fetch_add(&ended, 1);
    return NULL;
}

static int is_over(size_t back) {
    return shown.way == LOCK ? atomic_load_explicit(&ended, memory_order_acquire) == count : back >= (size_t)count * EACH;
}

static void join_all(void) {
    for (int k = 0; k < count; k++) pthread_join(threads[k], NULL);
}

/* Drains what the others post until all is back, beside pairs of its own or not. With neither it sleeps. */
static void drain_on(void) {
    const double from = nanoseconds();
    const int sleeps = shown.way == LOCK && shown.pattern == WAITS;
    size_t back = 0, pairs = 0;
    if (sleeps) join_all();
    while (!sleeps && !is_over(back)) {
        for (int k = 0; shown.pattern == WORKS && k < 16; k++, pairs++) {
            struct tlsf_name name;
            void *at = give(64, &name);
            if (!at) exit(1);
            *(volatile char *)(shown.column == LEVEL_4 ? (char *)&name : at) = 0; /* so that the pair isn't left out */
            take_back(at, &name);
        }
        back += shown.way == LOCK ? 0 : drain(shown.pattern == WORKS ? SLICE : CAPACITY);
    }
    const double took = nanoseconds() - from;
    printf("%.0f %.0f\n", count * EACH * 1e6 / took, (double)pairs * 1e6 / took);
    if (!sleeps) join_all();
}

/* Drains once in each period, `lag` behind its begin. */
static void drain_by_turns(double lag, size_t least) {
    size_t back = 0;
    for (size_t turn = 0; !is_over(back); turn++) {
        wait_until(begins + PERIOD * (double)turn + lag);
        const double from = nanoseconds();
        const size_t came = shown.way == LOCK ? 0 : drain(CAPACITY);
        const double took = nanoseconds() - from;
        if (came >= least && shown.way != LOCK && drains < MOST_TURNS)
            drain_times[drains++] = (float)(shown.pattern == FULL ? took : took * 1000 / (double)came);
        back += came;
    }
    join_all();
}

static int rising(const void *a, const void *b) {
    return (*(const float *)a > *(const float *)b) - (*(const float *)a < *(const float *)b);
}

static double median(float *times, size_t n) {
    qsort(times, n, sizeof *times, rising);
    return n ? (double)times[n / 2] : 0;
}

static int opens(void) {
#ifdef AUTHORS
    static char pool[16 << 20];
    if (shown.column == AUTHORS_OWN && init_memory_pool(sizeof pool, pool) == (size_t)-1) return 0;
#endif
    if (tlsf_open(heap, 4, 0, 1 << 20) || tlsf_queue_open(&queue, (uint32_t)count, CAPACITY)) return 0;
    for (int k = 0; k < count; k++) {
        posters[k].own = blocks[k];
        posters[k].lane = &lanes[k].post;
        if (tlsf_lane_open(&lanes[k].post, &lanes[k].take, CAPACITY) || tlsf_poster_open(&queue, &posters[k].end)) return 0;
        for (size_t i = 0; i < EACH; i++) {
            struct tlsf_name name = {0, 0, 0};
            void *at = give(8, &name);
            if (!at) return 0;
            if (shown.column == LEVEL_4) blocks[k][i].name = name;
            else blocks[k][i].at = at;
        }
    }
    return 1;
}

static void shuffle(union block *all) {
    uint64_t state = 88172645463325252u;
    for (size_t k = EACH; k > 1; k--) {
        state ^= state << 13;
        state ^= state >> 7;
        state ^= state << 17;
        const size_t other = (size_t)(state >> 16) % k;
        const union block last = all[k - 1];
        all[k - 1] = all[other];
        all[other] = last;
    }
}

static int time_frees(char **words) {
    shown.way = *words[1] == 'r' ? RING : *words[1] == 'q' ? QUEUE : words[1][1] == 'o' ? LOCK : LANES;
    if (*words[1] == 'b') heap = &shown.handle;
    if (*words[1] == 'c') drain_called = tlsf_drain;
    shown.column = !strcmp(words[2], "level4") ? LEVEL_4 : !strcmp(words[2], "system") ? SYSTEM : AUTHORS_OWN;
    shown.pattern = words[3][1] == 'a' ? WAITS : *words[3] == 'w' ? WORKS : *words[3] == 't' ? TURNS : FULL;
    count = words[4] ? atoi(words[4]) : 1;
    if (count < 1 || count > MOST_POSTERS || (count > 1 && (shown.pattern != WAITS || shown.way == RING))) return 2;
    if ((shown.way != LOCK && shown.column != LEVEL_4) || (shown.way == LOCK && shown.pattern == FULL) ||
        (shown.way == QUEUE && shown.pattern == TURNS))
        return 2;
    if (!opens()) return 1;
    for (int k = 0; words[4] && words[5] && k < count; k++) shuffle(blocks[k]);
    for (int k = 0; k < count; k++)
        if (pthread_create(&threads[k], NULL, post_all, &posters[k])) return 1;
    while (atomic_load(&ready) < count) {}
    begins = nanoseconds() + PERIOD;
    atomic_store(&ready, MOST_POSTERS + 1);
    if (shown.pattern <= WORKS) drain_on();
    else drain_by_turns(shown.pattern == TURNS ? PERIOD / 2 : PERIOD, shown.pattern == TURNS ? 1 : CAPACITY);
    if (shown.pattern == TURNS) printf("%.0f %.0f\n", median(post_times, posts), median(drain_times, drains));
    if (shown.pattern == FULL) printf("%.0f\n", median(drain_times, drains));
    return 0;
}

/* --- Names between two threads --- */

static _Alignas(128) atomic_uint line;

static void put_one(struct lane *lane, const struct tlsf_name *name) {
    while (tlsf_put(&lane->post, *name)) {}
}

static void take_one(struct lane *lane, struct tlsf_name *name) {
    while (tlsf_take(&lane->take, name)) {}
}

/* What the first thread does, or the second. By itself the first does both. */
static void send(char between, unsigned second) {
    struct lane *const there = &lanes[0], *const back = between == 'e' ? &lanes[1] : there;
    struct tlsf_name name = {0, 4, 1};
    for (unsigned turn = 0; turn < NAMES; turn += between == 'e' || between == 'l' ? 2 : 1) {
        if (between == 'l') {
            while (atomic_load_explicit(&line, memory_order_acquire) != turn + second) {}
            atomic_store_explicit(&line, turn + second + 1, memory_order_release);
        } else if (second) {
            if (between == 'e') take_one(there, &name);
            put_one(back, &name);
        } else {
            if (between != 's') put_one(there, &name);
            take_one(back, &name);
        }
    }
}

static void *answer(void *given) {
    send(*(const char *)given, 1);
    return NULL;
}

static int time_names(char *between) {
    pthread_t thread;
    if (!strchr("asel", *between)) return 2;
    for (int k = 0; k < 2; k++)
        if (tlsf_lane_open(&lanes[k].post, &lanes[k].take, CAPACITY)) return 1;
    const double start = nanoseconds();
    if (*between != 'a' && pthread_create(&thread, NULL, answer, between)) return 1;
    send(*between, 0);
    if (*between != 'a') pthread_join(thread, NULL);
    printf("%.1f\n", (nanoseconds() - start) / NAMES);
    return 0;
}

int main(int argc, char **argv) { return argc == 2 ? time_names(argv[1]) : argc >= 4 && argc <= 6 ? time_frees(argv) : 2; }
