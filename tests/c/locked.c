/* A heap behind a lock: refusals, call by call; then by chance, beside a heap with no lock that is asked for the same; then threads
 * that take, resize and give back each other's blocks; and priority inheritance, where this process may have real-time threads. Its
 * handle is closed to all who haven't the lock, so a call outside of it is refused, and noticed. wrong.edits has wrong ones.
 * LOCKED [CALLS] [SEED] [LEVEL] */
#define _GNU_SOURCE
#include "chance.h"
#include "peachanchor.h"

#include <errno.h>
#include <pthread.h>
#include <sched.h>
#include <stdatomic.h>
#include <string.h>
#include <time.h>

/* --- What the lock does, seen from outside -------------------------------------------------------------------------------- */

static struct tlsf_heap *handle; /* of the heap behind the lock */
static struct tlsf_heap kept;    /* what it is while nobody has the lock */
static const struct tlsf_heap nothing = TLSF_CLOSED;
static _Thread_local long locks;        /* how often this thread took it */
static _Thread_local bool has_lock;     /* whether it has it now */
static long mutexes, protocols;         /* that there are; how often one was asked for */
static bool refuses_kind, refuses_make; /* what the system refuses */

static int told_lock(pthread_mutex_t *mutex) {
    wants("no lock of its own", has_lock, false);
    wants("a mutex", mutexes != 0, true);
    const int answer = pthread_mutex_lock(mutex);
    has_lock = true;
    locks++;
    *handle = kept;
    return answer;
}

static int told_unlock(pthread_mutex_t *mutex) {
    wants("a lock of its own", has_lock, true);
    kept = *handle;
    *handle = nothing;
    has_lock = false;
    return pthread_mutex_unlock(mutex);
}

static int told_init(pthread_mutex_t *mutex, const pthread_mutexattr_t *kind) {
    if (refuses_make) return ENOMEM;
    kept = *handle;
    *handle = nothing;
    mutexes++;
    return pthread_mutex_init(mutex, kind);
}

static int told_destroy(pthread_mutex_t *mutex) {
    mutexes--;
    return pthread_mutex_destroy(mutex);
}

static int told_protocol(pthread_mutexattr_t *kind, int protocol) {
    protocols++;
    wants("inheritance", (size_t)protocol, PTHREAD_PRIO_INHERIT);
    return refuses_kind ? ENOTSUP : pthread_mutexattr_setprotocol(kind, protocol);
}

#define pthread_mutex_lock told_lock
#define pthread_mutex_unlock told_unlock
#define pthread_mutex_init told_init
#define pthread_mutex_destroy told_destroy
#define pthread_mutexattr_setprotocol told_protocol
#include "tlsf_locked.h"
#undef pthread_mutex_lock
#undef pthread_mutex_unlock
#undef pthread_mutex_init
#undef pthread_mutex_destroy
#undef pthread_mutexattr_setprotocol

enum { MOST = 120, LONGEST = 900, BYTES = 24000, THREADS = 4, SHARED = 64 };

static struct tlsf_locked locked = TLSF_LOCKED_CLOSED;
static struct tlsf_heap plain = TLSF_CLOSED;
static _Alignas(4096) unsigned char memory[BYTES];
static _Alignas(4096) unsigned char other_memory[BYTES];
static struct tlsf_near_heap other = TLSF_NEAR_CLOSED;
static uint32_t level = 4;
static long counts[4];
static bool has_inheritance;

/* Whether the system has priority inheritance at all. */
static bool can_inherit(void) {
    pthread_mutexattr_t kind;
    pthread_mutex_t mutex;
    if (pthread_mutexattr_init(&kind) || pthread_mutexattr_setprotocol(&kind, PTHREAD_PRIO_INHERIT)) return false;
    return pthread_mutex_init(&mutex, &kind) == 0 && pthread_mutex_destroy(&mutex) == 0;
}

static struct tlsf_locked_usage usage_of(void) {
    struct tlsf_locked_usage usage;
    wants("counts", tlsf_locked_counts(&locked, &usage), TLSF_OK);
    return usage;
}

/* --- Refusals --------------------------------------------------------------------------------------------------------- */

static void closed_ones(void) {
    struct tlsf_name name = {1, 2, 3};
    struct tlsf_locked_usage usage;
    uint32_t next = 0, damaged = 0;
    void *const no_block = memory;
    locks = 0;
    wants("close", tlsf_locked_close(&locked), TLSF_IS_CLOSED);
    wants("malloc", tlsf_locked_malloc(&locked, 8) == NULL && tlsf_locked_calloc(&locked, 1, 8) == NULL, true);
    wants("realloc", tlsf_locked_realloc(&locked, NULL, 8) == NULL && tlsf_locked_realloc(&locked, no_block, 8) == NULL, true);
    wants("to nothing", tlsf_locked_realloc(&locked, no_block, 0) == NULL && tlsf_locked_aligned_alloc(&locked, 64, 8) == NULL, true);
    wants("free", tlsf_locked_free(&locked, no_block), TLSF_IS_CLOSED);
    wants("free nothing", tlsf_locked_free(&locked, NULL), TLSF_OK);
    wants("usable size", tlsf_locked_usable_size(&locked, no_block), 0);
    wants("allocate", tlsf_locked_allocate(&locked, 8, &name), TLSF_IS_CLOSED);
    wants("release", tlsf_locked_release(&locked, name), TLSF_IS_CLOSED);
    wants("payload", tlsf_locked_payload(&locked, name, NULL) == NULL, true);
    wants("counts", tlsf_locked_counts(&locked, &usage), TLSF_IS_CLOSED);
    wants("check", tlsf_locked_check(&locked, 0, 9, &next, &damaged), TLSF_IS_CLOSED);
    wants("locks", (size_t)locks, 0);
    wants("mutexes", (size_t)mutexes, 0);
}

static void opened_wrongly(bool inherits) {
    wants("a level", tlsf_locked_open(&locked, 6, 1, 4096, inherits), TLSF_BAD_LEVEL);
    wants("too few words", tlsf_locked_open(&locked, level, 1, 3, inherits), TLSF_BAD_SIZE);
    wants("a level", tlsf_locked_open_in(&locked, 3, 1, memory, BYTES, inherits), TLSF_BAD_LEVEL);
    wants("no memory", tlsf_locked_open_in(&locked, level, 1, NULL, BYTES, inherits), TLSF_BAD_MEMORY);
    wants("too few bytes", tlsf_locked_open_in(&locked, level, 1, memory, 40, inherits), TLSF_BAD_SIZE);
    for (int way = 0; way < 2; way++) {
        refuses_make = way == 0, refuses_kind = way == 1;
        if (way == 1 && !inherits) continue;
        wants("no mutex", tlsf_locked_open(&locked, level, 1, 4096, inherits), TLSF_NO_MEMORY);
        wants("no mutex", tlsf_locked_open_in(&locked, level, 1, memory, BYTES, inherits), TLSF_NO_MEMORY);
        closed_ones();
    }
    refuses_make = refuses_kind = false;
}

/* Opens it; the heap lies where it says, and is refused a second time. */
static void open_with(bool own_memory, bool wanted) {
    const bool inherits = wanted && has_inheritance;
    protocols = 0;
    wants("open",
          own_memory ? tlsf_locked_open_in(&locked, level, 7, memory, BYTES, inherits)
                     : tlsf_locked_open(&locked, level, 7, 2900, inherits),
          TLSF_OK);
    wants("protocols", (size_t)protocols, inherits);
    wants("again", tlsf_locked_open(&locked, level, 8, 2900, false), TLSF_IN_USE);
    wants("again", tlsf_locked_open_in(&locked, level, 8, memory, BYTES, false), TLSF_IN_USE);
    wants("mutexes", (size_t)mutexes, 1);
    const struct tlsf_locked_usage usage = usage_of();
    wants("nothing was counted", (size_t)(usage.grants + usage.returns + usage.counts.words), 0);
}

static void close_it(void) {
    wants("close", tlsf_locked_close(&locked), TLSF_OK);
    closed_ones();
}

static void refusals(void) {
    struct tlsf_name name;
    closed_ones();
    opened_wrongly(false);
    opened_wrongly(true);
    for (int way = 0; way < 4; way++) {
        open_with(way & 1, way & 2);
        unsigned char *const p = tlsf_locked_malloc(&locked, 10);
        wants("in its memory", p >= memory && p < memory + BYTES, way & 1);
        wants("allocate", tlsf_locked_allocate(&locked, 24, &name), TLSF_OK);
        wants("its number", name.heap, 7);
        close_it();
    }
}

/* --- By chance, beside a heap with no lock -------------------------------------------------------------------------------- */

struct block {
    unsigned char *p, *twin; /* the same block of the heap with no lock; null: the slot is free */
    struct tlsf_name name;   /* of a block by name */
    bool is_named;
    size_t len;
    unsigned char fill;
};

static struct block blocks[MOST];
static uint64_t granted, returned;

/* Each call took the lock that often, and gave it back. */
static void wants_locks(const char *what, long n) {
    wants(what, (size_t)locks, (size_t)n);
    wants("the lock is free", has_lock, false);
    locks = 0;
}

static void wants_twin(const void *p, const void *twin) {
    wants("refused by both", p == NULL, twin == NULL);
    if (p != NULL)
        wants("the same place", (size_t)((const unsigned char *)p - memory), (size_t)((const unsigned char *)twin - other_memory));
}

static void *asked(uint32_t way, size_t len, size_t align, void **twin) {
    switch (way) {
    case 0: return *twin = tlsf_aligned_alloc(&plain, align, len), tlsf_locked_aligned_alloc(&locked, align, len);
    case 1: return *twin = tlsf_calloc(&plain, len, 1), tlsf_locked_calloc(&locked, len, 1);
    case 2: return *twin = tlsf_realloc(&plain, NULL, len), tlsf_locked_realloc(&locked, NULL, len);
    case 3: return *twin = tlsf_aligned_realloc(&plain, NULL, align, len), tlsf_locked_aligned_realloc(&locked, NULL, align, len);
    default: return *twin = tlsf_malloc(&plain, len), tlsf_locked_malloc(&locked, len);
    }
}

static void give(struct block *b) {
    const uint32_t way = below(8);
    const size_t len = below(40) ? below(LONGEST) : (size_t)1 << (27 + below(10)), align = (size_t)1 << below(14);
    void *twin = NULL;
    locks = 0;
    b->is_named = way >= 6;
    if (b->is_named) {
        struct tlsf_name name = {0, 0, 0};
        const uint32_t answer = tlsf_allocate(&plain, len < UINT32_MAX ? (uint32_t)len : UINT32_MAX, &name);
        wants("allocate", tlsf_locked_allocate(&locked, len, &b->name), answer);
        wants_locks("an allocate", 1);
        twin = answer == TLSF_OK ? tlsf_payload(&plain, name, NULL) : NULL;
        b->p = answer == TLSF_OK ? tlsf_locked_payload(&locked, b->name, NULL) : NULL;
        if (b->p) wants("its name", b->name.heap == name.heap && b->name.at == name.at && b->name.serial == name.serial, true);
    } else {
        b->p = asked(way, len, align, &twin);
    }
    if (!b->is_named || b->p) wants_locks("a request", 1);
    wants_twin(b->p, twin);
    counts[b->p == NULL]++;
    if (b->p == NULL) return;
    granted++;
    for (size_t k = 0; k < len && (b->is_named || way == 1); k++) wants("a zero", b->p[k], 0);
    b->twin = twin, b->len = len, b->fill = (unsigned char)below(256);
    memset(b->p, b->fill, len);
}

static void leave(struct block *b) {
    const bool by_name = b->is_named && below(2);
    const bool by_realloc = !by_name && below(4) == 0, is_aligned = below(2);
    locks = 0;
    if (by_name) wants("release", tlsf_locked_release(&locked, b->name), TLSF_OK);
    else if (by_realloc && is_aligned) wants("to nothing", tlsf_locked_aligned_realloc(&locked, b->p, 64, 0) == NULL, true);
    else if (by_realloc) wants("to nothing", tlsf_locked_realloc(&locked, b->p, 0) == NULL, true);
    else wants("free", tlsf_locked_free(&locked, b->p), TLSF_OK);
    wants_locks("a return", 1);
    wants("free", tlsf_free(&plain, b->twin), TLSF_OK);
    returned++;
    wants("a second free", tlsf_locked_free(&locked, b->p), TLSF_STALE);
    if (b->is_named) wants("a second release", tlsf_locked_release(&locked, b->name), TLSF_STALE);
    wants_locks("refused ones", b->is_named ? 2 : 1);
    b->p = NULL;
}

static void resize(struct block *b) {
    const size_t len = 1 + below(LONGEST), had = b->len;
    const size_t align = below(3) ? 0 : (size_t)1 << below(14);
    wants("of no alignment", !tlsf_locked_aligned_realloc(&locked, b->p, 0, 0) && !tlsf_locked_aligned_realloc(&locked, b->p, 24, 0), true);
    locks = 0;
    unsigned char *const p = align ? tlsf_locked_aligned_realloc(&locked, b->p, align, len) : tlsf_locked_realloc(&locked, b->p, len);
    unsigned char *const twin = align ? tlsf_aligned_realloc(&plain, b->twin, align, len) : tlsf_realloc(&plain, b->twin, len);
    wants_locks("a resize", 1);
    wants_twin(p, twin);
    counts[2] += p != NULL && p != b->p;
    if (p == NULL) return;
    for (size_t k = 0; k < had && k < len; k++) wants("a byte", p[k], b->fill);
    b->is_named = b->is_named && p == b->p;
    b->p = p, b->twin = twin, b->len = len;
    memset(p, b->fill, len);
}

/* Looks, which change nothing. */
static void compare(const struct block *b) {
    struct tlsf_heap_counts wanted;
    uint32_t next = 0, damaged = 0, len = 0;
    locks = 0;
    const struct tlsf_locked_usage usage = usage_of();
    wants("counts", tlsf_counts(&plain, &wanted), TLSF_OK);
    wants("the heap's counts", memcmp(&usage.counts, &wanted, sizeof wanted) != 0, 0);
    wants("grants", (size_t)usage.grants, (size_t)granted);
    wants("returns", (size_t)usage.returns, (size_t)returned);
    wants("free nothing", tlsf_locked_free(&locked, NULL), TLSF_OK);
    wants("check", tlsf_locked_check(&locked, 0, UINT32_MAX, &next, &damaged), TLSF_OK);
    wants_locks("two looks", 2);
    if (!b->p) return;
    wants("usable size", tlsf_locked_usable_size(&locked, b->p), tlsf_usable_size(&plain, b->twin));
    wants("a wild pointer", tlsf_locked_free(&locked, b->p + 8), TLSF_STALE);
    wants("of another heap", tlsf_locked_realloc(&locked, b->twin, 8) == NULL, true);
    wants_locks("three looks", 3);
    if (!b->is_named) return;
    wants("payload", tlsf_locked_payload(&locked, b->name, &len) == b->p, true);
    wants("its bytes", len, tlsf_usable_size(&plain, b->twin));
}

static void by_chance(long calls) {
    open_with(true, false);
    wants("the heap beside it", tlsf_open_near_in(&other, level, 7, other_memory, BYTES), TLSF_OK);
    plain = *tlsf_near(&other);
    granted = returned = 0;
    for (turn = 0; turn < calls; turn++) {
        struct block *const b = &blocks[below(MOST)];
        if (!b->p) give(b);
        else if (below(4) == 0) resize(b);
        else leave(b);
        if (turn % 16 == 0) compare(b);
    }
    for (int k = 0; k < MOST; k++)
        if (blocks[k].p) leave(&blocks[k]);
    wants("nothing is live", usage_of().counts.words, 0);
    close_it();
    *tlsf_near(&other) = plain;
    wants("close", tlsf_close(tlsf_near(&other)), TLSF_OK);
}

/* A header that was written over is told; with marks the write is. */
static void damage(void) {
#ifndef TLSF_ASAN
    uint32_t next = 0, damaged = UINT32_MAX;
    open_with(false, true);
    unsigned char *const p = tlsf_locked_malloc(&locked, 40);
    wants("a block behind it", tlsf_locked_malloc(&locked, 40) != NULL, true);
    memset(p + 40, 0xa5, 24);
    wants("damage", tlsf_locked_check(&locked, 0, UINT32_MAX, &next, &damaged), TLSF_DAMAGED);
    wants("the place of one of the two", damaged == 0 || damaged == 8, true);
    close_it();
#endif
}

/* --- Threads --------------------------------------------------------------------------------------------------------- */

static _Atomic(unsigned char *) shared[SHARED];
static long turns;

static uint32_t below_of(uint64_t *own, uint32_t n) {
    *own = *own * 6364136223846793005u + 1442695040888963407u;
    return (uint32_t)(*own >> 33) % n;
}

/* The first two bytes say how long it is, and all others are filled by that. */
static unsigned char *fill(unsigned char *p, size_t len) {
    if (p == NULL) return NULL;
    memset(p, (int)(len * 7 % 251), len);
    p[0] = (unsigned char)len, p[1] = (unsigned char)(len >> 8);
    return p;
}

static void look(const unsigned char *p, size_t most) {
    const size_t len = p[0] + 256u * p[1];
    for (size_t k = 2; k < len && k < most; k++) wants("a byte of a thread's", p[k], len * 7 % 251);
}

static unsigned char *take_one(uint64_t *own, size_t len) {
    struct tlsf_name name;
    switch (below_of(own, 4)) {
    case 0: return tlsf_locked_calloc(&locked, 1, len);
    case 1: return tlsf_locked_aligned_alloc(&locked, 64, len);
    case 2: return tlsf_locked_allocate(&locked, len, &name) == TLSF_OK ? tlsf_locked_payload(&locked, name, NULL) : NULL;
    default: return tlsf_locked_malloc(&locked, len);
    }
}

static void *work(void *number) {
    uint64_t own = 99 + (uint64_t)(uintptr_t)number;
    for (long k = 0; k < turns; k++) {
        const size_t len = 2 + below_of(&own, 600);
        _Atomic(unsigned char *) *const slot = &shared[below_of(&own, SHARED)];
        unsigned char *p = atomic_exchange(slot, NULL);
        if (p == NULL) {
            p = fill(take_one(&own, len), len);
        } else if (below_of(&own, 3) == 0) {
            look(p, SIZE_MAX);
            unsigned char *const changed = tlsf_locked_realloc(&locked, p, len);
            if (changed != NULL) look(changed, len), p = fill(changed, len);
        } else {
            look(p, SIZE_MAX);
            wants("usable", tlsf_locked_usable_size(&locked, p) != 0, true);
            wants("free", tlsf_locked_free(&locked, p), TLSF_OK);
            p = NULL;
        }
        if (p != NULL) p = atomic_exchange(slot, p);
        wants("a free that is another's", p == NULL ? 0 : tlsf_locked_free(&locked, p), TLSF_OK);
    }
    return NULL;
}

static void threads(long each) {
    pthread_t thread[THREADS];
    turns = each;
    open_with(false, true);
    for (size_t k = 0; k < THREADS; k++) wants("thread", (size_t)pthread_create(&thread[k], NULL, work, (void *)(uintptr_t)k), 0);
    for (size_t k = 0; k < THREADS; k++) wants("join", (size_t)pthread_join(thread[k], NULL), 0);
    size_t live = 0;
    for (size_t k = 0; k < SHARED; k++) live += shared[k] != NULL;
    const struct tlsf_locked_usage usage = usage_of();
    wants("grants less returns", (size_t)(usage.grants - usage.returns), live);
    counts[3] = (long)usage.grants;
    for (size_t k = 0; k < SHARED; k++) wants("free", tlsf_locked_free(&locked, atomic_exchange(&shared[k], NULL)), TLSF_OK);
    wants("nothing is live", usage_of().counts.words, 0);
    close_it();
}

/* --- Priority inheritance ------------------------------------------------------------------------------------------------ */

/* How urgent the system holds this thread to be: the less the more, and below 0 where it is real-time. INT32_MAX: it doesn't tell. */
static long priority(void) {
    long value = INT32_MAX;
    FILE *const from = fopen("/proc/thread-self/stat", "r");
    if (!from) return value;
    if (fscanf(from, "%*d (%*[^)]) %*c %*s %*s %*s %*s %*s %*s %*s %*s %*s %*s %*s %*s %*s %*s %ld", &value) != 1) value = INT32_MAX;
    fclose(from);
    return value;
}

static void *wait_for_it(void *unused) {
    (void)unused;
    wants("free", tlsf_locked_free(&locked, tlsf_locked_malloc(&locked, 8)), TLSF_OK);
    return NULL;
}

/* Whether this thread becomes urgent while an urgent one waits for the lock that it has; where the system starts no such one, neither. */
static int is_urgent(bool inherits) {
    const struct sched_param most = {.sched_priority = 20};
    const struct timespec moment = {0, 1000000};
    pthread_attr_t attributes;
    pthread_t thread;
    int urgent = -1;
    open_with(false, inherits);
    pthread_attr_init(&attributes);
    pthread_attr_setinheritsched(&attributes, PTHREAD_EXPLICIT_SCHED);
    pthread_attr_setschedpolicy(&attributes, SCHED_FIFO);
    pthread_attr_setschedparam(&attributes, &most);
    wants("the lock", tlsf_locked_enter(&locked) != NULL, true);
    if (priority() != INT32_MAX && pthread_create(&thread, &attributes, wait_for_it, NULL) == 0) {
        for (int k = 0; k < (inherits ? 5000 : 100) && urgent != 1; k++) {
            nanosleep(&moment, NULL);
            urgent = priority() < 0;
        }
        tlsf_locked_leave(&locked);
        wants("and not afterwards", priority() < 0, false);
        pthread_join(thread, NULL);
    } else {
        tlsf_locked_leave(&locked);
    }
    pthread_attr_destroy(&attributes);
    close_it();
    return urgent;
}

static void inheritance(void) {
    const int without = is_urgent(false);
    if (without < 0 || !has_inheritance) {
        fprintf(stderr, "locked: no real-time threads or no such mutex here, so priority inheritance isn't tried\n");
        return;
    }
    wants("urgent without inheritance", (size_t)without, false);
    wants("urgent with it", (size_t)is_urgent(true), true);
}

int main(int argc, char **argv) {
    const long calls = argc > 1 ? strtol(argv[1], NULL, 10) : 20000;
    state = 88172645463325252u + 7919 * (argc > 2 ? strtoul(argv[2], NULL, 10) : 0);
    level = argc > 3 ? (uint32_t)strtoul(argv[3], NULL, 10) : 4;
    handle = tlsf_near(&locked.heap);
    has_inheritance = can_inherit();
    refusals();
    by_chance(calls);
    damage();
    threads(calls / 2);
    inheritance();
    printf("level %u: %ld given, %ld refused, %ld moved; %ld by threads\n", (unsigned)level, counts[0], counts[1], counts[2], counts[3]);
    return 0;
}
