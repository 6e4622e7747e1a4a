/* A heap behind a lock: any thread calls it, and waits while another thread is in a call. It is for hooks that have no context, as
 * OpenSSL's, and for threads that may wait for each other. It is for C11 and later, and for C++17 and later, by gcc or clang, on
 * systems with POSIX threads.
 *
 *     #include <tlsf_locked.h>
 *     static struct tlsf_locked locked;                                 // its bytes are zero, so it is closed
 *     static void *give(size_t len, const char *file, int line) { return tlsf_locked_malloc(&locked, len); }
 *     if (tlsf_locked_open(&locked, 5, 1, 1048576, true)) return 1;      // before other threads call it
 *     CRYPTO_set_mem_functions(give, change, end);
 *
 * Each call takes a POSIX mutex, makes one call of peachanchor.h on a near heap, and gives the mutex back. So it answers as that call does,
 * and what is proved of that call holds. All is inline, over calls of peachanchor.h alone. Opening takes memory from malloc, or none.
 *
 * It counts the allocates that it accepted, *grants*, and the releases that it accepted, *returns*. As many blocks are live as grants
 * less returns. A resize is neither, also where the block moves.
 *
 * WHAT IT COSTS
 *   Waiting. A call waits for the calls of other threads. Nothing says how long, or who is next: the system's scheduler decides. A
 *     call that fills, copies or checks holds the lock as long as that takes.
 *   Priority inheritance, where it is asked for. A thread in a call then runs at the priority of the most urgent thread that waits for
 *     it. So no thread of a priority between holds both up. Without it a real-time thread may wait for ever.
 *   Names. The payload of a name is found under the lock, by tlsf_locked_payload.
 *
 * Where a thread may not wait it has a heap of its own, and others post names to it: by a lane or a queue of peachanchor.h.
 *
 * WHAT THE CALLER OWES, besides the rules of peachanchor.h. Nothing checks these.
 *   1. One thread opens and closes it, while no other is in a call or begins one. An open one lies still, and no other process calls it.
 *   2. No signal handler makes a call: it would wait for the thread that it interrupts.
 *   3. No call of peachanchor.h goes to its heap but through the calls here. Drains and magazines are for heaps without a lock.
 * A payload is used by whoever holds the block, with no lock. Blocks are handed over as any pointer is.
 */
#ifndef TLSF_LOCKED_H
#define TLSF_LOCKED_H

/* Behind a tlsf.h of compat/ some names of peachanchor.h are macros, which lead elsewhere. */
#ifdef TLSF_COMPAT
#error "tlsf_locked.h comes before a tlsf.h of compat/"
#endif
#include "peachanchor.h"

#include <pthread.h>

#ifndef TLSF_GNU
#error "tlsf_locked.h is for gcc and clang"
#endif

/* In C++ too these calls cast as C does. */
#ifdef __cplusplus
#pragma GCC diagnostic push
#pragma GCC diagnostic ignored "-Wold-style-cast"
#endif

#ifdef __cplusplus
extern "C" {
#endif

/* A heap behind a lock. Its fields are its calls' own. */
struct tlsf_locked {
    bool is_open;
    uint64_t grants, returns;
    struct tlsf_near_heap heap;
    pthread_mutex_t mutex;
};

/* One that isn't open, to begin with alone. One whose bytes are all zero is closed too. */
/* clang-format off */
#ifdef __cplusplus
#define TLSF_LOCKED_CLOSED {}
#else
#define TLSF_LOCKED_CLOSED { 0 }
#endif
/* clang-format on */

/* What a heap behind a lock has counted: as tlsf_counts, and its grants and returns since it was opened. */
struct tlsf_locked_usage {
    struct tlsf_heap_counts counts;
    uint64_t grants;  /* allocates that were accepted */
    uint64_t returns; /* releases that were accepted; grants less these are the live blocks */
};

/* As tlsf_open, behind a lock: with priority inheritance where `inherits` is true.
 * Refused as tlsf_open, and last as TLSF_NO_MEMORY where the system gives no such mutex. With -std=c11 or another strict standard it
 * gives one with priority inheritance only where _POSIX_C_SOURCE is 200112L or later, before the first header. */
TLSF_ANSWER static inline uint32_t tlsf_locked_open(struct tlsf_locked *locked, uint32_t level, uint32_t number, uint32_t words,
                                                    bool inherits) TLSF_NOEXCEPT;

/* As tlsf_locked_open, in memory of the caller's as tlsf_open_near_in, for which tlsf_near_bytes tells the bytes. It is the caller's
 * again once the heap is closed. Refused as tlsf_open_in, and last as TLSF_NO_MEMORY, as above. */
TLSF_ANSWER static inline uint32_t tlsf_locked_open_in(struct tlsf_locked *locked, uint32_t level, uint32_t number, void *memory,
                                                       size_t bytes, bool inherits) TLSF_NOEXCEPT;

/* Closes the heap with all blocks, and ends the mutex. Calls are refused as TLSF_IS_CLOSED then. Refused: TLSF_IS_CLOSED. */
static inline uint32_t tlsf_locked_close(struct tlsf_locked *locked) TLSF_NOEXCEPT;

/* As the calls of peachanchor.h by pointer. An accepted request is a grant, and a free that is TLSF_OK is a return. Of tlsf_locked_realloc
 * a null pointer asks for a grant, and a `len` of 0 for a return. The free of a null pointer is TLSF_OK. It takes no lock and isn't
 * counted. */
TLSF_ANSWER static inline void *tlsf_locked_malloc(struct tlsf_locked *locked, size_t len) TLSF_NOEXCEPT;
TLSF_ANSWER static inline void *tlsf_locked_calloc(struct tlsf_locked *locked, size_t count, size_t each) TLSF_NOEXCEPT;
TLSF_ANSWER static inline void *tlsf_locked_realloc(struct tlsf_locked *locked, void *p, size_t len) TLSF_NOEXCEPT;
TLSF_ANSWER static inline void *tlsf_locked_aligned_alloc(struct tlsf_locked *locked, size_t align, size_t len) TLSF_NOEXCEPT;
TLSF_ANSWER static inline void *tlsf_locked_aligned_realloc(struct tlsf_locked *locked, void *p, size_t align, size_t len) TLSF_NOEXCEPT;
static inline uint32_t tlsf_locked_free(struct tlsf_locked *locked, void *p) TLSF_NOEXCEPT;
static inline size_t tlsf_locked_usable_size(struct tlsf_locked *locked, const void *p) TLSF_NOEXCEPT;

/* As tlsf_allocate, tlsf_release and tlsf_payload. A block is by name and by pointer at once, so either call gives it back. */
TLSF_ANSWER static inline uint32_t tlsf_locked_allocate(struct tlsf_locked *locked, size_t len, struct tlsf_name *name) TLSF_NOEXCEPT;
static inline uint32_t tlsf_locked_release(struct tlsf_locked *locked, struct tlsf_name name) TLSF_NOEXCEPT;
static inline void *tlsf_locked_payload(struct tlsf_locked *locked, struct tlsf_name name, uint32_t *len) TLSF_NOEXCEPT;

/* What was counted, all at one moment. Refused: TLSF_IS_CLOSED. */
TLSF_ANSWER static inline uint32_t tlsf_locked_counts(struct tlsf_locked *locked, struct tlsf_locked_usage *usage) TLSF_NOEXCEPT;

/* As tlsf_check. Other threads wait for `most` blocks at most, and may call between two checks. Then `next` may begin no block, and the
 * walk begins at 0 again. */
TLSF_ANSWER static inline uint32_t tlsf_locked_check(struct tlsf_locked *locked, uint32_t from, uint32_t most, uint32_t *next,
                                                     uint32_t *damaged) TLSF_NOEXCEPT;

/* --- The calls, and their parts ------------------------------------------------------------------------------------- */

/* Whether the heap is open, which calls ask before they take the lock of one that may have none. */
static inline bool tlsf_locked_is_open(const struct tlsf_locked *locked) TLSF_NOEXCEPT {
    return __atomic_load_n(&locked->is_open, __ATOMIC_ACQUIRE);
}

/* The heap, once this thread has its lock; null where it is closed, and then it has no lock. */
static inline struct tlsf_heap *tlsf_locked_enter(struct tlsf_locked *locked) TLSF_NOEXCEPT {
    if (!tlsf_locked_is_open(locked) || pthread_mutex_lock(&locked->mutex) != 0) return TLSF_NULL;
    return tlsf_near(&locked->heap);
}

static inline void tlsf_locked_leave(struct tlsf_locked *locked) TLSF_NOEXCEPT { (void)pthread_mutex_unlock(&locked->mutex); }

/* Counts what came, and leaves. */
static inline void *tlsf_locked_grant(struct tlsf_locked *locked, void *p) TLSF_NOEXCEPT {
    if (p != TLSF_NULL) locked->grants++;
    tlsf_locked_leave(locked);
    return p;
}

/* Counts what went, and leaves. */
static inline uint32_t tlsf_locked_return(struct tlsf_locked *locked, uint32_t answer) TLSF_NOEXCEPT {
    if (answer == TLSF_OK) locked->returns++;
    tlsf_locked_leave(locked);
    return answer;
}

/* Asks for priority inheritance, where the headers of the system show it: glibc's has no macro for it, but one of the same standard. */
static inline bool tlsf_locked_protect(pthread_mutexattr_t *kind, bool inherits) TLSF_NOEXCEPT {
#if defined(PTHREAD_PRIO_INHERIT) || (defined(__GLIBC__) && defined(PTHREAD_BARRIER_SERIAL_THREAD))
    return !inherits || pthread_mutexattr_setprotocol(kind, PTHREAD_PRIO_INHERIT) == 0;
#else
    (void)kind;
    return !inherits;
#endif
}

/* Whether the mutex is made. */
static inline bool tlsf_locked_make(pthread_mutex_t *mutex, bool inherits) TLSF_NOEXCEPT {
    pthread_mutexattr_t kind;
    if (pthread_mutexattr_init(&kind) != 0) return false;
    const bool is_made = tlsf_locked_protect(&kind, inherits) && pthread_mutex_init(mutex, &kind) == 0;
    (void)pthread_mutexattr_destroy(&kind);
    return is_made;
}

/* Opens the lock of a heap that was opened with that answer. */
static inline uint32_t tlsf_locked_begin(struct tlsf_locked *locked, uint32_t answer, bool inherits) TLSF_NOEXCEPT {
    if (answer != TLSF_OK) return answer;
    if (!tlsf_locked_make(&locked->mutex, inherits)) {
        tlsf_close(tlsf_near(&locked->heap));
        return TLSF_NO_MEMORY;
    }
    locked->grants = 0;
    locked->returns = 0;
    __atomic_store_n(&locked->is_open, true, __ATOMIC_RELEASE);
    return TLSF_OK;
}

static inline uint32_t tlsf_locked_open(struct tlsf_locked *locked, uint32_t level, uint32_t number, uint32_t words,
                                        bool inherits) TLSF_NOEXCEPT {
    if (tlsf_locked_is_open(locked)) return TLSF_IN_USE;
    return tlsf_locked_begin(locked, tlsf_open_near(&locked->heap, level, number, words), inherits);
}

static inline uint32_t tlsf_locked_open_in(struct tlsf_locked *locked, uint32_t level, uint32_t number, void *memory, size_t bytes,
                                           bool inherits) TLSF_NOEXCEPT {
    if (tlsf_locked_is_open(locked)) return TLSF_IN_USE;
    return tlsf_locked_begin(locked, tlsf_open_near_in(&locked->heap, level, number, memory, bytes), inherits);
}

static inline uint32_t tlsf_locked_close(struct tlsf_locked *locked) TLSF_NOEXCEPT {
    struct tlsf_heap *const heap = tlsf_locked_enter(locked);
    if (heap == TLSF_NULL) return TLSF_IS_CLOSED;
    __atomic_store_n(&locked->is_open, false, __ATOMIC_RELEASE);
    const uint32_t answer = tlsf_close(heap);
    tlsf_locked_leave(locked);
    (void)pthread_mutex_destroy(&locked->mutex);
    return answer;
}

static inline void *tlsf_locked_malloc(struct tlsf_locked *locked, size_t len) TLSF_NOEXCEPT {
    struct tlsf_heap *const heap = tlsf_locked_enter(locked);
    return heap == TLSF_NULL ? TLSF_NULL : tlsf_locked_grant(locked, tlsf_malloc(heap, len));
}

static inline void *tlsf_locked_calloc(struct tlsf_locked *locked, size_t count, size_t each) TLSF_NOEXCEPT {
    struct tlsf_heap *const heap = tlsf_locked_enter(locked);
    return heap == TLSF_NULL ? TLSF_NULL : tlsf_locked_grant(locked, tlsf_calloc(heap, count, each));
}

static inline void *tlsf_locked_aligned_alloc(struct tlsf_locked *locked, size_t align, size_t len) TLSF_NOEXCEPT {
    struct tlsf_heap *const heap = tlsf_locked_enter(locked);
    return heap == TLSF_NULL ? TLSF_NULL : tlsf_locked_grant(locked, tlsf_aligned_alloc(heap, align, len));
}

static inline uint32_t tlsf_locked_free(struct tlsf_locked *locked, void *p) TLSF_NOEXCEPT {
    if (p == TLSF_NULL) return TLSF_OK;
    struct tlsf_heap *const heap = tlsf_locked_enter(locked);
    if (heap == TLSF_NULL) return TLSF_IS_CLOSED;
    return tlsf_locked_return(locked, tlsf_free(heap, p));
}

static inline void *tlsf_locked_realloc(struct tlsf_locked *locked, void *p, size_t len) TLSF_NOEXCEPT {
    if (p == TLSF_NULL) return tlsf_locked_malloc(locked, len);
    if (len == 0) {
        tlsf_locked_free(locked, p);
        return TLSF_NULL;
    }
    struct tlsf_heap *const heap = tlsf_locked_enter(locked);
    if (heap == TLSF_NULL) return TLSF_NULL;
    void *const changed = tlsf_realloc(heap, p, len);
    tlsf_locked_leave(locked);
    return changed;
}

static inline void *tlsf_locked_aligned_realloc(struct tlsf_locked *locked, void *p, size_t align, size_t len) TLSF_NOEXCEPT {
    if (p == TLSF_NULL) return tlsf_locked_aligned_alloc(locked, align, len);
    if (len == 0) {
        if (align != 0 && (align & (align - 1)) == 0) tlsf_locked_free(locked, p);
        return TLSF_NULL;
    }
    struct tlsf_heap *const heap = tlsf_locked_enter(locked);
    if (heap == TLSF_NULL) return TLSF_NULL;
    void *const changed = tlsf_aligned_realloc(heap, p, align, len);
    tlsf_locked_leave(locked);
    return changed;
}

static inline size_t tlsf_locked_usable_size(struct tlsf_locked *locked, const void *p) TLSF_NOEXCEPT {
    struct tlsf_heap *const heap = tlsf_locked_enter(locked);
    if (heap == TLSF_NULL) return 0;
    const size_t len = tlsf_usable_size(heap, p);
    tlsf_locked_leave(locked);
    return len;
}

static inline uint32_t tlsf_locked_allocate(struct tlsf_locked *locked, size_t len, struct tlsf_name *name) TLSF_NOEXCEPT {
    struct tlsf_heap *const heap = tlsf_locked_enter(locked);
    if (heap == TLSF_NULL) return TLSF_IS_CLOSED;
    const uint32_t answer = tlsf_allocate(heap, len, name);
    if (answer == TLSF_OK) locked->grants++;
    tlsf_locked_leave(locked);
    return answer;
}

static inline uint32_t tlsf_locked_release(struct tlsf_locked *locked, struct tlsf_name name) TLSF_NOEXCEPT {
    struct tlsf_heap *const heap = tlsf_locked_enter(locked);
    if (heap == TLSF_NULL) return TLSF_IS_CLOSED;
    return tlsf_locked_return(locked, tlsf_release(heap, name));
}

static inline void *tlsf_locked_payload(struct tlsf_locked *locked, struct tlsf_name name, uint32_t *len) TLSF_NOEXCEPT {
    struct tlsf_heap *const heap = tlsf_locked_enter(locked);
    if (heap == TLSF_NULL) return TLSF_NULL;
    void *const p = tlsf_payload(heap, name, len);
    tlsf_locked_leave(locked);
    return p;
}

static inline uint32_t tlsf_locked_counts(struct tlsf_locked *locked, struct tlsf_locked_usage *usage) TLSF_NOEXCEPT {
    struct tlsf_heap *const heap = tlsf_locked_enter(locked);
    if (heap == TLSF_NULL) return TLSF_IS_CLOSED;
    const uint32_t answer = tlsf_counts(heap, &usage->counts);
    usage->grants = locked->grants;
    usage->returns = locked->returns;
    tlsf_locked_leave(locked);
    return answer;
}

static inline uint32_t tlsf_locked_check(struct tlsf_locked *locked, uint32_t from, uint32_t most, uint32_t *next,
                                         uint32_t *damaged) TLSF_NOEXCEPT {
    struct tlsf_heap *const heap = tlsf_locked_enter(locked);
    if (heap == TLSF_NULL) return TLSF_IS_CLOSED;
    const uint32_t answer = tlsf_check(heap, from, most, next, damaged);
    tlsf_locked_leave(locked);
    return answer;
}

#ifdef __cplusplus
}
#pragma GCC diagnostic pop
#endif
#endif
