/* For trying a program on the heap as it is: stands before the C library (LD_PRELOAD), and gives the process one heap of level 5 under
 * a lock in place of malloc. Blocks of more than MOST_BYTES, and those for which there is no room, come from the C library. docs/C.md
 * shows how it is built and used.
 *
 * TLSF_PRELOAD_MIB in the environment says how large the heap is, from 1 to 128; TLSF_PRELOAD_REPORT that each process writes at its
 * end to standard error what the heap did. A free of what isn't live ends the process.
 *
 * This is no more than a trial: under a lock one call waits for the others. A payload is used by whoever holds the block, in any thread,
 * also during calls on the heap that aren't about this block: so rule 4 of peachanchor.h has it. A fork waits until no other thread is in
 * a call. Its child goes on with the heap, which rule 5 forbids: that is tested here, and promised nowhere. */
#define _GNU_SOURCE
#include <dlfcn.h>
#include <errno.h>
#include <malloc.h>
#include <pthread.h>
#include <stdatomic.h>
#include <stdint.h>
#include <stdio.h>
#include <stdlib.h>
#include <string.h>
#include <sys/mman.h>
#include <sys/single_threaded.h>
#include <peachanchor.h>
#include <unistd.h>

void *__libc_malloc(size_t);
void *__libc_calloc(size_t, size_t);
void *__libc_realloc(void *, size_t);
void *__libc_memalign(size_t, size_t);
void __libc_free(void *);
void _IO_list_lock(void); /* of the list of all streams */
void _IO_list_unlock(void);

enum { MOST_BYTES = 1 << 20, PAGE = 4096, MIB = 64, MOST_MIB = 128 };

static pthread_mutex_t lock = PTHREAD_MUTEX_INITIALIZER;
static struct tlsf_heap heap;
static _Atomic uintptr_t begin = UINTPTR_MAX, end; /* of the heap's memory, once the first call has opened it */
static bool is_tried;
static atomic_ulong given, larger;

/* Whether this thread is in a fork, and has both locks meanwhile: handlers of forks may ask for memory. */
static __attribute__((tls_model("initial-exec"))) _Thread_local bool is_forking;

static void enter(void) {
    if (!is_forking) pthread_mutex_lock(&lock);
}

static void leave(void) {
    if (!is_forking) pthread_mutex_unlock(&lock);
}

/* No other thread is in a call while one forks, so the child's heap is whole and its lock open. The list of streams comes first, as fork
 * itself takes it after this handler: who has it may wait for a stream, whose holder asks for memory. With one thread nobody else is in a
 * call. Then nothing is locked, since a signal handler may fork that came within a call. */
static void begin_fork(void) {
    if (__libc_single_threaded) return;
    _IO_list_lock();
    enter();
    is_forking = true;
}

static bool end_fork(void) {
    const bool had = is_forking;
    is_forking = false;
    if (had) leave();
    return had;
}

static void go_on(void) {
    if (end_fork()) _IO_list_unlock();
}

/* In a child fork itself has made the list's lock anew. */
static void begin_child(void) { (void)end_fork(); }

__attribute__((constructor)) static void follow_forks(void) { (void)pthread_atfork(begin_fork, go_on, begin_child); }

static void open_heap(void) {
    const char *asked = getenv("TLSF_PRELOAD_MIB");
    const unsigned long mib = asked ? strtoul(asked, NULL, 10) : MIB;
    const size_t bytes = (mib == 0 || mib > MOST_MIB ? MIB : mib) << 20;
    void *memory = mmap(NULL, bytes, PROT_READ | PROT_WRITE, MAP_PRIVATE | MAP_ANONYMOUS, -1, 0);
    is_tried = true;
    if (memory == MAP_FAILED || tlsf_open_in(&heap, 5, 1, memory, bytes) != TLSF_OK) return;
    begin = (uintptr_t)memory;
    end = (uintptr_t)memory + bytes;
}

static bool is_ours(const void *p) { return (uintptr_t)p >= begin && (uintptr_t)p < end; }

/* Writes a line as long as snprintf says, in one piece. */
static void tell(const char *line, int n) {
    if (n > 0 && write(STDERR_FILENO, line, (size_t)n) < 0) errno = 0;
}

static _Noreturn void end_for(const void *p) {
    char line[96];
    tell(line, snprintf(line, sizeof line, "tlsf_preload: no live block begins at %p, which is freed or resized\n", p));
    abort();
}

/* A block of the heap, or null where another has to give it. */
static void *give(size_t align, size_t bytes, bool zeroed) {
    void *p = NULL;
    if (bytes > MOST_BYTES) {
        larger++;
        return NULL;
    }
    enter();
    if (!is_tried) open_heap();
    if (align > 16) p = tlsf_aligned_alloc(&heap, align, bytes);
    else p = zeroed ? tlsf_calloc(&heap, bytes, 1) : tlsf_malloc(&heap, bytes);
    leave();
    if (p) given++;
    return p;
}

void *malloc(size_t bytes) {
    void *p = give(16, bytes, false);
    return p ? p : __libc_malloc(bytes);
}

void *calloc(size_t count, size_t each) {
    size_t bytes;
    void *p = __builtin_mul_overflow(count, each, &bytes) ? NULL : give(16, bytes, true);
    return p ? p : __libc_calloc(count, each);
}

void free(void *p) {
    uint32_t answer;
    if (!is_ours(p)) {
        __libc_free(p);
        return;
    }
    enter();
    answer = tlsf_free(&heap, p);
    leave();
    if (answer != TLSF_OK) end_for(p);
}

void *realloc(void *p, size_t bytes) {
    void *moved = NULL;
    size_t had;
    if (!p) return malloc(bytes);
    if (!is_ours(p)) return __libc_realloc(p, bytes);
    if (bytes == 0) {
        free(p);
        return NULL;
    }
    enter();
    had = tlsf_usable_size(&heap, p);
    if (had > 0 && bytes <= MOST_BYTES) moved = tlsf_realloc(&heap, p, bytes);
    leave();
    if (had == 0) end_for(p);
    if (moved || !(moved = __libc_malloc(bytes))) return moved;
    memcpy(moved, p, had < bytes ? had : bytes);
    free(p);
    return moved;
}

void *reallocarray(void *p, size_t count, size_t each) {
    size_t bytes;
    if (!__builtin_mul_overflow(count, each, &bytes)) return realloc(p, bytes);
    errno = ENOMEM;
    return NULL;
}

void *memalign(size_t align, size_t bytes) {
    void *p = align == 0 || (align & (align - 1)) != 0 ? NULL : give(align, bytes, false);
    return p ? p : __libc_memalign(align, bytes);
}

void *aligned_alloc(size_t align, size_t bytes) { return memalign(align, bytes); }

int posix_memalign(void **to, size_t align, size_t bytes) {
    void *p;
    if (align % sizeof(void *) != 0 || align == 0 || (align & (align - 1)) != 0) return EINVAL;
    p = memalign(align, bytes);
    if (!p) return ENOMEM;
    *to = p;
    return 0;
}

void *valloc(size_t bytes) { return memalign(PAGE, bytes); }

void *pvalloc(size_t bytes) {
    if (bytes <= SIZE_MAX - PAGE) return memalign(PAGE, (bytes + PAGE - 1) / PAGE * PAGE);
    errno = ENOMEM;
    return NULL;
}

size_t malloc_usable_size(void *p) {
    size_t (*of_system)(void *);
    size_t bytes;
    if (!p) return 0;
    if (is_ours(p)) {
        enter();
        bytes = tlsf_usable_size(&heap, p);
        leave();
        return bytes;
    }
    *(void **)&of_system = dlsym(RTLD_NEXT, "malloc_usable_size");
    return of_system ? of_system(p) : 0;
}

/* This heap, and what the C library tells of its own. It walks over all blocks. */
struct mallinfo2 mallinfo2(void) {
    struct mallinfo2 (*of_system)(void), told;
    struct tlsf_heap_report sums;
    *(void **)&of_system = dlsym(RTLD_NEXT, "mallinfo2");
    if (of_system) told = of_system();
    else memset(&told, 0, sizeof told);
    enter();
    if (tlsf_report(&heap, &sums) != TLSF_OK) memset(&sums, 0, sizeof sums);
    leave();
    told.arena += 8 * ((size_t)sums.live_words + sums.free_words);
    told.ordblks += sums.free_blocks;
    told.uordblks += 8 * (size_t)sums.live_words;
    told.fordblks += 8 * (size_t)sums.free_words;
    return told;
}

struct mallinfo mallinfo(void) {
    const struct mallinfo2 it = mallinfo2();
    const struct mallinfo told = {(int)it.arena,   (int)it.ordblks, (int)it.smblks,   (int)it.hblks,    (int)it.hblkhd,
                                  (int)it.usmblks, (int)it.fsmblks, (int)it.uordblks, (int)it.fordblks, (int)it.keepcost};
    return told;
}

__attribute__((destructor)) static void report(void) {
    char line[240];
    struct tlsf_heap_counts counts;
    if (!getenv("TLSF_PRELOAD_REPORT")) return;
    enter();
    if (tlsf_counts(&heap, &counts) != TLSF_OK) memset(&counts, 0, sizeof counts);
    leave();
    tell(line, snprintf(line, sizeof line,
                        "tlsf_preload: %s: %lu blocks of the heap, at most %lu of its %lu bytes at once; %lu larger, %lu without room\n",
                        program_invocation_short_name, (unsigned long)given, 8ul * counts.most_words,
                        (unsigned long)(end ? end - begin : 0), (unsigned long)larger, (unsigned long)counts.refused));
}
