/* Times calls whose data lies in no cache, shows which cache lines calls touch, and times what opens a heap. bench/peers builds and runs it.
 *
 * COLD WAY COLUMN, with the columns of peers.c, and near4 and near5 for near heaps. A call that is refused ends the program with
 * status 1. WAY is one of these:
 *   cold    prints 'cold, CALL: MEDIAN MOST' in nanoseconds. MOST is what 99.9 % of the calls stay within. Before each call all lines of
 *           the process's writable memory are flushed, but for the stack and what is this program's own. Code stays in the caches.
 *   lines   makes the same calls for valgrind's lackey, with marks in the memory at OWN. Before a call the byte of its number is written,
 *           after it byte 64. Byte 65 is written once three bytes were read: of the stack, of the payload that the call gave, and byte 128
 *           and as many on as were asked for. The last two say nothing of a release.
 *   opens   prints 'open, WORDS: MILLISECONDS', of tlsf_open, or as 'open, WORDS in place' of tlsf_open_in in memory that was written.
 *
 * The calls are allocate (payload is made zero) and release, and malloc (it is not) and free. Here the first two are by name, the others by
 * pointer. 1,000 blocks of 8 to 512 bytes are live, and one is released and another allocated in its place, again and again. */
#define _GNU_SOURCE
#include "peachanchor.h"

#include <cpuid.h>
#include <fcntl.h>
#include <stdio.h>
#include <stdlib.h>
#include <string.h>
#include <sys/mman.h>
#include <sys/wait.h>
#include <time.h>
#include <unistd.h>
#include <x86intrin.h>

#ifdef AUTHORS
size_t init_memory_pool(size_t bytes, void *pool);
void *malloc_ex(size_t bytes, void *pool);
void *calloc_ex(size_t count, size_t bytes, void *pool);
void free_ex(void *block, void *pool);
#endif

enum { LIVE = 1000, WARM = 3000, TIMED = 5000, TRACED = 1000, WORDS = 1 << 16, PAGE = 4096, LINE = 64, MOST_PAGES = 1 << 16 };
enum { ALLOCATE, RELEASE, MALLOC, FREE, NOTHING, CALLS };
static const char *const names[] = {"allocate", "release", "malloc", "free"};

struct block {
    struct tlsf_name name;
    void *at;
};
typedef int made(struct block *block, uint32_t len);

/* What is this program's own is shared memory at OWN, which isn't flushed. */
enum { OWN = 0x20000000, ENDED = 64, TOLD = 65, LENGTHS = 128 };
static struct {
    volatile char marks[LENGTHS + 1024];
    made *calls[CALLS];
    void *(*calloc)(size_t, size_t), *(*malloc)(size_t), (*free)(void *);
    struct block blocks[LIVE];
    uint32_t state;
    uint64_t times[CALLS][TIMED];
    uint64_t *pages, page_count;
    char maps[1 << 16];
} *const own = (void *)OWN;

static void ends_if(int refused, const char *what) {
    if (!refused) return;
    fprintf(stderr, "cold: %s is refused\n", what);
    exit(1);
}

/* --- The calls of each column --- */

static _Alignas(LINE) struct tlsf_heap heap;
static struct tlsf_near_heap near;

static int heap_allocate(struct block *block, uint32_t len) { return !tlsf_allocate(&heap, len, &block->name); }
static int heap_release(struct block *block, uint32_t len) { return (void)len, !tlsf_release(&heap, block->name); }
static int heap_malloc(struct block *block, uint32_t len) { return (block->at = tlsf_malloc(&heap, len)) != NULL; }
static int heap_free(struct block *block, uint32_t len) { return (void)len, !tlsf_free(&heap, block->at); }
static int near_allocate(struct block *block, uint32_t len) { return !tlsf_allocate(tlsf_near(&near), len, &block->name); }
static int near_release(struct block *block, uint32_t len) { return (void)len, !tlsf_release(tlsf_near(&near), block->name); }
static int near_malloc(struct block *block, uint32_t len) { return (block->at = tlsf_malloc(tlsf_near(&near), len)) != NULL; }
static int near_free(struct block *block, uint32_t len) { return (void)len, !tlsf_free(tlsf_near(&near), block->at); }
static int system_calloc(struct block *block, uint32_t len) { return (block->at = own->calloc(1, len)) != NULL; }
static int system_malloc(struct block *block, uint32_t len) { return (block->at = own->malloc(len)) != NULL; }
static int system_free(struct block *block, uint32_t len) { return (void)len, own->free(block->at), 1; }
static int nothing(struct block *block, uint32_t len) { return (void)block, len != 0; }
static made *const of_heap[CALLS] = {heap_allocate, heap_release, heap_malloc, heap_free, nothing};
static made *const of_near[CALLS] = {near_allocate, near_release, near_malloc, near_free, nothing};
static made *const of_system[CALLS] = {system_calloc, system_free, system_malloc, system_free, nothing};
#ifdef AUTHORS
static _Alignas(LINE) void *pool; /* what a program keeps of a heap, as the handle above: it is flushed too */
static int authors_calloc(struct block *block, uint32_t len) { return (block->at = calloc_ex(1, len, pool)) != NULL; }
static int authors_malloc(struct block *block, uint32_t len) { return (block->at = malloc_ex(len, pool)) != NULL; }
static int authors_free(struct block *block, uint32_t len) { return (void)len, free_ex(block->at, pool), 1; }
static made *const of_authors[CALLS] = {authors_calloc, authors_free, authors_malloc, authors_free, nothing};
#endif

static void *mapped(void *at, size_t bytes, int flags) {
    void *memory = mmap(at, bytes, PROT_READ | PROT_WRITE, MAP_ANONYMOUS | flags, -1, 0);
    ends_if(memory == MAP_FAILED, "memory");
    return memory;
}

static void open_all(const char *column) {
    mapped(own, sizeof *own, MAP_SHARED | MAP_FIXED_NOREPLACE | MAP_POPULATE);
    own->pages = mapped(NULL, MOST_PAGES * sizeof *own->pages, MAP_SHARED | MAP_POPULATE);
    made *const *calls = of_system;
    own->calloc = calloc, own->malloc = malloc, own->free = free;
    if (!strncmp(column, "level", 5)) {
        calls = of_heap;
        ends_if((int)tlsf_open(&heap, (uint32_t)atoi(column + 5), 0, WORDS), "the heap");
    }
    if (!strncmp(column, "near", 4)) {
        calls = of_near;
        ends_if((int)tlsf_open_near(&near, (uint32_t)atoi(column + 4), 0, WORDS), "the heap");
    }
#ifdef AUTHORS
    if (!strcmp(column, "authors")) {
        calls = of_authors;
        pool = mapped(NULL, 8 * WORDS, MAP_PRIVATE | MAP_POPULATE);
        ends_if(init_memory_pool(8 * WORDS, pool) == (size_t)-1, "the pool");
    }
#endif
    memcpy(own->calls, calls, sizeof own->calls);
}

/* --- Caches --- */

/* Notes the pages of a range that are there. */
static void note_pages(int pagemap, uintptr_t from, uintptr_t to) {
    static uint64_t entries[512];
    for (uintptr_t at = from; at < to; at += sizeof entries / 8 * PAGE) {
        const ssize_t got = pread(pagemap, entries, sizeof entries, (off_t)(at / PAGE * 8));
        for (uintptr_t i = 0; (ssize_t)(8 * i) < got && at + i * PAGE < to; i++)
            if (entries[i] >> 63 && own->page_count < MOST_PAGES) own->pages[own->page_count++] = at + i * PAGE;
    }
}

/* Finds the pages to be flushed: those of private writable memory, but for the stack. */
static void find_pages(void) {
    const int maps = open("/proc/self/maps", O_RDONLY), pagemap = open("/proc/self/pagemap", O_RDONLY);
    ends_if(maps < 0 || pagemap < 0, "the list of pages");
    size_t count = 0;
    for (ssize_t got; (got = read(maps, own->maps + count, sizeof own->maps - 1 - count)) > 0;) count += (size_t)got;
    own->maps[count] = 0;
    own->page_count = 0;
    for (char *rest = own->maps, *line; (line = strsep(&rest, "\n"));) {
        uintptr_t from, to;
        char may[5];
        if (sscanf(line, "%lx-%lx %4s", &from, &to, may) == 3 && may[1] == 'w' && may[3] == 'p' && !strstr(line, "[stack]"))
            note_pages(pagemap, from, to);
    }
    ends_if(own->page_count == 0, "the list of pages");
    close(maps);
    close(pagemap);
}

__attribute__((target("clflushopt"))) static void flush(void) {
    unsigned a, b = 0, c, d;
    const int is_fast = __get_cpuid_count(7, 0, &a, &b, &c, &d) && (b >> 23 & 1); /* the processor has clflushopt */
    for (uint64_t i = 0; i < own->page_count; i++)
        for (uintptr_t line = own->pages[i]; line < own->pages[i] + PAGE; line += LINE)
            if (is_fast) _mm_clflushopt((void *)line);
            else _mm_clflush((void *)line);
    _mm_mfence();
}

/* --- The ways --- */

static uint64_t ticks(void) {
    _mm_lfence();
    const uint64_t now = __rdtsc();
    _mm_lfence();
    return now;
}

static void time_call(int call, struct block *block, uint32_t len, int number) {
    flush();
    const uint64_t since = ticks();
    const int is_done = own->calls[call](block, len);
    own->times[call][number] = ticks() - since;
    ends_if(!is_done, "a call");
}

static void trace_call(int call, struct block *block, uint32_t len) {
    const volatile char on_stack = 0;
    own->marks[call] = 1;
    const int is_done = own->calls[call](block, len);
    own->marks[ENDED] = 1;
    ends_if(!is_done, "a call");
    const volatile char *payload = block->at;
    if (own->calls[call] == heap_allocate) payload = tlsf_payload(&heap, block->name, NULL);
    if (own->calls[call] == near_allocate) payload = tlsf_payload(tlsf_near(&near), block->name, NULL);
    if (call == RELEASE || call == FREE) payload = own->marks;
    /* Valgrind leaves out reads of what isn't used. */
    const char first = on_stack, second = *payload, third = own->marks[LENGTHS + len];
    own->marks[TOLD] = first + second + third;
}

static uint32_t between(uint32_t least, uint32_t most) {
    own->state = own->state * 1103515245 + 12345;
    return least + (own->state >> 16) % (most - least + 1);
}

/* Replaces blocks by these two calls, and times or traces them after WARM turns. */
static void replace(int allocate, int is_timed) {
    const int release = allocate + 1, rounds = is_timed ? TIMED : TRACED;
    for (int i = 0; i < LIVE; i++) ends_if(!own->calls[allocate](&own->blocks[i], between(8, 512)), "a block");
    for (int i = -WARM; i < rounds; i++) {
        struct block *block = &own->blocks[between(0, LIVE - 1)];
        const uint32_t len = between(8, 512);
        if (is_timed && i >= 0 && i % 500 == 0) find_pages();
        if (i < 0) ends_if(!own->calls[release](block, 0) || !own->calls[allocate](block, len), "a block");
        else if (is_timed) {
            time_call(NOTHING, block, len, i);
            time_call(release, block, len, i);
            time_call(allocate, block, len, i);
        } else {
            trace_call(release, block, len);
            trace_call(allocate, block, len);
        }
    }
    for (int i = 0; i < LIVE; i++) own->calls[release](&own->blocks[i], 0);
}

static double nanoseconds(void) {
    struct timespec now;
    clock_gettime(CLOCK_MONOTONIC, &now);
    return (double)now.tv_sec * 1e9 + (double)now.tv_nsec;
}

static int is_later(const void *a, const void *b) {
    const uint64_t x = *(const uint64_t *)a, y = *(const uint64_t *)b;
    return x < y ? -1 : x > y;
}

/* Prints the times of two calls, less the median of a call of nothing. */
static void print_times(int allocate, double per_tick) {
    const int calls[] = {NOTHING, allocate, allocate + 1};
    double none = 0;
    for (int i = 0; i < 3; i++) {
        uint64_t *times = own->times[calls[i]];
        qsort(times, TIMED, sizeof *times, is_later);
        const double median = (double)times[TIMED / 2], most = (double)times[TIMED - 1 - TIMED / 1000];
        if (calls[i] == NOTHING) none = median;
        else printf("cold, %s: %.0f %.0f\n", names[calls[i]], (median - none) * per_tick, (most - none) * per_tick);
    }
}

/* --- Opening --- */

/* Opens a heap in a process of its own, whose memory is new, and tells how long it took. */
static double milliseconds_to_open(const char *column, uint32_t words, int is_in_place) {
    int ends[2], status = 1;
    double took = 0;
    ends_if(pipe(ends), "a pipe");
    const pid_t child = fork();
    if (!child) {
        const uint32_t level = (uint32_t)atoi(column + 5);
        const size_t bytes = column[0] == 'a' ? 8 * (size_t)words : tlsf_bytes(level, words);
        void *memory = mapped(NULL, bytes, MAP_PRIVATE);
        if (is_in_place) memset(memory, 1, bytes);
        double since = nanoseconds();
        uint32_t answer = 0;
#ifdef AUTHORS
        if (column[0] == 'a') answer = init_memory_pool(bytes, memory) == (size_t)-1;
        else
#endif
            answer = is_in_place ? tlsf_open_in(&heap, level, 0, memory, bytes) : tlsf_open(&heap, level, 0, words);
        since = (nanoseconds() - since) / 1e6;
        _exit(answer || write(ends[1], &since, sizeof since) != sizeof since);
    }
    close(ends[1]);
    ends_if(child < 0 || read(ends[0], &took, sizeof took) != sizeof took || waitpid(child, &status, 0) < 0 || status, "opening");
    close(ends[0]);
    return took;
}

static void time_opens(const char *column) {
    for (int bits = 17; bits <= (strcmp(column, "level4") ? 24 : 20); bits += bits == 17 ? 3 : 2)
        for (int is_in_place = 0; is_in_place <= 1; is_in_place++)
            printf("open, 2^%d words%s: %.3f\n", bits, is_in_place ? " in place" : "",
                   milliseconds_to_open(column, 1u << bits, is_in_place));
}

int main(int argc, char **argv) {
    const char *way = argc == 3 ? argv[1] : "";
    if (!strcmp(way, "opens")) return time_opens(argv[2]), 0;
    const int is_timed = !strcmp(way, "cold");
    if (!is_timed && strcmp(way, "lines")) return 2;
    open_all(argv[2]);
    for (int allocate = ALLOCATE; allocate <= MALLOC; allocate += 2) {
        const uint64_t since = __rdtsc();
        const double began = nanoseconds();
        replace(allocate, is_timed);
        if (is_timed) print_times(allocate, (nanoseconds() - began) / (double)(__rdtsc() - since));
    }
    return 0;
}
