/* Counts, times and fills heaps of the C library, and others beside them. bench/peers builds and runs it.
 *
 * PEERS WAY COLUMN, where COLUMN is level4, level5, near4 or near5 (near heaps), system (calloc, malloc, free, realloc and memcpy of what is
 * loaded) or, with -DAUTHORS, authors (TLSF 2.4, or what has its calls). By name payload is made zero, which is calloc where there are no
 * names; malloc, free and realloc are by pointer here too. A call that is refused ends the program with status 1. WAY is one of these:
 *   calls   prints 'CALL, REQUESTS: MEAN WORST' in instructions: the processor traps behind each. What is counted begins with the first
 *           instruction of the function that a program calls, and ends with its return; what fills and copies payload is part of it.
 *   holes   prints 'worst call, N holes: WORST' so, where blocks are made and released by name beside N holes in which none fits. Of
 *           1,000 holes it prints the calls as above too, by name and by pointer.
 *   resets  prints 'reset of N blocks: INSTRUCTIONS' of one reset so, and 'releases of N blocks: INSTRUCTIONS' of all frees in its place.
 *   time    prints 'time, REQUESTS: NANOSECONDS' of an allocate and a release, of a malloc and a free, and of a resize.
 *   full    prints 'full, REQUESTS: FRESH AGED', the bytes asked for in thousandths of 8 MiB: at the first refusal, and in the mean where
 *           100,000 blocks have come and gone before. Of the system it is so much resident memory, and its peak while blocks come and go. */
#define _GNU_SOURCE
#include "stepped.h"
#include "peachanchor.h"

#include <fcntl.h>
#include <stdio.h>
#include <stdlib.h>
#include <string.h>
#include <sys/wait.h>
#include <time.h>
#include <unistd.h>

#ifdef AUTHORS
size_t init_memory_pool(size_t bytes, void *pool);
void *authors_calloc(size_t count, size_t bytes);
void *authors_malloc(size_t bytes);
void authors_free(void *block);
void *authors_realloc(void *block, size_t bytes);
#endif

enum { ROUNDS = 1000, WARM = 20000, LIVE = 1000, MOST_HOLES = 100000, MOST_BLOCKS = 1 << 20, WORDS = 1 << 20 };
static enum { OURS, SYSTEM, AUTHORS_OWN } column;
static int is_stepped; /* else no call is counted */

struct tally {
    uint64_t sum, calls, worst;
};

/* A call, which is added to a tally where there is one. */
static uint64_t call(struct tally *tally, uintptr_t function, const uintptr_t with[6]) {
    if (!is_stepped) tally = NULL;
    trap = tally ? TRAP : 0;
    traps = 0;
    const uint64_t answer = call_stepped(function, with);
    if (tally) {
        tally->sum += traps;
        tally->calls++;
        if (traps > tally->worst) tally->worst = traps;
    }
    return answer;
}

static void print(const char *name, const char *requests, const struct tally *of) {
    if (of->calls) printf("%s, %s: %.0f %lu\n", name, requests, (double)of->sum / (double)of->calls, of->worst);
}

static void ends_if(int refused, const char *what) {
    if (!refused) return;
    fprintf(stderr, "peers: %s is refused\n", what);
    exit(1);
}

struct block {
    struct tlsf_name name;
    uintptr_t at;
    uint32_t len;
};
static struct tally allocates, releases, resizes;
static enum { BY_NAME, BY_POINTER, RESIZED, RESIZED_BY_POINTER } kind;
static const char *const calls_of_kind[][3] = {
    {"allocate", "release", ""}, {"malloc", "free", ""}, {"", "", "resize"}, {"", "", "realloc"}};

/* The calls of a column. Those of the library have the handle first; the others have none, and calloc, free and realloc in the place of
 * calls by name. */
static struct calls { uintptr_t handle, allocate, release, resize, malloc, free, realloc, write, read; } calls;

static int is_by_pointer(void) { return kind == BY_POINTER || kind == RESIZED_BY_POINTER; }

/* Calls that are inline in peachanchor.h, and those that find the handle of a near heap first. In parentheses a name is that of the proved call,
 * with nothing that is inline around it. */
static void *level_malloc(struct tlsf_heap *heap, size_t len) { return tlsf_malloc(heap, len); }
static uint32_t level_free(struct tlsf_heap *heap, void *at) { return tlsf_free(heap, at); }
static void *level_realloc(struct tlsf_heap *heap, void *at, size_t len) { return tlsf_realloc(heap, at, len); }
static uint32_t near_allocate(struct tlsf_near_heap *heap, uint32_t len, struct tlsf_name *name) {
    return (tlsf_allocate)(tlsf_near(heap), len, name);
}
static uint32_t near_release(struct tlsf_near_heap *heap, struct tlsf_name name) { return (tlsf_release)(tlsf_near(heap), name); }
static uint32_t near_reallocate(struct tlsf_near_heap *heap, struct tlsf_name *name, uint32_t len) {
    return (tlsf_reallocate)(tlsf_near(heap), name, len);
}
static void *near_malloc(struct tlsf_near_heap *heap, size_t len) { return tlsf_malloc(tlsf_near(heap), len); }
static uint32_t near_free(struct tlsf_near_heap *heap, void *at) { return tlsf_free(tlsf_near(heap), at); }
static void *near_realloc(struct tlsf_near_heap *heap, void *at, size_t len) { return tlsf_realloc(tlsf_near(heap), at, len); }
static uint32_t near_write(struct tlsf_near_heap *heap, struct tlsf_name name, uint32_t at, const uint8_t *from, size_t n) {
    return tlsf_write(tlsf_near(heap), name, at, from, n);
}
static uint32_t near_read(struct tlsf_near_heap *heap, struct tlsf_name name, uint32_t at, uint8_t *to, size_t n) {
    return tlsf_read(tlsf_near(heap), name, at, to, n);
}

/* Says whether there was room. */
static int gives(struct block *block, uint32_t len, int counts) {
    struct tally *tally = counts ? &allocates : NULL;
    block->len = len;
    if (is_by_pointer())
        block->at = calls.handle ? call(tally, calls.malloc, WITH(calls.handle, len)) : call(tally, calls.malloc, WITH(len));
    else if (!calls.handle) block->at = call(tally, calls.allocate, WITH(1, len));
    else block->at = !(uint32_t)call(tally, calls.allocate, WITH(calls.handle, len, (uintptr_t)&block->name));
    return block->at != 0;
}

static void allocate(struct block *block, uint32_t len, int counts) { ends_if(!gives(block, len, counts), "allocate"); }

static void release(struct block *block, int counts) {
    struct tally *tally = counts ? &releases : NULL;
    if (!calls.handle) call(tally, calls.free, WITH(block->at));
    else if (is_by_pointer()) ends_if((int)call(tally, calls.free, WITH(calls.handle, block->at)), "free");
    else ends_if((int)call(tally, calls.release, WITH(calls.handle, OF_NAME(block->name))), "release");
}

static void resize(struct block *block, uint32_t len, int counts) {
    struct tally *tally = counts ? &resizes : NULL;
    if (!calls.handle) block->at = call(tally, calls.realloc, WITH(block->at, len));
    else if (is_by_pointer()) block->at = call(tally, calls.realloc, WITH(calls.handle, block->at, len));
    else block->at = !(uint32_t)call(tally, calls.resize, WITH(calls.handle, (uintptr_t)&block->name, len));
    ends_if(!block->at, "resize");
}

/* Numbers that look random, the same in each run. */
static uint32_t state;
static uint32_t between(uint32_t least, uint32_t most) {
    state = state * 1103515245 + 12345;
    return least + (state >> 16) % (most - least + 1);
}

static struct block blocks[MOST_BLOCKS], others[LIVE / 4];

static double nanoseconds(void) {
    struct timespec now;
    clock_gettime(CLOCK_MONOTONIC, &now);
    return (double)now.tv_sec * 1e9 + (double)now.tv_nsec;
}

static void print_both(const char *requests) {
    print(calls_of_kind[kind][0], requests, &allocates);
    print(calls_of_kind[kind][1], requests, &releases);
    print(calls_of_kind[kind][2], requests, &resizes);
    allocates = releases = resizes = (struct tally){0, 0, 0};
}

/* Keeps so many blocks live, and puts another in the place of one of them, or resizes one, again and again, WARM times before any counts. */
static void replace(const char *requests, int live, uint32_t least, uint32_t most, int rounds) {
    static const char *const named[] = {"", "by pointer, ", "resize, ", "realloc, "};
    double since = 0;
    if (!is_stepped) rounds *= 100;
    for (int i = 0; i < live; i++) allocate(&blocks[i], between(least, most), 0);
    for (int i = -WARM; i < rounds; i++) {
        struct block *block = &blocks[between(0, (uint32_t)live - 1)];
        if (!i) since = nanoseconds();
        if (kind >= RESIZED) resize(block, between(least, most), i >= 0);
        else {
            release(block, i >= 0);
            allocate(block, between(least, most), i >= 0);
        }
    }
    if (!is_stepped) printf("time, %s%s: %.1f\n", named[kind], requests, (nanoseconds() - since) / rounds);
    for (int i = 0; i < live; i++) release(&blocks[i], 0);
    print_both(requests);
}

/* Leaves holes of 8 bytes, and makes and releases larger blocks, in two rounds, both of which are counted. */
static void pass_holes(int holes) {
    for (int i = 0; i < 2 * holes; i++) allocate(&blocks[i], 8, 0);
    for (int i = 0; i < 2 * holes; i += 2) release(&blocks[i], 0);
    for (int round = 0; round < 2; round++) {
        for (int i = 0; i < LIVE / 4; i++) allocate(&others[i], between(48, 1008), 1);
        for (int i = 0; i < LIVE / 4; i++) release(&others[i], 1);
    }
    for (int i = 1; i < 2 * holes; i += 2) release(&blocks[i], 0);
}

static _Alignas(64) uint8_t plain[2 * 4096], bytes[4096];

/* Counts writes and reads of a payload or, of the system, memcpy to and from such bytes. */
static void move(uint32_t at, uintptr_t n) {
    struct tally writes = {0, 0, 0}, reads = {0, 0, 0};
    char requests[64];
    struct block block = {.len = 0};
    if (n < 1000) snprintf(requests, sizeof requests, "%lu bytes at %u", n, at);
    else snprintf(requests, sizeof requests, "%lu,%03lu bytes at %u", n / 1000, n % 1000, at);
    if (column != SYSTEM) allocate(&block, sizeof plain, 0);
    if (column == SYSTEM) {
        call(&writes, (uintptr_t)memcpy, WITH((uintptr_t)(plain + at), (uintptr_t)bytes, n));
        call(&reads, (uintptr_t)memcpy, WITH((uintptr_t)bytes, (uintptr_t)(plain + at), n));
    } else {
        ends_if((int)call(&writes, calls.write, WITH(calls.handle, OF_NAME(block.name), at, (uintptr_t)bytes, n)), "write");
        ends_if((int)call(&reads, calls.read, WITH(calls.handle, OF_NAME(block.name), at, (uintptr_t)bytes, n)), "read");
    }
    if (column != SYSTEM) release(&block, 0);
    print("write", requests, &writes);
    print("read", requests, &reads);
}

#define AT(function) (uintptr_t)(function)

/* Opens the heap of a column, also where one of its is open. */
static void open_ours(const char *name) {
    static struct tlsf_heap heap;
    static struct tlsf_near_heap near;
    const int is_near = *name == 'n';
    const uint32_t level = (uint32_t)atoi(name + strcspn(name, "45"));
    const struct calls of_level = {AT(&heap),      AT(tlsf_allocate), AT(tlsf_release), AT(tlsf_reallocate), AT(level_malloc),
                                   AT(level_free), AT(level_realloc), AT(tlsf_write),   AT(tlsf_read)};
    const struct calls of_near = {AT(&near),     AT(near_allocate), AT(near_release), AT(near_reallocate), AT(near_malloc),
                                  AT(near_free), AT(near_realloc),  AT(near_write),   AT(near_read)};
    if (calls.handle) tlsf_close(is_near ? tlsf_near(&near) : &heap);
    calls = is_near ? of_near : of_level;
    ends_if((int)(is_near ? tlsf_open_near(&near, level, 0, WORDS) : tlsf_open(&heap, level, 0, WORDS)), "the heap");
}

static void open_all(const char *name) {
    if (is_stepped) ends_if(!counts_traps(), "a trap behind each instruction");
    column = *name == 'l' || *name == 'n' ? OURS : *name == 's' ? SYSTEM : AUTHORS_OWN;
    if (column == OURS) open_ours(name);
    if (column == SYSTEM) calls = (struct calls){.allocate = AT(calloc), .malloc = AT(malloc), .free = AT(free), .realloc = AT(realloc)};
#ifdef AUTHORS
    static char pool[8 * WORDS];
    if (column == AUTHORS_OWN) ends_if(init_memory_pool(sizeof pool, pool) == (size_t)-1, "the pool");
    if (column == AUTHORS_OWN)
        calls = (struct calls){
            .allocate = AT(authors_calloc), .malloc = AT(authors_malloc), .free = AT(authors_free), .realloc = AT(authors_realloc)};
#else
    ends_if(column == AUTHORS_OWN, "a column that isn't built");
#endif
}

/* Resident bytes of the program. */
static double resident(void) {
    char text[128] = "";
    long all = 0, there = 0;
    const int file = open("/proc/self/statm", O_RDONLY);
    ends_if(file < 0 || read(file, text, sizeof text - 1) < 0 || sscanf(text, "%ld %ld", &all, &there) != 2, "the memory's size");
    close(file);
    return (double)there * (double)sysconf(_SC_PAGESIZE);
}

/* Blocks of 8 to `most` bytes until 8 MiB are full; then others in the place of some, and what is live in the mean. */
static void fill(const char *requests, uint32_t most) {
    memset(blocks, 1, sizeof blocks);
    const double base = resident();
    double bytes = 0, sum = 0, peak = 8.0 * WORDS;
    int count = 0;
    for (; count < MOST_BLOCKS && !(column == SYSTEM && (count % 64 == 0 || most > 4096) && resident() - base >= peak); count++) {
        if (!gives(&blocks[count], between(8, most), 0)) break;
        if (column == SYSTEM) memset((void *)blocks[count].at, 1, blocks[count].len);
        bytes += blocks[count].len;
    }
    const double fresh = bytes;
    for (int i = 0; i < 200000; i++) {
        const uint32_t len = between(8, most);
        struct block next;
        while (column == SYSTEM ? bytes > fresh : !gives(&next, len, 0)) {
            const uint32_t at = (uint32_t)(((uint64_t)between(0, 65535) << 16 | between(0, 65535)) % (uint64_t)count);
            release(&blocks[at], 0);
            bytes -= blocks[at].len;
            blocks[at] = blocks[--count];
        }
        if (column == SYSTEM) {
            ends_if(!gives(&next, len, 0), "allocate");
            memset((void *)next.at, 1, len);
            if (i % 1000 == 0 && resident() - base > peak) peak = resident() - base;
        }
        blocks[count++] = next;
        bytes += len;
        if (i >= 100000) sum += bytes;
    }
    for (int i = 0; i < count; i++) release(&blocks[i], 0);
    printf("full, %s: %.0f %.0f\n", requests, 1000 * fresh / (8.0 * WORDS), 1000 * sum / 100000 / peak);
}

/* In a process of its own, which no earlier block has given memory to. */
static void fill_apart(const char *requests, uint32_t most) {
    int status = 1;
    const pid_t child = fork();
    if (!child) {
        fill(requests, most);
        fflush(stdout);
        _exit(0);
    }
    ends_if(child < 0 || waitpid(child, &status, 0) < 0 || status, "a process for it");
}

static void run_all(const char *name) {
    for (kind = BY_NAME; kind <= BY_POINTER; kind++) {
        replace("64 bytes in pairs", 1, 64, 64, ROUNDS);
        replace("8 bytes, 1,000 live", LIVE, 8, 8, ROUNDS);
        replace("8..512 bytes, 1,000 live", LIVE, 8, 512, ROUNDS);
        replace("8..512 bytes, 10,000 live", 10 * LIVE, 8, 512, ROUNDS);
        replace("8..65,536 bytes, 100 live", 100, 8, 65536, ROUNDS / 4); /* by name most of what is counted there fills payload */
    }
    for (; kind <= RESIZED_BY_POINTER; kind++) {
        /* A heap that had a block of an odd number of words has another realloc: by pointer alone it has none. */
        if (kind == RESIZED_BY_POINTER && column == OURS) open_ours(name);
        replace("8..512 bytes, 1,000 live", LIVE, 8, 512, ROUNDS);
    }
    kind = BY_NAME;
    for (uint32_t at = 0; at <= 3 && is_stepped && column != AUTHORS_OWN; at += 3)
        for (uintptr_t n = 8; n <= 4096; n *= 8) move(at, n);
}

/* By name, and in the means of 1,000 holes by pointer too. */
static void pass_all_holes(void) {
    for (int holes = 100; holes <= MOST_HOLES; holes *= 10) {
        pass_holes(holes);
        printf("worst call, %d holes: %lu\n", holes, allocates.worst > releases.worst ? allocates.worst : releases.worst);
        if (holes == 1000) print_both("1,000 holes");
        allocates = releases = (struct tally){0, 0, 0};
    }
    kind = BY_POINTER;
    pass_holes(1000);
    print_both("1,000 holes");
}

/* Of a heap of ours. */
static void reset_all(void) {
    kind = BY_POINTER;
    for (int count = 10; count <= 10000; count *= 10) {
        struct tally resets = {0, 0, 0};
        releases = resets;
        for (int i = 0; i < count; i++) allocate(&blocks[i], 64, 0);
        ends_if((int)call(&resets, (uintptr_t)(tlsf_reset), WITH(calls.handle)), "reset");
        for (int i = 0; i < count; i++) allocate(&blocks[i], 64, 0);
        for (int i = 0; i < count; i++) release(&blocks[i], 1);
        printf("reset of %d blocks: %lu\nreleases of %d blocks: %lu\n", count, resets.sum, count, releases.sum);
    }
}

int main(int argc, char **argv) {
    const char *way = argc == 3 ? argv[1] : "";
    is_stepped = way[0] == 'c' || way[0] == 'h' || way[0] == 'r';
    open_all(argc == 3 ? argv[2] : "");
    if (way[0] == 'c' || way[0] == 't') run_all(argv[2]);
    else if (way[0] == 'h') pass_all_holes();
    else if (way[0] == 'r') reset_all();
    else if (way[0] == 'f') {
        fill_apart("8 bytes", 8);
        fill_apart("8..512 bytes", 512);
        fill_apart("8..65,536 bytes", 65536);
    } else return 2;
    return 0;
}
