/* Times each call of a long loop by itself. bench/peers builds and runs it.
 *
 * TAIL COLUMN HOW CALLS FILE LAST, with the columns of column.h. HOW is pointer or name. CALLS times one of 4,000 blocks is freed and another
 * allocated in its place: 70 % of up to 128 bytes, 20 % of up to 512, 9 % of up to 4,096, 1 % of up to 65,536. Each is in a region of 8 MiB,
 * or has the memory of the system. A first fifth of such turns is not timed. Each call stands between two time stamps. What two stamps with
 * nothing between them take is taken off. The first and the last byte of a payload are written after the call, so a page fault of theirs
 * isn't in it.
 *
 * FILE keeps each call's least time over the runs; the first run makes it. Prints 'as it came, CALL: P50 P99 P99.9 P99.99 WORST' in
 * nanoseconds of this run, CALL being malloc or free, or allocate or release. Where LAST is 1 it prints 'CALL: ..' of the least times too. */
#define _GNU_SOURCE
#include "column.h"

#include <fcntl.h>
#include <unistd.h>
#include <x86intrin.h>

enum { LIVE = 4000, WORDS = 1 << 20, FIGURES = 5, FREE = 0, MALLOC = 1, SPEED_TIME = 50000000 };
static const double shares[FIGURES] = {.5, .99, .999, .9999, 1};
static const char *const names[2][2] = {{"free", "malloc"}, {"release", "allocate"}};
struct turn {
    uint32_t block, bytes;
};
static struct calls calls;
static bool is_by_name;

static uint64_t state;
static uint32_t below(uint32_t n) {
    uint64_t z = (state += 0x9e3779b97f4a7c15u);
    z = (z ^ (z >> 30)) * 0xbf58476d1ce4e5b9u;
    z = (z ^ (z >> 27)) * 0x94d049bb133111ebu;
    return (uint32_t)(((z ^ (z >> 31)) >> 32) * n >> 32);
}

static uint32_t some_bytes(void) {
    const uint32_t percent = below(100);
    if (percent < 70) return 8 + below(121);
    if (percent < 90) return 129 + below(384);
    return percent < 99 ? 513 + below(3584) : 4097 + below(61440);
}

static inline uint64_t stamp(void) {
    _mm_lfence();
    const uint64_t now = __rdtsc();
    _mm_lfence();
    return now;
}

static inline uint64_t stamp_after(void) {
    unsigned processor;
    const uint64_t now = __rdtscp(&processor);
    _mm_lfence();
    return now;
}

static uint64_t ticks_of_nothing(void) {
    uint64_t least = UINT64_MAX;
    for (int i = 0; i < 200000; i++) {
        const uint64_t from = stamp(), took = stamp_after() - from;
        if (took < least) least = took;
    }
    return least;
}

static double nanoseconds_of_tick(void) {
    const double from = nanoseconds();
    const uint64_t ticks = __rdtsc();
    while (nanoseconds() < from + SPEED_TIME) {}
    return (nanoseconds() - from) / (double)(__rdtsc() - ticks);
}

static void touch(const struct block *block, uint32_t bytes) {
    if (is_by_name) return;
    volatile char *const payload = block->at;
    payload[0] = payload[bytes - 1] = 1;
}

/* Makes the turns, and notes the ticks of each free and each malloc. */
static void run(void *heap, struct block *blocks, const struct turn *turns, uint32_t count, uint32_t *times) {
    for (uint32_t i = 0; i < count; i++) {
        struct block *const block = &blocks[turns[i].block];
        const uint32_t bytes = turns[i].bytes;
        (void)*(volatile uint64_t *)&block->name.serial; /* into the cache */
        uint64_t from = stamp();
        calls.release(heap, block);
        uint64_t to = stamp_after();
        if (times) times[2 * i + FREE] = (uint32_t)(to - from);
        from = stamp();
        const bool is_given = calls.allocate(heap, block, bytes);
        to = stamp_after();
        if (times) times[2 * i + MALLOC] = (uint32_t)(to - from);
        ends_if(!is_given, "a block");
        touch(block, bytes);
    }
}

static int rising(const void *a, const void *b) {
    const uint32_t x = *(const uint32_t *)a, y = *(const uint32_t *)b;
    return (x > y) - (x < y);
}

static void print(const char *as, const uint32_t *times, uint32_t count, uint32_t *some, double per_tick) {
    for (int which = MALLOC; which >= FREE; which--) {
        for (uint32_t i = 0; i < count; i++) some[i] = times[2 * i + (uint32_t)which];
        qsort(some, count, sizeof *some, rising);
        printf("%s%s:", as, names[is_by_name][which]);
        for (int k = 0; k < FIGURES; k++) printf(" %.0f", some[(size_t)((count - 1) * shares[k])] * per_tick);
        puts("");
    }
}

/* The least times so far, in a file that all runs of a column share. */
static uint32_t *least_times(const char *path, size_t bytes) {
    const int file = open(path, O_RDWR | O_CREAT, 0600);
    const off_t size = file < 0 ? -1 : lseek(file, 0, SEEK_END);
    ends_if(size < 0 || ftruncate(file, (off_t)bytes), "the file");
    uint32_t *const least = mmap(NULL, bytes, PROT_READ | PROT_WRITE, MAP_SHARED | MAP_POPULATE, file, 0);
    ends_if(least == MAP_FAILED, "the file");
    if (!size) memset(least, 255, bytes);
    return least;
}

int main(int argc, char **argv) {
    if (argc != 6) return 2;
    is_by_name = *argv[2] == 'n';
    calls = calls_of(argv[1], is_by_name);
    const uint32_t count = (uint32_t)atoi(argv[3]), first = count / 5;
    const double per_tick = nanoseconds_of_tick();
    const uint64_t nothing = ticks_of_nothing();
    struct turn *const turns = own_memory(sizeof *turns * (first + count));
    struct block *const blocks = own_memory(sizeof *blocks * LIVE);
    uint32_t *const times = own_memory(2 * sizeof *times * count);
    const size_t bytes = bytes_for(argv[1], WORDS);
    void *const heap = calls.open(argv[1], bytes, own_memory(bytes));
    ends_if(!heap, "the heap");
    for (uint32_t i = 0; i < first + count; i++) turns[i] = (struct turn){below(LIVE), some_bytes()};
    for (int i = 0; i < LIVE; i++) ends_if(!calls.allocate(heap, &blocks[i], some_bytes()), "a block");
    run(heap, blocks, turns, first, NULL);
    run(heap, blocks, turns + first, count, times);

    uint32_t *const least = least_times(argv[4], 2 * sizeof *times * count), *const some = own_memory(sizeof *some * count);
    for (size_t i = 0; i < 2 * (size_t)count; i++) {
        times[i] = times[i] > nothing ? times[i] - (uint32_t)nothing : 0;
        if (times[i] < least[i]) least[i] = times[i];
    }
    print("as it came, ", times, count, some, per_tick);
    if (*argv[5] == '1') print("", least, count, some, per_tick);
    return 0;
}
