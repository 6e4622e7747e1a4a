/* Times opening a heap in new memory, and the first calls on it. bench/peers builds and runs it.
 *
 * FIRST COLUMN MEMORY, with the columns of column.h, prints 'MILLISECONDS FAULTS FAULTS WORST MEAN': what opening a heap of 2^20 words takes, and
 * its page faults; then the page faults of 10,000 allocates by pointer of 8 to 512 bytes, each of whose first byte is written, and nanoseconds
 * of the worst of them and in the mean, with that write. MEMORY is new (mmap), huge (MADV_HUGEPAGE before the first touch), locked
 * (MAP_LOCKED) or written (each byte, before opening). What the memory itself takes isn't counted. The system has memory of its own: new alone. */
#define _GNU_SOURCE
#include "column.h"

#include <sys/resource.h>

enum { FIRST = 10000, WORDS = 1 << 20, HUGE_PAGE = 2 << 20 };
static struct block blocks[FIRST];

static long faults(void) {
    struct rusage used;
    getrusage(RUSAGE_SELF, &used);
    return used.ru_minflt + used.ru_majflt;
}

/* At a multiple of a huge page. */
static void *memory_of(const char *kind, size_t bytes) {
    const int locked = *kind == 'l' ? MAP_LOCKED | MAP_POPULATE : 0;
    const size_t all = (bytes + 2 * (size_t)HUGE_PAGE) & ~((size_t)HUGE_PAGE - 1);
    char *at = mmap(NULL, all, PROT_READ | PROT_WRITE, MAP_PRIVATE | MAP_ANONYMOUS | locked, -1, 0);
    ends_if(at == MAP_FAILED, "memory of that kind");
    at += -(uintptr_t)at & (HUGE_PAGE - 1);
    if (*kind == 'h') ends_if(madvise(at, all - HUGE_PAGE, MADV_HUGEPAGE), "memory of that kind");
    if (*kind == 'w') memset(at, 1, bytes);
    return at;
}

int main(int argc, char **argv) {
    if (argc != 3 || !strchr("nhlw", *argv[2])) return 2;
    const struct calls calls = calls_of(argv[1], false);
    const size_t bytes = bytes_for(argv[1], WORDS);
    void *const memory = memory_of(argv[2], bytes);
    memset(blocks, 1, sizeof blocks); /* its pages are there */

    const long faults_before = faults();
    const double before = nanoseconds();
    void *const heap = calls.open(argv[1], bytes, memory);
    const double opening = nanoseconds() - before;
    ends_if(!heap, "the heap");
    const long faults_open = faults();

    double worst = 0, all = 0;
    uint32_t state = 1;
    for (int i = 0; i < FIRST; i++) {
        state = state * 1103515245 + 12345;
        const double from = nanoseconds();
        ends_if(!calls.allocate(heap, &blocks[i], 8 + (state >> 16) % 505), "a block");
        *(volatile char *)blocks[i].at = 1;
        const double took = nanoseconds() - from;
        all += took;
        if (took > worst) worst = took;
    }
    printf("%.3f %ld %ld %.0f %.0f\n", opening / 1e6, faults_open - faults_before, faults() - faults_open, worst, all / FIRST);
    return 0;
}
