/* usage: PROGRAM [--times] [FILE]
 * Runs the workload of a real program (harness.h) in children:
 *   1. on malloc, for its answers;
 *   2. on a large heap. Each block is filled when it comes and before it goes, and each free is tried again, to be refused. The
 *      calls are recorded. They are replayed for the least heap that refuses none, within a thousandth;
 *   3. on a heap of that size, where none may be refused;
 *   4. on nine tenths of it, where some are refused, and the program has to end in order all the same.
 * The answers of 1, 2 and 3 are the same, byte for byte. All blocks come back to each heap, and are one free block then: those
 * that the program keeps for good are counted, and released after it has ended.
 *   --times: then 15 runs on malloc, on malloc with its memory touched beforehand, and on the heap of 3. The time of a call is
 *      the least of the same call in all runs, and the worst is the greatest of these.
 * A line with the figures goes to standard output, and one for each fault to standard error; then the exit status is 1. */
#define _GNU_SOURCE
#include "harness.h"

#include <peachanchor.h>

#include <malloc.h>
#include <stdarg.h>
#include <stdio.h>
#include <stdlib.h>
#include <string.h>
#include <sys/mman.h>
#include <sys/personality.h>
#include <sys/wait.h>
#include <time.h>
#include <unistd.h>
#include <x86intrin.h>

enum { LEVEL = 5, WORDS = 1 << 22, MOST_CALLS = 1 << 21, MOST_ANSWER = 1 << 22, RUNS = 15, GUARD = 64 };
enum { SHORT = 4096, SHORT_HOLDS = 4104 }; /* bytes that are asked for, and those that a block of as many holds */
enum { MEMORY = 8 * WORDS + WORDS / 8 + 8192 };
enum place { ON_HEAP, ON_MALLOC, ON_READY_MALLOC, PLACES };
enum op { TAKE, CHANGE, GIVE };
enum what { WORK, RECORD, NOTE, TIME };

struct call {
    uint32_t op, label, len; /* the label of a block is the number of the call that it came by */
};

/* A call of a program that is timed: some make others where addresses are others, or blocks hold more. */
struct noted {
    uint32_t op, len;
    bool is_long;
};

/* What a child is to do. */
struct run {
    enum place place;
    uint32_t words;
    enum what what;
};

/* What a child tells its parent. */
struct told {
    bool is_done, did_all, is_whole;
    uint32_t calls, given, refused, left, most_words, wrong, strays;
    uint64_t asked, most_asked;
    uint32_t peak_blocks, peak_words;
    uint64_t nanoseconds;
    double over; /* bytes of a block beside those asked for */
    size_t said;
    char answer[MOST_ANSWER];
};

static struct told *told;
static struct call *trace;
static struct noted *noted[PLACES];
static uint32_t *least[PLACES]; /* the least ticks of each call */
static uint32_t counts[PLACES], noted_count;
static struct run now;
static bool measures;
static size_t held; /* what the block held that is changed or given back */
static struct tlsf_heap heap = TLSF_CLOSED;
static _Alignas(4096) unsigned char memory[MEMORY + GUARD];
static uint32_t label_at[WORDS], len_at[WORDS];
static uint32_t recorded;
static int faults;

/* Some libraries seed their hashes by the time: it is the same in each run. */
time_t time(time_t *to) {
    if (to != NULL) *to = 1700000000;
    return 1700000000;
}

/* --- What the workload says -------------------------------------------------------------------------------------------- */

void say_bytes(const void *bytes, size_t n) {
    if (n > MOST_ANSWER - told->said) {
        told->wrong++;
        return;
    }
    memcpy(told->answer + told->said, bytes, n);
    told->said += n;
}

void say(const char *format, ...) {
    char line[1024];
    va_list words;
    va_start(words, format);
    const int n = vsnprintf(line, sizeof line, format, words);
    va_end(words);
    if (n < 0 || (size_t)n >= sizeof line) told->wrong++;
    else say_bytes(line, (size_t)n);
}

/* --- The hook ---------------------------------------------------------------------------------------------------------- */

static uint64_t ticks(void) {
    _mm_lfence();
    const uint64_t t = __rdtsc();
    _mm_lfence();
    return t;
}

static uint64_t begin(void *p) {
    if (now.what == NOTE) held = p != NULL ? hook_usable_size(p) : 0;
    return measures ? ticks() : 0;
}

/* After each call: its ticks, where they are asked for, and whether the same call was noted there. */
static void end(uint64_t from, enum op op, size_t n) {
    const uint64_t took = measures ? ticks() - from : 0;
    const uint32_t k = told->calls++;
    if (k >= MOST_CALLS) {
        told->wrong++;
        return;
    }
    struct noted *it = &noted[now.place][k];
    if (now.what == NOTE) *it = (struct noted){(uint32_t)op, (uint32_t)n, n > SHORT || held > SHORT_HOLDS};
    if (!measures) return;
    if (k >= noted_count || it->op != (uint32_t)op || it->len != (uint32_t)n) told->strays++;
    else if (took < least[now.place][k]) least[now.place][k] = (uint32_t)took;
}

static uint32_t place_of(const void *p) { return (uint32_t)(((uintptr_t)p - (uintptr_t)heap.base) / 8) % WORDS; }

/* The wanted bytes of live blocks, and the blocks and words at their peak. */
static void count_asked(uint32_t more, uint32_t less) {
    struct tlsf_heap_counts at;
    told->asked = told->asked + more - less;
    if (told->asked <= told->most_asked) return;
    told->most_asked = told->asked;
    told->peak_blocks = told->given;
    if (tlsf_counts(&heap, &at) == TLSF_OK) told->peak_words = at.words;
}

static void record(enum op op, uint32_t label, size_t n) {
    if (recorded == MOST_CALLS) told->wrong++;
    else trace[recorded++] = (struct call){(uint32_t)op, label, (uint32_t)n};
}

/* What comes is filled, unless it has to be zero. */
static void record_take(unsigned char *p, size_t n, bool is_zero) {
    const uint32_t k = place_of(p);
    const size_t size = tlsf_usable_size(&heap, p);
    told->wrong += (uintptr_t)p % 16 != 0 || size < n;
    record(TAKE, recorded, n);
    label_at[k] = recorded - 1;
    len_at[k] = (uint32_t)n;
    count_asked((uint32_t)n, 0);
    for (size_t b = 0; is_zero && b < n; b++) told->wrong += p[b] != 0;
    if (!is_zero) memset(p, 0xaa, size);
}

/* A block is changed: its bytes stay, up to the smaller length, and so do those of the old block where it is refused. */
static void *recorded_change(unsigned char *p, size_t n) {
    const size_t had = tlsf_usable_size(&heap, p), stay = had < n ? had : n;
    unsigned char *before = malloc(had + 1);
    if (before == NULL) return NULL;
    memcpy(before, p, had);
    unsigned char *to = tlsf_realloc(&heap, p, n);
    told->wrong += had == 0 || memcmp(to != NULL ? to : p, before, to != NULL ? stay : had) != 0;
    free(before);
    return to;
}

static void record_change(const void *old, void *p, size_t n) {
    const uint32_t from = place_of(old), to = place_of(p), label = label_at[from], had = len_at[from];
    told->wrong += (uintptr_t)p % 16 != 0 || tlsf_usable_size(&heap, p) < n;
    record(CHANGE, label, n);
    label_at[to] = label;
    len_at[to] = (uint32_t)n;
    count_asked((uint32_t)n, had);
}

static void record_give(void *p) {
    void *const within = (unsigned char *)p + 8;
    const size_t size = tlsf_usable_size(&heap, p);
    record(GIVE, label_at[place_of(p)], 0);
    count_asked(0, len_at[place_of(p)]);
    memset(p, 0xdd, size);
    told->wrong +=
        size == 0 || tlsf_free(&heap, within) != TLSF_STALE || tlsf_free(&heap, p) != TLSF_OK || tlsf_free(&heap, p) != TLSF_STALE;
}

static void *taken(void *p, size_t n, bool is_zero) {
    if (p == NULL) {
        told->refused++;
        return NULL;
    }
    told->given++;
    if (now.what == RECORD) record_take(p, n, is_zero);
    return p;
}

void *hook_malloc(size_t n) {
    const uint64_t from = begin(NULL);
    void *p = now.place == ON_HEAP ? tlsf_malloc(&heap, n) : malloc(n);
    end(from, TAKE, n);
    return taken(p, n, false);
}

void *hook_calloc(size_t count, size_t each) {
    const uint64_t from = begin(NULL);
    void *p = now.place == ON_HEAP ? tlsf_calloc(&heap, count, each) : calloc(count, each);
    end(from, TAKE, count * each);
    return taken(p, count * each, true);
}

void *hook_realloc(void *p, size_t n) {
    if (p == NULL) return hook_malloc(n);
    if (n == 0) n = 1; /* what C leaves open for 0 isn't asked */
    const uintptr_t old = (uintptr_t)p;
    const uint64_t from = begin(p);
    void *to = now.what == RECORD ? recorded_change(p, n) : now.place == ON_HEAP ? tlsf_realloc(&heap, p, n) : realloc(p, n);
    end(from, CHANGE, n);
    told->refused += to == NULL;
    if (to != NULL && now.what == RECORD) record_change((const void *)old, to, n);
    return to;
}

void hook_free(void *p) {
    if (p == NULL) return;
    if (now.what == RECORD) {
        told->calls++;
        record_give(p);
    } else {
        const uint64_t from = begin(p);
        if (now.place != ON_HEAP) free(p);
        else if (tlsf_free(&heap, p) != TLSF_OK) told->wrong++;
        end(from, GIVE, 0);
    }
    told->given--;
}

size_t hook_usable_size(void *p) { return now.place == ON_HEAP ? tlsf_usable_size(&heap, p) : malloc_usable_size(p); }

/* --- A child ----------------------------------------------------------------------------------------------------------- */

static uint64_t nanoseconds(clockid_t clock) {
    struct timespec t;
    clock_gettime(clock, &t);
    return (uint64_t)t.tv_sec * 1000000000u + (uint64_t)t.tv_nsec;
}

/* The memory may hold anything, and all of it was touched. */
static bool open_heap(uint32_t words) {
    const size_t bytes = tlsf_bytes(LEVEL, words);
    if (bytes == 0 || bytes > MEMORY) return false;
    memset(memory, 0xa5, bytes + GUARD);
    return tlsf_open_in(&heap, LEVEL, 1, memory, bytes) == TLSF_OK;
}

/* Looks at each block, 100 at a time. */
static bool is_sound(void) {
    uint32_t from = 0, damaged = 0, looks = 0;
    do {
        if (tlsf_check(&heap, from, 100, &from, &damaged) != TLSF_OK) return false;
    } while (from != 0 && ++looks < WORDS);
    return from == 0;
}

/* Releases what the program keeps for good; how many blocks these are. */
static uint32_t release_left(void) {
    struct tlsf_block_info block;
    uint32_t left = 0, at = 0;
    while (left <= told->given && tlsf_block_at(&heap, at, &block) == TLSF_OK) {
        if (block.is_live == 0) at += block.size;
        else if (tlsf_free(&heap, heap.base + at + 3) != TLSF_OK) break;
        else left++, at = 0;
    }
    return left;
}

static void close_heap(void) {
    struct tlsf_heap_report report;
    struct tlsf_heap_counts counted;
    if (tlsf_report(&heap, &report) != TLSF_OK || tlsf_counts(&heap, &counted) != TLSF_OK) return;
    const uint32_t words = report.live_words + report.free_words;
    told->is_whole =
        is_sound() && counted.words == report.live_words && counted.refused == told->refused && report.live_blocks == told->given;
    told->most_words = counted.most_words;
    told->left = release_left();
    told->is_whole &= tlsf_report(&heap, &report) == TLSF_OK && told->left == told->given && report.live_blocks == 0 &&
                      report.free_blocks == 1 && report.free_words == words && is_sound() && tlsf_close(&heap) == TLSF_OK;
    for (size_t k = 0; k < GUARD; k++) told->is_whole &= memory[tlsf_bytes(LEVEL, now.words) + k] == 0xa5;
}

/* malloc never gives memory back to the system, and begins with enough, which is touched. */
static void ready_malloc(size_t bytes) {
    mallopt(M_MMAP_MAX, 0);
    mallopt(M_TRIM_THRESHOLD, 1 << 30);
    mallopt(M_TOP_PAD, 1 << 20);
    void *p = malloc(bytes);
    if (p != NULL) memset(p, 0xa5, bytes);
    free(p);
}

/* The code of each call is in memory, so that what the first one of a process costs isn't measured. */
static void warm_up(void) {
    void *p = hook_realloc(hook_malloc(64), 128), *q = hook_calloc(4, 16);
    hook_free(p);
    hook_free(q);
    told->calls = 0;
    measures = now.what == TIME;
}

static void child(const char *file) {
    alarm(600);
    if (now.place == ON_HEAP && !open_heap(now.words)) _exit(3);
    if (now.place == ON_READY_MALLOC) ready_malloc(16 * (size_t)now.words);
    if (now.what != RECORD) warm_up();
    const uint64_t from = nanoseconds(CLOCK_PROCESS_CPUTIME_ID);
    told->did_all = program_work(file);
    told->nanoseconds = nanoseconds(CLOCK_PROCESS_CPUTIME_ID) - from;
    if (now.place == ON_HEAP) close_heap();
    told->is_done = true;
    fflush(NULL);
    _exit(0);
}

/* --- The parent -------------------------------------------------------------------------------------------------------- */

static void fault(const char *what, long number) {
    fprintf(stderr, "%s: %s (%ld)\n", program_name, what, number);
    faults++;
}

static void *shared(size_t bytes) {
    void *p = mmap(NULL, bytes, PROT_READ | PROT_WRITE, MAP_SHARED | MAP_ANONYMOUS, -1, 0);
    if (p == MAP_FAILED) {
        fprintf(stderr, "%s: there is no memory for the harness\n", program_name);
        exit(2);
    }
    return p;
}

/* Waits for a child, which is `pid`. */
static void wait_for(pid_t pid) {
    int status = 0;
    if (pid < 0 || waitpid(pid, &status, 0) != pid || status != 0 || !told->is_done) fault("a run doesn't come to its end", status);
}

static void begin_run(struct run it) {
    memset(told, 0, offsetof(struct told, answer));
    now = it;
    fflush(NULL);
}

static void run(enum place place, uint32_t words, enum what what, const char *file) {
    begin_run((struct run){place, words, what});
    const pid_t pid = fork();
    if (pid == 0) child(file);
    wait_for(pid);
    if (told->wrong != 0) fault("wrong pointers, refused frees, or too much for the harness", (long)told->wrong);
    if (place == ON_HEAP && told->is_done && !told->is_whole) fault("not all of the heap came back, or it isn't sound", (long)told->left);
}

/* The calls once more, on a heap of these words: none is refused. */
static bool serves(uint32_t words) {
    static void *blocks[MOST_CALLS];
    bool all = open_heap(words);
    for (uint32_t k = 0; all && k < recorded; k++) {
        void **block = &blocks[trace[k].label];
        void *p = NULL;
        if (trace[k].op == GIVE) {
            all = tlsf_free(&heap, *block) == TLSF_OK;
            continue;
        }
        p = trace[k].op == TAKE ? tlsf_malloc(&heap, trace[k].len) : tlsf_realloc(&heap, *block, trace[k].len);
        all = p != NULL;
        if (all) *block = p;
    }
    tlsf_close(&heap);
    return all;
}

/* A child: the same calls on malloc, and what its blocks take at that peak, which is what they can hold and one word each. */
static void weigh_malloc(void) {
    static void *blocks[MOST_CALLS];
    static uint32_t len_of[MOST_CALLS];
    uint64_t asked = 0, taken = 0, most = 0, count = 0;
    for (uint32_t k = 0; k < recorded; k++) {
        const uint32_t label = trace[k].label;
        if (blocks[label] != NULL) asked -= len_of[label], taken -= malloc_usable_size(blocks[label]) + 8, count--;
        if (trace[k].op == GIVE) free(blocks[label]), blocks[label] = NULL;
        else blocks[label] = realloc(blocks[label], trace[k].len), len_of[label] = trace[k].len;
        if (blocks[label] != NULL) asked += len_of[label], taken += malloc_usable_size(blocks[label]) + 8, count++;
        if (asked > most) most = asked, told->over = (double)(taken - asked) / (double)count;
    }
    told->is_done = true;
    _exit(0);
}

static double over_of_malloc(void) {
    begin_run((struct run){ON_MALLOC, 0, WORK});
    const pid_t pid = fork();
    if (pid == 0) weigh_malloc();
    wait_for(pid);
    return told->over;
}

/* The least even number of words that serves, within a thousandth; `from` words are in use at once. */
static uint32_t least_words(uint32_t from) {
    uint32_t low = (from - 1) & ~1u, step = from / 64 + 2, high = low + (step & ~1u);
    while (high < WORDS && !serves(high)) low = high, step *= 2, high = low + (step & ~1u);
    while (high - low > 2 && high - low > low / 1000) {
        const uint32_t middle = ((low + high) / 2) & ~1u;
        if (serves(middle)) high = middle;
        else low = middle;
    }
    return high;
}

/* The greatest of the least times, in ticks, of calls on at most SHORT bytes, or on more: those asked for, or those of the block
 * that goes. */
static uint32_t worst(enum place place, bool is_long) {
    uint32_t most = 0;
    for (uint32_t k = 0; k < counts[place]; k++) {
        const uint32_t took = least[place][k];
        if (noted[place][k].is_long == is_long && took > most && took != UINT32_MAX) most = took;
    }
    return most;
}

static double ticks_a_microsecond(void) {
    const uint64_t from = nanoseconds(CLOCK_MONOTONIC), begun = ticks();
    while (nanoseconds(CLOCK_MONOTONIC) - from < 50000000) {}
    return (double)(ticks() - begun) * 1000.0 / (double)(nanoseconds(CLOCK_MONOTONIC) - from);
}

/* Two runs more at a place; `whole` is the least processor time of the work there, in nanoseconds. */
static void measure_again(enum place place, uint32_t words, const char *file, double *whole) {
    noted_count = counts[place];
    run(place, words, TIME, file);
    if (told->strays != 0 || told->calls != noted_count) fault("other calls in another run", (long)told->strays);
    run(place, words, WORK, file);
    if ((double)told->nanoseconds < *whole) *whole = (double)told->nanoseconds;
}

/* The places take turns, so that a busy while of the machine falls on all. */
static void measure(uint32_t words, const char *file) {
    double whole[PLACES], rate = ticks_a_microsecond();
    for (int place = 0; place < PLACES; place++) {
        memset(least[place], 0xff, MOST_CALLS * sizeof **least);
        whole[place] = 1e18;
        run((enum place)place, words, NOTE, file);
        counts[place] = told->calls;
    }
    for (int k = 0; k < RUNS; k++)
        for (int place = 0; place < PLACES; place++) measure_again((enum place)place, words, file, &whole[place]);
    printf(" %7.1f %5.2f %5.2f", whole[ON_HEAP] / 1e6, whole[ON_HEAP] / whole[ON_MALLOC], whole[ON_HEAP] / whole[ON_READY_MALLOC]);
    for (int is_long = 0; is_long < 2; is_long++)
        for (int place = 0; place < PLACES; place++) printf(" %8.1f", worst((enum place)place, is_long != 0) / rate);
}

static bool says(const char *answer, size_t said) { return told->said == said && memcmp(told->answer, answer, said) == 0; }

/* Runs 1 to 4; the words of the least heap. */
static uint32_t compare(const char *file) {
    run(ON_MALLOC, 0, WORK, file);
    const size_t said = told->said;
    char *answer = malloc(said + 1);
    if (answer == NULL || !told->did_all || said == 0) fault("the workload isn't done on malloc", (long)said);
    else memcpy(answer, told->answer, said);
    const uint32_t left = told->given;
    run(ON_HEAP, WORDS, RECORD, file);
    if (!told->did_all || told->refused != 0 || !says(answer, said)) fault("other answers on a large heap", (long)told->refused);
    recorded = told->calls;
    const uint64_t asked = told->most_asked;
    const uint32_t most_words = told->most_words;
    const double over = (8.0 * told->peak_words - (double)asked) / told->peak_blocks, malloc_over = over_of_malloc();
    const uint32_t words = least_words(most_words);
    run(ON_HEAP, words, WORK, file);
    if (!told->did_all || told->refused != 0) fault("refused in the heap that the recorded run names", (long)told->refused);
    if (!says(answer, said)) fault("other answers in the heap that the recorded run names", (long)words);
    if (told->left != left) fault("other blocks are kept than on malloc", (long)told->left - (long)left);
    printf("%-9s %-8s %7u %8llu %8u %5.2f %5.1f %6.1f %5u", program_name, program_version(), (unsigned)recorded, (unsigned long long)asked,
           (unsigned)words, 8.0 * words / (double)asked, over, malloc_over, (unsigned)left);
    run(ON_HEAP, words / 10 * 9 & ~1u, WORK, file);
    if (told->refused == 0) fault("nothing is refused in nine tenths of that heap", (long)words);
    printf(" %7u", (unsigned)told->refused);
    free(answer);
    return words;
}

/* Addresses are the same in each run, where the system lets them: some programs hash by them. */
static void settle(char **argv) {
    static char path[] = "PATH=/usr/bin:/bin", locale[] = "LC_ALL=C", settled[] = "SETTLED=1";
    char *environment[] = {path, locale, settled, NULL};
    if (getenv("SETTLED") != NULL) return;
    personality(ADDR_NO_RANDOMIZE);
    execve("/proc/self/exe", argv, environment);
}

int main(int argc, char **argv) {
    settle(argv);
    const bool times = argc > 1 && strcmp(argv[1], "--times") == 0;
    const char *file = argc > 1 + times ? argv[1 + times] : NULL;
    told = shared(sizeof *told);
    trace = shared(MOST_CALLS * sizeof *trace);
    for (int place = 0; place < PLACES; place++) {
        noted[place] = shared(MOST_CALLS * sizeof **noted);
        least[place] = shared(MOST_CALLS * sizeof **least);
    }
    const uint32_t words = compare(file);
    if (times && faults == 0) measure(words, file);
    printf("\n");
    return faults != 0;
}
