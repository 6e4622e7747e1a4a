/* Counts the instructions of each call, one by one: a second process makes calls by chance, in heaps that are full of holes,
 * and this one stops it behind every instruction. What fills or copies payload isn't counted. Prints for each call the most
 * that one took. STEPS [CALLS] [SEED]
 * On another processor than x86-64 it only makes the calls, and tests/c/counted counts. */
#define _GNU_SOURCE
#include "peachanchor.h"

#include <signal.h>
#include <stdio.h>
#include <stdlib.h>
#ifdef __x86_64__
#include <sys/ptrace.h>
#include <sys/user.h>
#include <sys/wait.h>
#include <unistd.h>
#endif

/* Those that fill and copy payload, in place of the C library's, between addresses that are known. */
#ifdef __clang__
#define FILLS __attribute__((section("fills"), noinline, used, no_builtin))
#else
#define FILLS __attribute__((section("fills"), noinline, used, optimize("no-tree-loop-distribute-patterns")))
#endif
extern char __start_fills[], __stop_fills[];
FILLS void *memset(void *to, int byte, size_t n) {
    for (char *p = to; n--; p++) *p = (char)byte;
    return to;
}
FILLS void *memcpy(void *restrict to, const void *restrict from, size_t n) {
    const char *q = from;
    for (char *p = to; n--; p++) *p = *q++;
    return to;
}

FILLS void *memmove(void *to, const void *from, size_t n) { return memcpy(to, from, n); } /* blocks lie apart */

enum { MOST = 200 };

static int is_stopped; /* where the calls begin */
static uint64_t state;

static uint32_t below(uint32_t n) {
    state ^= state << 13;
    state ^= state >> 7;
    state ^= state << 17;
    return (uint32_t)((state >> 16) % n);
}

static struct tlsf_heap heap = TLSF_CLOSED;
static struct tlsf_name names[MOST];
static uint32_t live;

/* Blocks by place, among those that are known by their names. */
static void call_by_place(uint32_t kind, uint32_t k, uint32_t size) {
    struct tlsf_heap_counts counts;
    struct tlsf_block_info block;
    struct tlsf_placed it;
    uint32_t at = 0, len = 0;
    if (kind == 0 && live < MOST) {
        const size_t byte = tlsf_allocate_payload(&heap, size);
        if (byte != 0 && !tlsf_place(&heap, (uint32_t)(byte / 8) - 3, &names[live], &len)) live++;
    } else if (kind < 4 && live < MOST) {
        it = kind == 1 ? tlsf_allocate_place(&heap, size) : tlsf_allocate_aligned(&heap, size, 1u << below(6), below(2));
        if (!it.answer && !tlsf_place(&heap, it.at, &names[live], &len)) live++;
    } else if (kind < 7 && live) {
        if (!tlsf_release_place(&heap, names[k].at)) names[k] = names[--live];
    } else if (kind == 7) {
        if (tlsf_block_at(&heap, below(2) && live ? names[k].at : below(1u << 15), &block)) return;
    } else if (kind == 8) {
        tlsf_release_place(&heap, below(1u << 16) | 1u);
    } else if (live && below(4)) {
        if (!tlsf_resize_place(&heap, names[k].at, size, &at) && tlsf_place(&heap, at, &names[k], &len)) live--;
    } else if (tlsf_counts(&heap, &counts)) return;
}

static struct tlsf_offsets offsets = TLSF_OFFSETS_CLOSED;
static struct tlsf_queue queue = TLSF_QUEUE_CLOSED;
static struct tlsf_poster poster = TLSF_POSTER_CLOSED;
static struct tlsf_span spans[MOST];
static uint32_t held;
static struct tlsf_pools pools = TLSF_POOLS_CLOSED;
static const struct tlsf_kind rows[] = {{8, 64}, {2, 4096}};
static struct tlsf_name pooled[4];

/* The words of pools of eight rows, which may be cut into eight heaps: it searches for the cheapest way once. */
static int cut_a_table(void) {
    static const struct tlsf_kind table[] = {{9, 8}, {8, 24}, {7, 100}, {6, 500}, {5, 1000}, {4, 4000}, {3, 9000}, {2, 20000}};
    uint64_t words = 0;
    uint32_t heaps = 0;
    return tlsf_pools_words(4, table, sizeof table / sizeof *table, &words, &heaps) || words == 0;
}

/* Parts that are there and one that isn't, and places where a block begins or none. */
static uint32_t call_pools(void) {
    struct tlsf_name name;
    uint64_t *base;
    uint32_t number, len;
    const uint32_t part = below(3);
    if (below(2)) return tlsf_pools_part(&pools, part, &base, &number);
    return tlsf_pools_place(&pools, part, pooled[below(4)].at + (below(4) ? 0 : 1), &name, &len);
}

/* Spans of an arena that is full of holes, names of spans that aren't held, a queue that is full and empty, and pools. */
static void call_others(long calls) {
    struct tlsf_name name = {1, 0, 0};
    for (long i = 0; i < calls; i++) {
        const uint32_t kind = below(10), k = held ? below(held) : 0, size = below(3) ? below(64) : below(256);
        if (kind < 3 && held < MOST) {
            if (!tlsf_offsets_allocate(&offsets, size, &spans[held])) held++;
        } else if (kind < 5 && held) {
            if (!tlsf_offsets_release(&offsets, spans[k].name)) spans[k] = spans[--held];
        } else if (kind == 5 && held) {
            if (tlsf_offsets_resize(&offsets, &spans[k], size)) continue;
        } else if (kind == 6) {
            name.serial = (uint64_t)below(1000);
            tlsf_offsets_release(&offsets, name);
        } else if (kind == 7) {
            if (call_pools()) continue;
        } else {
            (void)(below(2) ? tlsf_queue_post(&poster, name) : tlsf_queue_take(&queue, &name));
        }
    }
}

/* The calls: sizes of all classes, names that are live and names that aren't, and a lane that is full and empty. */
static int make_calls(long calls) {
    struct tlsf_post_end post = TLSF_POST_CLOSED;
    struct tlsf_take_end take = TLSF_TAKE_CLOSED;
    struct tlsf_name name = {0, 0, 0};
    uint64_t *base = NULL;
    uint32_t len = 0;
    if (tlsf_open(&heap, 4 + below(2), 1, 1u << 15) || tlsf_lane_open(&post, &take, 8)) return 1;
    if (tlsf_offsets_open(&offsets, 4, 1, 1, 1u << 15) || tlsf_queue_open(&queue, 1, 8) || tlsf_poster_open(&queue, &poster)) return 1;
    if (tlsf_pools_open(&pools, 4, 1, rows, sizeof rows / sizeof *rows)) return 1;
    for (int i = 0; i < 4; i++)
        if (tlsf_pools_allocate(&pools, i < 2 ? 64 : 4096, &pooled[i])) return 1;
    if (is_stopped) raise(SIGSTOP); /* from here on each instruction is counted */
    for (long i = 0; i < calls; i++) {
        const uint32_t kind = below(10), k = live ? below(live) : 0, size = below(3) ? below(64) : below(256);
        if (i % 2) {
            call_by_place(kind, k, size);
        } else if (kind < 4 && live < MOST) {
            if (!tlsf_allocate(&heap, size, &names[live])) live++;
        } else if (kind < 7 && live) {
            if (!tlsf_release(&heap, names[k])) names[k] = names[--live];
        } else if (kind == 7 && live) {
            if (below(2) ? tlsf_resize(&heap, names[k], size) : tlsf_reallocate(&heap, &names[k], size)) continue;
        } else if (kind == 8) {
            name.serial = (uint64_t)below(1000);
            (void)(below(2) ? tlsf_release(&heap, name) : tlsf_locate(&heap, live ? names[k] : name, &base, &len));
        } else {
            (void)(below(2) ? tlsf_put(&post, name) : tlsf_take(&take, &name));
        }
    }
    call_others(calls);
    return cut_a_table();
}

#ifdef __x86_64__
static struct {
    const char *name;
    uintptr_t at;
    unsigned calls, most;
} counted[] = {
    {"tlsf_allocate", (uintptr_t)tlsf_allocate, 0, 0},
    {"tlsf_release", (uintptr_t)tlsf_release, 0, 0},
    {"tlsf_resize", (uintptr_t)tlsf_resize, 0, 0},
    {"tlsf_locate", (uintptr_t)tlsf_locate, 0, 0},
    {"tlsf_put", (uintptr_t)tlsf_put, 0, 0},
    {"tlsf_take", (uintptr_t)tlsf_take, 0, 0},
    {"tlsf_reallocate", (uintptr_t)tlsf_reallocate, 0, 0},
    {"tlsf_resize_place", (uintptr_t)tlsf_resize_place, 0, 0},
    {"tlsf_allocate_place", (uintptr_t)tlsf_allocate_place, 0, 0},
    {"tlsf_allocate_payload", (uintptr_t)tlsf_allocate_payload, 0, 0},
    {"tlsf_allocate_aligned", (uintptr_t)tlsf_allocate_aligned, 0, 0},
    {"tlsf_release_place", (uintptr_t)tlsf_release_place, 0, 0},
    {"tlsf_place", (uintptr_t)tlsf_place, 0, 0},
    {"tlsf_block_at", (uintptr_t)tlsf_block_at, 0, 0},
    {"tlsf_counts", (uintptr_t)tlsf_counts, 0, 0},
    {"tlsf_queue_post", (uintptr_t)tlsf_queue_post, 0, 0},
    {"tlsf_queue_take", (uintptr_t)tlsf_queue_take, 0, 0},
    {"tlsf_offsets_allocate", (uintptr_t)tlsf_offsets_allocate, 0, 0},
    {"tlsf_offsets_release", (uintptr_t)tlsf_offsets_release, 0, 0},
    {"tlsf_offsets_resize", (uintptr_t)tlsf_offsets_resize, 0, 0},
    {"tlsf_pools_part", (uintptr_t)tlsf_pools_part, 0, 0},
    {"tlsf_pools_place", (uintptr_t)tlsf_pools_place, 0, 0},
    {"cut_of_eight_rows", (uintptr_t)tlsf_pools_words, 0, 0}, /* has no bound of its own: tests/library_test */
};
enum { COUNT = sizeof counted / sizeof *counted };

static int refused(const char *what) {
    printf("steps: not counted, since %s is refused\n", what);
    return 77;
}

static int count(long calls) {
    struct user_regs_struct regs;
    unsigned long long back_at = 0;
    int status = 0, in = -1;
    unsigned steps = 0;
    const pid_t child = fork();
    if (child < 0) return refused("fork");
    if (!child) {
        is_stopped = 1;
        if (ptrace(PTRACE_TRACEME, 0, NULL, NULL)) _exit(77);
        _exit(make_calls(calls));
    }
    if (waitpid(child, &status, 0) != child || !WIFSTOPPED(status)) return refused("ptrace");
    while (!ptrace(PTRACE_SINGLESTEP, child, NULL, NULL) && waitpid(child, &status, 0) == child && WIFSTOPPED(status)) {
        if (WSTOPSIG(status) != SIGTRAP || ptrace(PTRACE_GETREGS, child, NULL, &regs)) return refused("single stepping");
        if (in < 0) {
            for (int k = 0; k < COUNT; k++)
                if (regs.rip == counted[k].at) in = k;
            back_at = regs.rsp + 8;
            steps = 0;
        } else if (regs.rsp == back_at) {
            counted[in].calls++;
            if (steps > counted[in].most) counted[in].most = steps;
            in = -1;
        }
        if (in >= 0 && (regs.rip < (uintptr_t)__start_fills || regs.rip >= (uintptr_t)__stop_fills)) steps++;
    }
    for (int k = 0; k < COUNT; k++) printf("%s %u in %u calls\n", counted[k].name, counted[k].most, counted[k].calls);
    return WIFEXITED(status) ? WEXITSTATUS(status) : 1;
}
#else
#define count make_calls
#endif

int main(int argc, char **argv) {
    const long calls = argc > 1 ? atol(argv[1]) : 5000;
    state = 88172645463325252ull + (argc > 2 ? strtoull(argv[2], NULL, 10) : 1) * 2654435761u;
    return count(calls);
}
