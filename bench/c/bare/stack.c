/* How much stack each call takes: it is painted before, and looked at behind. */
#include "bare.h"

enum { PAINTED = 12288 };
#define PAINT 0xdeadbeefu

#ifdef PEER
static held it;
static void opening(void) { (void)opens(); }
static void allocating(void) { (void)gets(&it, 100); }
static void freeing(void) { (void)gives(&it); }
#else
static struct tlsf_name name, other;
static struct tlsf_post_end post;
static struct tlsf_take_end take;
static void *p;
static struct tlsf_heap_report report;
static uint32_t next, damaged, came;
static _Alignas(8) uint8_t lane[2048], queue_memory[2048], pools_memory[8192];
static struct tlsf_queue queue;
static struct tlsf_pools pools;
static const struct tlsf_kind rows[] = {{4, 32}, {2, 100}};
#define CALL(of, call) \
    static void of(void) { (void)!(call); }
CALL(open_in, tlsf_open_in(&heap, 4, 7, memory, sizeof memory))
CALL(allocate, tlsf_allocate(&heap, 100, &name) | tlsf_allocate(&heap, 100, &other))
CALL(resize, tlsf_resize(&heap, other, 10))
CALL(release, tlsf_release(&heap, name))
CALL(malloc_of, (p = tlsf_malloc(&heap, 100)) == NULL)
CALL(realloc_of, (p = tlsf_realloc(&heap, p, 3000)) == NULL)
CALL(free_of, tlsf_free(&heap, p))
CALL(report_of, tlsf_report(&heap, &report))
CALL(check_of, tlsf_check(&heap, 0, 100, &next, &damaged))
CALL(lane_of, tlsf_lane_open_in(&post, &take, 8, lane, sizeof lane))
CALL(put_of, tlsf_put(&post, other))
CALL(drain_of, tlsf_drain(&heap, &take, 8, &came))
CALL(queue_of, tlsf_queue_open_in(&queue, 1, 8, queue_memory, sizeof queue_memory))
CALL(pools_of, tlsf_pools_open_in(&pools, 4, 8, rows, 2, pools_memory, sizeof pools_memory))
CALL(reset_of, tlsf_reset(&heap))
CALL(close_of, tlsf_close(&heap))
#endif

__attribute__((noinline)) static uint32_t depth_of(void call(void)) {
    volatile uint32_t *top;
#ifdef __riscv
    __asm__ volatile("mv %0, sp" : "=r"(top));
#else
    __asm__ volatile("mov %0, sp" : "=r"(top));
#endif
    volatile uint32_t *at = top - PAINTED;
    for (volatile uint32_t *k = at; k < top; k++) *k = PAINT;
    call();
    while (at < top && *at == PAINT) at++;
    return 4 * (uint32_t)(top - at);
}

int main(void) {
    static const struct {
        const char *name;
        void (*call)(void);
    } calls[] = {
#ifdef PEER
        {"open", opening},
        {"malloc", allocating},
        {"free", freeing},
#else
        {"open_in", open_in},        {"allocate", allocate},      {"resize", resize},  {"release", release},
        {"malloc", malloc_of},       {"realloc", realloc_of},     {"free", free_of},   {"report", report_of},
        {"check", check_of},         {"lane_open_in", lane_of},   {"put", put_of},     {"drain", drain_of},
        {"queue_open_in", queue_of}, {"pools_open_in", pools_of}, {"reset", reset_of}, {"close", close_of},
#endif
    };
    for (unsigned k = 0; k < sizeof calls / sizeof *calls; k++) tell_number(calls[k].name, depth_of(calls[k].call));
    return 0;
}
