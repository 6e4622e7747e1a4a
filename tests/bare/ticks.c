/* An interrupt handler beside the main loop, on a Cortex-M: SysTick comes after so many cycles as the word says, whatever the main loop does
 * then. The handler has the take end of one lane and the post end of another: it takes names of the first, looks at their payload, and puts
 * them into the second. The main loop allocates, posts, drains and closes nothing meanwhile. Each name has to come once, in its order, whole.
 * It prints how many came while the main loop was in a call of a lane's. TICKS EVERY. */
#include <peachanchor.h>

#include <stdio.h>
#include <stdlib.h>

enum { BLOCKS = 20000, LANE = 4 };

static unsigned char memory[1 << 15], there_memory[1 << 11], back_memory[1 << 11];
static struct tlsf_heap heap;
static struct tlsf_post_end there_post, back_post;
static struct tlsf_take_end there_take, back_take;
static uint64_t *base;

static volatile bool is_in_call;
static volatile uint32_t ticks, ticks_in_call, seen, wrong;

#define REGISTER(at) (*(volatile uint32_t *)(at))

void on_tick(void);
void on_tick(void) {
    static struct tlsf_name name;
    static bool has_one;
    ticks++;
    if (is_in_call) ticks_in_call++;
    if (!has_one) {
        if (tlsf_take(&there_take, &name) != TLSF_OK) return;
        has_one = true;
        const uint32_t *const number = tlsf_at(base, name);
        if (*number != seen++) wrong++;
    }
    if (tlsf_put(&back_post, name) == TLSF_OK) has_one = false;
}

/* The first of these that fails ends it. */
static void wants(const char *what, uint64_t got, uint64_t wanted) {
    if (got == wanted) return;
    printf("%s: %lu, and not %lu\n", what, (unsigned long)got, (unsigned long)wanted);
    exit(1);
}

static bool posts(uint32_t number) {
    struct tlsf_name name;
    wants("a block", tlsf_allocate(&heap, 4 + number % 100, &name), TLSF_OK);
    *(uint32_t *)tlsf_payload(&heap, name, NULL) = number;
    is_in_call = true;
    const uint32_t answer = tlsf_put(&there_post, name);
    is_in_call = false;
    if (answer == TLSF_OK) return true;
    wants("a lane that is full", answer, TLSF_FULL);
    wants("it goes back", tlsf_release(&heap, name), TLSF_OK);
    return false;
}

static void runs(void) {
    for (uint32_t number = 0, back = 0, came; back < BLOCKS; back += came) {
        if (number < BLOCKS && posts(number)) number++;
        is_in_call = true;
        const uint32_t answer = tlsf_drain(&heap, &back_take, LANE, &came);
        is_in_call = false;
        wants("a drain", answer, TLSF_OK);
    }
}

int main(int count, char **words) {
    struct tlsf_heap_report report;
    const uint32_t every = count == 2 ? (uint32_t)atoi(words[1]) : 0;
    wants("one word", every >= 100, true);
    wants("a heap", tlsf_open_in(&heap, 4, 1, memory, sizeof memory), TLSF_OK);
    wants("a lane", tlsf_lane_open_in(&there_post, &there_take, LANE, there_memory, sizeof there_memory), TLSF_OK);
    wants("another", tlsf_lane_open_in(&back_post, &back_take, LANE, back_memory, sizeof back_memory), TLSF_OK);
    base = tlsf_base(&heap);
    REGISTER(0xe000e014) = every - 1;
    REGISTER(0xe000e018) = 0;
    REGISTER(0xe000e010) = 7;
    runs();
    REGISTER(0xe000e010) = 0;
    wants("in their order", wrong, 0);
    wants("all of them", seen, BLOCKS);
    wants("interrupts within calls", ticks_in_call > ticks / 100, true);
    wants("a report", tlsf_report(&heap, &report), TLSF_OK);
    wants("none is left", report.live_blocks, 0);
    printf("%lu interrupts, %lu within a call of a lane's\n", (unsigned long)ticks, (unsigned long)ticks_in_call);
    return 0;
}
