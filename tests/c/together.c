/* Names that leave a lane or go into one together, up to 32 with one store. The thread at the other end then reads the line that counts
 * them once, and not once for each name. A signal after each instruction of a call looks from the other end: its first look that sees
 * something has to see 32 names, or 32 places. Of the inline drain it is 8, which takes a few names first. */
#define _GNU_SOURCE
#include "peachanchor.h"
#include "chance.h"
#include "stepping.h"

#include <signal.h>
#include <stdbool.h>
#include <string.h>

enum { MOST = 40 };

static struct tlsf_post_end post = TLSF_POST_CLOSED;
static struct tlsf_take_end take = TLSF_TAKE_CLOSED;
static struct tlsf_name names[MOST], spare[MOST], seen[MOST];
static volatile bool is_taken;            /* the signal's look takes names; else it puts some in */
static volatile size_t looks, sum, first; /* those that saw something, what all saw, and what the first did */

static void look(int signal) {
    size_t some = 0;
    (void)signal;
    const uint32_t answer = is_taken ? tlsf_take_all(&take, seen, 32, &some) : tlsf_put_all(&post, spare, 32, &some);
    if (answer != TLSF_OK || some == 0) return;
    if (looks++ == 0) first = some;
    sum += some;
}

static void begin(bool by_takes, uint32_t capacity) {
    wants("a lane", tlsf_lane_open(&post, &take, capacity), TLSF_OK);
    is_taken = by_takes;
    looks = sum = first = 0;
}

static void end(const char *what, size_t at_first, size_t in_all, size_t in_looks) {
    printf("%s: ", what);
    wants("seen at the first look", first, at_first);
    wants("seen in all", sum, in_all);
    wants("looks that saw some", looks, in_looks);
    printf("%zu, %zu at the first of %zu looks\n", in_all, at_first, in_looks);
    wants("close", tlsf_post_close(&post), TLSF_OK);
    wants("close", tlsf_take_close(&take), TLSF_OK);
}

static void put_together(void) {
    size_t went = 0;
    begin(true, 64);
    start_steps();
    const uint32_t answer = tlsf_put_all(&post, names, MOST, &went);
    stop_steps();
    wants("put all", answer, TLSF_OK);
    wants("all went", went, MOST);
    end("put", 32, MOST, 2);
}

/* A lane that is full of names. */
static void fill(uint32_t capacity) {
    size_t went = 0;
    begin(false, capacity);
    wants("fill it", tlsf_put_all(&post, names, capacity, &went), TLSF_OK);
    wants("it is full", went, capacity);
}

static void take_together(void) {
    size_t came = 0;
    fill(32);
    start_steps();
    const uint32_t answer = tlsf_take_all(&take, seen, 32, &came);
    stop_steps();
    wants("take all", answer, TLSF_OK);
    wants("all came", came, 32);
    end("taken", 32, 32, 1);
}

/* By the archive's drain, and by the one that is inline, which takes a few names first. */
static void drain_together(bool is_inline) {
    struct tlsf_heap heap = TLSF_CLOSED;
    uint32_t came = 0, answer;
    wants("a heap", tlsf_open(&heap, 4, 1, 4096), TLSF_OK);
    for (size_t k = 0; k < MOST; k++) wants("a block", tlsf_allocate(&heap, 8 + below(200), &names[k]), TLSF_OK);
    fill(MOST);
    start_steps();
    if (is_inline) answer = tlsf_drain(&heap, &take, MOST, &came);
    else answer = (tlsf_drain)(&heap, &take, MOST, &came);
    stop_steps();
    wants("drain", answer, TLSF_OK);
    wants("all came", came, MOST);
    end(is_inline ? "drained inline" : "drained", is_inline ? 8 : 32, MOST, 2);
    wants("close", tlsf_close(&heap), TLSF_OK);
}

int main(void) {
    struct sigaction action;
    memset(&action, 0, sizeof action);
    action.sa_handler = look;
    if (sigaction(SIGTRAP, &action, NULL)) return 2;
    state = 1;
    put_together();
    take_together();
    drain_together(false);
    drain_together(true);
    return 0;
}
