/* The stack that a call takes which opens or closes something: painted before, and read after it. A heap's own fields are made where they
 * stay, so no copy of them lies on it. */
#define _POSIX_C_SOURCE 200809L /* for a thread on a stack of its own */
#include "peachanchor.h"

#include <pthread.h>
#include <stdint.h>
#include <stdio.h>
#include <stdlib.h>
#include <string.h>

enum { STACK = 1 << 17, PAINT = 0x5a, LEVELS = 2, OWN_FIELDS = 1000, ROWS = 3000 };

static _Alignas(4096) unsigned char stack[STACK];
static _Alignas(64) unsigned char memory[1 << 16];

static struct tlsf_heap heap = TLSF_CLOSED;
static struct tlsf_near_heap near_heap = TLSF_NEAR_CLOSED;
static struct tlsf_offsets offsets = TLSF_OFFSETS_CLOSED;
static struct tlsf_pools pools = TLSF_POOLS_CLOSED;
static uint32_t level, answer;

static void nothing(void) { answer = TLSF_OK; }
static void open_heap(void) { answer = tlsf_open_in(&heap, level, 1, memory, sizeof memory); }
static void reset_heap(void) { answer = tlsf_reset(&heap); }
static void close_heap(void) { answer = tlsf_close(&heap); }
static void open_by_malloc(void) { answer = tlsf_open(&heap, level, 1, 4000); }
static void open_near(void) { answer = tlsf_open_near_in(&near_heap, level, 1, memory, sizeof memory); }
static void close_near(void) { answer = tlsf_close(tlsf_near(&near_heap)); }
static void open_offsets(void) { answer = tlsf_offsets_open_in(&offsets, level, 1, 64, 1000, memory, sizeof memory); }
static void close_offsets(void) { answer = tlsf_offsets_close(&offsets); }
static void open_pools(void) {
    static const struct tlsf_kind rows[] = {{9, 24}, {8, 100}, {3, 1000}};
    answer = tlsf_pools_open_in(&pools, level, 1, rows, 3, memory, sizeof memory);
}
static void close_pools(void) { answer = tlsf_pools_close(&pools); }

/* In their order: each takes so many bytes at most. */
static const struct step {
    const char *name;
    void (*call)(void);
    size_t most;
} steps[] = {
    {"tlsf_open_in", open_heap, OWN_FIELDS},
    {"tlsf_reset", reset_heap, OWN_FIELDS},
    {"tlsf_close", close_heap, OWN_FIELDS},
    {"tlsf_open", open_by_malloc, OWN_FIELDS},
    {"tlsf_close", close_heap, OWN_FIELDS},
    {"tlsf_open_near_in", open_near, OWN_FIELDS},
    {"tlsf_close of a near heap", close_near, OWN_FIELDS},
    {"tlsf_offsets_open_in", open_offsets, OWN_FIELDS},
    {"tlsf_offsets_close", close_offsets, OWN_FIELDS},
    {"tlsf_pools_open_in", open_pools, ROWS},
    {"tlsf_pools_close", close_pools, OWN_FIELDS},
};

static void *on_stack(void *step) {
    ((const struct step *)step)->call();
    return NULL;
}

/* The bytes of a painted stack on which a thread wrote that makes the call. */
static size_t written_by(const struct step *step) {
    pthread_attr_t attributes;
    pthread_t thread;
    size_t k = 0;
    memset(stack, PAINT, sizeof stack);
    if (pthread_attr_init(&attributes) || pthread_attr_setstack(&attributes, stack, sizeof stack)) exit(2);
    if (pthread_create(&thread, &attributes, on_stack, (void *)(uintptr_t)step) || pthread_join(thread, NULL)) exit(2);
    pthread_attr_destroy(&attributes);
    while (k < sizeof stack && stack[k] == PAINT) k++;
    return sizeof stack - k;
}

int main(void) {
    const struct step none = {"nothing", nothing, 0};
    int wrong = 0;
    for (int round = 0; round < 2; round++) /* the first leaves no function to be found by its name */
        for (level = 4; level < 4 + LEVELS; level++) {
            const size_t least = written_by(&none);
            for (size_t k = 0; k < sizeof steps / sizeof *steps; k++) {
                const size_t taken = written_by(&steps[k]) - least;
                if (answer == TLSF_OK && (round == 0 || taken <= steps[k].most)) continue;
                printf("%s, level %u: answer %u, %zu bytes of stack, %zu at most\n", steps[k].name, (unsigned)level, (unsigned)answer,
                       taken, steps[k].most);
                wrong = 1;
            }
        }
    return wrong;
}
