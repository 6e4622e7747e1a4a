/* Numbers by chance, the same in each run from one start (xorshift64), and what a test says before it ends as wrong. */
#ifndef CHANCE_H
#define CHANCE_H
#include <stddef.h>
#include <stdint.h>
#include <stdio.h>
#include <stdlib.h>

/* A length that 32 bits don't hold; where size_t has no more, one that no region has. */
#if SIZE_MAX > UINT32_MAX
#define PAST_32 ((size_t)1 << 32)
#else
#define PAST_32 ((size_t)1 << 30)
#endif

static uint64_t state; /* never 0 */
static long turn;      /* which call, or which turn of calls, is tried */

static uint32_t below(uint32_t n) {
    state ^= state << 13;
    state ^= state >> 7;
    state ^= state << 17;
    return (uint32_t)((state >> 16) % n);
}

static void wants(const char *what, uint64_t got, uint64_t wanted) {
    if (got == wanted) return;
    printf("turn %ld: %s: %llu, and not %llu\n", turn, what, (unsigned long long)got, (unsigned long long)wanted);
    exit(1);
}
#endif
