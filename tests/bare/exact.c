/* A heap, an arena of offsets and pools in just the bytes that each says it takes: calls by chance leave all that lies around. EXACT LEVEL
 * BYTES, those of a heap's own fields. */
#include "peachanchor.h"

#include <stdio.h>
#include <stdlib.h>
#include <string.h>

enum { WORDS = 1024, PLACES = 40, ROWS = 2, FILLED = 0xa5, GUARD = 4096 };

static _Alignas(16) unsigned char room[6 * GUARD];
static uint32_t state = 1, level;
static int faults;

static void wants(const char *what, size_t got, size_t wanted) {
    if (got != wanted && faults++ < 20) printf("%s: %lu, and not %lu\n", what, (unsigned long)got, (unsigned long)wanted);
}

static uint32_t below(uint32_t n) { return (state = 1664525 * state + 1013904223) / 65536 % n; }

/* So many bytes, behind GUARD others. */
static void *filled(size_t bytes) {
    wants("there is room", bytes <= sizeof room - 2 * GUARD, 1);
    memset(room, FILLED, sizeof room);
    return room + GUARD;
}

/* The bytes around so many, that are as they were. */
static void untouched(const char *what, size_t bytes) {
    for (size_t k = 0; k < sizeof room; k++) {
        if ((k < GUARD || k >= GUARD + bytes) && room[k] != FILLED) wants(what, room[k], FILLED);
    }
}

static void in_a_heap(size_t own) {
    struct tlsf_heap heap = TLSF_CLOSED;
    void *given[PLACES] = {0};
    uint32_t next = 0, damaged = 0;
    const size_t bytes = tlsf_bytes(level, WORDS);
    wants("bytes of own fields", bytes - 15 - (8 * WORDS + 16) - (WORDS / 8 + 16) - 8, own);
    wants("open", tlsf_open_in(&heap, level, 1, filled(bytes), bytes), TLSF_OK);
    for (int turn = 0; turn < 4000; turn++) {
        const uint32_t at = below(PLACES), len = below(600);
        wants("free", tlsf_free(&heap, given[at]), TLSF_OK);
        given[at] = tlsf_malloc(&heap, len);
        if (given[at]) memset(given[at], turn, len);
    }
    wants("sound", tlsf_check(&heap, 0, UINT32_MAX, &next, &damaged), TLSF_OK);
    wants("reset", tlsf_reset(&heap), TLSF_OK);
    wants("close", tlsf_close(&heap), TLSF_OK);
    untouched("around a heap", bytes);
}

static void in_an_arena(void) {
    struct tlsf_offsets arena = TLSF_OFFSETS_CLOSED;
    struct tlsf_span given[PLACES] = {{{0, 0, 0}, 0, 0}};
    const size_t bytes = tlsf_offsets_bytes(level, WORDS);
    wants("open", tlsf_offsets_open_in(&arena, level, 1, 8, WORDS, filled(bytes), bytes), TLSF_OK);
    for (int turn = 0; turn < 4000; turn++) {
        const uint32_t at = below(PLACES);
        tlsf_offsets_release(&arena, given[at].name);
        if (tlsf_offsets_allocate(&arena, below(600), &given[at]) != TLSF_OK) memset(&given[at], 0, sizeof *given);
    }
    wants("close", tlsf_offsets_close(&arena), TLSF_OK);
    untouched("around an arena", bytes);
}

static void in_pools(void) {
    static const struct tlsf_kind rows[ROWS] = {{4, 24}, {3, 200}};
    struct tlsf_pools pools = TLSF_POOLS_CLOSED;
    struct tlsf_name given[PLACES] = {{0, 0, 0}};
    const size_t bytes = tlsf_pools_bytes(level, rows, ROWS);
    wants("open", tlsf_pools_open_in(&pools, level, 1, rows, ROWS, filled(bytes), bytes), TLSF_OK);
    for (int turn = 0; turn < 4000; turn++) {
        const uint32_t at = below(PLACES);
        tlsf_pools_release(&pools, given[at]);
        if (tlsf_pools_allocate(&pools, below(200), &given[at]) != TLSF_OK) memset(&given[at], 0, sizeof *given);
    }
    wants("close", tlsf_pools_close(&pools), TLSF_OK);
    untouched("around pools", bytes);
}

int main(int argc, char **argv) {
    if (argc < 3) return 2;
    level = (uint32_t)strtoul(argv[1], NULL, 10);
    in_a_heap(strtoul(argv[2], NULL, 10));
    in_an_arena();
    in_pools();
    return faults != 0;
}
