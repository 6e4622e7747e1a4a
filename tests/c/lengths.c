/* Lengths that 32 bits don't hold are refused by each call that takes one, and cut by none: the names, places and numbers that a call
 * writes stay as they are, and each block too. LENGTHS [TURNS] [SEED] [LEVEL] */
#include "chance.h"
#include "peachanchor.h"

#include <string.h>

enum { WORDS = 4000, SHORT = 200 };

static struct tlsf_heap heap = TLSF_CLOSED;
static uint32_t level, refused;

/* One that would do if it were cut to 32 bits, or one of 32 bits that no region has. */
static size_t any_long(void) {
    const size_t cut = below(SHORT);
    switch (below(4)) {
    case 0: return SIZE_MAX - below(3000);
    case 1: return UINT32_MAX - below(3000);
#if SIZE_MAX > UINT32_MAX
    case 2: return ((size_t)1 << 32) * (1 + below(1000)) + cut;
    default: return ((size_t)1 << (32 + below(32))) + cut;
#else
    case 2: return ((size_t)1 << 29) * (1 + below(7)) + cut;
    default: return ((size_t)1 << (28 + below(4))) + cut;
#endif
    }
}

static void is_refused(const char *what, uint32_t answer, uint32_t wanted) {
    wants(what, answer, wanted);
    refused += wanted == TLSF_NO_FIT;
}

/* The calls on a live block: by its name, and by its place. */
static void resizes(struct tlsf_name *name, size_t len) {
    const struct tlsf_name before = *name;
    uint32_t at = 77;
    wants("resize", tlsf_resize(&heap, *name, len), TLSF_NO_ROOM);
    is_refused("reallocate", tlsf_reallocate(&heap, name, len), TLSF_NO_FIT);
    wants("the name as before", name->at == before.at && name->serial == before.serial && name->heap == before.heap, 1);
    is_refused("resize_place", tlsf_resize_place(&heap, name->at, len, &at), TLSF_NO_FIT);
    wants("the place as before", at, 77);
}

static void allocates(size_t len) {
    struct tlsf_name name = {9, 9, 9};
    is_refused("allocate", tlsf_allocate(&heap, len, &name), TLSF_NO_FIT);
    wants("no name", name.heap == 9 && name.at == 9 && name.serial == 9, 1);
    is_refused("allocate_place", tlsf_allocate_place(&heap, len).answer, TLSF_NO_FIT);
    is_refused("allocate_aligned", tlsf_allocate_aligned(&heap, len, 2, 0).answer, TLSF_NO_FIT);
    wants("malloc", tlsf_malloc(&heap, len) == NULL, 1);
    wants("calloc", tlsf_calloc(&heap, len, 1) == NULL, 1);
}

static void sizes(size_t len) {
    uint32_t words = 77;
    const size_t rounded = tlsf_rounded(len);
    wants("words", tlsf_words(level, 1 + below(9), len, &words), TLSF_BAD_SIZE);
    wants("no words", words, 77);
    wants("words of no blocks", tlsf_words(level, 0, len, &words) + words, 4);
    wants("rounded", rounded == SIZE_MAX || (rounded >= len && rounded - len < TLSF_ALIGN && (rounded + 24) % TLSF_ALIGN == 0), 1);
}

int main(int argc, char **argv) {
    const long turns = argc > 1 ? strtol(argv[1], NULL, 10) : 20000;
    struct tlsf_heap_counts counts = {0, 0, 0, 0};
    struct tlsf_name name = {0, 0, 0};
    unsigned char wanted[SHORT];
    state = 88172645463325252u + 7919 * (argc > 2 ? strtoul(argv[2], NULL, 10) : 0);
    level = argc > 3 ? (uint32_t)strtoul(argv[3], NULL, 10) : 4;
    memset(wanted, 0xa5, sizeof wanted);
    wants("open", tlsf_open(&heap, level, 1, WORDS), TLSF_OK);
    wants("a block", tlsf_allocate(&heap, SHORT, &name), TLSF_OK);
    memcpy(tlsf_payload(&heap, name, NULL), wanted, SHORT);
    for (turn = 0; turn < turns; turn++) {
        const size_t len = any_long();
        allocates(len);
        resizes(&name, len);
        sizes(len);
    }
    wants("the block as before", memcmp(tlsf_payload(&heap, name, NULL), wanted, SHORT) == 0, 1);
    wants("counts", tlsf_counts(&heap, &counts), TLSF_OK);
    wants("words in use", counts.words, 3 + SHORT / 8);
    wants("refusals", counts.refused, refused);
    wants("the longest", counts.longest_refused, UINT32_MAX);
    wants("close", tlsf_close(&heap), TLSF_OK);
    printf("level %u: %u refused\n", (unsigned)level, (unsigned)refused);
    return 0;
}
