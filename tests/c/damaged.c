/* Writes past the end of a payload, and has tlsf_check look: it tells the block, follows nothing outside of the heap's memory, and
 * leaves all as it is. Before that it finds nothing, in slices of any size. DAMAGED [TURNS] [SEED] */
#define _DEFAULT_SOURCE
#include "chance.h"
#include "peachanchor.h"

#include <string.h>
#include <sys/mman.h>

enum { WORDS = 3000, MOST = 300, PAGE = 4096, GUARD = 16 * PAGE };

static struct tlsf_heap heap = TLSF_CLOSED;
static void *given[MOST];
static bool begins[WORDS + 1];

/* Memory between pages that nobody may touch. */
static unsigned char *guarded(size_t bytes) {
    unsigned char *all = mmap(NULL, bytes + 2 * GUARD, PROT_NONE, MAP_PRIVATE | MAP_ANONYMOUS, -1, 0);
    if (all == MAP_FAILED || mprotect(all + GUARD, bytes, PROT_READ | PROT_WRITE) != 0) exit(2);
    return all + GUARD;
}

static void fill_heap(void) {
    for (int k = 0; k < MOST; k++) given[k] = tlsf_malloc(&heap, below(200));
    for (int k = 0; k < MOST; k++) {
        if (given[k] && below(3) == 0) {
            wants("free", tlsf_free(&heap, given[k]), TLSF_OK);
            given[k] = NULL;
        }
    }
}

/* All is sound, and each slice ends where a block begins: the next one goes on there. */
static void check_sound(void) {
    struct tlsf_block_info it = {0, 0, 0, 0, 0};
    uint32_t at = 0, next = 0, damaged = 77, blocks = 0, seen = 0;
    memset(begins, 0, sizeof begins);
    for (; tlsf_block_at(&heap, at, &it) == TLSF_OK; at += it.size) begins[at] = true, blocks++;
    at = 0;
    do {
        const uint32_t most = 1 + below(7);
        wants("a sound slice", tlsf_check(&heap, at, most, &next, &damaged), TLSF_OK);
        seen += most;
        wants("the next block", begins[next], 1);
        wants("as many blocks as were asked for", next == 0 ? seen >= blocks : seen < blocks, 1);
        at = next;
    } while (next != 0);
    wants("nothing is damaged", damaged, 77);
    wants("no block begins there", tlsf_check(&heap, 1, 9, &next, &damaged), TLSF_STALE);
    wants("nor behind the last", tlsf_check(&heap, WORDS, 9, &next, &damaged), TLSF_STALE);
    wants("all at once", tlsf_check(&heap, 0, UINT32_MAX, &next, &damaged), TLSF_OK);
    wants("behind the last block", next, 0);
}

/* Whether a write of some bytes behind a payload is told. */
static int damage(void) {
    struct tlsf_block_info it = {0, 0, 0, 0, 0};
    static unsigned char kept[8 * WORDS];
    unsigned char *const region = (unsigned char *)heap.base;
    uint32_t k = below(MOST), next = 99, damaged = 99;
    while (!given[k]) k = (k + 1) % MOST;
    wants("its block", tlsf_block_at(&heap, tlsf_place_of(&heap, given[k]), &it), TLSF_OK);
    const size_t from = 8 * ((size_t)it.at + it.size), n = 1 + below(24);
    if (from + n > 8 * (size_t)WORDS) return -1;
    for (size_t j = 0; j < n; j++) region[from + j] = (unsigned char)(below(3) ? below(256) : below(2) ? 0 : 255);
    memcpy(kept, region, sizeof kept);
    const uint32_t answer = tlsf_check(&heap, 0, UINT32_MAX, &next, &damaged);
    wants("all is left as it is", memcmp(kept, region, sizeof kept) == 0, 1);
    wants("an answer", answer == TLSF_OK || answer == TLSF_DAMAGED, 1);
    if (answer == TLSF_OK) return 0;
    wants("next is as before", next, 99);
    wants("a block begins there", damaged < WORDS && begins[damaged], 1);
    return 1;
}

int main(int argc, char **argv) {
    const long turns = argc > 1 ? strtol(argv[1], NULL, 10) : 400;
    long told = 0, tried = 0;
    state = 88172645463325252u + 7919 * (argc > 2 ? strtoul(argv[2], NULL, 10) : 0);
    const size_t bytes = (tlsf_bytes(5, WORDS) + PAGE - 1) / PAGE * PAGE;
    unsigned char *memory = guarded(bytes);
    for (turn = 0; turn < turns; turn++) {
        memset(memory, 0, bytes);
        wants("open", tlsf_open_in(&heap, 4 + (uint32_t)turn % 2, 1, memory + bytes - tlsf_bytes(4, WORDS) + 1, tlsf_bytes(4, WORDS)),
              TLSF_OK);
        fill_heap();
        check_sound();
        const int found = damage();
        tried += found >= 0;
        told += found > 0;
        /* Nothing else is called of a damaged heap: it ends, with marks too. */
        wants("close", tlsf_close(&heap), TLSF_OK);
    }
    printf("%ld writes past a payload: %ld told\n", tried, told);
    return told * 10 < tried * 9;
}
