/* Calls by pointers to them, as in an engine's table, do what the calls by their names do: on two heaps the same calls by chance leave
 * the same names, counts and notes of odd blocks, and what is given by pointer stays aligned to 16. TABLES [CALLS] [SEED] [LEVEL] */
#include "chance.h"
#include "peachanchor.h"

enum { WORDS = 3000, MOST = 60, LONGEST = 300 };

struct table {
    uint32_t (*allocate)(struct tlsf_heap *heap, size_t len, struct tlsf_name *name);
    uint32_t (*resize)(struct tlsf_heap *heap, struct tlsf_name name, size_t len);
    uint32_t (*reallocate)(struct tlsf_heap *heap, struct tlsf_name *name, size_t len);
    uint32_t (*release)(struct tlsf_heap *heap, struct tlsf_name name);
    void *(*malloc)(struct tlsf_heap *heap, size_t len);
    void *(*realloc)(struct tlsf_heap *heap, void *p, size_t len);
    uint32_t (*free)(struct tlsf_heap *heap, void *p);
};

static const struct table table = {tlsf_allocate, tlsf_resize, tlsf_reallocate, tlsf_release, tlsf_malloc, tlsf_realloc, tlsf_free};
static struct tlsf_heap plain = TLSF_CLOSED, pointed = TLSF_CLOSED;
static struct tlsf_name names[MOST];
static bool is_live[MOST];
static void *held[MOST][2]; /* by pointer, of each heap; or null */
static long mixed_turn;

/* A call by name on both heaps, whose names are the same, since both have one number and the same calls. */
static void by_name(uint32_t k) {
    struct tlsf_name own = names[k];
    const size_t len = below(LONGEST);
    uint32_t first = 0, second = 0;
    switch (is_live[k] ? below(3) : 3) {
    case 0: first = tlsf_resize(&plain, own, len), second = table.resize(&pointed, own, len); break;
    case 1: first = tlsf_reallocate(&plain, &names[k], len), second = table.reallocate(&pointed, &own, len); break;
    case 2:
        first = tlsf_release(&plain, own), second = table.release(&pointed, own);
        is_live[k] = false;
        break;
    default: first = tlsf_allocate(&plain, len, &names[k]), second = table.allocate(&pointed, len, &own); is_live[k] = first == TLSF_OK;
    }
    wants("the same answer", second, first);
    wants("the same name", own.at == names[k].at && own.serial == names[k].serial, 1);
}

static void by_pointer(uint32_t k) {
    const size_t len = 1 + below(LONGEST);
    void **const p = held[k];
    if (p[0] && below(2)) {
        wants("free", tlsf_free(&plain, p[0]) + table.free(&pointed, p[1]), TLSF_OK);
        p[0] = p[1] = NULL;
        return;
    }
    void *const first = p[0] ? tlsf_realloc(&plain, p[0], len) : tlsf_malloc(&plain, len);
    void *const second = p[0] ? table.realloc(&pointed, p[1], len) : table.malloc(&pointed, len);
    wants("both or neither", !first, !second);
    if (!first) return;
    wants("aligned", (uintptr_t)first % TLSF_ALIGN + (uintptr_t)second % TLSF_ALIGN, 0);
    p[0] = first;
    p[1] = second;
}

static void are_alike(void) {
    struct tlsf_heap_counts first = {0, 0, 0, 0}, second = {1, 1, 1, 1};
    wants("counts", tlsf_counts(&plain, &first) + tlsf_counts(&pointed, &second), TLSF_OK);
    wants("words", second.words, first.words);
    wants("refusals", second.refused, first.refused);
    wants("the note", pointed.is_mixed, plain.is_mixed);
    if (plain.is_mixed && mixed_turn < 0) mixed_turn = turn;
}

int main(int argc, char **argv) {
    const long calls = argc > 1 ? strtol(argv[1], NULL, 10) : 20000;
    const uint32_t level = argc > 3 ? (uint32_t)strtoul(argv[3], NULL, 10) : 4;
    state = 88172645463325252u + 7919 * (argc > 2 ? strtoul(argv[2], NULL, 10) : 0);
    mixed_turn = -1;
    wants("open", tlsf_open(&plain, level, 1, WORDS) + tlsf_open(&pointed, level, 1, WORDS), TLSF_OK);
    for (turn = 0; turn < calls; turn++) {
        const uint32_t k = below(MOST);
        if (below(2)) by_name(k);
        else by_pointer(k);
        are_alike();
    }
    wants("a note was taken", mixed_turn >= 0, 1);
    wants("close", tlsf_close(&plain) + tlsf_close(&pointed), TLSF_OK);
    printf("level %u: %ld calls\n", (unsigned)level, calls);
    return 0;
}
