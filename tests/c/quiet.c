/* Right programs of which no compiler may warn: each calls a free that is refused, or the C library's where the heap isn't the one that
 * gave. It ends with the line of what isn't as it has to be. In C++ too. */
#include "peachanchor.h"

#include <stdlib.h>

static struct tlsf_heap heap, others[2];

/* Hooks that take the heap where it is open, and malloc where it isn't. */
static void *change(void *p, size_t n) { return heap.is_open ? tlsf_realloc(&heap, p, n) : realloc(p, n); }

static void *give(size_t n) { return heap.is_open ? tlsf_malloc(&heap, n) : malloc(n); }

static void end(void *p) {
    if (heap.is_open) tlsf_free(&heap, p);
    else free(p);
}

static bool hooks(void) {
    char *const p = (char *)give(100);
    if (p == TLSF_NULL) return false;
    p[99] = 1;
    char *const q = (char *)change(p, 200);
    end(q != TLSF_NULL ? q : p);
    return q != TLSF_NULL;
}

/* What the heap has no room for comes from malloc, and goes back where it came from. */
static bool falls_back(size_t n) {
    char *p = (char *)tlsf_malloc(&heap, n);
    if (p == TLSF_NULL) p = (char *)malloc(n);
    if (p == TLSF_NULL) return false;
    p[0] = 1;
    const bool is_ours = tlsf_free(&heap, p) == TLSF_OK;
    if (!is_ours) free(p);
    return is_ours == (n < 4096);
}

/* A pointer of which it isn't known which heap gave it. */
static bool in_turn(void) {
    char *const p = (char *)tlsf_calloc(&others[1], 10, 1);
    if (p == TLSF_NULL) return false;
    for (int k = 0; k < 2; k++)
        if (tlsf_free(&others[k], p) == TLSF_OK) return k == 1;
    return false;
}

/* The payload of a name, as docs/C.md has it, goes back by pointer. */
static bool by_base(void) {
    struct tlsf_name name;
    if (tlsf_allocate(&heap, 30, &name) != TLSF_OK) return false;
    return tlsf_free(&heap, heap.base + name.at + 3) == TLSF_OK;
}

/* What isn't live is refused. */
static bool refused(void) {
    char byte = 0, *const p = (char *)tlsf_aligned_alloc(&heap, 64, 10);
    if (p == TLSF_NULL || tlsf_free(&heap, p) != TLSF_OK) return false;
    return tlsf_free(&heap, p) == TLSF_STALE && tlsf_free(&heap, &byte) == TLSF_STALE && tlsf_free(&others[0], p) == TLSF_STALE;
}

int main(void) {
    if (!hooks()) return __LINE__;
    if (tlsf_open(&heap, 4, 1, 1000) || tlsf_open(&others[0], 4, 2, 1000) || tlsf_open(&others[1], 4, 3, 1000)) return __LINE__;
    if (!hooks() || !falls_back(100) || !falls_back(100000)) return __LINE__;
    if (!in_turn() || !by_base() || !refused()) return __LINE__;
    return tlsf_close(&heap) || tlsf_close(&others[0]) || tlsf_close(&others[1]);
}
