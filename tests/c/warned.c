/* With MISUSE from 1 to 3 a program writes past a block in plain sight: gcc warns of that from version 11 on, in C and in C++. */
#include "peachanchor.h"

#include <string.h>

#ifndef MISUSE
#define MISUSE 0
#endif

void misuse(struct tlsf_heap *heap);

void misuse(struct tlsf_heap *heap) {
#if MISUSE == 2
    char *const p = (char *)tlsf_calloc(heap, 3, 8);
#elif MISUSE == 3
    char *const p = (char *)tlsf_aligned_alloc(heap, 64, 24);
#else
    char *const p = (char *)tlsf_malloc(heap, 24);
#endif
    if (p == TLSF_NULL) return;
    memset(p, 1, MISUSE != 0 ? 25 : 24);
    tlsf_free(heap, p);
}
