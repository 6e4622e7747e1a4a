/* This heap and another TLSF in one program, whose calls have the same names. Two files are made of this one: the first with
 * TLSF_PREFIX, so that the heap's calls have other names for the linker, and the second with OTHER, which is the other TLSF. */
#include <stddef.h>

#ifdef __cplusplus
extern "C" {
#endif
struct other {
    void *(*give)(void *, size_t);
    void (*take_back)(void *, void *);
    int (*check)(void *);
};
struct other calls_of_other(void);
#ifdef __cplusplus
}
#endif

#ifdef OTHER
void *tlsf_malloc(void *pool, size_t len);
void tlsf_free(void *pool, void *p);
int tlsf_check(void *pool);

/* It gives from a pool whose first word counts the bytes that are taken. */
void *tlsf_malloc(void *pool, size_t len) {
    size_t *const taken = pool;
    *taken += len;
    return (unsigned char *)pool + sizeof *taken + *taken - len;
}

void tlsf_free(void *pool, void *p) { *(size_t *)pool = (size_t)((unsigned char *)p - (unsigned char *)pool) - sizeof(size_t); }
int tlsf_check(void *pool) { return *(size_t *)pool != 0; }

struct other calls_of_other(void) {
    const struct other calls = {tlsf_malloc, tlsf_free, tlsf_check};
    return calls;
}
#else
#include "peachanchor.h"

#include <stdio.h>

#define MUST(holds) \
    if (!(holds)) return fprintf(stderr, "prefix: %s doesn't hold\n", #holds), 1

int main(void) {
    static unsigned char memory[65536];
    static size_t pool[8];
    static struct tlsf_heap heap;
    const void *const first = memory, *const last = memory + sizeof memory;
    const struct other other = calls_of_other();
    uint32_t next, damaged;
    MUST(tlsf_open_in(&heap, 4, 1, memory, sizeof memory) == TLSF_OK);
    void *const p = tlsf_malloc(&heap, 20), *const of_other = other.give(pool, 20);
    MUST(p > first && p < last && tlsf_usable_size(&heap, p) >= 20);
    MUST(of_other == pool + 1 && other.check(pool) == 1);
    MUST(tlsf_check(&heap, 0, 100, &next, &damaged) == TLSF_OK);
    MUST(tlsf_free(&heap, p) == TLSF_OK);
    other.take_back(pool, of_other);
    MUST(other.check(pool) == 0 && tlsf_check(&heap, 0, 100, &next, &damaged) == TLSF_OK);
    return tlsf_close(&heap) == TLSF_OK ? 0 : 1;
}
#endif
