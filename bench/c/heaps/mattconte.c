/* mattconte/tlsf 3.0 by the calls of TLSF 2.4, so that each program of bench/c measures either. bench/peers compiles it, and makes
 * mattconte_tlsf.c of Kamailio's sources (bench/allocators/mattconte.py). */
#define NDEBUG
#define tlsf_malloc of_heap_malloc
#define tlsf_realloc of_heap_realloc
#define tlsf_free of_heap_free
#define tlsf_check of_heap_check
#include "mattconte_tlsf.c"
#undef tlsf_malloc
#undef tlsf_realloc
#undef tlsf_free
#undef tlsf_check

#include "own_lock.h"

static tlsf_t own;

size_t init_memory_pool(size_t bytes, void *pool) {
    own = tlsf_create_with_pool(pool, bytes);
    return own ? bytes : (size_t)-1;
}

void *malloc_ex(size_t bytes, void *pool) { return of_heap_malloc(pool, bytes); }
void *realloc_ex(void *block, size_t bytes, void *pool) { return of_heap_realloc(pool, block, bytes); }
void free_ex(void *block, void *pool) { of_heap_free(pool, block); }

void *calloc_ex(size_t count, size_t bytes, void *pool) {
    void *const block = of_heap_malloc(pool, count * bytes);
    return block ? memset(block, 0, count * bytes) : block;
}

void *authors_malloc(size_t bytes) {
    ACQUIRE;
    void *const block = of_heap_malloc(own, bytes);
    LEAVE;
    return block;
}

void *authors_calloc(size_t count, size_t bytes) {
    ACQUIRE;
    void *const block = calloc_ex(count, bytes, own);
    LEAVE;
    return block;
}

void *authors_realloc(void *block, size_t bytes) {
    ACQUIRE;
    block = of_heap_realloc(own, block, bytes);
    LEAVE;
    return block;
}

void authors_free(void *block) {
    ACQUIRE;
    of_heap_free(own, block);
    LEAVE;
}
