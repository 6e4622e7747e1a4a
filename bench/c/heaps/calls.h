/* The calls of TLSF 2.4, over those of the file that includes this last: struct own, own_open, own_malloc, own_calloc, own_realloc and
 * own_free. What is opened lies where the pool begins. Calls on what was opened last are under a mutex where those of TLSF 2.4 are. */
#include "own_lock.h"

static struct own *last; /* the one that was opened last */

size_t init_memory_pool(size_t bytes, void *memory) {
    static const struct own closed;
    if (bytes < sizeof *last) return (size_t)-1;
    last = memory;
    *last = closed;
    return own_open(last, last + 1, bytes - sizeof *last) == TLSF_OK ? bytes : (size_t)-1;
}

void *malloc_ex(size_t bytes, void *pool) { return own_malloc(pool, bytes); }
void *calloc_ex(size_t count, size_t bytes, void *pool) { return own_calloc(pool, count, bytes); }
void *realloc_ex(void *block, size_t bytes, void *pool) { return own_realloc(pool, block, bytes); }
void free_ex(void *block, void *pool) { own_free(pool, block); }

void *authors_malloc(size_t bytes) {
    ACQUIRE;
    void *const block = own_malloc(last, bytes);
    LEAVE;
    return block;
}

void *authors_calloc(size_t count, size_t bytes) {
    ACQUIRE;
    void *const block = own_calloc(last, count, bytes);
    LEAVE;
    return block;
}

void *authors_realloc(void *block, size_t bytes) {
    ACQUIRE;
    block = own_realloc(last, block, bytes);
    LEAVE;
    return block;
}

void authors_free(void *block) {
    ACQUIRE;
    own_free(last, block);
    LEAVE;
}
