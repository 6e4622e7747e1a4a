/* What the images of bench/bare share: a heap in a static region, by one way of calling it, and what they tell. */
#ifndef BARE_H
#define BARE_H
#include <stdbool.h>
#include <stddef.h>
#include <stdint.h>

void tell(const char *text); /* of the start file */

__attribute__((unused)) static uint64_t memory[REGION / 8];

static inline void tell_number(const char *what, uint32_t n) {
    char text[12], *at = text + 11;
    *at = 0;
    do *--at = (char)('0' + n % 10);
    while (n /= 10);
    tell(what), tell(" "), tell(at), tell("\n");
}

#if defined(BY_NAME) || defined(BY_POINTER)
#include <peachanchor.h>
static struct tlsf_heap heap;
static inline bool opens(void) {
    heap = (struct tlsf_heap)TLSF_CLOSED;
    return tlsf_open_in(&heap, 4, 1, memory, sizeof memory) == TLSF_OK;
}
#elif defined(PEER)
/* The calls of TLSF 2.4, which bench/c/heaps/mattconte.c has too. */
size_t init_memory_pool(size_t bytes, void *pool);
void *malloc_ex(size_t bytes, void *pool);
void free_ex(void *block, void *pool);
static inline bool opens(void) {
    for (int k = 0; k < 64; k++) memory[k] = 0; /* else it takes the pool for one that is open */
    return init_memory_pool(sizeof memory, memory) != (size_t)-1;
}
#else
static inline bool opens(void) { return true; }
#endif

#ifdef BY_NAME
typedef struct tlsf_name held;
static inline bool gets(held *to, uint32_t n) { return tlsf_allocate(&heap, n, to) == TLSF_OK; }
static inline bool gives(const held *it) { return tlsf_release(&heap, *it) == TLSF_OK; }
static inline uint8_t *payload(const held *it) { return (uint8_t *)(heap.base + it->at + 3); }
#else
typedef void *held;
static inline uint8_t *payload(const held *it) { return *it; }
#if defined(BY_POINTER)
static inline bool gets(held *to, uint32_t n) { return (*to = tlsf_malloc(&heap, n)) != NULL; }
static inline bool gives(const held *it) { return tlsf_free(&heap, *it) == TLSF_OK; }
#elif defined(PEER)
static inline bool gets(held *to, uint32_t n) { return (*to = malloc_ex(n, memory)) != NULL; }
static inline bool gives(const held *it) { return free_ex(*it, memory), true; }
#else
static inline bool gets(held *to, uint32_t n) { return *to = &memory[n % 8], true; }
static inline bool gives(const held *it) { return *it != NULL; }
#endif
#endif
#endif
