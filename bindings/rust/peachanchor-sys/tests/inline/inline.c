/* The inline calls of peachanchor.h as functions, for main.rs beside this: it compares them with those that Rust makes. */
#define TLSF_INLINE
#include <peachanchor.h>

void *c_malloc(struct tlsf_heap *heap, size_t len) { return tlsf_malloc(heap, len); }
void *c_calloc(struct tlsf_heap *heap, size_t count, size_t each) { return tlsf_calloc(heap, count, each); }
void *c_realloc(struct tlsf_heap *heap, void *p, size_t len) { return tlsf_realloc(heap, p, len); }
void *c_aligned_alloc(struct tlsf_heap *heap, size_t align, size_t len) { return tlsf_aligned_alloc(heap, align, len); }
uint32_t c_free(struct tlsf_heap *heap, void *p) { return tlsf_free(heap, p); }
size_t c_usable_size(struct tlsf_heap *heap, const void *p) { return tlsf_usable_size(heap, p); }
uint32_t c_allocate(struct tlsf_heap *heap, size_t len, struct tlsf_name *name) { return tlsf_allocate(heap, len, name); }
uint32_t c_release(struct tlsf_heap *heap, struct tlsf_name name) { return tlsf_release(heap, name); }
uint32_t c_reallocate(struct tlsf_heap *heap, struct tlsf_name *name, size_t len) { return tlsf_reallocate(heap, name, len); }
const char *c_text_of(uint32_t answer) { return tlsf_text_of(answer); }
uint32_t c_allocate_at(struct tlsf_heap *heap, size_t len, size_t align, uint32_t flags, struct tlsf_name *name, void **payload) {
    return tlsf_allocate_at(heap, len, align, flags, name, payload);
}
