/* Heaps of each alignment of their own, in malloc's memory and in the program's at each address, near ones too. Blocks lie side by side in
 * them, are filled to their ends and resized. Any other alignment is refused. wrong.edits has wrong lines. */
#include "chance.h"
#include "peachanchor.h"

#include <string.h>

static size_t align_of(uint8_t own) { return own == 0 ? TLSF_ALIGN : own; }

/* The bytes of a block that has room for `len`: with its header a multiple of the alignment. */
static size_t rounded_of(size_t len, size_t align) { return ((len ? len : 1) + 24 + align - 1) / align * align - 24; }

/* A block of `len` bytes by one call or another, which is as aligned as the heap's are, and filled to its end. */
static unsigned char *filled(struct tlsf_heap *heap, uint32_t k, size_t len) {
    struct tlsf_name name;
    void *at = NULL;
    if (k % 4 == 3) wants("by name", tlsf_allocate_at(heap, len, 4, 0, &name, &at), TLSF_OK);
    unsigned char *const p = k % 4 == 0   ? tlsf_malloc(heap, len)
                             : k % 4 == 1 ? tlsf_calloc(heap, len, 1)
                             : k % 4 == 2 ? tlsf_aligned_alloc(heap, 4, len)
                                          : at;
    wants("a block", p != NULL && (uintptr_t)p % align_of(heap->align) == 0, 1);
    const size_t all = tlsf_usable_size(heap, p);
    wants("its bytes", all, rounded_of(len, align_of(heap->align)));
    for (size_t b = 0; k % 2 == 1 && b < (k % 4 == 3 ? all : len); b++) wants("a zero", p[b], 0);
    return memset(p, (int)k, all);
}

/* Blocks that lie side by side take their bytes and no more, stay or move where they get others, and none is written by another. */
static void side_by_side(struct tlsf_heap *heap) {
    unsigned char *blocks[24];
    struct tlsf_heap_counts c = {0, 0, 0, 0};
    size_t bytes = 0;
    for (uint32_t k = 0; k < 24; k++) {
        blocks[k] = filled(heap, k, 5 * k);
        bytes += 24 + tlsf_usable_size(heap, blocks[k]);
    }
    wants("counts", tlsf_counts(heap, &c), TLSF_OK);
    wants("words", 8 * (size_t)c.words, bytes);
    for (uint32_t k = 0; k < 24; k += 2) {
        blocks[k] = tlsf_realloc(heap, blocks[k], 5 * k + 1 + 7 * (k % 8));
        wants("aligned where it moved", blocks[k] != NULL && (uintptr_t)blocks[k] % align_of(heap->align) == 0, 1);
    }
    for (uint32_t k = 0; k < 24; k++)
        for (size_t at = 0; at < 5 * k; at++) wants("a byte as it was", blocks[k][at], k);
    for (uint32_t k = 0; k < 24; k++) wants("free", tlsf_free(heap, blocks[k]), TLSF_OK);
}

/* Blocks by name of any number of words lie between: what malloc gives, and where realloc moves a block to, is aligned all the same. */
static void out_of_step(struct tlsf_heap *heap) {
    struct tlsf_name names[8];
    unsigned char *blocks[8];
    for (uint32_t k = 0; k < 8; k++) {
        blocks[k] = filled(heap, k, 9 * k);
        wants("by name", tlsf_allocate(heap, 8 + 8 * below(4), &names[k]), TLSF_OK);
    }
    for (uint32_t k = 0; k < 8; k++) {
        blocks[k] = tlsf_realloc(heap, blocks[k], 90 + 9 * k);
        wants("aligned where it moved", blocks[k] != NULL && (uintptr_t)blocks[k] % align_of(heap->align) == 0, 1);
        for (size_t at = 0; at < 9 * k; at++) wants("a byte as it was", blocks[k][at], k);
        wants("release", tlsf_release(heap, names[k]), TLSF_OK);
    }
    for (uint32_t k = 0; k < 8; k++) wants("free", tlsf_free(heap, blocks[k]), TLSF_OK);
}

/* A heap takes the alignments that it may have alone, and is refused with another after what is refused without one. */
static void own_alignments(uint32_t level) {
    static _Alignas(64) unsigned char room[8192];
    for (unsigned align = 0; align <= UINT8_MAX; align++) {
        const bool is_one = align == 0 || align == 8 || align == 16 || align == 32 || align == 64;
        const uint32_t answer = is_one ? TLSF_OK : TLSF_BAD_SIZE;
        for (int way = 0; way < 2 + 64; way++) {
            struct tlsf_near_heap near = {{0}};
            struct tlsf_heap plain = TLSF_CLOSED, *const heap = way == 1 || way % 2 ? tlsf_near(&near) : &plain;
            unsigned char *const at = room + (way < 2 ? 0 : way - 2);
            heap->align = (uint8_t)align;
            wants("a level that there isn't",
                  way == 0   ? tlsf_open(heap, 6, 1, 800)
                  : way == 1 ? tlsf_open_near(&near, 6, 1, 800)
                  : way % 2  ? tlsf_open_near_in(&near, 6, 1, at, 8000)
                             : tlsf_open_in(heap, 6, 1, at, 8000),
                  TLSF_BAD_LEVEL);
            wants("such an alignment",
                  way == 0   ? tlsf_open(heap, level, 1, 800)
                  : way == 1 ? tlsf_open_near(&near, level, 1, 800)
                  : way % 2  ? tlsf_open_near_in(&near, level, 1, at, 8000)
                             : tlsf_open_in(heap, level, 1, at, 8000),
                  answer);
            wants("open", heap->is_open, is_one);
            if (!is_one) continue;
            side_by_side(heap);
            out_of_step(heap);
            wants("it stays", heap->align, align);
            wants("close", tlsf_close(heap), TLSF_OK);
        }
    }
}

int main(void) {
    state = 88172645463325252u;
    own_alignments(4);
    own_alignments(5);
    return 0;
}
