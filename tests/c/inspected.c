/* A heap to be looked at by gdb, with tools/package/tlsf-gdb.py: tests/package_test stops where this calls `look`, and compares what
 * gdb prints with inspected.stdout. */
#include <stdlib.h>
#include <peachanchor.h>

static struct tlsf_heap heap, shut, gone;
static struct tlsf_near_heap near;
static _Alignas(16) unsigned char memory[8192];
static struct tlsf_name name, other;
static unsigned char *blocks[6];

__attribute__((noinline)) static void look(void) { __asm__ volatile("" ::: "memory"); }

int main(void) {
    static const size_t sizes[6] = {100, 24, 24, 24, 2000, 8};
    if (tlsf_open(&heap, 4, 7, 320)) return 1;
    for (int i = 0; i < 6; i++)
        if (!(blocks[i] = tlsf_malloc(&heap, sizes[i]))) return 1;
    if (tlsf_name_at(&heap, blocks[2], &name) || tlsf_allocate(&heap, 13, &other)) return 1;
    if (tlsf_free(&heap, blocks[1]) || tlsf_free(&heap, blocks[3])) return 1;
    if (tlsf_open_in(&gone, 5, 8, memory, sizeof memory) || tlsf_close(&gone)) return 1;
    if (tlsf_open_near(&near, 4, 9, 16) || !tlsf_malloc(tlsf_near(&near), 8)) return 1;
    look();
    blocks[2][28] ^= 1; /* past the end of the payload, in the header behind */
    look();
    return shut.is_open;
}
