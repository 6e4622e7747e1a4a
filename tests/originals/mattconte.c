/* What mattconte's tlsf answers at its edges, a line each: with OURS by compat/mattconte/tlsf.h, else by the source that ORIGINAL names, as
 * bench/allocators/mattconte.py makes it of Kamailio's copy. Both have to print the same. tests/originals/run says what may differ. */
#include <stdint.h>
#include <stdio.h>
#include <stdlib.h>
#include <string.h>
#ifdef OURS
#define tlsf_assert(holds) ((void)(holds))
#include <compat/mattconte/tlsf.h>
#define WALKED(tlsf) tlsf_get_pool(tlsf)
#else
#include ORIGINAL
#define WALKED(tlsf) (tlsf) /* in Kamailio's copy */
#endif

enum { HALF = 1 << 19, BLOCKS = 30 };
static _Alignas(64) unsigned char memory[2 * HALF], other[2 * HALF];
static tlsf_t swept;
static int used, unused, sizes, seen;

static void say(const char *what, int holds) { printf("%s: %s\n", what, holds ? "yes" : "no"); }

static void look(void *p, size_t size, int is_used, void *user) {
    (void)user;
    used += is_used != 0;
    unused += is_used == 0;
    sizes += is_used != 0 && size == tlsf_block_size(p);
}

static void sweep(void *p, size_t size, int is_used, void *user) {
    (void)size, (void)user;
    if (!is_used) return;
    seen++;
    tlsf_free(swept, p);
}

static void opens(void) {
    say("misaligned", tlsf_create(memory + 4) != NULL);
    say("too short", tlsf_create_with_pool(memory, tlsf_size() + 8) != NULL);
    memset(memory, 0xa5, sizeof memory);
    const tlsf_t tlsf = tlsf_create_with_pool(memory, HALF);
    say("it lies at the start", tlsf == (tlsf_t)memory);
    say("its pool lies behind", tlsf_get_pool(tlsf) == (pool_t)(memory + tlsf_size()));
    say("another pool is its memory", tlsf_add_pool(tlsf, other, HALF) == (pool_t)other);
    say("a misaligned pool", tlsf_add_pool(tlsf, other + HALF + 4, HALF / 2) != NULL);
    say("too short a pool", tlsf_add_pool(tlsf, other + HALF, 16) != NULL);
    unsigned char *const p = tlsf_malloc(tlsf, HALF / 2), *const q = tlsf_malloc(tlsf, HALF / 2);
    say("a block in each", p && q && (p >= other && p < other + HALF) != (q >= other && q < other + HALF));
    tlsf_free(tlsf, p);
    tlsf_free(tlsf, q);
    tlsf_remove_pool(tlsf, other);
    say("one pool is left", tlsf_malloc(tlsf, HALF / 2) != NULL && tlsf_malloc(tlsf, HALF / 2) == NULL && tlsf_check(tlsf) == 0);
    tlsf_destroy(tlsf);
}

static void edges(void) {
    const tlsf_t tlsf = tlsf_create_with_pool(memory, HALF);
    say("aligned to 8", tlsf_align_size() == 8);
    say("realloc(NULL, 100)", tlsf_realloc(tlsf, NULL, 100) != NULL);
    tlsf_free(tlsf, NULL);
    say("the size of null", tlsf_block_size(NULL) != 0);
    unsigned char *p = tlsf_malloc(tlsf, 100);
    say("100 bytes are 104", tlsf_block_size(p) == 104);
    memset(p, 7, 100);
    p = tlsf_realloc(tlsf, p, 5000);
    say("bytes stay", p && p[0] == 7 && p[99] == 7 && tlsf_block_size(p) == 5000);
    say("realloc(p, 0)", tlsf_realloc(tlsf, p, 0) != NULL);
    say("too long", tlsf_malloc(tlsf, HALF) != NULL);
    say("far too long", tlsf_malloc(tlsf, SIZE_MAX) != NULL || tlsf_malloc(tlsf, (size_t)1 << 40) != NULL);
    p = tlsf_malloc(tlsf, 100);
    say("a realloc that is far too long", tlsf_realloc(tlsf, p, (size_t)1 << 40) != NULL);
    say("sound", tlsf_check(tlsf) == 0);
    tlsf_destroy(tlsf);
}

static void walks(void) {
    const tlsf_t tlsf = tlsf_create_with_pool(memory, HALF);
    void *blocks[BLOCKS];
    for (size_t k = 0; k < BLOCKS; k++) blocks[k] = tlsf_malloc(tlsf, 10 + 20 * k);
    for (size_t k = 0; k < BLOCKS; k += 3) tlsf_free(tlsf, blocks[k]);
    tlsf_walk_pool(WALKED(tlsf), look, NULL);
    printf("%d used, %d free, %d sizes right\n", used, unused, sizes);
    swept = tlsf;
    tlsf_walk_pool(WALKED(tlsf), sweep, NULL);
    used = unused = 0;
    tlsf_walk_pool(WALKED(tlsf), look, NULL);
    printf("%d freed in a walk, %d used, %d free\n", seen, used, unused);
    say("sound", tlsf_check(tlsf) == 0);
    tlsf_destroy(tlsf);
}

int main(void) {
    opens();
    edges();
    walks();
    return 0;
}
