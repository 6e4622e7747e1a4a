/* Payload of each length up to 1,100 bytes, where other bytes lay: all of it is zero, and the block behind it is as it was.
 * With WRONG the program fills by a function of its own: 1 leaves the last word, 2 fills a word more. */
#include "peachanchor.h"

#include <stdio.h>
#include <stdlib.h>
#include <string.h>

#ifdef WRONG
void *tlsf_memory_set(void *to, int byte, size_t n);
void *tlsf_memory_set(void *to, int byte, size_t n) {
    volatile unsigned char *p = to;
    const size_t all = byte != 0 ? n : WRONG == 1 ? n - 8 : n + 8;
    for (size_t i = 0; i < all; i++) p[i] = (unsigned char)byte;
    return to;
}
#endif

enum { WORDS = 1 << 12, MOST = 1100 };

static struct tlsf_heap heap = TLSF_CLOSED;

static void wants(const char *what, uint32_t len, size_t got, size_t wanted) {
    if (got == wanted) return;
    printf("%u bytes: %s: %zu, and not %zu\n", len, what, got, wanted);
    exit(1);
}

static unsigned char *allocate(uint32_t len, struct tlsf_name *name) {
    wants("allocate", len, tlsf_allocate(&heap, len, name), TLSF_OK);
    return tlsf_payload(&heap, *name, NULL);
}

/* Nothing but zeros is in the payload, and a whole block begins where its own ends. */
static void check(uint32_t len, const struct tlsf_name *name, const unsigned char *payload) {
    struct tlsf_block_info own, next;
    for (uint32_t i = 0; i < len; i++) wants("a byte", len, payload[i], 0);
    wants("own block", len, tlsf_block_at(&heap, name->at, &own), TLSF_OK);
    wants("next block", len, tlsf_block_at(&heap, own.at + own.size, &next), TLSF_OK);
    wants("is free up to the end", len, next.at + next.size, WORDS);
}

int main(void) {
    struct tlsf_name name;
    wants("open", 0, tlsf_open(&heap, 4, 1, WORDS), TLSF_OK);
    memset(allocate(8 * WORDS - 24, &name), 0xa5, 8 * WORDS - 24);
    wants("release", 0, tlsf_release(&heap, name), TLSF_OK);
    for (uint32_t len = 0; len <= MOST; len++) {
        unsigned char *const payload = allocate(len, &name);
        check(len, &name, payload);
        memset(payload, 0xa5, len);
        wants("release", len, tlsf_release(&heap, name), TLSF_OK);
    }
    wants("close", 0, tlsf_close(&heap), TLSF_OK);
    puts("payload of each length is zero");
    return 0;
}
