/* From a recording to a static array that never lacks room. A server handles requests of several lengths. First it is recorded, in one
 * heap that is large enough by far. The rows that this prints are the table below. For them tlsf_pools_open_in makes as many heaps as have
 * the fewest words together. None of the calls that were recorded is refused then, in whatever order they come.
 *
 *     cc -DRECORD kinds.c $(pkg-config --cflags --libs peachanchor) -o record
 *     ./record | ./tlsf replay --kinds
 */
#include <stdio.h>
#ifdef RECORD
#define TLSF_TRACE stdout
#endif
#include <peachanchor.h>

enum { REQUESTS = 500, SESSIONS = 40 };

/* --- What calls the heap, or the heaps -------------------------------------------------------------------------------------- */

#ifdef RECORD
static struct tlsf_heap heap;
static uint32_t open_all(void) { return tlsf_open(&heap, 4, 1, 1u << 18); }
static char *allocate(size_t len) { return tlsf_malloc(&heap, len); }
static char *resize(char *it, size_t len) { return tlsf_realloc(&heap, it, len); }
static uint32_t release(char *it) { return tlsf_free(&heap, it); }
static uint32_t close_all(void) { return tlsf_close(&heap); }
#else
/* The second line above wrote: --level 4 --blocks 11 --bytes 24 --blocks 12 --bytes 72 --blocks 12 --bytes 200 --blocks 16 --bytes 1000
 * --blocks 3 --bytes 16392 */
static const struct tlsf_kind table[] = {{11, 24}, {12, 72}, {12, 200}, {16, 1000}, {3, 16392}};
enum { ROWS = sizeof table / sizeof *table };
static unsigned char memory[91283]; /* tlsf_pools_bytes(4, table, ROWS) told how many, once */
static struct tlsf_pools pools;
static uint32_t open_all(void) { return tlsf_pools_open_in(&pools, 4, 1, table, ROWS, memory, sizeof memory); }
static char *allocate(size_t len) { return tlsf_pools_malloc(&pools, len); }
static char *resize(char *it, size_t len) { return tlsf_pools_realloc(&pools, it, len); }
static uint32_t release(char *it) { return tlsf_pools_free(&pools, it); }
static uint32_t close_all(void) { return tlsf_pools_close(&pools); }
#endif

/* --- The server: each request has a message of its length, which may grow, and some have a page --------------------------- */

static const size_t lengths[] = {24, 64, 200, 1000};
enum { LENGTHS = sizeof lengths / sizeof *lengths };

struct session {
    char *message, *page; /* null where there is none */
    uint32_t length;      /* the message's, by its number in the list above */
};

static uint32_t state = 1;
static uint32_t below(uint32_t n) {
    state = state * 1664525u + 1013904223u;
    return (state >> 8) % n;
}

/* Each of these answers how many calls were refused. */
static int begin(struct session *it, int takes_page) {
    it->length = below(LENGTHS);
    it->message = allocate(lengths[it->length]);
    it->page = takes_page ? allocate(16384) : NULL;
    return !it->message + (takes_page && !it->page);
}

static int grow(struct session *it) {
    char *const longer = resize(it->message, lengths[it->length + 1]);
    if (!longer) return 1;
    it->message = longer;
    it->length++;
    return 0;
}

static int end(struct session *it) {
    const int refused = (release(it->message) != TLSF_OK) + (it->page && release(it->page) != TLSF_OK);
    it->message = it->page = NULL;
    return refused;
}

int main(void) {
    static struct session sessions[SESSIONS];
    int refused = 0;
    int pages = 0;
    if (open_all()) return 1;
    for (int i = 0; i < REQUESTS; i++) {
        struct session *it = &sessions[below(SESSIONS)];
        pages -= it->page != NULL;
        if (!it->message) refused += begin(it, pages < 3 && below(4) == 0);
        else refused += it->length + 1 < LENGTHS && below(3) == 0 ? grow(it) : end(it);
        pages += it->page != NULL;
    }
#ifndef RECORD
    uint64_t words = 0;
    uint32_t heaps = 0;
    if (tlsf_pools_words(4, table, ROWS, &words, &heaps)) return 1;
    printf("%d requests, %d refused, by %u heaps of %u words in a static array of %u bytes\n", (int)REQUESTS, refused, (unsigned)heaps,
           (unsigned)words, (unsigned)sizeof memory);
    puts(tlsf_pools_malloc(&pools, 20000) ? "a longer one" : "none is longer than each row");
#endif
    return close_all() || refused ? 1 : 0;
}
