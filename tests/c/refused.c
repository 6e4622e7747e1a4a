/* Memory that is refused. Each call that opens is made anew for each of its requests, of which malloc then refuses that one: it answers
 * TLSF_NO_MEMORY, and has given back all that it had. What is open, and is used and closed, has given back each piece once. Pieces that
 * are back are overwritten. Prints how many words the heaps of pools have for some tables. With `keeps`, one open that is refused
 * keeps a piece, which has to be told.
 * Link with -Wl,--wrap=malloc,--wrap=free. */
#include "peachanchor.h"

#include <stdio.h>
#include <stdlib.h>
#include <string.h>

enum { MOST = 256, NAMES = 3 };

static struct {
    void *at;
    size_t bytes;
} pieces[MOST];
static size_t count, requests, refused_at;
static bool is_counted, is_one_kept;
static const char *what;

static void wants(const char *said, size_t got, size_t wanted) {
    if (got == wanted) return;
    is_counted = false;
    printf("%s, where request %zu is refused: %s: %zu, and not %zu\n", what, refused_at, said, got, wanted);
    exit(1);
}

void *__real_malloc(size_t bytes);
void __real_free(void *at);
void *__wrap_malloc(size_t bytes);
void __wrap_free(void *at);

void *__wrap_malloc(size_t bytes) {
    if (!is_counted) return __real_malloc(bytes);
    if (++requests == refused_at) return NULL;
    void *const at = __real_malloc(bytes);
    wants("room for a piece", at && count < MOST, 1);
    memset(at, 0xa5, bytes);
    pieces[count].at = at;
    pieces[count++].bytes = bytes;
    return at;
}

void __wrap_free(void *at) {
    size_t k = 0;
    if (!is_counted || !at) {
        __real_free(at);
        return;
    }
    if (is_one_kept && refused_at) {
        is_one_kept = false;
        return;
    }
    while (k < count && pieces[k].at != at) k++;
    wants("a piece that is given back is there", k < count, 1);
    memset(at, 0xdd, pieces[k].bytes);
    pieces[k] = pieces[--count];
    __real_free(at);
}

/* --- What opens ------------------------------------------------------------------------------------------------------- */

static struct tlsf_heap heap;
static struct tlsf_near_heap near;
static struct tlsf_post_end post;
static struct tlsf_take_end take;
static struct tlsf_queue queue;
static struct tlsf_poster posters[NAMES];
static struct tlsf_offsets offsets;
static struct tlsf_pools pools;
static uint32_t level;

static const struct tlsf_name sent = {5, 6, 7};

static uint32_t open_heap(void) { return tlsf_open(&heap, level, 1, 200); }

static void close_any(struct tlsf_heap *it) {
    struct tlsf_name name;
    while (tlsf_allocate(it, 100, &name) == TLSF_OK) {}
    wants("close", tlsf_close(it), TLSF_OK);
    wants("close twice", tlsf_close(it), TLSF_IS_CLOSED);
}

static void close_heap(void) { close_any(&heap); }
static uint32_t open_near(void) { return tlsf_open_near(&near, level, 1, 200); }
static void close_near(void) { close_any(tlsf_near(&near)); }
static uint32_t open_lane(void) { return tlsf_lane_open(&post, &take, NAMES); }

/* The ends are closed in one order at level 4, and in the other at level 5. All goes with the last. */
static void close_lane(void) {
    for (int k = 0; k < NAMES; k++) wants("put", tlsf_put(&post, sent), TLSF_OK);
    wants("one end", level == 4 ? tlsf_post_close(&post) : tlsf_take_close(&take), TLSF_OK);
    wants("the lane is there", count > 0, 1);
    wants("the other end", level == 4 ? tlsf_take_close(&take) : tlsf_post_close(&post), TLSF_OK);
}

static uint32_t open_queue(void) { return tlsf_queue_open(&queue, NAMES, NAMES); }

static void close_posters(int most) {
    for (int k = 0; k < most; k++) {
        wants("the queue is there", count > 0, 1);
        wants("a poster's end", tlsf_poster_close(&posters[k]), TLSF_OK);
    }
}

static void close_queue(void) {
    const int most = level == 4 ? NAMES : NAMES - 1; /* of the ends that there are */
    for (int k = 0; k < most; k++) {
        posters[k] = TLSF_POSTER_CLOSED;
        wants("an end", tlsf_poster_open(&queue, &posters[k]), TLSF_OK);
        wants("post", tlsf_queue_post(&posters[k], sent), TLSF_OK);
    }
    if (level == 4) close_posters(most);
    wants("the queue is there at last", count > 0, 1);
    wants("the owner's end", tlsf_queue_close(&queue), TLSF_OK);
    if (level == 5) close_posters(most);
}

static uint32_t open_offsets(void) { return tlsf_offsets_open(&offsets, level, 1, 16, 200); }

static void close_offsets(void) {
    struct tlsf_span span;
    while (tlsf_offsets_allocate(&offsets, 100, &span) == TLSF_OK) {}
    wants("close", tlsf_offsets_close(&offsets), TLSF_OK);
}

/* --- Pools, for tables of each kind: with rows of no block, and with more rows than there are heaps. ----------------------- */

static const struct tlsf_kind none[] = {{0, 16}, {0, 500}}, one[] = {{7, 24}}, two[] = {{2000, 64}, {1, 65536}},
                              gaps[] = {{0, 8}, {40, 16}, {0, 60}, {30, 64}, {9, 65}, {0, 100}, {0, 4000}},
                              far[] = {{3, 8}, {3, 80}, {3, 800}, {3, 8000}, {3, 80000}, {3, 800000}},
                              many[] = {{9, 8},   {8, 40},   {7, 100},  {0, 200},  {6, 300},  {5, 700},
                                        {5, 701}, {4, 1500}, {3, 3000}, {2, 7000}, {1, 20000}};
static const struct {
    const struct tlsf_kind *rows;
    size_t count;
} tables[] = {{none, 0}, {none, 2}, {one, 1}, {two, 2}, {gaps, 7}, {far, 6}, {many, 11}};
enum { TABLES = sizeof tables / sizeof *tables };
static size_t table;

static uint32_t open_pools(void) { return tlsf_pools_open(&pools, level, 1, tables[table].rows, tables[table].count); }

static void close_pools(void) {
    const struct tlsf_kind *const rows = tables[table].rows;
    struct tlsf_name name;
    for (size_t k = 0; k < tables[table].count; k++) {
        for (uint32_t n = 0; n < rows[k].most; n++)
            wants("a block of a row", tlsf_pools_allocate(&pools, (size_t)rows[k].len, &name), TLSF_OK);
        wants("one more", tlsf_pools_allocate(&pools, (size_t)rows[k].len, &name), TLSF_ROW_FULL);
    }
    wants("close", tlsf_pools_close(&pools), TLSF_OK);
}

/* --- Each request is refused once ---------------------------------------------------------------------------------------- */

static uint32_t opened_so(uint32_t open(void), size_t refused) {
    requests = 0;
    refused_at = refused;
    is_counted = true;
    const uint32_t answer = open();
    is_counted = false;
    return answer;
}

static void close_all(void close(void)) {
    is_counted = true;
    close();
    is_counted = false;
    wants("pieces that are left once it is closed", count, 0);
}

static void refuse_each(const char *name, uint32_t open(void), void close(void)) {
    what = name;
    wants("open", opened_so(open, 0), TLSF_OK);
    const size_t all = requests;
    close_all(close);
    for (size_t refused = 1; refused <= all; refused++) {
        wants("open", opened_so(open, refused), TLSF_NO_MEMORY);
        wants("pieces that are left", count, 0);
        wants("open once there is memory", opened_so(open, 0), TLSF_OK);
        close_all(close);
    }
    wants("some requests", all > 0, 1);
}

static void print_pools(void) {
    struct tlsf_heap_report report;
    wants("open", open_pools(), TLSF_OK);
    printf("level %u, table %zu:", (unsigned)level, table);
    for (uint32_t part = 0; tlsf_pools_report(&pools, part, &report) == TLSF_OK; part++)
        printf(" %u", (unsigned)(report.live_words + report.free_words));
    printf(" words\n");
    wants("close", tlsf_pools_close(&pools), TLSF_OK);
}

int main(int argc, char **argv) {
    is_one_kept = argc > 1 && !strcmp(argv[1], "keeps");
    for (level = 4; level <= 5; level++) {
        refuse_each("a heap", open_heap, close_heap);
        refuse_each("a near heap", open_near, close_near);
        refuse_each("a lane", open_lane, close_lane);
        refuse_each("a queue", open_queue, close_queue);
        refuse_each("offsets", open_offsets, close_offsets);
        for (table = 0; table < TABLES; table++) {
            refuse_each("pools", open_pools, close_pools);
            print_pools();
        }
    }
    return 0;
}
