/* Drains that are inline, beside the archive's: heaps that are alike stay alike, word by word, and each release is seen. Names that
 * are taken many at once, and which names come after a closing. wrong.edits has wrong lines. DRAINS [TURNS] [SEED] */
#define TLSF_INLINE_H /* it comes once releases are seen */
#include "peachanchor.h"
#undef TLSF_INLINE_H
#include "chance.h"

#include <string.h>

enum { WORDS = 1 << 16, CAPACITY = 512, FEW = 8 };

static struct tlsf_name seen[2 * CAPACITY];
static uint32_t seen_count;

static uint32_t seen_release(struct tlsf_heap *heap, struct tlsf_name name) {
    seen[seen_count++ % (2 * CAPACITY)] = name;
    return tlsf_release(heap, name);
}
#define tlsf_release seen_release
#if !defined(TLSF_TRACE) && !defined(TLSF_MARKED) && !defined(TLSF_CHECKED)
static uint32_t seen_release_all(struct tlsf_heap *heap, const struct tlsf_name *names, size_t n) {
    for (size_t k = 0; k < n; k++) seen[seen_count++ % (2 * CAPACITY)] = names[k];
    return tlsf_release_all(heap, names, n);
}
#define tlsf_release_all seen_release_all
#endif
#include "tlsf_inline.h"

#if defined(TLSF_TRACE) || defined(TLSF_MARKED)
static const bool leaves_rest = false;
#else
static const bool leaves_rest = true;
#endif

/* A heap with a lane and a queue to it. Of two the first is drained inline, and the second by the archive. */
struct side {
    struct tlsf_heap heap;
    struct tlsf_post_end post;
    struct tlsf_take_end take;
    struct tlsf_queue queue;
    struct tlsf_poster poster;
};
static struct side sides[2];
static struct tlsf_name sent[CAPACITY]; /* what waits in each lane or queue */
static uint32_t waiting;

static size_t is_same(struct tlsf_name a, struct tlsf_name b) { return a.heap == b.heap && a.at == b.at && a.serial == b.serial; }

static void open_sides(void) {
    for (int k = 0; k < 2; k++) {
        wants("open", tlsf_open(&sides[k].heap, 4, 1, WORDS), TLSF_OK);
        wants("open a lane", tlsf_lane_open(&sides[k].post, &sides[k].take, CAPACITY), TLSF_OK);
        wants("open a queue", tlsf_queue_open(&sides[k].queue, 1, CAPACITY), TLSF_OK);
        wants("open its poster", tlsf_poster_open(&sides[k].queue, &sides[k].poster), TLSF_OK);
    }
}

static void close_sides(void) {
    for (int k = 0; k < 2; k++) {
        wants("close", tlsf_close(&sides[k].heap), TLSF_OK);
        wants("close a lane", tlsf_post_close(&sides[k].post) + tlsf_take_close(&sides[k].take), TLSF_OK);
        wants("close a queue", tlsf_queue_close(&sides[k].queue) + tlsf_poster_close(&sides[k].poster), TLSF_OK);
    }
}

/* Where the payloads of live blocks may be touched, both regions are the same in each word, but for those of marks. */
static void are_alike(void) {
    struct tlsf_heap_counts counts[2];
    struct tlsf_block_info block[2];
    for (int k = 0; k < 2; k++) wants("counts", tlsf_counts(&sides[k].heap, &counts[k]), TLSF_OK);
    wants("counts are alike", (size_t)memcmp(&counts[0], &counts[1], sizeof *counts), 0);
    for (uint32_t at = 0; at < WORDS - 1;) {
        const uint32_t answer = tlsf_block_at(&sides[0].heap, at, &block[0]);
        wants("a block", tlsf_block_at(&sides[1].heap, at, &block[1]), answer);
        if (answer != TLSF_OK) break;
        wants("blocks are alike", block[0].size == block[1].size && block[0].is_live == block[1].is_live && block[0].mark == block[1].mark,
              1);
        at += block[0].size;
    }
#if !defined(TLSF_ASAN) && !defined(TLSF_VALGRIND)
    wants("words are alike", (size_t)memcmp(sides[0].heap.base, sides[1].heap.base, 8 * (size_t)WORDS), 0);
#endif
}

/* Names of `n` new blocks, in the order of their places or by chance. One in nine is stale, of another heap, or of no block. */
static void name_blocks(uint32_t n, bool in_order) {
    for (waiting = 0; waiting < n; waiting++) {
        struct tlsf_name own[2] = {{0, 0, 0}, {0, 0, 0}};
        const uint32_t len = in_order ? below(300) : 1000 + below(1000); /* near each other, or not */
        for (int k = 0; k < 2; k++) wants("allocate", tlsf_allocate(&sides[k].heap, len, &own[k]), TLSF_OK);
        wants("names are alike", is_same(own[0], own[1]), 1);
        sent[waiting] = own[0];
    }
    for (uint32_t k = n; !in_order && k > 1; k--) {
        const uint32_t j = below(k);
        const struct tlsf_name last = sent[k - 1];
        sent[k - 1] = sent[j];
        sent[j] = last;
    }
    for (uint32_t k = 1; !in_order && k < n; k++)
        if (below(9) == 0) {
            const uint32_t kind = below(3);
            if (kind == 0) sent[k] = sent[below(k)];
            else if (kind == 1) sent[k].heap = 2;
            else sent[k].at = WORDS + below(WORDS);
        }
}

static void put_names(bool in_queue) {
    for (int k = 0; k < 2; k++) {
        size_t went = 0;
        if (!in_queue) wants("put all", tlsf_put_all(&sides[k].post, sent, waiting, &went), TLSF_OK);
        for (; in_queue && went < waiting; went++) wants("post", tlsf_queue_post(&sides[k].poster, sent[went]), TLSF_OK);
        wants("all went", went, waiting);
    }
}

/* One drain of each side. */
static void drain(bool in_queue, bool in_order, uint32_t most) {
    uint32_t came[2] = {77, 77}, one_by_one;
    seen_count = 0;
    if (in_queue) {
        wants("queue drain", tlsf_queue_drain(&sides[0].heap, &sides[0].queue, most, &came[0]), TLSF_OK);
        one_by_one = seen_count;
        wants("the archive's", (tlsf_queue_drain)(&sides[1].heap, &sides[1].queue, most, &came[1]), TLSF_OK);
    } else {
        wants("drain", tlsf_drain(&sides[0].heap, &sides[0].take, most, &came[0]), TLSF_OK);
        one_by_one = seen_count;
        wants("the archive's", (tlsf_drain)(&sides[1].heap, &sides[1].take, most, &came[1]), TLSF_OK);
    }
    wants("how many came", came[0], most < waiting ? most : waiting);
    wants("as many by the archive's", came[1], came[0]);
    wants("how many were released one by one", one_by_one, leaves_rest && in_order && !in_queue && came[0] > FEW ? FEW : came[0]);
    for (uint32_t k = 0; k < one_by_one; k++) wants("each in its order", is_same(seen[k], sent[k]), 1);
    waiting -= came[0];
    memmove(sent, sent + came[0], waiting * sizeof *sent);
    are_alike();
}

static void release_left(void) {
    struct tlsf_block_info block = {0, 0, 0, 0, 0};
    for (uint32_t at = 0; tlsf_block_at(&sides[0].heap, at, &block) == TLSF_OK; at += block.size) {
        const struct tlsf_name name = {1, at, block.mark};
        if (block.is_live == 0) continue;
        for (int k = 0; k < 2; k++) wants("release", tlsf_release(&sides[k].heap, name), TLSF_OK);
        at = 0;
        block.size = 0;
    }
    are_alike();
}

static void drains_by_chance(void) {
    static const uint32_t sizes[] = {0, 1, 4, 5, FEW - 1, FEW, FEW + 1, 31, 32, 33, FEW + 32, FEW + 33, FEW + 64, 200};
    const bool in_queue = below(3) == 0, in_order = below(3) == 0;
    name_blocks(below(4) == 0 ? below(220) : sizes[below(14)], in_order);
    put_names(in_queue);
    while (waiting != 0) drain(in_queue, in_order, below(3) == 0 ? UINT32_MAX : below(3) == 0 ? below(99) : sizes[1 + below(13)]);
    drain(in_queue, in_order, sizes[below(14)]);
    release_left();
}

/* --- What is refused --------------------------------------------------------------------------------------------------- */

static void refusals(void) {
    struct side closed;
    uint32_t came = 77;
    memset(&closed, 0, sizeof closed);
    name_blocks(3, false);
    put_names(false);
    put_names(true);
    seen_count = 0;
    wants("both closed", tlsf_drain(&closed.heap, &closed.take, 9, &came), TLSF_IS_CLOSED);
    wants("the lane closed", tlsf_drain(&sides[0].heap, &closed.take, 9, &came), TLSF_IS_CLOSED);
    wants("the lane closed, none", tlsf_drain(&sides[0].heap, &closed.take, 0, &came), TLSF_IS_CLOSED);
    wants("the heap closed", tlsf_drain(&closed.heap, &sides[0].take, 9, &came), TLSF_IS_CLOSED);
    wants("another end", tlsf_drain(&sides[0].heap, (struct tlsf_take_end *)(void *)&sides[0].post, 9, &came), TLSF_OTHER_KIND);
    wants("the queue closed", tlsf_queue_drain(&sides[0].heap, &closed.queue, 9, &came), TLSF_IS_CLOSED);
    wants("the queue's heap closed", tlsf_queue_drain(&closed.heap, &sides[0].queue, 9, &came), TLSF_IS_CLOSED);
    wants("another end than a queue's", tlsf_queue_drain(&sides[0].heap, (struct tlsf_queue *)(void *)&sides[0].post, 9, &came),
          TLSF_OTHER_KIND);
    wants("the count stays", came, 77);
    wants("nothing is released", seen_count, 0);
    drain(false, false, 9);
    waiting = 3;
    wants("a queue's", tlsf_queue_drain(&sides[0].heap, &sides[0].queue, 9, &came), TLSF_OK);
    wants("all of it", came, 3);
    wants("a queue's by the archive", (tlsf_queue_drain)(&sides[1].heap, &sides[1].queue, 9, &came), TLSF_OK);
    release_left();
}

/* --- Names that are taken at once -------------------------------------------------------------------------------------- */

/* `n` places and so many names that wait: the first come in their order, and other places stay. */
static void takes_all(uint32_t n, uint32_t many) {
    const struct tlsf_name before = {77, 77, 77};
    struct tlsf_name got[64];
    size_t came = 99;
    const uint32_t least = n < many ? n : many, wanted = least < 32 ? least : 32;
    for (uint32_t k = 0; k < 64; k++) got[k] = before;
    for (waiting = 0; waiting < many; waiting++) sent[waiting] = (struct tlsf_name){n, waiting, below(1000)};
    put_names(false);
    wants("take all", tlsf_take_all(&sides[0].take, got, n, &came), n != 0 && many == 0 ? TLSF_EMPTY : TLSF_OK);
    wants("how many", came, n != 0 && many == 0 ? 99 : wanted);
    for (uint32_t k = 0; k < 64; k++) wants("a name", is_same(got[k], k < wanted ? sent[k] : before), 1);
    for (uint32_t k = wanted; k < many; k++) {
        wants("one that was left", tlsf_take(&sides[0].take, &got[0]), TLSF_OK);
        wants("it is the next", is_same(got[0], sent[k]), 1);
    }
    for (uint32_t k = 0; k < many; k++) wants("those of the other", tlsf_take(&sides[1].take, &got[0]), TLSF_OK);
    waiting = 0;
}

/* Names may go to a payload. */
static void takes_into_payload(void) {
    struct tlsf_name *const places = tlsf_malloc(&sides[0].heap, 40 * sizeof *places);
    size_t came = 0;
    wants("payload", places != NULL, 1);
    for (waiting = 0; waiting < 40; waiting++) sent[waiting] = (struct tlsf_name){7, waiting, 9};
    put_names(false);
    wants("into payload", tlsf_take_all(&sides[0].take, places, 40, &came), TLSF_OK);
    wants("how many", came, 32);
    for (uint32_t k = 0; k < 32; k++) wants("the name", is_same(places[k], sent[k]), 1);
    wants("the others", tlsf_take_all(&sides[0].take, places, 40, &came), TLSF_OK);
    wants("eight", came, 8);
    wants("free", tlsf_free(&sides[0].heap, places), TLSF_OK);
    while (tlsf_take_all(&sides[1].take, sent, 32, &came) == TLSF_OK) {}
    wants("it is empty", tlsf_take_all(&sides[1].take, sent, 32, &came), TLSF_EMPTY);
    waiting = 0;
}

/* --- Names that are taken, and closing: a look for each sentence of peachanchor.h ---------------------------------------------- */

static uint32_t live_in(struct tlsf_heap *heap) {
    struct tlsf_heap_report report = {0, 0, 0, 0, 0, 0, 0, 0, 0, 0};
    wants("report", tlsf_report(heap, &report), TLSF_OK);
    return report.live_blocks;
}

static void closes(uint32_t next_number, uint32_t wanted_live) {
    struct side it;
    struct tlsf_name name = {0, 0, 0}, got = {0, 0, 0};
    uint64_t *base = NULL;
    uint32_t len = 0, came = 0;
    memset(&it, 0, sizeof it);
    wants("open", tlsf_open(&it.heap, 4, 1, 1024) + tlsf_lane_open(&it.post, &it.take, 4), TLSF_OK);
    wants("allocate", tlsf_allocate(&it.heap, 24, &name), TLSF_OK);
    wants("locate", tlsf_locate(&it.heap, name, &base, &len), TLSF_OK);
    wants("two names of it", tlsf_put(&it.post, name) + tlsf_put(&it.post, name), TLSF_OK);
    wants("the post end", tlsf_post_close(&it.post), TLSF_OK);
    wants("one comes after it closed", tlsf_take(&it.take, &got), TLSF_OK);
    wants("its payload", (void *)(base + got.at + 3) == tlsf_payload(&it.heap, got, NULL), 1);
    wants("close the heap", tlsf_close(&it.heap), TLSF_OK);
    wants("open it again", tlsf_open(&it.heap, 4, next_number, 1024), TLSF_OK);
    wants("a block there", tlsf_allocate(&it.heap, 24, &name), TLSF_OK);
    wants("drain", tlsf_drain(&it.heap, &it.take, 4, &came), TLSF_OK);
    wants("the other name came", came, 1);
    wants("what lives", live_in(&it.heap), wanted_live);
    wants("the take end", tlsf_take_close(&it.take), TLSF_OK);
    wants("open a lane", tlsf_lane_open(&it.post, &it.take, 4), TLSF_OK);
    wants("put", tlsf_put(&it.post, name), TLSF_OK);
    wants("close both", tlsf_take_close(&it.take) + tlsf_post_close(&it.post), TLSF_OK);
    wants("its block lives on", live_in(&it.heap), wanted_live);
    wants("close", tlsf_close(&it.heap), TLSF_OK);
}

int main(int argc, char **argv) {
    const long turns = argc > 1 ? atol(argv[1]) : 1000;
    state = (argc > 2 ? (uint64_t)atol(argv[2]) : 1) * 2654435761u + 88172645463325252u;
    open_sides();
    refusals();
    for (turn = 0; turn < turns; turn++) drains_by_chance();
    close_sides();
    open_sides();
    for (uint32_t n = 0; n <= 40; n++)
        for (uint32_t many = 0; many <= 40; many++) takes_all(n, many);
    takes_into_payload();
    close_sides();
    closes(2, 1);
    closes(1, 0);
    printf("%ld turns of drains leave heaps alike\n", turns);
    return 0;
}
