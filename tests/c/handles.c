/* What each call answers of a handle that is closed, zeroed, opened twice or closed twice, at both levels, what becomes of names
 * under way where an end is closed, and what the header's own calls answer. */
#include "peachanchor.h"

#include <stdio.h>
#include <string.h>

static void said(const char *what, uint32_t answer) { printf("  %-22s %2u %s\n", what, (unsigned)answer, tlsf_text_of(answer)); }

static void closed_heap(struct tlsf_heap *heap) {
    struct tlsf_name name = {7, 0, 1}, kept = {7, 0, 1};
    struct tlsf_heap_report report;
    uint64_t *base = NULL;
    uint8_t byte = 0;
    uint32_t len = 5;
    said("close", tlsf_close(heap));
    said("allocate", tlsf_allocate(heap, 8, &name));
    said("release", tlsf_release(heap, name));
    said("reset", tlsf_reset(heap));
    said("resize", tlsf_resize(heap, name, 8));
    said("reallocate", tlsf_reallocate(heap, &name, 8));
    said("write", tlsf_write(heap, name, 0, &byte, 1));
    said("read", tlsf_read(heap, name, 0, &byte, 1));
    said("locate", tlsf_locate(heap, name, &base, &len));
    said("report", tlsf_report(heap, &report));
    said("check_around", tlsf_check_around(heap, 0, &len));
    said("check_request", tlsf_check_request(heap, 8, &len));
    printf("  no payload %d, nothing written %d\n", tlsf_payload(heap, name, &len) == NULL,
           !memcmp(&name, &kept, sizeof name) && !base && len == 5);
}

static void open_heap(uint32_t level) {
    struct tlsf_heap heap = TLSF_CLOSED;
    struct tlsf_name name = {0, 0, 0}, second = {0, 0, 0};
    struct tlsf_heap_report report;
    uint8_t in[5] = "abcd", out[5] = {0};
    uint32_t len = 0;
    printf("level %u\n", (unsigned)level);
    said("open", tlsf_open(&heap, level, 7, 128));
    said("open again", tlsf_open(&heap, level, 8, 256));
    said("allocate", tlsf_allocate(&heap, 100, &name));
    printf("  name %u:%u:%u\n", (unsigned)name.heap, (unsigned)name.at, (unsigned)name.serial);
    said("write", tlsf_write(&heap, name, 3, in, sizeof in));
    said("write past", tlsf_write(&heap, name, 96, in, sizeof in));
    said("write nothing at end", tlsf_write(&heap, name, 100, in, 0));
    said("read", tlsf_read(&heap, name, 3, out, sizeof out));
    printf("  the same bytes %d\n", !memcmp(in, out, sizeof in));
    uint8_t *payload = tlsf_payload(&heap, name, &len);
    printf("  payload of %u bytes, at 8 bytes %d, byte 3 is %c\n", (unsigned)len, (uintptr_t)payload % 8 == 0, payload[3]);
    memset(payload, 'z', len);
    said("resize", tlsf_resize(&heap, name, 200));
    payload = tlsf_payload(&heap, name, NULL);
    printf("  byte 99 is %c, byte 100 is %d\n", payload[99], payload[100]);
    said("allocate", tlsf_allocate(&heap, 40, &second));
    said("resize", tlsf_resize(&heap, name, 400));
    said("reallocate", tlsf_reallocate(&heap, &name, 400));
    payload = tlsf_payload(&heap, name, &len);
    printf("  moved to %u, %u bytes, byte 99 is %c, byte 200 is %d\n", (unsigned)name.at, (unsigned)len, payload[99], payload[200]);
    said("reallocate", tlsf_reallocate(&heap, &name, 100000));
    said("allocate too much", tlsf_allocate(&heap, UINT32_MAX, &second));
    said("report", tlsf_report(&heap, &report));
    printf("  live %u blocks of %u words and %u bytes, free %u of %u words, largest %u, grant %u\n", (unsigned)report.live_blocks,
           (unsigned)report.live_words, (unsigned)report.live_bytes, (unsigned)report.free_blocks, (unsigned)report.free_words,
           (unsigned)report.largest, (unsigned)report.grant);
    said("release", tlsf_release(&heap, name));
    said("read a stale name", tlsf_read(&heap, name, 3, out, sizeof out));
    second.heap = 8;
    said("release a foreign name", tlsf_release(&heap, second));
    said("close", tlsf_close(&heap));
    printf("closed again\n");
    closed_heap(&heap);
    said("open anew", tlsf_open(&heap, level, 7, 4));
    said("allocate", tlsf_allocate(&heap, 8, &name));
    said("close", tlsf_close(&heap));
}

/* How long the block that is free longest is free: the tick of opening counts too. */
static void ages(void) {
    struct tlsf_heap heap = TLSF_CLOSED;
    struct tlsf_name names[3] = {{0, 0, 0}, {0, 0, 0}, {0, 0, 0}};
    struct tlsf_heap_report report = {0, 0, 0, 0, 0, 0, 0, 0, 0, 0};
    printf("ages\n");
    said("open", tlsf_open(&heap, 4, 0, 16));
    said("report", tlsf_report(&heap, &report));
    printf("  %u in a new heap\n", (unsigned)report.age);
    for (int k = 0; k < 3; k++) said("allocate", tlsf_allocate(&heap, 8, &names[k]));
    said("report", tlsf_report(&heap, &report));
    printf("  %u of what the last allocate left\n", (unsigned)report.age);
    said("allocate the rest", tlsf_allocate(&heap, 8, &names[2]));
    said("report", tlsf_report(&heap, &report));
    printf("  %u where nothing is free\n", (unsigned)report.age);
    said("release", tlsf_release(&heap, names[0]));
    said("report", tlsf_report(&heap, &report));
    printf("  %u right after a release\n", (unsigned)report.age);
    said("resize", tlsf_resize(&heap, names[1], 4));
    said("release", tlsf_release(&heap, names[2]));
    said("report", tlsf_report(&heap, &report));
    printf("  %u after a resize and a release more\n", (unsigned)report.age);
    said("close", tlsf_close(&heap));
}

static void sizes(void) {
    struct tlsf_heap heap = TLSF_CLOSED;
    uint32_t words = 0;
    printf("sizes\n");
    said("level 3", tlsf_open(&heap, 3, 0, 1024));
    said("level 6", tlsf_open(&heap, 6, 0, 1024));
    said("3 words", tlsf_open(&heap, 4, 0, 3));
    said("2^20 + 1 words", tlsf_open(&heap, 4, 0, (1u << 20) + 1));
    said("the same at level 5", tlsf_open(&heap, 5, 0, (1u << 20) + 1));
    said("close", tlsf_close(&heap));
    said("2^24 + 1 words", tlsf_open(&heap, 5, 0, (1u << 24) + 1));
    said("words", tlsf_words(4, 100, 512, &words));
    printf("  100 blocks of 512 bytes take %u words\n", (unsigned)words);
    said("words, too many", tlsf_words(4, 100000, 512, &words));
    said("words, level 3", tlsf_words(3, 100, 512, &words));
    printf("  words as before %d\n", words == 13631);
    said("words, no blocks", tlsf_words(4, 0, UINT32_MAX, &words));
    printf("  no blocks take %u words\n", (unsigned)words);
    said("words, no blocks", tlsf_words(5, 0, 0, &words));
    printf("  no blocks take %u words\n", (unsigned)words);
    said("words, level 6", tlsf_words(6, 0, 8, &words));
}

static void lanes(void) {
    struct tlsf_heap heap = TLSF_CLOSED;
    struct tlsf_post_end post = TLSF_POST_CLOSED, other = TLSF_POST_CLOSED;
    struct tlsf_take_end take = TLSF_TAKE_CLOSED;
    struct tlsf_name name = {1, 2, 3}, got = {0, 0, 0}, three[3] = {{1, 2, 5}, {6, 7, 8}, {9, 10, 11}};
    uint32_t came = 77;
    size_t went = 88;
    printf("a lane\n");
    said("put", tlsf_put(&post, name));
    said("put all", tlsf_put_all(&post, &name, 1, &went));
    printf("  count as before %d\n", went == 88);
    said("take", tlsf_take(&take, &got));
    said("take all", tlsf_take_all(&take, &got, 1, &went));
    printf("  count as before %d\n", went == 88);
    said("drain", tlsf_drain(&heap, &take, 9, &came));
    said("close", tlsf_post_close(&post));
    said("close", tlsf_take_close(&take));
    said("open for 0", tlsf_lane_open(&post, &take, 0));
    said("open for 1,025", tlsf_lane_open(&post, &take, 1025));
    said("open for 2", tlsf_lane_open(&post, &take, 2));
    said("open again", tlsf_lane_open(&post, &take, 2));
    said("an open end", tlsf_lane_open(&other, &take, 2));
    said("take", tlsf_take(&take, &got));
    said("put", tlsf_put(&post, name));
    name.serial = 4;
    said("put", tlsf_put(&post, name));
    said("put", tlsf_put(&post, name));
    said("take", tlsf_take(&take, &got));
    printf("  took %u:%u:%u\n", (unsigned)got.heap, (unsigned)got.at, (unsigned)got.serial);
    said("drain, heap closed", tlsf_drain(&heap, &take, 9, &came));
    printf("  count as before %d\n", came == 77);
    said("open a heap", tlsf_open(&heap, 4, 1, 64));
    said("drain", tlsf_drain(&heap, &take, 9, &came));
    printf("  %u came\n", (unsigned)came);
    said("put all", tlsf_put_all(&post, three, 3, &went));
    printf("  %u went\n", (unsigned)went);
    said("put all, full", tlsf_put_all(&post, three, 3, &went));
    printf("  %u went\n", (unsigned)went);
    said("put all, none", tlsf_put_all(&post, three, 0, &went));
    said("take", tlsf_take(&take, &got));
    printf("  took %u:%u:%u\n", (unsigned)got.heap, (unsigned)got.at, (unsigned)got.serial);
    said("drain", tlsf_drain(&heap, &take, 9, &came));
    printf("  %u came\n", (unsigned)came);
    said("close one end", tlsf_post_close(&post));
    said("put", tlsf_put(&post, name));
    said("take", tlsf_take(&take, &got));
    said("close the other", tlsf_take_close(&take));
    said("close again", tlsf_take_close(&take));
    said("close the heap", tlsf_close(&heap));
}

/* Names that are under way when an end is closed: those that were put come, and those that nobody takes are gone. */
static void names_under_way(void) {
    struct tlsf_heap heap = TLSF_CLOSED;
    struct tlsf_post_end post = TLSF_POST_CLOSED;
    struct tlsf_take_end take = TLSF_TAKE_CLOSED;
    struct tlsf_queue queue = TLSF_QUEUE_CLOSED;
    struct tlsf_poster poster = TLSF_POSTER_CLOSED;
    struct tlsf_name name = {0, 0, 0}, got = {0, 0, 0};
    struct tlsf_heap_report report;
    uint32_t came = 0;
    printf("names under way\n");
    said("open a heap", tlsf_open(&heap, 4, 1, 64));
    said("allocate", tlsf_allocate(&heap, 8, &name));
    said("open a lane", tlsf_lane_open(&post, &take, 2));
    said("put", tlsf_put(&post, name));
    said("close the post end", tlsf_post_close(&post));
    said("take", tlsf_take(&take, &got));
    printf("  the same name %d\n", !memcmp(&name, &got, sizeof name));
    said("close the take end", tlsf_take_close(&take));
    said("open a queue", tlsf_queue_open(&queue, 1, 2));
    said("open a poster's end", tlsf_poster_open(&queue, &poster));
    said("post", tlsf_queue_post(&poster, name));
    said("close the poster's end", tlsf_poster_close(&poster));
    said("drain", tlsf_queue_drain(&heap, &queue, 9, &came));
    printf("  %u came\n", (unsigned)came);
    said("close the queue", tlsf_queue_close(&queue));
    said("allocate", tlsf_allocate(&heap, 8, &name));
    said("open a lane", tlsf_lane_open(&post, &take, 2));
    said("put", tlsf_put(&post, name));
    said("close the take end", tlsf_take_close(&take));
    said("put", tlsf_put(&post, name));
    said("put", tlsf_put(&post, name));
    said("close the post end", tlsf_post_close(&post));
    said("report", tlsf_report(&heap, &report));
    printf("  live blocks %u\n", (unsigned)report.live_blocks);
    said("close the heap", tlsf_close(&heap));
}

static uint32_t refused;

static void refuses(const char *what, uint32_t answer) {
    refused++;
    if (answer != TLSF_OTHER_KIND) said(what, answer);
}

static void arenas_of_other_kinds(void *offsets, void *pools) {
    struct tlsf_name name = {3, 0, 1};
    struct tlsf_span span = {{2, 0, 1}, 0, 0};
    struct tlsf_offsets_usage usage;
    struct tlsf_heap_report report;
    uint64_t *base = NULL;
    uint32_t n = 0, m = 0;
    uint8_t byte = 0;
    void *const wild = &byte;
    refuses("offsets: allocate", tlsf_offsets_allocate(pools, 8, &span));
    refuses("offsets: release", tlsf_offsets_release(pools, span.name));
    refuses("offsets: resize", tlsf_offsets_resize(pools, &span, 8));
    refuses("offsets: report", tlsf_offsets_report(pools, &usage));
    refuses("offsets: close", tlsf_offsets_close(pools));
    refuses("pools: allocate", tlsf_pools_allocate(offsets, 8, &name));
    refuses("pools: release", tlsf_pools_release(offsets, name));
    refuses("pools: write", tlsf_pools_write(offsets, name, 0, &byte, 1));
    refuses("pools: read", tlsf_pools_read(offsets, name, 0, &byte, 1));
    refuses("pools: report", tlsf_pools_report(offsets, 0, &report));
    refuses("pools: part", tlsf_pools_part(offsets, 0, &base, &n));
    refuses("pools: place", tlsf_pools_place(offsets, 0, 0, &name, &n));
    refuses("pools: row", tlsf_pools_row(offsets, 8, &n));
    refuses("pools: counts", tlsf_pools_counts(offsets, 0, &n, &m));
    refuses("pools: check", tlsf_pools_check(offsets, 0, 0, 1, &n, &m));
    refuses("pools: free", tlsf_pools_free(offsets, wild));
    refuses("pools: close", tlsf_pools_close(offsets));
}

/* Handles that hold something of another kind, as by a cast: ends are refused among ends, and arenas among arenas. A C compiler warns
 * of each, so the addresses go through void pointers. All that they hold is as before. */
static void other_kinds(void) {
    struct tlsf_heap heap = TLSF_CLOSED;
    struct tlsf_post_end post = TLSF_POST_CLOSED;
    struct tlsf_take_end take = TLSF_TAKE_CLOSED;
    struct tlsf_queue queue = TLSF_QUEUE_CLOSED;
    struct tlsf_poster poster = TLSF_POSTER_CLOSED, other = TLSF_POSTER_CLOSED;
    struct tlsf_offsets offsets = TLSF_OFFSETS_CLOSED;
    struct tlsf_pools pools = TLSF_POOLS_CLOSED;
    const struct tlsf_kind row = {1, 8};
    void *const ends[] = {&post, &take, &queue, &poster};
    struct tlsf_name name = {1, 2, 3};
    uint32_t written = 0, opened = tlsf_open(&heap, 4, 1, 64) + tlsf_lane_open(&post, &take, 2) + tlsf_queue_open(&queue, 2, 2);
    opened += tlsf_poster_open(&queue, &poster) + tlsf_offsets_open(&offsets, 4, 2, 1, 64) + tlsf_pools_open(&pools, 4, 3, &row, 1);
    printf("other kinds\n");
    said("open all", opened);
    said("put", tlsf_put(&post, name));
    said("post", tlsf_queue_post(&poster, name));
    for (int k = 0; k < 4; k++) {
        uint32_t n = 77;
        size_t went = 77;
        if (k != 0)
            refuses("put", tlsf_put(ends[k], name)), refuses("put all", tlsf_put_all(ends[k], &name, 1, &went)),
                refuses("close", tlsf_post_close(ends[k]));
        if (k != 1)
            refuses("take", tlsf_take(ends[k], &name)), refuses("take all", tlsf_take_all(ends[k], &name, 1, &went)),
                refuses("drain", tlsf_drain(&heap, ends[k], 9, &n)), refuses("close", tlsf_take_close(ends[k]));
        if (k != 2) refuses("take", tlsf_queue_take(ends[k], &name)), refuses("drain", tlsf_queue_drain(&heap, ends[k], 9, &n));
        if (k != 2) refuses("open a poster's end", tlsf_poster_open(ends[k], &other)), refuses("close", tlsf_queue_close(ends[k]));
        if (k != 3) refuses("post", tlsf_queue_post(ends[k], name)), refuses("close", tlsf_poster_close(ends[k]));
        written += n != 77 || went != 77 || name.serial != 3;
    }
    arenas_of_other_kinds(&offsets, &pools);
    printf("  %u calls refused, %u wrote\n", (unsigned)refused, (unsigned)written);
    said("take", tlsf_take(&take, &name));
    said("take", tlsf_queue_take(&queue, &name));
    said("close all", tlsf_close(&heap) + tlsf_post_close(&post) + tlsf_take_close(&take) + tlsf_queue_close(&queue) +
                          tlsf_poster_close(&poster) + tlsf_offsets_close(&offsets) + tlsf_pools_close(&pools));
}

/* Closed handles as those of a struct, static or not, and as values that are assigned. */
static void closed_values(void) {
    struct all {
        struct tlsf_heap heap;
        struct tlsf_post_end post;
        struct tlsf_take_end take;
    };
    static struct all kept = {TLSF_CLOSED, TLSF_POST_CLOSED, TLSF_TAKE_CLOSED};
    struct all now = {TLSF_CLOSED, TLSF_POST_CLOSED, TLSF_TAKE_CLOSED};
    const struct tlsf_name name = {0, 0, 0};
    memset(&now, 0xff, sizeof now);
    now.heap = TLSF_CLOSED;
    now.post = TLSF_POST_CLOSED;
    now.take = TLSF_TAKE_CLOSED;
    printf("closed values\n");
    said("release", tlsf_release(&kept.heap, name));
    said("put", tlsf_put(&kept.post, name));
    said("close", tlsf_take_close(&kept.take));
    said("release", tlsf_release(&now.heap, name));
    said("put", tlsf_put(&now.post, name));
    said("close", tlsf_take_close(&now.take));
    said("open", tlsf_open(&now.heap, 4, 0, 4));
    said("close", tlsf_close(&now.heap));
}

int main(void) {
    struct tlsf_heap zeroed;
    memset(&zeroed, 0, sizeof zeroed);
    printf("zeroed\n");
    closed_heap(&zeroed);
    closed_values();
    other_kinds();
    open_heap(4);
    open_heap(5);
    sizes();
    ages();
    lanes();
    names_under_way();
    return 0;
}
