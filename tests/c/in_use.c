/* A call notes that it uses a handle, and a signal handler's call on that handle is refused meanwhile. Here a signal comes after each
 * instruction of each call. A handler's call that would change nothing has to be refused at one of these at least. tlsf_counts isn't
 * tried: it only reads, by a few instructions, and notes nothing. */
#define _GNU_SOURCE
#include "peachanchor.h"
#include "stepping.h"

#include <signal.h>
#include <stdio.h>
#include <string.h>

enum { WORDS = 4096, CAPACITY = 1024 };

static struct tlsf_heap heap = TLSF_CLOSED, other = TLSF_CLOSED;
static struct tlsf_post_end post = TLSF_POST_CLOSED;
static struct tlsf_take_end take = TLSF_TAKE_CLOSED;
static struct tlsf_queue queue = TLSF_QUEUE_CLOSED;
static struct tlsf_poster poster = TLSF_POSTER_CLOSED, late = TLSF_POSTER_CLOSED;
static struct tlsf_offsets offsets = TLSF_OFFSETS_CLOSED;
static struct tlsf_pools pools = TLSF_POOLS_CLOSED;
static const struct tlsf_kind rows[] = {{2, 16}};
static struct tlsf_name name, names[4];

/* --- The handler's call --------------------------------------------------------------------------------------------------- */

static uint32_t on_heap(void) {
    struct tlsf_heap_counts counts = {0, 0, 0, 0};
    return tlsf_counts(&heap, &counts);
}

static uint32_t on_post(void) {
    size_t went = 0;
    return tlsf_put_all(&post, names, 0, &went);
}

static uint32_t on_take(void) {
    size_t came = 0;
    return tlsf_take_all(&take, names, 0, &came);
}

static uint32_t on_queue(void) {
    uint32_t came = 0;
    return (tlsf_queue_drain)(&other, &queue, 0, &came);
}

/* Nothing that a poster's end may be asked leaves it as it is. */
static uint32_t on_poster(void) { return tlsf_queue_post(&poster, names[0]); }

static uint32_t on_offsets(void) {
    struct tlsf_offsets_usage usage = {0, 0, 0, 0};
    return tlsf_offsets_report(&offsets, &usage);
}

static uint32_t on_pools(void) {
    uint32_t row_len = 0;
    return tlsf_pools_row(&pools, 16, &row_len);
}

static uint32_t (*volatile asked)(void);
static volatile long refused;
static long calls, wrong;

static void ask(int signal) {
    (void)signal;
    if (asked() == TLSF_IS_CLOSED) refused++;
}

static void begin(uint32_t (*call)(void)) {
    asked = call;
    refused = 0;
    start_steps();
}

static void end(const char *what, uint32_t answer) {
    stop_steps();
    calls++;
    if (answer == TLSF_OK && refused) return;
    printf("%s: answered %u, and refused %ld meanwhile\n", what, (unsigned)answer, refused);
    wrong++;
}

#define USES(handler, call) (begin(handler), end(#call, call))

/* --- The calls -------------------------------------------------------------------------------------------------------------- */

static void of_a_heap(void) {
    struct tlsf_heap_report report;
    struct tlsf_block_info block;
    struct tlsf_placed at;
    uint64_t *base;
    uint8_t byte = 1;
    uint32_t len, next, damaged;
    USES(on_heap, tlsf_allocate(&heap, 100, &name));
    USES(on_heap, tlsf_write(&heap, name, 0, &byte, 1));
    USES(on_heap, tlsf_read(&heap, name, 0, &byte, 1));
    USES(on_heap, tlsf_locate(&heap, name, &base, &len));
    USES(on_heap, tlsf_place(&heap, name.at, &names[1], &len));
    USES(on_heap, tlsf_block_at(&heap, name.at, &block));
    USES(on_heap, tlsf_report(&heap, &report));
    USES(on_heap, tlsf_check(&heap, 0, 2, &next, &damaged));
    USES(on_heap, tlsf_check_around(&heap, name.at, &damaged));
    USES(on_heap, tlsf_check_request(&heap, 100, &damaged));
    USES(on_heap, tlsf_resize(&heap, name, 200));
    USES(on_heap, tlsf_reallocate(&heap, &name, 392));
    USES(on_heap, tlsf_release_all(&heap, &name, 0));
    USES(on_heap, tlsf_release(&heap, name));
    USES(on_heap, (at = tlsf_allocate_place(&heap, 100)).answer);
    USES(on_heap, tlsf_resize_place(&heap, at.at, 200, &next));
    USES(on_heap, tlsf_release_place(&heap, next));
    USES(on_heap, tlsf_allocate_aligned(&heap, 100, 4, 0).answer);
    USES(on_heap, tlsf_allocate_payload(&heap, 100) == 0);
    USES(on_heap, tlsf_reset(&heap));
}

static void of_ends(void) {
    size_t count;
    uint32_t came;
    USES(on_post, tlsf_put(&post, names[0]));
    USES(on_post, tlsf_put_all(&post, names, 4, &count));
    USES(on_take, tlsf_take(&take, &name));
    USES(on_take, tlsf_take_all(&take, names, 1, &count));
    USES(on_take, (tlsf_drain)(&heap, &take, 1, &came));
    USES(on_heap, (tlsf_drain)(&heap, &take, 1, &came));
    USES(on_poster, tlsf_queue_post(&poster, names[0]));
    USES(on_queue, tlsf_queue_take(&queue, &name));
    USES(on_queue, (tlsf_queue_drain)(&heap, &queue, 1, &came));
    USES(on_heap, (tlsf_queue_drain)(&heap, &queue, 1, &came));
    USES(on_queue, tlsf_poster_open(&queue, &late));
}

static void of_arenas(void) {
    struct tlsf_offsets_usage usage;
    struct tlsf_heap_report report;
    struct tlsf_span span;
    uint64_t *base;
    uint32_t number, len;
    uint8_t byte = 1;
    USES(on_offsets, tlsf_offsets_allocate(&offsets, 40, &span));
    USES(on_offsets, tlsf_offsets_resize(&offsets, &span, 20));
    USES(on_offsets, tlsf_offsets_report(&offsets, &usage));
    USES(on_offsets, tlsf_offsets_release(&offsets, span.name));
    USES(on_pools, tlsf_pools_allocate(&pools, 16, &name));
    USES(on_pools, tlsf_pools_write(&pools, name, 0, &byte, 1));
    USES(on_pools, tlsf_pools_read(&pools, name, 0, &byte, 1));
    USES(on_pools, tlsf_pools_part(&pools, 0, &base, &number));
    USES(on_pools, tlsf_pools_place(&pools, 0, name.at, &names[1], &len));
    USES(on_pools, tlsf_pools_row(&pools, 16, &len));
    USES(on_pools, tlsf_pools_counts(&pools, 0, &number, &len));
    USES(on_pools, tlsf_pools_check(&pools, 0, 0, 9, &number, &len));
    USES(on_pools, tlsf_pools_report(&pools, 0, &report));
    USES(on_pools, tlsf_pools_release(&pools, name));
}

int main(void) {
    struct sigaction action;
    memset(&action, 0, sizeof action);
    action.sa_handler = ask;
    if (sigaction(SIGTRAP, &action, NULL)) return 2;
    if (tlsf_open(&heap, 4, 1, WORDS) || tlsf_open(&other, 4, 2, WORDS) || tlsf_lane_open(&post, &take, CAPACITY)) return 2;
    if (tlsf_queue_open(&queue, 2, CAPACITY) || tlsf_poster_open(&queue, &poster)) return 2;
    if (tlsf_offsets_open(&offsets, 4, 3, 1, WORDS) || tlsf_pools_open(&pools, 4, 4, rows, 1)) return 2;
    of_a_heap();
    of_ends();
    of_arenas();
    /* No block had an odd number of words, so no call notes one. */
    if (heap.is_mixed) wrong++;
    printf("%ld calls, %ld wrong\n", calls, wrong);
    return wrong != 0;
}
