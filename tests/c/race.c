/* Programs with a race, which a checker of threads has to report: what peachanchor.h says that C owes isn't kept.
 * RACE payload: two threads write one payload in place. RACE call: one writes in place while the other calls tlsf_write.
 * RACE release: one fills a block in place while the other releases it, and allocates it again. RACE handle: two threads call one
 * heap. RACE put, RACE post: one writes in place after its name went into a lane, or a queue. RACE early: the other writes into a block
 * whose name waits behind the one that it took. RACE right has no race: names are handed over by each call. It is wrong by each of its
 * lines in wrong.edits. */
#include "peachanchor.h"

#include <pthread.h>
#include <sched.h>
#include <stdatomic.h>
#include <stdio.h>
#include <string.h>

enum { TURNS = 2000, BLOCKS = 64, IN_ALL = 4, IN_DRAIN = 20, WORDS = 5 * BLOCKS };

static struct tlsf_heap heap = TLSF_CLOSED;
static struct tlsf_post_end post = TLSF_POST_CLOSED;
static struct tlsf_take_end take = TLSF_TAKE_CLOSED;
static struct tlsf_queue queue = TLSF_QUEUE_CLOSED;
static struct tlsf_poster poster = TLSF_POSTER_CLOSED;
static struct tlsf_name names[BLOCKS]; /* of blocks that fill the heap */
static uint64_t *payloads[BLOCKS];
static const char *kind = "";
static uint32_t wrong;
static atomic_bool is_in; /* the other thread has put all in: who sees that is ordered by nothing */

static int is_kind(const char *it) { return strcmp(kind, it) == 0; }

/* In a race any answer may come. */
static void ignore(uint32_t answer) { (void)answer; }

static void sure(uint32_t answer) {
    if (answer != TLSF_OK) wrong++;
}

/* --- One heap, called or written into by two threads -------------------------------------------------------------------- */

static void *touch(void *given) {
    for (uint64_t i = 0; i < TURNS; i++) {
        if (!is_kind("handle")) payloads[0][0] = i;
        else ignore(tlsf_resize(&heap, names[0], 8 + (uint32_t)(i % 8)));
    }
    return given;
}

static void touch_too(void) {
    const uint8_t bytes[8] = {1, 2, 3, 4, 5, 6, 7, 8};
    for (int i = 0; i < TURNS; i++) {
        if (is_kind("payload")) payloads[0][0] = 0;
        else if (is_kind("release")) ignore(tlsf_release(&heap, names[0]) + tlsf_allocate(&heap, 16, &names[0]));
        else ignore(tlsf_write(&heap, names[0], 0, bytes, sizeof bytes));
    }
}

/* --- Names that are handed over ------------------------------------------------------------------------------------------ */

/* The names of some blocks go one by one, each after its payload is written. */
static void hand_each(int from, int n, bool to_queue) {
    for (int k = from; k < from + n; k++) {
        payloads[k][0] = 1;
        sure(to_queue ? tlsf_queue_post(&poster, names[k]) : tlsf_put(&post, names[k]));
    }
}

static void hand_all(int from) {
    size_t went = 0;
    for (int k = from; k < from + IN_ALL; k++) payloads[k][0] = 1;
    sure(tlsf_put_all(&post, names + from, IN_ALL, &went));
    if (went != IN_ALL) wrong++;
}

/* Where there is a race, the first payload is written once more, or before its turn. */
static void *hand_over(void *given) {
    if (is_kind("early")) hand_each(1, 1, false);
    hand_each(0, 1, is_kind("post"));
    if (is_kind("put") || is_kind("post")) payloads[0][0] = 2;
    atomic_store_explicit(&is_in, true, memory_order_relaxed);
    if (!is_kind("right")) return given;
    hand_all(1);
    hand_each(1 + IN_ALL, IN_DRAIN, false);
    hand_each(1 + IN_ALL + IN_DRAIN, 1 + IN_DRAIN, true);
    return given;
}

/* The next name, however long it takes to come. Its payload is written then. */
static void take_one(bool of_queue) {
    struct tlsf_name name;
    while ((of_queue ? tlsf_queue_take(&queue, &name) : tlsf_take(&take, &name)) != TLSF_OK) sched_yield();
    for (int k = 0; k < BLOCKS; k++)
        if (is_kind("early") ? k == 0 : names[k].at == name.at) payloads[k][0] = 3;
}

/* So many names are taken at once. */
static void take_many(void) {
    struct tlsf_name some[IN_ALL];
    for (size_t came = 0, n = 0; came < IN_ALL; came += n) {
        n = 0;
        if (tlsf_take_all(&take, some, IN_ALL - came, &n) != TLSF_OK) sched_yield();
        for (size_t k = 0; k < n; k++) payloads[1 + came + k][0] = 3;
    }
}

/* So many blocks are drained. The heap is full, so new ones lie there again. */
static void drain(bool of_queue) {
    struct tlsf_name name;
    for (uint32_t came = 0, n = 0; came < IN_DRAIN; came += n) {
        sure(of_queue ? tlsf_queue_drain(&heap, &queue, IN_DRAIN - came, &n) : tlsf_drain(&heap, &take, IN_DRAIN - came, &n));
        if (n == 0) sched_yield();
    }
    for (uint32_t k = 0; k < IN_DRAIN; k++) {
        sure(tlsf_allocate(&heap, 16, &name));
        uint64_t *const payload = tlsf_payload(&heap, name, NULL);
        if (payload) payload[0] = 3;
    }
}

static void take_over(void) {
    while (is_kind("early") && !atomic_load_explicit(&is_in, memory_order_relaxed)) sched_yield();
    take_one(is_kind("post"));
    if (!is_kind("right")) return;
    take_many();
    drain(false);
    take_one(true);
    drain(true);
}

static uint32_t open_all(void) {
    if (tlsf_open(&heap, 4, 0, WORDS) || tlsf_lane_open(&post, &take, BLOCKS)) return 2;
    if (tlsf_queue_open(&queue, 1, BLOCKS) || tlsf_poster_open(&queue, &poster)) return 2;
    for (int k = 0; k < BLOCKS; k++) {
        if (tlsf_allocate(&heap, 16, &names[k])) return 2;
        payloads[k] = tlsf_payload(&heap, names[k], NULL);
    }
    return 0;
}

int main(int argc, char **argv) {
    pthread_t thread;
    if (argc > 1) kind = argv[1];
    const bool is_handed = is_kind("put") || is_kind("post") || is_kind("early") || is_kind("right");
    if (open_all() || pthread_create(&thread, NULL, is_handed ? hand_over : touch, NULL)) return 2;
    if (is_handed) take_over();
    else touch_too();
    pthread_join(thread, NULL);
    printf("%s: done\n", kind);
    return wrong != 0;
}
