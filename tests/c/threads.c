/* A thread that has the heap, and others: it sends the names of its blocks over lanes; the others send them back, many at once where many
 * came, to be released. With FILLERS, 1 to 3, so many others fill each payload in place meanwhile, whatever the first calls: by rule 4 of
 * peachanchor.h they may. With 0 there is one other, which touches no payload. THREADS [BLOCKS] [FILLERS] */
#include "peachanchor.h"

#include <pthread.h>
#include <sched.h>
#include <stdio.h>
#include <stdlib.h>
#include <string.h>

enum { UNDER_WAY = 1024, CAPACITY = 64, WORDS = 4096, AT_ONCE = 70, MOST_OTHERS = 3, LONGEST = 208 };

static long blocks = 100000, others = 1;

/* Block number i goes to the other number i % others. */
struct other {
    _Alignas(128) struct tlsf_take_end take;
    struct tlsf_post_end post;
    uint64_t *base; /* of the region; null where this thread touches no payload */
    long number, wrong;
    pthread_t thread;
};

static uint32_t length_of(long i) { return 8 + (uint32_t)(i % 200); }

/* Its first word is the block's number, or is filled with what that isn't; the rest is bytes by that. */
static uint8_t byte_of(long i, uint32_t k) { return (uint8_t)(i * 7 + (long)k); }

static void fill(struct other *it, const struct tlsf_name *name, long i) {
    uint8_t *payload = tlsf_at(it->base, *name);
    uint64_t first = 0;
    memcpy(&first, payload, sizeof first);
    if (first != (uint64_t)i) it->wrong++;
    first = ~first;
    memcpy(payload, &first, sizeof first);
    for (uint32_t k = 8; k < length_of(i); k++) payload[k] = byte_of(i, k);
}

static void *send_back(void *given) {
    struct other *it = given;
    struct tlsf_name names[AT_ONCE];
    for (long i = it->number; i < blocks;) {
        const size_t most = 1 + (size_t)i % AT_ONCE;
        size_t n = 0, gone = 0;
        const uint32_t answer = tlsf_take_all(&it->take, names, most, &n);
        if (answer != TLSF_OK && answer != TLSF_EMPTY) it->wrong++;
        for (size_t k = 0; k < n; k++, i += others)
            if (it->base) fill(it, &names[k], i);
        while (gone < n) {
            size_t went = 0;
            if (tlsf_put_all(&it->post, names + gone, n - gone, &went) != TLSF_OK || went > n - gone) it->wrong++;
            gone += went;
            if (!went) sched_yield();
        }
        if (!n) sched_yield();
    }
    tlsf_take_close(&it->take);
    tlsf_post_close(&it->post);
    return NULL;
}

/* --- The thread that has the heap ---------------------------------------------------------------------------------------- */

static struct tlsf_heap heap;
static struct other other[MOST_OTHERS];
static struct tlsf_post_end post[MOST_OTHERS];
static struct tlsf_take_end take[MOST_OTHERS];
static struct tlsf_name sent[UNDER_WAY]; /* by their numbers */
static long out, back, next[MOST_OTHERS], wrong;

/* The number of the block that is out longest. */
static long oldest(void) {
    long least = out;
    for (long j = 0; j < others; j++)
        if (next[j] < least) least = next[j];
    return least;
}

static void send_one(void) {
    const uint64_t first = (uint64_t)out;
    struct tlsf_name name;
    uint8_t bytes[8];
    if (out >= blocks || out - oldest() >= UNDER_WAY || tlsf_allocate(&heap, length_of(out), &name)) return;
    memcpy(bytes, &first, sizeof bytes);
    if (tlsf_write(&heap, name, 0, bytes, sizeof bytes)) wrong++;
    if (tlsf_put(&post[out % others], name) == TLSF_OK) sent[out++ % UNDER_WAY] = name;
    else if (tlsf_release(&heap, name)) wrong++;
}

/* What came back of one is in its order, and as it was filled. */
static void take_from(long j) {
    struct tlsf_name name;
    uint8_t bytes[LONGEST];
    while (tlsf_take(&take[j], &name) == TLSF_OK) {
        const long i = next[j];
        uint64_t first = 0;
        if (memcmp(&name, &sent[i % UNDER_WAY], sizeof name)) wrong++;
        if (tlsf_read(&heap, name, 0, bytes, length_of(i))) wrong++;
        memcpy(&first, bytes, sizeof first);
        if (first != (other[j].base ? ~(uint64_t)i : (uint64_t)i)) wrong++;
        for (uint32_t k = 8; k < length_of(i); k++)
            if (bytes[k] != (other[j].base ? byte_of(i, k) : 0)) wrong++;
        if (tlsf_release(&heap, name)) wrong++;
        next[j] += others;
        back++;
    }
}

int main(int argc, char **argv) {
    struct tlsf_heap_report report = {0, 0, 0, 0, 0, 0, 0, 0, 0, 0};
    long fillers = 0, wrong_there = 0;
    if (argc > 1) blocks = atol(argv[1]);
    if (argc > 2) fillers = atol(argv[2]);
    if (fillers < 0 || fillers > MOST_OTHERS || tlsf_open(&heap, 4, 0, WORDS)) return 2;
    if (fillers) others = fillers;
    for (long j = 0; j < others; j++) {
        other[j].number = next[j] = j;
        if (fillers && !(other[j].base = tlsf_base(&heap))) return 2;
        if (tlsf_lane_open(&post[j], &other[j].take, CAPACITY) || tlsf_lane_open(&other[j].post, &take[j], CAPACITY)) return 2;
    }
    for (long j = 0; j < others; j++)
        if (pthread_create(&other[j].thread, NULL, send_back, &other[j])) return 2;
    while (back < blocks) {
        send_one();
        for (long j = 0; j < others; j++) take_from(j);
        if (out - back >= CAPACITY) sched_yield();
    }
    for (long j = 0; j < others; j++) {
        pthread_join(other[j].thread, NULL);
        wrong_there += other[j].wrong;
        if (tlsf_post_close(&post[j]) || tlsf_take_close(&take[j])) wrong++;
    }
    if (tlsf_report(&heap, &report) || report.live_blocks || report.free_words != WORDS || tlsf_close(&heap)) wrong++;
    printf("%ld blocks over and back, in their order: %ld wrong here, %ld wrong there\n", blocks, wrong, wrong_there);
    return wrong || wrong_there;
}
