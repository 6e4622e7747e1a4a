/* A queue: each refusal, and then several threads that post the names of one heap's blocks, whose owner releases them. Each poster's
 * names come in its order, none twice, and none is lost. QUEUES [POSTERS] [BLOCKS of each] */
#include "peachanchor.h"
#include "chance.h"

#include <pthread.h>
#include <sched.h>
#include <string.h>

enum { MOST_POSTERS = 16, CAPACITY = 8, WORDS = 1 << 16 };

/* --- One thread ------------------------------------------------------------------------------------------------------- */

static void refusals_of_opening(void) {
    struct tlsf_queue queue = TLSF_QUEUE_CLOSED;
    struct tlsf_poster poster = TLSF_POSTER_CLOSED, other = TLSF_POSTER_CLOSED;
    wants("no posters", tlsf_queue_open(&queue, 0, 1), TLSF_BAD_SIZE);
    wants("too many posters", tlsf_queue_open(&queue, 1025, 1), TLSF_BAD_SIZE);
    wants("no names", tlsf_queue_open(&queue, 1, 0), TLSF_BAD_SIZE);
    wants("too many names", tlsf_queue_open(&queue, 1, 1025), TLSF_BAD_SIZE);
    wants("a poster of a closed queue", tlsf_poster_open(&queue, &poster), TLSF_IS_CLOSED);
    wants("open", tlsf_queue_open(&queue, 1, 1), TLSF_OK);
    wants("open twice", tlsf_queue_open(&queue, 1, 1), TLSF_IN_USE);
    wants("open twice, with no names", tlsf_queue_open(&queue, 1, 0), TLSF_IN_USE);
    wants("a poster", tlsf_poster_open(&queue, &poster), TLSF_OK);
    wants("a poster twice", tlsf_poster_open(&queue, &poster), TLSF_IN_USE);
    wants("one poster more", tlsf_poster_open(&queue, &other), TLSF_EMPTY);
    wants("it stays closed", tlsf_poster_close(&other), TLSF_IS_CLOSED);
    wants("close the poster", tlsf_poster_close(&poster), TLSF_OK);
    wants("close it twice", tlsf_poster_close(&poster), TLSF_IS_CLOSED);
    wants("it isn't given again", tlsf_poster_open(&queue, &poster), TLSF_EMPTY);
    wants("close", tlsf_queue_close(&queue), TLSF_OK);
    wants("close twice", tlsf_queue_close(&queue), TLSF_IS_CLOSED);
    wants("the most", tlsf_queue_open(&queue, 1024, 1024), TLSF_OK);
    for (int i = 0; i < 1024; i++) {
        wants("each of the most posters", tlsf_poster_open(&queue, &poster), TLSF_OK);
        wants("it closes", tlsf_poster_close(&poster), TLSF_OK);
    }
    wants("and no more", tlsf_poster_open(&queue, &poster), TLSF_EMPTY);
    wants("close the most", tlsf_queue_close(&queue), TLSF_OK);
}

static void refusals_of_names(void) {
    struct tlsf_queue queue = TLSF_QUEUE_CLOSED;
    struct tlsf_poster one = TLSF_POSTER_CLOSED, two = TLSF_POSTER_CLOSED;
    struct tlsf_name name = {1, 2, 3}, came = {7, 7, 7};
    const struct tlsf_name untouched = came;
    wants("post through a closed end", tlsf_queue_post(&one, name), TLSF_IS_CLOSED);
    wants("take from a closed queue", tlsf_queue_take(&queue, &came), TLSF_IS_CLOSED);
    wants("open", tlsf_queue_open(&queue, 2, 2), TLSF_OK);
    wants("first poster", tlsf_poster_open(&queue, &one), TLSF_OK);
    wants("second poster", tlsf_poster_open(&queue, &two), TLSF_OK);
    wants("take of nothing", tlsf_queue_take(&queue, &came), TLSF_EMPTY);
    wants("no name came", (size_t)memcmp(&came, &untouched, sizeof came), 0);
    for (turn = 0; turn < 5; turn++) { /* more than the queue has places */
        name.at = (uint32_t)turn;
        wants("the first post", tlsf_queue_post(&one, name), TLSF_OK);
        name.at = (uint32_t)turn + 10;
        wants("the second post", tlsf_queue_post(&two, name), TLSF_OK);
        wants("a third of one", tlsf_queue_post(&one, name), TLSF_FULL);
        wants("a third of the other", tlsf_queue_post(&two, name), TLSF_FULL);
        wants("the first comes", tlsf_queue_take(&queue, &came), TLSF_OK);
        wants("it is the first", came.at, (size_t)turn);
        wants("the second comes", tlsf_queue_take(&queue, &came), TLSF_OK);
        wants("it is the second", came.at, (size_t)turn + 10);
        wants("no third", tlsf_queue_take(&queue, &came), TLSF_EMPTY);
    }
    wants("a post", tlsf_queue_post(&one, name), TLSF_OK);
    wants("the queue closes", tlsf_queue_close(&queue), TLSF_OK);
    wants("a post that nobody takes", tlsf_queue_post(&two, name), TLSF_OK);
    wants("a full one", tlsf_queue_post(&one, name), TLSF_FULL);
    wants("one closes", tlsf_poster_close(&one), TLSF_OK);
    wants("the last closes", tlsf_poster_close(&two), TLSF_OK);
}

static void drains(void) {
    struct tlsf_heap heap = TLSF_CLOSED;
    struct tlsf_queue queue = TLSF_QUEUE_CLOSED;
    struct tlsf_poster poster = TLSF_POSTER_CLOSED;
    struct tlsf_heap_report report = {0, 0, 0, 0, 0, 0, 0, 0, 0, 0};
    struct tlsf_name name = {0, 0, 0};
    uint32_t came = 77;
    wants("drain of closed handles", tlsf_queue_drain(&heap, &queue, 1, &came), TLSF_IS_CLOSED);
    wants("open the heap", tlsf_open(&heap, 4, 3, 1024), TLSF_OK);
    wants("drain of a closed queue", tlsf_queue_drain(&heap, &queue, 1, &came), TLSF_IS_CLOSED);
    wants("open", tlsf_queue_open(&queue, 1, 8), TLSF_OK);
    wants("poster", tlsf_poster_open(&queue, &poster), TLSF_OK);
    wants("came is left", came, 77);
    wants("drain of nothing", tlsf_queue_drain(&heap, &queue, 9, &came), TLSF_OK);
    wants("none came", came, 0);
    for (int i = 0; i < 5; i++) {
        wants("allocate", tlsf_allocate(&heap, 40, &name), TLSF_OK);
        wants("post", tlsf_queue_post(&poster, name), TLSF_OK);
    }
    wants("the last once more", tlsf_queue_post(&poster, name), TLSF_OK); /* stale when it comes */
    wants("drain none", tlsf_queue_drain(&heap, &queue, 0, &came), TLSF_OK);
    wants("none came", came, 0);
    wants("drain two", tlsf_queue_drain(&heap, &queue, 2, &came), TLSF_OK);
    wants("two came", came, 2);
    wants("report", tlsf_report(&heap, &report), TLSF_OK);
    wants("three are live", report.live_blocks, 3);
    wants("drain the others", tlsf_queue_drain(&heap, &queue, 1000, &came), TLSF_OK);
    wants("four came", came, 4);
    wants("report", tlsf_report(&heap, &report), TLSF_OK);
    wants("none is live", report.live_blocks, 0);
    wants("close the heap", tlsf_close(&heap), TLSF_OK);
    wants("drain into a closed heap", tlsf_queue_drain(&heap, &queue, 1, &came), TLSF_IS_CLOSED);
    wants("close", tlsf_queue_close(&queue), TLSF_OK);
    wants("close the poster", tlsf_poster_close(&poster), TLSF_OK);
}

/* --- Threads ---------------------------------------------------------------------------------------------------------- */

static long blocks = 20000;

/* A poster gets names by a lane of its own, and posts each. */
struct worker {
    struct tlsf_take_end take;
    struct tlsf_poster poster;
    long busy, full;
};

static void *post_all(void *given) {
    struct worker *it = given;
    struct tlsf_name name = {0, 0, 0};
    for (long i = 0; i < blocks; i++) {
        uint32_t answer;
        while (tlsf_take(&it->take, &name) != TLSF_OK) sched_yield();
        while ((answer = tlsf_queue_post(&it->poster, name)) != TLSF_OK) {
            *(answer == TLSF_BUSY ? &it->busy : &it->full) += 1;
            sched_yield();
        }
    }
    tlsf_take_close(&it->take);
    tlsf_poster_close(&it->poster);
    return NULL;
}

static void threads(int posters) {
    static struct worker worker[MOST_POSTERS];
    static struct tlsf_post_end post[MOST_POSTERS];
    static uint32_t of[WORDS];          /* the poster that a block went to, and 1 more, by its place */
    static uint64_t last[MOST_POSTERS]; /* the serial that came last of each: they rise */
    struct tlsf_heap heap = TLSF_CLOSED;
    struct tlsf_queue queue = TLSF_QUEUE_CLOSED;
    struct tlsf_heap_report report = {0, 0, 0, 0, 0, 0, 0, 0, 0, 0};
    pthread_t thread[MOST_POSTERS];
    long out[MOST_POSTERS] = {0}, back = 0, took_busy = 0, busy = 0, full = 0;
    struct tlsf_name name;
    wants("open the heap", tlsf_open(&heap, 4, 1, WORDS), TLSF_OK);
    wants("open", tlsf_queue_open(&queue, (uint32_t)posters, CAPACITY), TLSF_OK);
    for (int i = 0; i < posters; i++) {
        wants("a lane", tlsf_lane_open(&post[i], &worker[i].take, 16), TLSF_OK);
        wants("a poster", tlsf_poster_open(&queue, &worker[i].poster), TLSF_OK);
        if (pthread_create(&thread[i], NULL, post_all, &worker[i])) exit(2);
    }
    while (back < posters * blocks) {
        uint32_t answer;
        for (int i = 0; i < posters; i++) {
            if (out[i] == blocks || tlsf_allocate(&heap, 8 + below(100), &name)) continue;
            of[name.at] = (uint32_t)i + 1; /* before it goes: it may be back at once */
            if (tlsf_put(&post[i], name) == TLSF_OK) out[i]++;
            else of[name.at] = 0, tlsf_release(&heap, name);
        }
        while ((answer = tlsf_queue_take(&queue, &name)) == TLSF_OK) {
            const uint32_t by = of[name.at];
            wants("it was out", by != 0, 1);
            wants("in its poster's order", name.serial > last[by - 1], 1);
            last[by - 1] = name.serial;
            of[name.at] = 0;
            wants("it is live", tlsf_release(&heap, name), TLSF_OK);
            back++;
        }
        if (answer == TLSF_BUSY) took_busy++;
        else wants("then it is empty", answer, TLSF_EMPTY);
        sched_yield();
    }
    for (int i = 0; i < posters; i++) {
        pthread_join(thread[i], NULL);
        tlsf_post_close(&post[i]);
        busy += worker[i].busy, full += worker[i].full;
    }
    wants("report", tlsf_report(&heap, &report), TLSF_OK);
    wants("all are back", report.live_blocks, 0);
    wants("close", tlsf_queue_close(&queue), TLSF_OK);
    wants("close the heap", tlsf_close(&heap), TLSF_OK);
    printf("%ld names came, each poster's in order; posts found it full %ld times and busy %ld times, takes busy %ld times\n", back, full,
           busy, took_busy);
}

int main(int argc, char **argv) {
    const int posters = argc > 1 ? atoi(argv[1]) : 3;
    if (argc > 2) blocks = atol(argv[2]);
    if (posters < 1 || posters > MOST_POSTERS) return 2;
    state = 1;
    refusals_of_opening();
    refusals_of_names();
    drains();
    threads(posters);
    return 0;
}
