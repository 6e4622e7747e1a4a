/* A synthesizer, as an engine would write it. A callback has to be done within its period: it allocates a voice, plays all
 * that sound, and sends the new one's name to a second thread, which says when a voice has ended: it sends the name back
 * over a lane, and the callback releases it. The heap is as large as tlsf_words says for so many voices of that size, so
 * none is refused, in whatever order they come and go.
 *
 * Then the same is done with malloc and free. The lines with times are of this run on this machine, with all else that it
 * did meanwhile: they show no bound. */
#define _POSIX_C_SOURCE 200809L
#include <peachanchor.h>

#include <pthread.h>
#include <stdatomic.h>
#include <stdio.h>
#include <stdlib.h>
#include <string.h>
#include <time.h>

enum { STARTED = 4000, AT_ONCE = 64, LONGEST = 4096, PERIOD = 200000 /* nanoseconds */, ENDED_A_TURN = 4 };

struct voice {
    struct tlsf_name name;
    float *samples;
    uint32_t count;
};

struct engine {
    int by_heap;                /* or by malloc, and then a name's serial holds the pointer */
    struct tlsf_near_heap heap; /* other work has the caches between two callbacks */
    struct tlsf_post_end to_second, from_second;
    struct tlsf_take_end at_second, at_callback;
    struct voice voices[AT_ONCE];
    uint32_t live, refused, late;
    atomic_int is_over;
    atomic_int lost;                              /* names that found a lane full: none, since each lane has room for AT_ONCE of them */
    uint32_t allocate[STARTED], release[STARTED]; /* nanoseconds of each call */
};

static uint64_t now(void) {
    struct timespec t;
    clock_gettime(CLOCK_MONOTONIC, &t);
    return (uint64_t)t.tv_sec * 1000000000u + (uint64_t)t.tv_nsec;
}

static void sleep_until(uint64_t moment) {
    struct timespec t = {(time_t)(moment / 1000000000u), (long)(moment % 1000000000u)};
    clock_nanosleep(CLOCK_MONOTONIC, TIMER_ABSTIME, &t, NULL);
}

/* --- The callback: the one thread that calls the heap --------------------------------------------------------------- */

static uint32_t allocate(struct engine *it, uint32_t len, struct tlsf_name *name) {
    if (it->by_heap) return tlsf_allocate(tlsf_near(&it->heap), len, name);
    char *p = malloc(len); /* and zeros, as tlsf_allocate gives them */
    if (p) memset(p, 0, len);
    name->serial = (uintptr_t)p;
    return p ? TLSF_OK : TLSF_NO_FIT;
}

static void release(struct engine *it, const struct tlsf_name *name) {
    if (it->by_heap) tlsf_release(tlsf_near(&it->heap), *name);
    else free((void *)(uintptr_t)name->serial);
}

static void start_voice(struct engine *it, uint32_t started) {
    struct voice *v = &it->voices[it->live];
    const uint32_t len = 256 + started * 1103 % (LONGEST - 255);
    const uint64_t from = now();
    const uint32_t answer = allocate(it, len, &v->name);
    it->allocate[started] = (uint32_t)(now() - from);
    if (answer != TLSF_OK) {
        it->refused++;
        return;
    }
    v->samples = it->by_heap ? tlsf_payload(tlsf_near(&it->heap), v->name, NULL) : (void *)(uintptr_t)v->name.serial;
    v->count = len / sizeof *v->samples;
    v->samples[0] = 1.0f;
    it->live++;
    if (tlsf_put(&it->to_second, v->name) != TLSF_OK) atomic_fetch_add(&it->lost, 1);
}

static void end_voices(struct engine *it, uint32_t *ended) {
    struct tlsf_name name;
    for (int n = 0; n < ENDED_A_TURN && tlsf_take(&it->at_callback, &name) == TLSF_OK; n++) {
        uint32_t k = 0;
        while (it->voices[k].name.serial != name.serial) k++;
        const uint64_t from = now();
        release(it, &name);
        it->release[(*ended)++] = (uint32_t)(now() - from);
        it->voices[k] = it->voices[--it->live];
    }
}

static float play(struct engine *it) {
    float sum = 0;
    for (uint32_t k = 0; k < it->live; k++) {
        struct voice *v = &it->voices[k];
        for (uint32_t j = 1; j < v->count && j < 64; j++) v->samples[j] = v->samples[j] * 0.5f + v->samples[j - 1] * 0.5f;
        sum += v->samples[v->count > 63 ? 63 : v->count - 1];
    }
    return sum;
}

static void *callback(void *given) {
    struct engine *it = given;
    uint32_t started = 0, ended = 0;
    volatile float output = 0;
    uint64_t begins = now();
    while (ended + it->refused < STARTED) {
        end_voices(it, &ended);
        if (started < STARTED && it->live < AT_ONCE) start_voice(it, started++);
        output = play(it);
        begins += PERIOD;
        if (now() > begins) it->late++, begins = now();
        sleep_until(begins);
    }
    (void)output;
    atomic_store(&it->is_over, 1);
    return NULL;
}

/* --- The second thread: it never calls the heap --------------------------------------------------------------------- */

static void *end_them(void *given) {
    struct engine *it = given;
    struct tlsf_name name;
    while (!atomic_load(&it->is_over)) {
        for (int n = 0; n < 8 && tlsf_take(&it->at_second, &name) == TLSF_OK; n++)
            if (tlsf_put(&it->from_second, name) != TLSF_OK) atomic_fetch_add(&it->lost, 1);
        sleep_until(now() + 5 * PERIOD);
    }
    return NULL;
}

/* --- Both ways, and what they took ---------------------------------------------------------------------------------- */

static int by_size(const void *a, const void *b) {
    const uint32_t x = *(const uint32_t *)a, y = *(const uint32_t *)b;
    return (x > y) - (x < y);
}

static void tell(const char *what, uint32_t *times) {
    qsort(times, STARTED, sizeof *times, by_size);
    printf("time: %-17s worst %7u ns, 999 of 1000 within %6u ns, half within %5u ns\n", what, (unsigned)times[STARTED - 1],
           (unsigned)times[STARTED - STARTED / 1000], (unsigned)times[STARTED / 2]);
}

static int run(int by_heap) {
    static struct engine engine;
    pthread_t first, second;
    uint32_t words = 0;
    memset(&engine, 0, sizeof engine); /* all handles are closed */
    engine.by_heap = by_heap;
    if (tlsf_words(4, AT_ONCE, LONGEST, &words) || tlsf_open_near(&engine.heap, 4, 1, words) ||
        tlsf_lane_open(&engine.to_second, &engine.at_second, AT_ONCE) || tlsf_lane_open(&engine.from_second, &engine.at_callback, AT_ONCE))
        return 1;
    if (pthread_create(&second, NULL, end_them, &engine) || pthread_create(&first, NULL, callback, &engine)) return 1;
    pthread_join(first, NULL);
    pthread_join(second, NULL);
    if (by_heap)
        printf("%d voices, at most %d at once of at most %d bytes: a heap of %u words\n", STARTED, AT_ONCE, LONGEST, (unsigned)words);
    printf("%s: %u refused\n", by_heap ? "the heap" : "malloc", (unsigned)engine.refused);
    tell(by_heap ? "tlsf_allocate" : "malloc and memset", engine.allocate);
    tell(by_heap ? "tlsf_release" : "free", engine.release);
    printf("time: %u callbacks were late\n", (unsigned)engine.late);
    tlsf_post_close(&engine.to_second);
    tlsf_take_close(&engine.at_second);
    tlsf_post_close(&engine.from_second);
    tlsf_take_close(&engine.at_callback);
    tlsf_close(tlsf_near(&engine.heap));
    return engine.refused != 0 || atomic_load(&engine.lost) != 0;
}

int main(void) { return run(1) + run(0); }
