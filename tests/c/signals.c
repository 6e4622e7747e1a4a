/* Calls from a signal handler: those on a handle that the interrupted call is using are refused, and harm nothing. No call writes
 * the handles that it uses. And whoever walks the stack in a handler, as a crash reporter does, finds the way through the library.
 *
 * The program makes calls by chance on a heap, a lane, a queue, an arena of offsets and pools, and knows what each of its blocks
 * holds. So does the handler, with blocks of its own. It looks at the handles too. SIGNALS step CALLS: each call is interrupted at each
 * instruction, and the handler makes a call. SIGNALS timer COUNT: a timer interrupts COUNT times. SIGNALS walk CALLS: at each instruction
 * the handler walks the stack. */
#define _GNU_SOURCE
#include "peachanchor.h"
#include "stepping.h"

#include <signal.h>
#include <stdio.h>
#include <stdlib.h>
#include <string.h>
#include <sys/time.h>
#include <unwind.h>

#ifdef __ARM_EABI__ /* whose unwinder has no name for it */
#define _URC_NORMAL_STOP _URC_FAILURE
#endif

enum { MOST = 40, WORDS = 4096, LONGEST = 300, CAPACITY = 16, FRAMES = 32, MAKE_CALLS = 1024 };

struct block {
    struct tlsf_name name;
    uint32_t len;
    uint8_t byte;
};

/* The program, or the handler: its blocks, and where its chance comes from. */
struct side {
    uint64_t state;
    uint32_t live;
    uint8_t byte;
    struct block blocks[MOST];
};

static struct tlsf_heap heap = TLSF_CLOSED;
static struct tlsf_post_end post = TLSF_POST_CLOSED;
static struct tlsf_take_end take = TLSF_TAKE_CLOSED;
static struct tlsf_queue queue = TLSF_QUEUE_CLOSED;
static struct tlsf_poster poster = TLSF_POSTER_CLOSED;
static struct tlsf_offsets offsets = TLSF_OFFSETS_CLOSED;
static struct tlsf_pools pools = TLSF_POOLS_CLOSED;
static const struct tlsf_kind rows[] = {{2, 16}};
static struct side program = {1, 0, 0, {{{0, 0, 0}, 0, 0}}}, handler = {2, 0, 0, {{{0, 0, 0}, 0, 0}}};
static volatile sig_atomic_t is_in_call, is_stepped, is_walked;
static volatile long signals, served, refused, wrong;

static uint32_t below(struct side *it, uint32_t n) {
    it->state = it->state * 6364136223846793005u + 1442695040888963407u;
    return (uint32_t)((it->state >> 33) % n);
}

/* --- One call, by the program or by the handler --------------------------------------------------------------------- */

static void begins(const struct side *it) {
    if (it != &program) return;
    is_in_call = 1;
    if (is_stepped) start_steps();
}

static uint32_t ended(const struct side *it, uint32_t answer) {
    if (it != &program) return answer;
    if (is_stepped) stop_steps();
    is_in_call = 0;
    return answer;
}

#define ANSWER(it, call) (begins(it), ended(it, (call)))

/* Whether a call was served: with TLSF_OK, or with the one refusal that it may have. The handler's is refused where the program
 * is in a call, and nowhere else. */
static bool is_served(struct side *it, uint32_t answer, uint32_t refusal) {
    if (answer == TLSF_IS_CLOSED && it == &handler && is_in_call) {
        refused++;
        return false;
    }
    if (it == &handler) served++;
    if (answer != TLSF_OK && answer != refusal) wrong++;
    return answer == TLSF_OK;
}

static void must(struct side *it, uint32_t answer) {
    (void)it;
    if (answer != TLSF_OK) wrong++;
}

/* --- The handles -------------------------------------------------------------------------------------------------------- */

/* What each shows of itself, but for the note of an odd block in a heap's, which is written once. */
struct shown {
    const void *held[7];
    bool is_open[7];
};
static struct shown opened;

static struct shown shown_now(void) {
    const struct shown now = {{heap.held, post.held, take.held, queue.held, poster.held, offsets.held, pools.held},
                              {heap.is_open, post.is_open, take.is_open, queue.is_open, poster.is_open, offsets.is_open, pools.is_open}};
    return now;
}

static bool are_as_opened(void) {
    const struct shown now = shown_now();
    return !memcmp(now.held, opened.held, sizeof now.held) && !memcmp(now.is_open, opened.is_open, sizeof now.is_open);
}

/* --- What they do, and what they know ------------------------------------------------------------------------------- */

static void check(struct side *it, const struct block *b) {
    uint8_t bytes[LONGEST];
    if (!is_served(it, ANSWER(it, tlsf_read(&heap, b->name, 0, bytes, b->len)), TLSF_OK)) return;
    for (uint32_t k = 0; k < b->len; k++)
        if (bytes[k] != b->byte) wrong++;
}

static void fill(struct side *it, const struct block *b, uint32_t from) {
    uint8_t bytes[LONGEST];
    memset(bytes, b->byte, sizeof bytes);
    must(it, ANSWER(it, tlsf_write(&heap, b->name, from, bytes, b->len - from)));
}

static void allocate(struct side *it) {
    struct block b = {{0, 0, 0}, below(it, LONGEST), 0};
    if (it->live == MOST || !is_served(it, ANSWER(it, tlsf_allocate(&heap, b.len, &b.name)), TLSF_NO_FIT)) return;
    check(it, &b); /* zeros */
    b.byte = ++it->byte;
    fill(it, &b, 0);
    it->blocks[it->live++] = b;
}

static void release(struct side *it, struct block *b) {
    const uint32_t answer = below(it, 2) ? ANSWER(it, tlsf_release(&heap, b->name)) : ANSWER(it, tlsf_release_place(&heap, b->name.at));
    if (is_served(it, answer, TLSF_OK)) *b = it->blocks[--it->live];
}

static void resize(struct side *it, struct block *b) {
    const uint32_t len = below(it, LONGEST), before = b->len;
    if (below(it, 2)) {
        if (!is_served(it, ANSWER(it, tlsf_reallocate(&heap, &b->name, len)), TLSF_NO_FIT)) return;
    } else if (!is_served(it, ANSWER(it, tlsf_resize(&heap, b->name, len)), TLSF_NO_ROOM)) {
        return;
    }
    b->len = len;
    if (len > before) fill(it, b, before);
}

static void locate(struct side *it, const struct block *b) {
    struct tlsf_name name = {0, 0, 0};
    uint64_t *base = NULL;
    uint32_t len = 0;
    if (is_served(it, ANSWER(it, tlsf_locate(&heap, b->name, &base, &len)), TLSF_OK) && len != b->len) wrong++;
    if (is_served(it, ANSWER(it, tlsf_place(&heap, b->name.at, &name, &len)), TLSF_OK) && (len != b->len || name.serial != b->name.serial))
        wrong++;
}

static void report(struct side *it) {
    struct tlsf_heap_report sums;
    struct tlsf_heap_counts counts = {0, 0, 0, 0};
    if (!is_served(it, ANSWER(it, tlsf_report(&heap, &sums)), TLSF_OK)) return;
    if (sums.live_words + sums.free_words != WORDS) wrong++;
    /* Between two calls of the program the handler may make one. */
    if (is_served(it, ANSWER(it, tlsf_counts(&heap, &counts)), TLSF_OK) && it == &handler && counts.words != sums.live_words) wrong++;
}

static void over_lane(struct side *it) {
    const struct tlsf_name sent = {5, 6, 7};
    struct tlsf_name got = {5, 6, 7};
    uint32_t came = 0;
    const uint32_t kind = below(it, 5);
    if (kind < 3) (void)is_served(it, ANSWER(it, tlsf_put(&post, sent)), TLSF_FULL);
    else if (kind == 3) (void)is_served(it, ANSWER(it, tlsf_drain(&heap, &take, 2, &came)), TLSF_OK);
    else if (is_served(it, ANSWER(it, tlsf_take(&take, &got)), TLSF_EMPTY) && memcmp(&sent, &got, sizeof got)) wrong++;
}

/* Another call on the queue may be half through its step. */
static bool is_posted(struct side *it, uint32_t answer, uint32_t refusal) {
    return is_served(it, answer == TLSF_BUSY ? refusal : answer, refusal);
}

static void over_queue(struct side *it) {
    const struct tlsf_name sent = {5, 6, 7};
    struct tlsf_name got = {5, 6, 7};
    uint32_t came = 0;
    const uint32_t kind = below(it, 5);
    if (kind < 3) (void)is_posted(it, ANSWER(it, tlsf_queue_post(&poster, sent)), TLSF_FULL);
    else if (kind == 3) (void)is_served(it, ANSWER(it, tlsf_queue_drain(&heap, &queue, 2, &came)), TLSF_OK);
    else if (is_posted(it, ANSWER(it, tlsf_queue_take(&queue, &got)), TLSF_EMPTY) && memcmp(&sent, &got, sizeof got)) wrong++;
}

static void in_arenas(struct side *it) {
    struct tlsf_offsets_usage usage;
    struct tlsf_span span;
    struct tlsf_name name;
    const uint32_t kind = below(it, 3);
    if (kind == 0) {
        (void)is_served(it, ANSWER(it, tlsf_offsets_report(&offsets, &usage)), TLSF_OK);
    } else if (kind == 1) {
        if (!is_served(it, ANSWER(it, tlsf_offsets_allocate(&offsets, 40, &span)), TLSF_OK)) return;
        must(it, ANSWER(it, tlsf_offsets_resize(&offsets, &span, 20)));
        must(it, ANSWER(it, tlsf_offsets_release(&offsets, span.name)));
    } else {
        if (!is_served(it, ANSWER(it, tlsf_pools_allocate(&pools, 16, &name)), TLSF_OK)) return;
        must(it, ANSWER(it, tlsf_pools_write(&pools, name, 0, &it->byte, 1)));
        must(it, ANSWER(it, tlsf_pools_release(&pools, name)));
    }
}

__attribute__((noinline)) static void do_one(struct side *it) {
    const uint32_t kind = below(it, 11);
    struct block *b = it->live ? &it->blocks[below(it, it->live)] : NULL;
    if (kind < 3 || !b) allocate(it);
    else if (kind < 5) release(it, b);
    else if (kind == 5) resize(it, b);
    else if (kind == 6) check(it, b), locate(it, b);
    else if (kind == 7) over_lane(it);
    else if (kind == 8) over_queue(it);
    else if (kind == 9) in_arenas(it);
    else report(it);
}

__attribute__((noinline)) static void make_calls(long calls, long enough) {
    for (long k = 0; k < calls && signals < enough; k++) do_one(&program);
}

/* --- Signals -------------------------------------------------------------------------------------------------------- */

/* How far a walk over the stack came, and whether it was in make_calls. */
struct walk {
    int frames;
    bool is_back;
};

static _Unwind_Reason_Code step_back(struct _Unwind_Context *frame, void *walk) {
    struct walk *const it = walk;
    it->is_back = it->is_back || (uintptr_t)_Unwind_GetIP(frame) - (uintptr_t)make_calls < MAKE_CALLS;
    return ++it->frames < FRAMES && !it->is_back ? _URC_NO_REASON : _URC_NORMAL_STOP;
}

static bool leads_back(void) {
    struct walk it = {0, false};
    (void)_Unwind_Backtrace(step_back, &it);
    return it.is_back;
}

static void handle(int signal) {
    (void)signal;
    signals++;
    if (!are_as_opened()) wrong++;
    if (!is_walked) do_one(&handler);
    else if (!leads_back()) wrong++;
}

static int end(void) {
    struct tlsf_offsets_usage usage = {0, 0, 0, 0};
    struct tlsf_heap_report sums;
    struct tlsf_heap_counts counts = {0, 0, 0, 0};
    for (struct side *it = &program; it; it = it == &program ? &handler : NULL)
        while (it->live) {
            check(it, &it->blocks[it->live - 1]);
            release(it, &it->blocks[it->live - 1]);
        }
    must(&program, tlsf_report(&heap, &sums));
    must(&program, tlsf_counts(&heap, &counts));
    if (sums.live_blocks || sums.free_blocks != 1 || sums.free_words != WORDS || counts.words) wrong++;
    must(&program, tlsf_offsets_report(&offsets, &usage));
    if (usage.spans) wrong++;
    must(&program, tlsf_offsets_close(&offsets));
    must(&program, tlsf_pools_close(&pools));
    must(&program, tlsf_poster_close(&poster));
    must(&program, tlsf_queue_close(&queue));
    must(&program, tlsf_post_close(&post));
    must(&program, tlsf_take_close(&take));
    must(&program, tlsf_close(&heap));
    printf("%ld signals, %ld calls of the handler served and %ld refused, %ld wrong\n", signals, served, refused, wrong);
    return wrong || !signals || (!is_walked && (!served || !refused));
}

int main(int argc, char **argv) {
    const char *kind = argc > 1 ? argv[1] : "step";
    const long count = argc > 2 ? atol(argv[2]) : 1000;
    const struct itimerval often = {{0, 40}, {0, 40}}, never = {{0, 0}, {0, 0}};
    struct sigaction action;
    memset(&action, 0, sizeof action);
    action.sa_handler = handle;
    action.sa_flags = SA_RESTART;
    (void)leads_back(); /* the first walk takes memory */
    if (sigaction(SIGTRAP, &action, NULL) || sigaction(SIGALRM, &action, NULL)) return 2;
    if (tlsf_open(&heap, 4, 1, WORDS) || tlsf_lane_open(&post, &take, CAPACITY)) return 2;
    if (tlsf_queue_open(&queue, 1, CAPACITY) || tlsf_poster_open(&queue, &poster)) return 2;
    if (tlsf_offsets_open(&offsets, 4, 2, 1, WORDS) || tlsf_pools_open(&pools, 4, 3, rows, 1)) return 2;
    opened = shown_now();
    is_walked = !strcmp(kind, "walk");
    if (!strcmp(kind, "timer")) {
        if (setitimer(ITIMER_REAL, &often, NULL)) return 2;
        make_calls(1000000000, count);
        if (setitimer(ITIMER_REAL, &never, NULL)) return 2;
    } else {
        is_stepped = 1;
        make_calls(count, 1000000000);
        is_stepped = 0;
    }
    return end();
}
