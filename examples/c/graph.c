/* An audio graph: a control thread makes nodes, each with a delay line, and a real-time thread plays them. Each has a heap of its own:
 * nodes and commands lie in the first, meters in the second. Names go over four lanes, there and home, and whoever holds a block reads and
 * writes it in place. No call waits. With TLSF_TSAN before the header, or -DTLSF_TSAN, ThreadSanitizer tells of no race here. */
#include <peachanchor.h>

#include <pthread.h>
#include <sched.h>
#include <stdio.h>

enum { FRAMES = 64, NODES = 16, MADE = 300, LONGEST = 1024, COMMANDS = 8, METERS = 32, A_BLOCK = 4 };

struct node { /* the real-time thread holds it from ADD until it goes home */
    struct tlsf_name name;
    float phase, step, feedback;
    uint32_t length, at;
    float line[];
};

enum order { ADD, REMOVE, END };

struct command { /* goes home at once */
    enum order order;
    struct node *node;
};

struct meter { /* goes home at once */
    float peak;
    uint32_t block;
};

/* What one thread has: its heap, and the ends of lanes for its own blocks and for the other's. */
struct side {
    _Alignas(128) struct tlsf_near_heap heap;
    struct tlsf_post_end to, home;
    struct tlsf_take_end from, back;
    uint64_t *base; /* of the other's heap: it leads from a name to a payload */
    uint32_t wrong;
    pthread_t thread;
};

static struct side control, audio;

static void sure(struct side *it, uint32_t answer) {
    if (answer != TLSF_OK) it->wrong++;
}

/* --- The real-time thread ---------------------------------------------------------------------------------------------- */

static struct node *playing[NODES];
static uint32_t count;

static void stop_playing(const struct node *node) {
    for (uint32_t k = 0; k < count; k++)
        if (playing[k] == node) playing[k--] = playing[--count];
}

/* Whether it isn't the end. */
static bool obey(struct tlsf_name name) {
    const struct command it = *(const struct command *)tlsf_at(audio.base, name);
    sure(&audio, tlsf_put(&audio.home, name)); /* the lane home has room for all blocks */
    if (it.order == ADD) playing[count++] = it.node;
    if (it.order == REMOVE) {
        stop_playing(it.node);
        sure(&audio, tlsf_put(&audio.home, it.node->name));
    }
    return it.order != END;
}

/* A node's next sample: a saw, and what came out a while ago. */
static float next_of(struct node *it) {
    const float sample = it->phase + it->line[it->at] * it->feedback;
    it->phase += it->step;
    if (it->phase >= 1) it->phase -= 2;
    it->line[it->at] = sample;
    it->at = (it->at + 1) % it->length;
    return sample;
}

/* Plays a block; its highest sample. */
static float render(float *out) {
    float peak = 0;
    for (int i = 0; i < FRAMES; i++) {
        out[i] = 0;
        for (uint32_t k = 0; k < count; k++) out[i] += next_of(playing[k]) / NODES;
        if (out[i] > peak) peak = out[i];
    }
    return peak;
}

/* No meter is missed where there is no room for one. */
static void send_meter(float peak, uint32_t block) {
    struct tlsf_heap *const heap = tlsf_near(&audio.heap);
    struct tlsf_name name;
    void *at;
    if (tlsf_allocate_at(heap, sizeof(struct meter), 16, TLSF_UNFILLED, &name, &at)) return;
    *(struct meter *)at = (struct meter){peak, block};
    if (tlsf_put(&audio.to, name) != TLSF_OK) sure(&audio, tlsf_release(heap, name));
}

/* Each block takes a bounded number of steps, whatever the other thread does. */
static void *play(void *given) {
    struct tlsf_name name;
    float out[FRAMES];
    bool goes_on = true;
    uint32_t came;
    for (uint32_t block = 1; goes_on; block++) {
        sure(&audio, tlsf_drain(tlsf_near(&audio.heap), &audio.back, A_BLOCK, &came));
        for (int n = 0; goes_on && n < A_BLOCK && tlsf_take(&audio.from, &name) == TLSF_OK; n++) goes_on = obey(name);
        send_meter(render(out), block);
        sched_yield(); /* where a real one waits for its card */
    }
    return given;
}

/* --- The control thread ------------------------------------------------------------------------------------------------ */

static struct node *sent[NODES]; /* those that play, the oldest first */
static uint32_t sent_count, made, last_block;
static float highest;

/* Whether there was room in the lane. */
static bool command(enum order order, struct node *node) {
    struct tlsf_heap *const heap = tlsf_near(&control.heap);
    struct tlsf_name name;
    void *at;
    if (tlsf_allocate_at(heap, sizeof(struct command), 16, TLSF_UNFILLED, &name, &at)) return false;
    *(struct command *)at = (struct command){order, node};
    if (tlsf_put(&control.to, name) == TLSF_OK) return true;
    sure(&control, tlsf_release(heap, name));
    return false;
}

static void add_node(void) {
    struct tlsf_heap *const heap = tlsf_near(&control.heap);
    const uint32_t length = 16 + made * 7919u % (LONGEST - 16);
    struct tlsf_name name;
    void *at;
    const uint32_t answer = tlsf_allocate_at(heap, sizeof(struct node) + length * sizeof(float), 64, 0, &name, &at);
    sure(&control, answer); /* by tlsf_words there is always room */
    if (answer != TLSF_OK) return;
    struct node *const node = at;
    *node = (struct node){.name = name, .step = 0.01f * (float)(1 + made % 7), .feedback = 0.5f, .length = length};
    if (command(ADD, node)) sent[sent_count++] = node, made++;
    else sure(&control, tlsf_release(heap, name));
}

static void remove_oldest(void) {
    if (!command(REMOVE, sent[0])) return;
    sent_count--;
    for (uint32_t k = 0; k < sent_count; k++) sent[k] = sent[k + 1];
}

/* Reads the meters that came; whether there was one. */
static bool read_meters(void) {
    struct tlsf_name name;
    bool came = false;
    for (; tlsf_take(&control.from, &name) == TLSF_OK; came = true) {
        const struct meter it = *(const struct meter *)tlsf_at(control.base, name);
        if (it.block <= last_block) control.wrong++;
        if (it.peak > highest) highest = it.peak;
        last_block = it.block;
        sure(&control, tlsf_put(&control.home, name));
    }
    return came;
}

/* With each meter a node comes or goes. */
static void *direct(void *given) {
    uint32_t came;
    while (made < MADE || sent_count > 0) {
        sure(&control, tlsf_drain(tlsf_near(&control.heap), &control.back, 16, &came));
        if (!read_meters()) sched_yield();
        else if (made < MADE && sent_count < NODES) add_node();
        else remove_oldest();
    }
    while (!command(END, NULL)) sure(&control, tlsf_drain(tlsf_near(&control.heap), &control.back, 16, &came));
    return given;
}

/* --- Opening and closing ----------------------------------------------------------------------------------------------- */

/* Opens a heap for `blocks` blocks of up to `len` bytes, and the lanes for these: to the other side, and home. Its base, or null. */
static uint64_t *open_side(struct side *it, struct side *other, uint32_t number, uint32_t blocks, uint32_t capacity, size_t len) {
    uint32_t words;
    if (tlsf_words_for(4, blocks, len, 64, &words) || tlsf_open_near(&it->heap, 4, number, words)) return NULL;
    if (tlsf_lane_open(&it->to, &other->from, capacity) || tlsf_lane_open(&other->home, &it->back, blocks)) return NULL;
    return tlsf_base(tlsf_near(&it->heap));
}

/* Drains what went home, and closes the heap. The words that are left in use. */
static uint32_t close_side(struct side *it, struct side *other) {
    struct tlsf_heap_counts counts = {0, 0, 0, 0};
    uint32_t came;
    sure(it, tlsf_post_close(&it->to) + tlsf_take_close(&other->from) + tlsf_post_close(&other->home));
    do sure(it, tlsf_drain(tlsf_near(&it->heap), &it->back, 64, &came));
    while (came > 0);
    sure(it, tlsf_counts(tlsf_near(&it->heap), &counts));
    sure(it, tlsf_take_close(&it->back) + tlsf_close(tlsf_near(&it->heap)));
    return counts.words;
}

int main(void) {
    /* Nodes that play and those on their way home, and commands; each as long as the longest node. */
    audio.base = open_side(&control, &audio, 1, 2 * NODES + 2 * COMMANDS, COMMANDS, sizeof(struct node) + LONGEST * sizeof(float));
    control.base = open_side(&audio, &control, 2, 2 * METERS, METERS, sizeof(struct meter));
    if (!audio.base || !control.base) return 1;
    if (pthread_create(&control.thread, NULL, direct, NULL) || pthread_create(&audio.thread, NULL, play, NULL)) return 1;
    if (pthread_join(control.thread, NULL) || pthread_join(audio.thread, NULL)) return 1;
    (void)read_meters(); /* those that still wait go home too */
    const uint32_t left = close_side(&control, &audio), left_of_meters = close_side(&audio, &control);
    printf("%u nodes played, heard: %s; %u wrong, %u and %u words left in use\n", (unsigned)made, highest > 0 ? "yes" : "no",
           (unsigned)(control.wrong + audio.wrong), (unsigned)left, (unsigned)left_of_meters);
    return control.wrong + audio.wrong != 0;
}
