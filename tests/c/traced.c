/* A program that writes its own calls as a trace, and what each was answered as the lines of `tlsf replay`. So the trace has to be
 * traced.trace, and what is printed the answer of the case calls_of_c: the program is held to these two when cases are tried.
 * With a second word it does what a trace has no room for, and prints how many lines it has. TRACED FILE [LEAVES_OUT] */
#include <stdio.h>
static FILE *trace;
#define TLSF_TRACE trace
#include "peachanchor.h"

#include <stdlib.h>

enum { CALLS = 300, MOST = 24 };
static _Alignas(4096) unsigned char memory[16384]; /* so that what is aligned lies at the same places in each run */
static struct tlsf_heap heap = TLSF_CLOSED;
static struct tlsf_post_end post = TLSF_POST_CLOSED;
static struct tlsf_take_end take = TLSF_TAKE_CLOSED;
static struct tlsf_queue queue = TLSF_QUEUE_CLOSED;
static struct tlsf_poster poster = TLSF_POSTER_CLOSED;

static struct block {
    struct tlsf_name name;
    unsigned char *p;
    uint32_t label;
} blocks[MOST], gone, gone_long; /* the one that was released last, and one before it */
static uint32_t live, labels;

static uint32_t moved_on; /* to be aligned, each of which takes a tick more in the trace */

static uint32_t below(uint32_t n) {
    static uint64_t state = 88172645463325252u;
    state ^= state << 13;
    state ^= state >> 7;
    state ^= state << 17;
    return (uint32_t)((state >> 16) % n);
}

/* What an `a` line answers: a block that is known by its name or by a pointer, or none. */
static void given(const struct tlsf_name *name, const void *p) {
    struct block *b = &blocks[live];
    b->label = labels++;
    if (name) b->name = *name;
    if (name || tlsf_name_at(&heap, p, &b->name) == TLSF_OK) {
        b->p = tlsf_payload(&heap, b->name, NULL);
        printf("0 a %u at %u serial %u\n", (unsigned)b->label, (unsigned)b->name.at, (unsigned)b->name.serial + moved_on);
        live++;
    } else printf("0 a %u refused %d\n", (unsigned)b->label, TLSF_NO_FIT);
}

static void changed(char kind, const struct block *b, uint32_t answer) {
    if (answer) printf("0 %c %u refused %u\n", kind, (unsigned)b->label, (unsigned)answer);
    else printf("0 %c %u %s\n", kind, (unsigned)b->label, kind == 'f' ? "freed" : "resized");
}

static void released(uint32_t k, uint32_t answer) {
    changed('f', &blocks[k], answer);
    gone = blocks[k];
    if (!gone_long.p || gone.label % 16 == 0) gone_long = gone;
    blocks[k] = blocks[--live];
}

/* What a call answers that may move a block: its name of now, or that there is no room. */
static void moved(uint32_t k, uint32_t answer, const struct tlsf_name *now) {
    if (answer == TLSF_OK && now->at == blocks[k].name.at) {
        changed('r', &blocks[k], answer);
        return;
    }
    given(answer == TLSF_OK ? now : NULL, NULL);
    if (answer == TLSF_OK) released(k, TLSF_OK);
}

/* The free words right in front of a block, by a walk over all blocks. */
static uint32_t free_in_front(uint32_t at) {
    struct tlsf_block_info it = {0, 0, 1, 0, 0};
    for (uint32_t k = 0; k < at; k += it.size)
        if (tlsf_block_at(&heap, k, &it)) exit(1);
    return it.is_live ? 0 : it.size;
}

/* What the lines answer of a block that is aligned to more than 16 bytes: it is cut, or made behind one that goes. */
static void given_aligned(const void *p) {
    struct tlsf_name name;
    const uint32_t gap = tlsf_name_at(&heap, p, &name) == TLSF_OK ? free_in_front(name.at) : 0;
    const struct block front = {{0, 0, 0}, NULL, labels};
    if (gap) {
        printf("0 a %u at %u serial %u\n", (unsigned)labels++, (unsigned)(name.at - gap), (unsigned)name.serial - 2 + moved_on);
        changed('r', &front, TLSF_OK);
    }
    given(NULL, p);
    if (p) changed('r', &blocks[live - 1], TLSF_OK);
    if (gap) changed('f', &front, TLSF_OK);
    moved_on += gap != 0;
}

static void allocate(uint32_t kind, uint32_t len) {
    struct tlsf_name name;
    switch (kind) {
    case 0: given(NULL, tlsf_malloc(&heap, len)); break;
    case 1: given(NULL, tlsf_calloc(&heap, 1 + len / 8, 8)); break;
    case 2: given(NULL, tlsf_aligned_alloc(&heap, 16, len)); break;
    case 3: given_aligned(tlsf_aligned_alloc(&heap, (size_t)32 << len % 4, len)); break;
    case 4: given_aligned(tlsf_aligned_alloc(&heap, 32, len % 64)); break;
    default: given(tlsf_allocate(&heap, len / 16 * 16 + 8, &name) == TLSF_OK ? &name : NULL, NULL); /* so that pointers stay aligned */
    }
}

static void change(uint32_t kind, uint32_t k, uint32_t len) {
    struct tlsf_name name = blocks[k].name;
    uint32_t came, answer;
    void *p;
    switch (kind) {
    case 0: released(k, tlsf_free(&heap, blocks[k].p)); break;
    case 1: released(k, tlsf_release(&heap, name)); break;
    case 2:
        if (k % 2 ? tlsf_queue_post(&poster, name) || tlsf_queue_drain(&heap, &queue, 2, &came)
                  : tlsf_put(&post, name) || tlsf_drain(&heap, &take, 2, &came))
            exit(1);
        if (came != 1) exit(1);
        released(k, TLSF_OK);
        break;
    case 3: changed('r', &blocks[k], tlsf_resize(&heap, name, len / 16 * 16 + 8)); break;
    case 4:
        answer = tlsf_reallocate(&heap, &name, len / 16 * 16 + 8);
        moved(k, answer, &name);
        break;
    case 5:
        answer = tlsf_resize_place(&heap, name.at, (len + 7) / 16 * 16 + 8, &name.at);
        moved(k, answer == TLSF_OK ? tlsf_name_at(&heap, blocks[k].p + 8 * ((int64_t)name.at - blocks[k].name.at), &name) : answer, &name);
        break;
    default:
        p = tlsf_realloc(&heap, blocks[k].p, len + 1);
        moved(k, p && tlsf_name_at(&heap, p, &name) == TLSF_OK ? TLSF_OK : TLSF_NO_FIT, &name);
    }
}

static void report(void) {
    struct tlsf_heap_report r;
    if (tlsf_report(&heap, &r)) exit(1);
    printf("0 d drained 0\nheap 0 live %u %u %u free %u %u largest %u grant %u fragmentation %u waste %u age %u\n", (unsigned)r.live_blocks,
           (unsigned)r.live_words, (unsigned)r.live_bytes, (unsigned)r.free_blocks, (unsigned)r.free_words, (unsigned)r.largest,
           (unsigned)r.grant, (unsigned)r.fragmentation, (unsigned)r.waste, (unsigned)r.age);
}

/* Blocks that were released: by their names, or by a pointer as long as nothing lies there again. */
static void free_twice(void) {
    struct tlsf_name name;
    if (!gone.p) return;
    changed('f', &gone, tlsf_release(&heap, gone.name));
    changed('r', &gone_long, tlsf_resize(&heap, gone_long.name, 8));
    if (tlsf_name_at(&heap, gone.p, &name) == TLSF_STALE) changed('f', &gone, tlsf_free(&heap, gone.p));
}

/* All is released, and then given but for 11 words, one less than aligning the least block to 32 bytes asks for. */
static void fill_up(void) {
    struct tlsf_name name;
    while (live) released(0, tlsf_free(&heap, blocks[0].p));
    given(tlsf_allocate(&heap, 8 * (1152 - 3), &name) == TLSF_OK ? &name : NULL, NULL);
    given(tlsf_allocate(&heap, 8 * (38 - 3), &name) == TLSF_OK ? &name : NULL, NULL);
    if (tlsf_allocate_aligned(&heap, 0, 4, 0).answer != TLSF_NO_FIT) exit(1);
    given(NULL, NULL);
}

static void make_calls(void) {
    for (int i = 0; i < CALLS; i++) {
        const uint32_t kind = below(11), len = below(4) ? below(200) : below(3000), k = live ? below(live) : 0;
        if (kind < 5 && live + 1 < MOST) allocate(below(6), len);
        else if (live) change(below(7), k, len);
        if (kind == 10) free_twice();
    }
    fill_up();
    report();
}

/* Pointers that lead nowhere, another heap, and more calls than a trace has lines. */
static void leave_out(const char *file) {
    struct tlsf_near_heap other = TLSF_NEAR_CLOSED;
    unsigned lines = 0;
    int c;
    if (tlsf_open_near(&other, 4, 2, 1000)) exit(1);
    tlsf_free(&heap, &other);
    for (int i = 0; i < 20000; i++) tlsf_free(&heap, tlsf_malloc(&heap, 8));
    tlsf_free(tlsf_near(&other), tlsf_malloc(tlsf_near(&other), 8));
    tlsf_close(tlsf_near(&other));
    if (freopen(file, "r", trace) != trace) exit(1);
    while ((c = getc(trace)) != EOF) lines += c == '\n';
    printf("%u lines\n", lines);
}

int main(int argc, char **argv) {
    if (argc < 2 || !(trace = fopen(argv[1], "w"))) return 1;
    heap.align = 16; /* so blocks lie alike on each processor */
    if (tlsf_open_in(&heap, 4, 1, memory, tlsf_bytes(4, 1201)) || tlsf_lane_open(&post, &take, 1)) return 1;
    if (tlsf_queue_open(&queue, 1, 1) || tlsf_poster_open(&queue, &poster)) return 1;
    if (argc == 2) make_calls();
    else leave_out(argv[1]);
    tlsf_close(&heap);
    fclose(trace);
    tlsf_post_close(&post);
    tlsf_take_close(&take);
    tlsf_queue_close(&queue);
    tlsf_poster_close(&poster);
    return 0;
}
