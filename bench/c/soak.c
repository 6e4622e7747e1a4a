/* Eight workers in threads, for as long as is asked for, each with a heap of the C library, and lanes to each other. bench/soak builds
 * and runs it.
 *
 * SOAK WAY SECONDS EVERY SIZES [WRONG]: for so many seconds, with a line on standard output every EVERY seconds, and requests of the lengths
 * that the file SIZES lists, one a line. A worker allocates, releases, resizes, lends blocks to the others, and posts theirs back: where WAY
 * is lanes over a lane for each two, where it is queues over one queue of each owner. It keeps a plain table of its blocks and a pattern in
 * each; each EVERY seconds all of the table is compared with the heap. Single calls are counted by instruction, but for those of memset and
 * memcpy: the jump there counts one. With WRONG the program makes one fault of its own, which it has to notice: 1 a byte, 2 a length, 3 a
 * released block. The first thing that is wrong ends it with status 1. */
#define _GNU_SOURCE
#include "stepped.h"
#include "peachanchor.h"

#include <pthread.h>
#include <stdatomic.h>
#include <stdio.h>
#include <stdlib.h>
#include <string.h>
#include <time.h>
#include <unistd.h>

enum { WORKERS = 8, WORDS = 1 << 18, CAPACITY = 256, MOST_HELD = 4096, MOST_SIZES = 1 << 17, OLD = 64 };
enum { TURNS = 500, PAUSE = 4000, STEP_ONE_IN = 4096, CALLS = 3, MOST_LENGTH = 1 << 16 };

/* What is known of the block at a place: its length, where it stands among the live ones, and whether another has its name. */
struct entry {
    uint64_t serial;
    uint32_t len, index;
    bool is_live, is_lent;
};
struct figures {
    uint64_t calls, posts, full, refused, worst[CALLS];
    uint32_t live_bytes, live_blocks, free_blocks, fragmentation;
};
struct lane {
    _Alignas(128) struct tlsf_post_end post;
    _Alignas(128) struct tlsf_take_end take;
};
struct inbox {
    _Alignas(128) struct tlsf_queue owner;
    struct {
        _Alignas(128) struct tlsf_poster end;
    } from[WORKERS];
};
struct worker {
    struct tlsf_heap heap;
    struct entry table[WORDS];
    uint32_t live[WORDS / 4], number, live_count, old_count, held_count, random;
    uint64_t live_bytes;
    struct tlsf_name old[OLD], held[MOST_HELD];
    struct figures figures;
    _Atomic int checked;
};
enum call { ALLOCATE, RELEASE, RESIZE };

static struct worker workers[WORKERS];
static struct lane lent[WORKERS][WORKERS], back[WORKERS][WORKERS]; /* from, to */
static struct inbox inboxes[WORKERS];
static bool over_queues;
static uint32_t sizes[MOST_SIZES], size_count;
static atomic_int asked, collected, ended, settled;
static int wrong;

static void fail(const struct worker *own, const char *what) {
    fprintf(stderr, "soak: worker %u: %s\n", own->number, what);
    exit(1);
}
static void must(const struct worker *own, bool is_so, const char *what) {
    if (!is_so) fail(own, what);
}

/* Numbers that look random, the same in each run for each worker. */
static uint32_t below(struct worker *own, uint32_t bound) {
    own->random ^= own->random << 13;
    own->random ^= own->random >> 17;
    own->random ^= own->random << 5;
    return (uint32_t)((uint64_t)own->random * bound >> 32);
}

static uint32_t called(struct worker *own, enum call kind, uintptr_t function, const uintptr_t with[6]) {
    own->figures.calls++;
    if (below(own, STEP_ONE_IN))
        return (uint32_t)((uint64_t(*)(uintptr_t, uintptr_t, uintptr_t, uintptr_t))function)(with[0], with[1], with[2], with[3]);
    traps_within = 0;
    const uint32_t answer = (uint32_t)call_stepped(function, with);
    if (traps_within > own->figures.worst[kind]) own->figures.worst[kind] = traps_within;
    return answer;
}

static uint8_t pattern(const struct tlsf_name *name, uint32_t at) {
    return (uint8_t)(name->serial * 31 + at * 7 + name->heap * 13 + (at >> 8));
}

static struct tlsf_name name_of(const struct worker *own, uint32_t at) {
    return (struct tlsf_name){own->number, at, own->table[at].serial};
}

static uint8_t *payload(struct worker *own, const struct tlsf_name *name, uint32_t len) {
    uint32_t told = 0;
    uint8_t *bytes = tlsf_payload(&own->heap, *name, &told);
    must(own, bytes && told == len, "a live block isn't found, or has another length");
    return bytes;
}

static void fill(struct worker *own, const struct tlsf_name *name, uint32_t from) {
    const uint32_t len = own->table[name->at].len;
    uint8_t *bytes = payload(own, name, len);
    for (uint32_t i = from; i < len; i++) must(own, !bytes[i], "a new byte isn't zero");
    for (uint32_t i = from; i < len; i++) bytes[i] = pattern(name, i);
}

static void check_bytes(struct worker *own, const struct tlsf_name *name, uint32_t len) {
    const uint8_t *bytes = payload(own, name, own->table[name->at].len);
    for (uint32_t i = 0; i < len; i++) must(own, bytes[i] == pattern(name, i), "a byte isn't what was written");
}

static void forget(struct worker *own, const struct tlsf_name *name) {
    struct entry *it = &own->table[name->at];
    const uint32_t last = own->live[--own->live_count];
    own->live[it->index] = last;
    own->table[last].index = it->index;
    own->live_bytes -= it->len;
    *it = (struct entry){0, 0, 0, false, false};
    own->old[own->old_count++ % OLD] = *name;
}

static void release(struct worker *own, const struct tlsf_name *name) {
    check_bytes(own, name, own->table[name->at].len);
    must(own, called(own, RELEASE, (uintptr_t)tlsf_release, WITH((uintptr_t)&own->heap, OF_NAME(*name))) == TLSF_OK,
         "a live block isn't released");
    forget(own, name);
}

static void release_any(struct worker *own) {
    if (!own->live_count) return;
    const struct tlsf_name name = name_of(own, own->live[below(own, own->live_count)]);
    if (!own->table[name.at].is_lent) release(own, &name);
}

static void allocate(struct worker *own) {
    const uint32_t len = sizes[below(own, size_count)];
    struct tlsf_name name = {0, 0, 0};
    const uint32_t answer = called(own, ALLOCATE, (uintptr_t)tlsf_allocate, WITH((uintptr_t)&own->heap, len, (uintptr_t)&name));
    if (answer == TLSF_NO_FIT) {
        own->figures.refused++;
        for (int i = 0; i < 4; i++) release_any(own);
        return;
    }
    must(own, answer == TLSF_OK && name.heap == own->number && name.at < WORDS, "an allocate answers what it may not");
    must(own, !own->table[name.at].is_live, "a block is given twice");
    own->table[name.at] = (struct entry){name.serial, len, own->live_count, true, false};
    own->live[own->live_count++] = name.at;
    own->live_bytes += len;
    fill(own, &name, 0);
}

static void resize(struct worker *own) {
    if (!own->live_count) return;
    const struct tlsf_name name = name_of(own, own->live[below(own, own->live_count)]);
    struct entry *it = &own->table[name.at];
    const uint32_t len = sizes[below(own, size_count)], kept = len < it->len ? len : it->len;
    const uint32_t answer = called(own, RESIZE, (uintptr_t)tlsf_resize, WITH((uintptr_t)&own->heap, OF_NAME(name), len));
    must(own, answer == TLSF_OK || answer == TLSF_NO_ROOM, "a resize answers what it may not");
    if (answer == TLSF_NO_ROOM) {
        check_bytes(own, &name, it->len);
        return;
    }
    own->live_bytes += len;
    own->live_bytes -= it->len;
    it->len = len;
    check_bytes(own, &name, kept);
    fill(own, &name, kept);
}

/* Posts another's block back to its owner. A queue may be busy, and then the name stays held as where it is full. */
static uint32_t post_back(struct worker *own, const struct tlsf_name *name) {
    const uint32_t answer = over_queues ? tlsf_queue_post(&inboxes[name->heap].from[own->number].end, *name)
                                        : tlsf_put(&back[own->number][name->heap].post, *name);
    must(own, answer == TLSF_OK || answer == TLSF_FULL || (over_queues && answer == TLSF_BUSY), "a post answers what it may not");
    return answer;
}

static uint32_t take_back(struct worker *own, uint32_t other, struct tlsf_name *name) {
    return over_queues ? tlsf_queue_take(&inboxes[own->number].owner, name) : tlsf_take(&back[other][own->number].take, name);
}

/* Lends a block to another worker, or posts one of another's back. */
static void pass_on(struct worker *own) {
    const uint32_t other = below(own, WORKERS);
    if (other != own->number && own->live_count) {
        const struct tlsf_name name = name_of(own, own->live[below(own, own->live_count)]);
        if (!own->table[name.at].is_lent && !tlsf_put(&lent[own->number][other].post, name)) own->table[name.at].is_lent = true;
    }
    if (!own->held_count) return;
    const uint32_t at = below(own, own->held_count);
    const struct tlsf_name name = own->held[at];
    const uint32_t answer = post_back(own, &name);
    own->figures.full += answer == TLSF_FULL;
    if (answer) return;
    own->figures.posts++;
    own->held[at] = own->held[--own->held_count];
}

/* Takes what others lend, while there is room for it, and what they post back. */
static void take_all(struct worker *own) {
    struct tlsf_name name;
    for (uint32_t other = 0; other < WORKERS; other++) {
        if (other == own->number) continue;
        while (own->held_count < MOST_HELD && !tlsf_take(&lent[other][own->number].take, &name)) own->held[own->held_count++] = name;
        while (!take_back(own, other, &name)) {
            must(own,
                 name.heap == own->number && name.at < WORDS && own->table[name.at].is_lent && own->table[name.at].serial == name.serial,
                 "a name comes back that wasn't lent");
            release(own, &name);
        }
    }
}

static uint32_t want(uint32_t len) {
    const uint32_t words = 3 + len / 8 + (len % 8 != 0);
    return words < 4 ? 4 : words;
}

/* The report beside the table: sums, formulas, and that no two blocks have a word in common. */
static void check_report(struct worker *own, struct tlsf_heap_report *told) {
    uint32_t blocks = 0, end = 0;
    uint64_t bytes = 0, least = 0;
    for (uint32_t at = 0; at < WORDS; at++) {
        const struct entry *it = &own->table[at];
        if (!it->is_live) continue;
        must(own, at >= end, "two blocks overlap");
        end = at + want(it->len);
        blocks++;
        bytes += it->len;
        least += want(it->len);
    }
    must(own, !tlsf_report(&own->heap, told), "a report is refused");
    must(own, end <= WORDS && blocks == own->live_count && bytes == own->live_bytes, "the table is wrong by itself");
    must(own, told->live_blocks == blocks && told->live_bytes == bytes, "the report counts other blocks or bytes");
    must(own, told->live_words >= least && told->live_words <= least + 3 * (uint64_t)blocks, "live words are out of their bounds");
    must(own, told->live_words + told->free_words == WORDS && told->waste == 8 * told->live_words - told->live_bytes, "words are lost");
    must(own, told->largest <= told->free_words && told->free_blocks <= blocks + 1, "free blocks are out of their bounds");
    must(own, !told->free_words || told->fragmentation == 1000 - (uint64_t)1000 * told->largest / told->free_words,
         "fragmentation is another");
}

/* Names that are used up, of another heap or forged are refused, and change nothing. */
static void check_names(struct worker *own) {
    uint8_t byte;
    for (uint32_t i = 0; i < OLD && i < own->old_count; i++) {
        struct tlsf_name name = own->old[i];
        must(own, tlsf_release(&own->heap, name) == TLSF_STALE, "a name that is used up isn't stale");
        must(own, tlsf_resize(&own->heap, name, 8) == TLSF_STALE, "a name that is used up is resized");
        name.heap = (name.heap + 1) % WORKERS;
        must(own, tlsf_read(&own->heap, name, 0, &byte, 1) == TLSF_FOREIGN, "a foreign name isn't foreign");
    }
}

static void check(struct worker *own) {
    struct tlsf_heap_report told, again;
    if (wrong && own->number == 3 && own->live_count) {
        const struct tlsf_name name = name_of(own, own->live[0]);
        if (wrong == 1) *payload(own, &name, own->table[name.at].len) ^= 1;
        else if (wrong == 2) own->table[name.at].len++;
        else (void)tlsf_release(&own->heap, name);
    }
    check_report(own, &told);
    check_names(own);
    for (uint32_t i = 0; i < own->live_count; i++) {
        const struct tlsf_name name = name_of(own, own->live[i]);
        check_bytes(own, &name, own->table[name.at].len);
    }
    check_report(own, &again);
    must(own, !memcmp(&told, &again, sizeof told), "refused calls changed the heap");
    own->figures.live_bytes = told.live_bytes;
    own->figures.live_blocks = told.live_blocks;
    own->figures.free_blocks = told.free_blocks;
    own->figures.fragmentation = told.fragmentation;
}

/* Half of the region is to be payload, which with headers is some seven tenths. */
static void turn(struct worker *own) {
    const uint32_t chance = below(own, 100), allocates = own->live_bytes < 4 * (uint64_t)WORDS ? 50 : 35;
    if (chance < allocates) allocate(own);
    else if (chance < 70) release_any(own);
    else if (chance < 80) resize(own);
    else if (chance < 90) pass_on(own);
    else take_all(own);
}

/* Gives all names back, and takes one's own, until all have; then the heap is one free block. */
static void settle(struct worker *own) {
    struct tlsf_heap_report told;
    bool is_settled = false;
    while (atomic_load(&settled) < WORKERS || !is_settled) {
        take_all(own);
        while (own->held_count && !post_back(own, &own->held[own->held_count - 1])) own->held_count--;
        for (uint32_t i = own->live_count; i-- > 0;) {
            const struct tlsf_name name = name_of(own, own->live[i]);
            if (!own->table[name.at].is_lent) release(own, &name);
        }
        if (!is_settled && !own->live_count) {
            is_settled = true;
            atomic_fetch_add(&settled, 1);
        }
        usleep(PAUSE);
    }
    check_report(own, &told);
    must(own, told.free_blocks == 1 && told.largest == WORDS, "an empty heap isn't one free block");
}

static void *work(void *given) {
    struct worker *own = given;
    while (!atomic_load(&ended)) {
        for (int i = 0; i < TURNS; i++) turn(own);
        if (atomic_load(&asked) != atomic_load(&own->checked)) {
            check(own);
            atomic_fetch_add(&own->checked, 1);
            while (atomic_load(&collected) != atomic_load(&own->checked)) usleep(PAUSE);
        }
        usleep(PAUSE);
    }
    settle(own);
    return NULL;
}

static double seconds(void) {
    struct timespec now;
    clock_gettime(CLOCK_MONOTONIC, &now);
    return (double)now.tv_sec + (double)now.tv_nsec / 1e9;
}

/* Has all workers check, and writes one line. Worst counts are those since the line before. */
static void write_line(double since) {
    struct figures all = {0};
    uint32_t most = 0;
    atomic_fetch_add(&asked, 1);
    for (int k = 0; k < WORKERS; k++) {
        struct worker *own = &workers[k];
        while (atomic_load(&own->checked) != atomic_load(&asked)) usleep(PAUSE);
        all.calls += own->figures.calls;
        all.posts += own->figures.posts;
        all.full += own->figures.full;
        all.refused += own->figures.refused;
        all.live_bytes += own->figures.live_bytes;
        all.fragmentation += own->figures.fragmentation;
        all.free_blocks += own->figures.free_blocks;
        if (own->figures.fragmentation > most) most = own->figures.fragmentation;
        for (int i = 0; i < CALLS; i++) {
            if (own->figures.worst[i] > all.worst[i]) all.worst[i] = own->figures.worst[i];
            own->figures.worst[i] = 0;
        }
    }
    atomic_fetch_add(&collected, 1);
    printf("%.2f\t%lu\t%lu\t%lu\t%lu\t%.1f\t%u\t%u\t%u\t%lu\t%lu\t%lu\n", since / 60, all.calls, all.posts, all.full, all.refused,
           100.0 * all.live_bytes / (8.0 * WORDS * WORKERS), all.fragmentation / WORKERS, most, all.free_blocks, all.worst[ALLOCATE],
           all.worst[RELEASE], all.worst[RESIZE]);
    fflush(stdout);
}

static void open_all(const char *path) {
    FILE *file = fopen(path, "r");
    bool is_open = file && counts_traps();
    while (is_open && size_count < MOST_SIZES && fscanf(file, "%u", &sizes[size_count]) == 1)
        if (sizes[size_count] <= MOST_LENGTH) size_count++;
    if (file) fclose(file);
    for (uint32_t i = 0; is_open && i < WORKERS; i++) {
        workers[i].number = i;
        workers[i].random = 2463534242u + i * 7919;
        is_open = !tlsf_open(&workers[i].heap, 4 + i % 2, i, WORDS) && !tlsf_queue_open(&inboxes[i].owner, WORKERS, CAPACITY);
        for (uint32_t k = 0; is_open && k < WORKERS; k++)
            is_open = !tlsf_poster_open(&inboxes[i].owner, &inboxes[i].from[k].end) &&
                      (i == k || (!tlsf_lane_open(&lent[i][k].post, &lent[i][k].take, CAPACITY) &&
                                  !tlsf_lane_open(&back[i][k].post, &back[i][k].take, CAPACITY)));
    }
    if (is_open && size_count) return;
    fprintf(stderr, "soak: no sizes, no memory, or no trap behind each instruction\n");
    exit(1);
}

int main(int argc, char **argv) {
    pthread_t threads[WORKERS];
    if (argc < 5) return 2;
    const double lasts = atof(argv[2]), every = atof(argv[3]);
    over_queues = *argv[1] == 'q';
    open_all(argv[4]);
    wrong = argc > 5 ? atoi(argv[5]) : 0;
    const double start = seconds();
    for (int k = 0; k < WORKERS; k++)
        if (pthread_create(&threads[k], NULL, work, &workers[k])) return 1;
    for (double next = every;; next += every) {
        if (next > lasts) next = lasts;
        while (seconds() - start < next) usleep(50000);
        write_line(next);
        if (next >= lasts) break;
    }
    atomic_store(&ended, 1);
    for (int k = 0; k < WORKERS; k++) pthread_join(threads[k], NULL);
    return 0;
}
