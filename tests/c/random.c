/* Calls by chance on two heaps and a lane, against plain tables: what each live block holds, byte by byte, and which names
 * lie in the lane. Each answer is judged, refusals too. RANDOM [CALLS] [SEED] [LEVEL] */
#include "peachanchor.h"

#include <stdio.h>
#include <stdlib.h>
#include <string.h>

enum { HEAPS = 2, MOST = 256, LONGEST = 600, WORDS = 2048, CAPACITY = 16, FIRST_NUMBER = 3 };

struct block {
    struct tlsf_name name;
    uint32_t len;
    uint8_t bytes[LONGEST];
};

/* A heap, and what it has to hold. */
struct model {
    struct tlsf_heap heap;
    uint32_t number, live;
    struct tlsf_name gone;
    struct block blocks[MOST];
};

static struct model models[HEAPS] = {{.heap = TLSF_CLOSED}, {.heap = TLSF_CLOSED}};
static struct tlsf_name lane[CAPACITY];
static uint32_t in_lane;
static uint64_t state;
static long call;

static uint32_t below(uint32_t n) {
    state ^= state << 13;
    state ^= state >> 7;
    state ^= state << 17;
    return (uint32_t)((state >> 16) % n);
}

static uint32_t any_len(void) { return below(8) ? below(100) : below(LONGEST + 1); }

static void wants(const char *what, uint32_t got, uint32_t wanted) {
    if (got == wanted) return;
    printf("call %ld: %s: %u (%s), and not %u\n", call, what, (unsigned)got, tlsf_text_of(got), (unsigned)wanted);
    exit(1);
}

static int is_same(const struct tlsf_name *a, const struct tlsf_name *b) {
    return a->heap == b->heap && a->at == b->at && a->serial == b->serial;
}

static struct tlsf_heap_report report_of(struct model *m) {
    struct tlsf_heap_report r;
    memset(&r, 0xff, sizeof r);
    wants("report", tlsf_report(&m->heap, &r), TLSF_OK);
    return r;
}

/* Each byte of a block by both ways to it, and the sums of the heap. */
static void check_block(struct model *m, const struct block *b) {
    uint8_t out[LONGEST + 1];
    uint32_t len = 0;
    wants("read", tlsf_read(&m->heap, b->name, 0, out, b->len), TLSF_OK);
    const uint8_t *payload = tlsf_payload(&m->heap, b->name, &len);
    wants("payload", payload != NULL, 1);
    wants("length", len, b->len);
    wants("bytes read", memcmp(out, b->bytes, len) == 0, 1);
    wants("bytes in place", memcmp(payload, b->bytes, len) == 0, 1);
    wants("alignment", (uint32_t)((uintptr_t)payload % 8), 0);
    wants("read past", tlsf_read(&m->heap, b->name, 1, out, b->len), TLSF_RANGE);
}

static void check_sums(struct model *m) {
    const struct tlsf_heap_report r = report_of(m);
    uint32_t bytes = 0;
    for (uint32_t j = 0; j < m->live; j++) bytes += m->blocks[j].len;
    wants("live blocks", r.live_blocks, m->live);
    wants("live bytes", r.live_bytes, bytes);
    wants("words", r.live_words + r.free_words, WORDS);
    wants("waste", r.waste, 8 * r.live_words - bytes);
}

/* Whether a request finds room is what the report's grant says. */
static uint32_t fits(struct model *m, uint32_t len) {
    const struct tlsf_heap_report r = report_of(m);
    return r.free_blocks && len <= r.grant ? TLSF_OK : TLSF_NO_FIT;
}

static int allocate(struct model *m) {
    struct block *b = &m->blocks[m->live];
    const struct tlsf_name before = {77, 77, 77};
    const uint32_t len = any_len(), wanted = fits(m, len);
    if (m->live == MOST) return 0;
    b->name = before;
    wants("allocate", tlsf_allocate(&m->heap, len, &b->name), wanted);
    if (wanted) {
        wants("the name that wasn't given", (uint32_t)is_same(&b->name, &before), 1);
        return 0;
    }
    b->len = len;
    memset(b->bytes, 0, len);
    m->live++;
    check_block(m, b);
    return 1;
}

static int release(struct model *m, struct block *b) {
    check_block(m, b);
    m->gone = b->name;
    wants("release", tlsf_release(&m->heap, b->name), TLSF_OK);
    wants("release again", tlsf_release(&m->heap, m->gone), TLSF_STALE);
    *b = m->blocks[--m->live];
    return 1;
}

static void longer(struct block *b, uint32_t len) {
    if (len > b->len) memset(b->bytes + b->len, 0, len - b->len);
    b->len = len;
}

static int resize(struct model *m, struct block *b) {
    const uint32_t len = any_len(), got = tlsf_resize(&m->heap, b->name, len);
    if (got != TLSF_NO_ROOM) {
        wants("resize", got, TLSF_OK);
        longer(b, len);
    } else {
        wants("no room though it is no longer", len > b->len, 1);
    }
    check_block(m, b);
    return got == TLSF_OK;
}

static int reallocate(struct model *m, struct block *b) {
    const struct tlsf_name before = b->name;
    const uint32_t len = any_len(), fit = fits(m, len), got = tlsf_reallocate(&m->heap, &b->name, len);
    if (got == TLSF_OK) {
        longer(b, len);
        if (!is_same(&before, &b->name)) wants("the old name", tlsf_release(&m->heap, before), TLSF_STALE);
    } else {
        wants("reallocate", got, TLSF_NO_FIT);
        wants("no fit though it fits", fit, TLSF_NO_FIT);
    }
    check_block(m, b);
    return got == TLSF_OK;
}

static int write(struct model *m, struct block *b) {
    uint8_t bytes[LONGEST + 1];
    const uint32_t at = below(b->len + 1), n = below(b->len - at + 1);
    for (uint32_t j = 0; j < sizeof bytes; j++) bytes[j] = (uint8_t)below(256);
    wants("write", tlsf_write(&m->heap, b->name, at, bytes, n), TLSF_OK);
    memcpy(b->bytes + at, bytes, n);
    wants("write past", tlsf_write(&m->heap, b->name, at, bytes, b->len - at + 1), TLSF_RANGE);
    return 1;
}

/* To the last byte: a neighbour that is hurt shows in what is read of it, or in the sums. */
static int write_in_place(struct model *m, struct block *b) {
    uint32_t len = 0;
    uint8_t *payload = tlsf_payload(&m->heap, b->name, &len);
    wants("length", len, b->len);
    for (uint32_t j = 0; j < len; j++) b->bytes[j] = payload[j] = (uint8_t)below(256);
    return 1;
}

/* Names of blocks that were released, of another heap, and of none. */
static int forged(struct model *m) {
    struct tlsf_name name = {FIRST_NUMBER + below(4), below(WORDS + 100), below(2) ? m->gone.serial : below(1000)};
    uint64_t *base = NULL;
    uint32_t len = 0, wanted = name.heap == m->number ? TLSF_STALE : TLSF_FOREIGN;
    uint8_t byte = 0;
    for (uint32_t j = 0; j < m->live; j++)
        if (is_same(&m->blocks[j].name, &name)) return 0;
    wants("release of a forged name", tlsf_release(&m->heap, name), wanted);
    wants("resize of a forged name", tlsf_resize(&m->heap, name, 1), wanted);
    wants("read of a forged name", tlsf_read(&m->heap, name, 0, &byte, 0), wanted);
    wants("write by a forged name", tlsf_write(&m->heap, name, 0, &byte, 1), wanted);
    wants("place of a forged name", tlsf_locate(&m->heap, name, &base, &len), wanted);
    wants("payload of a forged name", tlsf_payload(&m->heap, name, &len) == NULL, 1);
    return 1;
}

/* Names go through a lane in their order, and as many as it has slots, one by one or many at once. */
static int many_over_lane(struct tlsf_post_end *post, uint32_t n) {
    struct tlsf_name sent[3 * CAPACITY];
    size_t went = 77;
    const uint32_t left = CAPACITY - in_lane;
    for (uint32_t k = 0; k < n; k++) sent[k] = (struct tlsf_name){n, k, state};
    wants("put all", tlsf_put_all(post, sent, n, &went), TLSF_OK);
    wants("how many went", (uint32_t)went, n < left ? n : left);
    memcpy(lane + in_lane, sent, went * sizeof *lane);
    in_lane += (uint32_t)went;
    return 1;
}

/* Those that wait come in their order, as many as there are places. Other places stay. */
static int many_out_of_lane(struct tlsf_take_end *take, uint32_t n) {
    const struct tlsf_name before = {77, 77, 77};
    struct tlsf_name got[3 * CAPACITY];
    size_t came = 77;
    const uint32_t wanted = n < in_lane ? n : in_lane;
    for (uint32_t k = 0; k < 3 * CAPACITY; k++) got[k] = before;
    wants("take all", tlsf_take_all(take, got, n, &came), n && !in_lane ? TLSF_EMPTY : TLSF_OK);
    wants("how many came", (uint32_t)came, n && !in_lane ? 77 : wanted);
    for (uint32_t k = 0; k < 3 * CAPACITY; k++) wants("a name taken", (uint32_t)is_same(&got[k], k < wanted ? &lane[k] : &before), 1);
    in_lane -= wanted;
    memmove(lane, lane + wanted, in_lane * sizeof *lane);
    return 1;
}

static int over_lane(struct tlsf_post_end *post, struct tlsf_take_end *take) {
    if (below(2)) {
        const struct tlsf_name sent = {below(9), below(99), state};
        if (state % 4 == 0) return many_over_lane(post, (uint32_t)(state / 4 % (3 * CAPACITY + 1)));
        wants("put", tlsf_put(post, sent), in_lane < CAPACITY ? TLSF_OK : TLSF_FULL);
        if (in_lane < CAPACITY) lane[in_lane++] = sent;
        return 1;
    }
    if (state % 4 == 0) return many_out_of_lane(take, (uint32_t)(state / 4 % (3 * CAPACITY + 1)));
    struct tlsf_name got = {77, 77, 77};
    wants("take", tlsf_take(take, &got), in_lane ? TLSF_OK : TLSF_EMPTY);
    if (!in_lane) return got.heap == 77;
    wants("the name taken", (uint32_t)is_same(&got, &lane[0]), 1);
    memmove(lane, lane + 1, --in_lane * sizeof *lane);
    return 1;
}

static void end(struct model *m) {
    for (uint32_t j = 0; j < m->live; j++) check_block(m, &m->blocks[j]);
    while (m->live) wants("last release", tlsf_release(&m->heap, m->blocks[--m->live].name), TLSF_OK);
    const struct tlsf_heap_report r = report_of(m);
    wants("free blocks at the end", r.free_blocks, 1);
    wants("free words at the end", r.free_words, WORDS);
    wants("close", tlsf_close(&m->heap), TLSF_OK);
    wants("close again", tlsf_close(&m->heap), TLSF_IS_CLOSED);
}

int main(int argc, char **argv) {
    const long calls = argc > 1 ? atol(argv[1]) : 100000;
    const uint32_t seed = argc > 2 ? (uint32_t)atoi(argv[2]) : 1, level = argc > 3 ? (uint32_t)atoi(argv[3]) : 4;
    static const char *const kinds[] = {"allocate", "allocate", "release", "resize", "reallocate", "write", "in place", "forged", "lane"};
    enum { KINDS = sizeof kinds / sizeof *kinds };
    long done[KINDS] = {0}, refused[KINDS] = {0};
    struct tlsf_post_end post = TLSF_POST_CLOSED;
    struct tlsf_take_end take = TLSF_TAKE_CLOSED;
    state = seed * 2654435761u + 88172645463325252ull;
    for (uint32_t j = 0; j < HEAPS; j++) {
        models[j].number = FIRST_NUMBER + j;
        wants("open", tlsf_open(&models[j].heap, level, models[j].number, WORDS), TLSF_OK);
    }
    wants("open a lane", tlsf_lane_open(&post, &take, CAPACITY), TLSF_OK);
    for (call = 0; call < calls; call++) {
        struct model *m = &models[below(HEAPS)];
        const uint32_t kind = below(KINDS);
        struct block *b = m->live ? &m->blocks[below(m->live)] : NULL;
        int well = 0;
        if (kind < 2 || (!b && kind < 7)) well = allocate(m);
        else if (kind == 2) well = release(m, b);
        else if (kind == 3) well = resize(m, b);
        else if (kind == 4) well = reallocate(m, b);
        else if (kind == 5) well = write(m, b);
        else if (kind == 6) well = write_in_place(m, b);
        else if (kind == 7) well = forged(m);
        else well = over_lane(&post, &take);
        if (well) done[kind]++;
        else refused[kind]++;
        if (call % 64 == 0) check_sums(m);
    }
    for (uint32_t j = 0; j < HEAPS; j++) end(&models[j]);
    wants("close the post end", tlsf_post_close(&post), TLSF_OK);
    wants("close the take end", tlsf_take_close(&take), TLSF_OK);
    printf("level %u, seed %u, %ld calls as the tables say:", (unsigned)level, (unsigned)seed, calls);
    for (uint32_t k = 1; k < KINDS; k++)
        printf(" %s %ld (%ld refused)%s", kinds[k], done[k] + (k == 1 ? done[0] : 0), refused[k] + (k == 1 ? refused[0] : 0),
               k + 1 < KINDS ? "," : "\n");
    return 0;
}
