/* Every state that calls can reach in a small region, and each call on each of them, against a second reading of docs/MODEL.md: a plain
 * list of blocks, with no classes' bitmaps and no links. After each call it looks at the answer, at each header, link and start bit,
 * and at each byte of payload. States that differ in ticks, lengths and payload alone count as one, unless the free blocks of a class
 * came in another order. STATES WORDS LEVEL [WANT..]: each request wants so many words; all that the region has, where none is named.
 * It prints how many states and calls there were. Linked with --wrap=malloc, so that it sees, keeps and puts back all that a heap has.
 * With a number from 1 to 5 in the environment's WRONG it spoils what each call left, and has to notice. */
#include "peachanchor.h"

#include <stddef.h>
#include <stdio.h>
#include <stdlib.h>
#include <string.h>

enum { MOST_WORDS = 124, LEAST = 4, MOST_BLOCKS = MOST_WORDS / LEAST, HEADER = 3, NUMBER = 9, MOST_BYTES = 8192, MOST_PATH = 64 };
#define NOWHERE UINT32_MAX

struct block {
    uint32_t size, len;
    uint64_t mark;             /* the serial of a live block; the stamp of a free one */
    uint64_t pattern;          /* which bytes a live block has, */
    uint32_t kept;             /* so many of them; the others are zero, */
    bool is_live, is_unfilled; /* or, where it is unfilled, any */
};

struct model {
    uint64_t tick;
    uint32_t count;
    struct block blocks[MOST_BLOCKS + 1];
};

enum kind {
    ALLOCATE,
    RELEASE,
    RESIZE,
    REALLOCATE,
    ALLOCATE_PLACE,
    RELEASE_PLACE,
    RESIZE_PLACE,
    ALLOCATE_ALIGNED,
    ALLOCATE_PAYLOAD,
    RESET,
    KINDS
};
static const char *const kinds[KINDS] = {"allocate",      "release",      "resize",           "reallocate",       "allocate_place",
                                         "release_place", "resize_place", "allocate_aligned", "allocate_payload", "reset"};

/* A call on block number `block`, so that it, or a new one, has `want` words; aligned to `step` words. */
struct call {
    uint8_t kind, block, want, step;
};

/* What a call answers: the place of the block that it gives, and the serial of a new one; or a refusal. */
struct answer {
    uint32_t status, at;
    uint64_t serial;
};

/* A state, by the call that led there from another one. */
struct state {
    uint32_t from;
    struct call call;
    uint32_t sum; /* of its key */
};

static uint32_t words, level, wrong;
static uint8_t wants_tried[MOST_WORDS + 2];
static uint32_t want_count;
static struct state *states;
static uint8_t *keys; /* what tells a state from others: two bytes for each block that a region may have */
static uint32_t key_bytes, state_count, state_room, *slots, slot_mask;
static uint64_t call_count;

static struct tlsf_heap heap;

/* The memory that the heap gets in place of malloc's: a piece for its words, one for the start bits, and one for its own fields. */
static _Alignas(128) unsigned char memory[MOST_BYTES];
static size_t lent;
static bool is_lending;
static void *pieces[3];
static uint32_t piece_count;

void *__real_malloc(size_t bytes);
void *__wrap_malloc(size_t bytes);

void *__wrap_malloc(size_t bytes) {
    if (!is_lending) return __real_malloc(bytes);
    if (piece_count == 3 || sizeof memory - lent < bytes) return NULL;
    void *const at = memory + lent;
    pieces[piece_count++] = at;
    lent += (bytes + 127) / 128 * 128;
    return at;
}

/* --- What is wrong --------------------------------------------------------------------------------------------------- */

static struct call path[MOST_PATH];
static uint32_t path_length;

static _Noreturn void tell(const char *what, uint64_t got, uint64_t wanted) {
    printf("%u words, level %u:", (unsigned)words, (unsigned)level);
    for (uint32_t i = 0; i < path_length; i++) printf(" %s(%u, %u, %u)", kinds[path[i].kind], path[i].block, path[i].want, path[i].step);
    printf(": %s: %llx, and not %llx\n", what, (unsigned long long)got, (unsigned long long)wanted);
    exit(1);
}

static inline void wants(const char *what, uint64_t got, uint64_t wanted) {
    if (got != wanted) tell(what, got, wanted);
}

/* --- The model: docs/MODEL.md ---------------------------------------------------------------------------------------- */

static uint32_t low(uint32_t class) {
    const uint32_t row = class >> level, second = class & ((1u << level) - 1);
    return row == 0 ? second : ((1u << level) + second) << (row - 1);
}

/* The class of a block by its size, and the lowest one that is searched for one. */
static uint8_t class_of[MOST_WORDS + 1], search_of[2 * MOST_WORDS];

static void set_classes(void) {
    for (uint32_t size = LEAST, class = LEAST; size <= MOST_WORDS; class_of[size++] = (uint8_t) class)
        while (low(class + 1) <= size) class ++;
    for (uint32_t size = LEAST, class = LEAST; size < 2 * MOST_WORDS; search_of[size++] = (uint8_t) class)
        while (low(class) < size) class ++;
}

/* A length for which a request wants so many words: each number of bytes in the last of them has its turn. */
static uint32_t len_of(struct call call) {
    const uint32_t least = call.want == LEAST ? 0 : 1, turn = 5u * call.block + call.step + call.want;
    return 8 * (call.want - (uint32_t)HEADER) - turn % (9 - least);
}

static uint32_t place_of(const struct model *m, uint32_t block) {
    uint32_t at = 0;
    for (uint32_t i = 0; i < block; i++) at += m->blocks[i].size;
    return at;
}

/* Of the free blocks in the lowest class that is searched, the one that became free last; none is NOWHERE. */
static uint32_t choice(const struct model *m, uint32_t want) {
    uint32_t best = NOWHERE, least = 0;
    for (uint32_t i = 0; i < m->count; i++) {
        const uint32_t class = class_of[m->blocks[i].size];
        if (m->blocks[i].is_live || class < search_of[want]) continue;
        if (best != NOWHERE && (class > least || (class == least && m->blocks[i].mark < m->blocks[best].mark))) continue;
        best = i;
        least = class;
    }
    return best;
}

static void copy(struct model *to, const struct model *from) {
    memcpy(to, from, offsetof(struct model, blocks) + from->count * sizeof from->blocks[0]);
}

static void insert(struct model *m, uint32_t at, struct block block) {
    memmove(&m->blocks[at + 1], &m->blocks[at], (m->count - at) * sizeof block);
    m->blocks[at] = block;
    m->count++;
}

static void drop(struct model *m, uint32_t at) {
    m->count--;
    memmove(&m->blocks[at], &m->blocks[at + 1], (m->count - at) * sizeof m->blocks[0]);
}

static bool is_free(const struct model *m, uint32_t block) { return block < m->count && !m->blocks[block].is_live; }

/* A block keeps so many words where at least four are left over: these are free from this tick on, and one with a free block behind. */
static void cut(struct model *m, uint32_t block, uint32_t size) {
    const uint32_t rest = m->blocks[block].size - size;
    if (rest < LEAST) return;
    m->blocks[block].size = size;
    if (is_free(m, block + 1)) {
        m->blocks[block + 1].size += rest;
        m->blocks[block + 1].mark = m->tick;
    } else {
        insert(m, block + 1, (struct block){.size = rest, .mark = m->tick});
    }
}

static void give(struct model *m, uint32_t block, uint32_t size, uint32_t len) {
    m->blocks[block] = (struct block){.size = m->blocks[block].size, .len = len, .mark = m->tick, .is_live = true};
    cut(m, block, size);
    m->tick++;
}

static void take_back(struct model *m, uint32_t block) {
    m->blocks[block] = (struct block){.size = m->blocks[block].size, .mark = m->tick};
    if (is_free(m, block + 1)) {
        m->blocks[block].size += m->blocks[block + 1].size;
        drop(m, block + 1);
    }
    if (block > 0 && is_free(m, block - 1)) {
        m->blocks[block - 1].size += m->blocks[block].size;
        m->blocks[block - 1].mark = m->tick;
        drop(m, block);
    }
    m->tick++;
}

static void take_all_back(struct model *m) {
    m->blocks[0] = (struct block){.size = words, .mark = m->tick};
    m->count = 1;
    m->tick++;
}

static void set_length(struct block *block, uint32_t len) {
    block->len = len;
    if (len < block->kept) block->kept = len;
}

static bool refit(struct model *m, uint32_t block, uint32_t size) {
    const uint32_t behind = is_free(m, block + 1) ? m->blocks[block + 1].size : 0;
    if (size > m->blocks[block].size) {
        if (size > m->blocks[block].size + behind) return false;
        m->blocks[block].size += behind;
        drop(m, block + 1);
    }
    cut(m, block, size);
    m->tick++;
    return true;
}

/* A new block for what a block has, which comes back; none is NOWHERE. */
static uint32_t move(struct model *m, uint32_t block, uint32_t size, uint32_t len) {
    const uint32_t chosen = choice(m, size), old_count = m->count;
    if (chosen == NOWHERE) return NOWHERE;
    const struct block old = m->blocks[block];
    const uint32_t at = place_of(m, chosen);
    give(m, chosen, size, len);
    m->blocks[chosen].pattern = old.pattern;
    m->blocks[chosen].kept = old.kept;
    set_length(&m->blocks[chosen], len);
    take_back(m, chosen < block ? block + m->count - old_count : block);
    return at;
}

static uint32_t align(struct model *m, uint32_t size, uint32_t step, uint32_t len) {
    uint32_t chosen = choice(m, size + LEAST + step);
    if (chosen == NOWHERE) return NOWHERE;
    uint32_t at = place_of(m, chosen), gap = 0;
    give(m, chosen, size + LEAST + step, 0);
    while ((at + gap + HEADER) % step != 0 || (gap > 0 && gap < LEAST)) gap++;
    if (gap == 0) {
        refit(m, chosen, size);
        m->blocks[chosen].len = len;
        return at;
    }
    refit(m, chosen, gap);
    give(m, chosen + 1, size, len);
    take_back(m, chosen);
    return at + gap;
}

/* The block that begins at a place; m->count where none does. */
static uint32_t block_at(const struct model *m, uint32_t at) {
    uint32_t block = 0;
    while (block < m->count && place_of(m, block) != at) block++;
    return block;
}

static void leave_unfilled(struct model *m, uint32_t at) { m->blocks[block_at(m, at)].is_unfilled = true; }

static struct answer resized(struct model *m, struct call call, bool may_move, bool fills) {
    const uint32_t len = len_of(call);
    uint32_t at = place_of(m, call.block);
    if (refit(m, call.block, call.want)) set_length(&m->blocks[call.block], len);
    else if (!may_move) return (struct answer){TLSF_NO_ROOM, NOWHERE, 0};
    else at = move(m, call.block, call.want, len);
    if (at == NOWHERE) return (struct answer){TLSF_NO_FIT, NOWHERE, 0};
    if (!fills) leave_unfilled(m, at);
    return (struct answer){TLSF_OK, at, 0};
}

static struct answer allocated(struct model *m, struct call call, bool fills) {
    const uint32_t len = call.kind == ALLOCATE_PAYLOAD ? 8 * (call.want - (uint32_t)HEADER) : len_of(call);
    const uint32_t chosen = call.step == 0 ? choice(m, call.want) : NOWHERE;
    uint32_t at = chosen == NOWHERE ? NOWHERE : place_of(m, chosen);
    if (call.step != 0) at = align(m, call.want, call.step, len);
    else if (chosen != NOWHERE) give(m, chosen, call.want, len);
    if (at == NOWHERE) return (struct answer){TLSF_NO_FIT, NOWHERE, 0};
    if (!fills) leave_unfilled(m, at);
    return (struct answer){TLSF_OK, at, m->blocks[block_at(m, at)].mark};
}

static struct answer answered(struct model *m, struct call call) {
    switch (call.kind) {
    case ALLOCATE: return allocated(m, call, true);
    case ALLOCATE_PLACE:
    case ALLOCATE_ALIGNED: return allocated(m, call, false);
    case ALLOCATE_PAYLOAD: return allocated(m, call, false);
    case RESIZE: return resized(m, call, false, true);
    case REALLOCATE: return resized(m, call, true, true);
    case RESIZE_PLACE: return resized(m, call, true, false);
    case RESET: take_all_back(m); return (struct answer){TLSF_OK, NOWHERE, 0};
    default: take_back(m, call.block); return (struct answer){TLSF_OK, NOWHERE, 0};
    }
}

/* --- The heap -------------------------------------------------------------------------------------------------------- */

static struct tlsf_name name_of(const struct model *m, uint32_t block) {
    return (struct tlsf_name){NUMBER, place_of(m, block), m->blocks[block].mark};
}

/* A refusal has no place and no serial. */
static struct answer placed(struct tlsf_placed it) {
    if (it.answer == TLSF_OK) return (struct answer){TLSF_OK, it.at, it.serial};
    wants("what a refusal answers besides", it.at | it.serial, 0);
    return (struct answer){it.answer, NOWHERE, 0};
}

/* It answers at which byte the payload begins, and no serial. */
static struct answer begun_at(size_t byte) {
    const uint32_t at = (uint32_t)(byte / 8) - HEADER;
    struct tlsf_name name = {0, 0, 0};
    uint32_t len = 0;
    if (byte == 0) return (struct answer){TLSF_NO_FIT, NOWHERE, 0};
    wants("whole words", byte % 8, 0);
    wants("the payload's block", tlsf_place(&heap, at, &name, &len), TLSF_OK);
    return (struct answer){TLSF_OK, at, name.serial};
}

/* No word is in use then, and the most that ever were stay. No name of before is live. */
static uint32_t reset(const struct model *m) {
    struct tlsf_heap_counts before = {0, 0, 0, 0}, after = {1, 0, 0, 0};
    wants("counts", tlsf_counts(&heap, &before), TLSF_OK);
    const uint32_t answer = tlsf_reset(&heap);
    wants("counts", tlsf_counts(&heap, &after), TLSF_OK);
    wants("no word in use", after.words, 0);
    before.words = 0;
    wants("the other counts", (uint64_t)memcmp(&before, &after, sizeof before), 0);
    for (uint32_t i = 0; i < m->count; i++)
        if (m->blocks[i].is_live) wants("release after a reset", tlsf_release(&heap, name_of(m, i)), TLSF_STALE);
    return answer;
}

/* Makes the call, `m` being the heap before it. */
static struct answer told(const struct model *m, struct call call) {
    const uint32_t len = len_of(call);
    struct tlsf_name name = name_of(m, call.block);
    struct answer it = {TLSF_OK, NOWHERE, 0};
    switch (call.kind) {
    case ALLOCATE:
        name = (struct tlsf_name){NUMBER, NOWHERE, 0};
        it.status = tlsf_allocate(&heap, len, &name);
        it.at = name.at;
        it.serial = name.serial;
        wants("number", name.heap, NUMBER);
        break;
    case RELEASE: it.status = tlsf_release(&heap, name); break;
    case RESET: it.status = reset(m); break;
    case RESIZE:
        it.status = tlsf_resize(&heap, name, len);
        it.at = it.status == TLSF_OK ? name.at : NOWHERE;
        break;
    case REALLOCATE:
        it.status = tlsf_reallocate(&heap, &name, len);
        it.at = it.status == TLSF_OK ? name.at : NOWHERE;
        break;
    case ALLOCATE_PLACE: return placed(tlsf_allocate_place(&heap, len));
    case ALLOCATE_PAYLOAD: return begun_at(tlsf_allocate_payload(&heap, len));
    case RELEASE_PLACE: it.status = tlsf_release_place(&heap, name.at); break;
    case RESIZE_PLACE: it.status = tlsf_resize_place(&heap, name.at, len, &it.at); break;
    default: return placed(tlsf_allocate_aligned(&heap, len, call.step, 0));
    }
    return it;
}

/* Bytes of which a payload has those from somewhere on, and others that are zero. */
static uint8_t sequence[256 + 8 * MOST_WORDS], zeros[8 * MOST_WORDS];

static const uint8_t *bytes_of(const struct block *block) { return sequence + (uint8_t)(37 * block->pattern); }

static uint8_t byte_of(const struct block *block, uint32_t i) { return i < block->kept ? bytes_of(block)[i] : 0; }

/* Each live block gets bytes of its own, in place. */
static void fill(struct model *m) {
    for (uint32_t i = 0; i < m->count; i++) {
        struct block *const block = &m->blocks[i];
        uint8_t *const payload = (uint8_t *)(heap.base + place_of(m, i) + HEADER);
        if (!block->is_live) continue;
        block->pattern = block->mark;
        block->kept = block->len;
        block->is_unfilled = false;
        memcpy(payload, bytes_of(block), block->len);
    }
}

/* The place of the free block that comes next in the list of a block's class, or before it. */
static uint32_t linked(const struct model *m, uint32_t block, bool is_next) {
    uint32_t found = NOWHERE;
    for (uint32_t i = 0; i < m->count; i++) {
        const uint64_t stamp = m->blocks[i].mark, own = m->blocks[block].mark;
        if (m->blocks[i].is_live || class_of[m->blocks[i].size] != class_of[m->blocks[block].size]) continue;
        if (is_next ? stamp >= own : stamp <= own) continue;
        if (found == NOWHERE || (is_next ? stamp > m->blocks[found].mark : stamp < m->blocks[found].mark)) found = i;
    }
    return found == NOWHERE ? NOWHERE : place_of(m, found);
}

static void check_block(const struct model *m, uint32_t i, uint32_t at) {
    const struct block *const block = &m->blocks[i];
    const uint64_t *const header = heap.base + at;
    const uint64_t before = i == 0 ? NOWHERE : at - m->blocks[i - 1].size;
    wants("word 0", header[0], before << 32 | 4 * block->size | (uint64_t)(i + 1 == m->count ? 2 : 0) | (uint64_t)(block->is_live ? 0 : 1));
    wants("serial or stamp", header[1], block->mark);
    if (!block->is_live) {
        wants("links", header[2], (uint64_t)linked(m, i, false) << 32 | linked(m, i, true));
        return;
    }
    wants("length", header[2], block->len);
    const uint8_t *const payload = (const uint8_t *)(header + HEADER);
    const uint32_t known = block->is_unfilled ? block->kept : block->len;
    if (memcmp(payload, bytes_of(block), block->kept) == 0 && memcmp(payload + block->kept, zeros, known - block->kept) == 0) return;
    for (uint32_t j = 0; j < known; j++) wants("a byte", payload[j], byte_of(block, j));
}

/* Each piece begins with a mark of eight bytes. */
static void check_image(const struct model *m) {
    const uint64_t *const bits = (const uint64_t *)pieces[1] + 1;
    uint64_t wanted[MOST_WORDS / 64 + 1] = {0};
    uint32_t at = 0;
    for (uint32_t i = 0; i < m->count; i++) {
        check_block(m, i, at);
        wanted[at / 64] |= (uint64_t)1 << at % 64;
        at += m->blocks[i].size;
    }
    for (uint32_t i = 0; i < (words + 63) / 64; i++) wants("start bits", bits[i], wanted[i]);
}

/* --- Calls that change nothing ----------------------------------------------------------------------------------------- */

static void add_block(struct tlsf_heap_report *r, const struct model *m, const struct block *block) {
    if (block->is_live) {
        r->live_blocks++;
        r->live_words += block->size;
        r->live_bytes += block->len;
        return;
    }
    r->free_blocks++;
    r->free_words += block->size;
    if (block->size > r->largest) r->largest = block->size;
    if (m->tick - block->mark > r->age) r->age = m->tick - block->mark;
}

static void check_report(const struct model *m) {
    struct tlsf_heap_report got, wanted;
    struct tlsf_heap_counts counts;
    memset(&wanted, 0, sizeof wanted);
    for (uint32_t i = 0; i < m->count; i++) add_block(&wanted, m, &m->blocks[i]);
    wanted.waste = 8 * wanted.live_words - wanted.live_bytes;
    if (wanted.free_blocks > 0) {
        wanted.fragmentation = 1000 - 1000 * wanted.largest / wanted.free_words;
        for (uint32_t n = LEAST; n <= words && choice(m, n) != NOWHERE; n++) wanted.grant = 8 * (n - HEADER);
    }
    wants("report", tlsf_report(&heap, &got), TLSF_OK);
    wants("all but the age", (uint64_t)memcmp(&got, &wanted, offsetof(struct tlsf_heap_report, waste) + sizeof got.waste), 0);
    wants("age", got.age, wanted.age);
    wants("counts", tlsf_counts(&heap, &counts), TLSF_OK);
    wants("words in use", counts.words, wanted.live_words);
}

static void check_place(const struct model *m, uint32_t at) {
    const uint32_t i = block_at(m, at), is_block = i < m->count, is_live = is_block && m->blocks[i].is_live;
    struct tlsf_block_info info = {0, 0, 0, 0, 0};
    struct tlsf_name name = {0, 0, 0};
    uint32_t len = 0, damaged = NOWHERE;
    wants("check_around", tlsf_check_around(&heap, at, &damaged), is_block ? TLSF_OK : TLSF_STALE);
    if (at > LEAST) {
        const bool fits = choice(m, at) != NOWHERE;
        wants("check_request", tlsf_check_request(&heap, 8 * (at - HEADER), &damaged), fits ? TLSF_OK : TLSF_NO_FIT);
    }
    wants("nothing is damaged", damaged, NOWHERE);
    wants("block_at", tlsf_block_at(&heap, at, &info), is_block ? TLSF_OK : TLSF_STALE);
    wants("place", tlsf_place(&heap, at, &name, &len), is_live ? TLSF_OK : TLSF_STALE);
    if (is_block) {
        wants("block_at: where", (uint64_t)info.at << 32 | info.size, (uint64_t)at << 32 | m->blocks[i].size);
        wants("block_at: what", (uint64_t)info.is_live << 32 | info.len, (uint64_t)is_live << 32 | m->blocks[i].len);
        wants("block_at: since when", info.mark, m->blocks[i].mark);
    }
    if (is_live) {
        wants("place: serial", name.serial, m->blocks[i].mark);
        wants("place: where", (uint64_t)name.at << 32 | len, (uint64_t)at << 32 | m->blocks[i].len);
    } else {
        wants("release_place", tlsf_release_place(&heap, at), TLSF_STALE);
        wants("resize_place", tlsf_resize_place(&heap, at, 8, &len), TLSF_STALE);
    }
}

/* Each call by a name that is refused so. */
static void check_refused(struct tlsf_name name, uint32_t why) {
    uint8_t byte = 0;
    uint32_t len = 0;
    uint64_t *base = NULL;
    struct tlsf_name kept = name;
    wants("release", tlsf_release(&heap, name), why);
    wants("resize", tlsf_resize(&heap, name, 8), why);
    wants("reallocate", tlsf_reallocate(&heap, &kept, 8), why);
    wants("write", tlsf_write(&heap, name, 0, &byte, 1), why);
    wants("read", tlsf_read(&heap, name, 0, &byte, 1), why);
    wants("locate", tlsf_locate(&heap, name, &base, &len), why);
    wants("the name", (uint64_t)(kept.at == name.at && kept.serial == name.serial), 1);
}

/* Bytes from each end of a payload, and one past it. */
static void check_bytes(const struct model *m, uint32_t i) {
    const struct block *const block = &m->blocks[i];
    const struct tlsf_name name = name_of(m, i);
    uint8_t out[8 * MOST_WORDS + 1];
    uint32_t len = 0;
    uint64_t *base = NULL;
    wants("locate", tlsf_locate(&heap, name, &base, &len), TLSF_OK);
    wants("located", (uint64_t)(base == heap.base && len == block->len), 1);
    for (uint32_t from = 0; from <= block->len; from += block->len < 8 || from + 8 < block->len ? 3 : 1) {
        const uint32_t n = block->len - from;
        wants("read", tlsf_read(&heap, name, from, out, n), TLSF_OK);
        for (uint32_t j = 0; j < n; j++) wants("a byte read", out[j], byte_of(block, from + j));
        wants("write", tlsf_write(&heap, name, from, out, n), TLSF_OK);
        wants("read past the end", tlsf_read(&heap, name, from, out, n + 1), TLSF_RANGE);
        wants("write past the end", tlsf_write(&heap, name, from, out, n + 1), TLSF_RANGE);
    }
}

static void look(const struct model *m) {
    uint32_t next = 1, damaged = 0;
    check_report(m);
    wants("check", tlsf_check(&heap, 0, words, &next, &damaged), TLSF_OK);
    wants("check: next", next, 0);
    for (uint32_t at = 0; at <= words; at++) {
        const uint32_t i = block_at(m, at);
        const bool is_live = i < m->count && m->blocks[i].is_live;
        check_place(m, at);
        check_refused((struct tlsf_name){NUMBER, at, m->tick}, TLSF_STALE);
        if (!is_live) check_refused((struct tlsf_name){NUMBER, at, i < m->count ? m->blocks[i].mark : 0}, TLSF_STALE);
        if (is_live) check_refused((struct tlsf_name){NUMBER + 1, at, m->blocks[i].mark}, TLSF_FOREIGN);
        if (is_live) check_bytes(m, i);
    }
    check_refused((struct tlsf_name){NUMBER, NOWHERE, 0}, TLSF_STALE);
    check_image(m);
}

/* --- All states -------------------------------------------------------------------------------------------------------- */

static void *room_for(void *old, size_t bytes) {
    void *const room = realloc(old, bytes);
    if (room) return room;
    printf("no memory for %zu bytes\n", bytes);
    exit(2);
}

/* How many free blocks of its class became free after a block: what tells states besides sizes. */
static uint8_t rank_of(const struct model *m, uint32_t block) {
    uint8_t later = 0;
    for (uint32_t i = 0; i < m->count; i++)
        if (is_free(m, i) && class_of[m->blocks[i].size] == class_of[m->blocks[block].size] && m->blocks[i].mark > m->blocks[block].mark)
            later++;
    return later;
}

static uint8_t *key_of(uint32_t number) { return keys + (size_t)number * key_bytes; }

/* Where the state of that number is noted, or is to be noted. */
static uint32_t slot_of(uint32_t number) {
    const uint32_t sum = states[number].sum;
    uint32_t slot = sum & slot_mask;
    while (slots[slot] != NOWHERE) {
        const uint32_t other = slots[slot];
        if (states[other].sum == sum && memcmp(key_of(other), key_of(number), key_bytes) == 0) break;
        slot = (slot + 1) & slot_mask;
    }
    return slot;
}

static void grow(void) {
    state_room = state_room ? 2 * state_room : 1024;
    states = room_for(states, state_room * sizeof *states);
    keys = room_for(keys, (size_t)state_room * key_bytes);
    slot_mask = 4 * state_room - 1;
    slots = room_for(slots, 4 * state_room * sizeof *slots);
    for (uint32_t i = 0; i <= slot_mask; i++) slots[i] = NOWHERE;
    for (uint32_t i = 0; i < state_count; i++) slots[slot_of(i)] = i;
}

/* Notes the state, if it is new. */
static void note(const struct model *m, uint32_t from, struct call call) {
    if (state_count == state_room) grow();
    uint8_t *const key = key_of(state_count);
    uint64_t sum = m->count;
    memset(key, 0, key_bytes);
    for (uint32_t i = 0; i < m->count; i++) {
        key[2 * i] = (uint8_t)m->blocks[i].size;
        key[2 * i + 1] = m->blocks[i].is_live ? 255 : rank_of(m, i);
    }
    for (uint32_t i = 0; i < 2 * m->count; i++) sum = (sum ^ key[i]) * 0x100000001b3;
    states[state_count] = (struct state){.from = from, .call = call, .sum = (uint32_t)(sum ^ sum >> 29)};
    const uint32_t slot = slot_of(state_count);
    if (slots[slot] == NOWHERE) slots[slot] = state_count++;
}

static void call_both(struct model *m, struct call call) {
    struct model before;
    copy(&before, m);
    const struct answer wanted = answered(m, call);
    path[path_length++] = call;
    const struct answer got = told(&before, call);
    wants("answer", got.status, wanted.status);
    wants("place", got.at, wanted.at);
    wants("serial", got.serial, wanted.serial);
    if (got.status != TLSF_OK) copy(m, &before);
    call_count++;
}

static void open_heap(void) {
    memset(&heap, 0, sizeof heap);
    memset(memory, 0xa5, sizeof memory);
    lent = piece_count = 0;
    is_lending = true;
    wants("open", tlsf_open(&heap, level, NUMBER, words), TLSF_OK);
    is_lending = false;
    wants("pieces of memory", (uint64_t)(piece_count == 3 && (void *)(heap.base - 1) == pieces[0]), 1);
}

/* Opens a heap anew, and makes the calls that lead to a state. */
static struct model reach(uint32_t number) {
    struct call calls[MOST_PATH];
    struct model m = {.tick = 1, .count = 1, .blocks = {{.size = words}}};
    uint32_t count = 0;
    for (; number != 0; number = states[number].from) calls[count++] = states[number].call;
    path_length = 0;
    open_heap();
    while (count > 0) call_both(&m, calls[--count]);
    fill(&m);
    return m;
}

/* What a wrong heap would leave, by its number: each has to be noticed. */
static void spoil(void) {
    if (wrong == 0) return;
    unsigned char *const spoilt[] = {(unsigned char *)heap.base, (unsigned char *)(heap.base + 1), (unsigned char *)(heap.base + 2),
                                     (unsigned char *)(heap.base + HEADER), (unsigned char *)pieces[1] + 8};
    *spoilt[wrong - 1] ^= 4; /* a size, a serial or stamp, a length or link, a byte of payload, a start bit */
}

/* All that the heap has in a state, so that each call finds it as it was. */
static unsigned char kept[MOST_BYTES];
static struct tlsf_heap kept_handle;

static void keep(void) {
    memcpy(kept, memory, lent);
    kept_handle = heap;
}

static void try_call(const struct model *m, uint32_t number, struct call call) {
    struct model after;
    copy(&after, m);
    call_both(&after, call);
    spoil();
    check_image(&after);
    note(&after, number, call);
    memcpy(memory, kept, lent);
    heap = kept_handle;
    path_length--;
}

static void try_block(const struct model *m, uint32_t number, uint8_t block) {
    static const uint8_t kinds_by_want[] = {RESIZE, REALLOCATE, RESIZE_PLACE};
    try_call(m, number, (struct call){RELEASE, block, LEAST, 0});
    try_call(m, number, (struct call){RELEASE_PLACE, block, LEAST, 0});
    for (uint32_t i = 0; i < want_count; i++)
        for (uint32_t j = 0; j < 3; j++) try_call(m, number, (struct call){kinds_by_want[j], block, wants_tried[i], 0});
}

static void try_state(uint32_t number) {
    const struct model m = reach(number);
    look(&m);
    keep();
    for (uint32_t i = 0; i < want_count; i++) {
        try_call(&m, number, (struct call){ALLOCATE, 0, wants_tried[i], 0});
        try_call(&m, number, (struct call){ALLOCATE_PLACE, 0, wants_tried[i], 0});
        if (wants_tried[i] % 2 == 0) try_call(&m, number, (struct call){ALLOCATE_PAYLOAD, 0, wants_tried[i], 0});
        for (uint8_t step = 1; step <= 8; step *= 2) try_call(&m, number, (struct call){ALLOCATE_ALIGNED, 0, wants_tried[i], step});
    }
    try_call(&m, number, (struct call){RESET, 0, LEAST, 0});
    for (uint8_t i = 0; i < m.count; i++)
        if (m.blocks[i].is_live) try_block(&m, number, i);
}

int main(int argc, char **argv) {
    words = argc > 1 ? (uint32_t)atoi(argv[1]) : 16;
    level = argc > 2 ? (uint32_t)atoi(argv[2]) : 4;
    if (words < LEAST || words > MOST_WORDS) return 2;
    wrong = getenv("WRONG") ? (uint32_t)atoi(getenv("WRONG")) : 0;
    if (wrong > 5) return 2;
    for (uint32_t i = 0; i < sizeof sequence; i++) sequence[i] = (uint8_t)(11 * i + 1);
    set_classes();
    key_bytes = 2 * (words / LEAST);
    for (int i = 3; i < argc; i++) wants_tried[want_count++] = (uint8_t)atoi(argv[i]);
    if (argc <= 3)
        for (uint32_t n = LEAST; n <= words + 1; n++) wants_tried[want_count++] = (uint8_t)n;
    const struct model open = {.tick = 1, .count = 1, .blocks = {{.size = words}}};
    note(&open, 0, (struct call){0, 0, 0, 0});
    for (uint32_t i = 0; i < state_count; i++) try_state(i);
    printf("%u words, level %u: %u states, %llu calls\n", (unsigned)words, (unsigned)level, (unsigned)state_count,
           (unsigned long long)call_count);
}
