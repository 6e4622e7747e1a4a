/* Pools by pointer, and in memory of the program's: calls by chance beside a plain table of the blocks that are held. A request is served
 * just where its row has a place, and each block has all bytes of its row. A realloc within a row stays where it is, and to another row
 * takes the bytes along. Wild pointers are refused. Counts are those of the table, and a check tells damage.
 * POOL_POINTERS [CALLS] [LEVEL] [SEED] */
#include "peachanchor.h"
#include "chance.h"

#include <string.h>

enum { MOST = 120, LONGEST = 3000, NUMBER = 21, BEHIND = 64 };

static const struct tlsf_kind rows[] = {{40, 24}, {30, 72}, {0, 88}, {20, 200}, {5, 1000}, {3, LONGEST}};
enum { ROWS = sizeof rows / sizeof *rows };

static struct held {
    uint8_t *at, bytes[LONGEST];
    uint32_t row;
} held[MOST];
static uint32_t count, in_row[ROWS];
static _Alignas(16) uint8_t memory[1 << 17];

static uint32_t row_of(size_t len) {
    uint32_t row = 0;
    while (row < ROWS && rows[row].len < len) row++;
    return row;
}

static uint32_t has_place(uint32_t row) { return row < ROWS && in_row[row] < rows[row].most; }

static uint32_t any_len(void) {
    const uint32_t row = below(ROWS), shortest = row ? (uint32_t)rows[row - 1].len + 1 : 1;
    return below(9) ? shortest + below((uint32_t)rows[row].len - shortest + 1) : below(LONGEST + 40);
}

/* No byte of a row overlaps one of another block's, and each lies in the memory of the pools. */
static void looks_new(const struct held *it) {
    const uint8_t *const end = it->at + rows[it->row].len;
    wants("aligned", (uintptr_t)it->at % TLSF_ALIGN, 0);
    for (uint32_t k = 0; k < count; k++) {
        const struct held *other = &held[k];
        if (other != it) wants("apart", end <= other->at || other->at + rows[other->row].len <= it->at, 1);
    }
}

static void write_all(struct held *it) {
    for (uint32_t i = 0; i < rows[it->row].len; i++) it->at[i] = it->bytes[i] = (uint8_t)below(256);
}

static void reads_all(const struct held *it) { wants("its bytes", (size_t)memcmp(it->at, it->bytes, (size_t)rows[it->row].len), 0); }

static void one_malloc(struct tlsf_pools *pools) {
    const uint32_t len = any_len(), row = row_of(len);
    struct held *it = &held[count];
    it->at = tlsf_pools_malloc(pools, len);
    wants("malloc", it->at != NULL, has_place(row));
    if (!it->at) return;
    it->row = row;
    memset(it->bytes, 0, sizeof it->bytes);
    looks_new(it);
    reads_all(it); /* all are zero */
    write_all(it);
    in_row[row]++, count++;
}

static void one_free(struct tlsf_pools *pools, struct held *it) {
    uint8_t *const at = it->at;
    reads_all(it);
    wants("free", tlsf_pools_free(pools, at), TLSF_OK);
    wants("free twice", tlsf_pools_free(pools, at), TLSF_STALE);
    wants("realloc of what was freed", tlsf_pools_realloc(pools, at, 8) == NULL, 1);
    in_row[it->row]--;
    *it = held[--count];
}

static void one_realloc(struct tlsf_pools *pools, struct held *it) {
    const uint32_t len = any_len(), row = row_of(len), had = (uint32_t)rows[it->row].len;
    uint8_t *const old = it->at;
    if (len == 0) return;
    uint8_t *const now = tlsf_pools_realloc(pools, old, len);
    wants("realloc", now != NULL, row == it->row || has_place(row));
    if (!now) return;
    wants("a realloc within a row stays", now == old, row == it->row);
    if (row != it->row) {
        in_row[it->row]--, in_row[row]++;
        memset(it->bytes + (had < len ? had : len), 0, LONGEST - (had < len ? had : len));
        it->at = now, it->row = row;
        looks_new(it);
    }
    reads_all(it);
    write_all(it);
}

/* A block by its name too: one block has both. */
static void one_name(struct tlsf_pools *pools, struct held *it) {
    struct tlsf_name name = {0, 0, 0};
    uint8_t out[LONGEST];
    const uint32_t n = (uint32_t)rows[it->row].len;
    wants("usable", tlsf_pools_usable_size(pools, it->at), n);
    wants("its name", tlsf_pools_name_at(pools, it->at, &name), TLSF_OK);
    wants("read by name", tlsf_pools_read(pools, name, 0, out, n), TLSF_OK);
    wants("the bytes by name", (size_t)memcmp(out, it->bytes, n), 0);
    wants("past the row", tlsf_pools_read(pools, name, n, out, 1), TLSF_RANGE);
    if (below(4)) return;
    wants("release by name", tlsf_pools_release(pools, name), TLSF_OK);
    wants("then it isn't freed", tlsf_pools_free(pools, it->at), TLSF_STALE);
    in_row[it->row]--;
    *it = held[--count];
}

/* Pointers to no block: into one, beside the regions, anywhere. */
static void one_wild(struct tlsf_pools *pools) {
    struct tlsf_name name = {7, 7, 7};
    uint8_t *at = count ? held[below(count)].at : memory;
    const uint32_t kind = below(5);
    if (kind == 0) at += 1 + below(23);
    if (kind == 1) at -= 1 + below(40);
    if (kind == 2) at = memory + below(sizeof memory);
    if (kind == 3) at = (uint8_t *)(uintptr_t)((uint64_t)below(UINT32_MAX) << 32 | below(UINT32_MAX));
    if (kind == 4) at = below(2) ? memory : memory + sizeof memory;
    for (uint32_t k = 0; k < count; k++)
        if (at == held[k].at) return;
    uint8_t *volatile wild = at;
    wants("free of a wild pointer", tlsf_pools_free(pools, wild), wild ? TLSF_STALE : TLSF_OK);
    wants("its name", tlsf_pools_name_at(pools, wild, &name), TLSF_STALE);
    wants("no name came", name.heap == 7 && name.at == 7 && name.serial == 7, 1);
    wants("its size", tlsf_pools_usable_size(pools, wild), 0);
    if (wild) wants("realloc of it", tlsf_pools_realloc(pools, wild, 8) == NULL, 1);
}

/* The counts are those of the table beside. Headers agree, and a check in slices of one block meets as many as a report has. */
static void looks(struct tlsf_pools *pools) {
    struct tlsf_heap_report report;
    uint32_t n = 7, most = 7, part = 0, next = 7, damaged = 7;
    for (uint32_t row = 0; row < ROWS; row++) {
        wants("counts", tlsf_pools_counts(pools, row, &n, &most), TLSF_OK);
        wants("as many as are held", n, in_row[row]);
        wants("as many as may be", most, rows[row].most);
    }
    for (; tlsf_pools_report(pools, part, &report) == TLSF_OK; part++) {
        uint32_t at = 0, blocks = 0;
        do {
            wants("a sound block", tlsf_pools_check(pools, part, at, 1, &next, &damaged), TLSF_OK);
            at = next, blocks++;
        } while (at != 0);
        wants("all blocks", blocks, report.live_blocks + report.free_blocks);
        wants("all at once", tlsf_pools_check(pools, part, 0, UINT32_MAX, &next, &damaged), TLSF_OK);
        wants("up to the end", next, 0);
    }
    next = n = most = 7;
    wants("no block begins there", tlsf_pools_check(pools, 0, 1, 9, &next, &damaged), TLSF_STALE);
    wants("no part", tlsf_pools_check(pools, part, 0, 9, &next, &damaged), TLSF_STALE);
    wants("no row", tlsf_pools_counts(pools, ROWS, &n, &most), TLSF_STALE);
    wants("the last number is none", tlsf_pools_counts(pools, UINT32_MAX, &n, &most), TLSF_STALE);
    wants("nothing came", n == 7 && most == 7 && next == 7 && damaged == 7, 1);
}

static void one_call(struct tlsf_pools *pools) {
    const uint32_t kind = below(12);
    struct held *it = &held[count ? below(count) : 0];
    if (kind < 4 || !count) one_malloc(pools);
    else if (kind < 6) one_free(pools, it);
    else if (kind < 9) one_realloc(pools, it);
    else if (kind < 10) one_name(pools, it);
    else one_wild(pools);
}

/* What no block is asked for. */
static void refusals(struct tlsf_pools *pools) {
    struct tlsf_pools closed = TLSF_POOLS_CLOSED;
    struct tlsf_name name = {7, 7, 7};
    uint64_t *base = NULL;
    uint32_t n = 7, m = 7;
    uint8_t *const at = tlsf_pools_malloc(pools, 20);
    wants("a block", at != NULL, 1);
    wants("longer than each row", tlsf_pools_malloc(pools, LONGEST + 1) == NULL, 1);
    wants("longer than 32 bits", tlsf_pools_malloc(pools, PAST_32 + 16) == NULL, 1);
    volatile size_t longest = SIZE_MAX; /* which gcc warns of */
    wants("the longest", tlsf_pools_malloc(pools, longest) == NULL, 1);
    wants("of a row that has none", tlsf_pools_malloc(pools, 80) == NULL, 1);
    wants("realloc to more than each row", tlsf_pools_realloc(pools, at, LONGEST + 1) == NULL, 1);
    wants("realloc past 32 bits", tlsf_pools_realloc(pools, at, PAST_32 + 16) == NULL, 1);
    wants("it is there", tlsf_pools_usable_size(pools, at), rows[0].len);
    wants("null", tlsf_pools_free(pools, NULL), TLSF_OK);
    wants("null has no size", tlsf_pools_usable_size(pools, NULL), 0);
    wants("realloc to nothing", tlsf_pools_realloc(pools, at, 0) == NULL, 1);
    wants("frees it", tlsf_pools_free(pools, at), TLSF_STALE);
    uint8_t *const one = tlsf_pools_realloc(pools, NULL, 0);
    wants("realloc of null", one != NULL, 1);
    wants("is malloc, of the first row", tlsf_pools_usable_size(pools, one), rows[0].len);
    wants("where closed: malloc", tlsf_pools_malloc(&closed, 8) == NULL, 1);
    wants("free", tlsf_pools_free(&closed, one), TLSF_IS_CLOSED);
    wants("realloc", tlsf_pools_realloc(&closed, one, 8) == NULL, 1);
    wants("usable", tlsf_pools_usable_size(&closed, one), 0);
    wants("name", tlsf_pools_name_at(&closed, one, &name), TLSF_IS_CLOSED);
    wants("part", tlsf_pools_part(&closed, 0, &base, &n), TLSF_IS_CLOSED);
    wants("place", tlsf_pools_place(&closed, 0, 0, &name, &n), TLSF_IS_CLOSED);
    wants("row", tlsf_pools_row(&closed, 8, &n), TLSF_IS_CLOSED);
    wants("counts", tlsf_pools_counts(&closed, 0, &n, &m), TLSF_IS_CLOSED);
    wants("check", tlsf_pools_check(&closed, 0, 0, 1, &n, &m), TLSF_IS_CLOSED);
    wants("nothing came", n == 7 && m == 7 && !base && name.heap == 7 && name.at == 7 && name.serial == 7, 1);
    wants("free it", tlsf_pools_free(pools, one), TLSF_OK);
}

/* What the calls by pointer are made of. */
static void parts(struct tlsf_pools *pools, uint32_t heaps) {
    struct tlsf_name name = {7, 7, 7};
    uint64_t *base = NULL, *before = NULL;
    uint32_t number = 7, n = 7, part = 0;
    for (; tlsf_pools_part(pools, part, &base, &number) == TLSF_OK; part++) {
        wants("their numbers", number, NUMBER + part);
        wants("another region", base != before && (uintptr_t)base % 16 == 8, 1);
        wants("nothing lives there", tlsf_pools_place(pools, part, 0, &name, &n), TLSF_STALE);
        before = base;
    }
    wants("parts", part, heaps);
    wants("no part", tlsf_pools_part(pools, UINT32_MAX, &base, &number), TLSF_STALE);
    wants("nothing of it came", base == before && number == NUMBER + heaps - 1, 1);
    wants("no place of no part", tlsf_pools_place(pools, heaps, 0, &name, &n), TLSF_STALE);
    wants("nothing came", n == 7 && name.heap == 7, 1);
    for (size_t len = 0; len <= LONGEST + 1; len++) {
        const uint32_t row = row_of(len);
        wants("a row", tlsf_pools_row(pools, len, &n), row < ROWS ? TLSF_OK : TLSF_BAD_SIZE);
        wants("its bytes", n, row < ROWS ? rows[row].len : LONGEST);
    }
    wants("a row past 32 bits", tlsf_pools_row(pools, PAST_32 + 16, &n), TLSF_BAD_SIZE);
    wants("a block by name", tlsf_pools_allocate(pools, 150, &name), TLSF_OK);
    wants("its place", tlsf_pools_place(pools, name.heap - NUMBER, name.at, &name, &n), TLSF_OK);
    wants("its length", n, 150);
    wants("its part", tlsf_pools_part(pools, name.heap - NUMBER, &base, &number), TLSF_OK);
    uint8_t *const at = (uint8_t *)(base + name.at + 3);
    wants("its bytes by pointer", tlsf_pools_usable_size(pools, at), 150);
    wants("shorter in its row stays", tlsf_pools_realloc(pools, at, 140) == at, 1);
    uint8_t *const longer = tlsf_pools_realloc(pools, at, 190);
    wants("longer in its row moves", longer && longer != at, 1);
    wants("to one of all bytes of the row", tlsf_pools_usable_size(pools, longer), 200);
    wants("release", tlsf_pools_release(pools, name), TLSF_STALE);
    wants("free", tlsf_pools_free(pools, longer), TLSF_OK);
}

/* The length in a header is overwritten: the check tells that block, and those before it are sound. Each other part is. */
static void damage(uint32_t level) {
    struct tlsf_pools pools = TLSF_POOLS_CLOSED;
    struct tlsf_name first = {0, 0, 0}, second = {0, 0, 0};
    uint64_t *base = NULL;
    uint32_t n = 0, most = 0, next = 7, damaged = 7;
    wants("open", tlsf_pools_open_in(&pools, level, NUMBER, rows, ROWS, memory, sizeof memory), TLSF_OK);
    wants("a block", tlsf_pools_allocate(&pools, 150, &first), TLSF_OK);
    wants("one after it", tlsf_pools_allocate(&pools, 150, &second), TLSF_OK);
    const uint32_t part = first.heap - NUMBER;
    wants("in one part", second.heap - NUMBER, part);
    wants("its part", tlsf_pools_part(&pools, part, &base, &n), TLSF_OK);
    wants("it is sound", tlsf_pools_check(&pools, part, second.at, 1, &next, &damaged), TLSF_OK);
    base[second.at + 2] = UINT64_MAX;
    next = 7;
    wants("it is damaged", tlsf_pools_check(&pools, part, second.at, 1, &next, &damaged), TLSF_DAMAGED);
    wants("its place", damaged, second.at);
    damaged = 8;
    wants("from the first on", tlsf_pools_check(&pools, part, 0, UINT32_MAX, &next, &damaged), TLSF_DAMAGED);
    wants("its place", damaged, second.at);
    wants("no next came", next, 7);
    wants("the one before it", tlsf_pools_check(&pools, part, first.at, 1, &next, &damaged), TLSF_OK);
    wants("goes on there", next, second.at);
    for (uint32_t other = 0; tlsf_pools_part(&pools, other, &base, &n) == TLSF_OK; other++)
        if (other != part) wants("another part", tlsf_pools_check(&pools, other, 0, UINT32_MAX, &next, &damaged), TLSF_OK);
    wants("counts", tlsf_pools_counts(&pools, 3, &n, &most), TLSF_OK);
    wants("as many are held", n == 2 && most == rows[3].most, 1);
    wants("close", tlsf_pools_close(&pools), TLSF_OK);
}

/* --- In memory of the program's ------------------------------------------------------------------------------------------- */

/* One heap for both rows of `tie` has as many words as two. */
static const struct tlsf_kind none[] = {{0, 16}, {0, 500}}, one[] = {{7, 24}}, far[] = {{3, 8}, {3, 80}, {3, 800}, {2, 8000}};
static const struct tlsf_kind tie[] = {{2, 1}, {3, 8}};
static const struct {
    const struct tlsf_kind *rows;
    size_t count;
} tables[] = {{none, 0}, {none, 2}, {one, 1}, {far, 4}, {tie, 2}, {rows, ROWS}};

/* Every block of every row fits, and no byte beside the memory changes. */
static void fill_all(struct tlsf_pools *pools, const struct tlsf_kind *kinds, size_t n) {
    for (int again = 0; again < 2; again++) {
        void *all[MOST];
        uint32_t blocks = 0;
        for (size_t k = n; k-- > 0;)
            for (uint32_t i = 0; i < kinds[k].most; i++) {
                wants("a block of a row", (all[blocks] = tlsf_pools_malloc(pools, (size_t)kinds[k].len)) != NULL, 1);
                memset(all[blocks++], 0xc3, (size_t)kinds[k].len);
            }
        for (size_t k = 0; k < n; k++) wants("one more", tlsf_pools_malloc(pools, (size_t)kinds[k].len) == NULL, 1);
        for (uint32_t i = 0; i < blocks; i++) wants("free", tlsf_pools_free(pools, all[i]), TLSF_OK);
    }
}

static void in_memory_of(uint32_t level, size_t table, size_t skew) {
    struct tlsf_pools pools = TLSF_POOLS_CLOSED;
    const struct tlsf_kind *const kinds = tables[table].rows;
    const size_t n = tables[table].count, bytes = tlsf_pools_bytes(level, kinds, n);
    uint8_t *const at = memory + BEHIND + skew;
    uint64_t words = 0;
    uint32_t heaps = 9;
    wants("words", tlsf_pools_words(level, kinds, n, &words, &heaps), TLSF_OK);
    wants("room", bytes > 8 * words && bytes + 2 * BEHIND < sizeof memory, 1);
    memset(memory, 0x5a, sizeof memory);
    /* From a multiple of 16 on it takes 15 fewer, and not many fewer. */
    const size_t least = bytes - (skew ? 0 : 15);
    if (!skew) wants("too few", tlsf_pools_open_in(&pools, level, NUMBER, kinds, n, at, least - 17 - 60 * heaps), TLSF_BAD_SIZE);
    wants("open", tlsf_pools_open_in(&pools, level, NUMBER, kinds, n, at, least), TLSF_OK);
    wants("open twice", tlsf_pools_open_in(&pools, 9, NUMBER, kinds, n, at, least), TLSF_IN_USE);
    fill_all(&pools, kinds, n);
    wants("close", tlsf_pools_close(&pools), TLSF_OK);
    for (size_t i = 0; i < BEHIND + skew; i++) wants("no byte before", memory[i], 0x5a);
    for (size_t i = BEHIND + skew + least; i < sizeof memory; i++) wants("no byte after", memory[i], 0x5a);
}

static void refusals_of_opening(uint32_t level) {
    struct tlsf_pools pools = TLSF_POOLS_CLOSED;
    const struct tlsf_kind falls[] = {{10, 100}, {10, 50}}, large = {UINT32_MAX, 8};
    struct tlsf_kind many[65];
    uint64_t words = 7;
    uint32_t heaps = 7;
    for (uint32_t i = 0; i < 65; i++) many[i] = (struct tlsf_kind){1, 8 + i};
    wants("level", tlsf_pools_open_in(&pools, 6, 1, falls, 2, NULL, 0), TLSF_BAD_LEVEL);
    wants("no memory", tlsf_pools_open_in(&pools, level, 1, falls, 2, NULL, 0), TLSF_BAD_MEMORY);
    wants("null", tlsf_pools_open_in(&pools, level, 1, rows, ROWS, NULL, sizeof memory), TLSF_BAD_MEMORY);
    wants("MAP_FAILED", tlsf_pools_open_in(&pools, level, 1, rows, ROWS, (void *)UINTPTR_MAX, sizeof memory), TLSF_BAD_MEMORY);
    wants("rows that fall", tlsf_pools_open_in(&pools, level, 1, falls, 2, memory, sizeof memory), TLSF_BAD_SIZE);
    wants("few bytes", tlsf_pools_open_in(&pools, level, 1, rows, ROWS, memory, 100), TLSF_BAD_SIZE);
    wants("no bytes", tlsf_pools_open_in(&pools, level, 1, rows, ROWS, memory + 1, 0), TLSF_BAD_SIZE);
    wants("bytes at level 6", tlsf_pools_bytes(6, rows, ROWS), 0);
    wants("bytes of rows that fall", tlsf_pools_bytes(level, falls, 2), 0);
    wants("bytes of 65 rows", tlsf_pools_bytes(level, many, 65), 0);
    wants("bytes of what no region has", tlsf_pools_bytes(level, &large, 1), 0);
    wants("words at level 3", tlsf_pools_words(3, rows, ROWS, &words, &heaps), TLSF_BAD_LEVEL);
    wants("words of 65 rows", tlsf_pools_words(level, many, 65, &words, &heaps), TLSF_BAD_SIZE);
    wants("words of rows that fall", tlsf_pools_words(level, falls, 2, &words, &heaps), TLSF_BAD_SIZE);
    wants("none came", words == 7 && heaps == 7, 1);
    wants("words of 64 rows", tlsf_pools_words(level, many, 64, &words, &heaps), TLSF_OK);
    wants("in eight heaps", heaps, 8);
}

int main(int argc, char **argv) {
    const long calls = argc > 1 ? atol(argv[1]) : 20000;
    const uint32_t level = argc > 2 ? (uint32_t)atol(argv[2]) : 4;
    struct tlsf_pools pools = TLSF_POOLS_CLOSED;
    struct tlsf_heap_report report;
    uint64_t words = 0, reported = 0;
    uint32_t heaps = 0;
    state = argc > 3 ? strtoull(argv[3], NULL, 10) * 2 + 1 : 1;
    for (int i = 0; i < 10; i++) below(2);
    refusals_of_opening(level);
    damage(level);
    for (size_t table = 0; table < sizeof tables / sizeof *tables; table++)
        for (size_t skew = 0; skew < 16; skew++) in_memory_of(level, table, skew);
    for (int in = 0; in < 2; in++) {
        wants("words", tlsf_pools_words(level, rows, ROWS, &words, &heaps), TLSF_OK);
        wants("open",
              in ? tlsf_pools_open_in(&pools, level, NUMBER, rows, ROWS, memory, sizeof memory)
                 : tlsf_pools_open(&pools, level, NUMBER, rows, ROWS),
              TLSF_OK);
        parts(&pools, heaps);
        refusals(&pools);
        for (turn = 0; turn < calls; turn++) {
            one_call(&pools);
            if (turn % 97 == 0) looks(&pools);
        }
        while (count) one_free(&pools, &held[count - 1]);
        reported = 0;
        for (uint32_t part = 0; part < heaps; part++) {
            wants("report", tlsf_pools_report(&pools, part, &report), TLSF_OK);
            wants("nothing is live", report.live_blocks, 0);
            reported += report.free_words;
        }
        wants("all words", reported, words);
        wants("close", tlsf_pools_close(&pools), TLSF_OK);
    }
    printf("%ld calls of pools by pointer, and each refusal: as they have to be\n", 2 * calls);
    return 0;
}
