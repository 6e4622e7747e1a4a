/* Pools by pointer, wherever malloc puts their regions: at rising, falling and mixed addresses. Each block of each row is sized, named,
 * resized to its own row and to another, and freed, all by its pointer. Any other number is refused and changes nothing: in a region,
 * between regions, below them all and above, and a place of one region in another. The tables are that of docs/C.md, also with the C
 * library's malloc, and some by chance. Link with -Wl,--wrap=malloc,--wrap=free. POOL_REGIONS [TABLES] [SEED] */
#include "chance.h"
#include "peachanchor.h"

#include <stdbool.h>
#include <string.h>

enum { MOST = 2100, ROWS = 9, PARTS = 8, PIECES = 64, PIECE = 1 << 18, ROOM = PIECES * PIECE, NUMBER = 70 };
enum order { RISING, FALLING, MIXED, SYSTEM };

void *__real_malloc(size_t bytes);
void __real_free(void *at);
void *__wrap_malloc(size_t bytes);
void __wrap_free(void *at);

/* Where the test's own malloc gives pieces while pools are opened. */
static _Alignas(16) uint8_t room[ROOM];
static size_t low, high; /* the first byte behind what was given at rising addresses, and the last in front of what was at falling ones */
static bool is_given[PIECES], is_opening;
static enum order order;
static int given;

void *__wrap_malloc(size_t bytes) {
    const size_t all = (bytes + 15) / 16 * 16;
    uint32_t slot = below(PIECES);
    if (!is_opening) return __real_malloc(bytes);
    given++;
    if (order == RISING) return room + (low += all) - all;
    if (order == FALLING) return room + (high -= all);
    wants("a piece that fits", all <= PIECE, 1);
    while (is_given[slot]) slot = (slot + 1) % PIECES;
    is_given[slot] = true;
    return room + (size_t)slot * PIECE;
}

void __wrap_free(void *at) {
    if ((uintptr_t)at - (uintptr_t)room < ROOM) given--;
    else __real_free(at);
}

static struct tlsf_pools pools = TLSF_POOLS_CLOSED;
static struct tlsf_kind rows[ROWS];
static uint32_t row_count, part_count;
static uint64_t *bases[PARTS];
static size_t words[PARTS];

static struct block {
    uint8_t *at;
    uint32_t row;
    uint8_t fill;
} blocks[MOST];
static uint32_t count;

/* --- Tables ----------------------------------------------------------------------------------------------------------- */

static void learn_parts(void) {
    struct tlsf_heap_report report;
    uint32_t number = 0, rises = 0, falls = 0;
    for (part_count = 0; tlsf_pools_part(&pools, part_count, &bases[part_count], &number) == TLSF_OK; part_count++) {
        wants("its words", tlsf_pools_report(&pools, part_count, &report), TLSF_OK);
        words[part_count] = report.free_words;
        if (part_count == 0) continue;
        if (bases[part_count] > bases[part_count - 1]) rises++;
        else falls++;
    }
    if (order == RISING) wants("regions that rise", falls, 0);
    if (order == FALLING) wants("regions that fall", rises, 0);
}

static void open_pools(uint32_t level) {
    low = 0, high = ROOM, given = 0;
    memset(is_given, 0, sizeof is_given);
    is_opening = order != SYSTEM;
    wants("open", tlsf_pools_open(&pools, level, NUMBER, rows, row_count), TLSF_OK);
    is_opening = false;
    wants("memory of the test's own malloc", given > 0, order != SYSTEM);
    learn_parts();
}

/* Rows whose lengths rise by short and by long steps, so that they are cut into some parts. */
static void any_table(void) {
    uint64_t len = 0;
    row_count = 1 + below(ROWS);
    for (uint32_t k = 0; k < row_count; k++) {
        len += 1 + below(1u << (2 + below(9)));
        rows[k].most = below(7);
        rows[k].len = len;
    }
}

/* --- Blocks ----------------------------------------------------------------------------------------------------------- */

static bool has_all(const uint8_t *at, uint8_t byte, size_t from, size_t to) {
    for (; from < to && at[from] == byte; from++) {}
    return from == to;
}

/* A block of a row came: all bytes of it, of which the first `n` are those of another block that moved here. */
static void take_in(struct block *it, uint8_t *at, uint32_t row, size_t n) {
    const size_t len = (size_t)rows[row].len;
    wants("a block", at != NULL, 1);
    wants("the bytes that came along", has_all(at, it->fill, 0, n) && has_all(at, 0, n, len), 1);
    it->at = at;
    it->row = row;
    it->fill = (uint8_t)(1 + below(255));
    memset(at, it->fill, len);
}

static void give_all(void) {
    count = 0;
    for (uint32_t row = 0; row < row_count; row++)
        for (uint32_t k = 0; k < rows[row].most; k++) {
            wants("room in the table", count < MOST, 1);
            take_in(&blocks[count++], tlsf_pools_malloc(&pools, (size_t)rows[row].len), row, 0);
        }
    for (uint32_t row = 0; row < row_count; row++) wants("a row that is full", tlsf_pools_malloc(&pools, (size_t)rows[row].len) == NULL, 1);
}

/* While all rows are full: what each block says by its pointer, and where it stays. */
static void look_at(const struct block *it) {
    const struct tlsf_kind row = rows[it->row];
    const uint32_t other = below(row_count), len = (uint32_t)row.len, shortest = it->row ? (uint32_t)rows[it->row - 1].len + 1 : 1;
    struct tlsf_name name = {0, 0, 0};
    uint8_t last = 0;
    uint32_t part = 0;
    wants("its bytes", has_all(it->at, it->fill, 0, len), 1);
    wants("its size", tlsf_pools_usable_size(&pools, it->at), len);
    wants("its name", tlsf_pools_name_at(&pools, it->at, &name), TLSF_OK);
    part = name.heap - NUMBER;
    wants("of its part", part < part_count && (uint8_t *)(bases[part] + name.at + 3) == it->at, 1);
    wants("read by name", tlsf_pools_read(&pools, name, len - 1, &last, 1), TLSF_OK);
    wants("the last byte", last, it->fill);
    wants("in its row it stays", tlsf_pools_realloc(&pools, it->at, shortest + below(len - shortest + 1)) == it->at, 1);
    if (other != it->row) wants("no other has a place", tlsf_pools_realloc(&pools, it->at, (size_t)rows[other].len) == NULL, 1);
}

/* Takes the place of a block in another row, which takes this one's. So all rows are full again. */
static void trade(struct block *it, struct block *other) {
    const uint32_t from = it->row, to = other->row;
    const size_t had = (size_t)rows[from].len, has = (size_t)rows[to].len;
    if (from == to) return;
    wants("free", tlsf_pools_free(&pools, other->at), TLSF_OK);
    take_in(it, tlsf_pools_realloc(&pools, it->at, has), to, had < has ? had : has);
    take_in(other, tlsf_pools_malloc(&pools, had), from, 0);
}

/* --- Any other number ------------------------------------------------------------------------------------------------- */

static int by_address(const void *a, const void *b) {
    const struct block *const one = a, *const two = b;
    return (one->at > two->at) - (one->at < two->at);
}

/* `number` is refused by each call unless it is a block's. Blocks stand in the order of their addresses meanwhile. */
static void refuse(uintptr_t number) {
    void *volatile p = (void *)number;
    const struct block wanted = {p, 0, 0};
    struct tlsf_name name = {7, 7, 7};
    if (number == 0 || bsearch(&wanted, blocks, count, sizeof *blocks, by_address)) return;
    wants("free of another number", tlsf_pools_free(&pools, p), TLSF_STALE);
    if (below(4)) return;
    wants("its name", tlsf_pools_name_at(&pools, p, &name), TLSF_STALE);
    wants("no name", name.heap == 7 && name.at == 7 && name.serial == 7, 1);
    wants("its size", tlsf_pools_usable_size(&pools, p), 0);
    wants("realloc of it", tlsf_pools_realloc(&pools, p, 8) == NULL, 1);
}

/* Places of blocks counted from 0 and from each region, and numbers beside each block. */
static void refuse_of_blocks(uint32_t from) {
    for (uint32_t k = from; k < count; k += 1 + below(count / 8 + 1)) {
        const uintptr_t at = (uintptr_t)blocks[k].at;
        for (uint32_t part = 0; part < part_count; part++) {
            const uintptr_t base = (uintptr_t)bases[part];
            refuse(at - base);          /* as of a region at 0 */
            refuse(base - (at - base)); /* as far in front of the region */
            for (uint32_t other = 0; other < part_count; other++) refuse(at - base + (uintptr_t)bases[other]);
        }
        for (uintptr_t bytes = 1; bytes <= 24; bytes++) refuse(at + bytes), refuse(at - bytes);
#if UINTPTR_MAX > UINT32_MAX
        refuse(at + ((uintptr_t)1 << 35)), refuse(at - ((uintptr_t)1 << 35)); /* as far as a place has numbers */
#endif
    }
}

static void refuse_all(bool sweeps) {
    qsort(blocks, count, sizeof *blocks, by_address);
    if (count) refuse_of_blocks(below(count / 8 + 1));
    for (uint32_t part = 0; part < part_count; part++) {
        const uintptr_t base = (uintptr_t)bases[part], end = (uintptr_t)(bases[part] + words[part]);
        for (uintptr_t bytes = 0; bytes <= 40; bytes++)
            refuse(base - bytes), refuse(base + bytes), refuse(end + bytes), refuse(end - bytes);
        for (uintptr_t at = base - 64; sweeps && at < end + 64; at += 8) refuse(at);
    }
    for (uintptr_t k = 0; k < 40; k++) refuse(8 * k), refuse(k), refuse(UINTPTR_MAX - k), refuse(UINTPTR_MAX / 2 + k);
    for (int k = 0; k < 40; k++) refuse((uintptr_t)room + 8 * (uintptr_t)below(ROOM / 8)), refuse(8 * (uintptr_t)below(UINT32_MAX));
}

/* --- One table -------------------------------------------------------------------------------------------------------- */

static void all_of(bool sweeps) {
    uint32_t held = 0, most = 0;
    give_all();
    for (uint32_t k = 0; k < count; k++) look_at(&blocks[k]);
    refuse_all(sweeps);
    for (uint32_t k = 0; k < count; k++) trade(&blocks[k], &blocks[below(count)]);
    for (uint32_t k = 0; k < count; k++) look_at(&blocks[k]);
    for (uint32_t row = 0; row < row_count; row++) {
        wants("counts", tlsf_pools_counts(&pools, row, &held, &most), TLSF_OK);
        wants("all are held", held, rows[row].most);
    }
    while (count) {
        struct block *const it = &blocks[below(count)];
        uint8_t *volatile at = it->at;
        wants("free", tlsf_pools_free(&pools, at), TLSF_OK);
        wants("free twice", tlsf_pools_free(&pools, at), TLSF_STALE);
        *it = blocks[--count];
    }
    for (uint32_t row = 0; row < row_count; row++) {
        wants("counts", tlsf_pools_counts(&pools, row, &held, &most), TLSF_OK);
        wants("none is held", held, 0);
    }
    wants("close", tlsf_pools_close(&pools), TLSF_OK);
    wants("all memory came back", (size_t)given, 0);
}

/* The table of docs/C.md. */
static void of_the_page(uint32_t level) {
    row_count = 2;
    rows[0] = (struct tlsf_kind){2000, 64};
    rows[1] = (struct tlsf_kind){1, 65536};
    for (order = RISING; order <= SYSTEM; order++) {
        open_pools(level);
        wants("two heaps", part_count, 2);
        all_of(level == 4);
    }
}

int main(int argc, char **argv) {
    const long tables = argc > 1 ? atol(argv[1]) : 400;
    long cut = 0;
    state = argc > 2 ? strtoull(argv[2], NULL, 10) * 2 + 1 : 1;
    for (int i = 0; i < 10; i++) below(2);
    of_the_page(4);
    of_the_page(5);
    for (turn = 0; turn < tables; turn++) {
        order = (enum order)(turn % 3);
        any_table();
        open_pools(4 + (uint32_t)turn % 2);
        cut += part_count > 2;
        all_of(turn % 16 == 0);
    }
    wants("most have three parts or more", 2 * cut >= tables, 1);
    printf("pools by pointer of %ld tables, wherever their regions lie: as they have to be\n", tables);
    return 0;
}
