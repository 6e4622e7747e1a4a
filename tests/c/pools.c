/* Pools for a table of kinds: each refusal, and then calls by chance beside a plain table of the blocks that are held. A request is served
 * just where its row has a place, each payload keeps its bytes, and no call takes memory. POOLS [CALLS] [LEVEL] [SEED] */
#include "peachanchor.h"
#include "chance.h"

#include <string.h>

enum { MOST = 200, LONGEST = 700, NUMBER = 11 };

static const struct tlsf_kind rows[] = {{40, 16}, {30, 64}, {9, 65}, {20, 200}, {3, LONGEST}};
enum { ROWS = sizeof rows / sizeof *rows };

static void refusals_of_opening(void) {
    struct tlsf_pools pools = TLSF_POOLS_CLOSED;
    struct tlsf_kind many[65];
    for (int i = 0; i < 65; i++) many[i] = (struct tlsf_kind){1, 8 + (uint32_t)i};
    wants("level 3", tlsf_pools_open(&pools, 3, 1, rows, ROWS), TLSF_BAD_LEVEL);
    wants("level 6", tlsf_pools_open(&pools, 6, 1, many, 65), TLSF_BAD_LEVEL);
    wants("65 rows", tlsf_pools_open(&pools, 4, 1, many, 65), TLSF_BAD_SIZE);
    wants("numbers past the last", tlsf_pools_open(&pools, 4, UINT32_MAX - 6, rows, ROWS), TLSF_BAD_SIZE);
    wants("rows that fall", tlsf_pools_open(&pools, 4, 1, (struct tlsf_kind[]){{10, 100}, {10, 50}}, 2), TLSF_BAD_SIZE);
    wants("a length twice", tlsf_pools_open(&pools, 4, 1, (struct tlsf_kind[]){{1, 8}, {1, 50}, {1, 50}}, 3), TLSF_BAD_SIZE);
    wants("no region so large", tlsf_pools_open(&pools, 4, 1, &(struct tlsf_kind){UINT32_MAX, 8}, 1), TLSF_BAD_SIZE);
    wants("a length past 32 bits", tlsf_pools_open(&pools, 4, 1, &(struct tlsf_kind){1, PAST_32 + 16}, 1), TLSF_BAD_SIZE);
    wants("the last numbers", tlsf_pools_open(&pools, 4, UINT32_MAX - 7, many, 64), TLSF_OK);
    wants("open twice", tlsf_pools_open(&pools, 9, UINT32_MAX, rows, 70), TLSF_IN_USE);
    wants("close", tlsf_pools_close(&pools), TLSF_OK);
    wants("close twice", tlsf_pools_close(&pools), TLSF_IS_CLOSED);
}

/* Pools of no rows open, and have no heap: each request is longer than each row. */
static void no_rows(uint32_t level) {
    static unsigned char memory[8192];
    struct tlsf_pools pools = TLSF_POOLS_CLOSED;
    struct tlsf_name name = {7, 7, 7};
    uint64_t words = 7, *base = NULL;
    uint32_t heaps = 7, number = 7, some = 7, most = 7;
    wants("words of no rows", tlsf_pools_words(level, rows, 0, &words, &heaps) + words + heaps, TLSF_OK);
    wants("their bytes", tlsf_pools_bytes(level, rows, 0) > 0 && tlsf_pools_bytes(level, rows, 0) <= sizeof memory, 1);
    for (int is_in = 0; is_in < 2; is_in++) {
        wants("no rows",
              is_in ? tlsf_pools_open_in(&pools, level, 1, rows, 0, memory, tlsf_pools_bytes(level, rows, 0))
                    : tlsf_pools_open(&pools, level, 1, rows, 0),
              TLSF_OK);
        wants("no request", tlsf_pools_allocate(&pools, 0, &name), TLSF_BAD_SIZE);
        wants("by pointer", tlsf_pools_malloc(&pools, 0) == NULL, 1);
        wants("no part", tlsf_pools_part(&pools, 0, &base, &number), TLSF_STALE);
        wants("no row", tlsf_pools_counts(&pools, 0, &some, &most), TLSF_STALE);
        wants("no block", tlsf_pools_usable_size(&pools, memory), 0);
        wants("no name", tlsf_pools_release(&pools, name), TLSF_FOREIGN);
        wants("close", tlsf_pools_close(&pools), TLSF_OK);
    }
}

static void refusals_of_calls(void) {
    struct tlsf_pools pools = TLSF_POOLS_CLOSED;
    struct tlsf_name name = {7, 7, 7}, other = {7, 7, 7};
    struct tlsf_heap_report report, kept;
    uint8_t bytes[4] = {1, 2, 3, 4}, out[4] = {9, 9, 9, 9};
    memset(&report, 7, sizeof report);
    kept = report;
    wants("allocate where closed", tlsf_pools_allocate(&pools, 1, &name), TLSF_IS_CLOSED);
    wants("release where closed", tlsf_pools_release(&pools, name), TLSF_IS_CLOSED);
    wants("write where closed", tlsf_pools_write(&pools, name, 0, bytes, 4), TLSF_IS_CLOSED);
    wants("read where closed", tlsf_pools_read(&pools, name, 0, out, 4), TLSF_IS_CLOSED);
    wants("report where closed", tlsf_pools_report(&pools, 0, &report), TLSF_IS_CLOSED);
    wants("open", tlsf_pools_open(&pools, 4, NUMBER, (struct tlsf_kind[]){{1, 16}, {2, 4000}}, 2), TLSF_OK);
    wants("longer than each row", tlsf_pools_allocate(&pools, 4001, &name), TLSF_BAD_SIZE);
    wants("longer than 32 bits", tlsf_pools_allocate(&pools, PAST_32 + 16, &name), TLSF_BAD_SIZE);
    wants("release of another's", tlsf_pools_release(&pools, name), TLSF_FOREIGN);
    wants("write of another's", tlsf_pools_write(&pools, name, 0, bytes, 4), TLSF_FOREIGN);
    wants("read of another's", tlsf_pools_read(&pools, name, 0, out, 4), TLSF_FOREIGN);
    wants("no name came", (size_t)memcmp(&name, &other, sizeof name), 0);
    wants("a short one", tlsf_pools_allocate(&pools, 4, &name), TLSF_OK);
    wants("of the first heap", name.heap, NUMBER);
    wants("its row is full", tlsf_pools_allocate(&pools, 16, &other), TLSF_ROW_FULL);
    wants("which is no lane", (size_t)strcmp(tlsf_text_of(TLSF_ROW_FULL), "all blocks of that row are held"), 0);
    wants("a long one", tlsf_pools_allocate(&pools, 17, &other), TLSF_OK);
    wants("of the second heap", other.heap, NUMBER + 1);
    wants("it is zero", tlsf_pools_read(&pools, other, 13, out, 4), TLSF_OK);
    wants("all of it", (size_t)out[0] + out[1] + out[2] + out[3], 0);
    wants("write", tlsf_pools_write(&pools, name, 0, bytes, 4), TLSF_OK);
    wants("past the end", tlsf_pools_write(&pools, name, 1, bytes, 4), TLSF_RANGE);
    wants("read past the end", tlsf_pools_read(&pools, name, 1, out, 4), TLSF_RANGE);
    wants("nothing was read", (size_t)out[3], 0);
    wants("a second part", tlsf_pools_report(&pools, 1, &report), TLSF_OK);
    wants("its block", report.live_blocks, 1);
    wants("no third part", tlsf_pools_report(&pools, 2, &kept), TLSF_STALE);
    wants("release", tlsf_pools_release(&pools, name), TLSF_OK);
    wants("release twice", tlsf_pools_release(&pools, name), TLSF_STALE);
    wants("read what was released", tlsf_pools_read(&pools, name, 0, out, 1), TLSF_STALE);
    wants("its row has a place", tlsf_pools_allocate(&pools, 16, &name), TLSF_OK);
    wants("close", tlsf_pools_close(&pools), TLSF_OK);
}

/* --- Calls by chance ------------------------------------------------------------------------------------------------------ */

static struct held {
    struct tlsf_name name;
    uint32_t len, row;
    uint8_t bytes[LONGEST];
} held[MOST];
static uint32_t count, in_row[ROWS];

static uint32_t row_of(uint32_t len) {
    uint32_t row = 0;
    while (row < ROWS && rows[row].len < len) row++;
    return row;
}

static void one_allocate(struct tlsf_pools *pools) {
    const uint32_t len = below(4) ? (uint32_t)rows[below(ROWS)].len - below(8) : below(LONGEST + 20), row = row_of(len);
    struct held *it = &held[count];
    const uint32_t answer = tlsf_pools_allocate(pools, len, &it->name);
    wants("allocate", answer, row == ROWS ? TLSF_BAD_SIZE : in_row[row] == rows[row].most ? TLSF_ROW_FULL : TLSF_OK);
    if (answer) return;
    it->len = len, it->row = row;
    for (uint32_t i = 0; i < count; i++) wants("a new name", (size_t)!memcmp(&held[i].name, &it->name, sizeof it->name), 0);
    memset(it->bytes, 0, len);
    in_row[row]++, count++;
}

static void one_call(struct tlsf_pools *pools) {
    const uint32_t kind = below(10), k = count ? below(count) : 0;
    struct held *it = &held[k];
    uint8_t out[LONGEST];
    if (kind < 4 || !count) {
        one_allocate(pools);
    } else if (kind < 6) {
        const struct tlsf_name name = it->name;
        wants("release", tlsf_pools_release(pools, name), TLSF_OK);
        wants("release twice", tlsf_pools_release(pools, name), TLSF_STALE);
        in_row[it->row]--;
        *it = held[--count];
    } else if (kind < 8) {
        const uint32_t at = below(it->len + 1), n = below(it->len - at + 1);
        for (uint32_t i = 0; i < n; i++) it->bytes[at + i] = (uint8_t)below(256);
        wants("write", tlsf_pools_write(pools, it->name, at, it->bytes + at, n), TLSF_OK);
    } else {
        wants("read", tlsf_pools_read(pools, it->name, 0, out, it->len), TLSF_OK);
        wants("its bytes", (size_t)memcmp(out, it->bytes, it->len), 0);
    }
}

/* Names that no block has, of these heaps and of others, are refused by each call. */
static void one_refused(struct tlsf_pools *pools, uint32_t parts) {
    struct tlsf_name name = held[below(count)].name;
    uint8_t byte = 7;
    const uint32_t kind = below(5);
    if (kind == 0) name.at = below(2) ? below(4000) : UINT32_MAX - below(70);
    if (kind == 1) name.serial += 1 + below(3);
    if (kind == 2) name.heap = NUMBER + below(parts);
    if (kind == 3) name.heap = NUMBER - 1 - below(NUMBER);
    if (kind == 4) name.heap = NUMBER + parts + below(9);
    for (uint32_t i = 0; i < count; i++)
        if (!memcmp(&held[i].name, &name, sizeof name)) return;
    const uint32_t why = name.heap - NUMBER < parts ? TLSF_STALE : TLSF_FOREIGN;
    wants("release by another name", tlsf_pools_release(pools, name), why);
    wants("read by another name", tlsf_pools_read(pools, name, 0, &byte, 1), why);
    wants("write by another name", tlsf_pools_write(pools, name, 0, &byte, 1), why);
    wants("no byte came", byte, 7);
}

static uint32_t check_reports(struct tlsf_pools *pools) {
    struct tlsf_heap_report report;
    uint32_t blocks = 0, part = 0;
    for (; tlsf_pools_report(pools, part, &report) == TLSF_OK; part++) blocks += report.live_blocks;
    wants("parts", part >= 1 && part <= 8, 1);
    wants("blocks of all parts", blocks, count);
    return part;
}

int main(int argc, char **argv) {
    const long calls = argc > 1 ? atol(argv[1]) : 20000;
    const uint32_t level = argc > 2 ? (uint32_t)atol(argv[2]) : 4;
    struct tlsf_pools pools = TLSF_POOLS_CLOSED;
    state = argc > 3 ? strtoull(argv[3], NULL, 10) * 2 + 1 : 1;
    for (int i = 0; i < 10; i++) below(2);
    refusals_of_opening();
    no_rows(level);
    refusals_of_calls();
    wants("open", tlsf_pools_open(&pools, level, NUMBER, rows, ROWS), TLSF_OK);
    const uint32_t parts = check_reports(&pools);
    for (turn = 0; turn < calls; turn++) {
        one_call(&pools);
        if (count) one_refused(&pools, parts);
        if (turn % 97 == 0) check_reports(&pools);
    }
    while (count) wants("release at last", tlsf_pools_release(&pools, held[--count].name), TLSF_OK);
    check_reports(&pools);
    wants("close", tlsf_pools_close(&pools), TLSF_OK);
    printf("%ld calls of pools, and each refusal: as they have to be\n", calls);
    return 0;
}
