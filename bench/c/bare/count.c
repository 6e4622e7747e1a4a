/* Requests as they come by chance, each between two marks that bench/bare knows by their addresses. The first ones are of no heap: so many
 * instructions the marks themselves have between them. */
#include "bare.h"

enum { HELD = 200, MOST = 400, TURNS = 2000 };

void mark_take(void);
void mark_give(void);
void mark_refused(void);
void mark_end(void);

static struct block {
    held it;
    uint32_t bytes;
    bool is_live;
} blocks[HELD];

static uint32_t seed = 12345;
static uint32_t below(uint32_t n) {
    seed = seed * 1664525u + 1013904223u;
    return (seed >> 8) % n;
}

__attribute__((noinline)) static bool take(held *to, uint32_t n) { return gets(to, n); }
__attribute__((noinline)) static bool give(const held *it) { return gives(it); }

/* So many bytes of a block are written, and looked at where it goes back. What is of no heap has none. */
#ifdef NOTHING
static uint32_t looked(const struct block *it) { return (void)it, 0; }
#else
static uint32_t looked(const struct block *it) { return it->bytes < 16 ? it->bytes : 16; }
#endif

static uint32_t given_back(struct block *it, uint8_t fill) {
    uint32_t wrong = 0;
    for (uint32_t i = 0; i < looked(it); i++) wrong += payload(&it->it)[i] != fill;
    mark_give();
    const bool is_well = give(&it->it);
    mark_end();
    it->is_live = false;
    return wrong + !is_well;
}

static bool taken(struct block *it, uint8_t fill) {
    it->bytes = 1 + below(MOST);
    mark_take();
    it->is_live = take(&it->it, it->bytes);
    if (!it->is_live) return mark_refused(), false;
    mark_end();
    for (uint32_t i = 0; i < looked(it); i++) payload(&it->it)[i] = fill;
    return true;
}

int main(void) {
    uint32_t refused = 0, wrong = 0;
    if (!opens()) return 2;
    for (int turn = 0; turn < TURNS; turn++) {
        const uint32_t k = below(HELD);
        if (blocks[k].is_live) wrong += given_back(&blocks[k], (uint8_t)k);
        else refused += !taken(&blocks[k], (uint8_t)k);
    }
    tell_number("refused", refused);
    return wrong ? 1 : 0;
}
