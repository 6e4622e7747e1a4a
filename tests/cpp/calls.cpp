// The calls of peachanchor.h as members of tlsf::heap, and counts and check of tlsf::pools. What looks takes a heap, a block, an arena or
// pools that may not be changed.
#include "tlsf.hpp"

#include <cstdint>
#include <cstdio>
#include <cstdlib>
#include <cstring>

namespace {

void wants(const char *what, std::uint64_t got, std::uint64_t wanted) {
    if (got == wanted) return;
    std::printf("calls: %s: %llu, and not %llu\n", what, static_cast<unsigned long long>(got), static_cast<unsigned long long>(wanted));
    std::exit(1);
}

// Further than 32 bits lead: cut to them it would be 4. Where there are no more, further than any region.
#if SIZE_MAX > UINT32_MAX
constexpr std::size_t far = (std::size_t(1) << 32) + 4;
#else
constexpr std::size_t far = (std::size_t(1) << 29) + 4;
#endif

void by_name(tlsf::heap &heap) {
    const tlsf::heap &looked_at = heap;
    const std::uint8_t in[] = {1, 2, 3, 4, 5};
    std::uint8_t out[] = {9, 9, 9, 9, 9, 9};
    std::uint32_t len = 0;
    tlsf_name name{};
    wants("allocate", heap.allocate(10, name), TLSF_OK);
    wants("write", heap.write(name, 3, in, 5), TLSF_OK);
    wants("read", looked_at.read(name, 2, out, 6), TLSF_OK);
    wants("what was written", std::uint64_t(std::memcmp(out, "\0\1\2\3\4\5", 6)), 0);
    wants("in place", looked_at.payload(name, &len) && static_cast<const std::uint8_t *>(looked_at.payload(name))[7] == 5, 1);
    wants("its bytes", len, 10);
    wants("write past the end", heap.write(name, 6, in, 5), TLSF_RANGE);
    wants("read past the end", looked_at.read(name, 5, out, 6), TLSF_RANGE);
    wants("write far past the end", heap.write(name, far, in, 5), TLSF_RANGE);
    wants("read far past the end", looked_at.read(name, far, out, 6), TLSF_RANGE);
    wants("release", heap.release(name), TLSF_OK);
    wants("write where no block is", heap.write(name, 0, in, 1), TLSF_STALE);
    wants("read where no block is", looked_at.read(name, 0, out, 1), TLSF_STALE);
}

void by_pointer(tlsf::heap &heap) {
    const tlsf::heap &looked_at = heap;
    void *const p = heap.malloc(100);
    wants("malloc", p != nullptr && reinterpret_cast<std::uintptr_t>(p) % TLSF_ALIGN == 0, 1);
    wants("usable_size", looked_at.usable_size(p), 104);
    wants("words in use", looked_at.counts().words, 16);
    wants("refused", looked_at.counts().refused, 0);
    wants("too much", heap.malloc(1 << 20) == nullptr && heap.malloc(far) == nullptr, 1);
    wants("one that counts", looked_at.counts().refused, 1);
    wants("free", heap.free(p), TLSF_OK);
    wants("twice", heap.free(p), TLSF_STALE);
    wants("null", heap.free(nullptr), TLSF_OK);
    wants("usable_size of none", looked_at.usable_size(p), 0);
    wants("most words", looked_at.counts().most_words, 16);
}

// Each of the calls by pointer that C has, with what it gives.
void all_by_pointer(tlsf::heap &heap) {
    const tlsf::heap &looked_at = heap;
    tlsf_name name{}, found{};
    void *at = nullptr;
    auto *p = static_cast<unsigned char *>(heap.calloc(10, 4));
    wants("calloc", p && p[0] == 0 && p[39] == 0, 1);
    p[39] = 7;
    p = static_cast<unsigned char *>(heap.realloc(p, 400));
    wants("realloc", p && p[39] == 7, 1);
    wants("too far", heap.calloc(far, 2) == nullptr && heap.realloc(p, far) == nullptr && heap.aligned_alloc(64, far) == nullptr, 1);
    void *volatile wide = heap.aligned_alloc(2048, 100);
    wants("aligned_alloc", wide && reinterpret_cast<std::uintptr_t>(wide) % 2048 == 0, 1);
    wants("of no alignment", heap.aligned_alloc(48, 8) == nullptr && heap.aligned_realloc(wide, 48, 8) == nullptr, 1);
    wide = heap.aligned_realloc(wide, 4096, 200);
    wants("aligned_realloc", wide && reinterpret_cast<std::uintptr_t>(wide) % 4096 == 0 && tlsf_block_size(wide) >= 200, 1);
    wants("name_at", looked_at.name_at(wide, name), TLSF_OK);
    wants("its payload", looked_at.payload(name) == wide && tlsf_at(looked_at.base(), name) == wide, 1);
    wants("free", heap.free(p), TLSF_OK);
    wants("free the other", heap.free(wide), TLSF_OK);
    wants("name_at of none", looked_at.name_at(wide, found), TLSF_STALE);
    wants("allocate_at", heap.allocate_at(100, 512, 0, name, at), TLSF_OK);
    wants("aligned, and all zero", reinterpret_cast<std::uintptr_t>(at) % 512 == 0 && static_cast<unsigned char *>(at)[99] == 0, 1);
    wants("allocate_at of no alignment", heap.allocate_at(100, 24, TLSF_UNFILLED, found, at), TLSF_BAD_SIZE);
    wants("no name came", found.serial, 0);
    wants("realloc to nothing", heap.realloc(at, 0) == nullptr && heap.release(name) == TLSF_STALE, 1);
}

// The header behind a block is overrun, told, and made whole again.
void checked(tlsf::heap &heap) {
    const tlsf::heap &looked_at = heap;
    std::uint32_t next = 9, damaged = 9;
    tlsf::block first = heap.make(8), second = heap.make(8);
    wants("check of two", looked_at.check(0, 2, next, damaged), TLSF_OK);
    wants("on to the free one", next, second.name().at + 4);
    wants("check of all", looked_at.check(next, 9, next, damaged), TLSF_OK);
    wants("the last", next, 0);
    std::uint8_t *const past = static_cast<std::uint8_t *>(first.data()) + 8;
    const std::uint8_t had = *past;
    *past = static_cast<std::uint8_t>(~had);
    wants("check after an overrun", looked_at.check(0, 9, next, damaged), TLSF_DAMAGED);
    wants("where", damaged, second.name().at);
    *past = had;
    wants("check where no block begins", looked_at.check(1, 1, next, damaged), TLSF_STALE);
}

void looks(const tlsf::heap &heap, const tlsf::block &block, const tlsf::offsets &arena, const tlsf::pools &pools, const tlsf_name &name) {
    std::uint8_t out = 9;
    wants("report", heap.report().live_blocks, 1);
    wants("a block's bytes", block.size(), 5);
    wants("its payload", *static_cast<const std::uint8_t *>(block.data()), 0);
    wants("spans", arena.report().spans, 1);
    wants("a part of pools", pools.report(0)->live_blocks, 1);
    wants("a row of pools", pools.counts(0)->held, 1);
    wants("as many as may be", pools.counts(0)->most, 2);
    wants("no second row", pools.counts(1).has_value(), 0);
    wants("a byte there", pools.read(name, 3, &out, 1), TLSF_OK);
    wants("it", out, 7);
    wants("far past the end", pools.read(name, far, &out, 1), TLSF_RANGE);
}

// An overrun in pools is told of its own part; the second part is sound all the while.
void checked_pools(tlsf::level level) {
    const tlsf_kind rows[] = {{2, 16}, {1, 4000}};
    tlsf::pools pools(level, 7, rows, 2);
    const tlsf::pools &looked_at = pools;
    std::uint32_t next = 9, damaged = 9, number = 0;
    std::uint64_t *base = nullptr;
    tlsf_name first{}, second{};
    wants("a block of pools", pools.allocate(16, first), TLSF_OK);
    wants("one after it", pools.allocate(16, second), TLSF_OK);
    wants("where they lie", tlsf_pools_part(pools.get(), 0, &base, &number), TLSF_OK);
    wants("check of one of pools", looked_at.check(0, first.at, 1, next, damaged), TLSF_OK);
    wants("on to the other", next, second.at);
    wants("check of all of a part", looked_at.check(0, 0, 9, next, damaged), TLSF_OK);
    wants("the last of them", next, 0);
    base[second.at + 2] = UINT64_MAX;
    wants("check of a damaged part", looked_at.check(0, 0, 9, next, damaged), TLSF_DAMAGED);
    wants("where it is", damaged, second.at);
    wants("check of the other part", looked_at.check(1, 0, 9, next, damaged), TLSF_OK);
    wants("check where none begins", looked_at.check(1, 1, 9, next, damaged), TLSF_STALE);
    wants("check of no part", looked_at.check(2, 0, 9, next, damaged), TLSF_STALE);
    wants("counts beside it", looked_at.counts(0)->held, 2);
    wants("of the row of the other part", looked_at.counts(1)->held, 0);
}

void looked_at(tlsf::heap &heap) {
    const tlsf_kind row{2, 16};
    const std::uint8_t in = 7;
    tlsf_name name{};
    tlsf::pools pools(tlsf::level::four, 7, &row, 1);
    tlsf::offsets arena(tlsf::level::four, 8, 16, 64);
    const tlsf::block block = heap.make(5);
    wants("a block of pools", pools.allocate(16, name), TLSF_OK);
    wants("a byte of it", pools.write(name, 3, &in, 1), TLSF_OK);
    wants("far past its end", pools.write(name, far, &in, 1), TLSF_RANGE);
    wants("a span", arena.allocate(100).has_value(), 1);
    looks(heap, block, arena, pools, name);
}

void closed() {
    tlsf::heap heap;
    const tlsf::heap &looked_at = heap;
    const tlsf::pools pools;
    std::uint8_t byte = 9;
    std::uint32_t next = 9, damaged = 9;
    const tlsf_name name{};
    tlsf_name taken{};
    void *at = nullptr;
    wants("write", heap.write(name, 0, &byte, 1), TLSF_IS_CLOSED);
    wants("read", looked_at.read(name, 0, &byte, 1), TLSF_IS_CLOSED);
    wants("malloc", heap.malloc(8) == nullptr, 1);
    wants("free", heap.free(&byte), TLSF_IS_CLOSED);
    wants("usable_size", looked_at.usable_size(&byte), 0);
    wants("calloc", heap.calloc(1, 8) == nullptr, 1);
    wants("realloc", heap.realloc(nullptr, 8) == nullptr && heap.realloc(&byte, 8) == nullptr, 1);
    wants("aligned_alloc", heap.aligned_alloc(16, 8) == nullptr && heap.aligned_realloc(nullptr, 16, 8) == nullptr, 1);
    wants("name_at", looked_at.name_at(&byte, taken), TLSF_IS_CLOSED);
    wants("allocate_at", heap.allocate_at(8, 16, 0, taken, at), TLSF_IS_CLOSED);
    wants("base", looked_at.base() == nullptr && at == nullptr && taken.serial == 0, 1);
    wants("counts", looked_at.counts().most_words, 0);
    wants("report", looked_at.report().free_words, 0);
    wants("check", looked_at.check(0, 1, next, damaged), TLSF_IS_CLOSED);
    wants("payload", looked_at.payload(name) == nullptr, 1);
    wants("counts of pools", pools.counts(0).has_value(), 0);
    wants("check of pools", pools.check(0, 0, 1, next, damaged), TLSF_IS_CLOSED);
    wants("nothing is written", byte == 9 && next == 9 && damaged == 9, 1);
}

} // namespace

// A heap of each alignment, in malloc's memory and in the program's.
void own_alignments(tlsf::level level) {
    alignas(64) static unsigned char room[8192];
    for (unsigned align = 0; align <= 64; align++) {
        const bool is_one = align == 0 || align == 8 || align == 16 || align == 32 || align == 64;
        const std::size_t least = align == 0 ? TLSF_ALIGN : align;
        const auto own = static_cast<std::uint8_t>(align);
        tlsf::heap heap, inside;
        wants("open", heap.open(level, 1, 600, own), is_one ? TLSF_OK : TLSF_BAD_SIZE);
        wants("open_in", inside.open_in(level, 2, room + 1, 8000, own), is_one ? TLSF_OK : TLSF_BAD_SIZE);
        for (std::size_t len = 0; is_one && len < 60; len += 9) {
            wants("malloc", reinterpret_cast<std::uintptr_t>(heap.malloc(len)) % least, 0);
            wants("calloc", reinterpret_cast<std::uintptr_t>(inside.calloc(len, 1)) % least, 0);
        }
    }
}

int main() {
    for (const tlsf::level level : {tlsf::level::four, tlsf::level::five}) {
        tlsf::heap heap(level, 1, 1 << 10);
        by_pointer(heap);
        all_by_pointer(heap);
        by_name(heap);
        checked(heap);
        looked_at(heap);
        checked_pools(level);
        own_alignments(level);
        wants("all is back", heap.report().live_blocks, 0);
    }
    closed();
    return 0;
}
