// The heap under containers of std, blocks that release themselves, and what is thrown.
#include "tlsf.hpp"
#include "tlsf_resource.hpp"

#include <cstdio>
#include <cstring>
#include <list>
#include <map>
#include <string>
#include <type_traits>
#include <unordered_map>
#include <vector>

static int wrong = 0;

static void holds(const char *what, bool is_so) {
    if (is_so) return;
    std::printf("wrong: %s\n", what);
    wrong++;
}

struct alignas(64) lanes64 {
    float lanes[16];
};

static bool is_aligned(const void *p, std::size_t align) { return reinterpret_cast<std::uintptr_t>(p) % align == 0; }

static void pmr_containers(tlsf::heap &heap) {
    tlsf::resource resource(heap), same(heap);
    holds("two resources over one heap are equal", resource == same);
    holds("another resource isn't", !resource.is_equal(*std::pmr::new_delete_resource()));
    std::pmr::vector<int> numbers(&resource);
    for (int i = 0; i < 2000; i++) numbers.push_back(i);
    long sum = 0;
    for (int x : numbers) sum += x;
    holds("a vector's sum", sum == 1999000);
    std::pmr::unordered_map<int, std::pmr::string> names(&resource);
    for (int i = 0; i < 500; i++) names.emplace(i, "longer than the small buffer of a string, number " + std::to_string(i));
    for (int i = 0; i < 500; i += 2) names.erase(i);
    for (int i = 1; i < 500; i += 2)
        holds("a string", names.at(i) == ("longer than the small buffer of a string, number " + std::to_string(i)).c_str());
    std::pmr::vector<lanes64> wide(&resource);
    for (int i = 0; i < 20; i++) {
        wide.push_back(lanes64{});
        wide.back().lanes[0] = static_cast<float>(i);
        holds("aligned to 64", is_aligned(wide.data(), 64));
    }
    for (int i = 0; i < 20; i++) holds("a wide element", wide[static_cast<std::size_t>(i)].lanes[0] == static_cast<float>(i));
    std::pmr::string passed("given to the one and taken back by the other, which is longer than the buffer", &resource);
    std::pmr::string moved(std::move(passed), &same);
    holds("moved between equal resources", moved.size() == 77);
}

static void alignments(tlsf::heap &heap) {
    tlsf::resource resource(heap);
    void *given[17][2];
    for (std::size_t k = 0; k <= 16; k++)
        for (std::size_t size : {std::size_t(0), std::size_t(24) + k}) {
            void *p = resource.allocate(size, std::size_t(1) << k);
            std::memset(p, 0xff, size);
            holds("each alignment", is_aligned(p, std::size_t(1) << k));
            given[k][size != 0] = p;
        }
    for (std::size_t k = 0; k <= 16; k++)
        for (std::size_t size : {std::size_t(0), std::size_t(24) + k}) resource.deallocate(given[k][size != 0], size, std::size_t(1) << k);
}

static void own_allocator(tlsf::heap &heap) {
    std::vector<float, tlsf::allocator<float>> samples(heap);
    samples.resize(1000, 0.5f);
    std::list<int, tlsf::allocator<int>> list(heap);
    for (int i = 0; i < 100; i++) list.push_front(i);
    std::map<int, int, std::less<int>, tlsf::allocator<std::pair<const int, int>>> map(heap);
    for (int i = 0; i < 100; i++) map[i % 10] += i;
    std::vector<lanes64, tlsf::allocator<lanes64>> wide(7, heap);
    holds("an allocator's alignment", is_aligned(wide.data(), 64));
    holds("containers over the allocator", samples[999] == 0.5f && list.front() == 99 && map[9] == 540);
    holds("allocators over one heap are equal", samples.get_allocator() == list.get_allocator());
    tlsf::heap other(tlsf::level::four, 99, 64);
    holds("over two they aren't", tlsf::allocator<int>(heap) != tlsf::allocator<int>(other));
    auto copy = samples;
    samples.clear();
    samples.shrink_to_fit();
    holds("a copy", copy.size() == 1000 && copy[0] == 0.5f);
}

static void blocks(tlsf::heap &heap) {
    tlsf::block block = heap.make(100);
    std::memset(block.data(), 'x', block.size());
    tlsf::block kept = std::move(block);
    holds("moved, it is empty", !block && block.data() == nullptr && block.size() == 0);
    holds("resized where it stands", kept.resize(200) == TLSF_OK && kept.size() == 200);
    tlsf::block behind = heap.make(8);
    holds("no room there", kept.resize(4000) == TLSF_NO_ROOM);
    holds("moved to where there is", kept.reallocate(4000) == TLSF_OK && static_cast<char *>(kept.data())[99] == 'x');
    holds("two live", heap.report().live_blocks == 2);
    kept = heap.make(8);
    holds("assigned over, still two", heap.report().live_blocks == 2);
    auto [post, take] = tlsf::lane(2);
    auto from = std::move(post);
    holds("put", from.put(std::move(behind)) && !behind && from.put(kept.detach()));
    tlsf::block third = heap.make(8);
    holds("a full lane leaves the block", !from.put(std::move(third)) && third.size() == 8);
    holds("drained", take.drain(heap, 1) == 1 && take.drain(heap, 9) == 1 && take.drain(heap, 9) == 0);
    holds("nothing to take", !take.take());
    const tlsf_name names[] = {heap.make(8).detach(), heap.make(8).detach(), heap.make(8).detach()};
    holds("as many as there are slots", from.put_all(names, 3) == 2 && from.put_all(names + 2, 1) == 0);
    holds("in their order",
          take.take()->serial == names[0].serial && from.put_all(names + 2, 1) == 1 && take.take()->serial == names[1].serial);
    holds("a closed end takes none", tlsf::post_end().put_all(names, 3) == 0);
    holds("drained again", take.drain(heap, 9) == 1 && heap.release(names[0]) == TLSF_OK && heap.release(names[1]) == TLSF_OK);
    holds("too large, it is empty", !heap.make(1u << 30));
    tlsf::block adopted(heap, third.detach());
    holds("taken over", adopted.size() == 8 && heap.report().live_blocks == 1);
}

static void moved_heaps() {
    tlsf::heap heap(tlsf::level::five, 3, 4096);
    tlsf::resource resource(heap);
    {
        std::pmr::vector<int> before(100, 1, &resource);
        tlsf::block block = heap.make(8);
        tlsf::heap moved = std::move(heap);
        before.resize(200, 2);
        holds("containers and blocks follow a heap that moves", before[199] == 2 && block.size() == 8 && moved.report().live_blocks == 2);
        tlsf_name name{};
        holds("what it was moved from is closed", !heap.is_open() && heap.allocate(8, name) == TLSF_IS_CLOSED &&
                                                      heap.release(name) == TLSF_IS_CLOSED && !heap.get() && !heap.make(8));
        heap = std::move(moved);
    }
    holds("back, and empty", heap.report().live_blocks == 0 && heap.open(tlsf::level::four, 1, 64) == TLSF_IN_USE);
    heap.close();
    holds("opened anew", heap.open(tlsf::level::four, 1, 3) == TLSF_BAD_SIZE && heap.open(tlsf::level::four, 1, 64) == TLSF_OK);
}

template <typename Fault, typename Call>
static bool throws(Call call) {
    try {
        call();
    } catch (const Fault &) {
        return true;
    }
    return false;
}

// What refers to a heap that was closed, or assigned over, refuses, and reads nothing of it: seen with ASan or valgrind.
static void closed_heaps(bool is_assigned) {
    tlsf::heap heap(tlsf::level::four, 5, 1024), next(tlsf::level::four, 6, 1024);
    tlsf::resource resource(heap);
    tlsf::allocator<long> allocator(heap);
    tlsf::block block = heap.make(100), other = next.make(8);
    void *small = resource.allocate(8, 8), *wide = resource.allocate(64, 64);
    long *longs = allocator.allocate(3);
    auto [post, take] = tlsf::lane(2);
    if (is_assigned) heap = std::move(next);
    else heap.close();
    holds("no block of a closed heap", !block && block.data() == nullptr && block.size() == 0);
    holds("nor can it be had", block.resize(8) == TLSF_IS_CLOSED && block.reallocate(200) == TLSF_IS_CLOSED && !post.put(std::move(block)));
    holds("its resource", throws<std::bad_alloc>([&] { (void)resource.allocate(8, 8); }));
    holds("its allocator", throws<std::bad_alloc>([&] { (void)allocator.allocate(1); }));
    resource.deallocate(small, 8, 8);
    resource.deallocate(wide, 64, 64);
    allocator.deallocate(longs, 3);
    tlsf::block kept = std::move(block);
    kept.reset();
    if (!is_assigned) holds("opened anew", heap.open(tlsf::level::four, 6, 1024) == TLSF_OK);
    holds("not of the heap that is open now", tlsf::resource(heap) != resource && tlsf::allocator<long>(heap) != allocator);
    const auto live = heap.report().live_blocks;
    holds("the other heap's block", is_assigned ? other.size() == 8 && live == 1 : other.size() == 8 && live == 0);
}

static void outlived_heaps() {
    tlsf::block block;
    {
        tlsf::heap heap(tlsf::level::five, 7, 1024);
        block = heap.make(8);
        std::list<int, tlsf::allocator<int>> list(heap);
        list.push_back(1);
        holds("live", block && list.front() == 1);
    }
    holds("a block that outlived its heap", !block && block.size() == 0);
}

// A heap that was sized for so many blocks of so many bytes serves so many, whoever asks.
static void fills(tlsf::level level, std::uint32_t count, std::uint32_t len, std::size_t align) {
    auto heap = align > alignof(std::max_align_t) ? tlsf::heap::for_blocks(level, 2, count, len, align)
                                                  : tlsf::heap::for_blocks(level, 2, count, len);
    tlsf::resource resource(heap);
    std::vector<void *> given(count);
    for (std::uint32_t turn = 0; turn < 3; turn++) {
        try {
            for (void *&p : given) p = p ? p : resource.allocate(len, align);
        } catch (const std::bad_alloc &) {
            std::printf("level %u, %u of %u bytes aligned to %zu: refused\n", static_cast<unsigned>(level), count, len, align);
            wrong++;
            return;
        }
        for (std::uint32_t k = turn; k < count; k += 2) resource.deallocate(given[k], len, align), given[k] = nullptr;
    }
    for (void *p : given)
        if (p) resource.deallocate(p, len, align);
    holds("none is live", heap.report().live_blocks == 0);
}

// The same where every second block is one by name, which may have an odd number of words.
static void fills_by_both(tlsf::level level, std::uint32_t count, std::uint32_t len) {
    auto heap = tlsf::heap::for_blocks(level, 2, count, len);
    tlsf::resource resource(heap);
    std::vector<void *> given(count);
    std::vector<tlsf::block> named(count);
    for (std::uint32_t turn = 0; turn < 4; turn++) {
        for (std::uint32_t k = 0; k < count; k++) {
            if (given[k] || named[k]) continue;
            if ((k + turn) % 2 == 0) named[k] = heap.make(len);
            else holds("room by both", !throws<std::bad_alloc>([&] { given[k] = resource.allocate(len, 16); }));
            holds("one of both", named[k] || (given[k] && is_aligned(given[k], 16)));
        }
        for (std::uint32_t k = turn % 3; k < count; k += 3) {
            if (given[k]) resource.deallocate(given[k], len, 16), given[k] = nullptr;
            named[k].reset();
        }
    }
    for (void *p : given)
        if (p) resource.deallocate(p, len, 16);
}

static void own_memory(tlsf::level level) {
    static unsigned char memory[1 << 16];
    tlsf::heap heap;
    holds("opened in memory of the program's", heap.open_in(level, 3, memory + 3, sizeof memory - 3) == TLSF_OK);
    holds("opened again", heap.open_in(level, 3, memory, 8) == TLSF_IN_USE);
    std::vector<int, tlsf::allocator<int>> numbers(100, 7, heap);
    const auto at = reinterpret_cast<std::uintptr_t>(numbers.data()), from = reinterpret_cast<std::uintptr_t>(memory);
    holds("a container there", numbers[99] == 7 && at > from && at < from + sizeof memory);
    tlsf::heap other;
    holds("too little memory", other.open_in(level, 4, memory, 8) == TLSF_BAD_SIZE && !other.is_open());
    holds("no memory at all", other.open_in(level, 4, nullptr, sizeof memory) == TLSF_BAD_MEMORY && !other.is_open());
}

template <std::size_t Align, std::size_t Len>
static void fills_by_allocator(tlsf::level level, std::uint32_t count) {
    struct alignas(Align) object {
        unsigned char bytes[Len];
    };
    auto heap = tlsf::heap::for_blocks(level, 2, count, sizeof(object), alignof(object));
    tlsf::allocator<object> allocator(heap);
    std::vector<object *> given(count);
    holds("an allocator's objects", !throws<std::bad_alloc>([&] {
              for (object *&p : given) p = allocator.allocate(1);
          }));
    for (object *p : given)
        if (p) allocator.deallocate(p, 1);
}

static void sized_heaps(tlsf::level level) {
    for (std::uint32_t count : {1u, 2u, 17u})
        for (std::uint32_t len : {0u, 1u, 8u, 9u, 24u, 100u, 512u, 1000u, 4096u})
            for (std::size_t align = 1; align <= 8192; align *= 2) fills(level, count, len, align);
    for (std::uint32_t count : {1u, 2u, 17u})
        for (std::uint32_t len : {0u, 1u, 8u, 9u, 24u, 100u, 512u, 1000u}) fills_by_both(level, count, len);
    for (std::uint32_t count : {1u, 17u}) {
        fills_by_allocator<1, 1>(level, count);
        fills_by_allocator<8, 8>(level, count);
        fills_by_allocator<16, 100>(level, count);
        fills_by_allocator<64, 512>(level, count);
    }
    auto exact = tlsf::heap::for_blocks(level, 2, 100, 512, 0);
    std::uint32_t words = 0;
    holds("the fewest words",
          tlsf_words(static_cast<std::uint32_t>(level), 100, 512, &words) == TLSF_OK && exact.report().free_words == words);
    holds("past 32 bits", throws<tlsf::bad_size>([&] { (void)tlsf::heap::for_blocks(level, 2, 1, ~0u, 64); }));
    holds("no such alignment", throws<tlsf::bad_size>([&] { (void)tlsf::heap::for_blocks(level, 2, 1, 8, ~std::size_t(0)); }));
    holds("no blocks", tlsf::heap::for_blocks(level, 2, 0, 1u << 30).report().free_words == 4);
}

static void refusals(tlsf::heap &heap) {
    tlsf::resource resource(heap);
    holds("no room", throws<std::bad_alloc>([&] { (void)resource.allocate(std::size_t(1) << 30, 8); }));
#if SIZE_MAX > UINT32_MAX
    holds("past 32 bits", throws<std::bad_alloc>([&] { (void)resource.allocate(std::size_t(1) << 40, 8); }));
    holds("no such alignment", throws<std::bad_alloc>([&] { (void)resource.allocate(8, std::size_t(1) << 32); }));
#endif
    holds("an allocator's", throws<std::bad_alloc>([&] { (void)tlsf::allocator<long>(heap).allocate(~std::size_t(0) / 2); }));
    holds("no region", throws<tlsf::bad_size>([] { tlsf::heap none(tlsf::level::four, 0, 3); }));
    holds("no region for so many", throws<tlsf::bad_size>([] { (void)tlsf::heap::for_blocks(tlsf::level::four, 0, 1000000, 512); }));
    holds("no lane", throws<tlsf::bad_size>([] { tlsf::lane none(0); }));
    tlsf::heap closed;
    tlsf::resource over_none(closed);
    holds("a closed heap", throws<std::bad_alloc>([&] { (void)over_none.allocate(8, 8); }));
    auto full = tlsf::heap::for_blocks(tlsf::level::four, 2, 100, 512);
    std::vector<tlsf::block> held;
    for (int i = 0; i < 100; i++) held.push_back(full.make(512));
    for (auto &it : held) holds("each of the blocks that it was sized for", static_cast<bool>(it));
}

static_assert(std::is_nothrow_move_constructible_v<tlsf::heap> && std::is_nothrow_move_assignable_v<tlsf::heap>);
static_assert(std::is_nothrow_move_constructible_v<tlsf::block> && !std::is_copy_constructible_v<tlsf::block>);
static_assert(std::is_nothrow_move_constructible_v<tlsf::post_end> && !std::is_copy_constructible_v<tlsf::take_end>);
static_assert(!std::is_copy_constructible_v<tlsf::heap> &&noexcept(tlsf_release(nullptr, tlsf_name{})));

// Heaps that take numbers by themselves: no two have one.
void numbered() {
    alignas(8) static unsigned char memory[8192];
    tlsf::heap given(tlsf::level::four, 64), opened, lent;
    holds("open", opened.open(tlsf::level::five, 64) == TLSF_OK && lent.open_in(tlsf::level::four, memory, sizeof memory) == TLSF_OK);
    holds("in use", opened.open(tlsf::level::five, 64) == TLSF_IN_USE && lent.open_in(tlsf::level::four, memory, 8) == TLSF_IN_USE);
    const std::uint32_t least = 1u << 31;
    holds("from 2^31 on", given.number() >= least && opened.number() >= least && lent.number() >= least && tlsf::next_number() >= least);
    holds("three numbers", given.number() != opened.number() && opened.number() != lent.number() && lent.number() != given.number());
    holds("no such size", throws<tlsf::bad_size>([] { tlsf::heap none(tlsf::level::four, 3); }));
}

int main() {
    for (tlsf::level level : {tlsf::level::four, tlsf::level::five}) {
        tlsf::heap heap(level, 1, 1 << 16);
        pmr_containers(heap);
        alignments(heap);
        own_allocator(heap);
        blocks(heap);
        refusals(heap);
        sized_heaps(level);
        own_memory(level);
        const tlsf_heap_report after = heap.report();
        holds("nothing is live afterwards", after.live_blocks == 0 && after.free_blocks == 1 && after.largest == 1 << 16);
    }
    numbered();
    moved_heaps();
    closed_heaps(false);
    closed_heaps(true);
    outlived_heaps();
    std::printf("containers, alignments, allocators, blocks, lanes, moves and refusals: %d wrong\n", wrong);
    return wrong != 0;
}
