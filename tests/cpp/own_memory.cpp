// What is opened in memory of the program's calls no operator new, and writes nowhere else: a heap, a lane, a queue with its posters'
// ends, and an arena of offsets, each in as many bytes as its `bytes` says, at four alignments. With exceptions each operator new is
// counted. Without them this is linked without the library of C++, so there is none.
#include "tlsf.hpp"

#include <cstddef>
#include <cstdint>
#include <cstdio>
#include <cstdlib>
#include <new>
#include <utility>

namespace {

int news = 0;

void wants(const char *what, bool so) {
    if (so && news == 0) return;
    std::printf("own_memory: %s, with %d calls of operator new\n", what, news);
    std::exit(1);
}

} // namespace

#ifdef __cpp_exceptions
static void *counted(std::size_t bytes, std::size_t align) {
    news++;
    void *const p = std::aligned_alloc(align, (bytes + align) / align * align);
    if (!p) std::abort();
    return p;
}
void *operator new(std::size_t bytes) { return counted(bytes, 16); }
void *operator new(std::size_t bytes, const std::nothrow_t &) noexcept { return counted(bytes, 16); }
void *operator new(std::size_t bytes, std::align_val_t align) { return counted(bytes, static_cast<std::size_t>(align)); }
void *operator new(std::size_t bytes, std::align_val_t align, const std::nothrow_t &) noexcept {
    return counted(bytes, static_cast<std::size_t>(align));
}
void operator delete(void *p) noexcept { std::free(p); }
void operator delete(void *p, std::size_t) noexcept { std::free(p); }
void operator delete(void *p, std::align_val_t) noexcept { std::free(p); }
void operator delete(void *p, std::size_t, std::align_val_t) noexcept { std::free(p); }
#endif

namespace {

// So many bytes between two walls, which stay as they are.
class walled {
    static constexpr std::size_t thickness = 256;
    static constexpr unsigned char brick = 0xa5;
    alignas(128) static unsigned char room[1 << 17];
    std::size_t skipped_, bytes_;

public:
    walled(std::size_t skipped, std::size_t bytes) : skipped_(thickness + skipped), bytes_(bytes) {
        if (skipped_ + bytes_ + thickness > sizeof room) std::abort();
        for (unsigned char &it : room) it = brick;
    }
    walled(const walled &) = delete;
    walled &operator=(const walled &) = delete;
    ~walled() {
        for (std::size_t i = 0; i < sizeof room; i++)
            if (i < skipped_ || i >= skipped_ + bytes_) wants("a wall", room[i] == brick);
    }
    void *begin() { return room + skipped_; }
    bool has(const void *p) const {
        const auto at = reinterpret_cast<std::uintptr_t>(p), from = reinterpret_cast<std::uintptr_t>(room) + skipped_;
        return at >= from && at < from + bytes_;
    }
};
alignas(128) unsigned char walled::room[1 << 17];

void heap_in(tlsf::level level, std::size_t skipped) {
    const std::size_t bytes = tlsf::heap::bytes(level, 200);
    walled memory(skipped, bytes);
    tlsf::block outlives;
    {
        tlsf::heap heap;
        wants("a heap", heap.open_in(level, 1, memory.begin(), bytes) == TLSF_OK && memory.has(heap.get()));
        wants("as many words as were asked for", heap.report().free_words >= 200);
        wants("an open heap", heap.open_in(level, 1, memory.begin(), bytes) == TLSF_IN_USE);
        tlsf::allocator<long> allocator(heap);
        long *const longs = allocator.allocate(10);
        longs[9] = 9;
        outlives = heap.make(100);
        tlsf::heap moved = std::move(heap);
        wants("its blocks", memory.has(longs) && memory.has(outlives.data()) && moved.report().live_blocks == 2);
        allocator.deallocate(longs, 10);
        tlsf_name name{};
        while (moved.allocate(8, name) == TLSF_OK) {}
    }
    wants("a block that outlived its heap", !outlives && outlives.size() == 0 && outlives.resize(8) == TLSF_IS_CLOSED);
    outlives = tlsf::block();
    tlsf::heap next;
    wants("the memory again", next.open_in(level, 2, memory.begin(), bytes) == TLSF_OK && next.make(8));
}

// A heap that is told how many words it has to have. Its handle lies in the memory too, so bytes in which C finds room are too few.
void sized_heap_in(tlsf::level level, std::size_t skipped) {
    constexpr std::size_t len = 4000;
    std::uint32_t words = 0;
    wants("its words", tlsf_words(static_cast<std::uint32_t>(level), 1, len, &words) == TLSF_OK);
    const std::size_t bytes = tlsf::heap::bytes(level, words), too_few = tlsf_near_bytes(static_cast<std::uint32_t>(level), words);
    walled memory(skipped, bytes);
    tlsf::heap heap;
    wants("a heap of fewer words", heap.open_in(level, 1, memory.begin(), too_few) == TLSF_OK && !heap.make(len));
    wants("in use", heap.open_in(level, 1, words, memory.begin(), too_few) == TLSF_IN_USE && heap.is_open());
    heap.close();
    wants("too little memory", heap.open_in(level, 1, words, memory.begin(), too_few) == TLSF_BAD_SIZE && !heap.is_open());
    wants("none", heap.open_in(level, 1, words, nullptr, bytes) == TLSF_BAD_MEMORY && !heap.is_open());
    wants("enough", heap.open_in(level, 1, words, memory.begin(), bytes) == TLSF_OK && heap.make(len));
    heap.close();
    tlsf::heap made(level, 2, words, memory.begin(), bytes);
    wants("what it was sized for", memory.has(made.get()) && made.make(len));
    made.close();
}

void lane_in(std::size_t skipped) {
    const std::size_t bytes = tlsf::lane::bytes(3);
    walled memory(skipped, bytes);
    tlsf::take_end outlives;
    {
        auto [post, take] = tlsf::lane(3, memory.begin(), bytes);
        wants("a lane's ends", memory.has(post.get()) && memory.has(take.get()));
        for (std::uint32_t i = 0; i < 3; i++) wants("put", post.put(tlsf_name{1, 0, i + 1}));
        wants("a full lane", !post.put(tlsf_name{1, 0, 9}));
        outlives = std::move(take);
    }
    for (std::uint32_t i = 0; i < 3; i++) wants("take", outlives.take()->serial == i + 1);
    wants("an empty lane", !outlives.take());
}

void queue_in(std::size_t skipped) {
    const std::size_t bytes = tlsf::queue::bytes(2, 3);
    walled memory(skipped, bytes);
    tlsf::poster outlives;
    {
        tlsf::queue first(2, 3, memory.begin(), bytes), queue = std::move(first);
        tlsf::poster poster = queue.open_poster();
        outlives = queue.open_poster();
        wants("ends of a queue", memory.has(queue.get()) && memory.has(poster.get()) && memory.has(outlives.get()));
        wants("no more posters", !queue.open_poster().get() && !first.open_poster().get());
        wants("post", poster.post(tlsf_name{1, 0, 1}) == TLSF_OK && outlives.post(tlsf_name{1, 0, 2}) == TLSF_OK);
        wants("take", queue.take()->serial == 1 && queue.take()->serial == 2 && !queue.take());
    }
    wants("a poster's end that outlived the queue", outlives.post(tlsf_name{1, 0, 3}) == TLSF_OK);
}

void offsets_in(tlsf::level level, std::size_t skipped) {
    const std::size_t bytes = tlsf::offsets::bytes(level, 64);
    walled memory(skipped, bytes);
    tlsf::offsets first(level, 1, 16, 64, memory.begin(), bytes), arena = std::move(first);
    wants("an arena", memory.has(arena.get()) && arena.allocate(1000) && arena.report().spans == 1 && !first.get());
}

// Refused, in the order of tlsf_open_in, and the heap stays closed.
void refused(tlsf::level level) {
    walled memory(0, 1 << 15);
    tlsf::heap heap;
    void *const past_the_end = reinterpret_cast<void *>(~std::uintptr_t(0));
    const auto none = static_cast<tlsf::level>(6);
    wants("a level first",
          heap.open_in(none, 1, nullptr, 9) == TLSF_BAD_LEVEL && heap.open_in(none, 1, memory.begin(), 9) == TLSF_BAD_LEVEL);
    wants("no memory", heap.open_in(level, 1, nullptr, 1 << 15) == TLSF_BAD_MEMORY);
    wants("MAP_FAILED", heap.open_in(level, 1, past_the_end, 1 << 15) == TLSF_BAD_MEMORY);
    for (std::size_t bytes = 0; bytes < tlsf::heap::bytes(level, 4) - 64; bytes += 7)
        wants("too little", heap.open_in(level, 1, memory.begin(), bytes) == TLSF_BAD_SIZE && !heap.is_open());
    wants("enough", heap.open_in(level, 1, memory.begin(), tlsf::heap::bytes(level, 4)) == TLSF_OK);
    wants("no such sizes", tlsf::heap::bytes(level, 3) == 0 && tlsf::lane::bytes(1025) == 0 && tlsf::queue::bytes(0, 1) == 0 &&
                               tlsf::offsets::bytes(level, 3) == 0);
}

#ifdef __cpp_exceptions
template <typename Make>
void throws(const char *what, Make make) {
    try {
        make();
    } catch (const std::exception &) {
        return news = 0, void(); // the exception's own memory may be counted
    }
    wants(what, false);
}

void thrown() {
    walled memory(1, 1 << 15);
    throws("a heap in too little", [&] { tlsf::heap(tlsf::level::four, 1, 200, memory.begin(), tlsf_near_bytes(4, 200)); });
    throws("a heap nowhere", [&] { tlsf::heap(tlsf::level::four, 1, 200, nullptr, 1 << 15); });
    throws("a lane in too little", [&] { tlsf::lane(3, memory.begin(), tlsf::lane::bytes(3) - 128); });
    throws("a lane of no names", [&] { tlsf::lane(0, memory.begin(), 1 << 15); });
    throws("a lane nowhere", [&] { tlsf::lane(3, nullptr, 1 << 15); });
    throws("a queue in too little", [&] { tlsf::queue(2, 3, memory.begin(), tlsf::queue::bytes(2, 3) - 128); });
    throws("a queue in next to nothing", [&] { tlsf::queue(2, 3, memory.begin(), 300); });
    throws("a queue of too many", [&] { tlsf::queue(~0u, 3, memory.begin(), 1 << 15); });
    throws("a queue nowhere", [&] { tlsf::queue(2, 3, nullptr, 1 << 15); });
    throws("offsets in too little", [&] { tlsf::offsets(tlsf::level::four, 1, 16, 64, memory.begin(), 2800); });
    throws("offsets nowhere", [&] { tlsf::offsets(tlsf::level::four, 1, 16, 64, nullptr, 1 << 15); });
}
#endif

} // namespace

int main() {
    for (std::size_t skipped : {std::size_t(0), std::size_t(1), std::size_t(8), std::size_t(64)}) {
        for (tlsf::level level : {tlsf::level::four, tlsf::level::five}) {
            heap_in(level, skipped);
            sized_heap_in(level, skipped);
            offsets_in(level, skipped);
            refused(level);
        }
        lane_in(skipped);
        queue_in(skipped);
    }
#ifdef __cpp_exceptions
    thrown();
#endif
    return 0;
}
