// Objects whose std::unique_ptr dies in any thread come home; classes of queues, of arenas of offsets and of pools; and a heap that
// threads share behind a std::pmr::synchronized_pool_resource, or behind a mutex.
#include "tlsf.hpp"
#include "tlsf_home.hpp"
#include "tlsf_resource.hpp"

#include <algorithm>
#include <atomic>
#include <cstdio>
#include <cstdlib>
#include <memory>
#include <memory_resource>
#include <mutex>
#include <string>
#include <thread>
#include <utility>
#include <vector>

namespace {

void wants(const char *what, std::size_t got, std::size_t wanted) {
    if (got == wanted) return;
    std::printf("%s: %zu, and not %zu\n", what, got, wanted);
    std::exit(1);
}

// An object that knows which thread destroyed it.
struct voice {
    static std::thread::id owner;
    static std::size_t made, destroyed;
    std::size_t number;
    std::string text;

    explicit voice(std::size_t n) : number(n), text(std::to_string(n) + " is longer than a short string") { made++; }
    voice(const voice &) = delete;
    voice &operator=(const voice &) = delete;
    ~voice() {
        if (std::this_thread::get_id() != owner) std::abort();
        destroyed++;
    }
};
std::thread::id voice::owner;
std::size_t voice::made = 0, voice::destroyed = 0;

struct thrower {
    thrower() { throw 7; }
};

void pointers_die_in_any_thread() {
    constexpr std::uint32_t threads = 4, objects = 64;
    constexpr std::size_t turns = 200;
    voice::owner = std::this_thread::get_id();
    auto heap = tlsf::heap::for_blocks(tlsf::level::four, 1, objects, sizeof(voice));
    {
        tlsf::home<voice> home(heap, objects, threads);
        std::size_t sent = 0;
        for (std::size_t turn = 0; turn < turns; turn++) {
            std::vector<std::thread> others;
            for (std::uint32_t i = 0; i < threads - 1; i++) {
                std::vector<tlsf::home<voice>::pointer> some;
                while (some.size() < 8)
                    if (auto one = home.make(sent)) some.push_back(std::move(one)), sent++;
                // Each thread drops what it was given, while this one makes and collects more.
                others.emplace_back([given = std::move(some)]() mutable { given.clear(); });
            }
            if (auto own = home.make(sent)) sent++; // dies here
            home.collect();
            for (auto &it : others) it.join();
        }
        home.collect();
        wants("all are home", home.out(), 0);
        wants("made", voice::made, sent);
        wants("destroyed at home", voice::destroyed, sent);
    }
    wants("none is live", heap.report().live_blocks, 0);
}

void no_more_than_may_be() {
    auto heap = tlsf::heap::for_blocks(tlsf::level::four, 1, 3, sizeof(voice));
    tlsf::home<voice> home(heap, 2, 1);
    auto one = home.make(1u), two = home.make(2u), three = home.make(3u);
    wants("two at once", one && two && !three, 1);
    one.reset();
    three = home.make(3u);
    wants("one that came home makes room", static_cast<bool>(three), 1);
    tlsf::home<thrower> throwers(heap, 2, 1);
    std::size_t caught = 0;
    try {
        (void)throwers.make();
    } catch (int) {
        caught++;
    }
    wants("its constructor throws", caught, 1);
    wants("and no block stays", heap.report().live_blocks, 2);
    const tlsf::home<voice>::pointer none;
    wants("an empty pointer dies", !none, 1);
}

void ends_of_a_queue() {
    auto heap = tlsf::heap::for_blocks(tlsf::level::four, 2, 4, 40);
    tlsf::queue queue(1, 2);
    auto poster = queue.open_poster();
    wants("one poster's end", poster.get() != nullptr, 1);
    wants("and no more", queue.open_poster().get() == nullptr, 1);
    auto first = heap.make(40), second = heap.make(40), third = heap.make(40);
    const auto name = first.name();
    wants("post", poster.post(std::move(first)), TLSF_OK);
    wants("it is gone", !first, 1);
    wants("post", poster.post(std::move(second)), TLSF_OK);
    wants("full", poster.post(std::move(third)), TLSF_FULL);
    wants("it stays", static_cast<bool>(third), 1);
    const auto came = queue.take();
    wants("the first comes", came && came->serial == name.serial, 1);
    wants("release", heap.release(*came), TLSF_OK);
    wants("drain", queue.drain(heap, 9), 1);
    wants("empty", !queue.take(), 1);
    auto moved = std::move(poster);
    wants("an end that was moved from", poster.post(name), TLSF_IS_CLOSED);
    wants("goes on", moved.post(name), TLSF_OK);
    std::size_t caught = 0;
    try {
        const tlsf::queue too_large(1, 1025);
    } catch (const tlsf::bad_size &) {
        caught++;
    }
    wants("no such queue", caught, 1);
}

void spans() {
    tlsf::offsets memory(tlsf::level::four, 3, 256, 1024);
    auto one = memory.allocate(10000), two = memory.allocate(5000);
    wants("two spans", one && two && one->offset + one->size <= two->offset, 1);
    wants("no room", memory.resize(*one, 20000), TLSF_NO_ROOM);
    wants("release", memory.release(*two), TLSF_OK);
    wants("grow", memory.resize(*one, 20000), TLSF_OK);
    wants("enough", one->size >= 20000, 1);
    wants("spans", memory.report().spans, 1);
    wants("too much", !memory.allocate(1u << 20), 1);
    tlsf::offsets closed;
    wants("closed", closed.release(*one), TLSF_IS_CLOSED);
}

// Those that lie in memory of the program's: where it is too little they throw.
void in_memory_of_the_programs() {
    std::vector<unsigned char> memory(std::max(tlsf::queue::bytes(2, 4), tlsf::offsets::bytes(tlsf::level::four, 100)));
    std::size_t caught = 0;
    {
        tlsf::queue queue(2, 4, memory.data(), memory.size());
        auto poster = queue.open_poster();
        wants("post", poster.post(tlsf_name{1, 2, 3}), TLSF_OK);
        const auto came = queue.take();
        wants("the name comes", came && came->serial == 3, 1);
    }
    {
        tlsf::offsets arena(tlsf::level::four, 9, 16, 100, memory.data(), memory.size());
        wants("a span", static_cast<bool>(arena.allocate(1000)), 1);
    }
    try {
        const tlsf::queue queue(2, 4, memory.data(), 100);
    } catch (const tlsf::bad_size &) {
        caught++;
    }
    try {
        const tlsf::offsets arena(tlsf::level::four, 9, 16, 100, memory.data(), 100);
    } catch (const tlsf::bad_size &) {
        caught++;
    }
    wants("too little memory", caught, 2);
    try {
        const tlsf::queue queue(2, 4, nullptr, memory.size());
    } catch (const tlsf::bad_size &) {
        caught++;
    }
    try {
        const tlsf::offsets arena(tlsf::level::four, 9, 16, 100, nullptr, memory.size());
    } catch (const tlsf::bad_size &) {
        caught++;
    }
    wants("no memory at all", caught, 4);
}

void pools_for_a_table() {
    const tlsf_kind rows[] = {{1, 16}, {2, 4000}};
    tlsf::pools pools(tlsf::level::five, 12, rows, 2);
    tlsf_name one{}, two{};
    std::uint8_t bytes[] = {1, 2, 3}, out[] = {9, 9, 9};
    wants("short", pools.allocate(16, one), TLSF_OK);
    wants("no more of them", pools.allocate(8, two), TLSF_ROW_FULL);
    wants("long", pools.allocate(17, two), TLSF_OK);
    wants("in another heap", two.heap - one.heap, 1);
    wants("write", pools.write(two, 1, bytes, 3), TLSF_OK);
    wants("read", pools.read(two, 0, out, 3), TLSF_OK);
    wants("its bytes", out[0] == 0 && out[1] == 1 && out[2] == 2, 1);
    wants("blocks", pools.report(1)->live_blocks, 1);
    wants("no third heap", !pools.report(2), 1);
    wants("release", pools.release(one), TLSF_OK);
    auto moved = std::move(pools);
    wants("pools that were moved from", pools.release(two), TLSF_IS_CLOSED);
    wants("they go on", moved.release(two), TLSF_OK);
    std::size_t caught = 0;
    try {
        const tlsf_kind many{1u << 31, 8};
        const tlsf::pools too_large(tlsf::level::four, 12, &many, 1);
    } catch (const tlsf::bad_size &) {
        caught++;
    }
    try {
        const tlsf_kind falling[] = {{10, 100}, {10, 50}};
        const tlsf::pools unreached(tlsf::level::four, 12, falling, 2);
    } catch (const tlsf::bad_size &) {
        caught++;
    }
    wants("no such pools", caught, 2);
}

// A heap has one thread at a time; behind a lock any may call it. std has one: a synchronized_pool_resource calls what lies under
// it under its own lock.
void heap_behind_a_lock() {
    tlsf::heap heap(tlsf::level::four, 4, 1 << 18);
    tlsf::resource under(heap);
    {
        std::pmr::synchronized_pool_resource shared(&under);
        std::vector<std::thread> threads;
        for (std::size_t i = 0; i < 3; i++)
            threads.emplace_back([&shared, i] {
                std::pmr::vector<std::pmr::string> lines(&shared);
                for (std::size_t k = 0; k < 500; k++)
                    lines.emplace_back("a line that is too long to lie in its string").append(std::to_string(k + i));
                wants("lines", lines.size(), 500);
            });
        for (auto &it : threads) it.join();
    }
    wants("all is back", heap.report().live_blocks, 0);
    std::mutex lock;
    std::vector<std::thread> threads;
    for (std::size_t i = 0; i < 3; i++)
        threads.emplace_back([&heap, &lock] {
            for (std::uint32_t k = 0; k < 500; k++) {
                const std::lock_guard<std::mutex> mine(lock); // for the payload too, by rule 4
                auto *p = static_cast<unsigned char *>(tlsf_malloc(heap.get(), 8 + k));
                if (!p) std::abort();
                p[0] = p[k] = 1;
                tlsf_free(heap.get(), p);
            }
        });
    for (auto &it : threads) it.join();
    wants("and by a mutex", heap.report().live_blocks, 0);
}

// A home dies as soon as nothing is out, while the thread that let go last may still be on its way out of the deleter.
void ends_while_a_deleter_returns() {
    using numbers = tlsf::home<int>;
    auto heap = tlsf::heap::for_blocks(tlsf::level::four, tlsf::next_number(), 1, 64);
    std::atomic<numbers::pointer *> handed{nullptr};
    std::atomic<bool> ends{false};
    std::thread other([&handed, &ends] {
        while (!ends.load()) delete handed.exchange(nullptr);
    });
    for (int i = 0; i < 2000; i++) {
        auto home = std::make_unique<numbers>(heap, 1, 1);
        handed.store(new numbers::pointer(home->make(i)));
        while (home->out()) home->collect();
    }
    ends.store(true);
    other.join();
    wants("all came home", heap.report().live_blocks, 0);
}

} // namespace

int main() {
    ends_while_a_deleter_returns();
    pointers_die_in_any_thread();
    no_more_than_may_be();
    ends_of_a_queue();
    spans();
    in_memory_of_the_programs();
    pools_for_a_table();
    heap_behind_a_lock();
    std::puts("objects come home from any thread, and none is lost");
}
