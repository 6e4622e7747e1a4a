// The API of mattconte's tlsf in C++, as its users have it: within extern "C", a class over a pool, containers by an allocator of it, and
// deleters that are its calls. tlsf.hpp stands before it in one file, and peachanchor.h behind it.
#include <tlsf.hpp>

#include <cstdio>
#include <cstring>
#include <list>
#include <map>
#include <memory>
#include <string>
#include <vector>

namespace {
int told;
void tell(bool holds) { told += !holds; }
} // namespace
#define tlsf_assert(holds) tell(holds)

extern "C" {
#include <compat/mattconte/tlsf.h>
}
#include <peachanchor.h>

namespace {

void must(bool holds, const char *what) {
    if (holds) return;
    std::printf("mattconte: %s doesn't hold\n", what);
    std::exit(1);
}

// A pool that has memory of its own, and gets more.
class arena {
public:
    explicit arena(std::size_t bytes) : memory_(bytes / 8), tlsf_(tlsf_create_with_pool(memory_.data(), bytes)) {}
    arena(const arena &) = delete;
    arena &operator=(const arena &) = delete;
    ~arena() { tlsf_destroy(tlsf_); }
    [[nodiscard]] tlsf_t get() const { return tlsf_; }
    void *allocate(std::size_t len) {
        void *p = tlsf_malloc(tlsf_, len);
        if (p == nullptr && grow(2 * len + 8192)) p = tlsf_malloc(tlsf_, len);
        return p;
    }
    [[nodiscard]] std::size_t pools() const { return 1 + more_.size(); }

private:
    bool grow(std::size_t bytes) {
        more_.emplace_back(bytes / 8);
        return tlsf_add_pool(tlsf_, more_.back().data(), more_.back().size() * 8) != nullptr;
    }
    std::vector<std::uint64_t> memory_;
    std::list<std::vector<std::uint64_t>> more_;
    tlsf_t tlsf_;
};

template <typename T>
struct allocator {
    using value_type = T;
    explicit allocator(arena &of) : of_(&of) {}
    template <typename U>
    allocator(const allocator<U> &other) : of_(other.of_) {} // NOLINT: as std wants it
    T *allocate(std::size_t n) {
        void *const p = of_->allocate(n * sizeof(T));
        if (p == nullptr) throw std::bad_alloc();
        return static_cast<T *>(p);
    }
    void deallocate(T *p, std::size_t) { tlsf_free(of_->get(), p); }
    template <typename U>
    bool operator==(const allocator<U> &other) const {
        return of_ == other.of_;
    }
    template <typename U>
    bool operator!=(const allocator<U> &other) const {
        return of_ != other.of_;
    }
    arena *of_;
};

void count(void *, std::size_t, int used, void *user) { *static_cast<int *>(user) += used; }

void containers() {
    arena own(20000);
    {
        std::map<int, int, std::less<>, allocator<std::pair<const int, int>>> squares{allocator<std::pair<const int, int>>(own)};
        std::vector<long, allocator<long>> numbers{allocator<long>(own)};
        std::basic_string<char, std::char_traits<char>, allocator<char>> text{allocator<char>(own)};
        for (int k = 0; k < 1000; k++) squares[k] = k * k, numbers.push_back(k), text += "peach";
        for (int k = 0; k < 1000; k += 2) squares.erase(k);
        must(squares.size() == 500 && squares[501] == 501 * 501 && numbers[999] == 999 && text.size() == 5000, "containers");
        must(own.pools() > 1 && tlsf_check(own.get()) == 0, "pools that were added");
    }
    int live = 0;
    tlsf_walk_pool(tlsf_get_pool(own.get()), count, &live);
    must(live == 0 && told == 0, "all was freed");
}

void deleters() {
    arena own(20000);
    const auto give = tlsf_malloc;
    const auto end = [&own](void *p) { tlsf_free(own.get(), p); };
    {
        std::unique_ptr<void, decltype(end)> block(give(own.get(), 100), end);
        std::memset(block.get(), 1, tlsf_block_size(block.get()));
        must(tlsf_block_size(block.get()) >= 100, "a size");
    }
    void *const p = tlsf_memalign(own.get(), 256, 10);
    must(reinterpret_cast<std::uintptr_t>(p) % 256 == 0, "an alignment");
    tlsf_free(own.get(), tlsf_realloc(own.get(), p, 1000));
    must(told == 0, "each was live");
    tlsf_free(own.get(), p);
    must(told == 1, "a second free is told");
}

// Peachanchor's own heap in the same file.
void beside() {
    tlsf::heap heap(tlsf::level::four, 1, 1000);
    void *const p = heap.malloc(100);
    must(p != nullptr && heap.free(p) == TLSF_OK && heap.free(p) == TLSF_STALE, "Peachanchor's own");
    arena own(20000);
    tlsf_parts_usage usage{};
    must(tlsf_parts_counts(static_cast<tlsf_parts *>(own.get()), &usage) == TLSF_OK && usage.parts == 1, "what the pool counts");
}

} // namespace

int main() {
    containers();
    deleters();
    beside();
}
