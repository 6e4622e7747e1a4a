// The API of TLSF 2.4 in C++, as SuperCollider's and Ardour's classes have it, within extern "C": a pool whose blocks are aligned to 32, a
// pool in a static object, an allocator of std whose max_size is what the pool has used most, an allocator whose objects open their pool
// anew, and a Lua-like call that is realloc_ex for all. What these do in unit tests there is done here, by chance.
#include <cstdint>
#include <cstdio>
#include <cstdlib>
#include <cstring>
#include <list>
#include <map>
#include <new>
#include <vector>

#define TLSF_COMPAT_ALIGN 32
extern "C" {
#include <compat/tlsf24/tlsf.h>
}
#include <peachanchor.h>

namespace {

std::uint32_t state = 4711;
std::uint32_t below(std::uint32_t n) {
    state = state * 1664525 + 1013904223;
    return (state >> 8) % n;
}

void must(bool holds, const char *what) {
    if (holds) return;
    std::printf("tlsf24: %s doesn't hold\n", what);
    std::exit(1);
}

bool is_aligned(const void *p) { return reinterpret_cast<std::uintptr_t>(p) % 32 == 0; }

// --- Pools --------------------------------------------------------------------------------------------------------------

class pool {
public:
    explicit pool(std::size_t bytes) : memory_(std::calloc(bytes, 1)) {
        if (memory_ == nullptr || init_memory_pool(bytes, memory_) == static_cast<std::size_t>(-1)) throw std::bad_alloc();
    }
    pool(const pool &) = delete;
    pool &operator=(const pool &) = delete;
    ~pool() {
        destroy_memory_pool(memory_);
        std::free(memory_);
    }
    void *malloc(std::size_t len) { return malloc_ex(len, memory_); }
    void *realloc(void *p, std::size_t len) { return realloc_ex(p, len, memory_); }
    void free(void *p) { free_ex(p, memory_); }
    [[nodiscard]] std::size_t used() const { return get_used_size(memory_); }
    [[nodiscard]] std::size_t most() const { return get_max_size(memory_); }

private:
    void *memory_;
};

template <std::size_t bytes>
class static_pool {
public:
    static_pool() { must(init_memory_pool(bytes, memory_) != static_cast<std::size_t>(-1), "a static pool"); }
    static_pool(const static_pool &) = delete;
    static_pool &operator=(const static_pool &) = delete;
    ~static_pool() { destroy_memory_pool(memory_); }
    void *malloc(std::size_t len) { return malloc_ex(len, memory_); }
    void free(void *p) { free_ex(p, memory_); }
    [[nodiscard]] bool has(const void *p) const {
        return static_cast<const unsigned char *>(p) >= memory_ && static_cast<const unsigned char *>(p) < memory_ + bytes;
    }

private:
    alignas(8) unsigned char memory_[bytes] = {};
};

// Blocks come and go; each is aligned, and has its bytes.
void a_pool() {
    pool own(1 << 20);
    const std::size_t used = own.used();
    std::vector<std::pair<unsigned char *, std::size_t>> blocks(256);
    for (std::uint32_t turn = 0; turn < 20000; turn++) {
        auto &[p, len] = blocks[below(256)];
        for (std::size_t k = 0; p != nullptr && k < len; k++) must(p[k] == static_cast<unsigned char>(len), "a byte");
        if (p != nullptr && below(3) != 0) {
            own.free(p);
            p = nullptr;
            len = 0;
            continue;
        }
        const std::size_t wanted = 1 + below(4000);
        void *const moved = p == nullptr ? own.malloc(wanted) : own.realloc(p, wanted);
        must(is_aligned(moved), "an alignment");
        if (moved == nullptr) continue;
        p = static_cast<unsigned char *>(moved);
        for (std::size_t k = 0; k < len && k < wanted; k++) must(p[k] == static_cast<unsigned char>(len), "a byte that stays");
        len = wanted;
        std::memset(p, static_cast<int>(len & 255), len);
    }
    for (auto &[p, len] : blocks) own.free(p);
    must(own.used() == used && own.most() > used, "all was freed");
}

void a_static_pool() {
    static static_pool<65536> own;
    void *blocks[64];
    for (auto &p : blocks) {
        p = own.malloc(1 + below(500));
        must(own.has(p) && is_aligned(p), "a block of it");
    }
    for (auto &p : blocks) own.free(p);
    void *const all = own.malloc(50000);
    must(all != nullptr, "all of it");
    own.free(all);
}

// --- Allocators ---------------------------------------------------------------------------------------------------------

pool &shared() {
    static pool own(1 << 20);
    return own;
}

template <typename T>
struct of_pool {
    using value_type = T;
    of_pool() = default;
    template <typename U>
    of_pool(const of_pool<U> &) {} // NOLINT: as std wants it
    [[nodiscard]] std::size_t max_size() const { return shared().most() / sizeof(T); }
    T *allocate(std::size_t n) {
        void *const p = shared().malloc(n * sizeof(T));
        if (p == nullptr) throw std::bad_alloc();
        return static_cast<T *>(p);
    }
    void deallocate(T *p, std::size_t) { shared().free(p); }
    template <typename U>
    bool operator==(const of_pool<U> &) const {
        return true;
    }
    template <typename U>
    bool operator!=(const of_pool<U> &) const {
        return false;
    }
};

// A container asks max_size before its first block: it can't be 0 then.
void containers() {
    std::vector<int, of_pool<int>> numbers;
    must(numbers.max_size() >= 2900 / sizeof(int), "a most before the first block");
    std::list<long, of_pool<long>> list;
    std::map<int, int, std::less<>, of_pool<std::pair<const int, int>>> map;
    for (int k = 0; k < 2000; k++) numbers.push_back(k), list.push_front(k), map[k % 97] += k;
    while (list.size() > 10) list.pop_back();
    must(numbers[1999] == 1999 && list.front() == 1999 && map.size() == 97, "containers");
}

// Each object opens the same memory: the first makes a pool of it, and the others find it as it is.
alignas(64) unsigned char memory_of_all[32768];
template <typename T>
struct opens_anew {
    using value_type = T;
    opens_anew() { open(); }
    template <typename U>
    opens_anew(const opens_anew<U> &) {
        open();
    } // NOLINT: as std wants it
    T *allocate(std::size_t n) {
        void *const p = malloc_ex(n * sizeof(T), memory_of_all);
        if (p == nullptr) throw std::bad_alloc();
        return static_cast<T *>(p);
    }
    void deallocate(T *p, std::size_t) { free_ex(p, memory_of_all); }
    template <typename U>
    bool operator==(const opens_anew<U> &) const {
        return true;
    }
    template <typename U>
    bool operator!=(const opens_anew<U> &) const {
        return false;
    }
    static std::size_t usable;

private:
    static void open() {
        const std::size_t bytes = init_memory_pool(sizeof memory_of_all, memory_of_all);
        must(usable == 0 || usable == bytes, "as many bytes each time");
        usable = bytes;
    }
};
template <typename T>
std::size_t opens_anew<T>::usable = 0;

void opened_anew() {
    std::vector<int, opens_anew<int>> numbers;
    for (int k = 0; k < 500; k++) numbers.push_back(k);
    const std::vector<int, opens_anew<int>> copy(numbers, opens_anew<int>());
    std::list<long, opens_anew<long>> list(50, 3);
    must(copy == numbers && numbers[499] == 499 && list.back() == 3, "what was there stays");
}

// --- As an interpreter asks ---------------------------------------------------------------------------------------------

void *change(void *user, void *p, std::size_t had, std::size_t len) {
    static_cast<void>(had);
    return realloc_ex(p, len, user);
}

void interpreter() {
    static unsigned char memory[262144] __attribute__((aligned(64)));
    must(init_memory_pool(sizeof memory, memory) != static_cast<std::size_t>(-1), "a pool");
    const std::size_t used = get_used_size(memory);
    std::vector<std::pair<void *, std::size_t>> all(300);
    must(change(memory, nullptr, 0, 0) == nullptr, "nothing of nothing");
    for (int turn = 0; turn < 20000; turn++) {
        auto &[p, had] = all[below(300)];
        const std::size_t len = below(4) == 0 ? 0 : below(1200);
        void *const now = change(memory, p, had, len);
        if (now == nullptr && len != 0) continue;
        p = now;
        had = len;
    }
    for (auto &[p, had] : all) must(change(memory, p, had, 0) == nullptr, "freed");
    must(get_used_size(memory) == used, "all was freed");
    destroy_memory_pool(memory);
}

} // namespace

int main() {
    a_pool();
    a_static_pool();
    containers();
    opened_anew();
    interpreter();
}
