// peachanchor.h for C++17 and later: heaps, ends of lanes and queues, arenas of offsets and pools that close themselves; blocks that
// release themselves; and the heap under the containers of std, as an allocator. tlsf_resource.hpp has it as a std::pmr::memory_resource,
// and tlsf_home.hpp objects whose std::unique_ptr may die in any thread: each needs headers that cost a compiler more than all this.
//
// Header-only; libpeachanchor.a is all that is linked. What the caller owes is said in peachanchor.h. Constructors, heap::for_blocks and
// queue::open_poster throw std::bad_alloc where malloc says no, and next_number where all were given. Constructors and for_blocks throw
// bad_size where no region, lane, queue or arena is of that size. allocator throws std::bad_alloc where there is no room. Everything
// else is noexcept. Where exceptions are off, what would throw aborts.
// A heap without a number takes that of tlsf_next_number.
#ifndef TLSF_HPP
#define TLSF_HPP

#if __cplusplus < 201703L && (!defined(_MSVC_LANG) || _MSVC_LANG < 201703L)
#error "tlsf.hpp is for C++17 and later"
#endif

// Behind a tlsf.h of compat/ some names of peachanchor.h are macros, which lead elsewhere.
#ifdef TLSF_COMPAT
#error "tlsf.hpp comes before a tlsf.h of compat/"
#endif
#include "peachanchor.h"

#include <atomic>
#include <cstddef>
#include <cstdint>
#include <cstdlib>
#include <exception>
#include <limits>
#include <new>
#include <optional>
#include <utility>

namespace tlsf {

enum class level : std::uint32_t { four = 4, five = 5 };

// Thrown where no region, lane, queue, arena or table is of that size, or has no room in memory of the caller's.
class bad_size : public std::exception {
    const char *what_;

public:
    explicit bad_size(const char *what) noexcept : what_(what) {}
    const char *what() const noexcept override { return what_; }
};

namespace detail {

#if defined(__cpp_exceptions) || defined(_CPPUNWIND)
[[noreturn]] inline void no_room() { throw std::bad_alloc(); }
[[noreturn]] inline void no_such_size(const char *what) { throw bad_size(what); }
#else
[[noreturn]] inline void no_room() { std::abort(); }
[[noreturn]] inline void no_such_size(const char *) { std::abort(); }
#endif

// What a constructor does with an answer.
inline void must_be_ok(std::uint32_t answer, const char *otherwise) {
    if (answer == TLSF_NO_MEMORY) no_room();
    if (answer != TLSF_OK) no_such_size(otherwise);
}

// States lie in memory of operator new's, or in the caller's. Each has a pointer to what ends it, so what is opened in the caller's
// memory alone names no operator new and no operator delete.
template <typename State>
void delete_state(State *it) noexcept {
    delete it;
}
template <typename State>
void end_state_there(State *it) noexcept {
    it->~State();
}

// Null where operator new says no.
template <typename State>
State *new_state() noexcept {
    return new (std::nothrow) State(delete_state<State>);
}

// Whether so many bytes may lie there: not at null, nor past the end of the address space.
inline bool is_memory(const void *memory, std::size_t bytes) noexcept {
    return memory && bytes <= ~reinterpret_cast<std::uintptr_t>(memory);
}

// Takes room for `count` objects of T off the front of memory of the caller's. `memory` and `bytes` are then what is left. Null where
// it is no memory, or too little.
template <typename T>
void *room_for(void *&memory, std::size_t &bytes, std::size_t count = 1) noexcept {
    const std::size_t skipped = (0 - reinterpret_cast<std::uintptr_t>(memory)) % alignof(T), taken = skipped + count * sizeof(T);
    if (!is_memory(memory, bytes) || bytes < taken) return nullptr;
    unsigned char *const at = static_cast<unsigned char *>(memory);
    memory = at + taken;
    bytes -= taken;
    return at + skipped;
}
template <typename State>
State *state_in(void *&memory, std::size_t &bytes) noexcept {
    void *const at = room_for<State>(memory, bytes);
    return at ? ::new (at) State(end_state_there<State>) : nullptr;
}

// The bytes that have room for `count` such objects at any alignment, and for so many bytes besides; 0 where these are 0.
template <typename T>
constexpr std::size_t bytes_with(std::size_t others, std::size_t count = 1) noexcept {
    return others == 0 ? 0 : alignof(T) - 1 + count * sizeof(T) + others;
}

// What a heap is to those who refer to it: its handle with its own fields. It lies still, outlives the heap as long as somebody
// refers to it, and its handle refuses then.
struct heap_state {
    tlsf_near_heap held = TLSF_NEAR_CLOSED;
    std::atomic<std::size_t> references{1};
    void (*const end)(heap_state *) noexcept;

    explicit heap_state(void (*ends)(heap_state *) noexcept) noexcept : end(ends) {}
};

// One of those who refer to a heap, or none. The heap is closed by its owner alone.
class heap_reference {
    heap_state *state_ = nullptr;

public:
    heap_reference() noexcept = default;
    // Takes over the reference that a new state counts.
    explicit heap_reference(heap_state *fresh) noexcept : state_(fresh) {}
    heap_reference(const heap_reference &other) noexcept : state_(other.state_) {
        if (state_) state_->references.fetch_add(1, std::memory_order_relaxed);
    }
    heap_reference(heap_reference &&other) noexcept : state_(std::exchange(other.state_, nullptr)) {}
    heap_reference &operator=(heap_reference other) noexcept {
        std::swap(state_, other.state_);
        return *this;
    }
    ~heap_reference() {
        if (state_ && state_->references.fetch_sub(1, std::memory_order_acq_rel) == 1) state_->end(state_);
    }

    explicit operator bool() const noexcept { return state_ != nullptr; }
    heap_state *operator->() const noexcept { return state_; }
    heap_state &operator*() const noexcept { return *state_; }
    friend bool operator==(const heap_reference &a, const heap_reference &b) noexcept { return a.state_ == b.state_; }
};

// The end of a lane that is closed at the end of its life. It lies still, whoever holds it, on cache lines where nothing else is:
// what other threads write beside it would take these lines from its calls.
template <typename End, std::uint32_t (*Close)(End *)>
struct alignas(128) end_state {
    End raw{};
    void (*const end)(end_state *) noexcept;

    explicit end_state(void (*ends)(end_state *) noexcept) noexcept : end(ends) {}
    end_state(const end_state &) = delete;
    end_state &operator=(const end_state &) = delete;
    ~end_state() { Close(&raw); }
};
using post_state = end_state<tlsf_post_end, tlsf_post_close>;
using take_state = end_state<tlsf_take_end, tlsf_take_close>;
using queue_state = end_state<tlsf_queue, tlsf_queue_close>;
using poster_state = end_state<tlsf_poster, tlsf_poster_close>;
using offsets_state = end_state<tlsf_offsets, tlsf_offsets_close>;
using pools_state = end_state<tlsf_pools, tlsf_pools_close>;

// Has a state alone, or none, and ends it. It can be moved, and not copied.
template <typename State>
class holder {
    State *state_ = nullptr;

public:
    holder() noexcept = default;
    explicit holder(State *fresh) noexcept : state_(fresh) {}
    holder(holder &&other) noexcept : state_(std::exchange(other.state_, nullptr)) {}
    holder &operator=(holder &&other) noexcept {
        holder taken(std::move(other));
        std::swap(state_, taken.state_);
        return *this;
    }
    holder(const holder &) = delete;
    holder &operator=(const holder &) = delete;
    ~holder() {
        if (state_) state_->end(state_);
    }

    explicit operator bool() const noexcept { return state_ != nullptr; }
    // The handle in it, or null where there is none.
    auto raw() const noexcept { return state_ ? &state_->raw : nullptr; }
};

template <typename State>
holder<State> hold_new() {
    State *const fresh = new_state<State>();
    if (!fresh) no_room();
    return holder<State>(fresh);
}
template <typename State>
holder<State> hold_in(void *&memory, std::size_t &bytes, const char *otherwise) {
    State *const fresh = state_in<State>(memory, bytes);
    if (!fresh) no_such_size(otherwise);
    return holder<State>(fresh);
}

constexpr std::uint32_t closed = TLSF_IS_CLOSED;
constexpr std::size_t most_bytes = std::numeric_limits<std::uint32_t>::max();

// A byte of a payload, or one past the end of each.
constexpr std::uint32_t in_32_bits(std::size_t at) noexcept { return static_cast<std::uint32_t>(at < most_bytes ? at : most_bytes); }

} // namespace detail

// As tlsf_next_number. Where all were given it throws as for want of memory.
inline std::uint32_t next_number() {
    std::uint32_t number = 0;
    if (tlsf_next_number(&number) != TLSF_OK) detail::no_room();
    return number;
}

class block;

// A heap that is closed at the end of its life, by `close`, and where another heap is moved into it. It can be moved, and not
// copied: blocks, resources and allocators then refer to the same heap. They may outlive it. Once it is closed they refuse as
// a closed handle does, and touch none of its memory. One that isn't open, or was moved from, refuses as TLSF_IS_CLOSED.
class heap {
    detail::heap_reference state_;
    friend class block;
    friend class resource; // of tlsf_resource.hpp, as home is of tlsf_home.hpp
    template <typename T>
    friend class allocator;
    template <typename T>
    friend class home;

    tlsf_heap *handle() const noexcept { return tlsf_near(&state_->held); }

    // Takes over a fresh state where what it opened answered that all is well.
    std::uint32_t keep(detail::heap_reference fresh, std::uint32_t answer) noexcept {
        if (answer == TLSF_OK) state_ = std::move(fresh);
        return answer;
    }

    template <typename Open>
    std::uint32_t open_numbered(Open opens) noexcept {
        std::uint32_t number = 0;
        if (is_open()) return TLSF_IN_USE;
        const std::uint32_t answer = tlsf_next_number(&number);
        return answer == TLSF_OK ? opens(number) : answer;
    }

public:
    heap() noexcept = default;
    heap(level l, std::uint32_t number, std::uint32_t words, std::uint8_t align = 0) {
        detail::must_be_ok(open(l, number, words, align), "tlsf: no region of that level has so many words, or no heap that alignment");
    }
    // The same with a number of tlsf_next_number.
    heap(level l, std::uint32_t words) : heap(l, next_number(), words) {}
    // In memory of the caller's, as open_in: a heap of `words` words at least, for which `bytes` says how much is enough.
    heap(level l, std::uint32_t number, std::uint32_t words, void *memory, std::size_t bytes) {
        detail::must_be_ok(open_in(l, number, words, memory, bytes), "tlsf: a heap of so many words has no room in that memory");
    }
    heap(heap &&other) noexcept = default;
    heap &operator=(heap &&other) noexcept {
        if (this != &other) {
            close();
            state_ = std::move(other.state_);
        }
        return *this;
    }
    heap(const heap &) = delete;
    heap &operator=(const heap &) = delete;
    ~heap() { close(); }

    // A heap that never lacks room for at most `blocks` blocks at once of at most `len` bytes each, by tlsf_words. Any call may
    // ask for them: of this class, or of a resource or an allocator, for objects aligned to at most `align` bytes. With `align`
    // 0 the heap has the fewest words, and room for the calls by name of this class alone. That is proved of allocates, resizes
    // in place and releases; of moves and aligned blocks it is tested.
    static heap for_blocks(level l, std::uint32_t number, std::uint32_t blocks, std::size_t len,
                           std::size_t align = alignof(std::max_align_t)) {
        const auto of_level = static_cast<std::uint32_t>(l);
        std::uint32_t words = 0;
        const std::uint32_t answer =
            align == 0 ? tlsf_words(of_level, blocks, len, &words) : tlsf_words_for(of_level, blocks, len, align, &words);
        detail::must_be_ok(answer, "tlsf: no region of that level serves so many blocks of so many bytes");
        return heap(l, number, words);
    }

    // As tlsf_open_near, for a heap that isn't open; nothing is thrown. What malloc gives is aligned to `align`: 8, 16, 32 or 64, or 0
    // for TLSF_ALIGN.
    [[nodiscard]] std::uint32_t open(level l, std::uint32_t number, std::uint32_t words, std::uint8_t align = 0) noexcept {
        if (is_open()) return TLSF_IN_USE;
        detail::heap_state *const fresh = detail::new_state<detail::heap_state>();
        if (!fresh) return TLSF_NO_MEMORY;
        tlsf_near(&fresh->held)->align = align;
        return keep(detail::heap_reference(fresh), tlsf_open_near(&fresh->held, static_cast<std::uint32_t>(l), number, words));
    }
    // As tlsf_open_near_in: its blocks lie in memory of the caller's, and so does all else, so no operator new is called. So it has fewer
    // words than tlsf_open_near_in would give it there: `bytes` of some words is enough for these. The memory is the caller's again once
    // the heap is closed and nothing refers to it: no block, resource, allocator or home.
    [[nodiscard]] std::uint32_t open_in(level l, std::uint32_t number, void *memory, std::size_t bytes, std::uint8_t align = 0) noexcept {
        const auto of_level = static_cast<std::uint32_t>(l);
        if (is_open()) return TLSF_IN_USE;
        void *rest = memory;
        std::size_t left = bytes;
        detail::heap_state *const fresh = detail::state_in<detail::heap_state>(rest, left);
        if (fresh) tlsf_near(&fresh->held)->align = align;
        if (fresh) return keep(detail::heap_reference(fresh), tlsf_open_near_in(&fresh->held, of_level, number, rest, left));
        // Too little memory is refused as none of it is.
        tlsf_heap none = TLSF_CLOSED;
        return tlsf_open_in(&none, of_level, number, memory, detail::is_memory(memory, bytes) ? 0 : bytes);
    }
    // The same where it has to have `words` words at least: TLSF_BAD_SIZE where fewer find room.
    [[nodiscard]] std::uint32_t open_in(level l, std::uint32_t number, std::uint32_t words, void *memory, std::size_t bytes) noexcept {
        const std::uint32_t answer = open_in(l, number, memory, bytes);
        if (answer != TLSF_OK || report().free_words >= words) return answer;
        close();
        return TLSF_BAD_SIZE;
    }
    // The bytes in which open_in finds room for so many words, at any alignment; 0 where no heap of that level has so many.
    static std::size_t bytes(level l, std::uint32_t words) noexcept {
        return detail::bytes_with<detail::heap_state>(tlsf_near_bytes(static_cast<std::uint32_t>(l), words));
    }
    // The same two with a number of tlsf_next_number; TLSF_WORN where all were given.
    [[nodiscard]] std::uint32_t open(level l, std::uint32_t words) noexcept {
        return open_numbered([&](std::uint32_t number) { return open(l, number, words); });
    }
    [[nodiscard]] std::uint32_t open_in(level l, void *memory, std::size_t bytes) noexcept {
        return open_numbered([&](std::uint32_t number) { return open_in(l, number, memory, bytes); });
    }
    void close() noexcept {
        if (state_) tlsf_close(handle());
        state_ = {};
    }
    bool is_open() const noexcept { return static_cast<bool>(state_); }

    // The handle for the calls of peachanchor.h, or null where it isn't open. It is closed by this object alone.
    tlsf_heap *get() noexcept { return state_ ? handle() : nullptr; }
    std::uint32_t number() const noexcept { return state_ ? handle()->number : 0; }

    // The calls of peachanchor.h by their names. Each takes a heap that isn't open too.
    [[nodiscard]] std::uint32_t allocate(std::size_t len, tlsf_name &name) noexcept {
        return state_ ? tlsf_allocate(handle(), len, &name) : detail::closed;
    }
    std::uint32_t release(const tlsf_name &name) noexcept { return state_ ? tlsf_release(handle(), name) : detail::closed; }
    [[nodiscard]] std::uint32_t resize(const tlsf_name &name, std::size_t len) noexcept {
        return state_ ? tlsf_resize(handle(), name, len) : detail::closed;
    }
    [[nodiscard]] std::uint32_t reallocate(tlsf_name &name, std::size_t len) noexcept {
        return state_ ? tlsf_reallocate(handle(), &name, len) : detail::closed;
    }
    void *payload(const tlsf_name &name, std::uint32_t *len = nullptr) const noexcept {
        return state_ ? tlsf_payload(handle(), name, len) : nullptr;
    }
    [[nodiscard]] std::uint32_t write(const tlsf_name &name, std::size_t at, const std::uint8_t *bytes, std::size_t n) noexcept {
        return state_ ? tlsf_write(handle(), name, detail::in_32_bits(at), bytes, n) : detail::closed;
    }
    [[nodiscard]] std::uint32_t read(const tlsf_name &name, std::size_t at, std::uint8_t *out, std::size_t n) const noexcept {
        return state_ ? tlsf_read(handle(), name, detail::in_32_bits(at), out, n) : detail::closed;
    }
    [[nodiscard]] std::uint32_t allocate_at(std::size_t len, std::size_t align, std::uint32_t flags, tlsf_name &name,
                                            void *&payload) noexcept {
        return state_ ? tlsf_allocate_at(handle(), len, align, flags, &name, &payload) : detail::closed;
    }
    // For tlsf_at, in another thread; null where it isn't open.
    std::uint64_t *base() const noexcept { return state_ ? tlsf_base(handle()) : nullptr; }
    [[nodiscard]] void *malloc(std::size_t len) noexcept { return state_ ? tlsf_malloc(handle(), len) : nullptr; }
    [[nodiscard]] void *calloc(std::size_t count, std::size_t each) noexcept {
        return state_ ? tlsf_calloc(handle(), count, each) : nullptr;
    }
    [[nodiscard]] void *realloc(void *p, std::size_t len) noexcept { return state_ ? tlsf_realloc(handle(), p, len) : nullptr; }
    [[nodiscard]] void *aligned_alloc(std::size_t align, std::size_t len) noexcept {
        return state_ ? tlsf_aligned_alloc(handle(), align, len) : nullptr;
    }
    [[nodiscard]] void *aligned_realloc(void *p, std::size_t align, std::size_t len) noexcept {
        return state_ ? tlsf_aligned_realloc(handle(), p, align, len) : nullptr;
    }
    std::uint32_t free(void *p) noexcept { return state_ ? tlsf_free(handle(), p) : detail::closed; }
    std::size_t usable_size(const void *p) const noexcept { return state_ ? tlsf_usable_size(handle(), p) : 0; }
    [[nodiscard]] std::uint32_t name_at(const void *p, tlsf_name &name) const noexcept {
        return state_ ? tlsf_name_at(handle(), p, &name) : detail::closed;
    }
    // As tlsf_reset. A `block` of before is stale then, so its end releases nothing. What a resource or an allocator gave may not be
    // used, nor given back.
    std::uint32_t reset() noexcept { return state_ ? tlsf_reset(handle()) : detail::closed; }
    // What report and counts give is all zero where the heap isn't open.
    tlsf_heap_report report() const noexcept {
        tlsf_heap_report sums{};
        if (state_) (void)tlsf_report(handle(), &sums);
        return sums;
    }
    tlsf_heap_counts counts() const noexcept {
        tlsf_heap_counts counted{};
        if (state_) (void)tlsf_counts(handle(), &counted);
        return counted;
    }
    [[nodiscard]] std::uint32_t check(std::uint32_t from, std::uint32_t most, std::uint32_t &next, std::uint32_t &damaged) const noexcept {
        return state_ ? tlsf_check(handle(), from, most, &next, &damaged) : detail::closed;
    }

    // A block of `len` bytes, all zero, that releases itself; empty where it is refused.
    [[nodiscard]] block make(std::size_t len) noexcept;
};

// A live block, which is released at the end of its life; or none. It can be moved, and not copied. It stays in the thread
// of its heap: to another thread goes its name, by `detach` and a lane. Once its heap is closed there is no block.
class block {
    detail::heap_reference heap_;
    tlsf_name name_{};
    template <typename T>
    friend class home;
    block(detail::heap_reference owner, const tlsf_name &name) noexcept : heap_(std::move(owner)), name_(name) {}

public:
    block() noexcept = default;
    // Takes over a live block of that heap.
    block(heap &owner, const tlsf_name &name) noexcept : heap_(owner.state_), name_(name) {}
    block(block &&other) noexcept = default;
    block &operator=(block &&other) noexcept {
        block taken(std::move(other));
        swap(taken);
        return *this;
    }
    block(const block &) = delete;
    block &operator=(const block &) = delete;
    ~block() { reset(); }

    void swap(block &other) noexcept {
        std::swap(heap_, other.heap_);
        std::swap(name_, other.name_);
    }
    explicit operator bool() const noexcept { return heap_ && tlsf_near(&heap_->held)->is_open; }
    const tlsf_name &name() const noexcept { return name_; }

    // Its payload, aligned to 8 bytes, and the bytes of it; null and 0 where there is no block.
    void *data() const noexcept { return heap_ ? tlsf_payload(tlsf_near(&heap_->held), name_, nullptr) : nullptr; }
    std::uint32_t size() const noexcept {
        std::uint32_t len = 0;
        if (heap_) (void)tlsf_payload(tlsf_near(&heap_->held), name_, &len);
        return len;
    }
    [[nodiscard]] std::uint32_t resize(std::size_t len) noexcept {
        return heap_ ? tlsf_resize(tlsf_near(&heap_->held), name_, len) : detail::closed;
    }
    [[nodiscard]] std::uint32_t reallocate(std::size_t len) noexcept {
        return heap_ ? tlsf_reallocate(tlsf_near(&heap_->held), &name_, len) : detail::closed;
    }
    void reset() noexcept {
        if (heap_) tlsf_release(tlsf_near(&heap_->held), name_);
        heap_ = {};
    }
    // Gives the name out of its hands: the block stays live until somebody releases it.
    tlsf_name detach() noexcept {
        heap_ = {};
        return name_;
    }
};

inline block heap::make(std::size_t len) noexcept {
    tlsf_name name{};
    return allocate(len, name) == TLSF_OK ? block(*this, name) : block();
}

// The ends of a lane. Each can be moved, and not copied, and is closed at the end of its life.
class post_end {
    detail::holder<detail::post_state> state_;
    friend struct lane;

public:
    post_end() noexcept = default;
    tlsf_post_end *get() noexcept { return state_.raw(); }
    // Whether it was put: false where the lane is full or the end closed.
    [[nodiscard]] bool put(const tlsf_name &name) noexcept { return state_ && tlsf_put(get(), name) == TLSF_OK; }
    // Puts `n` names, the first of them first, until the lane is full, and says how many went: none where the end is closed.
    [[nodiscard]] std::size_t put_all(const tlsf_name *names, std::size_t n) noexcept {
        std::size_t went = 0;
        return state_ && tlsf_put_all(get(), names, n, &went) == TLSF_OK ? went : 0;
    }
    // The block's name goes, and the block is empty then; where it can't be put, the block stays as it is.
    [[nodiscard]] bool put(block &&sent) noexcept {
        if (!sent || !put(sent.name())) return false;
        sent.detach();
        return true;
    }
};

class take_end {
    detail::holder<detail::take_state> state_;
    friend struct lane;

public:
    take_end() noexcept = default;
    tlsf_take_end *get() noexcept { return state_.raw(); }
    // The first name, or none where the lane is empty or the end closed.
    [[nodiscard]] std::optional<tlsf_name> take() noexcept {
        tlsf_name name{};
        if (!state_ || tlsf_take(get(), &name) != TLSF_OK) return std::nullopt;
        return name;
    }
    // Releases the blocks whose names came, at most `most`, and says how many came.
    std::uint32_t drain(heap &owner, std::uint32_t most) noexcept {
        std::uint32_t came = 0;
        if (state_ && owner.is_open()) tlsf_drain(owner.get(), get(), most, &came);
        return came;
    }
};

// auto [post, take] = tlsf::lane(64);
struct lane {
    post_end post;
    take_end take;

    explicit lane(std::uint32_t capacity) {
        post.state_ = detail::hold_new<detail::post_state>();
        take.state_ = detail::hold_new<detail::take_state>();
        detail::must_be_ok(tlsf_lane_open(post.get(), take.get(), capacity), "tlsf: a lane has 1 to 1,024 names");
    }
    // In memory of the caller's, which is the caller's again once both ends are closed.
    lane(std::uint32_t capacity, void *memory, std::size_t bytes) {
        constexpr auto otherwise = "tlsf: a lane of so many names has no room in that memory";
        post.state_ = detail::hold_in<detail::post_state>(memory, bytes, otherwise);
        take.state_ = detail::hold_in<detail::take_state>(memory, bytes, otherwise);
        detail::must_be_ok(tlsf_lane_open_in(post.get(), take.get(), capacity, memory, bytes), otherwise);
    }
    // The bytes that are enough for that, at any alignment; 0 where there is no such lane.
    static std::size_t bytes(std::uint32_t capacity) noexcept {
        return detail::bytes_with<detail::post_state>(tlsf_lane_bytes(capacity), 2);
    }
};

// A poster's end of a queue, for one thread at a time. It can be moved, and not copied, and is closed at the end of its life.
class poster {
    detail::holder<detail::poster_state> state_;
    friend class queue;

public:
    poster() noexcept = default;
    tlsf_poster *get() noexcept { return state_.raw(); }
    // One attempt: TLSF_OK, TLSF_FULL, TLSF_BUSY where another thread is in the way, or TLSF_IS_CLOSED.
    [[nodiscard]] std::uint32_t post(const tlsf_name &name) noexcept { return state_ ? tlsf_queue_post(get(), name) : detail::closed; }
    // The block's name goes, and the block is empty then; where it isn't posted, the block stays as it is.
    [[nodiscard]] std::uint32_t post(block &&sent) noexcept {
        if (!sent) return TLSF_STALE;
        const std::uint32_t answer = post(sent.name());
        if (answer == TLSF_OK) sent.detach();
        return answer;
    }
};

// The owner's end of a queue. It can be moved, and not copied, and is closed at the end of its life; posters' ends stay open.
class queue {
    detail::holder<detail::queue_state> state_;
    // What makes a poster's end: by operator new, or in memory of the caller's, with the room there for those that weren't given.
    detail::poster_state *(*make_end_)(void *&memory, std::size_t &bytes) noexcept = nullptr;
    void *ends_ = nullptr;
    std::size_t ends_bytes_ = 0;

public:
    queue() noexcept = default;
    queue(std::uint32_t posters, std::uint32_t capacity) : state_(detail::hold_new<detail::queue_state>()) {
        make_end_ = [](void *&, std::size_t &) noexcept { return detail::new_state<detail::poster_state>(); };
        detail::must_be_ok(tlsf_queue_open(get(), posters, capacity), "tlsf: a queue has 1 to 1,024 posters and 1 to 1,024 names");
    }
    // In memory of the caller's, which is the caller's again once this end and all posters' ends that were opened are closed.
    queue(std::uint32_t posters, std::uint32_t capacity, void *memory, std::size_t bytes) {
        constexpr auto otherwise = "tlsf: a queue of so many posters and names has no room in that memory";
        if (tlsf_queue_bytes(posters, capacity) == 0) detail::no_such_size(otherwise);
        state_ = detail::hold_in<detail::queue_state>(memory, bytes, otherwise);
        make_end_ = detail::state_in<detail::poster_state>;
        ends_ = detail::room_for<detail::poster_state>(memory, bytes, posters);
        ends_bytes_ = posters * sizeof(detail::poster_state);
        if (!ends_) detail::no_such_size(otherwise);
        detail::must_be_ok(tlsf_queue_open_in(get(), posters, capacity, memory, bytes), otherwise);
    }
    // The bytes that are enough for that, at any alignment; 0 where there is no such queue.
    static std::size_t bytes(std::uint32_t posters, std::uint32_t capacity) noexcept {
        return detail::bytes_with<detail::poster_state>(tlsf_queue_bytes(posters, capacity), std::size_t(posters) + 1);
    }
    tlsf_queue *get() noexcept { return state_.raw(); }
    // The next poster's end, for any thread; one that isn't open where all were given. std::bad_alloc where malloc says no.
    [[nodiscard]] poster open_poster() {
        poster given;
        if (!state_) return given;
        given.state_ = detail::holder(make_end_(ends_, ends_bytes_));
        if (!given.state_ && !ends_) detail::no_room();
        if (given.state_ && tlsf_poster_open(get(), given.get()) != TLSF_OK) given.state_ = {};
        return given;
    }
    // The first name, or none where the queue is empty, its first name half put, or the end closed.
    [[nodiscard]] std::optional<tlsf_name> take() noexcept {
        tlsf_name name{};
        if (!state_ || tlsf_queue_take(get(), &name) != TLSF_OK) return std::nullopt;
        return name;
    }
    // Releases the blocks whose names came, at most `most`, and says how many came.
    std::uint32_t drain(heap &owner, std::uint32_t most) noexcept {
        std::uint32_t came = 0;
        if (state_ && owner.is_open()) tlsf_queue_drain(owner.get(), get(), most, &came);
        return came;
    }
};

// Spans of memory that the processor never touches, as a graphics card's: the calls tlsf_offsets_*. It can be moved, and not
// copied, and is closed at the end of its life.
class offsets {
    detail::holder<detail::offsets_state> state_;

public:
    offsets() noexcept = default;
    // `units` units of `unit` bytes each.
    offsets(level l, std::uint32_t number, std::uint32_t unit, std::uint32_t units) : state_(detail::hold_new<detail::offsets_state>()) {
        detail::must_be_ok(tlsf_offsets_open(get(), static_cast<std::uint32_t>(l), number, unit, units),
                           "tlsf: no arena has so many units of so many bytes");
    }
    // In memory of the caller's, which is the caller's again once it is closed.
    offsets(level l, std::uint32_t number, std::uint32_t unit, std::uint32_t units, void *memory, std::size_t bytes) {
        constexpr auto otherwise = "tlsf: an arena of so many units of so many bytes has no room in that memory";
        state_ = detail::hold_in<detail::offsets_state>(memory, bytes, otherwise);
        detail::must_be_ok(tlsf_offsets_open_in(get(), static_cast<std::uint32_t>(l), number, unit, units, memory, bytes), otherwise);
    }
    // The bytes that are enough for that, at any alignment; 0 where no arena of that level has so many units.
    static std::size_t bytes(level l, std::uint32_t units) noexcept {
        return detail::bytes_with<detail::offsets_state>(tlsf_offsets_bytes(static_cast<std::uint32_t>(l), units));
    }
    tlsf_offsets *get() noexcept { return state_.raw(); }
    [[nodiscard]] std::optional<tlsf_span> allocate(std::uint64_t bytes) noexcept {
        tlsf_span span{};
        if (!state_ || tlsf_offsets_allocate(get(), bytes, &span) != TLSF_OK) return std::nullopt;
        return span;
    }
    std::uint32_t release(const tlsf_span &span) noexcept { return state_ ? tlsf_offsets_release(get(), span.name) : detail::closed; }
    [[nodiscard]] std::uint32_t resize(tlsf_span &span, std::uint64_t bytes) noexcept {
        return state_ ? tlsf_offsets_resize(get(), &span, bytes) : detail::closed;
    }
    tlsf_offsets_usage report() const noexcept {
        tlsf_offsets_usage usage{};
        if (state_) (void)tlsf_offsets_report(state_.raw(), &usage);
        return usage;
    }
};

// How many blocks of a row of pools are held, and how many may be.
struct row_counts {
    std::uint32_t held, most;
};

// Heaps for a table of kinds, which never lack room: the calls tlsf_pools_*. It can be moved, and not copied, and is closed at the end
// of its life.
class pools {
    detail::holder<detail::pools_state> state_;

public:
    pools() noexcept = default;
    // For `n` rows, which rise in `len`. Their heaps have the numbers from `number` on.
    pools(level l, std::uint32_t number, const tlsf_kind *rows, std::size_t n) : state_(detail::hold_new<detail::pools_state>()) {
        detail::must_be_ok(tlsf_pools_open(get(), static_cast<std::uint32_t>(l), number, rows, n),
                           "tlsf: the rows of the table don't rise in len, or no regions serve it");
    }
    tlsf_pools *get() noexcept { return state_.raw(); }
    [[nodiscard]] std::uint32_t allocate(std::size_t len, tlsf_name &name) noexcept {
        return state_ ? tlsf_pools_allocate(get(), len, &name) : detail::closed;
    }
    std::uint32_t release(const tlsf_name &name) noexcept { return state_ ? tlsf_pools_release(get(), name) : detail::closed; }
    [[nodiscard]] std::uint32_t write(const tlsf_name &name, std::size_t at, const std::uint8_t *bytes, std::size_t n) noexcept {
        return state_ ? tlsf_pools_write(get(), name, detail::in_32_bits(at), bytes, n) : detail::closed;
    }
    [[nodiscard]] std::uint32_t read(const tlsf_name &name, std::size_t at, std::uint8_t *out, std::size_t n) const noexcept {
        return state_ ? tlsf_pools_read(state_.raw(), name, detail::in_32_bits(at), out, n) : detail::closed;
    }
    // Of the heap of one part, or none where there is no such part.
    std::optional<tlsf_heap_report> report(std::uint32_t part) const noexcept {
        tlsf_heap_report sums{};
        if (!state_ || tlsf_pools_report(state_.raw(), part, &sums) != TLSF_OK) return std::nullopt;
        return sums;
    }
    // Of one row of the table, or none where there is no such row.
    std::optional<row_counts> counts(std::uint32_t row) const noexcept {
        row_counts counted{};
        if (!state_ || tlsf_pools_counts(state_.raw(), row, &counted.held, &counted.most) != TLSF_OK) return std::nullopt;
        return counted;
    }
    // As heap::check, of the heap of one part: TLSF_STALE also where there is no such part.
    [[nodiscard]] std::uint32_t check(std::uint32_t part, std::uint32_t from, std::uint32_t most, std::uint32_t &next,
                                      std::uint32_t &damaged) const noexcept {
        return state_ ? tlsf_pools_check(state_.raw(), part, from, most, &next, &damaged) : detail::closed;
    }
};

// The heap under a container's own allocator: std::vector<float, tlsf::allocator<float>> samples(heap);
template <typename T>
class allocator {
    detail::heap_reference heap_;
    template <typename U>
    friend class allocator;

public:
    using value_type = T;

    allocator(heap &owner) noexcept : heap_(owner.state_) {}
    // Copied also where it is moved: an allocator keeps its value then ([allocator.requirements]).
    allocator(const allocator &) noexcept = default;
    allocator &operator=(const allocator &) noexcept = default;
    template <typename U>
    allocator(const allocator<U> &other) noexcept : heap_(other.heap_) {}

    [[nodiscard]] T *allocate(std::size_t n) {
        void *p = nullptr;
        if (heap_ && n <= std::numeric_limits<std::size_t>::max() / sizeof(T))
            p = tlsf_aligned_alloc(tlsf_near(&heap_->held), alignof(T), n * sizeof(T));
        if (!p) detail::no_room();
        return static_cast<T *>(p);
    }
    void deallocate(T *p, std::size_t) noexcept { tlsf_free(tlsf_near(&heap_->held), p); }

    template <typename U>
    bool operator==(const allocator<U> &other) const noexcept {
        return heap_ == other.heap_;
    }
    template <typename U>
    bool operator!=(const allocator<U> &other) const noexcept {
        return !(heap_ == other.heap_);
    }
};

} // namespace tlsf
#endif
