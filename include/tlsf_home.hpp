// Objects in a heap of tlsf.hpp whose std::unique_ptr may die in any thread, for C++17 and later. A home throws as a queue does, and
// its `make` what the object's constructor throws.
#ifndef TLSF_HOME_HPP
#define TLSF_HOME_HPP

#include "tlsf.hpp"

#include <atomic>
#include <memory>

namespace tlsf {

// Objects of one type in a heap, each held by a std::unique_ptr that may die in any thread: it sends the object's name home,
// and `collect`, in the thread of the heap, destroys the object and frees its block. A pointer that dies tries until its post goes
// in, so it may spin while another thread is half through one. The object itself is another thread's to use as the payload of any
// block is (rule 4 of peachanchor.h). A home dies in the heap's thread, before its heap and once `out` is 0.
template <typename T>
class home {
    // A poster's end that one thread at a time has, while `taken`.
    struct desk {
        poster end;
        std::atomic<bool> taken{false};
    };

    detail::heap_reference heap_;
    queue queue_;
    std::unique_ptr<desk[]> desks_;
    std::uint32_t threads_, most_, out_ = 0;

    // Goes over the desks until one is free and its post goes in. With a desk for each thread one always is free, and the queue
    // has room for each object that is out, so this ends as soon as no other thread stands still in the midst of a post.
    void send(const tlsf_name &name) noexcept {
        for (std::uint32_t i = 0;; i = (i + 1) % threads_) {
            desk &here = desks_[i];
            if (here.taken.exchange(true)) continue;
            const std::uint32_t answer = here.end.post(name);
            here.taken.store(false);
            if (answer == TLSF_OK) return;
        }
    }

public:
    class send_home {
        home *home_ = nullptr;
        tlsf_name name_{};
        friend class home;
        send_home(home *to, const tlsf_name &name) noexcept : home_(to), name_(name) {}

    public:
        send_home() noexcept = default;
        void operator()(T *) const noexcept { home_->send(name_); }
    };
    using pointer = std::unique_ptr<T, send_home>;

    // For at most `objects` objects at once, and pointers that die in at most `threads` threads, each 1 to 1,024.
    home(heap &owner, std::uint32_t objects, std::uint32_t threads)
        : heap_(owner.state_), queue_(threads, objects), desks_(new (std::nothrow) desk[threads]), threads_(threads), most_(objects) {
        if (!desks_) detail::no_room();
        for (std::uint32_t i = 0; i < threads; i++) desks_[i].end = queue_.open_poster();
    }
    home(const home &) = delete;
    home &operator=(const home &) = delete;
    // Once `out` is 0 the home may die, though a deleter may still be about to return: its desk is the last thing that it touches.
    ~home() {
        collect();
        for (std::uint32_t i = 0; i < threads_; i++)
            while (desks_[i].taken.load()) {}
    }

    // In the heap's thread. An empty pointer where the heap has no room, or as many objects are out as may be. What the
    // constructor of T throws comes through.
    template <typename... Args>
    [[nodiscard]] pointer make(Args &&...args) {
        tlsf_name name{};
        void *at = nullptr;
        if (out_ == most_) collect();
        if (out_ == most_ || !heap_ ||
            tlsf_allocate_at(tlsf_near(&heap_->held), sizeof(T), alignof(T), TLSF_UNFILLED, &name, &at) != TLSF_OK)
            return pointer();
        block held(heap_, name); // goes back where the constructor throws
        T *made = ::new (at) T(std::forward<Args>(args)...);
        held.detach();
        out_++;
        return pointer(made, send_home(this, name));
    }
    // In the heap's thread: destroys the objects whose pointers have died, and frees their blocks. How many they were.
    std::uint32_t collect() noexcept {
        std::uint32_t came = 0;
        while (const auto name = queue_.take()) {
            void *at = tlsf_payload(tlsf_near(&heap_->held), *name, nullptr);
            if (at) static_cast<T *>(at)->~T();
            tlsf_release(tlsf_near(&heap_->held), *name);
            out_--, came++;
        }
        return came;
    }
    // How many objects are out: made, and not yet collected.
    std::uint32_t out() const noexcept { return out_; }
};

} // namespace tlsf
#endif
