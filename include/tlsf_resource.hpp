// The heap of tlsf.hpp as a std::pmr::memory_resource, for C++17 and later. It throws std::bad_alloc where there is no room.
#ifndef TLSF_RESOURCE_HPP
#define TLSF_RESOURCE_HPP

// Behind a tlsf.h of compat/ some names of peachanchor.h are macros, which lead elsewhere.
#ifdef TLSF_COMPAT
#error "tlsf_resource.hpp comes before a tlsf.h of compat/"
#endif
#include "tlsf.hpp"

#include <memory_resource>

namespace tlsf {

// The heap under what takes a std::pmr::memory_resource, in one thread at a time. Any alignment; std::bad_alloc where there
// is no room. It adds nothing to what tlsf_malloc takes. Two resources over one heap are equal. A container that still holds
// objects goes before its heap does, since they lie in the heap's memory.
class resource : public std::pmr::memory_resource {
    detail::heap_reference heap_;

    void *do_allocate(std::size_t bytes, std::size_t align) override {
        void *p = heap_ ? tlsf_aligned_alloc(tlsf_near(&heap_->held), align, bytes) : nullptr;
        if (!p) detail::no_room();
        return p;
    }
    void do_deallocate(void *p, std::size_t, std::size_t) override { tlsf_free(tlsf_near(&heap_->held), p); }
    bool do_is_equal(const std::pmr::memory_resource &other) const noexcept override { return is_over_one_heap(&other); }

    bool is_over_one_heap(const std::pmr::memory_resource *other) const noexcept {
#if defined(__cpp_rtti)
        const auto *same = dynamic_cast<const resource *>(other);
        return same && same->heap_ == heap_;
#else
        return other == this;
#endif
    }

public:
    explicit resource(heap &owner) noexcept : heap_(owner.state_) {}
    // Copied also where it is moved: containers may have the address of the one that is moved from.
    resource(const resource &) noexcept = default;
    resource &operator=(const resource &) noexcept = default;
};

} // namespace tlsf
#endif
