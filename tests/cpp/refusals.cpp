// With TLSF_CHECKED the program's function is told of what a container or a resource can't answer: a double free, and damage.
#define TLSF_CHECKED
#include "tlsf_resource.hpp"

#include <cstdint>
#include <cstdio>
#include <cstdlib>
#include <cstring>
#include <memory_resource>
#include <new>

namespace {

struct refusals {
    std::uint32_t answer = TLSF_OK;
    int count = 0;
};

void tell(tlsf_heap *, const char *, std::uint32_t answer, std::uint32_t, void *context) {
    auto *const told = static_cast<refusals *>(context);
    told->answer = answer;
    told->count++;
}

void wants(const char *what, bool so) {
    if (so) return;
    std::printf("refusals: %s\n", what);
    std::exit(1);
}

// One refusal, of this answer, since the last look.
void wants_told(const char *what, refusals &told, std::uint32_t answer) {
    wants(what, told.count == 1 && told.answer == answer);
    told = {};
}

template <typename Allocate>
void throws_no_room(const char *what, Allocate allocate) {
    try {
        allocate();
    } catch (const std::bad_alloc &) {
        return;
    }
    wants(what, false);
}

} // namespace

int main() {
    tlsf::heap heap(tlsf::level::four, 1, 4096);
    refusals told;
    wants("a function", tlsf_on_refusal(heap.get(), tell, &told) == TLSF_OK);

    tlsf::allocator<int> allocator(heap);
    int *const ints = allocator.allocate(4);
    allocator.deallocate(ints, 4);
    wants("a free is told of", told.count == 0);
    allocator.deallocate(ints, 4);
    wants_told("a double free by an allocator", told, TLSF_STALE);

    tlsf::resource resource(heap);
    std::pmr::memory_resource &memory = resource;
    void *const bytes = memory.allocate(40);
    memory.deallocate(bytes, 40);
    memory.deallocate(bytes, 40);
    wants_told("a double free by a resource", told, TLSF_STALE);

    tlsf::block block = heap.make(40);
    wants("released by its name", heap.release(block.name()) == TLSF_OK);
    block.reset();
    wants_told("a block that was released before", told, TLSF_STALE);

    // Past the end of a block lies the header of the free rest.
    unsigned char *volatile first = static_cast<unsigned char *>(memory.allocate(40));
    unsigned char kept[24];
    std::memcpy(kept, first + 40, sizeof kept);
    std::memset(first + 40, 0x5a, sizeof kept);
    throws_no_room("a request of a damaged block", [&] { (void)memory.allocate(400); });
    wants_told("a damaged block that would be given", told, TLSF_DAMAGED);
    memory.deallocate(first, 40);
    wants_told("a damaged neighbour", told, TLSF_DAMAGED);
    std::memcpy(first + 40, kept, sizeof kept);
    memory.deallocate(first, 40);
    wants("it is as before", told.count == 0);
}
