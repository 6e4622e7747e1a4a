// A heap of C++ to be looked at by gdb, with tools/package/tlsf-gdb.py, where this calls `look`.
#include <tlsf.hpp>
#include <tlsf_resource.hpp>
#include <utility>

[[gnu::noinline]] static void look() { asm volatile("" ::: "memory"); }

int main() {
    tlsf::heap moved(tlsf::level::four, 3, 64), heap = std::move(moved);
    auto *p = static_cast<unsigned char *>(tlsf::resource(heap).allocate(40));
    look();
    return *p == 0 ? 0 : 1;
}
