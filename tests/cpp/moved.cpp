// Allocators and resources keep their heap where they are moved from, as the standard asks ([allocator.requirements]). So a
// container that was moved from can be destroyed, assigned to and filled again.
#include "tlsf.hpp"
#include "tlsf_resource.hpp"

#include <cstdio>
#include <cstdlib>
#include <deque>
#include <functional>
#include <list>
#include <map>
#include <memory_resource>
#include <string>
#include <unordered_map>
#include <utility>
#include <vector>

namespace {

template <typename T>
using over = tlsf::allocator<T>;

void wants(const char *what, bool so) {
    if (so) return;
    std::printf("moved: %s\n", what);
    std::exit(1);
}

template <typename C, typename Put>
void container_is_used_again(const char *what, tlsf::heap &heap, Put put) {
    C a(over<typename C::value_type>{heap}), first(over<typename C::value_type>{heap});
    put(a);
    C b(std::move(a));
    wants(what, a.get_allocator() == b.get_allocator());
    a = first;
    put(a);
    wants(what, a.size() == 1 && b.size() == 1);
}

void containers_are_used_again(tlsf::heap &heap) {
    const auto push = [](auto &it) { it.push_back(1); };
    const auto enter = [](auto &it) { it[1] = 1; };
    container_is_used_again<std::vector<int, over<int>>>("a vector", heap, push);
    container_is_used_again<std::list<int, over<int>>>("a list", heap, push);
    container_is_used_again<std::deque<int, over<int>>>("a deque", heap, push);
    container_is_used_again<std::map<int, int, std::less<int>, over<std::pair<const int, int>>>>("a map", heap, enter);
    container_is_used_again<std::unordered_map<int, int, std::hash<int>, std::equal_to<int>, over<std::pair<const int, int>>>>(
        "an unordered map", heap, enter);
}

void allocator_is_moved(tlsf::heap &heap) {
    over<int> a(heap), b(std::move(a));
    wants("an allocator that was moved from", a == b);
    tlsf::heap other(tlsf::level::four, 2, 4096);
    over<int> c(other);
    c = std::move(b);
    wants("an allocator that was assigned", c == a && b == a);
}

void string_is_assigned_again(tlsf::heap &heap) {
    using string = std::basic_string<char, std::char_traits<char>, over<char>>;
    string s("longer than the small buffer of any string", over<char>(heap)), t(std::move(s));
    s = "again longer than the small buffer of any string";
    wants("a string", s.size() == 48 && t.size() == 42);
}

// As a function that makes one gives it to its caller.
struct scene {
    tlsf::resource memory;
    explicit scene(tlsf::heap &heap) : memory(heap) {}
};

void resource_is_moved(tlsf::heap &heap) {
    scene first(heap);
    std::pmr::vector<int> numbers(100, 1, &first.memory);
    scene second(std::move(first));
    wants("a resource that was moved from", first.memory == second.memory);
    numbers.reserve(1000);
    numbers = std::pmr::vector<int>(&second.memory);
    wants("a vector over it", numbers.empty());
}

} // namespace

int main() {
    tlsf::heap heap(tlsf::level::four, 1, 1 << 14);
    allocator_is_moved(heap);
    containers_are_used_again(heap);
    string_is_assigned_again(heap);
    resource_is_moved(heap);
    wants("all is back", heap.report().live_blocks == 0);
}
