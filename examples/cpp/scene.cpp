// A scene of a game: its objects, their names and their index lie in one heap, which is closed with it.
#include <tlsf.hpp>
#include <tlsf_resource.hpp>

#include <cstdio>
#include <map>
#include <memory_resource>
#include <string>
#include <vector>

struct alignas(32) transform {
    float rows[8];
};

struct object {
    std::pmr::string name;
    std::pmr::vector<transform> bones;

    explicit object(std::pmr::memory_resource *memory) : name(memory), bones(memory) {}
};

int main() {
    tlsf::heap heap(tlsf::level::five, 1, 1 << 17); // 1 MiB
    {
        tlsf::resource memory(heap);
        std::pmr::vector<object> objects(&memory);
        std::map<int, std::size_t, std::less<int>, tlsf::allocator<std::pair<const int, std::size_t>>> by_id(heap);
        for (int id = 0; id < 200; id++) {
            object it(&memory);
            it.name = "an object of the scene, number " + std::to_string(id);
            it.bones.resize(static_cast<std::size_t>(id % 7));
            by_id[id] = objects.size();
            objects.push_back(std::move(it));
        }
        std::printf("%s has %zu bones\n", objects[by_id[41]].name.c_str(), objects[by_id[41]].bones.size());
        try {
            objects.resize(1000000, object(&memory));
        } catch (const std::bad_alloc &) {
            std::printf("a million objects don't fit, and %zu stay\n", objects.size());
        }
    }
    tlsf::block scratch = heap.make(4096); // released with this name, or by scratch.reset()
    const tlsf_heap_report report = heap.report();
    std::printf("scratch of %u bytes, and else %u blocks are live\n", scratch.size(), report.live_blocks - 1);
}
