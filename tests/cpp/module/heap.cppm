// A module of C++20 that exports the header's inline calls, and a template that calls them. HEADER is <peachanchor.h> or <tlsf.hpp>.
module;
#include HEADER

export module heap;

static tlsf_heap heap;

export {
    using ::tlsf_free;
    using ::tlsf_malloc;
    using ::tlsf_text_of;
    using ::tlsf_usable_size;

    auto *opened() { return tlsf_open(&heap, 4, 1, 64) == TLSF_OK ? &heap : nullptr; }

    template <typename T, typename Heap> T *make(Heap * it) {
        void *const p = tlsf_malloc(it, sizeof(T));
        return static_cast<T *>(tlsf_realloc(it, p, 2 * sizeof(T)));
    }
}
