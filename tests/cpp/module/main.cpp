// Calls what the module of heap.cppm exports.
import heap;

int main() {
    auto *const heap = opened();
    if (!heap) return 1;
    long *const two = make<long>(heap);
    if (!two || tlsf_usable_size(heap, two) < 2 * sizeof(long)) return 2;
    if (tlsf_free(heap, two) != 0 || tlsf_free(heap, two) == 0) return 3;
    return tlsf_malloc(heap, 8) && tlsf_text_of(0)[0] == 'd' ? 0 : 4;
}
