/* How many blocks of a length a region has room for. */
#include "bare.h"

int main(void) {
    static const uint32_t lengths[] = {8, 16, 20, 32, 64, 128, 256, 1024};
    for (int k = 0; k < 8; k++) {
        held it;
        uint32_t n = 0;
        if (!opens()) return 2;
        while (gets(&it, lengths[k])) n++;
        tell_number("blocks", n);
    }
    return 0;
}
