/* What the proved code asks c/memory.c for, for tests that stand between them: on Windows too it calls as on Linux. */
#ifndef PIECE_H
#define PIECE_H
#include <stddef.h>
#include <stdint.h>

#if defined(_WIN32) && defined(__x86_64__)
#define PAIR __attribute__((sysv_abi))
#else
#define PAIR
#endif

struct piece {
    uint64_t is_there;
    void *at;
};
PAIR struct piece __real_tlsf_memory_alloc(size_t bytes, size_t align);
PAIR struct piece __wrap_tlsf_memory_alloc(size_t bytes, size_t align);
#endif
