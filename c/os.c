/* What the program tlsf calls of the toolchain's own C functions, over the C library of Linux. The toolchain has these in libos_c.a and
 * liblibc_c.a. With this a C compiler links the program without them: `cc dist/program-x86_64.s c/os.c -pthread`. All else that it calls
 * is the C library's own.
 *
 * The proofs rest on their contracts:
 * - alloc is asked for less than 2^63 bytes, aligned to 1, 2, 4, 8 or 16. Where it answers 1, so many bytes lie at `at`, so
 *   aligned, which are the caller's alone until it gives them back. Where it answers 0, `at` is some pointer that isn't null, to
 *   which nothing is written. A piece of 0 bytes is one too, with an address of its own, and is given back.
 * - realloc is asked to make a piece one of `bytes`, of the same alignment, whose first `kept` stay. Neither the old length nor the
 *   new one is less than `kept`. It may move the piece; where it answers 0, all is as before.
 * - dealloc is called once for each such piece, with its `at`.
 * - arg puts argument `i` at the start of `room` bytes and answers its length. The first is the name of the program. It answers -1
 *   where there is no such argument, and -2 where that doesn't fit; then all the room is filled. No 0 is put behind it.
 * - errno and set_errno read and write C's errno. Of other calls in between they promise nothing.
 * C answers a piece in two registers, as the proved code takes it: rax and rdx, or x0 and x1. */
#include <errno.h>
#include <stddef.h>
#include <stdint.h>
#include <stdlib.h>

#ifndef __GLIBC__
#error "Of the C libraries only glibc is known to give the arguments to what runs before main."
#endif

struct piece {
    uint64_t is_there;
    void *at;
};
struct piece rattle_alloc(size_t bytes, size_t align);
struct piece rattle_realloc(void *at, size_t kept, size_t bytes, size_t align);
void rattle_dealloc(void *at);
int64_t rattle_arg(size_t i, char *to, size_t room);
int32_t rattle_errno(void);
void rattle_set_errno(int32_t error);

_Static_assert(_Alignof(max_align_t) >= 16, "malloc aligns by 16");

static struct piece piece_at(void *at) {
    static uint64_t nothing;
    return (struct piece){at != NULL, at ? at : &nothing};
}

/* malloc may answer NULL to a request for 0 bytes, and realloc may free at one. */
struct piece rattle_alloc(size_t bytes, size_t align) {
    return piece_at(malloc(bytes ? bytes : align));
}

struct piece rattle_realloc(void *at, size_t kept, size_t bytes, size_t align) {
    (void)kept;
    return piece_at(realloc(at, bytes ? bytes : align));
}

void rattle_dealloc(void *at) { free(at); }

static size_t count;
static char **words;

__attribute__((constructor)) static void keep_arguments(int argc, char **argv) {
    count = (size_t)argc;
    words = argv;
}

int64_t rattle_arg(size_t i, char *to, size_t room) {
    if (i >= count) return -1;
    for (size_t n = 0;; n++) {
        if (!words[i][n]) return (int64_t)n;
        if (n == room) return -2;
        to[n] = words[i][n];
    }
}

int32_t rattle_errno(void) { return errno; }

void rattle_set_errno(int32_t error) { errno = error; }
