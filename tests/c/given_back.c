/* Stands before the C library (LD_PRELOAD), and counts the bytes that a program takes by malloc and its kin. At the program's end it
 * writes to standard error how many it took, and how many it did not give back. Of a program of Rattle these are those of Global: so it
 * shows that what an arena took goes back when it is dropped, which no clause says (docs/NOT_PROVED.md).
 *
 * With -DKEEPS it is a program of its own that keeps what it took. */
#include <fcntl.h>
#include <malloc.h>
#include <stddef.h>
#include <stdio.h>
#include <unistd.h>

void *__libc_malloc(size_t);
void *__libc_calloc(size_t, size_t);
void *__libc_realloc(void *, size_t);
void *__libc_memalign(size_t, size_t);
void __libc_free(void *);

static size_t taken, given_back;
static int standard_error;

/* A program may close its own at the end. */
__attribute__((constructor)) static void keep_standard_error(void) { standard_error = fcntl(STDERR_FILENO, F_DUPFD_CLOEXEC, 100); }

static void *took(void *p) {
    if (p) __atomic_fetch_add(&taken, malloc_usable_size(p), __ATOMIC_SEQ_CST);
    return p;
}

static void gives(void *p) {
    if (p) __atomic_fetch_add(&given_back, malloc_usable_size(p), __ATOMIC_SEQ_CST);
}

void *malloc(size_t n) { return took(__libc_malloc(n)); }

void *calloc(size_t count, size_t each) { return took(__libc_calloc(count, each)); }

void *aligned_alloc(size_t align, size_t n) { return took(__libc_memalign(align, n)); }

int posix_memalign(void **to, size_t align, size_t n) {
    void *p = took(__libc_memalign(align, n));
    if (p) *to = p;
    return p ? 0 : 12;
}

void *realloc(void *p, size_t n) {
    const size_t had = p ? malloc_usable_size(p) : 0;
    void *moved = __libc_realloc(p, n);
    if (!moved && n) return NULL;
    __atomic_fetch_add(&given_back, had, __ATOMIC_SEQ_CST);
    return took(moved);
}

void free(void *p) {
    gives(p);
    __libc_free(p);
}

__attribute__((destructor)) static void tell(void) {
    char line[96];
    const int n = snprintf(line, sizeof line, "%zu bytes taken, %zu not given back\n", taken, taken - given_back);
    if (write(standard_error, line, (size_t)n) != n) _exit(1);
}

#ifdef KEEPS
int main(void) {
    static void *volatile kept;
    kept = malloc(100);
    return !kept;
}
#endif
