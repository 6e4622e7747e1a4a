/* Calls malloc and its kin, with c/preload.c before them: what is given keeps its bytes, is aligned and as long as it says, also where
 * a block moves to the C library; mallinfo2 counts it; four threads hand blocks to each other while their process forks. Prints the
 * line of what is wrong. `preloaded double` frees a block twice, which has to end it. */
#define _GNU_SOURCE
#include <dlfcn.h>
#include <errno.h>
#include <malloc.h>
#include <pthread.h>
#include <stdatomic.h>
#include <stdint.h>
#include <stdio.h>
#include <stdlib.h>
#include <string.h>
#include <sys/wait.h>
#include <unistd.h>

#define HOLDS(it) ((it) ? (void)0 : wrong(__LINE__))
enum { THREADS = 4, PLACES = 64, ROUNDS = 60000, FORKS = 300, SECONDS = 60 };

static _Atomic(unsigned char *) places[PLACES];
static void *large, *early; /* the first is given before the heap is open */
static volatile size_t too_many = SIZE_MAX / 2;

__attribute__((constructor)) static void before_main(void) {
    large = malloc(3 << 20);
    early = malloc(40);
}

static _Noreturn void wrong(int line) {
    printf("line %d\n", line);
    fflush(stdout);
    _exit(1);
}

static int is_all(const unsigned char *p, size_t n, int byte) {
    while (n > 0 && p[n - 1] == byte) n--;
    return n == 0;
}

static void lengths(void) {
    static const size_t asked[] = {0, 1, 24, 100, 5000, (1 << 20) - 1, (1 << 20) + 1, 9000000};
    for (size_t i = 0; i < sizeof asked / sizeof *asked; i++) {
        unsigned char *p = malloc(asked[i]), *q;
        HOLDS(p && (uintptr_t)p % 16 == 0 && malloc_usable_size(p) >= asked[i]);
        memset(p, 255, malloc_usable_size(p));
        free(p);
        q = calloc(asked[i] + 1, 3);
        HOLDS(q && is_all(q, 3 * asked[i] + 3, 0));
        free(q);
    }
    HOLDS(malloc_usable_size(NULL) == 0);
    free(NULL);
    HOLDS(!calloc(too_many, 3) && errno == ENOMEM);
}

/* From a block of the heap to one of the C library, and back to a short one. */
static void moves(void) {
    unsigned char *p = NULL;
    size_t had = 0;
    for (size_t n = 1; n < 6000000; n = 2 * n + 7) {
        HOLDS((p = realloc(p, n)) && is_all(p, had, 7));
        memset(p, 7, n);
        had = n;
    }
    HOLDS((p = realloc(p, 10)) && is_all(p, 10, 7));
    HOLDS((p = reallocarray(p, 100, 3)) && is_all(p, 10, 7));
    HOLDS(!reallocarray(p, too_many, 3) && is_all(p, 10, 7));
    free(p);
}

static void alignments(void) {
    void *p = &p;
    for (size_t align = 8; align <= 1 << 20; align *= 2) {
        HOLDS(posix_memalign(&p, align, 100) == 0 && (uintptr_t)p % align == 0);
        memset(p, 1, 100);
        free(p);
        HOLDS((p = aligned_alloc(align, 3 * align)) && (uintptr_t)p % align == 0);
        free(p);
        HOLDS((p = memalign(align, 24)) && (uintptr_t)p % align == 0);
        free(p);
    }
    errno = 0;
    HOLDS(posix_memalign(&p, 24, 8) == EINVAL && posix_memalign(&p, 4, 8) == EINVAL && errno == 0);
    HOLDS(posix_memalign(&p, 64, too_many) == ENOMEM && errno == ENOMEM);
    HOLDS((p = valloc(10)) && (uintptr_t)p % 4096 == 0);
    free(p);
    HOLDS((p = pvalloc(4097)) && (uintptr_t)p % 4096 == 0 && malloc_usable_size(p) >= 8192);
    free(p);
}

/* What mallinfo2 tells of blocks that are longer than the C library keeps for itself; mallinfo tells the same in fewer bits. */
static void sums(void) {
    enum { BLOCKS = 50, EACH = 9000 };
    void *blocks[BLOCKS];
    struct mallinfo (*volatile shorter)(void);
    const struct mallinfo2 before = mallinfo2();
    for (int i = 0; i < BLOCKS; i++) HOLDS((blocks[i] = malloc(EACH)));
    const struct mallinfo2 most = mallinfo2();
    HOLDS(most.uordblks >= before.uordblks + BLOCKS * EACH && most.uordblks <= before.uordblks + BLOCKS * (EACH + 100));
    HOLDS(most.arena == most.uordblks + most.fordblks && most.ordblks > 0);
    *(void **)&shorter = dlsym(RTLD_DEFAULT, "mallinfo"); /* a compiler warns of its name */
    HOLDS(shorter && shorter().uordblks == (int)most.uordblks && shorter().fordblks == (int)most.fordblks);
    for (int i = 0; i < BLOCKS; i++) free(blocks[i]);
    HOLDS(mallinfo2().uordblks <= most.uordblks - BLOCKS * EACH);
}

/* The report counts these. */
static void give_aligned(void) {
    void *p;
    for (int k = 0; k < 1000; k++) {
        HOLDS(posix_memalign(&p, (size_t)8192 << k % 6, 100) == 0 && (uintptr_t)p % 8192 == 0);
        free(p);
    }
}

/* Each block has its length in its first two bytes, and their sum in all others. */
static void *exchange(void *seed) {
    uint32_t chance = (uint32_t)(uintptr_t)seed * 2654435761u;
    for (int i = 0; i < ROUNDS; i++) {
        unsigned char *mine, *other;
        size_t n;
        chance = chance * 1664525u + 1013904223u;
        n = 2 + (chance >> 8) % 3000;
        HOLDS((mine = malloc(n)));
        mine[0] = (unsigned char)n;
        mine[1] = (unsigned char)(n >> 8);
        memset(mine + 2, mine[0] ^ mine[1], n - 2);
        other = atomic_exchange(&places[chance >> 26], mine);
        if (!other) continue;
        n = other[0] + 256u * other[1];
        HOLDS(is_all(other + 2, n - 2, other[0] ^ other[1]));
        free(other);
    }
    return NULL;
}

static void forks(void) {
    pthread_t threads[THREADS];
    int status;
    for (uintptr_t i = 0; i < THREADS; i++) HOLDS(pthread_create(&threads[i], NULL, exchange, (void *)(i + 1)) == 0);
    for (int i = 0; i < FORKS; i++) {
        const pid_t child = fork();
        if (child == 0) {
            void *p;
            alarm(5);
            p = malloc(200);
            free(realloc(p, 5000));
            _exit(p ? 0 : 1);
        }
        HOLDS(child > 0 && waitpid(child, &status, 0) == child && status == 0);
    }
    for (int i = 0; i < THREADS; i++) HOLDS(pthread_join(threads[i], NULL) == 0);
}

int main(int count, char **words) {
    alarm(SECONDS);
    HOLDS(large && early);
    free(large);
    free(early);
    if (count > 1 && strcmp(words[1], "double") == 0) {
        char *volatile p = malloc(100);
        char *volatile again = p;
        free(p);
        free(again);
        return 0;
    }
    if (count > 1 && strcmp(words[1], "aligned") == 0) {
        give_aligned();
        return 0;
    }
    lengths();
    moves();
    alignments();
    sums();
    forks();
    puts("right");
    return 0;
}
