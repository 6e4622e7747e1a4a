/* Two programs with one heap in shared memory, which both map at the same address, one of them in a call at a time. Handle, lock and
 * heap lie in that memory. The second program is another process of this one, behind an exec, so all else of it lies elsewhere.
 * Each frees blocks of the other's. SHARED [CALLS] */
#define _GNU_SOURCE
#include "peachanchor.h"

#include <pthread.h>
#include <stdio.h>
#include <stdlib.h>
#include <string.h>
#include <sys/mman.h>
#include <sys/wait.h>
#include <unistd.h>

enum { BYTES = 1 << 20, MOST = 200 };

struct shared {
    struct tlsf_heap heap;
    pthread_mutex_t lock;
    struct block {
        unsigned char *p;
        uint32_t len;
        unsigned char byte, of_second;
    } blocks[MOST];
    uint32_t live, freed_of_other;
    _Alignas(16) unsigned char memory[BYTES];
};

/* Where no program has anything else. */
static struct shared *const it = (struct shared *)0x200000000000;

static int map(int file) { return mmap(it, sizeof *it, PROT_READ | PROT_WRITE, MAP_SHARED | MAP_FIXED_NOREPLACE, file, 0) != it; }

static int holds(const struct block *b) {
    for (uint32_t k = 0; k < b->len; k++)
        if (b->p[k] != b->byte) return 0;
    return 1;
}

static int free_one(uint32_t k, unsigned char is_second) {
    if (!holds(&it->blocks[k]) || tlsf_free(&it->heap, it->blocks[k].p) != TLSF_OK) return 0;
    it->freed_of_other += it->blocks[k].of_second != is_second;
    it->blocks[k] = it->blocks[--it->live];
    return 1;
}

static int make_calls(long calls, unsigned char is_second) {
    uint32_t state = 12345u + is_second;
    for (long i = 0; i < calls; i++) {
        int right = 1;
        if (pthread_mutex_lock(&it->lock)) return 0;
        state = state * 1664525u + 1013904223u;
        if (it->live < MOST && state >> 30) {
            struct block *b = &it->blocks[it->live];
            *b = (struct block){NULL, 1 + (state >> 8) % 2000, (unsigned char)(state >> 20), is_second};
            if ((b->p = tlsf_malloc(&it->heap, b->len))) {
                memset(b->p, b->byte, b->len);
                it->live++;
            }
        } else if (it->live) right = free_one((state >> 8) % it->live, is_second);
        if (pthread_mutex_unlock(&it->lock) || !right) return 0;
    }
    return 1;
}

static int open_shared(int file) {
    pthread_mutexattr_t of_all;
    return ftruncate(file, sizeof *it) || map(file) || pthread_mutexattr_init(&of_all) ||
           pthread_mutexattr_setpshared(&of_all, PTHREAD_PROCESS_SHARED) || pthread_mutex_init(&it->lock, &of_all) ||
           tlsf_open_in(&it->heap, 4, 1, it->memory, sizeof it->memory) != TLSF_OK;
}

int main(int argc, char **argv) {
    const long calls = argc > 1 ? atol(argv[1]) : 20000;
    char word[16];
    int file, status = 1;
    struct tlsf_heap_report report;
    alarm(60); /* no process waits for ever for one that ended with the lock */
    if (argc > 2) return map(atoi(argv[2])) || !make_calls(calls, 1);
    if ((file = memfd_create("heap", 0)) < 0 || open_shared(file)) return 1;
    snprintf(word, sizeof word, "%d", file);
    const pid_t second = fork();
    if (second < 0) return 1;
    if (!second) {
        execl("/proc/self/exe", argv[0], argc > 1 ? argv[1] : "20000", word, (char *)NULL);
        _exit(1);
    }
    if (!make_calls(calls, 0) || waitpid(second, &status, 0) != second || status) return 1;
    const uint32_t by_other = it->freed_of_other;
    while (it->live)
        if (!free_one(it->live - 1, 0)) return 1;
    if (tlsf_report(&it->heap, &report) || report.live_blocks || report.free_blocks != 1 || !by_other) return 1;
    return tlsf_close(&it->heap) != TLSF_OK;
}
