/* Stands before the C library (LD_PRELOAD) and refuses a growth of memory, a read, a write or the start of a thread.
 *
 * A realloc that asks for no more than the block has already is no growth: where it is refused, the block serves as it is.
 *
 * REFUSE_GROWTH, REFUSE_READ, REFUSE_THREAD: which one is refused, counted from 1; all others are let through.
 * READ_BYTES: how many bytes one read hands out at most.
 * OUTPUT_BYTES: how many bytes standard output takes in all; then writes to it fail or, with OUTPUT_THEN=0, take no byte.
 * COUNTS: a file that gets 'GROWTHS READS THREADS' as they were asked for, and how many were refused.
 */
#define _GNU_SOURCE
#include <dlfcn.h>
#include <errno.h>
#include <malloc.h>
#include <pthread.h>
#include <stdatomic.h>
#include <stdio.h>
#include <stdlib.h>
#include <sys/syscall.h>
#include <unistd.h>

struct refusals {
    const char *name;
    long which;
    atomic_long asked;
};

static struct refusals growths = {"REFUSE_GROWTH"}, reads = {"REFUSE_READ"}, threads = {"REFUSE_THREAD"};
static long read_bytes, output_bytes;
static int takes_none;
static atomic_long refused;

static long number(const char *name, long otherwise) {
    const char *text = getenv(name);
    return text ? atol(text) : otherwise;
}

__attribute__((constructor)) static void start(void) {
    growths.which = number(growths.name, 0);
    reads.which = number(reads.name, 0);
    threads.which = number(threads.name, 0);
    read_bytes = number("READ_BYTES", -1);
    output_bytes = number("OUTPUT_BYTES", -1);
    takes_none = !number("OUTPUT_THEN", 1);
}

static void tell_counts(void) {
    const char *path = getenv("COUNTS");
    long counts[] = {growths.asked, reads.asked, threads.asked, refused};
    growths.which = 0;
    FILE *file = path ? fopen(path, "w") : NULL;
    if (file) {
        fprintf(file, "%ld %ld %ld %ld\n", counts[0], counts[1], counts[2], counts[3]);
        fclose(file);
    }
}

/* A program that may start threads ends by _exit, any other by exit. */
__attribute__((destructor)) static void end(void) { tell_counts(); }

void _exit(int status) {
    tell_counts();
    for (;;) syscall(SYS_exit_group, status);
}

static int is_refused(struct refusals *of) {
    if (atomic_fetch_add(&of->asked, 1) + 1 != of->which) return 0;
    refused++;
    return 1;
}

void *malloc(size_t size) {
    extern void *__libc_malloc(size_t);
    return is_refused(&growths) ? NULL : __libc_malloc(size);
}

void *realloc(void *old, size_t size) {
    extern void *__libc_realloc(void *, size_t);
    int grows = size > malloc_usable_size(old);
    return grows && is_refused(&growths) ? NULL : __libc_realloc(old, size);
}

ssize_t read(int file, void *into, size_t size) {
    if (is_refused(&reads)) {
        errno = EIO;
        return -1;
    }
    return syscall(SYS_read, file, into, read_bytes >= 0 && (size_t)read_bytes < size ? (size_t)read_bytes : size);
}

ssize_t write(int file, const void *from, size_t size) {
    if (file == 1 && output_bytes >= 0 && size > (size_t)output_bytes) {
        if (!output_bytes) {
            refused++;
            errno = EIO;
            return takes_none ? 0 : -1;
        }
        size = output_bytes;
    }
    ssize_t taken = syscall(SYS_write, file, from, size);
    if (file == 1 && output_bytes >= 0 && taken > 0) output_bytes -= taken;
    return taken;
}

ssize_t __write(int file, const void *from, size_t size) { return write(file, from, size); }

int pthread_create(pthread_t *thread, const pthread_attr_t *how, void *(*run)(void *), void *with) {
    int (*create)(pthread_t *, const pthread_attr_t *, void *(*)(void *), void *) = dlsym(RTLD_NEXT, "pthread_create");
    return is_refused(&threads) ? EAGAIN : create(thread, how, run, with);
}
