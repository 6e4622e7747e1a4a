/* Stands before the C library (LD_PRELOAD) and keeps each thread on a processor of its own, of those that the process may use: the first
 * thread on the first of them, and each that is started on the next, all over again from the first behind the last. One processor of each
 * core comes first, then the second ones, since two of one core share its caches. */
#define _GNU_SOURCE
#include <dlfcn.h>
#include <pthread.h>
#include <sched.h>
#include <stdatomic.h>
#include <stdio.h>

static int order[CPU_SETSIZE], count;
static atomic_int started;

/* The least processor of its core; its own number where the system doesn't tell. */
static int core_of(int processor) {
    char path[80];
    int core = processor;
    snprintf(path, sizeof path, "/sys/devices/system/cpu/cpu%d/topology/thread_siblings_list", processor);
    FILE *file = fopen(path, "r");
    if (file) {
        if (fscanf(file, "%d", &core) != 1) core = processor;
        fclose(file);
    }
    return core;
}

/* The processor of the thread that is started as number `number`, from 0. */
static cpu_set_t processor_of(int number) {
    cpu_set_t one;
    CPU_ZERO(&one);
    CPU_SET(order[number % count], &one);
    return one;
}

__attribute__((constructor)) static void start(void) {
    cpu_set_t may;
    int core[CPU_SETSIZE], placed[CPU_SETSIZE] = {0};
    CPU_ZERO(&may);
    if (sched_getaffinity(0, sizeof may, &may) || !CPU_COUNT(&may)) CPU_SET(0, &may);
    for (int at = 0; at < CPU_SETSIZE; at++)
        if (CPU_ISSET(at, &may)) core[at] = core_of(at);
    while (count < CPU_COUNT(&may)) {
        int used[CPU_SETSIZE] = {0};
        for (int at = 0; at < CPU_SETSIZE; at++)
            if (CPU_ISSET(at, &may) && !placed[at] && !used[core[at] % CPU_SETSIZE]) {
                used[core[at] % CPU_SETSIZE] = 1;
                placed[at] = 1;
                order[count++] = at;
            }
    }
    const cpu_set_t one = processor_of(0);
    sched_setaffinity(0, sizeof one, &one);
}

/* Under SCHED_FIFO a thread that spins keeps its processor, so a new one begins on its own wherever its maker leaves that open. */
int pthread_create(pthread_t *thread, const pthread_attr_t *how, void *(*run)(void *), void *with) {
    int (*create)(pthread_t *, const pthread_attr_t *, void *(*)(void *), void *) = dlsym(RTLD_NEXT, "pthread_create");
    const cpu_set_t one = processor_of(atomic_fetch_add(&started, 1) + 1);
    pthread_attr_t own;
    if (!how && !pthread_attr_init(&own)) {
        pthread_attr_setaffinity_np(&own, sizeof one, &one);
        how = &own;
    }
    const int answer = create(thread, how, run, with);
    if (!answer && how != &own) pthread_setaffinity_np(*thread, sizeof one, &one);
    return answer;
}
