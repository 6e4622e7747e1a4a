/* Forks beside calls of malloc, with c/preload.c before them or without: no thread waits for ever, and the child's calls do well.
 * FORKED streams: a thread is in fflush(NULL), and waits for a stream, whose holder asks for memory. FORKED signal: a handler forks within
 * calls of malloc, and its child goes on with the call. FORKED handlers: what pthread_atfork has called asks for memory. Each ends
 * by a signal where a thread waits for long, and prints the line of what is wrong. */
#define _GNU_SOURCE
#include <pthread.h>
#include <signal.h>
#include <stdio.h>
#include <stdlib.h>
#include <string.h>
#include <sys/time.h>
#include <sys/wait.h>
#include <unistd.h>

#define HOLDS(it) ((it) ? (void)0 : wrong(__LINE__))
enum { FORKS = 100, PAUSE = 300000, SECONDS = 60 };

static FILE *stream;
static volatile sig_atomic_t forks, is_child;
static int asked; /* by handlers of forks */

static _Noreturn void wrong(int line) {
    printf("line %d\n", line);
    fflush(stdout);
    _exit(1);
}

static void ask(void) {
    void *const volatile p = malloc(5000);
    HOLDS(p);
    free(p);
}

static _Noreturn void end_child(void) {
    alarm(SECONDS);
    ask();
    _exit(0);
}

/* In the parent, once the child has ended well. */
static void wait_for(pid_t child) {
    int status;
    HOLDS(child > 0 && waitpid(child, &status, 0) == child && status == 0);
}

static void fork_once(void) {
    const pid_t child = fork();
    if (child == 0) end_child();
    wait_for(child);
}

/* --- Streams: each pause is longer than what comes in it takes ---------------------------------------------------------- */

static void *hold_stream(void *ready) {
    flockfile(stream);
    pthread_barrier_wait(ready);
    usleep(3 * PAUSE);
    ask();
    funlockfile(stream);
    return NULL;
}

static void *flush_all(void *ready) {
    pthread_barrier_wait(ready);
    fflush(NULL);
    return NULL;
}

static void beside_streams(void) {
    pthread_t holder, other;
    pthread_barrier_t ready;
    HOLDS((stream = fopen("/dev/null", "w")) && fputs("x", stream) >= 0 && pthread_barrier_init(&ready, NULL, 3) == 0);
    HOLDS(pthread_create(&holder, NULL, hold_stream, &ready) == 0 && pthread_create(&other, NULL, flush_all, &ready) == 0);
    pthread_barrier_wait(&ready);
    usleep(PAUSE);
    fork_once();
    HOLDS(pthread_join(holder, NULL) == 0 && pthread_join(other, NULL) == 0);
}

/* --- A signal ----------------------------------------------------------------------------------------------------------- */

static void on_signal(int number) {
    const pid_t child = fork();
    (void)number;
    is_child = child == 0;
    if (is_child) return;
    wait_for(child);
    forks++;
}

static void within_calls(void) {
    const struct itimerval often = {{0, 3000}, {0, 3000}};
    HOLDS(signal(SIGPROF, on_signal) != SIG_ERR && setitimer(ITIMER_PROF, &often, NULL) == 0);
    while (forks < FORKS) {
        ask();
        if (is_child) end_child();
    }
}

/* --- Handlers, which are there before those of a library that stands before the C library ------------------------------- */

static void on_fork(void) {
    ask();
    asked++;
}

static int is_kind(int count, char **words, const char *kind) { return count > 1 && strcmp(words[1], kind) == 0; }

/* Not where a signal handler forks: nothing that it calls may ask for memory. */
static void before_libraries(int count, char **words) {
    if (is_kind(count, words, "handlers")) HOLDS(pthread_atfork(on_fork, on_fork, on_fork) == 0);
}

__attribute__((section(".preinit_array"), used)) static void (*const first)(int, char **) = before_libraries;

static void *return_at_once(void *given) { return given; }

static void with_handlers(void) {
    pthread_t thread;
    HOLDS(pthread_create(&thread, NULL, return_at_once, NULL) == 0);
    fork_once();
    HOLDS(pthread_join(thread, NULL) == 0 && asked == 2);
}

int main(int count, char **words) {
    alarm(SECONDS);
    if (is_kind(count, words, "streams")) beside_streams();
    else if (is_kind(count, words, "signal")) within_calls();
    else if (is_kind(count, words, "handlers")) with_handlers();
    else return 2;
    puts("right");
    return 0;
}
