/* A program with no C library: it links libpeachanchor_nomalloc.a, three functions of its own that fill and copy, and nothing else. It
 * allocates, writes, frees and closes in a static array, and ends with 0 where all is as it should be.
 * Build with -nostdlib -static -O2, for x86-64, aarch64, armv7 or riscv64 Linux. */
#include "peachanchor.h"

static _Alignas(16) unsigned char memory[1 << 16];

/* Loops, where a compiler would call them by themselves. */
void *memset(void *to, int byte, size_t n) {
    for (volatile char *p = to; n--; p++) *p = (char)byte;
    return to;
}
void *memcpy(void *restrict to, const void *restrict from, size_t n) {
    const char *q = from;
    for (volatile char *p = to; n--; p++) *p = *q++;
    return to;
}

void *memmove(void *to, const void *from, size_t n) {
    volatile char *p = to;
    const volatile char *q = from;
    if ((uintptr_t)to - (uintptr_t)from >= n)
        for (size_t i = 0; i < n; i++) p[i] = q[i];
    else
        while (n--) p[n] = q[n];
    return to;
}

#ifdef __x86_64__
static long system_call(long number, long first, const void *second) {
    long answer;
    __asm__ volatile("syscall" : "=a"(answer) : "a"(number), "D"(first), "S"(second) : "rcx", "r11", "memory");
    return answer;
}

static void end(int status) { system_call(60, status, 0); }

/* The thread's own variables lie in front of where fs points. */
static void own_variables(void) {
    static _Alignas(16) unsigned char own[256];
    void **const thread = (void **)(void *)(own + sizeof own - 16);
    *thread = thread;
    if (system_call(158, 0x1002, thread) != 0) end(9); /* arch_prctl, ARCH_SET_FS */
}
#define BEGINS __attribute__((force_align_arg_pointer))
#elif defined(__riscv)
static _Alignas(16) unsigned char own[256];
static void end(int status) {
    register long number __asm__("a7") = 93, first __asm__("a0") = status;
    __asm__ volatile("ecall" : : "r"(number), "r"(first) : "memory");
}

/* The thread's own variables begin where tp points, and gp is what linkers count from. The place of one is asked for, less 2,048. */
static void own_variables(void) {
    __asm__ volatile(".option push\n.option norelax\nla gp, __global_pointer$\n.option pop\nmv tp, %0" : : "r"(own) : "memory");
}
void *__tls_get_addr(const size_t *place);
void *__tls_get_addr(const size_t *place) { return own + place[1] + 2048; }
#define BEGINS
#elif defined(__arm__)
/* It doesn't come back, so r7 is nobody's. */
static void end(int status) {
    register long first __asm__("r0") = status;
    __asm__ volatile("mov r7, #1\n\tsvc 0" : : "r"(first) : "memory");
}

static void own_variables(void) {}
void *__tls_get_addr(const size_t *place);
void *__tls_get_addr(const size_t *place) {
    static _Alignas(16) unsigned char own[256];
    return own + place[1];
}

/* libgcc's division calls it where the divisor is 0. */
int raise(int number);
int raise(int number) {
    end(number);
    return 0;
}
#define BEGINS
#else
static void end(int status) {
    register long number __asm__("x8") = 93, first __asm__("x0") = status;
    __asm__ volatile("svc 0" : : "r"(number), "r"(first) : "memory");
}

/* The thread's own variables lie 16 bytes behind where tpidr_el0 points. */
static void own_variables(void) {
    static _Alignas(16) unsigned char own[256];
    __asm__ volatile("msr tpidr_el0, %0" : : "r"(own) : "memory");
}
#define BEGINS
#endif

static int uses_heap(void) {
    static struct tlsf_heap heap = TLSF_CLOSED;
    if (tlsf_open(&heap, 4, 1, 64) != TLSF_NO_MEMORY || tlsf_open_in(&heap, 4, 1, memory, sizeof memory) != TLSF_OK) return 1;
    unsigned char *p = tlsf_malloc(&heap, 1000), *q = tlsf_calloc(&heap, 10, 10);
    if (!p || !q || q[99] != 0) return 2;
    p[999] = 7;
    p = tlsf_realloc(&heap, p, 5000);
    if (!p || p[999] != 7) return 3;
    if (tlsf_free(&heap, p) || tlsf_free(&heap, q) || tlsf_free(&heap, p) != TLSF_STALE) return 4;
    return tlsf_close(&heap) == TLSF_OK ? 0 : 5;
}

/* What a C library does at a program's start. */
void begin(void);
BEGINS void begin(void) {
    own_variables();
    end(uses_heap());
}
