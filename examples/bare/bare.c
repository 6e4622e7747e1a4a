/* A heap with no system below it and no C library: it lies in a static array, fills and copies by the functions here, and prints over
 * the serial port: on qemu's machine `virt` for aarch64 and riscv64, and on its PC for x86-64. A board has other addresses for the port.
 * The start files switch on what the calls need: on aarch64 memory that is cached, and there and on x86-64 the registers of vectors. */
#include <peachanchor.h>

enum { BLOCKS = 40, NAMES = 8 };

static unsigned char memory[1 << 16], lane_memory[4096];
static struct tlsf_heap heap = TLSF_CLOSED;
static struct tlsf_post_end post = TLSF_POST_CLOSED;
static struct tlsf_take_end take = TLSF_TAKE_CLOSED;

/* Volatile, so that no compiler makes a call of the function out of its own loop. */
void *memset(void *to, int byte, size_t n) {
    for (volatile unsigned char *p = to; n-- != 0; p++) *p = (unsigned char)byte;
    return to;
}
void *memmove(void *to, const void *from, size_t n) {
    volatile unsigned char *p = to;
    const volatile unsigned char *q = from;
    const bool is_forward = (uintptr_t)to - (uintptr_t)from >= n;
    for (size_t i = 0; i < n; i++) {
        const size_t at = is_forward ? i : n - 1 - i;
        p[at] = q[at];
    }
    return to;
}
void *memcpy(void *restrict to, const void *restrict from, size_t n) { return memmove(to, from, n); }

#ifdef __x86_64__
static void out(uint16_t port, uint8_t byte) { __asm__ volatile("outb %0, %1" : : "a"(byte), "Nd"(port)); }
static void put(char c) { out(0x3f8, (uint8_t)c); }

/* Switches the PC off, by ACPI; or with a status other than 0 by the device isa-debug-exit: qemu's is then 2 * status + 1. */
static void end(uint32_t status) {
    if (status != 0) out(0xf4, (uint8_t)status);
    __asm__ volatile("outw %0, %1" : : "a"((uint16_t)0x2000), "Nd"((uint16_t)0x604));
    for (;;) __asm__ volatile("hlt");
}
#elif defined(__riscv)
static void put(char c) { *(volatile uint8_t *)0x10000000 = (uint8_t)c; }

/* Switches the machine off, which gives qemu that status. */
static void end(uint32_t status) { *(volatile uint32_t *)0x100000 = status == 0 ? 0x5555 : status << 16 | 0x3333; }
#else
static void put(char c) { *(volatile uint32_t *)0x09000000 = (uint32_t)c; }

/* Ends qemu with that status, by semihosting. */
static void end(uint32_t status) {
    const uint64_t what[2] = {0x20026, status};
    register uint64_t number __asm__("x0") = 0x20;
    register const uint64_t *at __asm__("x1") = what;
    __asm__ volatile("hlt #0xf000" : "+r"(number) : "r"(at) : "memory");
}
#endif

static void say(const char *text) {
    while (*text) put(*text++);
}

static void say_number(const char *before, uint32_t n, const char *behind) {
    char digits[10];
    int count = 0;
    say(before);
    do digits[count++] = (char)('0' + n % 10);
    while ((n /= 10) != 0);
    while (count != 0) put(digits[--count]);
    say(behind);
}

/* Blocks of many lengths, each with bytes of its own; half of them grow. */
static bool uses_pointers(void) {
    unsigned char *block[BLOCKS];
    for (uint32_t i = 0; i < BLOCKS; i++) {
        block[i] = tlsf_malloc(&heap, 20 * i + 1);
        if (!block[i] || (uintptr_t)block[i] % TLSF_ALIGN != 0) return false;
        memset(block[i], (int)i, 20 * i + 1);
    }
    for (uint32_t i = 0; i < BLOCKS; i += 2) block[i] = tlsf_realloc(&heap, block[i], 40 * i + 1);
    for (uint32_t i = 0; i < BLOCKS; i++)
        for (uint32_t k = 0; k < 20 * i + 1; k++)
            if (!block[i] || block[i][k] != i) return false;
    for (uint32_t i = 0; i < BLOCKS; i++)
        if (tlsf_free(&heap, block[i]) != TLSF_OK) return false;
    say("a double free: ");
    say(tlsf_text_of(tlsf_free(&heap, block[7])));
    say("\n");
    return true;
}

/* Names that go through a lane, as from an interrupt to what owns the heap. */
static bool uses_names(void) {
    struct tlsf_name name;
    uint32_t came = 0;
    for (int i = 0; i < NAMES; i++)
        if (tlsf_allocate(&heap, 64, &name) != TLSF_OK || tlsf_put(&post, name) != TLSF_OK) return false;
    if (tlsf_put(&post, name) != TLSF_FULL || tlsf_drain(&heap, &take, 2 * NAMES, &came) != TLSF_OK) return false;
    say_number("names that came: ", came, "\n");
    return came == NAMES && tlsf_release(&heap, name) == TLSF_STALE;
}

static bool uses_heap(void) {
    struct tlsf_heap_report report;
    if (tlsf_open(&heap, 4, 1, 64) != TLSF_NO_MEMORY || tlsf_open_in(&heap, 4, 1, memory, sizeof memory) != TLSF_OK) return false;
    if (tlsf_lane_open_in(&post, &take, NAMES, lane_memory, sizeof lane_memory) != TLSF_OK) return false;
    if (!uses_pointers() || !uses_names() || tlsf_report(&heap, &report) != TLSF_OK) return false;
    say_number("free at the end: ", report.free_words, " words");
    say_number(" in ", report.free_blocks, " block\n");
    return report.live_blocks == 0 && !tlsf_post_close(&post) && !tlsf_take_close(&take) && !tlsf_close(&heap);
}

int main(void) {
    const bool is_right = uses_heap();
    say(is_right ? "right\n" : "wrong\n");
    end(is_right ? 0 : 1);
    return 0;
}
