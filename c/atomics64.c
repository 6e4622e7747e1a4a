/* Atomic steps of 64 bits on processors of 32 bits that have none: Cortex-M and riscv32. Lanes, queues and tlsf_next_number make them, as
 * calls that compilers know by these names. Heaps, arenas of offsets and pools make none. On other processors nothing is here.
 *
 * For one core. Each step masks interrupts for some ten instructions, so code that interrupts may be masked by makes them: on Cortex-M
 * privileged code, on riscv32 machine mode. dist/tlsf.S has these functions, weak, so that a program's own, or a board's, are taken in
 * their place.
 *
 * Two cores that share a lane, a queue or that count want a lock of the board's. A program gives two macros for that, and compiles this
 * file besides dist/tlsf.S. The first one is for a declaration, and may keep in it what the second one hands back:
 *
 *     #define TLSF_ATOMIC_BEGIN const uint32_t had = spin_lock_blocking(my_lock)
 *     #define TLSF_ATOMIC_END spin_unlock(my_lock, had)
 *
 * The lock masks interrupts of its core besides, where handlers make calls too. All cores get the same functions. */
typedef __UINT32_TYPE__ uint32_t;
typedef __UINT64_TYPE__ uint64_t;

#if defined(TLSF_ATOMIC_BEGIN) || (defined(__arm__) && __ARM_ARCH_PROFILE == 'M') || (defined(__riscv) && __riscv_xlen == 32)

#if defined(TLSF_ATOMIC_BEGIN) != defined(TLSF_ATOMIC_END)
#error "TLSF_ATOMIC_BEGIN and TLSF_ATOMIC_END belong together"
#elif defined(TLSF_ATOMIC_BEGIN)
#define STEP
#else
#define STEP __attribute__((weak))
#define TLSF_ATOMIC_BEGIN const uint32_t had = masked()
#define TLSF_ATOMIC_END unmasked(had)

/* Interrupts are off from here on. What says whether they were on before. riscv32's instructions are numbers, since assemblers know them by
 * the name of an extension alone. */
static inline __attribute__((always_inline)) uint32_t masked(void) {
    uint32_t had;
#ifdef __arm__
    __asm__ volatile("mrs %0, primask\n\tcpsid i" : "=r"(had)::"memory");
#else
    __asm__ volatile(".insn i 0x73, 7, %0, x8, 0x300" : "=r"(had)::"memory");     /* csrrci had, mstatus, 8 */
#endif
    return had;
}

static inline __attribute__((always_inline)) void unmasked(uint32_t had) {
#ifdef __arm__
    __asm__ volatile("msr primask, %0" ::"r"(had) : "memory");
#else
    __asm__ volatile(".insn i 0x73, 2, x0, %0, 0x300" ::"r"(had & 8) : "memory"); /* csrs mstatus, had */
#endif
}
#endif

/* As compilers call them. Each is sequentially consistent, whatever order is asked for. */
uint64_t __atomic_load_8(const volatile void *from, int order);
void __atomic_store_8(volatile void *to, uint64_t value, int order);
uint64_t __atomic_exchange_8(volatile void *at, uint64_t value, int order);
uint64_t __atomic_fetch_add_8(volatile void *at, uint64_t value, int order);
uint64_t __atomic_fetch_sub_8(volatile void *at, uint64_t value, int order);
_Bool __atomic_compare_exchange_8(volatile void *at, void *expected, uint64_t value, _Bool is_weak, int order, int order_of_failure);

STEP uint64_t __atomic_load_8(const volatile void *from, int order) {
    TLSF_ATOMIC_BEGIN;
    const uint64_t was = *(const volatile uint64_t *)from;
    TLSF_ATOMIC_END;
    (void)order;
    return was;
}

STEP void __atomic_store_8(volatile void *to, uint64_t value, int order) {
    TLSF_ATOMIC_BEGIN;
    *(volatile uint64_t *)to = value;
    TLSF_ATOMIC_END;
    (void)order;
}

STEP uint64_t __atomic_exchange_8(volatile void *at, uint64_t value, int order) {
    TLSF_ATOMIC_BEGIN;
    volatile uint64_t *const it = at;
    const uint64_t was = *it;
    *it = value;
    TLSF_ATOMIC_END;
    (void)order;
    return was;
}

STEP uint64_t __atomic_fetch_add_8(volatile void *at, uint64_t value, int order) {
    TLSF_ATOMIC_BEGIN;
    volatile uint64_t *const it = at;
    const uint64_t was = *it;
    *it = was + value;
    TLSF_ATOMIC_END;
    (void)order;
    return was;
}

STEP uint64_t __atomic_fetch_sub_8(volatile void *at, uint64_t value, int order) { return __atomic_fetch_add_8(at, 0 - value, order); }

STEP _Bool __atomic_compare_exchange_8(volatile void *at, void *expected, uint64_t value, _Bool is_weak, int order, int order_of_failure) {
    uint64_t *const wanted = expected;
    const uint64_t had_to_be = *wanted;
    TLSF_ATOMIC_BEGIN;
    volatile uint64_t *const it = at;
    const uint64_t was = *it;
    if (was == had_to_be) *it = value;
    TLSF_ATOMIC_END;
    (void)is_weak, (void)order, (void)order_of_failure;
    if (was == had_to_be) return 1;
    *wanted = was;
    return 0;
}

#endif
