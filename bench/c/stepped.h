/* Calls with a trap behind each instruction, which a handler counts. Each C file of bench/ that counts calls takes this in once. */
#include <signal.h>
#include <stdbool.h>
#include <stdint.h>
#include <ucontext.h>

enum { TRAP = 0x100 };

/* What a function is called with: six registers at most. A name goes in two of them. */
#define WITH(...) ((const uintptr_t[6]){__VA_ARGS__})
#define OF_NAME(name) (name).heap | (uintptr_t)(name).at << 32, (name).serial

/* Calls that function, with a trap behind each instruction while `trap` is TRAP, not 0. The first is behind the call itself. */
uint64_t call_stepped(uintptr_t function, const uintptr_t with[6]);
uint64_t trap = TRAP;
extern char returned[], two_instructions[], __executable_start[], etext[];
__asm__(".text\ntwo_instructions:\n  nop\n  ret\n"
        "call_stepped:\n"
        "  push %rbp\n  mov %rdi, %rax\n  mov %rsi, %r10\n  mov (%r10), %rdi\n  mov 8(%r10), %rsi\n  mov 16(%r10), %rdx\n"
        "  mov 24(%r10), %rcx\n  mov 32(%r10), %r8\n  mov 40(%r10), %r9\n"
        "  mov trap(%rip), %r10\n  pushfq\n  or %r10, (%rsp)\n  popfq\n  call *%rax\n"
        "returned:\n  pop %rbp\n  ret\n");
static __thread volatile uint64_t traps, traps_within; /* within the program's own code */

static void count_trap(int number, siginfo_t *info, void *context) {
    greg_t *registers = ((ucontext_t *)context)->uc_mcontext.gregs;
    const uintptr_t at = (uintptr_t)registers[REG_RIP];
    (void)number;
    (void)info;
    if (at == (uintptr_t)returned) registers[REG_EFL] &= ~(greg_t)TRAP;
    else {
        traps++;
        traps_within += at >= (uintptr_t)__executable_start && at < (uintptr_t)etext;
    }
}

/* Sets the handler, and says whether it counts two instructions as two. */
static bool counts_traps(void) {
    struct sigaction action = {.sa_sigaction = count_trap, .sa_flags = SA_SIGINFO};
    traps = 0;
    if (sigaction(SIGTRAP, &action, NULL)) return false;
    call_stepped((uintptr_t)two_instructions, WITH(0));
    return traps == 2;
}
