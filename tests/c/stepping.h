/* A signal after each instruction. They set and clear the trap flag, and the stack can be walked from within them too. Only x86-64 has
 * them here. */
#ifndef STEPPING_H
#define STEPPING_H
#include <stdlib.h>

void start_steps(void);
void stop_steps(void);
#ifdef __x86_64__
#define OF_FLAGS(name, change) \
    __asm__(".text\n" name ":\n .cfi_startproc\n pushfq\n .cfi_adjust_cfa_offset 8\n " change ", (%rsp)\n popfq\n" \
            " .cfi_adjust_cfa_offset -8\n ret\n .cfi_endproc\n")
OF_FLAGS("start_steps", "orq $256");
OF_FLAGS("stop_steps", "andq $-257");
#else
void start_steps(void) { abort(); }
void stop_steps(void) { abort(); }
#endif
#endif
