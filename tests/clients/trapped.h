/* A thread that is stopped before each instruction, by the processor's trap flag, which it sets and clears itself. */
#ifndef TRAPPED_H
#define TRAPPED_H

#include "check.h"

#include <signal.h>
#include <ucontext.h>

enum { TRAP_FLAG = 0x100 };

/* Has this handler called before each instruction while the flag is set. */
static inline void trap_by(void (*handler)(int signal, siginfo_t *about, void *context)) {
    struct sigaction action;
    sigemptyset(&action.sa_mask);
    action.sa_sigaction = handler;
    action.sa_flags = SA_SIGINFO;
    CHECK(sigaction(SIGTRAP, &action, NULL) == 0);
}

/* Whether this instruction has a lock prefix, or exchanges a word of memory. */
static inline int is_atomic(const uint8_t *code) {
    const uint8_t lock = 0xf0, rex = 0x40, exchange = 0x86, of_registers = 0xc0;
    if (*code == lock) {
        return 1;
    }
    code += (*code & 0xf0) == rex;
    return (*code | 1) == (exchange | 1) && code[1] < of_registers;
}

/* Set and clear the flag. The stack below may be in use. */
static inline void set_trap_flag(void) {
    __asm__ volatile("sub $128, %%rsp; pushfq; orq %0, (%%rsp); popfq; add $128, %%rsp" : : "i"(TRAP_FLAG) : "memory", "cc");
}

static inline void clear_trap_flag(void) {
    __asm__ volatile("sub $128, %%rsp; pushfq; andq %0, (%%rsp); popfq; add $128, %%rsp" : : "i"(~TRAP_FLAG) : "memory", "cc");
}

#endif
