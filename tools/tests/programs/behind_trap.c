/* Machine timer interrupts right behind a trap to supervisor level and right behind its SRET. A user program makes ECALLs without
   end, which go to a short handler at supervisor level that keeps no frames, and the timer comes when it comes: the run ends once
   three interrupts stood at the first instruction of that handler and three right behind its SRET, or after 400 of them. */
#include "bench.h"

static volatile int behind_trap, behind_return, ticks;
void short_handler(void), after_call(void);

__attribute__((naked)) void calls(void)
{
    asm volatile("1: ecall\n.globl after_call\nafter_call: j 1b\n"
                 ".align 4\n.globl short_handler\nshort_handler: csrr t0, sepc\naddi t0, t0, 4\ncsrw sepc, t0\nsret");
}

uint64_t at_machine(uint64_t cause, uint64_t epc)
{
    behind_trap += epc == (uint64_t)short_handler;
    behind_return += epc == (uint64_t)after_call;
    if (++ticks == 400 || (behind_trap >= 3 && behind_return >= 3))
        sleep_for_good();
    MTIMECMP(0) = MTIME + 800 + ticks * 37 % 256;
    return epc;
}

uint64_t at_supervisor(uint64_t cause, uint64_t epc) { return epc; }

void begin(uint64_t hart)
{
    CSRW(stvec, short_handler);
    CSRW(medeleg, 1 << 8);
    CSRW(mie, 1 << MTI);
    MTIMECMP(0) = MTIME + 1000;
    enter(calls, USER);
}
