/* WFI: a timer that wakes it with interrupts on and off, at machine and at supervisor level, and one that is due already. */
#include "bench.h"

uint64_t at_machine(uint64_t cause, uint64_t epc)
{
    if (cause == INTERRUPT(MTI)) {
        MTIMECMP(0) = NEVER;
        return epc;
    }
    MTIMECMP(0) = MTIME + 2000;
    return behind(epc);
}

uint64_t at_supervisor(uint64_t cause, uint64_t epc) { return epc; }

static void in_supervisor(void)
{
    for (int i = 0; i < 3; i++) {
        ECALL();
        asm volatile("wfi");
    }
    finish();
}

void begin(uint64_t hart)
{
    CSRW(mie, 1 << MTI);
    for (int i = 0; i < 3; i++) {
        MTIMECMP(0) = MTIME + 2000;
        asm volatile("wfi");
        CSRS(mstatus, MIE_BIT);
        CSRC(mstatus, MIE_BIT);
        MTIMECMP(0) = MTIME + 2000;
        CSRS(mstatus, MIE_BIT);
        asm volatile("wfi");
        CSRC(mstatus, MIE_BIT);
        MTIMECMP(0) = 0;
        asm volatile("wfi");
        MTIMECMP(0) = NEVER;
    }
    enter(in_supervisor, SUPERVISOR);
}
