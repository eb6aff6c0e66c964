/* Delegated interrupts right behind SRET, to user and to supervisor level: the handler of an ECALL makes a supervisor software
   interrupt pending. */
#include "bench.h"

uint64_t at_machine(uint64_t cause, uint64_t epc) { return epc + 4; }

uint64_t at_supervisor(uint64_t cause, uint64_t epc)
{
    if (cause == INTERRUPT(SSI)) {
        CSRC(sip, 1 << SSI);
        return epc;
    }
    CSRS(sip, 1 << SSI);
    return epc + 4;
}

static void calls(void)
{
    for (int i = 0; i < 5; i++)
        ECALL();
}

static void in_user(void)
{
    calls();
    finish();
}

static void in_supervisor(void)
{
    CSRS(sie, 1 << SSI);
    CSRS(sstatus, 2);
    calls();
    CSRC(sstatus, 2);
    CSRW(sepc, in_user);
    CSRC(sstatus, 0x100);
    CSRS(sstatus, 0x20);
    asm volatile("sret");
}

void begin(uint64_t hart)
{
    CSRW(medeleg, 1 << 8 | 1 << 9);
    CSRW(mideleg, 1 << SSI);
    enter(in_supervisor, SUPERVISOR);
}
