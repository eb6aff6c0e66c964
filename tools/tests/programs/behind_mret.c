/* Interrupts right behind MRET: a software interrupt that the handler of an ECALL makes pending while interrupts are off, and a
   timer that is pending too, so that two stand there one after the other. From each level. */
#include "bench.h"

static volatile int round;

uint64_t at_machine(uint64_t cause, uint64_t epc)
{
    if (cause == INTERRUPT(MSI)) {
        MSIP(0) = 0;
        return epc;
    }
    if (cause == INTERRUPT(MTI)) {
        MTIMECMP(0) = NEVER;
        return epc;
    }
    MSIP(0) = 1;
    if (round++ % 2)
        MTIMECMP(0) = 0;
    return epc + 4;
}

uint64_t at_supervisor(uint64_t cause, uint64_t epc) { return epc; }

static void four_calls(void)
{
    for (int i = 0; i < 4; i++)
        ECALL();
}

static void lower(void)
{
    four_calls();
    ECALL();
}

static void in_user(void)
{
    lower();
    finish();
}

static void in_supervisor(void)
{
    lower();
    CSRW(sepc, in_user);
    CSRC(sstatus, 0x100);
    asm volatile("sret");
}

void begin(uint64_t hart)
{
    MTIMECMP(0) = NEVER;
    CSRW(mie, 1 << MSI | 1 << MTI);
    CSRS(mstatus, MIE_BIT);
    four_calls();
    CSRC(mstatus, MIE_BIT);
    enter(in_supervisor, SUPERVISOR);
}
