/* Delegated and vectored interrupts: the machine timer makes a supervisor timer pending and an ECALL a supervisor software
   interrupt, which are taken from user and from supervisor level; the handler turns interrupts on again inside one of them. */
#include "bench.h"

static volatile int seen;

uint64_t at_machine(uint64_t cause, uint64_t epc)
{
    if (cause == INTERRUPT(MTI)) {
        MTIMECMP(0) = NEVER;
        CSRS(mip, 1 << STI);
        return epc;
    }
    CSRC(mip, 1 << STI);
    MTIMECMP(0) = 0;
    return epc + 4;
}

uint64_t at_supervisor(uint64_t cause, uint64_t epc)
{
    if (cause == INTERRUPT(SSI)) {
        CSRC(sip, 1 << SSI);
        if (seen++ % 3 == 0) {
            uint64_t status = CSRR(sstatus);
            CSRS(sstatus, 2);
            ECALL();
            CSRC(sstatus, 2);
            CSRW(sstatus, status);
        }
        return epc;
    }
    if (cause == INTERRUPT(STI)) {
        CSRC(sie, 1 << STI);
        CSRS(sip, 1 << SSI);
        return epc;
    }
    CSRS(sie, 1 << STI);
    CSRS(sip, 1 << SSI);
    return epc + 4;
}

static void in_user(void)
{
    for (int i = 0; i < 6; i++)
        ECALL();
    finish();
}

static void in_supervisor(void)
{
    CSRW(sie, 1 << STI | 1 << SSI);
    CSRS(sstatus, 2);
    for (int i = 0; i < 6; i++)
        ECALL();
    CSRC(sstatus, 2);
    CSRW(sepc, in_user);
    CSRC(sstatus, 0x100);
    CSRS(sstatus, 0x20);
    asm volatile("sret");
}

void begin(uint64_t hart)
{
    CSRW(stvec, (uint64_t)vectors | 1);
    CSRW(medeleg, 1 << 8);
    CSRW(mideleg, 1 << STI | 1 << SSI);
    CSRW(mie, 1 << MTI);
    MTIMECMP(0) = NEVER;
    enter(in_supervisor, SUPERVISOR);
}
