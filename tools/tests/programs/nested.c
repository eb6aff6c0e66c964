/* Handlers at machine level that put interrupts on again: a timer inside the handler of a software interrupt, an ECALL inside that
   one, and a software interrupt right behind the MRET of the ECALL. */
#include "bench.h"

static volatile int depth;

uint64_t at_machine(uint64_t cause, uint64_t epc)
{
    if (cause == INTERRUPT(MSI)) {
        MSIP(0) = 0;
        if (depth++ == 0) {
            MTIMECMP(0) = 0;
            CSRS(mstatus, MIE_BIT);
            CSRC(mstatus, MIE_BIT);
        }
        depth--;
        return epc;
    }
    if (cause == INTERRUPT(MTI)) {
        MTIMECMP(0) = NEVER;
        CSRS(mstatus, MIE_BIT);
        ECALL();
        CSRC(mstatus, MIE_BIT);
        return epc;
    }
    MSIP(0) = 1;
    return epc + 4;
}

uint64_t at_supervisor(uint64_t cause, uint64_t epc) { return epc; }

static void in_user(void)
{
    for (int i = 0; i < 4; i++)
        ECALL();
    finish();
}

void begin(uint64_t hart)
{
    MTIMECMP(0) = NEVER;
    CSRW(mie, 1 << MSI | 1 << MTI);
    CSRS(mstatus, MIE_BIT);
    MSIP(0) = 1;
    for (volatile int i = 0; i < 10; i++)
        ;
    CSRC(mstatus, MIE_BIT);
    enter(in_user, USER);
}
