/* Four harts, each with its own timer, that make calls at supervisor level and send software interrupts to the next hart. */
#include "bench.h"

#define CALLS 8
static volatile int calls[HARTS], over[HARTS];

uint64_t at_machine(uint64_t cause, uint64_t epc)
{
    if (cause == INTERRUPT(MSI)) {
        MSIP(hart()) = 0;
        return epc;
    }
    if (cause == INTERRUPT(MTI)) {
        MTIMECMP(hart()) = MTIME + 3000;
        return epc;
    }
    calls[hart()]++;
    MSIP(calls[hart()] % 2 ? hart() : (hart() + 1) % HARTS) = 1;
    return epc + 4;
}

uint64_t at_supervisor(uint64_t cause, uint64_t epc) { return epc; }

static void in_supervisor(void)
{
    for (int i = 0; i < CALLS; i++)
        ECALL();
    over[hart()] = 1;
    while (!(over[0] && over[1] && over[2] && over[3]))
        ;
    finish();
}

void begin(uint64_t hart)
{
    CSRW(mie, 1 << MSI | 1 << MTI);
    MTIMECMP(hart) = MTIME + 1000;
    enter(in_supervisor, SUPERVISOR);
}
