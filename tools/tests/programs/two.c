/* Two harts that send one another software interrupts in turn: each sleeps until its interrupt comes, and answers by a call. */
#include "bench.h"

#define TURNS 12
static volatile int turns[2];

uint64_t at_machine(uint64_t cause, uint64_t epc)
{
    if (cause == INTERRUPT(MSI)) {
        MSIP(hart()) = 0;
        turns[hart()]++;
        return epc;
    }
    MSIP(1 - hart()) = 1;
    return epc + 4;
}

uint64_t at_supervisor(uint64_t cause, uint64_t epc) { return epc; }

static void in_supervisor(void)
{
    for (int seen = 0; seen < TURNS;) {
        while (turns[hart()] == seen)
            asm volatile("wfi");
        seen = turns[hart()];
        ECALL();
    }
    finish();
}

void begin(uint64_t hart)
{
    CSRW(mie, 1 << MSI);
    if (hart == 0)
        MSIP(0) = 1;
    enter(in_supervisor, SUPERVISOR);
}
