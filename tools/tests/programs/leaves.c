/* A program that copies a function behind the image and calls it: there its log ends, although it comes back. */
#include "bench.h"

uint64_t at_machine(uint64_t cause, uint64_t epc) { return behind(epc); }
uint64_t at_supervisor(uint64_t cause, uint64_t epc) { return epc; }

static const uint16_t copied[] = {0x0505, 0x8082}; /* c.addi a0, 1; c.jr ra */

void begin(uint64_t hart)
{
    volatile uint16_t *outside = (void *)0x80020000;
    outside[0] = copied[0];
    outside[1] = copied[1];
    asm volatile("fence.i" : : : "memory");
    ECALL();
    uint64_t (*plus_one)(uint64_t) = (void *)outside;
    if (plus_one(41) == 42)
        ECALL();
}
