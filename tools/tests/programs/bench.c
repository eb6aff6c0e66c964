/* The handlers' frames, and the end of a run. */
#include "bench.h"

__attribute__((section(".frames"))) typeof(frames[0]) frames[HARTS];
uint8_t stacks[HARTS][4096] __attribute__((aligned(16)));

static volatile int is_over[HARTS];

uint64_t on_mtrap(uint64_t cause, uint64_t epc, uint64_t status, uint64_t value)
{
    keep(0, cause, epc, status >> 11 & 3, value);
    if (is_over[hart()])
        sleep_for_good();
    return at_machine(cause, epc);
}

uint64_t on_strap(uint64_t cause, uint64_t epc, uint64_t status, uint64_t value)
{
    keep(1, cause, epc, status >> 8 & 1, value);
    if (is_over[hart()]) {
        CSRW(sie, 0);
        for (;;)
            asm volatile("wfi");
    }
    return at_supervisor(cause, epc);
}

void sleep_for_good(void)
{
    CSRW(mie, 0);
    for (;;)
        asm volatile("wfi");
}

void finish(void)
{
    is_over[hart()] = 1;
    for (;;)
        ECALL();
}
