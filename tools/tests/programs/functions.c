/* What a timeline has to follow, on each hart: calls, a recursion, a tail call, a jump over frames as `longjmp` does, calls at user
   level and timer interrupts inside functions. A store to the test device ends the run. */
#include "bench.h"

#define KEEP __attribute__((noinline, noclone, noipa))
#define FINISHER (*(volatile uint32_t *)0x100000)

struct place { uint64_t at, stack; };
int mark(struct place *where);
__attribute__((noreturn)) void jump_to(struct place *where);
asm(".text\n"
    "mark: sd ra, 0(a0)\n sd sp, 8(a0)\n li a0, 0\n ret\n"
    "jump_to: ld ra, 0(a0)\n ld sp, 8(a0)\n li a0, 1\n ret\n"
    ".type mark, @function\n .type jump_to, @function\n");

static volatile uint64_t sum[HARTS], over;

KEEP static void leaf(uint64_t n) { sum[hart()] += n; }
KEEP static void tail(uint64_t n) { sum[hart()] ^= n; leaf(n); }        /* -Os makes a jump of the call */
KEEP static void depth(uint64_t n) { leaf(n); if (n) depth(n - 1); leaf(n); }
KEEP static void thrown(struct place *where, uint64_t n) { leaf(n); if (n & 1) jump_to(where); leaf(n); }
KEEP static void thrower(struct place *where, uint64_t n) { thrown(where, n); leaf(n); }
KEEP static void catcher(uint64_t n) { struct place where; if (mark(&where) == 0) thrower(&where, n); leaf(n); }
KEEP static void work(void) { for (uint64_t n = 0; n < 40; n++) leaf(n); }

uint64_t at_machine(uint64_t cause, uint64_t epc)
{
    if (cause == INTERRUPT(MTI)) {
        MTIMECMP(hart()) = MTIME + 8000;
        return epc;
    }
    leaf(cause);
    return epc + 4;
}

uint64_t at_supervisor(uint64_t cause, uint64_t epc) { return epc; }

static void in_user(void)
{
    for (uint64_t n = 0; n < 6; n++) {
        work();
        tail(n);
        depth(5);
        catcher(n);
        ECALL();
    }
    __atomic_fetch_add(&over, 1, __ATOMIC_SEQ_CST);
    if (hart() == 0) {
        while (over < 2)
            ;
        FINISHER = 0x5555;
    }
    for (;;)
        work();
}

void begin(uint64_t hart)
{
    MTIMECMP(hart) = MTIME + 8000;
    CSRW(mie, 1 << MTI);
    enter(in_user, USER);
}
