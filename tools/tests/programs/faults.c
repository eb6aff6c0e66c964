/* Faults on the instruction itself, at each level: words that are no instruction, EBREAK, ECALL, loads and stores where nothing
   is, jumps to where nothing is; and a page of code that is closed to lower levels until the handler of the fault opens it, right
   behind SRET and right behind MRET. */
#include "bench.h"

void closed(void);
static volatile uint64_t resume;
static volatile int calls;

/* Closes the page at `closed` to all levels but machine level. */
static void shut(void)
{
    CSRW(pmpaddr0, (uint64_t)closed >> 2 | 0x1ff);
    CSRC(pmpcfg0, 0xff);
    CSRS(pmpcfg0, 0x18);
}

uint64_t at_machine(uint64_t cause, uint64_t epc)
{
    if (cause == 1 && epc == (uint64_t)closed) {
        CSRC(pmpcfg0, 0xff);
        return epc;
    }
    if (cause == 1)
        return resume;
    if (cause == 8 && ++calls == 2) {
        shut();
        return (uint64_t)closed;
    }
    return behind(epc);
}

uint64_t at_supervisor(uint64_t cause, uint64_t epc) { return behind(epc); }

static __attribute__((noinline)) void faulty(void)
{
    asm volatile(".4byte 0xc0001073\n.2byte 0\nebreak\n.option push\n.option norvc\nebreak\n.option pop\necall");
    asm volatile("ld t0, 0(zero)\nsd t0, 0(zero)" : : : "t0", "memory");
    asm volatile("la t0, 1f\nsd t0, %0\njr zero\n1:" : "=m"(resume) : : "t0", "memory");
    asm volatile("la t0, 1f\nsd t0, %0\nlui t0, 0x90000\njr t0\n1:" : "=m"(resume) : : "t0", "memory");
}

static void in_user(void)
{
    faulty();
    if (calls >= 2)
        finish();
    ECALL();
}

__attribute__((naked, aligned(4096), section(".text.page"))) void closed(void)
{
    asm volatile("nop\nnop\nj %0\n.balign 4096" : : "i"(in_user));
}

static void in_supervisor(void)
{
    faulty();
    CSRW(sepc, closed);
    CSRC(sstatus, 0x100);
    asm volatile("sret");
}

void begin(uint64_t hart)
{
    faulty();
    CSRW(medeleg, 1 << 2 | 1 << 3);
    shut();
    enter(in_supervisor, SUPERVISOR);
}
