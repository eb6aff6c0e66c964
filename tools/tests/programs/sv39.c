/* A small kernel with Sv39 paging: two programs of user level, each in an address space of its own, take turns at each tick of a
   timer. Their pages are mapped when they are first used, and their calls are handled. Machine level passes the ticks on. The run
   ends once both programs have ended. Kernel and machine level lie from 80000000 on, the programs at 40000000. */
#include <stdint.h>

#ifndef ROUNDS
#define ROUNDS 400
#endif
#define TEXT_OF(word) #word
#define TEXT(word) TEXT_OF(word)
#define CSRR(name) ({ uint64_t v_; asm volatile("csrr %0, " #name : "=r"(v_)); v_; })
#define CSRW(name, value) asm volatile("csrw " #name ", %0" : : "r"((uint64_t)(value)) : "memory")
#define CSRS(name, value) asm volatile("csrs " #name ", %0" : : "r"((uint64_t)(value)) : "memory")
#define CSRC(name, value) asm volatile("csrc " #name ", %0" : : "r"((uint64_t)(value)) : "memory")

enum { VALID = 1, READ = 2, WRITE = 4, EXECUTE = 8, USER = 16, GLOBAL = 32, ACCESSED = 64, DIRTY = 128 };
enum { TASKS = 2, PAGES = 512 };
enum { GOOD = 0x5555, BAD = 0x13333 };
enum { CALL_FROM_USER = 8, LOAD_PAGE_FAULT = 13, STORE_PAGE_FAULT = 15 };

struct frame { uint64_t registers[32], place, status; };
struct task { struct frame frame; uint64_t *root; int has_ended; };

extern char user_program[];
static uint64_t pages[PAGES][512] __attribute__((aligned(4096)));
static struct task tasks[TASKS];
static int pages_used, current;
static uint64_t calls;

void machine_trap(void), supervisor_trap(void), supervisor_start(void);

/* Machine level: what a hart does first. All traps that the kernel handles are delegated to it. */
void machine_start(void)
{
    CSRW(pmpaddr0, -1);
    CSRW(pmpcfg0, 0x1f);
    CSRW(medeleg, 0xb1ff);
    CSRW(mideleg, 0x222);
    CSRW(mtvec, machine_trap);
    CSRW(mie, 0x80);
    CSRW(mepc, supervisor_start);
    CSRW(mstatus, 0x800);
    asm volatile("mret");
}

/* The device that ends QEMU. */
static void end(uint32_t how) { *(volatile uint32_t *)0x100000 = how; }

static uint64_t *page(void)
{
    if (pages_used == PAGES)
        end(BAD);
    return pages[pages_used++];
}

static uint64_t entry(const void *physical, uint64_t flags) { return (uint64_t)physical >> 12 << 10 | flags | VALID; }

static uint64_t *next_table(uint64_t *table, int at)
{
    if (!(table[at] & VALID))
        table[at] = entry(page(), 0);
    return (uint64_t *)(table[at] >> 10 << 12);
}

static void map(uint64_t *root, uint64_t place, const void *physical, uint64_t flags)
{
    uint64_t *middle = next_table(root, place >> 30 & 511);
    next_table(middle, place >> 21 & 511)[place >> 12 & 511] = entry(physical, flags | USER | ACCESSED | DIRTY);
}

/* A call of machine level: the next tick. */
static void tick(void) { asm volatile("ecall" : : : "memory"); }

static void run(struct task *task)
{
    CSRW(satp, 8ull << 60 | (uint64_t)task->root >> 12);
    asm volatile("sfence.vma" : : : "memory");
}

/* A word of user memory, which is open to supervisor level meanwhile. */
static uint64_t read_user(uint64_t place)
{
    CSRS(sstatus, 1 << 18);
    uint64_t word = *(volatile uint32_t *)place;
    CSRC(sstatus, 1 << 18);
    return word;
}

/* What the kernel does at a trap; it returns the frame to go on with. */
struct frame *at_trap(struct frame *frame)
{
    uint64_t cause = CSRR(scause);
    frame->place = CSRR(sepc);
    frame->status = CSRR(sstatus);
    if (cause >> 63) {
        tick();
        current = (current + 1) % TASKS;
    } else if (cause == LOAD_PAGE_FAULT || cause == STORE_PAGE_FAULT) {
        map(tasks[current].root, CSRR(stval), page(), READ | WRITE);
    } else if (cause == CALL_FROM_USER) {
        calls += read_user(frame->place);
        frame->place += 4;
        tasks[current].has_ended = frame->registers[10] == 0;
        current = (current + 1) % TASKS;
    }
    if (tasks[current].has_ended)
        current = (current + 1) % TASKS;
    if (tasks[current].has_ended)
        end(GOOD);
    run(&tasks[current]);
    return &tasks[current].frame;
}

void resume(struct frame *);

void kernel(void)
{
    CSRW(stvec, supervisor_trap);
    CSRW(sie, 0x20);
    for (struct task *task = tasks; task < tasks + TASKS; task++) {
        task->root = page();
        task->root[0] = entry(0, READ | WRITE | ACCESSED | DIRTY | GLOBAL);
        task->root[2] = entry((void *)0x80000000, READ | WRITE | EXECUTE | ACCESSED | DIRTY | GLOBAL);
        map(task->root, 0x40000000, user_program, READ | EXECUTE);
        task->frame.place = 0x40000000;
        task->frame.status = 0x20;
    }
    tick();
    run(&tasks[0]);
    resume(&tasks[0].frame);
}

asm(".section .text.start\n"
    ".globl _start\n"
    "_start: la sp, machine_stack\n"
    "    la t0, machine_frame\n"
    "    csrw mscratch, t0\n"
    "    j machine_start\n"
    ".align 2\n"
    "machine_trap:\n" /* a tick goes to the kernel, and its call asks for the next */
    "    csrrw t6, mscratch, t6\n"
    "    sd t0, 0(t6)\n"
    "    sd t1, 8(t6)\n"
    "    li t0, 0x2004000\n"
    "    csrr t1, mcause\n"
    "    bltz t1, 1f\n"
    "    csrr t0, mepc\n" /* its word is read as the kernel would read it, as firmware does */
    "    li t1, 0x20000\n"
    "    csrs mstatus, t1\n"
    "    lw zero, 0(t0)\n"
    "    csrc mstatus, t1\n"
    "    addi t0, t0, 4\n"
    "    csrw mepc, t0\n"
    "    li t0, 0x2004000\n"
    "    li t1, 0x200bff8\n"
    "    ld t1, 0(t1)\n"
    "    addi t1, t1, 2000\n"
    "    sd t1, 0(t0)\n"
    "    li t0, 0x20\n"
    "    csrc mip, t0\n"
    "    j 2f\n"
    "1:  li t1, -1\n"
    "    sd t1, 0(t0)\n"
    "    li t0, 0x20\n"
    "    csrs mip, t0\n"
    "2:  ld t0, 0(t6)\n"
    "    ld t1, 8(t6)\n"
    "    csrrw t6, mscratch, t6\n"
    "    mret\n"
    "supervisor_start: la sp, supervisor_stack\n"
    "    j kernel\n"
    ".align 2\n"
    "supervisor_trap:\n"
    "    csrrw a0, sscratch, a0\n"
    ".irp r, 1,2,3,4,5,6,7,8,9,11,12,13,14,15,16,17,18,19,20,21,22,23,24,25,26,27,28,29,30,31\n"
    "    sd x\\r, 8*\\r(a0)\n"
    ".endr\n"
    "    csrr t0, sscratch\n"
    "    sd t0, 80(a0)\n"
    "    la sp, supervisor_stack\n"
    "    call at_trap\n"
    "resume: ld t0, 256(a0)\n"
    "    csrw sepc, t0\n"
    "    ld t0, 264(a0)\n"
    "    csrw sstatus, t0\n"
    "    csrw sscratch, a0\n"
    ".irp r, 1,2,3,4,5,6,7,8,9,11,12,13,14,15,16,17,18,19,20,21,22,23,24,25,26,27,28,29,30,31\n"
    "    ld x\\r, 8*\\r(a0)\n"
    ".endr\n"
    "    ld a0, 80(a0)\n"
    "    sret\n"
    ".section .bss\n"
    ".align 4\n"
    "    .skip 4096\n"
    "machine_stack:\n"
    "    .skip 4096\n"
    "supervisor_stack:\n"
    "machine_frame: .skip 16\n"
    /* the programs: each writes to a further page and calls now and then, and ends */
    ".section .user, \"ax\"\n"
    "    li s0, 0x40010000\n"
    "    li s1, " TEXT(ROUNDS) "\n"
    "1:  li t0, 20\n"
    "2:  addi t0, t0, -1\n"
    "    bnez t0, 2b\n"
    "    andi t1, s1, 63\n"
    "    bnez t1, 3f\n"
    "    sd s1, 0(s0)\n"
    "    li t1, 4096\n"
    "    add s0, s0, t1\n"
    "    li a0, 1\n"
    "    ecall\n"
    "3:  addi s1, s1, -1\n"
    "    bnez s1, 1b\n"
    "    li a0, 0\n"
    "    ecall\n"
    ".text\n");
