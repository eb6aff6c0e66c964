/* What the programs share: frames that handlers keep of their traps, timers, and the end of a run. */
#include <stdint.h>

#define HARTS 4
#define FRAMES 512
#define INTERRUPT(cause) (1ull << 63 | (cause))
#define CSRR(name) ({ uint64_t v_; asm volatile("csrr %0, " #name : "=r"(v_)); v_; })
#define CSRW(name, value) asm volatile("csrw " #name ", %0" : : "r"((uint64_t)(value)) : "memory")
#define CSRS(name, value) asm volatile("csrs " #name ", %0" : : "r"((uint64_t)(value)) : "memory")
#define CSRC(name, value) asm volatile("csrc " #name ", %0" : : "r"((uint64_t)(value)) : "memory")
#define ECALL() asm volatile("ecall" : : : "memory")
#define MSIP(hart) (*(volatile uint32_t *)(0x2000000 + 4 * (hart)))
#define MTIMECMP(hart) (*(volatile uint64_t *)(0x2004000 + 8 * (hart)))
#define MTIME (*(volatile uint64_t *)0x200bff8)
#define NEVER (~0ull)

enum { USER, SUPERVISOR, MACHINE = 3 };
enum { MIE_BIT = 8, SSI = 1, MSI = 3, STI = 5, MTI = 7 };

/* Traps as their handlers saw them, of each hart those taken to machine level and those taken to supervisor level. */
struct frame { uint64_t cause, epc, level, value; };
extern struct { uint64_t count; struct frame of[FRAMES]; } frames[HARTS][2];

void enter(void (*where)(void), uint64_t level);
void machine_trap(void), supervisor_trap(void), vectors(void);

/* The hart sleeps with no interrupt on, at machine level; at any level, by an ECALL. QEMU goes on until its monitor ends it. */
__attribute__((noreturn)) void sleep_for_good(void), finish(void);

static inline uint64_t hart(void) { uint64_t h; asm volatile("mv %0, tp" : "=r"(h)); return h; }

/* Where an instruction ends. */
static inline uint64_t behind(uint64_t epc) { return epc + ((*(uint16_t *)epc & 3) == 3 ? 4 : 2); }

static inline void keep(int to_supervisor, uint64_t cause, uint64_t epc, uint64_t level, uint64_t value)
{
    uint64_t at = frames[hart()][to_supervisor].count++;
    struct frame *frame = &frames[hart()][to_supervisor].of[at % FRAMES];
    frame->cause = cause;
    frame->epc = epc;
    frame->level = level;
    frame->value = value;
}

/* Of each program: what a hart does first, and what happens at a trap, which returns where to go on. */
void begin(uint64_t hart);
uint64_t at_machine(uint64_t cause, uint64_t epc);
uint64_t at_supervisor(uint64_t cause, uint64_t epc);
