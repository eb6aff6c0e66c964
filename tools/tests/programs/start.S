# Every hart begins here: a stack, the handlers of both levels, all of memory open to the lower levels, and then `begin`.
# tp holds the hart. A handler keeps the registers that C may change, the place and the status, calls C, which returns the place
# to go on at, and returns.

#define SAVED 18 * 8

.macro keep op
    \op ra, 0(sp)
    \op t0, 8(sp)
    \op t1, 16(sp)
    \op t2, 24(sp)
    \op t3, 32(sp)
    \op t4, 40(sp)
    \op t5, 48(sp)
    \op t6, 56(sp)
    \op a0, 64(sp)
    \op a1, 72(sp)
    \op a2, 80(sp)
    \op a3, 88(sp)
    \op a4, 96(sp)
    \op a5, 104(sp)
    \op a6, 112(sp)
    \op a7, 120(sp)
.endm

.macro handler level, return
    addi sp, sp, -SAVED
    keep sd
    csrr a0, \level\()cause
    csrr a1, \level\()epc
    csrr a2, \level\()status
    csrr a3, \level\()tval
    sd a2, 128(sp)
    call on_\level\()trap
    ld t0, 128(sp)
    csrw \level\()status, t0
    csrw \level\()epc, a0
    keep ld
    addi sp, sp, SAVED
    \return
.endm

.section .text.start
.globl _start
_start:
    csrr tp, mhartid
    la sp, stacks
    addi t0, tp, 1
    slli t0, t0, 12
    add sp, sp, t0
    la t0, machine_trap
    csrw mtvec, t0
    la t0, supervisor_trap
    csrw stvec, t0
    li t0, -1
    csrw pmpaddr1, t0
    li t0, 0x1f00
    csrw pmpcfg0, t0
    li t0, 7
    csrw mcounteren, t0
    mv a0, tp
    call begin
    call finish

.globl machine_trap, supervisor_trap, vectors
.align 4
machine_trap:
    handler m, mret
.align 4
supervisor_trap:
    handler s, sret
.align 8
vectors: # of supervisor level, a jump for each cause
    .rept 16
    .option push
    .option norvc
    j supervisor_trap
    .option pop
    .endr

# enter(where, level): goes on at `where` at a lower level, with interrupts of that level on
.globl enter
enter:
    csrw mepc, a0
    li t0, 0x1880 | 0x2
    csrc mstatus, t0
    slli a1, a1, 11
    ori a1, a1, 0x80 | 0x2
    csrs mstatus, a1
    mret
