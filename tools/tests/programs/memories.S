# The program of docs/RECORDING.md in several memories of QEMU's machine `virt`. Its boot ROM at 1000 jumps to flash at 20000000.
# From there a routine and the handler of traps are copied to memory at 80000000, where they run.
.option norelax
.section .flash, "ax"
.globl _start
_start:
    la t0, routine
    la t1, routine_in_flash
    la t2, routine_in_flash_end
copy:
    ld t3, (t1)
    sd t3, (t0)
    addi t0, t0, 8
    addi t1, t1, 8
    bltu t1, t2, copy
    fence.i
    la t0, handler
    csrw mtvec, t0
    li a0, 3
    la t0, routine
    jalr t0
    ecall
wait:                       # for ever, since nothing wakes the hart
    wfi
    j wait
.section .ram, "ax"
routine:                    # a0 becomes 1 + 2 + .. + a0
    mv a1, a0
    li a0, 0
add_up:
    add a0, a0, a1
    addi a1, a1, -1
    bnez a1, add_up
    ret
.align 2
handler:                    # goes back behind the call
    csrr t3, mepc
    addi t3, t3, 4
    csrw mepc, t3
    mret
.align 3
