# The program of docs/RECORDING.md, for harts of 64 and of 32 bits: two harts, each with a call from user level.
.globl _start
_start:                     # each hart begins here
    la t0, handler
    csrw mtvec, t0
    li t0, -1               # all of memory is open to user level
    csrw pmpaddr0, t0
    li t0, 0x1f
    csrw pmpcfg0, t0
    la t0, user
    csrw mepc, t0
    csrw mstatus, zero      # MRET goes to user level
    mret
user:
    li t0, 100
1:  addi t0, t0, -1
    bnez t0, 1b
    ecall
.align 2
handler:                    # the first hart sleeps, the second ends the run
    la t0, calls
    li t1, 1
    amoadd.w t1, t1, (t0)
    beqz t1, sleep
    li t0, 0x100000
    li t1, 0x5555
    sw t1, (t0)
sleep:
    wfi
    j sleep
.align 2
calls: .word 0
