# A program for qemu-riscv64: it writes a line, ten times, and ends.
.globl _start
_start:
    li s0, 10
1:  li a0, 1
    la a1, text
    li a2, 6
    li a7, 64
    ecall
    addi s0, s0, -1
    bnez s0, 1b
    li a0, 0
    li a7, 93
    ecall
text: .ascii "hello\n"
