# Reads 4,096 bytes, copies them to and fro 200 times, byte by byte, and writes them: some 4.9 million steps.
    .section .text.start
    .globl _start
_start:
    li a0, 0
    li a1, 0x11000
    li a2, 4096
    li a7, 63
    ecall                       # read(0, 0x11000, 4096)
    li s0, 200                  # rounds
    li s1, 0x11000
    li s2, 0x13000
again:
    mv t0, s1
    mv t1, s2
    li t2, 4096
    add t2, t2, s1
copy:
    lbu t3, 0(t0)
    sb t3, 0(t1)
    addi t1, t1, 1
    addi t0, t0, 1
    nop
    bne t0, t2, copy
    mv t4, s1                   # the other way round
    mv s1, s2
    mv s2, t4
    addi s0, s0, -1
    bnez s0, again
    li a0, 1
    mv a1, s1
    li a2, 4096
    li a7, 64
    ecall                       # write(1, .., 4096)
    li a0, 0
    li a7, 93
    ecall
