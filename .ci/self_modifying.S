# A program that changes its own code in each of 200 rounds, and works on the 64 bytes that it read by what it made. Then it reads
# two instructions more over its own, and runs them.
    .globl _start
_start:
    li a0, 0
    la a1, buffer
    li a2, 64
    li a7, 63
    ecall                       # read(0, buffer, 64)
    li s0, 0                    # the round
    li s1, 200
again:
    andi t0, s0, 63
    la t1, buffer
    add s2, t1, t0              # a byte of the buffer
    lbu s3, 0(s2)

    la t0, by_word              # a whole word: its constant grows by one
    lw t1, 0(t0)
    lui t2, 0x100
    add t1, t1, t2
    sw t1, 0(t0)
by_word:
    addi s3, s3, 0

    la t0, by_half              # half of a word: its constant and the register that it reads
    sh s0, 2(t0)
by_half:
    addi t3, x0, 0
    add s3, s3, t3

    la t0, by_byte              # a byte of a word: the register that it sets
    slli t2, s0, 7
    andi t2, t2, 128
    addi t2, t2, 0x13
    sb t2, 0(t0)
by_byte:
    addi t4, t4, 1

    la t0, across               # the end of one word and the beginning of the next: a constant, and a register
    lw t1, 2(t0)
    lui t2, 0x800
    addi t2, t2, 0x10
    xor t1, t1, t2
    sw t1, 2(t0)
    .balign 4
across:
    addi t5, s0, 1
    addi t5, t5, 2

    la t0, next                 # the very next instruction is one of two
    andi t1, s0, 1
    slli t1, t1, 2
    la t2, one_of_two
    add t1, t1, t2
    lw t1, 0(t1)
    sw t1, 0(t0)
next:
    nop

    add s3, s3, t4
    add s3, s3, t5
    sb s3, 0(s2)
    addi s0, s0, 1
    blt s0, s1, again

    li a0, 1
    la a1, buffer
    li a2, 64
    li a7, 64
    ecall                       # write(1, buffer, 64)
    li a0, 0
    la a1, by_read
    li a2, 8
    li a7, 63
    ecall                       # read(0, by_read, 8)
by_read:
    addi s3, x0, 1
    addi s4, x0, 2
    la a1, buffer
    sb s3, 0(a1)
    sb s4, 1(a1)
    li a0, 1
    li a2, 2
    li a7, 64
    ecall                       # write(1, buffer, 2)
    li a0, 0
    li a7, 93
    ecall                       # exit(0)

one_of_two:
    addi s3, s3, 5
    xori s3, s3, 7
buffer:
    .space 64
