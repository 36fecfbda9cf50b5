# Reads a letter and what follows it, writes what follows, and ends as the letter says.
    .file "ends.S"
    .globl _start
_start:
    li a0, 0
    la a1, buffer
    li a2, 64
    li a7, 63
    ecall                       # read(0, buffer, 64)
    addi a2, a0, -1
    la a1, text
    lw t1, 0(a1)                # each byte of t1 has a source of its own,
    srli t2, t1, 8
    add t2, t2, t1              # and of t2 several
    lbu t0, 4(a1)               # the bytes at 4 and 5 are those before them
    sb t0, 5(a1)
    lbu t0, 3(a1)
    sb t0, 4(a1)
    li a0, 1
    li a7, 64
    ecall                       # write(1, text, the rest)
    lbu t0, -1(a1)
    li t3, 'j'
    beq t0, t3, jump
    li t3, 'o'
    beq t0, t3, outside
    li t3, 'i'
    beq t0, t3, illegal
    li t3, 'b'
    beq t0, t3, breakpoint
    li t3, 'l'
    beq t0, t3, load
    li t3, 's'
    beq t0, t3, store
    li t3, 'e'
    beq t0, t3, exit
    j .                         # until the run is cut off
jump:
    la t4, _start
    jr 2(t4)
outside:
    li t4, 4
    jr t4
illegal:
    .word 0
breakpoint:
    ebreak
load:
    lw t4, 0(zero)
store:
    sw t4, 0(zero)
exit:
    li a0, 3
    li a7, 93
    ecall
    .bss
    .balign 4
    .zero 3
buffer:
    .zero 1
text:
    .zero 63
