# The guest calls: the number in a7, arguments and results where C has them.
        .file "calls.S"
        .macro guest_call name, number
        .section .text.\name, "ax", @progbits
        .globl \name
        .type \name, @function
\name:  li a7, \number
        ecall
        ret
        .size \name, . - \name
        .endm

        guest_call jet_read, 63
        guest_call jet_write, 64
        guest_call jet_exit, 93
        guest_call jet_clock, 2000

# A call of Linux, made under qemu-riscv32 alone: its number, and up to six arguments.
        .section .text.kit_linux_call, "ax", @progbits
        .globl kit_linux_call
        .type kit_linux_call, @function
kit_linux_call:
        mv a7, a0
        mv a0, a1
        mv a1, a2
        mv a2, a3
        mv a3, a4
        mv a4, a5
        mv a5, a6
        ecall
        ret
        .size kit_linux_call, . - kit_linux_call
