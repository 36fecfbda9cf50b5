# Start code. jet has set x2 to the end of memory minus 16, and all other registers and all memory that the file has no
# bytes for to 0: there is no .bss to clear, and no .data to copy.
        .file "start.S"
        .section .text.start, "ax", @progbits
        .globl _start
        .type _start, @function
_start:
        .option push
        .option norelax                 # what sets x3 can't be relative to x3
        la gp, __global_pointer$
        .option pop
        la tp, __tls_base
        mv a0, sp
        call kit_take_words             # what the run was handed
        call __libc_init_array          # constructors
        lw a0, kit_main_argc
        lw a1, kit_main_argv
        lw a2, environ
        call main
        call exit
        .size _start, . - _start

# A variable of the thread that has a value at the start: where there is none, the linker gives the others no room.
        .section .tdata.start, "awT", @progbits
        .word 0
