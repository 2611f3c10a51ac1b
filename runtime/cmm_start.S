/* The start of a client without a library: `main` gets the arguments, and its result is the exit status. */
    .text
    .globl _start
_start:
    ld a0, 0(sp)
    addi a1, sp, 8
    andi sp, sp, -16
    call main
    li a7, 93
    ecall

    .section .note.GNU-stack, "", @progbits
