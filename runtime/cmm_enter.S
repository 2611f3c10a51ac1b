/* The ways into a program and out of it (cmm_native.c). A program has all registers but 6 as Cmm_Native tells; 6 is scratch, and is what is jumped by. */

#include "cmm_enter.h"

/* void cmm_enter(Cmm_Native *): goes on with the program, and comes back where it stops. */
    .text
    .globl cmm_enter
cmm_enter:
    addi sp, sp, -128
    sd ra, 0(sp)
    sd gp, 8(sp)
    sd tp, 16(sp)
    sd s0, 24(sp)
    sd s1, 32(sp)
    sd s2, 40(sp)
    sd s3, 48(sp)
    sd s4, 56(sp)
    sd s5, 64(sp)
    sd s6, 72(sp)
    sd s7, 80(sp)
    sd s8, 88(sp)
    sd s9, 96(sp)
    sd s10, 104(sp)
    sd s11, 112(sp)
    sd sp, CMM_OWN_STACK(a0)
    mv x31, a0
    ld x6, CMM_PC(x31)
    .irp n, 1, 2, 3, 4, 5, 7, 8, 9, 10, 11, 12, 13, 14, 15, 16, 17, 18, 19, 20, 21, 22, 23, 24, 25, 26, 27, 28, 29, 30, 31
    ld x\n, 8 * \n(x31)
    .endr
    jr x6

/* Here the program comes for a request: register 4 has Cmm_Native, register 7 is kept there already, register 6 has the address behind the request, and the others are the
   program's. (Register 4 itself never changes.) */
    .globl cmm_stopped
cmm_stopped:
    .irp n, 1, 2, 3, 5, 8, 9, 10, 11, 12, 13, 14, 15, 16, 17, 18, 19, 20, 21, 22, 23, 24, 25, 26, 27, 28, 29, 30, 31
    sd x\n, 8 * \n(tp)
    .endr
    sd x6, CMM_PC(tp)
    ld sp, CMM_OWN_STACK(tp)
    ld ra, 0(sp)
    ld gp, 8(sp)
    ld tp, 16(sp)
    ld s0, 24(sp)
    ld s1, 32(sp)
    ld s2, 40(sp)
    ld s3, 48(sp)
    ld s4, 56(sp)
    ld s5, 64(sp)
    ld s6, 72(sp)
    ld s7, 80(sp)
    ld s8, 88(sp)
    ld s9, 96(sp)
    ld s10, 104(sp)
    ld s11, 112(sp)
    addi sp, sp, 128
    ret

/* What stands in the page behind the code, with the address of Cmm_Native behind it: for each request two words, which put its number into register 5, and then what leads to
   cmm_stopped, by its address in there. */
    .globl cmm_request_code, cmm_request_code_end
    .balign 8
cmm_request_code:
    .irp request, 1, 2, 3, 4, 5
    li x5, \request
    j 1f
    .endr
1:
    auipc tp, 0
    ld tp, 24(tp)
    sd x7, 8 * 7(tp)
    ld x7, CMM_WAS_STOPPED(tp)
    jr x7
    nop
cmm_request_code_end:

    .section .note.GNU-stack, "", @progbits
