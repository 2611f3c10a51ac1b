/* The ways into the program and out of it. */
#include "start.h"

/* The registers of the program while a request is served, by their numbers. */
    .bss
    .balign 16
saved:
    .zero 32 * 8
    .zero 16384
own_stack:

    .text
    .globl _start
_start:
    mv a0, sp
    la sp, own_stack
    call load
    /* a0: where the program's first instruction is jumped to, with all registers as the run begins */
    li sp, REGION_BASE + BELOW_STACK + STACK_SIZE
    li tp, REGION_BASE
    .irp register, ra, gp, t0, t1, t2, s0, s1, a1, a2, a3, a4, a5, a6, a7, s2, s3, s4, s5, s6, s7, s8, s9, s10, s11, t3, t4, t5, t6
    li \register, 0
    .endr
    jr a0

/* What stands behind the code: `request`, to which each ECALL jumps by register 6, and `first`, which takes register 10 back and goes on by a jump that
   the loader writes. */
    .globl request_code, request_code_end, first_code
    .balign 8
request_code:
    auipc tp, 0
    ld tp, 16(tp)
    jr tp
    nop
    .dword serve_request
first_code:
    li a0, 0
request_code_end:

/* Serves a request. Register 6 has the address behind it, and is lost; register 4 has the region's address, and is used meanwhile. */
    .text
    .globl serve_request
serve_request:
    la tp, saved
    sd ra, 8(tp)
    sd sp, 16(tp)
    sd gp, 24(tp)
    sd t0, 40(tp)
    sd t1, 48(tp)
    sd t2, 56(tp)
    sd a0, 80(tp)
    sd a1, 88(tp)
    sd a2, 96(tp)
    sd a3, 104(tp)
    sd a4, 112(tp)
    sd a5, 120(tp)
    sd a6, 128(tp)
    sd a7, 136(tp)
    sd t3, 224(tp)
    sd t4, 232(tp)
    sd t5, 240(tp)
    sd t6, 248(tp)
    la sp, own_stack
    mv a1, a0
    mv a0, t0
    call serve
    la tp, saved
    ld ra, 8(tp)
    ld sp, 16(tp)
    ld gp, 24(tp)
    ld t0, 40(tp)
    ld t1, 48(tp)
    ld t2, 56(tp)
    ld a1, 88(tp)
    ld a2, 96(tp)
    ld a3, 104(tp)
    ld a4, 112(tp)
    ld a5, 120(tp)
    ld a6, 128(tp)
    ld a7, 136(tp)
    ld t3, 224(tp)
    ld t4, 232(tp)
    ld t5, 240(tp)
    ld t6, 248(tp)
    li tp, REGION_BASE
    jr t1
