/* Output, without any start-up code: writes one line and ends with code 0. */

        .section .rodata
line:
        .ascii  "hello, world\n"
        .equ    SIZE, . - line

        .text
        .globl  _start
_start:
        li      a0, 1                   # the output
        la      a1, line
        li      a2, SIZE
        li      a7, 64                  # write
        ecall
        li      a0, 0
        li      a7, 93                  # exit
        ecall
