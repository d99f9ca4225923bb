/* The ways in which a run can end.  The first byte of the input chooses:

   b    EBREAK
   i    a word that is no instruction
   m    a jump to an address that isn't a multiple of 4

   Without one of these the program ends with exit code 0. */

        .text
        .globl  _start
_start:
        li      a0, 0                   # the input
        la      a1, letter
        li      a2, 1
        li      a7, 63                  # read
        ecall
        lbu     t0, letter
        li      t1, 'b'
        beq     t0, t1, at_break
        li      t1, 'i'
        beq     t0, t1, at_illegal
        li      t1, 'm'
        beq     t0, t1, at_misfetch
        li      a0, 0
        li      a7, 93                  # exit
        ecall
at_break:
        ebreak
at_illegal:
        .word   0xFFFFFFFF
at_misfetch:
        la      t2, _start
        jr      2(t2)

        .bss
letter:
        .zero   1
