/* A program that rewrites its own code: the instruction at `spot` is executed,
   a store puts another one in its place, and the loop executes that one. */

        /* asks the linker script for code that may be written */
        .globl  writable_code
        .set    writable_code, 1

        .data
line:
        .ascii  "the instruction put "
        .equ    PLACE, . - line         # where the digit stands in the line
        .ascii  "0\n"
        .equ    SIZE, . - line

        .text
        .globl  _start
_start:
        li      s0, 2                   # two turns
        la      s1, spot
        la      s2, other
        la      s3, line
spot:
        li      t0, '1'                 # in the second turn: li t0, '7'
        sb      t0, PLACE(s3)
        li      a0, 1                   # the output
        mv      a1, s3
        li      a2, SIZE
        li      a7, 64                  # write
        ecall
        lw      t1, 0(s2)
        sw      t1, 0(s1)               # from here on `other` stands at `spot`
        .insn   i 0x0F, 1, x0, x0, 0    # FENCE.I: a fetch sees the store (mssp needs none)
        addi    s0, s0, -1
        bnez    s0, spot
        li      a0, 0
        li      a7, 93                  # exit
        ecall
other:
        li      t0, '7'                 # never executed at this place
