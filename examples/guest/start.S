/* The start of a program in C: calls main and ends with the number that it gives.

   The machine has set x2, the stack pointer, and nothing else: all other
   registers are 0.  Memory beyond the file's bytes is zero, so there is nothing
   to clear. */

        .section .text.start, "ax"
        .globl  _start
_start:
        .option push
        .option norelax
        la      gp, __global_pointer$
        .option pop
        la      tp, __thread_start      # variables of the one thread
        li      a0, 0                   # no words of a command line,
        li      a1, 0                   # and no list of them
        call    main
        li      a7, 93                  # exit, with main's answer in a0
        ecall
