/* The calls that a guest program can make. */

#ifndef CALLS_H
#define CALLS_H

/* Takes the next bytes of the input, at most `size` and at most 65,536 of them,
   to `to` and after it.  Gives how many they were: 0 where the input has ended. */
long read_input(void *to, unsigned long size);

/* Appends the `size` bytes from `from` on to the output, at most 65,536 of them.
   Gives how many they were. */
long write_output(const void *from, unsigned long size);

/* Sets the break, the end of the heap, to `to` where that is not below the first
   break and not above 0x70000000.  Gives the break as it is afterwards, so
   `set_break(0)` asks for it. */
char *set_break(char *to);

/* Ends the run with this code.  The status of mssp is the code modulo 256. */
_Noreturn void leave(int code);

#endif
