/* What the C library picolibc asks of its surroundings: an output, an input and
   memory for malloc. */

#include <errno.h>
#include <stdio.h>
#include <stdint.h>
#include <stdlib.h>
#include <unistd.h>

#include "calls.h"

static int put_char(char c, FILE *file)
{
        (void)file;
        return write_output(&c, 1) == 1 ? (unsigned char)c : EOF;
}

static int get_char(FILE *file)
{
        char c;
        (void)file;
        return read_input(&c, 1) == 1 ? (unsigned char)c : EOF;
}

static FILE console = FDEV_SETUP_STREAM(put_char, get_char, NULL, _FDEV_SETUP_RW);

FILE *const stdin = &console;
FILE *const stdout = &console;
FILE *const stderr = &console;

/* Moves the break by `step` and gives the old one. */
void *sbrk(ptrdiff_t step)
{
        char *old = set_break(0);
        if (step != 0 && set_break(old + step) != old + step) {
                errno = ENOMEM;
                return (void *)-1;
        }
        return old;
}

_Noreturn void _exit(int code)
{
        leave(code);
}
