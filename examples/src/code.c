/* Exit codes: reads a whole number, perhaps with a minus, and ends with it.  The
   code of a program has 32 bits; the status of mssp is the code modulo 256. */

#include "calls.h"

int main(void)
{
        char text[16];
        long size = read_input(text, sizeof text);
        int negative = size > 0 && text[0] == '-';
        unsigned number = 0;
        for (long i = negative; i < size && text[i] >= '0' && text[i] <= '9'; i++)
                number = 10 * number + (unsigned)(text[i] - '0');
        return (int)(negative ? 0 - number : number);
}
