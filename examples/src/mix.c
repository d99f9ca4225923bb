/* A long run of arithmetic: shifts, products, quotients and remainders in a
   chain, where each turn needs the one before.  Nearly nothing is loaded or
   stored.  It prints a checksum. */

#include "text.h"

enum { TURNS = 1200000 };

int main(void)
{
        unsigned x = 2463534242u, sum = 1;
        for (unsigned turn = 1; turn <= TURNS; turn++) {
                x ^= x << 13;
                x ^= x >> 17;
                x ^= x << 5;
                unsigned high = (unsigned)((unsigned long long)x * sum >> 32);
                int quotient = (int)x / (int)(turn | 1);
                unsigned rest = sum % ((x >> 8) | 1);
                sum = sum * 1103515245u + (high ^ (unsigned)quotient) + rest;
                if ((sum & 64) != 0)
                        sum ^= turn;
        }
        put_text("checksum ");
        put_hex(sum);
        put_text("\n");
        return 0;
}
