/* A long run of loads and stores: shuffles 262,144 cards, to and fro between two
   arrays.  Each shuffle cuts the cards into halves and takes one from each by turns.
   After 18 of them every card is back in its place, since 262,144 is 2 to the 18th.
   It prints a checksum of the order after nine shuffles, and ends with code 1 if a
   card isn't back after 36. */

#include "text.h"

enum { CARDS = 1 << 18, HALF = CARDS / 2, SHUFFLES = 36 };

static unsigned cards[CARDS], shuffled[CARDS];

/* Four cards of each half in a turn, so that most instructions are loads and stores. */
static void shuffle(const unsigned *from, unsigned *to)
{
        const unsigned *upper = from + HALF;
        for (unsigned *end = to + CARDS; to != end; to += 8) {
                #pragma GCC unroll 4
                for (int i = 0; i < 4; i++) {
                        to[2 * i] = from[i];
                        to[2 * i + 1] = upper[i];
                }
                from += 4;
                upper += 4;
        }
}

static unsigned card(unsigned i)
{
        unsigned number = i * 2654435761u;
        return number ^ number >> 16;
}

int main(void)
{
        for (unsigned i = 0; i < CARDS; i++)
                cards[i] = card(i);

        unsigned sum = 0;
        for (int turn = 0; turn < SHUFFLES; turn += 2) {
                shuffle(cards, shuffled);
                if (turn == 8)
                        for (unsigned i = 0; i < CARDS; i++)
                                sum = 31 * sum + shuffled[i];
                shuffle(shuffled, cards);
        }

        for (unsigned i = 0; i < CARDS; i++)
                if (cards[i] != card(i))
                        return 1;
        put_text("checksum ");
        put_hex(sum);
        put_text("\n");
        return 0;
}
