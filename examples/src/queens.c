/* Recursion: places eight queens on a board so that none attacks another, prints
   the first way and counts all. */

#include "text.h"

enum { SIZE = 8 };

static int column_of[SIZE];
static unsigned ways;

static void put_board(void)
{
        char line[2 * SIZE + 1];
        for (int row = 0; row < SIZE; row++) {
                for (int column = 0; column < SIZE; column++) {
                        line[2 * column] = column_of[row] == column ? 'Q' : '.';
                        line[2 * column + 1] = ' ';
                }
                line[2 * SIZE - 1] = '\n';
                line[2 * SIZE] = 0;
                put_text(line);
        }
}

/* The sets hold a bit for each column that an earlier row's queen attacks in this
   row: straight on, and aslant to either side. */
static void place(int row, unsigned straight, unsigned left, unsigned right)
{
        if (row == SIZE) {
                if (ways == 0)
                        put_board();
                ways++;
                return;
        }
        for (int column = 0; column < SIZE; column++) {
                unsigned bit = 1u << column;
                if (((straight | left | right) & bit) != 0)
                        continue;
                column_of[row] = column;
                place(row + 1, straight | bit, (left | bit) << 1, (right | bit) >> 1);
        }
}

int main(void)
{
        place(0, 0, 0, 0);
        put_number(ways);
        put_text(" ways\n");
        return 0;
}
