/* A C library: reads numbers with scanf, keeps them in memory of malloc, sorts them
   with qsort and prints them with printf. */

#include <stdio.h>
#include <stdlib.h>

static int compare(const void *left, const void *right)
{
        int a = *(const int *)left, b = *(const int *)right;
        return (a > b) - (a < b);
}

int main(void)
{
        int *numbers = NULL, number;
        size_t count = 0, room = 0;
        while (scanf("%d", &number) == 1) {
                if (count == room) {
                        room = 2 * room + 4;
                        numbers = realloc(numbers, room * sizeof *numbers);
                        if (numbers == NULL)
                                return 1;
                }
                numbers[count++] = number;
        }
        qsort(numbers, count, sizeof *numbers, compare);
        for (size_t i = 0; i < count; i++)
                printf("%2zu. %8d  0x%08x\n", i + 1, numbers[i], (unsigned)numbers[i]);
        return 0;
}
