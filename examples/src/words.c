/* Input: counts the lines, words and bytes of what it reads, block by block. */

#include "calls.h"
#include "text.h"

static char block[4096];

static int is_blank(char c)
{
        return c == ' ' || c == '\n' || c == '\t' || c == '\r';
}

int main(void)
{
        unsigned lines = 0, words = 0, bytes = 0;
        int inside = 0;
        for (;;) {
                long size = read_input(block, sizeof block);
                if (size <= 0)
                        break;
                for (long i = 0; i < size; i++) {
                        lines += block[i] == '\n';
                        words += !inside && !is_blank(block[i]);
                        inside = !is_blank(block[i]);
                }
                bytes += (unsigned)size;
        }
        put_number(lines);
        put_text(" lines, ");
        put_number(words);
        put_text(" words, ");
        put_number(bytes);
        put_text(" bytes\n");
        return 0;
}
