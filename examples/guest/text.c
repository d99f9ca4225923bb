/* Texts and numbers for the output, over the call `write`. */

#include "text.h"
#include "calls.h"

/* One write may take fewer bytes than it was given. */
static void put_bytes(const char *from, unsigned long size)
{
        while (size > 0) {
                long done = write_output(from, size);
                if (done <= 0)
                        leave(1);
                from += done;
                size -= (unsigned long)done;
        }
}

void put_text(const char *text)
{
        unsigned long size = 0;
        while (text[size] != 0)
                size++;
        put_bytes(text, size);
}

void put_number(unsigned number)
{
        char digits[10];
        int first = 10;
        do {
                digits[--first] = (char)('0' + number % 10);
                number /= 10;
        } while (number > 0);
        put_bytes(digits + first, (unsigned long)(10 - first));
}

void put_hex(unsigned number)
{
        char digits[8];
        for (int place = 7; place >= 0; place--) {
                digits[place] = "0123456789abcdef"[number & 15];
                number >>= 4;
        }
        put_bytes(digits, 8);
}
