/* Texts and numbers for the output. */

#ifndef TEXT_H
#define TEXT_H

/* Writes a text up to the zero byte that ends it. */
void put_text(const char *text);

/* Writes a number in decimal digits. */
void put_number(unsigned number);

/* Writes a number as eight hexadecimal digits. */
void put_hex(unsigned number);

#endif
