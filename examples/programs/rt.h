/* What the programs of this folder print with, over the C library of the host or of examples/c. */
#ifndef RT_H
#define RT_H
#include <stdarg.h>
#include <stddef.h>
#include <stdint.h>
#include <stdio.h>
#include <string.h>

#define NOINLINE __attribute__((noinline))

static inline void put(int c) { putchar(c); }
static inline void put_line(void) { put('\n'); }

static inline void put_text(const char *text)
{
    while (*text)
        put(*text++);
}

static inline void put_udec(unsigned number)
{
    char digits[10];
    int count = 0;
    do
        digits[count++] = (char)('0' + number % 10);
    while (number /= 10);
    while (count)
        put(digits[--count]);
}

static inline void put_dec(int number)
{
    if (number < 0)
        put('-');
    put_udec(number < 0 ? -(unsigned)number : (unsigned)number);
}

/* The last `count` hexadecimal digits. */
static inline void put_hex(unsigned number, int count)
{
    while (count--)
        put("0123456789abcdef"[number >> 4 * count & 15]);
}
#endif
