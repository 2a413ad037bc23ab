/* Prints A. A function with `...` stores each register that may hold an argument, also those that its caller
   never set. */
#include <stdarg.h>
#include <stdio.h>

static int __attribute__((noipa)) first(int count, ...)
{
    va_list rest;
    va_start(rest, count);
    int letter = va_arg(rest, int);
    va_end(rest);
    return letter;
}

int main(void)
{
    putchar(first(1, 'A'));
    putchar('\n');
    return 0;
}
