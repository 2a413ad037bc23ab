/* The part of <stdio.h> that lib.c has. */
#ifndef STDIO_H
#define STDIO_H
#include <stdarg.h>
#include <stddef.h>
int putchar(int c);
int puts(const char *text);
/* %d %i %u %x %X %c %s %p %%, with a width, 0, -, h, hh, l, ll or z, and of a text its most letters, as in %.8s. No
   floating point. Another conversion ends the program by abort. */
int printf(const char *format, ...) __attribute__((format(printf, 1, 2)));
int vprintf(const char *format, va_list list) __attribute__((format(printf, 1, 0)));
/* Six words at least are passed, so that each register that a function with `...` stores on entry was set by its
   caller. Without them the first short call is a breach of the stack discipline, Unset. The first call is there for
   the compiler's warnings alone (-Wformat, which -Wall has). */
int printf_six_words(const char *format, ...);
#define printf(...) (0 ? printf(__VA_ARGS__) : printf_six_words(__VA_ARGS__, 0, 0, 0, 0, 0))
#endif
