/* The part of <stdlib.h> that lib.c has. */
#ifndef STDLIB_H
#define STDLIB_H
#include <stddef.h>
int abs(int number);
/* Stops this core. */
void exit(int code) __attribute__((noreturn));
void abort(void) __attribute__((noreturn));
#define EXIT_SUCCESS 0
#define EXIT_FAILURE 1
#endif
