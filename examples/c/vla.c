/* Prints V. An array of variable length moves the stack pointer inside a function, by MOVSP. */
#include <stdio.h>

static int __attribute__((noipa)) last(int n)
{
    volatile char array[n];
    array[0] = n;
    array[n - 1] = 'V';
    return array[n - 1];
}

int main(void)
{
    putchar(last(20));
    putchar('\n');
    return 0;
}
