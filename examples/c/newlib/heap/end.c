/* Writes behind a block that it never frees: the end of the program finds it. */
#include <stdio.h>
#include <stdlib.h>

char *bytes; /* so that the compiler keeps the block */

int main(void)
{
    bytes = malloc(10);
    for (int i = 0; i <= 10; i++)
        bytes[i] = 'a';
    putchar(bytes[0]);
    putchar('\n');
    return 0;
}
