/* Prints z. `multiples` returns a pointer to its own array, which is gone by then, and most runs go well. */
#include <stdio.h>

static int *__attribute__((noipa)) multiples(int n)
{
    int x[8];
    int *p = x;
    for (int i = 0; i < 8; i++)
        x[i] = n * i;
    __asm__("" : "+r"(p) : : "memory"); /* hides it from the compiler's warning */
    return p;
}

int main(void)
{
    int *p = multiples(8);
    putchar(p[7] == 56 ? 'z' : 'd');
    putchar('\n');
    return 0;
}
