/* Prints z. An array of which nothing was set decides that, and most runs go well. */
#include <stdio.h>

static void __attribute__((noipa)) if_large(int n, int *p)
{
    if (n > 100)
        *p = n;
}

static void __attribute__((noipa)) print_if_none(int n)
{
    int x[8];
    for (int i = 0; i < 8; i++)
        if_large(n, &x[i]);
    if (x[0] + x[7] == 0)
        putchar('z');
}

int main(void)
{
    print_if_none(64);
    putchar('\n');
    return 0;
}
