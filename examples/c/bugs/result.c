/* x[2] is set for numbers above 100 alone: main tests what nobody set, and value made it. */
#include <stdio.h>
#define NOT_INLINE static int __attribute__((noipa))
NOT_INLINE value(int n)
{
    int x[4];
    if (n > 100)
        x[2] = n;
    return x[2];
}
int main(void)
{
    int n = 3;
    if (value(n))
        putchar('y');
    else
        putchar('n');
    return 0;
}
