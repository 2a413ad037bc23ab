/* No bug: a product of two halves of 16 bits, where nobody set what stands beside them. */
#include <stdio.h>
#define NOT_INLINE static int __attribute__((noipa))
struct pair {
    short a, b;
};
NOT_INLINE square(struct pair p)
{
    return p.a * p.a;
}
int main(void)
{
    struct pair p;
    p.a = 7;
    if (square(p) == 49)
        putchar('y');
    return 0;
}
