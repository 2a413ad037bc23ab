/* sign tests its argument, which main never set. */
#include <stdio.h>
#define NOT_INLINE static int __attribute__((noipa))
NOT_INLINE fill(int *numbers)
{
    numbers[0] = 1;
    return 0;
}
NOT_INLINE sign(int n)
{
    return n < 0 ? '-' : '+';
}
int main(void)
{
    int numbers[4];
    fill(numbers);
    putchar(sign(numbers[2]));
    return 0;
}
