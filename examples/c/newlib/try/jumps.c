#include <setjmp.h>
#include <stdio.h>

static jmp_buf back;

static int deep(int depth)
{
    if (depth == 0)
        longjmp(back, 7);
    return deep(depth - 1) + 1;
}

static int sum(int a, int b, int c, int d, int e, int f)
{
    return a + b + c + d + e + f;
}

static int tries(int n)
{
    volatile int count = 0;
    int x = n * 3, y = n * 5;
    int came = setjmp(back);
    count++;
    if (came == 0)
        return deep(n);
    if (count < 3)
        longjmp(back, count + 10);
    return sum(x, y, came, count, n, 1);
}

int main(void)
{
    for (int n = 0; n < 24; n += 5)
        printf("%d\n", tries(n));
    int value = setjmp(back);
    printf("value %d\n", value);
    if (value == 0)
        longjmp(back, 0);
    return 0;
}
