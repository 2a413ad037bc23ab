#include <stdio.h>
int main(void)
{
    long double third = 1.5L, sum = 0;
    for (int i = 0; i < 8; i++)
        sum += third * i;
    printf("%.3Lf %Lg\n", sum, third);
    return 0;
}
