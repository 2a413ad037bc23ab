/* The least that prints. */
#include <stdio.h>

int main(void)
{
    printf("hello, %s: %d\n", "world", 6 * 7);
    return 0;
}
