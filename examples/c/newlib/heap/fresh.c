/* Adds up numbers of which nobody set the last. */
#include <stdio.h>
#include <stdlib.h>

int main(void)
{
    int *numbers = malloc(4 * sizeof *numbers), sum = 0;
    for (int i = 0; i < 3; i++)
        numbers[i] = i;
    for (int i = 0; i < 4; i++)
        sum += numbers[i];
    if (sum > 3)
        puts("more than 3");
    free(numbers);
    return 0;
}
