/* Frees a block twice. */
#include <stdio.h>
#include <stdlib.h>

static void drop(int *numbers)
{
    free(numbers);
}

int main(void)
{
    int *numbers = calloc(4, sizeof *numbers);
    printf("%d\n", numbers[2]);
    drop(numbers);
    drop(numbers);
    return 0;
}
