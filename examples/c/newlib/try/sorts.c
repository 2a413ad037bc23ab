#include <stdio.h>
#include <stdlib.h>
#include <string.h>

static int up(const void *a, const void *b)
{
    return *(const int *)a - *(const int *)b;
}

static int words(const void *a, const void *b)
{
    return strcmp(*(char *const *)a, *(char *const *)b);
}

int main(void)
{
    int numbers[100], seed = 1;
    for (int i = 0; i < 100; i++) {
        seed = (seed * 75 + 74) % 65537;
        numbers[i] = seed;
    }
    qsort(numbers, 100, sizeof *numbers, up);
    for (int i = 0; i < 100; i += 9)
        printf("%d ", numbers[i]);
    int *found = bsearch(&numbers[42], numbers, 100, sizeof *numbers, up);
    printf("%d\n", (int)(found - numbers));
    char *names[] = {"Grace", "Ada", "Edsger", "Barbara"};
    qsort(names, 4, sizeof *names, words);
    for (int i = 0; i < 4; i++)
        puts(names[i]);
    return 0;
}
