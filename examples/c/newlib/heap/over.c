/* A copy of a text without room for its last byte, 0. */
#include <stdio.h>
#include <stdlib.h>
#include <string.h>

static char *copy_of(const char *text)
{
    char *copy = malloc(strlen(text));
    return strcpy(copy, text);
}

int main(void)
{
    char *copy = copy_of("four");
    puts(copy);
    free(copy);
    return 0;
}
