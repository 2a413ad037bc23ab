/* Prints the initials of two names. Its output is right, and its stack is broken: `copy` writes the second name
   past the end of `kept`. */
#include <stdio.h>

static void copy(char *to, const char *from)
{
    while ((*to++ = *from++))
        ;
}

static int initial(const char *name)
{
    char kept[16];
    copy(kept, name);
    return kept[0];
}

int main(void)
{
    putchar(initial("Charles Babbage"));
    putchar(initial("Augusta Ada King, Countess of Lovelace"));
    putchar('\n');
    return 0;
}
