/* The wait has a limit, and what is wrong comes after it. */
#include <stdio.h>
static volatile int ready;
static void __attribute__((noinline)) copy(char *to, const char *from)
{
    while ((*to++ = *from++))
        ;
}
static int __attribute__((noinline)) initial(const char *name)
{
    char kept[16];
    copy(kept, name);
    return kept[0];
}
int main(void)
{
    for (int i = 0; i < 100000 && !ready; i++)
        ;
    putchar(initial("Augusta Ada King, Countess of Lovelace"));
    return 0;
}
