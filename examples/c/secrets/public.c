/* Checks a PIN as compare_all.c does, and then says whether it is right. That is given away on purpose: a volatile
   variable has it, which --public names. */
#include <stdio.h>

unsigned char secret[6] = "25081", tried[6] = "25977";
volatile int opened;

static int same(const unsigned char *a, const unsigned char *b, int count)
{
    unsigned differ = 0;
    for (int i = 0; i < count; i++)
        differ |= a[i] ^ b[i];
    return (differ - 1) >> 31;
}

int main(void)
{
    opened = same(secret, tried, sizeof secret);
    puts(opened ? "open" : "shut");
    return 0;
}
