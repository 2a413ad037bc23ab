/* Prints B. A bit field is written by reading the word round it, which was never set. */
#include <stdio.h>

struct bits {
    unsigned letter : 7, rest : 25;
};

static int __attribute__((noipa)) letter(void)
{
    return 'B';
}

static void __attribute__((noipa)) fill(struct bits *b, int c)
{
    b->letter = c;
}

static int __attribute__((noipa)) filled(int c)
{
    struct bits b;
    fill(&b, c);
    return b.letter;
}

int main(void)
{
    putchar(filled(letter()));
    putchar('\n');
    return 0;
}
