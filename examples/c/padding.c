/* Prints P. A structure with padding is copied by words, and nothing ever set the padding. */
#include <stdio.h>

struct pair {
    char letter;
    int number;
};

static struct pair kept;

static int __attribute__((noipa)) letter(void)
{
    return 'P';
}

static void __attribute__((noipa)) keep(const struct pair *p)
{
    kept = *p;
}

static void __attribute__((noipa)) make(int c)
{
    struct pair p;
    p.letter = c;
    p.number = c;
    keep(&p);
}

int main(void)
{
    make(letter());
    putchar(kept.letter);
    putchar('\n');
    return 0;
}
