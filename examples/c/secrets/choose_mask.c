/* Takes one of two words by a bit, without a choice: a mask keeps one of them. */
volatile unsigned secret = 0x2B7E1516, left = 3, right = 4, out;

int main(void)
{
    unsigned mask = -(secret & 1);
    out = (left & mask) | (right & ~mask);
    return 0;
}
