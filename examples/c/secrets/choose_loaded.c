/* Takes one of two words by a bit, after it has loaded both: whether that is a branch depends on the level. */
volatile unsigned secret = 0x2B7E1516, left = 3, right = 4, out;

int main(void)
{
    unsigned a = left, b = right;
    out = secret & 1 ? a : b;
    return 0;
}
