/* Takes one of two words by a bit. C does not say whether that is a branch. */
volatile unsigned secret = 0x2B7E1516, left = 3, right = 4, out;

int main(void)
{
    out = secret & 1 ? left : right;
    return 0;
}
