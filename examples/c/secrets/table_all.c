/* Looks up the same, and loads each entry of the table each time: a mask keeps the one that is asked for. */
unsigned char secret[4] = {0x2B, 0x7E, 0x15, 0x16};
volatile unsigned char out[4];
static const unsigned char table[16] = {14, 4, 13, 1, 2, 15, 11, 8, 3, 10, 6, 12, 5, 9, 0, 7};

static unsigned entry(unsigned number)
{
    unsigned found = 0;
    for (unsigned i = 0; i < 16; i++)
        found |= table[i] & -(((i ^ number) - 1) >> 31);
    return found;
}

int main(void)
{
    for (int i = 0; i < 4; i++)
        out[i] = entry(secret[i] >> 4) << 4 | entry(secret[i] & 15);
    return 0;
}
