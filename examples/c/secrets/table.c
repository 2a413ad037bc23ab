/* Looks up each half of the bytes of a key in a table: the address tells which entry that is, and so the half. */
unsigned char secret[4] = {0x2B, 0x7E, 0x15, 0x16};
volatile unsigned char out[4];
static const unsigned char table[16] = {14, 4, 13, 1, 2, 15, 11, 8, 3, 10, 6, 12, 5, 9, 0, 7};

int main(void)
{
    for (int i = 0; i < 4; i++)
        out[i] = table[secret[i] >> 4] << 4 | table[secret[i] & 15];
    return 0;
}
