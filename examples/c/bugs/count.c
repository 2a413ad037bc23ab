/* A long computation, which looks at no word that another could change. */
static unsigned __attribute__((noinline)) checksum(unsigned n)
{
    unsigned sum = 0xFFFFFFFF;
    for (unsigned i = 0; i < n; i++)
        for (int bit = 0; bit < 8; bit++)
            sum = sum >> 1 ^ (sum & 1 ? 0xEDB88320 : 0);
    return sum;
}
int main(void)
{
    return checksum(1000000) == 0;
}
