/* Checks a PIN and stops at the first digit that is wrong: the time tells how many are right. */
unsigned char secret[6] = "25081", tried[6] = "25977";
volatile int opened;

static int same(const unsigned char *a, const unsigned char *b, int count)
{
    for (int i = 0; i < count; i++)
        if (a[i] != b[i])
            return 0;
    return 1;
}

int main(void)
{
    opened = same(secret, tried, sizeof secret);
    return 0;
}
