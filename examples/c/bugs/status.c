/* main returns what nobody set: the same bytes had 42 in them. */
#define NOT_INLINE static int __attribute__((noipa))
NOT_INLINE value(int n)
{
    int x[4];
    if (n > 100)
        x[2] = n;
    return x[2];
}
NOT_INLINE before(void)
{
    volatile int x[16];
    for (int i = 0; i < 16; i++)
        x[i] = 42;
    return 0;
}
int main(void)
{
    before();
    return value(3);
}
