/* Writes a number as digits: a chip divides in a time that depends on the number. */
volatile unsigned secret = 25081;
volatile char out[6];

int main(void)
{
    unsigned rest = secret;
    for (int i = 4; i >= 0; i--) {
        out[i] = '0' + rest % 10;
        rest /= 10;
    }
    return 0;
}
