/* What the compiler asks the library for: 64-bit arithmetic, division, memory and texts, and a jump table. */
#include <stdint.h>
#include <stdio.h>
#include <stdlib.h>
#include <string.h>

static uint64_t seed = 88172645463325252u;

static uint64_t next(void)
{
    seed ^= seed << 13;
    seed ^= seed >> 7;
    seed ^= seed << 17;
    return seed;
}

static void put64(uint64_t value)
{
    printf("%08x%08x ", (unsigned)(value >> 32), (unsigned)value);
}

static int pick(unsigned which, int a, int b)
{
    switch (which) {
    case 0: return a + b;
    case 1: return a - b;
    case 2: return a * b;
    case 3: return b ? a / b : 0;
    case 4: return b ? a % b : 0;
    case 5: return a & b;
    case 6: return a | b;
    case 7: return a ^ b;
    default: return 0;
    }
}

struct padded {
    uint8_t kind;
    uint32_t value;
    uint16_t flags;
};

static struct padded made(unsigned n)
{
    struct padded p;
    memset(&p, 0, sizeof p);
    p.kind = (uint8_t)n;
    p.value = n * 0x01010101u;
    p.flags = (uint16_t)(n << 4);
    return p;
}

int main(void)
{
    for (int i = 0; i < 6; i++) {
        uint64_t a = next(), b = next() >> (i * 9);
        int64_t x = (int64_t)a, y = (int64_t)next() >> (i * 10);
        int by = (int)(b & 63);
        put64(a * b), put64(a / b), put64(a % b), put64(a << by), put64(a >> by);
        put64((uint64_t)(x / y)), put64((uint64_t)(x % y)), put64((uint64_t)(x >> by));
        printf("%d %d %d\n", __builtin_popcountll(a), __builtin_clzll(b), __builtin_ctzll(a));
    }
    for (unsigned i = 0; i < 8; i++)
        printf("%d ", pick(i, -1000 + (int)i, (int)i * 7 - 20));
    putchar('\n');

    char text[32] = "register";
    strcat(text, " windows");
    memmove(text + 2, text, 12);
    printf("%s %u %d %s\n", text, (unsigned)strlen(text), strcmp("abc", "abd") < 0, strchr(text, 'w'));
    struct padded p = made(7), copy = p;
    printf("%d %x %x %d\n", copy.kind, (unsigned)copy.value, copy.flags, memcmp(&p, &copy, sizeof p));
    printf("[%5d] [%-5d] [%05d] [%3s] [%c] [%%] %d\n", 42, -42, 42, "no", 'c', abs(-3));
    return 0;
}
