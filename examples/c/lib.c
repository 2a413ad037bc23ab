/* What the compiler and the headers of include/ ask for: UART0, texts and memory, printf, and the arithmetic that
   the compiler calls by name, since it believes that the processor does not divide. */
#include <stdint.h>
#include <stdio.h>
#include <stdlib.h>
#include <string.h>
#include <xt.h>
#undef printf

/* ---- Output. */

int putchar(int c)
{
    UART0_TX = (uint8_t)c;
    return (uint8_t)c;
}

/* A text, or its first `most` letters. */
static int put_text(const char *text, int most)
{
    int count = 0;
    for (; count < most && text[count]; count++)
        putchar(text[count]);
    return count;
}

int puts(const char *text)
{
    int count = put_text(text, INT32_MAX) + 1;
    putchar('\n');
    return count;
}

/* A number or a text with what a conversion says of it. */
struct field {
    int width, left, zeros, most;
};

static int pad(int count, char with)
{
    for (int i = 0; i < count; i++)
        putchar(with);
    return count > 0 ? count : 0;
}

static int put_field(const char *sign, const char *text, struct field field)
{
    int length = 0, count = 0;
    while (length < field.most && text[length])
        length++;
    int missing = field.width - (int)strlen(sign) - length;
    if (!field.left && !field.zeros)
        count += pad(missing, ' ');
    count += put_text(sign, INT32_MAX);
    if (!field.left && field.zeros)
        count += pad(missing, '0');
    count += put_text(text, length);
    if (field.left)
        count += pad(missing, ' ');
    return count;
}

static int put_number(uint64_t value, uint32_t base, const char *digits, const char *sign, struct field field)
{
    char text[24], *at = text + sizeof text - 1;
    *at = 0;
    while (value >> 32) {
        *--at = digits[value % base];
        value /= base;
    }
    uint32_t low = (uint32_t)value;
    do {
        *--at = digits[low % base];
        low /= base;
    } while (low);
    return put_field(sign, at, field);
}

/* Reads the number that stands at a place of the format. */
static int number_at(const char **format)
{
    int number = 0;
    for (; **format >= '0' && **format <= '9'; (*format)++)
        number = number * 10 + **format - '0';
    return number;
}

int vprintf(const char *format, va_list list)
{
    static const char small[] = "0123456789abcdef", large[] = "0123456789ABCDEF";
    int count = 0;
    for (; *format; format++) {
        if (*format != '%') {
            putchar(*format);
            count++;
            continue;
        }
        struct field field = {0, 0, 0, INT32_MAX};
        int longs = 0, halves = 0;
        for (format++; *format == '-' || *format == '0'; format++) {
            if (*format == '-')
                field.left = 1;
            else
                field.zeros = 1;
        }
        field.width = number_at(&format);
        if (*format == '.') {
            format++;
            field.most = number_at(&format);
        }
        if (*format == 'z') {
            format++;
        } else if (*format == 'h') {
            for (; *format == 'h'; format++)
                halves++;
        } else {
            for (; *format == 'l'; format++)
                longs++;
        }
        if (longs > 2 || halves > 2 || (field.most != INT32_MAX && *format != 's'))
            abort(); /* no conversion of this printf */
        char one[2] = {0, 0};
        switch (*format) {
        case 'd':
        case 'i': {
            int64_t value = longs > 1 ? va_arg(list, int64_t) : va_arg(list, int);
            value = halves == 0 ? value : halves == 1 ? (int16_t)value : (int8_t)value;
            uint64_t size = value < 0 ? -(uint64_t)value : (uint64_t)value;
            count += put_number(size, 10, small, value < 0 ? "-" : "", field);
            break;
        }
        case 'u':
        case 'x':
        case 'X': {
            uint64_t value = longs > 1 ? va_arg(list, uint64_t) : va_arg(list, unsigned);
            value = halves == 0 ? value : halves == 1 ? (uint16_t)value : (uint8_t)value;
            count += put_number(value, *format == 'u' ? 10 : 16, *format == 'X' ? large : small, "", field);
            break;
        }
        case 'p':
            count += put_number(va_arg(list, unsigned), 16, small, "0x", field);
            break;
        case 'c':
            one[0] = (char)va_arg(list, int);
            count += put_field("", one, field);
            break;
        case 's':
            count += put_field("", va_arg(list, const char *), field);
            break;
        case '%':
            putchar('%');
            count++;
            break;
        default:
            abort(); /* no conversion of this printf */
        }
    }
    return count;
}

int printf_six_words(const char *format, ...)
{
    va_list list;
    va_start(list, format);
    int count = vprintf(format, list);
    va_end(list);
    return count;
}

int printf(const char *format, ...)
{
    va_list list;
    va_start(list, format);
    int count = vprintf(format, list);
    va_end(list);
    return count;
}

/* ---- Memory and texts. */

void *memcpy(void *restrict to, const void *restrict from, size_t count)
{
    char *d = to;
    const char *s = from;
    while (count--)
        *d++ = *s++;
    return to;
}

void *memmove(void *to, const void *from, size_t count)
{
    char *d = to;
    const char *s = from;
    if ((uintptr_t)d <= (uintptr_t)s) {
        while (count--)
            *d++ = *s++;
    } else {
        while (count--)
            d[count] = s[count];
    }
    return to;
}

void *memset(void *to, int byte, size_t count)
{
    char *d = to;
    while (count--)
        *d++ = (char)byte;
    return to;
}

int memcmp(const void *a, const void *b, size_t count)
{
    const uint8_t *x = a, *y = b;
    for (; count; count--, x++, y++)
        if (*x != *y)
            return *x - *y;
    return 0;
}

size_t strlen(const char *text)
{
    size_t count = 0;
    while (text[count])
        count++;
    return count;
}

int strncmp(const char *a, const char *b, size_t most)
{
    for (; most; most--, a++, b++)
        if (*a != *b || !*a)
            return (uint8_t)*a - (uint8_t)*b;
    return 0;
}

int strcmp(const char *a, const char *b)
{
    return strncmp(a, b, (size_t)-1);
}

char *strcpy(char *restrict to, const char *restrict from)
{
    char *d = to;
    while ((*d++ = *from++))
        ;
    return to;
}

char *strncpy(char *restrict to, const char *restrict from, size_t most)
{
    for (size_t i = 0; i < most; i++) {
        to[i] = *from;
        if (*from)
            from++;
    }
    return to;
}

char *strcat(char *restrict to, const char *restrict from)
{
    strcpy(to + strlen(to), from);
    return to;
}

char *strchr(const char *text, int c)
{
    for (; *text != (char)c; text++)
        if (!*text)
            return 0;
    return (char *)text;
}

int abs(int number)
{
    return number < 0 ? -number : number;
}

void exit(int code)
{
    for (;;) /* A branch, so that `uses` names a code that nobody set. */
        __asm__ volatile("mov a2, %0\n\tbeqz a2, 1f\n1:\tbreak 1, 15" ::"r"(code) : "a2");
}

void abort(void)
{
    for (;;)
        __asm__ volatile("break 1, 14");
}

/* ---- Arithmetic that the compiler calls by name. */

uint32_t __udivsi3(uint32_t a, uint32_t b)
{
    uint32_t q;
    __asm__("quou %0, %1, %2" : "=r"(q) : "r"(a), "r"(b));
    return q;
}

uint32_t __umodsi3(uint32_t a, uint32_t b)
{
    uint32_t r;
    __asm__("remu %0, %1, %2" : "=r"(r) : "r"(a), "r"(b));
    return r;
}

int32_t __divsi3(int32_t a, int32_t b)
{
    int32_t q;
    __asm__("quos %0, %1, %2" : "=r"(q) : "r"(a), "r"(b));
    return q;
}

int32_t __modsi3(int32_t a, int32_t b)
{
    int32_t r;
    __asm__("rems %0, %1, %2" : "=r"(r) : "r"(a), "r"(b));
    return r;
}

/* A number of 64 bits as its two words, the low one first. */
union pair {
    uint64_t whole;
    struct {
        uint32_t low, high;
    };
};

static uint64_t pair_of(uint32_t high, uint32_t low)
{
    union pair p;
    p.low = low;
    p.high = high;
    return p.whole;
}

static uint32_t high_of(uint64_t whole)
{
    union pair p = {whole};
    return p.high;
}

uint64_t __muldi3(uint64_t a, uint64_t b)
{
    uint32_t high, low = (uint32_t)a * (uint32_t)b;
    __asm__("muluh %0, %1, %2" : "=r"(high) : "r"((uint32_t)a), "r"((uint32_t)b));
    return pair_of(high + high_of(a) * (uint32_t)b + (uint32_t)a * high_of(b), low);
}

uint64_t __ashldi3(uint64_t a, int by)
{
    uint32_t low = (uint32_t)a;
    if (by == 0)
        return a;
    if (by >= 32)
        return pair_of(low << (by - 32), 0);
    return pair_of(high_of(a) << by | low >> (32 - by), low << by);
}

uint64_t __lshrdi3(uint64_t a, int by)
{
    uint32_t high = high_of(a);
    if (by == 0)
        return a;
    if (by >= 32)
        return pair_of(0, high >> (by - 32));
    return pair_of(high >> by, (uint32_t)a >> by | high << (32 - by));
}

int64_t __ashrdi3(int64_t a, int by)
{
    int32_t high = (int32_t)high_of((uint64_t)a);
    if (by == 0)
        return a;
    if (by >= 32)
        return (int64_t)pair_of((uint32_t)(high >> 31), (uint32_t)(high >> (by - 32)));
    return (int64_t)pair_of((uint32_t)(high >> by), (uint32_t)a >> by | (uint32_t)high << (32 - by));
}

/* Quotient and remainder, a bit at a time. */
static uint64_t divide(uint64_t a, uint64_t b, uint64_t *rest)
{
    uint64_t quotient = 0, left = 0;
    if (b == 0) {
        *rest = __umodsi3((uint32_t)a, 0); /* the cause of a division by 0 */
        return 0;
    }
    for (int i = 0; i < 64; i++) {
        uint32_t carry = high_of(left) >> 31;
        left = left << 1 | high_of(a) >> 31;
        a <<= 1;
        quotient <<= 1;
        if (carry || left >= b) {
            left -= b;
            quotient |= 1;
        }
    }
    *rest = left;
    return quotient;
}

uint64_t __udivdi3(uint64_t a, uint64_t b)
{
    uint64_t rest;
    return divide(a, b, &rest);
}

uint64_t __umoddi3(uint64_t a, uint64_t b)
{
    uint64_t rest;
    divide(a, b, &rest);
    return rest;
}

static uint64_t size_of(int64_t a)
{
    return a < 0 ? -(uint64_t)a : (uint64_t)a;
}

int64_t __divdi3(int64_t a, int64_t b)
{
    uint64_t rest, quotient = divide(size_of(a), size_of(b), &rest);
    return (int64_t)((a < 0) != (b < 0) ? -quotient : quotient);
}

int64_t __moddi3(int64_t a, int64_t b)
{
    uint64_t rest;
    divide(size_of(a), size_of(b), &rest);
    return (int64_t)(a < 0 ? -rest : rest);
}

int __popcountsi2(uint32_t a)
{
    int count = 0;
    for (; a; a &= a - 1)
        count++;
    return count;
}

int __popcountdi2(uint64_t a)
{
    return __popcountsi2((uint32_t)a) + __popcountsi2(high_of(a));
}

uint32_t __bswapsi2(uint32_t a)
{
    return a << 24 | (a & 0xFF00) << 8 | (a >> 8 & 0xFF00) | a >> 24;
}

uint64_t __bswapdi2(uint64_t a)
{
    return pair_of(__bswapsi2((uint32_t)a), __bswapsi2(high_of(a)));
}

int __paritysi2(uint32_t a)
{
    return __popcountsi2(a) & 1;
}

int __ctzdi2(uint64_t a)
{
    return (uint32_t)a ? __builtin_ctz((uint32_t)a) : 32 + __builtin_ctz(high_of(a));
}

int __clzdi2(uint64_t a)
{
    return high_of(a) ? __builtin_clz(high_of(a)) : 32 + __builtin_clz((uint32_t)a);
}

/* ---- <stdatomic.h>, for objects of 1, 2 and 4 bytes. The compiler calls these by name (-fno-inline-atomics). A load
   is L32AI, and every store S32RI or S32C1I, so the exchange of values orders what the two cores do. */

/* The word that an object lies in, and how far the object's bits are to the left there. */
static volatile uint32_t *word_of(const volatile void *object)
{
    return (volatile uint32_t *)((uintptr_t)object & ~3u);
}

static uint32_t shift_of(const volatile void *object)
{
    return ((uintptr_t)object & 3) * 8;
}

/* Puts `next` into the bits of `mask` where they are `old`'s, and says whether they were. */
static _Bool replace(volatile uint32_t *word, uint32_t mask, uint32_t old, uint32_t next)
{
    uint32_t was;
    do {
        was = load_acquire(word);
        if ((was & mask) != old)
            return 0;
    } while (compare_and_swap(word, was, (was & ~mask) | next) != was);
    return 1;
}

#define FETCH(name, size, type, next)                                                     \
    type __atomic_##name##_##size(volatile void *object, type value, int order)           \
    {                                                                                     \
        uint32_t mask = (uint32_t)(type)-1 << shift_of(object);                           \
        type old;                                                                         \
        (void)order;                                                                      \
        do                                                                                \
            old = (type)(load_acquire(word_of(object)) >> shift_of(object));              \
        while (!replace(word_of(object), mask, (uint32_t)old << shift_of(object),         \
                        (uint32_t)(type)(next) << shift_of(object)));                     \
        return old;                                                                       \
    }

#define ATOMICS(size, type)                                                                                      \
    type __atomic_load_##size(const volatile void *object, int order)                                           \
    {                                                                                                            \
        (void)order;                                                                                             \
        return (type)(load_acquire(word_of(object)) >> shift_of(object));                                       \
    }                                                                                                            \
    FETCH(exchange, size, type, value)                                                                           \
    FETCH(fetch_add, size, type, old + value)                                                                    \
    FETCH(fetch_sub, size, type, old - value)                                                                    \
    FETCH(fetch_and, size, type, old &value)                                                                     \
    FETCH(fetch_or, size, type, old | value)                                                                     \
    FETCH(fetch_xor, size, type, old ^ value)                                                                    \
    _Bool __atomic_compare_exchange_##size(volatile void *object, void *want, type next, _Bool weak, int yes, int no) \
    {                                                                                                            \
        uint32_t mask = (uint32_t)(type)-1 << shift_of(object);                                                  \
        (void)weak, (void)yes, (void)no;                                                                         \
        if (replace(word_of(object), mask, (uint32_t) * (type *)want << shift_of(object),                        \
                    (uint32_t)next << shift_of(object)))                                                         \
            return 1;                                                                                            \
        *(type *)want = __atomic_load_##size(object, no);                                                        \
        return 0;                                                                                                \
    }

ATOMICS(1, uint8_t)
ATOMICS(2, uint16_t)
ATOMICS(4, uint32_t)

void __atomic_store_4(volatile void *object, uint32_t value, int order)
{
    (void)order;
    store_release(object, value);
}

/* Whether an object lies on a stack. There nobody need have set the object, or the bytes beside it, and an exchange of
   the word would look at them, so that a smaller object is stored without. */
static _Bool on_stack(const volatile void *object)
{
    return (uintptr_t)object >= (uintptr_t)__builtin_frame_address(0);
}

void __atomic_store_2(volatile void *object, uint16_t value, int order)
{
    if (on_stack(object))
        *(volatile uint16_t *)object = value;
    else
        __atomic_exchange_2(object, value, order);
}

void __atomic_store_1(volatile void *object, uint8_t value, int order)
{
    if (on_stack(object))
        *(volatile uint8_t *)object = value;
    else
        __atomic_exchange_1(object, value, order);
}

_Bool __atomic_is_lock_free(size_t size, const volatile void *object)
{
    (void)object;
    return size == 1 || size == 2 || size == 4;
}
