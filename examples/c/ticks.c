/* A timer interrupt: on_timer runs every 500 turns, while main computes. */
#include <stdio.h>
#include <xt.h>

static volatile unsigned ticks;

void on_timer(void)
{
    ticks++;
    if (ticks < 5)
        timer_after(500);
}

static unsigned fibonacci(unsigned n)
{
    return n < 2 ? n : fibonacci(n - 1) + fibonacci(n - 2);
}

int main(void)
{
    timer_after(500);
    printf("fibonacci(15) = %u\n", fibonacci(15));
    while (ticks < 5)
        ;
    printf("%u ticks\n", ticks);
    return 0;
}
