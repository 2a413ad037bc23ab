/* The program and its interrupt store into two bytes of one word, and nothing is lost. */
#include <stdio.h>
#include <xt.h>
static volatile unsigned char mine, his;
static volatile int fired;
void on_timer(void)
{
    his++;
    if (++fired < 40)
        timer_after(97);
}
static void __attribute__((noinline)) step(void)
{
    mine++;
}
int main(void)
{
    timer_after(97);
    for (int i = 0; i < 500; i++)
        step();
    printf("%d %d\n", mine, his);
    return 0;
}
