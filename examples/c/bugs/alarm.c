/* The wait ends when the timer comes, and what is wrong comes after it. */
#include <stdlib.h>
#include <xt.h>
static volatile int rang;
void on_timer(void)
{
    rang = 1;
}
int main(void)
{
    timer_after(300000);
    while (!rang)
        ;
    exit(7);
}
