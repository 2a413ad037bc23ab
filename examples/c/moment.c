/* main and on_timer both add to a counter. If the timer interrupts main between the load and the store of counter,
   what on_timer adds is lost. With -DGUARDED main holds the timer off meanwhile. docs/OUTCOMES.md shows both. */
#include <xt.h>

static volatile unsigned counter;
static volatile unsigned fired;

void on_timer(void)
{
    counter += 10;
    fired = 1;
}

static void add_one(void)
{
#ifdef GUARDED
    unsigned ps;
    __asm__ volatile("rsil %0, 1" : "=r"(ps)::"memory");
    counter++;
    __asm__ volatile("wsr %0, ps\n\trsync" ::"r"(ps) : "memory");
#else
    counter++;
#endif
}

int main(void)
{
    timer_after(50);
    add_one();
    while (!fired)
        ;
    return 0;
}
