/* Two cores: each adds 100 times to a sum under a lock, and core 0 prints it when both are done. */
#include <stdatomic.h>
#include <stdio.h>
#include <xt.h>

static atomic_uint locked, done;
static unsigned sum;

static void work(void)
{
    for (int i = 0; i < 100; i++) {
        while (atomic_exchange(&locked, 1))
            ;
        sum++;
        atomic_store(&locked, 0);
    }
    atomic_fetch_add(&done, 1);
}

int main(void)
{
    work();
    while (atomic_load(&done) != 2)
        ;
    printf("%u\n", sum);
    return 0;
}

int main1(void)
{
    work();
    return 0;
}
