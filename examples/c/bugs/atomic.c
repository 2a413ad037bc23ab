/* Correct: an atomic byte on the stack is stored before it is loaded. */
#include <stdatomic.h>
#include <stdio.h>
int main(void)
{
    atomic_uchar n;
    atomic_store(&n, 'A');
    putchar(atomic_load(&n));
    return 0;
}
