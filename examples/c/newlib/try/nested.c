#include <stdio.h>
int main(void)
{
    __label__ out;
    int found = 0;
    auto void look(int n);
    void look(int n) { if (n == 0) { found = 42; goto out; } look(n - 1); }
    look(20);
    puts("not reached");
out:
    printf("%d\n", found);
    return 0;
}
