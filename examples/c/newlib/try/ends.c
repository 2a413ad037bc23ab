#include <stdio.h>
#include <stdlib.h>
static void last(void) { puts("last"); }
__attribute__((constructor)) static void first(void) { puts("first"); }
int main(void)
{
    atexit(last);
    printf("%d", getchar());
    printf(" %d\n", fopen("file", "r") == 0);
    fputs("no end of line", stdout);
    exit(3);
}
