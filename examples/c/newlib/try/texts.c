#include <errno.h>
#include <ctype.h>
#include <stdio.h>
#include <stdlib.h>
#include <string.h>

int main(void)
{
    char text[40];
    int length = snprintf(text, sizeof text, "[%8.3f]", 3.14159265);
    printf("%s %d\n", text, length);
    length = snprintf(text, 8, "%s", "longer than that");
    printf("%s %d\n", text, length);
    char *end;
    double number = strtod("  -12.5e3xyz", &end);
    printf("%.2f %s\n", number, end);
    printf("%ld %lu %d\n", strtol("0x7f", 0, 0), strtoul("777", 0, 8), atoi("42"));
    errno = 0;
    number = strtod("1e999", 0);
    printf("%d %d\n", errno == ERANGE, number > 1e308);
    int a, b;
    printf("%d", sscanf("17 cats, 4 dogs", "%d cats, %d", &a, &b));
    printf(" %d %d\n", a, b);
    char list[] = "one,two,,three";
    for (char *word = strtok(list, ","); word; word = strtok(0, ","))
        printf("<%s>", word);
    printf("\n%s %s\n", strstr("haystack", "st"), strrchr("a/b/c", '/'));
    printf("%c %d\n", toupper('q'), isdigit('7') != 0);
    fprintf(stdout, "%-6s|%+d|%05d|%#x|%o\n", "ab", 5, 42, 255, 8);
    return 0;
}
