#include <stdio.h>
#include <stdlib.h>
#include <string.h>

struct block {
    struct block *next;
    unsigned number;
};

int main(void)
{
    struct block *list = 0;
    unsigned long long sum = 0;
    for (unsigned i = 0; i < 10000; i++) {
        struct block *new = malloc(sizeof *new);
        if (!new) {
            printf("no block %u\n", i);
            return 1;
        }
        new->next = list;
        new->number = i;
        list = new;
    }
    unsigned count = 0;
    while (list) {
        struct block *next = list->next;
        sum += list->number;
        count++;
        free(list);
        list = next;
    }
    printf("%u blocks, %llu\n", count, sum);
    char *text = calloc(1, 100);
    text = realloc(strcpy(text, "kept"), 200);
    puts(text);
    free(text);
    printf("%d\n", sizeof(int));
    return 0;
}
