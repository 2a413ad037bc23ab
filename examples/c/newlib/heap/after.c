/* Frees the nodes of a list, and takes the next one from a node that is freed. */
#include <stdio.h>
#include <stdlib.h>

struct node {
    struct node *next;
    int number;
};

int main(void)
{
    struct node *list = NULL;
    for (int i = 0; i < 3; i++) {
        struct node *it = malloc(sizeof *it);
        it->next = list;
        it->number = i;
        list = it;
    }
    for (struct node *it = list; it != NULL; it = it->next)
        free(it);
    puts("done");
    return 0;
}
