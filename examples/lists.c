/* Two items: one is put into a list that a global variable holds, the other one isn't. */
#include <stdlib.h>

struct item {
    int value;
    struct item *next;
};

static struct item *shared;

static void share(struct item *item)
{
    item->next = shared;
    shared = item;
}

int main(void)
{
    struct item *mine = malloc(sizeof *mine);
    struct item *other = malloc(sizeof *other);

    share(mine);
    other->value = 1;
    shared->value = 2;
    return mine->value;
}
