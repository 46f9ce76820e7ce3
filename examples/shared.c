/* One of two values is published through a pointer, and may be NULL. This is in the subset of C that emit reads. */
int *shared;

void publish(int **where, int *what) {
    *where = what;
}

int main() {
    int *mine = malloc(4), *other = malloc(4);
    publish(&shared, mine);
    *shared = 1;
    *other = 2;
    mine = NULL;
    return *mine;
}
