/* A linked list out of a pool: put in by order, turned round, every third taken out, summed up by pointers to functions. */
struct node { int value; struct node *next; };
static struct node pool[24];
static int used;

static struct node *insert(struct node *list, int value)
{
    struct node **at = &list;
    while (*at && (*at)->value < value) at = &(*at)->next;
    struct node *n = &pool[used++];
    n->value = value;
    n->next = *at;
    *at = n;
    return list;
}

static int add(int a, int b) { return a + b; }
static int mix(int a, int b) { return (a << 3 | (unsigned)a >> 29) ^ b; }
static int larger(int a, int b) { return a > b ? a : b; }
static int (*volatile folds[3])(int, int) = {add, mix, larger};

int main(void)
{
    struct node *list = 0;
    unsigned x = 77;
    for (int i = 0; i < 24; i++) {
        x = (x << 4) + x + 29;
        list = insert(list, (int)(x & 0x3ff) - 512);
    }
    struct node *turned = 0;
    while (list) {
        struct node *n = list;
        list = n->next;
        n->next = turned;
        turned = n;
    }
    int k = 0;
    for (struct node **at = &turned; *at;)
        if (++k % 3 == 0) *at = (*at)->next; else at = &(*at)->next;
    int result = 0;
    for (int f = 0; f < 3; f++) {
        int sum = 1;
        for (struct node *n = turned; n; n = n->next) sum = folds[f](sum, n->value);
        result ^= sum << 9 * f;
    }
    return result;
}
