/* qsort over numbers, over records by two keys and over pointers to strings; bsearch in what came out. */
#include <stdlib.h>
#include <string.h>
#include "check.h"

struct yarn { unsigned char colour; short length; };

static int numbers[48];
static struct yarn yarns[20];
static const char *names[] = {"tuck", "miss", "plain", "purl", "rib", "transfer", "float", "cast", "drop", "cross", "miss"};
enum { NAMES = sizeof names / sizeof *names };

static int by_value(const void *a, const void *b)
{
    int x = *(const int *)a, y = *(const int *)b;
    return (x > y) - (x < y);
}

static int by_colour_and_length(const void *a, const void *b)
{
    const struct yarn *x = a, *y = b;
    return x->colour != y->colour ? x->colour - y->colour : y->length - x->length;
}

static int by_name(const void *a, const void *b)
{
    return strcmp(*(const char *const *)a, *(const char *const *)b);
}

int main(void)
{
    unsigned seed = 2463534242u, sum = 0, sorted = 0;
    for (int i = 0; i < 48; i++) {
        seed = seed * 1664525u + 1013904223u;
        numbers[i] = (int)seed >> 8;
        sum += (unsigned)numbers[i];
    }
    qsort(numbers, 48, sizeof *numbers, by_value);
    for (int i = 0; i < 48; i++) {
        sorted += (unsigned)numbers[i];
        CHECK(i == 0 || numbers[i - 1] <= numbers[i]);
    }
    CHECK(sum == sorted);
    for (int i = 0; i < 48; i += 5) {
        CHECK(bsearch(&numbers[i], numbers, 48, sizeof *numbers, by_value) != 0);
        int absent = numbers[i] + 1;
        if (i < 47 && numbers[i + 1] != absent)
            CHECK(bsearch(&absent, numbers, 48, sizeof *numbers, by_value) == 0);
    }

    for (int i = 0; i < 20; i++) {
        seed = seed * 1664525u + 1013904223u;
        yarns[i].colour = (unsigned char)(seed >> 24) % 5;
        yarns[i].length = (short)(seed >> 9);
    }
    qsort(yarns, 20, sizeof *yarns, by_colour_and_length);
    for (int i = 1; i < 20; i++) {
        CHECK(yarns[i - 1].colour <= yarns[i].colour);
        CHECK(yarns[i - 1].colour != yarns[i].colour || yarns[i - 1].length >= yarns[i].length);
    }

    qsort(names, NAMES, sizeof *names, by_name);
    CHECK(!strcmp(names[0], "cast") && !strcmp(names[1], "cross") && !strcmp(names[NAMES - 1], "tuck"));
    for (int i = 1; i < NAMES; i++)
        CHECK(strcmp(names[i - 1], names[i]) <= 0);
    const char *key = "purl";
    const char **found = bsearch(&key, names, NAMES, sizeof *names, by_name);
    CHECK(found && !strcmp(*found, "purl"));
    key = "knit";
    CHECK(!bsearch(&key, names, NAMES, sizeof *names, by_name));
    return wrong;
}
