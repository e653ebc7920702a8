/* malloc, calloc, realloc and free: blocks that keep what was written to them, are aligned, and are given out again. */
#include <errno.h>
#include <stdint.h>
#include <stdlib.h>
#include <string.h>
#include "check.h"

enum { BLOCKS = 16 };

static unsigned char *blocks[BLOCKS];
static size_t sizes[BLOCKS];

static void fill(int i)
{
    for (size_t k = 0; k < sizes[i]; k++)
        blocks[i][k] = (unsigned char)(i * 16 + k);
}

static int kept(int i, size_t size)
{
    for (size_t k = 0; k < size; k++)
        if (blocks[i][k] != (unsigned char)(i * 16 + k))
            return 0;
    return 1;
}

int main(void)
{
    for (int i = 0; i < BLOCKS; i++) {
        sizes[i] = (size_t)(i * i % 41 + 1);
        blocks[i] = malloc(sizes[i]);
        CHECK(blocks[i] && (uintptr_t)blocks[i] % sizeof(long) == 0);
        fill(i);
    }
    for (int i = 0; i < BLOCKS; i += 3) {
        CHECK(kept(i, sizes[i]));
        free(blocks[i]);
        blocks[i] = 0;
    }
    for (int i = 1; i < BLOCKS; i += 3) {
        size_t before = sizes[i];
        sizes[i] = before > 20 ? before / 2 : before * 3;
        unsigned char *block = realloc(blocks[i], sizes[i]);
        CHECK(block != 0);
        blocks[i] = block;
        CHECK(kept(i, before < sizes[i] ? before : sizes[i]));
        fill(i);
    }
    for (int i = 0; i < BLOCKS; i += 3) {
        sizes[i] = 24;
        blocks[i] = calloc(6, 4);
        CHECK(blocks[i] != 0);
        for (int k = 0; k < 24; k++)
            CHECK(blocks[i][k] == 0);
        fill(i);
    }
    for (int i = 0; i < BLOCKS; i++)
        CHECK(kept(i, sizes[i]));
    errno = 0;
    CHECK(malloc(1000000) == 0 && errno == ENOMEM);
    for (int i = BLOCKS - 1; i >= 0; i--)
        free(blocks[i]);
    unsigned char *whole = malloc(2048);
    CHECK(whole != 0);
    memset(whole, 0xff, 2048);
    free(whole);
    return wrong;
}
