/* memcpy, memmove, memset and memcmp from and to each place in a word, of short lengths and of longer ones. */
#include <string.h>
#include "check.h"

static unsigned char from[48], to[48];
static const unsigned char lengths[] = {0, 1, 3, 4, 6, 9, 17, 29};

static void fresh(void)
{
    for (int i = 0; i < 48; i++) {
        from[i] = (unsigned char)(i * 7 + 1);
        to[i] = 0xee;
    }
}

/* Whether just so many bytes from a place on in `to` are those of `from` at another. */
static int copied(int there, int here, int length)
{
    for (int i = 0; i < 48; i++) {
        int inside = i >= there && i < there + length;
        if (to[i] != (inside ? (unsigned char)((i - there + here) * 7 + 1) : 0xee))
            return 0;
    }
    return 1;
}

int main(void)
{
    for (int k = 0; k < (int)sizeof lengths; k++)
        for (int place = 0; place < 16; place += k % 2 + 1) {
            int length = lengths[k], there = 4 + place / 4, here = 4 + place % 4;
            fresh();
            CHECK(memcpy(to + there, from + here, length) == to + there);
            CHECK(copied(there, here, length));
            CHECK(memcmp(to + there, from + here, length) == 0);
            if (length) {
                to[there + length - 1]++;
                CHECK(memcmp(to + there, from + here, length) > 0);
            }
        }
    for (int place = 0; place < 4; place++)
        for (int k = 0; k < (int)sizeof lengths; k++) {
            fresh();
            CHECK(memset(to + 4 + place, 0x15a, lengths[k]) == to + 4 + place);
            for (int i = 0; i < 48; i++)
                CHECK(to[i] == (i >= 4 + place && i < 4 + place + lengths[k] ? 0x5a : 0xee));
        }
    for (int shift = -5; shift <= 5; shift += 2) {
        fresh();
        memmove(from + 8 + shift, from + 8, 29);
        for (int i = 0; i < 48; i++) {
            int moved = i >= 8 + shift && i < 37 + shift;
            CHECK(from[i] == (unsigned char)((moved ? i - shift : i) * 7 + 1));
        }
    }
    return wrong;
}
