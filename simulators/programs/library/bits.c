/* Bits counted, found, turned round and spread, each by two ways that have to agree. */
#include <stdint.h>
#include <strings.h>
#include "check.h"

static int ones(uint32_t x)
{
    int count = 0;
    for (; x; x &= x - 1)
        count++;
    return count;
}

static uint32_t reversed(uint32_t x)
{
    x = (x >> 1 & 0x55555555) | (x & 0x55555555) << 1;
    x = (x >> 2 & 0x33333333) | (x & 0x33333333) << 2;
    x = (x >> 4 & 0x0f0f0f0f) | (x & 0x0f0f0f0f) << 4;
    return __builtin_bswap32(x);
}

static uint32_t reversed_slowly(uint32_t x)
{
    uint32_t y = 0;
    for (int i = 0; i < 32; i++)
        y |= (x >> i & 1) << (31 - i);
    return y;
}

static uint32_t spread(uint32_t x)
{
    x = (x | x << 8) & 0x00ff00ff;
    x = (x | x << 4) & 0x0f0f0f0f;
    x = (x | x << 2) & 0x33333333;
    return (x | x << 1) & 0x55555555;
}

static uint32_t root(uint32_t x)
{
    uint32_t result = 0;
    for (uint32_t bit = 1u << 30; bit; bit >>= 2) {
        uint32_t tried = result + bit;
        result >>= 1;
        if (x >= tried) {
            x -= tried;
            result += bit;
        }
    }
    return result;
}

int main(void)
{
    uint32_t x = 0x9e3779b9;
    for (int i = 0; i < 24; i++) {
        x ^= x << 13;
        x ^= x >> 17;
        x ^= x << 5;
        uint32_t y = x >> i;
        CHECK(__builtin_popcount(y) == ones(y));
        CHECK(__builtin_parity(y) == (ones(y) & 1));
        CHECK(reversed(y) == reversed_slowly(y));
        CHECK(y == 0 || (y >> __builtin_ctz(y) & 1 && (y & -y) == 1u << __builtin_ctz(y)));
        CHECK(y == 0 || y >> (31 - __builtin_clz(y)) == 1);
        CHECK(ffs((int)y) == __builtin_ctz(y) + 1);
        CHECK(__builtin_popcountll((uint64_t)x << 32 | y) == ones(x) + ones(y));
        CHECK(__builtin_clzll((uint64_t)y | 1ull << 40) == 23);
        CHECK(__builtin_bswap64((uint64_t)x << 32 | y) == ((uint64_t)__builtin_bswap32(y) << 32 | __builtin_bswap32(x)));
        uint32_t gray = y ^ y >> 1, back = gray;
        for (int s = 1; s < 32; s <<= 1)
            back ^= back >> s;
        CHECK(back == y);
        CHECK((spread(y & 0xffff) & spread(~y & 0xffff)) == 0 && ones(spread(y & 0xffff)) == ones(y & 0xffff));
        uint32_t r = root(y);
        CHECK(r * r <= y && (r == 65535 || (r + 1) * (r + 1) > y));
        CHECK((int32_t)x >> 3 == (int32_t)(x >> 3 | (x >> 31 ? 0xe0000000 : 0)));
    }
    /* the words with three of eight bits, in order */
    int count = 0;
    for (uint32_t set = 7; set < 256; count++) {
        CHECK(ones(set) == 3);
        uint32_t low = set & -set, ripple = set + low;
        set = ripple | ((set ^ ripple) >> 2) / low;
    }
    CHECK(count == 56);
    return wrong;
}
