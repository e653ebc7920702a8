/* Products, quotients, remainders and shifts of 64 bits, with and without a sign; div and lldiv. */
#include <stdint.h>
#include <stdlib.h>
#include "check.h"

static volatile const uint64_t values[] = {
    1, 2, 10, 0xffff, 0x10000, 0xffffffff, 0x100000000, 0x100000001, 1000000007, 0x123456789abcdef,
    0x7fffffffffffffff, 0x8000000000000000, 0xfedcba9876543210, 0xffffffffffffffff,
};
enum { VALUES = sizeof values / sizeof *values };

static uint64_t common_divisor(uint64_t a, uint64_t b)
{
    while (b) {
        uint64_t rest = a % b;
        a = b;
        b = rest;
    }
    return a;
}

static uint64_t power(uint64_t base, unsigned exponent, uint64_t modulus)
{
    uint64_t result = 1;
    for (; exponent; exponent >>= 1) {
        if (exponent & 1)
            result = result * base % modulus;
        base = base * base % modulus;
    }
    return result;
}

int main(void)
{
    for (int i = 0; i < VALUES; i++)
        for (int j = i % 3; j < VALUES; j += 3) {
            uint64_t a = values[i], b = values[j];
            uint64_t quotient = a / b, rest = a % b;
            CHECK(rest < b && quotient * b + rest == a);
            int64_t c = (int64_t)a, d = (int64_t)b;
            if (d == -1)
                continue;
            int64_t share = c / d, left = c % d;
            CHECK((uint64_t)share * b + (uint64_t)left == a);
            CHECK(left == 0 || (left < 0) == (c < 0));
            CHECK((left < 0 ? -(uint64_t)left : (uint64_t)left) < (d < 0 ? -b : b));
        }
    CHECK(values[12] / values[8] == 18364758415 && values[12] % values[8] == 939755815);
    CHECK(common_divisor(values[9], values[5]) == 15);
    CHECK(common_divisor(600851475143, 6857 * 71) == 6857 * 71);
    CHECK(power(3, 500003, 1000000007) == 748206050);
    CHECK(power(2, 61, 0xfffffffb) == 0xa0000000);
    for (volatile unsigned shift = 1; shift < 64; shift += 9) {
        uint64_t x = values[12];
        CHECK((x >> shift << shift | (x & (((uint64_t)1 << shift) - 1))) == x);
        CHECK((int64_t)x >> shift == -(int64_t)((~x >> shift) + 1));
    }
    volatile int numerator = -77, denominator = 10;
    div_t d = div(numerator, denominator);
    CHECK(d.quot == -7 && d.rem == -7);
    lldiv_t wide = lldiv((long long)values[10], -denominator);
    CHECK(wide.quot == -922337203685477580 && wide.rem == 7);
    CHECK(llabs((long long)values[13]) == 1);
    return wrong;
}
