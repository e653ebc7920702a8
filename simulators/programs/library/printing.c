/* snprintf: numbers of all widths and bases, padding, strings, characters, floating point; and what it does at the end of its
   buffer. */
#include <stdio.h>
#include <string.h>
#include "check.h"

static char line[80];

#define PRINTS(text, ...) CHECK(snprintf(line, sizeof line, __VA_ARGS__) == (int)strlen(text) && !strcmp(line, text))

int main(void)
{
    PRINTS("0 -1 2147483647 -2147483648", "%d %i %d %d", 0, -1, 2147483647, -2147483647 - 1);
    PRINTS("4294967295 deadBEEF 0x1f 017", "%u %x%X %#x %#o", 4294967295u, 0xdead, 0xbeef, 31, 15);
    PRINTS("[   42|42   |00042|+42| 42]", "[%5d|%-5d|%05d|%+d|% d]", 42, 42, 42, 42, 42);
    PRINTS("-9223372036854775808 18446744073709551615", "%lld %llu", -9223372036854775807LL - 1, 18446744073709551615ULL);
    PRINTS("[yarn][  yarn][yarn  ][ya]%z", "[%s][%6s][%-6s][%.2s]%%%c", "yarn", "yarn", "yarn", "yarn", 'z');
    PRINTS("[  0012][   7]", "[%6.4d][%*d]", 12, 4, 7);
    PRINTS("-1 200 65535", "%hhd %hhu %hu", 255, 200, 65535);
    PRINTS("[  3.142] 6.022141e+23", "[%7.3f] %e", 3.14159265, 6.02214076e23);
    PRINTS("inf -inf nan", "%f %f %f", 1e300 * 1e300, -1e300 * 1e300, __builtin_nan(""));
    CHECK(snprintf(line, 5, "needle %d", 1234) == 11 && !strcmp(line, "need"));
    CHECK(snprintf(0, 0, "%d stitches", 1000) == 13);
    return wrong;
}
