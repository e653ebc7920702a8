/* strtol and its kin with all bases and at the ends of their ranges, sscanf, and an expression read by descent. */
#include <errno.h>
#include <stdio.h>
#include <stdlib.h>
#include <string.h>
#include "check.h"

static const char *at;

static int sum(void);

static int factor(void)
{
    if (*at == '-') {
        at++;
        return -factor();
    }
    if (*at == '(') {
        at++;
        int value = sum();
        CHECK(*at == ')');
        at++;
        return value;
    }
    char *end;
    long value = strtol(at, &end, 10);
    CHECK(end != at);
    at = end;
    return (int)value;
}

static int product(void)
{
    int value = factor();
    for (;;)
        switch (*at) {
        case '*': at++; value *= factor(); break;
        case '/': at++; value /= factor(); break;
        case '%': at++; value %= factor(); break;
        default: return value;
        }
}

static int sum(void)
{
    int value = product();
    while (*at == '+' || *at == '-')
        value = *at++ == '+' ? value + product() : value - product();
    return value;
}

static int worth(const char *text)
{
    at = text;
    int value = sum();
    CHECK(*at == 0);
    return value;
}

int main(void)
{
    char *end;
    CHECK(strtol("  -2147483648x", &end, 10) == -2147483647 - 1 && *end == 'x' && errno == 0);
    CHECK(strtol("2147483648", &end, 10) == 2147483647 && errno == ERANGE);
    errno = 0;
    CHECK(strtoul("ffffffff", 0, 16) == 0xffffffffu && errno == 0);
    CHECK(strtol("0x7fG", &end, 0) == 127 && *end == 'G');
    CHECK(strtol("0779", &end, 0) == 63 && *end == '9');
    CHECK(strtol("zZ", 0, 36) == 35 * 36 + 35);
    CHECK(strtol("none", &end, 10) == 0 && *end == 'n');
    CHECK(strtoll("-9223372036854775807", 0, 10) == -9223372036854775807LL);
    CHECK(strtoull("0xfedcba9876543210", 0, 0) == 0xfedcba9876543210ULL);
    CHECK(atoi("+17 rows") == 17);
    CHECK(strtod("-12.625e1,", &end) == -126.25 && *end == ',');

    int a = 0, b = 0, used = 0;
    unsigned x = 0;
    char word[8], letter = 0, set[8];
    CHECK(sscanf("12,-34 0xbeef", "%d,%d %x%n", &a, &b, &x, &used) == 3);
    CHECK(a == 12 && b == -34 && x == 0xbeef && used == 13);
    CHECK(sscanf("  purlwise!abcX", "%4s%*[a-z]%c%[a-c]", word, &letter, set) == 3);
    CHECK(!strcmp(word, "purl") && letter == '!' && !strcmp(set, "abc"));
    CHECK(sscanf("7 rows", "%d %d", &a, &b) == 1 && a == 7);
    CHECK(sscanf("", "%d", &a) == EOF);

    CHECK(worth("2+3*4") == 14);
    CHECK(worth("(2+3)*4-100/7%5") == 16);
    CHECK(worth("-(12-30)*-(1+1)/9") == -4);
    CHECK(worth("((((1))))-2-3") == -4);
    return wrong;
}
