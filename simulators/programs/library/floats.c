/* Sums, differences, products and quotients of floating point in both widths, to the last bit: ordinary numbers, the largest and the
   smallest, infinities and zeros with a sign; conversions and comparisons. RV32I does all of it by whole numbers. */
#include <stdint.h>
#include "check.h"

union wide { uint64_t bits; double value; };
union narrow { uint32_t bits; float value; };

/* What stands for any number that is none. */
#define NAN64 0x7ff8000000000000
#define NAN32 0x7fc00000

/* Two operands; their sum, difference, product and quotient. */
static const uint64_t wides[][6] = {
    {0x3fb999999999999a, 0x3fc999999999999a, 0x3fd3333333333334, 0xbfb999999999999a, 0x3f947ae147ae147c, 0x3fe0000000000000},
    {0x3ff0000000000000, 0x4008000000000000, 0x4010000000000000, 0xc000000000000000, 0x4008000000000000, 0x3fd5555555555555},
    {0xc004000000000000, 0x3f50624dd2f1a9fc, 0xc003fdf3b645a1cb, 0xc004020c49ba5e35, 0xbf647ae147ae147b, 0xc0a3880000000000},
    {0x7fe1ccf385ebc8a0, 0x7fe1ccf385ebc8a0, 0x7ff0000000000000, 0x0000000000000000, 0x7ff0000000000000, 0x3ff0000000000000},
    {0x0000000000000001, 0x0000000000000001, 0x0000000000000002, 0x0000000000000000, 0x0000000000000000, 0x3ff0000000000000},
    {0x0010000000000000, 0x3fe0000000000000, 0x3fe0000000000000, 0xbfe0000000000000, 0x0008000000000000, 0x0020000000000000},
    {0x419d6f3454000000, 0xc19d6f3455000000, 0xbfd0000000000000, 0x41ad6f3454800000, 0xc34b13114c87cb7f, 0xbfeffffffee9afa5},
    {0x7ff0000000000000, 0xbff8000000000000, 0x7ff0000000000000, 0x7ff0000000000000, 0xfff0000000000000, 0xfff0000000000000},
    {0x0000000000000000, 0x8000000000000000, 0x0000000000000000, 0x0000000000000000, 0x8000000000000000, NAN64},
    {0x4340000000000000, 0x3ff0000000000000, 0x4340000000000000, 0x433fffffffffffff, 0x4340000000000000, 0x4340000000000000},
    {0xc002aaaaaaaaaaab, 0x3fc2492492492492, 0xc001861861861862, 0xc003cf3cf3cf3cf4, 0xbfd5555555555555, 0xc030555555555556},
};

static const uint32_t narrows[][6] = {
    {0x3dcccccd, 0x3e4ccccd, 0x3e99999a, 0xbdcccccd, 0x3ca3d70b, 0x3f000000},
    {0x3f800000, 0x40400000, 0x40800000, 0xc0000000, 0x40400000, 0x3eaaaaab},
    {0xc0200000, 0x3a83126f, 0xc01fef9e, 0xc0201062, 0xbb23d70b, 0xc51c4000},
    {0x7f7fffff, 0x7f7fffff, 0x7f800000, 0x00000000, 0x7f800000, 0x3f800000},
    {0x00000001, 0x3f000000, 0x3f000000, 0xbf000000, 0x00000000, 0x00000002},
    {0x00800000, 0x3f7fffff, 0x3f7fffff, 0xbf7fffff, 0x00800000, 0x00800001},
    {0x4b800001, 0x3f800000, 0x4b800002, 0x4b800000, 0x4b800001, 0x4b800001},
    {0x7f800000, 0xbfc00000, 0x7f800000, 0x7f800000, 0xff800000, 0xff800000},
    {0x00000000, 0x80000000, 0x00000000, 0x00000000, 0x80000000, NAN32},
    {0x40490fdb, 0xc02df854, 0x3ed8bc38, 0x40bb8418, 0xc108a2c0, 0xbf93eee0},
};

static int is_wide(double value, uint64_t bits)
{
    union wide made = {.value = value};
    return bits == NAN64 ? value != value : made.bits == bits;
}

static int is_narrow(float value, uint32_t bits)
{
    union narrow made = {.value = value};
    return bits == NAN32 ? value != value : made.bits == bits;
}

int main(void)
{
    for (unsigned i = 0; i < sizeof wides / sizeof *wides; i++) {
        volatile union wide x = {wides[i][0]}, y = {wides[i][1]};
        double a = x.value, b = y.value;
        CHECK(is_wide(a + b, wides[i][2]));
        CHECK(is_wide(a - b, wides[i][3]));
        CHECK(is_wide(a * b, wides[i][4]));
        CHECK(is_wide(a / b, wides[i][5]));
        CHECK((a < b) + (a == b) + (a > b) == 1 && (a <= b) == !(a > b));
    }
    for (unsigned i = 0; i < sizeof narrows / sizeof *narrows; i++) {
        volatile union narrow x = {narrows[i][0]}, y = {narrows[i][1]};
        float a = x.value, b = y.value;
        CHECK(is_narrow(a + b, narrows[i][2]));
        CHECK(is_narrow(a - b, narrows[i][3]));
        CHECK(is_narrow(a * b, narrows[i][4]));
        CHECK(is_narrow(a / b, narrows[i][5]));
        CHECK((a < b) + (a == b) + (a > b) == 1 && (a >= b) == !(a < b));
    }
    volatile int whole = -2147483647 - 1;
    volatile unsigned large = 4294967295u;
    volatile long long long_whole = -9007199254740993;
    volatile unsigned long long longest = 0xffffffffffffffff;
    CHECK(is_wide(whole, 0xc1e0000000000000) && is_wide(large, 0x41efffffffe00000));
    CHECK(is_wide((double)long_whole, 0xc340000000000000) && is_wide((double)longest, 0x43f0000000000000));
    CHECK(is_narrow((float)whole, 0xcf000000) && is_narrow((float)large, 0x4f800000));
    CHECK(is_narrow((float)long_whole, 0xda000000) && is_narrow((float)longest, 0x5f800000));
    volatile double number = -123456.789, none = 0.0;
    volatile float part = 1.5f;
    CHECK((int)number == -123456 && (long long)(number * 1e9) == -123456789000000 && (unsigned)-number == 123456);
    CHECK(is_narrow((float)number, 0xc7f12065) && is_wide(part, 0x3ff8000000000000));
    CHECK((int)part == 1 && (unsigned long long)(part * 2e12f) == 3000000053248);
    none /= none;
    CHECK(none != none && !(none < number) && !(none >= number) && !(none == none));
    return wrong;
}
