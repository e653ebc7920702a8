/* Functions of math.h: those that are exact to the last bit, and others near what they are known to be. */
#include <math.h>
#include "check.h"

static int near(double value, double wanted)
{
    return fabs(value - wanted) <= fabs(wanted) * 4e-16;
}

static int nearf(float value, float wanted)
{
    return fabsf(value - wanted) <= fabsf(wanted) * 2e-7f;
}

static volatile double half = 0.5, one = 1, two = 2, ten = 10, minus = -2.5;
static volatile float halff = 0.5f, twof = 2, tenf = 10;

int main(void)
{
    CHECK(sqrt(two) == 0x1.6a09e667f3bcdp0 && sqrt(ten * ten) == 10 && sqrtf(twof) == 0x1.6a09e6p0f);
    CHECK(floor(minus) == -3 && ceil(minus) == -2 && trunc(minus) == -2 && round(minus) == -3 && rint(minus) == -2);
    CHECK(fmod(ten, 3) == 1 && fmod(minus, two) == -0.5 && fmodf(tenf, 4) == 2);
    int exponent;
    double whole;
    CHECK(frexp(ten, &exponent) == 0.625 && exponent == 4 && ldexp(half, 5) == 16);
    CHECK(modf(minus, &whole) == -0.5 && whole == -2 && copysign(two, minus) == -2 && fmax(minus, one) == 1);
    CHECK(near(sin(one), 0.84147098480789650665) && near(cos(one), 0.54030230586813971740));
    CHECK(near(atan2(one, minus), 2.76108627647742823) && near(exp(one), 2.71828182845904523536));
    CHECK(near(log(ten), 2.30258509299404568402) && near(pow(two, half), 1.41421356237309504880));
    CHECK(near(hypot(3, 4 * one), 5) && pow(two, ten) == 1024);
    CHECK(nearf(sinf(halff), 0.4794255386f) && nearf(expf(twof), 7.389056099f) && nearf(logf(tenf), 2.302585093f));
    double s = sin(ten), c = cos(ten);
    CHECK(fabs(s * s + c * c - 1) < 1e-15);
    CHECK(isnan(sqrt(minus)) && isinf(log(one - one)) && !isfinite(exp(1000 * one)));
    return wrong;
}
