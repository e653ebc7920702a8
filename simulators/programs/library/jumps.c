/* setjmp and longjmp: out of a recursion, from one handler to the one around it, and again and again to one place. */
#include <setjmp.h>
#include "check.h"

static jmp_buf outer, inner, again;
static volatile int depth, visits;

__attribute__((noinline)) static int dive(int n, int saved)
{
    volatile int here = n * 3;
    depth = n;
    if (n == 0) {
        if (saved)
            longjmp(inner, saved);
        return 0;
    }
    int below = dive(n - 1, saved + here);
    return below + here;
}

__attribute__((noinline)) static void rethrow(void)
{
    int code = setjmp(inner);
    if (code == 0) {
        dive(9, 1);
        CHECK(0);
    }
    CHECK(depth == 0 && code == 1 + 3 * 45);
    longjmp(outer, code + 1);
}

int main(void)
{
    volatile int before = 77;
    int code = setjmp(outer);
    if (code == 0) {
        before = 78;
        rethrow();
        CHECK(0);
    }
    CHECK(code == 137 && before == 78);

    int times = setjmp(again);
    CHECK(times == visits);
    if (visits < 12) {
        visits++;
        longjmp(again, visits);
    }
    CHECK(times == 12);

    /* a longjmp with 0 comes back as 1 */
    code = setjmp(outer);
    if (code == 0)
        longjmp(outer, 0);
    CHECK(code == 1);
    return wrong;
}
