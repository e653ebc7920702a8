/* Functions that call themselves: Ackermann, Hanoi, Fibonacci. */
static unsigned moves[3];

static unsigned ackermann(unsigned m, unsigned n)
{
    if (m == 0) return n + 1;
    if (n == 0) return ackermann(m - 1, 1);
    return ackermann(m - 1, ackermann(m, n - 1));
}

static void hanoi(int n, int from, int to)
{
    if (n == 0) return;
    hanoi(n - 1, from, 3 - from - to);
    moves[to]++;
    hanoi(n - 1, 3 - from - to, to);
}

__attribute__((noinline)) static unsigned fibonacci(unsigned n)
{
    return n < 2 ? n : fibonacci(n - 1) + fibonacci(n - 2);
}

int main(void)
{
    hanoi(5, 0, 2);
    return (int)(ackermann(2, 3) << 16 | fibonacci(9));
}
