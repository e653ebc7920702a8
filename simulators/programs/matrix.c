/* A product of matrices whose entries are multiplied bit by bit, and a transposition. */
static int a[4][4], b[4][4], c[4][4];

__attribute__((noinline)) static int times(int x, int y)
{
    unsigned u = (unsigned)x, v = (unsigned)y, sum = 0;
    for (; v; v >>= 1, u <<= 1)
        if (v & 1) sum += u;
    return (int)sum;
}

int main(void)
{
    for (int i = 0; i < 4; i++)
        for (int j = 0; j < 4; j++) {
            a[i][j] = i * 3 - j;
            b[j][i] = i + (j << 2) + 1;
        }
    int trace = 0;
    for (int i = 0; i < 4; i++)
        for (int j = 0; j < 4; j++) {
            for (int k = 0; k < 4; k++)
                c[i][j] += times(a[i][k], b[k][j]);
            if (i == j) trace += c[i][j];
        }
    return trace;
}
