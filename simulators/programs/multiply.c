/* Products, quotients and remainders, which RV32I does by shifts and sums, at the ends of their ranges. */
static const int values[] = {0, 1, -1, 7, -13, 46341, 2147483647, -2147483647 - 1};
static int products[8];
static int quotients[8];
static unsigned remainders[8];

int main(void)
{
    int sum = 0;
    for (int i = 0; i < 8; i++)
        for (int j = i & 1; j < 8; j += 2) {
            int a = values[i], b = values[j];
            products[i] ^= a * b + j;
            if (b != 0 && !(b == -1 && i == 7)) {
                quotients[i] += a / b;
                remainders[i] += (unsigned)a % (unsigned)b;
                sum ^= a % b;
            }
        }
    long long wide = 1;
    for (int i = 1; i < 16; i++)
        wide *= i;
    return sum ^ (int)wide ^ (int)(wide >> 32);
}
