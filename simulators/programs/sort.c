/* Quicksort with insertion sort for short parts, over numbers from a linear congruence. */
static int numbers[64];

static void insertion(int *a, int n)
{
    for (int i = 1; i < n; i++) {
        int x = a[i], j = i;
        for (; j > 0 && a[j - 1] > x; j--)
            a[j] = a[j - 1];
        a[j] = x;
    }
}

static void quick(int *a, int n)
{
    while (n > 6) {
        int pivot = a[n / 2], i = 0, j = n - 1;
        for (;;) {
            while (a[i] < pivot) i++;
            while (a[j] > pivot) j--;
            if (i >= j) break;
            int t = a[i]; a[i] = a[j]; a[j] = t;
            i++; j--;
        }
        quick(a, i);
        a += i;
        n -= i;
    }
    insertion(a, n);
}

int main(void)
{
    unsigned seed = 12345;
    for (int i = 0; i < 64; i++) {
        seed = (seed << 7) - (seed << 2) + seed + 0x3039;
        numbers[i] = (int)(seed ^ seed >> 11);
    }
    quick(numbers, 64);
    for (int i = 1; i < 64; i++)
        if (numbers[i - 1] > numbers[i])
            return -i;
    return 64;
}
