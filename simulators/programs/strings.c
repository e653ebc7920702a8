/* Strings: numbers in digits, reversal, search, copying to any alignment, comparing. */
static char buffer[160];

static int length(const char *s)
{
    int n = 0;
    while (s[n]) n++;
    return n;
}

static char *decimal(char *to, unsigned n)
{
    char digits[10];
    int k = 0;
    do {
        digits[k++] = (char)('0' + n % 10);
        n /= 10;
    } while (n);
    while (k) *to++ = digits[--k];
    *to = 0;
    return to;
}

static void reverse(char *s)
{
    for (int i = 0, j = length(s) - 1; i < j; i++, j--) {
        char t = s[i]; s[i] = s[j]; s[j] = t;
    }
}

static int find(const char *in, const char *what)
{
    for (int i = 0; in[i]; i++) {
        int j = 0;
        while (what[j] && in[i + j] == what[j]) j++;
        if (!what[j]) return i;
    }
    return -1;
}

static void copy(char *to, const char *from, int n)
{
    while (n-- > 0) *to++ = *from++;
}

int main(void)
{
    char *p = buffer;
    p = decimal(p, 4294967295u);
    *p++ = ' ';
    p = decimal(p, 1000);
    *p++ = ' ';
    p = decimal(p, 0);
    reverse(buffer);
    int n = length(buffer);
    for (int i = 1; i < 5; i++)
        copy(buffer + 24 * i + i, buffer, n + 1);
    return find(buffer, "00 ") << 8 | n;
}
