/* The primes below 500, in a table of bytes. */
static unsigned char composite[500];

int main(void)
{
    int count = 0;
    for (int i = 2; i < 500; i++) {
        if (composite[i])
            continue;
        count++;
        for (int j = i + i; j < 500; j += i)
            composite[j] = 1;
    }
    return count;
}
