/* How many ways there are to put six queens on a board of six by six. */
static int solve(unsigned all, unsigned columns, unsigned left, unsigned right)
{
    int count = 0;
    if (columns == all) return 1;
    for (unsigned free = all & ~(columns | left | right); free; free &= free - 1) {
        unsigned bit = free & -free;
        count += solve(all, columns | bit, (left | bit) << 1, (right | bit) >> 1);
    }
    return count;
}

int main(void)
{
    return solve(63, 0, 0, 0);
}
