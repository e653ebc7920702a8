/* A small machine of states over the stitches of a row: a table of addresses picks what is done. */
static const unsigned char row[] = {0, 1, 4, 2, 3, 5, 1, 1, 6, 0, 2, 7, 3, 4, 4, 1, 2, 5, 6, 6, 7, 0, 1, 3};
static unsigned char needles[32];
static int faults;

int main(void)
{
    int at = 0, carry = 0;
    for (unsigned i = 0; i < sizeof row; i++) {
        switch (row[i]) {
        case 0: needles[at++] = 1; break;
        case 1: needles[at++] = (unsigned char)(2 + carry); carry = 0; break;
        case 2: carry = 1; break;
        case 3: if (at > 0) needles[--at] = 0; else faults++; break;
        case 4: needles[at] ^= 0x80; at += 2; break;
        case 5: carry ^= needles[at - 1]; break;
        case 6: at = at > 2 ? at - 3 : 0; faults--; break;
        case 7: for (int k = 0; k < at; k++) needles[k] += (unsigned char)k; break;
        default: return -1;
        }
    }
    return at << 16 | carry << 8 | (faults & 255);
}
