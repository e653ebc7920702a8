/* CRC-32 by a table that the program makes itself, and Adler-32. */
static unsigned table[16];
static const char text[] = "The quick brown fox jumps over the lazy dog";

int main(void)
{
    for (unsigned i = 0; i < 16; i++) {
        unsigned c = i;
        for (int k = 0; k < 4; k++)
            c = c & 1 ? 0xedb88320u ^ c >> 1 : c >> 1;
        table[i] = c;
    }
    unsigned crc = ~0u, a = 1, b = 0;
    for (const char *p = text; *p; p++) {
        unsigned byte = (unsigned char)*p;
        crc = table[(crc ^ byte) & 15] ^ crc >> 4;
        crc = table[(crc ^ byte >> 4) & 15] ^ crc >> 4;
        a += byte;
        if (a >= 65521) a -= 65521;
        b += a;
        if (b >= 65521) b -= 65521;
    }
    table[0] = ~crc;
    table[1] = b << 16 | a;
    return (int)~crc;
}
