/* Bytes and half-words, with and without a sign, and what of them stays in wider numbers. */
static signed char bytes[16];
static unsigned char ubytes[16];
static short shorts[16];
static unsigned short ushorts[16];
static volatile union { unsigned word; unsigned short half[2]; unsigned char byte[4]; signed char sbyte[4]; } mixed;

int main(void)
{
    int sum = 0;
    for (int i = 0; i < 16; i++) {
        int x = (i - 8) * 40 + i * i * 3;
        bytes[i] = (signed char)x;
        ubytes[i] = (unsigned char)x;
        shorts[i] = (short)(x << 7);
        ushorts[i] = (unsigned short)(x << 7);
    }
    for (int i = 0; i < 16; i++)
        sum = (sum << 1) + bytes[i] - ubytes[15 - i] + shorts[i] - (ushorts[15 - i] >> 1);
    mixed.word = 0x8081f2f3;
    mixed.half[1] = (unsigned short)(mixed.half[0] + mixed.byte[3]);
    mixed.byte[0] = (unsigned char)(mixed.sbyte[2] >> 1);
    return sum ^ (int)mixed.word;
}
