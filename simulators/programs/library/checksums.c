/* Cyclic redundancy checks of 8, 16, 32 and 64 bits, Adler-32, Fletcher-16 and FNV-1a, on the texts of which their sums are
   published. */
#include <stdint.h>
#include <string.h>
#include "check.h"

static uint32_t table[256];

static void make_table(void)
{
    for (uint32_t i = 0; i < 256; i++) {
        uint32_t c = i;
        for (int k = 0; k < 8; k++)
            c = c & 1 ? 0xedb88320 ^ c >> 1 : c >> 1;
        table[i] = c;
    }
}

static uint32_t crc32(uint32_t crc, const void *data, size_t size)
{
    const unsigned char *p = data;
    for (crc = ~crc; size--; p++)
        crc = table[(crc ^ *p) & 255] ^ crc >> 8;
    return ~crc;
}

static uint64_t crc(const char *text, int width, uint64_t polynomial, uint64_t first)
{
    uint64_t sum = first, top = (uint64_t)1 << (width - 1);
    for (; *text; text++) {
        sum ^= (uint64_t)(unsigned char)*text << (width - 8);
        for (int k = 0; k < 8; k++)
            sum = sum & top ? sum << 1 ^ polynomial : sum << 1;
    }
    return sum & ((top << 1) - 1);
}

static uint32_t adler32(const char *text)
{
    uint32_t a = 1, b = 0;
    for (; *text; text++) {
        a = (a + (unsigned char)*text) % 65521;
        b = (b + a) % 65521;
    }
    return b << 16 | a;
}

static unsigned fletcher16(const char *text)
{
    unsigned a = 0, b = 0;
    for (; *text; text++) {
        a = (a + (unsigned char)*text) % 255;
        b = (b + a) % 255;
    }
    return b << 8 | a;
}

static uint64_t fnv1a(const char *text)
{
    uint64_t sum = 0xcbf29ce484222325;
    for (; *text; text++)
        sum = (sum ^ (unsigned char)*text) * 0x100000001b3;
    return sum;
}

static const char digits[] = "123456789";
static char moved[64];

int main(void)
{
    make_table();
    CHECK(crc32(0, digits, 9) == 0xcbf43926);
    CHECK(crc32(0, "The quick brown fox jumps over the lazy dog", 43) == 0x414fa339);
    for (int place = 0; place < 4; place++) {
        strcpy(moved + place, digits);
        CHECK(crc32(crc32(0, moved + place, 4), moved + place + 4, 5) == 0xcbf43926);
    }
    CHECK(crc(digits, 8, 0x07, 0) == 0xf4);
    CHECK(crc(digits, 16, 0x1021, 0xffff) == 0x29b1);
    CHECK(crc(digits, 16, 0x1021, 0) == 0x31c3);
    CHECK(crc(digits, 32, 0x04c11db7, 0xffffffff) == 0x0376e6e7);
    CHECK(crc(digits, 64, 0x42f0e1eba9ea3693, 0) == 0x6c40df5f0b497347);
    CHECK(adler32("Wikipedia") == 0x11e60398);
    CHECK(fletcher16("abcde") == 0xc8f0 && fletcher16("abcdefgh") == 0x0627);
    CHECK(fnv1a("") == 0xcbf29ce484222325 && fnv1a("a") == 0xaf63dc4c8601ec8c && fnv1a("foobar") == 0x85944171f73967e8);
    return wrong;
}
