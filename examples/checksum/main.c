/* The CRC-32 (IEEE 802.3) of a text, bit by bit: cbf43926 for "123456789". */
#include <stdint.h>

static uint32_t crc32(const char *text)
{
    uint32_t crc = 0xffffffff;
    for (; *text; text++) {
        crc ^= (uint8_t)*text;
        for (int bit = 0; bit < 8; bit++) {
            crc = crc & 1 ? crc >> 1 ^ 0xedb88320 : crc >> 1;
        }
    }
    return ~crc;
}

int main(void)
{
    return (int)crc32("123456789");
}
