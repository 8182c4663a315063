// The same loop in C: eight tables of 256 numbers, eight bytes a turn, the upper four one by one.
#include <stdint.h>
#include <stdio.h>
#include <stdlib.h>
#include <string.h>

static uint32_t tables[8][256];

static void make_tables(void) {
    for (uint32_t byte = 0; byte < 256; byte++) {
        uint32_t value = byte;
        for (int bit = 0; bit < 8; bit++)
            value = value & 1 ? (value >> 1) ^ 0x82F63B78u : value >> 1;
        tables[0][byte] = value;
    }
    for (uint32_t byte = 0; byte < 256; byte++)
        for (int place = 1; place < 8; place++)
            tables[place][byte] = (tables[place - 1][byte] >> 8) ^ tables[0][tables[place - 1][byte] & 0xFF];
}

__attribute__((noinline)) static uint32_t crc32c(const uint8_t *bytes, size_t length) {
    uint32_t value = 0xFFFFFFFFu;
    while (length >= 8) {
        uint32_t mixed;
        memcpy(&mixed, bytes, 4);
        mixed ^= value;
        value = tables[0][bytes[7]] ^ tables[1][bytes[6]] ^ tables[2][bytes[5]] ^ tables[3][bytes[4]]
            ^ tables[4][mixed >> 24] ^ tables[5][mixed >> 16 & 0xFF] ^ tables[6][mixed >> 8 & 0xFF] ^ tables[7][mixed & 0xFF];
        bytes += 8;
        length -= 8;
    }
    for (; length > 0; length--)
        value = (value >> 8) ^ tables[0][(value ^ *bytes++) & 0xFF];
    return ~value;
}

int main(int count, char **words) {
    static uint8_t packet[1472];
    uint32_t turns = count > 1 ? (uint32_t)strtoul(words[1], NULL, 10) : 0, sum = 0;
    make_tables();
    for (uint32_t turn = 0; turn < turns; turn++) {
        packet[0] = (uint8_t)turn;
        sum += crc32c(packet, sizeof packet);
    }
    printf("%u\n", sum);
    return 0;
}
