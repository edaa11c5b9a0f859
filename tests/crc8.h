/* The CRC of source 004, 5.2, for the C tests. */
#ifndef TESTS_CRC8_H
#define TESTS_CRC8_H

#include <stddef.h>
#include <stdint.h>

static inline uint8_t crc8(const uint8_t *b, size_t n)
{
    uint8_t r = 0;
    for (size_t i = 0; i < n; i++) {
        r ^= b[i];
        for (int k = 0; k < 8; k++)
            r = (uint8_t)(r & 0x80 ? (r << 1) ^ 0x07 : r << 1);
    }
    return r;
}

#endif
