/* Runs the shapes of tests/shapes.c: shapes NAME BYTES TIMES. It prints nanoseconds a call, after all shapes agree with crc8 on every length to 300. */
#include <stdio.h>
#include <stdlib.h>
#include <string.h>
#include <time.h>

#include "crc8.h"

typedef uint8_t shape(const uint8_t *s, uint64_t n);
shape crc_bits, crc_table, crc_byte, crc_two, crc_three, crc_four, crc_eight, crc_lanes, crc_kept;

static const struct {
    const char *name;
    shape *shape;
} shapes[] = {{"bits", crc_bits},   {"table", crc_table}, {"byte", crc_byte},   {"two", crc_two},  {"three", crc_three},
              {"four", crc_four}, {"eight", crc_eight}, {"lanes", crc_lanes}, {"kept", crc_kept}};
enum { SHAPES = sizeof shapes / sizeof *shapes };

int main(int argc, char **argv)
{
    static uint8_t bytes[300];
    shape *volatile chosen = NULL;
    struct timespec from, to;
    if (argc != 4)
        return 1;
    for (size_t i = 0; i < sizeof bytes; i++)
        bytes[i] = (uint8_t)(i * i + 7 * i + (i >> 4));
    size_t n = (size_t)atol(argv[2]);
    long times = atol(argv[3]);
    for (size_t k = 0; k < SHAPES; k++) {
        if (strcmp(shapes[k].name, argv[1]) == 0)
            chosen = shapes[k].shape;
        for (size_t m = 0; times > 2 && m <= sizeof bytes; m++)
            if (shapes[k].shape(bytes, m) != crc8(bytes, m))
                return printf("%s differs on %u bytes\n", shapes[k].name, (unsigned)m), 1;
    }
    if (!chosen || n > sizeof bytes)
        return 1;
    clock_gettime(CLOCK_MONOTONIC, &from);
    for (long i = 0; i < times; i++)
        bytes[0] = chosen(bytes, n);
    clock_gettime(CLOCK_MONOTONIC, &to);
    printf("%.1f\n", ((double)(to.tv_sec - from.tv_sec) * 1e9 + (double)(to.tv_nsec - from.tv_nsec)) / (double)(times ? times : 1));
    return 0;
}
