/* One call of a kind, repeated: tests/figures.py counts its instructions and, on x86-64, its nanoseconds. figures KIND TIMES */
#include <stdio.h>
#include <stdlib.h>
#include <string.h>
#include <time.h>

#include "crc8.h"
#include "espi.h"

static uint8_t state[ESPI_STATE_LEN], kept[ESPI_STATE_LEN], reply[ESPI_REPLY_LEN], write_store[ESPI_WRITE_STORE_LEN], read_store[ESPI_READ_STORE_LEN];

static uint32_t send(uint8_t *command, size_t n)
{
    command[n] = crc8(command, n);
    return espi_exchange(state, sizeof state, command, n + 1, reply, sizeof reply, write_store, sizeof write_store, read_store, sizeof read_store);
}

#define HOST(...) do { uint8_t c_[] = {__VA_ARGS__, 0}; send(c_, sizeof c_ - 1); } while (0)

static uint32_t answered(size_t n)
{
    static const uint8_t data[4096];
    return espi_answer(state, sizeof state, read_store, sizeof read_store, 1, 1, data, n);
}

/* Sets the stage for the kind and gives its command. */
static size_t stage(const char *kind, uint8_t *c)
{
    espi_start(state, sizeof state);
    if (strcmp(kind, "GET_STATUS") == 0)
        return c[0] = 0x25, 1;
    if (strcmp(kind, "GET_CONFIGURATION") == 0)
        return memcpy(c, "\x21\x00\x08", 3), 3;
    if (strcmp(kind, "SET_CONFIGURATION") == 0)
        return memcpy(c, "\x22\x00\x10\x03\x31\x00\x00", 7), 7;
    if (strcmp(kind, "short I/O read") == 0)
        return memcpy(c, "\x40\x00\x64", 3), 3;
    if (strcmp(kind, "its GET_PC") == 0) {
        HOST(0x40, 0x00, 0x64);
        answered(1);
        return c[0] = 0x01, 1;
    }
    if (strcmp(kind, "64-byte piece") == 0) {
        HOST(0x02, 0x00, 0x00, 0x40, 0x00, 0x00, 0x10, 0x00);
        answered(64);
        return c[0] = 0x01, 1;
    }
    if (strcmp(kind, "256-byte piece") == 0) {
        HOST(0x22, 0x00, 0x10, 0x03, 0x33, 0x00, 0x00);
        HOST(0x02, 0x00, 0x01, 0x00, 0x00, 0x00, 0x10, 0x00);
        answered(256);
        return c[0] = 0x01, 1;
    }
    if (strcmp(kind, "PUT_PC of 64 bytes") == 0)
        return memcpy(c, "\x00\x01\x00\x40\x00\x00\x10\x00", 8), 8 + 64;
    if (strcmp(kind, "PUT_VWIRE") == 0) {
        HOST(0x22, 0x00, 0x20, 0x01, 0x00, 0x00, 0x00);
        return memcpy(c, "\x04\x00\x02\x11", 4), 4;
    }
    if (strcmp(kind, "PUT_VWIRE, PLTRST# falls") == 0) {
        HOST(0x22, 0x00, 0x20, 0x01, 0x00, 0x00, 0x00);
        HOST(0x04, 0x00, 0x03, 0x22);
        return memcpy(c, "\x04\x00\x03\x20", 4), 4;
    }
    if (strcmp(kind, "PUT_VWIRE of 64 pairs") == 0) {
        HOST(0x22, 0x00, 0x20, 0x01, 0x00, 0x3F, 0x00);
        for (size_t i = 2; i < 130; i += 2)
            memcpy(c + i, "\x02\x11", 2);
        return memcpy(c, "\x04\x3F", 2), 130;
    }
    if (strcmp(kind, "GET_VWIRE") == 0) {
        HOST(0x22, 0x00, 0x20, 0x01, 0x00, 0x00, 0x00);
        espi_set_wire(state, sizeof state, 6, 0, 0);
        return c[0] = 0x05, 1;
    }
    if (strcmp(kind, "GET_VWIRE of 1 line") == 0) {
        HOST(0x22, 0x00, 0x20, 0x01, 0x00, 0x00, 0x00);
        espi_set_line(state, sizeof state, 1, 1);
        return c[0] = 0x05, 1;
    }
    uint32_t apart = strcmp(kind, "GET_VWIRE of 64 lines") == 0 ? 1 : strcmp(kind, "64 lines, 4 apart") == 0 ? 4 : 0;
    if (apart > 0) {
        HOST(0x22, 0x00, 0x20, 0x01, 0x00, 0x3F, 0x00);
        for (uint32_t k = 0; k < 64; k++)
            espi_set_line(state, sizeof state, k * apart, 1);
        return c[0] = 0x05, 1;
    }
    if (strcmp(kind, "set line") == 0 || strcmp(kind, "pulse line") == 0)
        HOST(0x22, 0x00, 0x20, 0x01, 0x00, 0x01, 0x00);
    if (strcmp(kind, "look") == 0 || strcmp(kind, "answer of 1 byte") == 0)
        HOST(0x40, 0x00, 0x64);
    if (strcmp(kind, "answer of 64 bytes") == 0)
        HOST(0x02, 0x00, 0x00, 0x40, 0x00, 0x00, 0x10, 0x00);
    if (strcmp(kind, "answer of 4096 bytes") == 0) {
        HOST(0x22, 0x00, 0x10, 0x03, 0x71, 0x00, 0x00);
        HOST(0x02, 0x00, 0x00, 0x00, 0x00, 0x00, 0x10, 0x00);
    }
    if (strcmp(kind, "take a write") == 0)
        HOST(0x4C, 0x00, 0x00, 0x20, 0x00, 0xBE);
    return c[0] = 0x01, 1; /* a refusal: GET_PC with no completion ready */
}

/* One turn: the kind's exchange, or a board call. */
typedef uint32_t turn(const uint8_t *command, size_t n);

static uint32_t exchange(const uint8_t *command, size_t n)
{
    return espi_exchange(state, sizeof state, command, n, reply, sizeof reply, write_store, sizeof write_store, read_store, sizeof read_store);
}

static uint32_t refused(const uint8_t *command, size_t n)
{
    (void)command, (void)n;
    return espi_set_wire(state, sizeof state, 6, 4, 0);
}

static uint32_t set(const uint8_t *command, size_t n)
{
    (void)command, (void)n;
    return espi_set_wire(state, sizeof state, 6, 0, 0);
}

static uint32_t set_line(const uint8_t *command, size_t n)
{
    (void)command, (void)n;
    return espi_set_line(state, sizeof state, 1, 1);
}

static uint32_t pulse_line(const uint8_t *command, size_t n)
{
    (void)command, (void)n;
    return espi_pulse_line(state, sizeof state, 130);
}

static uint32_t look(const uint8_t *command, size_t n)
{
    static uint8_t report[ESPI_LOOK_REPORT_LEN];
    (void)command, (void)n;
    return espi_look(state, sizeof state, report, sizeof report);
}

static uint32_t answer_1(const uint8_t *command, size_t n) { return (void)command, (void)n, answered(1); }
static uint32_t answer_64(const uint8_t *command, size_t n) { return (void)command, (void)n, answered(64); }
static uint32_t answer_4096(const uint8_t *command, size_t n) { return (void)command, (void)n, answered(4096); }

static uint32_t take(const uint8_t *command, size_t n)
{
    static uint8_t report[ESPI_TAKE_REPORT_LEN];
    (void)command, (void)n;
    return espi_take_write(state, sizeof state, write_store, sizeof write_store, report, sizeof report);
}

static turn *turn_of(const char *kind)
{
    static const struct {
        const char *kind;
        turn *turn;
    } board[] = {{"set wire, refused", refused}, {"set wire", set}, {"set line", set_line}, {"pulse line", pulse_line}, {"look", look},
                 {"answer of 1 byte", answer_1}, {"answer of 64 bytes", answer_64}, {"answer of 4096 bytes", answer_4096}, {"take a write", take}};
    for (size_t k = 0; k < sizeof board / sizeof *board; k++)
        if (strcmp(kind, board[k].kind) == 0)
            return board[k].turn;
    return exchange;
}

int main(int argc, char **argv)
{
    uint8_t command[400] = {0};
    struct timespec from, to;
    if (argc != 3)
        return 1;
    size_t n = stage(argv[1], command);
    long times = atol(argv[2]);
    turn *turn = turn_of(argv[1]);
    uint32_t word = 0;
    memcpy(kept, state, sizeof state);
    command[n] = crc8(command, n);
    clock_gettime(CLOCK_MONOTONIC, &from);
    for (long i = 0; i < times; i++) {
        memcpy(state, kept, sizeof state);
        word = turn(command, n + 1);
    }
    clock_gettime(CLOCK_MONOTONIC, &to);
    printf("%u %u %u %.1f\n", (unsigned)espi_number(word), (unsigned)n + 1, (unsigned)espi_value(word),
           times ? ((double)(to.tv_sec - from.tv_sec) * 1e9 + (double)(to.tv_nsec - from.tv_nsec)) / (double)times : 0.0);
    return 0;
}
