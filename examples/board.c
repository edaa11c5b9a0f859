/* A small board on the engine: a keyboard controller at ports 60h and 64h, a timer, some memory, wires; and a host that plays a script against it. A board can
 * start from the first part. What is called show_.. only prints (print.h), and the host stands for the bus: a board has neither. */
#include <string.h>

#include "espi.h"
#include "print.h"

/* ---- what a board needs: nothing large stands on the stack */

static struct espi_target target;
static uint8_t written[ESPI_WRITE_STORE_LEN]; /* the last posted write */

static struct {
    uint8_t key;     /* what port 60h gives */
    uint8_t full;    /* a key is waiting */
    uint8_t command; /* the last byte written to port 64h */
    uint8_t mode;    /* the last byte written to port 60h; bit 0: interrupt the host while a key is waiting */
    uint8_t line;    /* the level of its line */
} keyboard;

/* Interrupt lines as the host expects them: the timer's is an edge line, the keyboard's a level line. */
#define TIMER_LINE 0
#define KEYBOARD_LINE 1

static uint8_t tick_owed; /* a tick of the timer that was refused with 24 */

/* The keyboard's line is high while a key is waiting, and low again when it has been read. No call reads a line: the board knows what it set. */
static void keyboard_line(void)
{
    uint8_t level = keyboard.full && (keyboard.mode & 1);
    if (level == keyboard.line)
        return;
    keyboard.line = level;
    show_line(level ? "raises" : "lowers", KEYBOARD_LINE, espi_target_line(&target, KEYBOARD_LINE, level));
}

/* Number 24: channel 1 is off or takes one entry at a time, or the last tick still waits. The engine keeps no such pulse: the board asks again. */
static void tick(void)
{
    uint32_t number = espi_target_pulse(&target, TIMER_LINE);
    show_line("pulses", TIMER_LINE, number);
    tick_owed = number == ESPI_NOT_NOW;
}

static uint8_t pltrst; /* the level of PLTRST# at the last look: low after espi_target_start, and after espi_target_reset */

/* PLTRST# fell, and the engine has reset its part of the platform: 010h, what was held on channel 0, wire groups 6 and 7, and all lines are low. The device
 * does the same. An answer that it still owes is refused with 20. A device that still wants the host would raise its line again here; this one has nothing. */
static void platform_was_reset(void)
{
    show_reset();
    memset(&keyboard, 0, sizeof keyboard);
}

/* The engine says nothing of that reset. So the board looks at PLTRST# after every accepted PUT_VWIRE: low and high again between two looks would hide one. */
static void watch_pltrst(void)
{
    uint8_t level = (uint8_t)espi_value(espi_target_read(&target, ESPI_WIRE_PLTRST));
    if (pltrst && !level)
        platform_was_reset();
    pltrst = level;
}

/* The bus driver has a whole command phase, CRC byte included. It sends espi_value(word) bytes of target.reply; 0 bytes: it does not drive the bus. If it
 * runs in an interrupt, the main loop keeps that out while a call of its own lasts. */
static uint32_t bus_command(const uint8_t *command, uint32_t n)
{
    return espi_target_exchange(&target, command, n);
}

/* .. and, the reply being sent, before the next command. */
static void bus_done(const uint8_t *command, uint32_t word)
{
    if (espi_number(word) == ESPI_OK && command[0] == ESPI_OPCODE_PUT_VWIRE)
        watch_pltrst();
}

/* Number 20: the request is gone, dropped by a reset or a switched-off channel. There is nothing to do. */
static void answer(const struct espi_request *request, const uint8_t *data, uint32_t n)
{
    uint32_t number = espi_target_answer(&target, request->serial, data, n);
    show_answer(request->serial, "", data, n, number);
}

static void fail(const struct espi_request *request)
{
    uint32_t number = espi_target_fail(&target, request->serial);
    show_answer(request->serial, " (failure)", 0, 0, number);
}

/* The keyboard controller at ports 60h and 64h; memory above 1000h holds counting bytes; every other address fails. */
static void serve(const struct espi_request *request)
{
    static uint8_t data[ESPI_READ_STORE_LEN];
    if (request->kind == ESPI_IO_WRITE && request->address == 0x64) {
        keyboard.command = (uint8_t)request->value;
        answer(request, 0, 0);
    } else if (request->kind == ESPI_IO_WRITE && request->address == 0x60) {
        keyboard.mode = (uint8_t)request->value;
        keyboard_line();
        answer(request, 0, 0);
    } else if (request->kind == ESPI_IO_READ && request->address == 0x64 && request->length == 1) {
        answer(request, &keyboard.full, 1);
    } else if (request->kind == ESPI_IO_READ && request->address == 0x60 && request->length == 1) {
        keyboard.full = 0;
        keyboard_line();
        answer(request, &keyboard.key, 1);
    } else if (request->kind == ESPI_MEMORY_READ && request->address >= 0x1000) {
        for (uint32_t i = 0; i < request->length; i++)
            data[i] = (uint8_t)(request->address + i);
        answer(request, data, request->length);
    } else {
        fail(request);
    }
}

/* What the main loop does between exchanges: a held write is taken, and its data copied out, before a later read is answered. */
static void device(void)
{
    struct espi_write taken;
    struct espi_request request;
    if (espi_target_take(&target, &taken) == ESPI_OK) {
        memcpy(written, target.write_store, taken.length);
        show_write(&taken, written);
    }
    if (espi_target_look(&target, &request) == ESPI_OK)
        serve(&request);
    if (tick_owed)
        tick();
}

static void press(uint8_t key)
{
    show_key(key);
    keyboard.key = key;
    keyboard.full = 1;
    keyboard_line();
}

/* ---- the host, in place of a bus: its bytes with their CRC */

static uint8_t crc8(const uint8_t *bytes, uint32_t n)
{
    uint8_t crc = 0;
    for (uint32_t i = 0; i < n; i++) {
        crc ^= bytes[i];
        for (int k = 0; k < 8; k++)
            crc = (uint8_t)(crc & 0x80 ? (crc << 1) ^ 0x07 : crc << 1);
    }
    return crc;
}

static void host(const uint8_t *bytes, uint32_t n)
{
    static uint8_t command[64];
    memcpy(command, bytes, n);
    command[n] = crc8(bytes, n);
    show_command(command, n + 1);
    uint32_t word = bus_command(command, n + 1);
    show_reply(command[0], target.reply, word);
    bus_done(command, word);
}

#define HOST(...) host((const uint8_t[]){__VA_ARGS__}, (uint32_t)sizeof((const uint8_t[]){__VA_ARGS__}))

/* ---- the script */

static void everyday(void)
{
    show_part("The host looks round, and reads a key");
    HOST(ESPI_OPCODE_GET_STATUS);
    HOST(ESPI_OPCODE_GET_CONFIGURATION, 0x00, 0x08);
    press(0x1C);
    HOST(ESPI_OPCODE_SHORT_IO_READ + ESPI_SHORT_1, 0x00, 0x60);
    device();
    HOST(ESPI_OPCODE_GET_STATUS);
    HOST(ESPI_OPCODE_GET_PC);

    show_part("A command to the keyboard controller, and a posted write");
    HOST(ESPI_OPCODE_SHORT_IO_WRITE + ESPI_SHORT_1, 0x00, 0x64, 0xAE);
    HOST(ESPI_OPCODE_SHORT_MEMORY_WRITE + ESPI_SHORT_2, 0x00, 0x00, 0x20, 0x00, 0xBE, 0xEF);
    device();
    HOST(ESPI_OPCODE_GET_PC);

    show_part("160 bytes at 1030h, read size 256, payload size 64: four pieces");
    HOST(ESPI_OPCODE_SET_CONFIGURATION, 0x00, 0x10, 0x03, 0x31, 0x00, 0x00);
    HOST(ESPI_OPCODE_PUT_NP, ESPI_CYCLE_READ_32, 0x50, 0xA0, 0x00, 0x00, 0x10, 0x30);
    device();
    for (int i = 0; i < 4; i++)
        HOST(ESPI_OPCODE_GET_PC);

    show_part("Wires: channel 1 on, SCI# goes low, SLP_S3# goes high");
    HOST(ESPI_OPCODE_SET_CONFIGURATION, 0x00, 0x20, 0x01, 0x00, 0x00, 0x00);
    espi_target_set(&target, ESPI_WIRE_SCI, 0);
    HOST(ESPI_OPCODE_GET_STATUS);
    HOST(ESPI_OPCODE_GET_VWIRE);
    HOST(ESPI_OPCODE_PUT_VWIRE, 0x00, 0x02, 0x11);
    show_wire("SLP_S3#", espi_value(espi_target_read(&target, ESPI_WIRE_SLP_S3)));
}

static void customer(void)
{
    struct espi_request open;
    show_part("The customer's story: channel 0 off and on with an answer still open");
    HOST(ESPI_OPCODE_SHORT_IO_READ + ESPI_SHORT_1, 0x00, 0x64);
    if (espi_target_look(&target, &open) != ESPI_OK)
        return;
    HOST(ESPI_OPCODE_SET_CONFIGURATION, 0x00, 0x10, 0x00, 0x11, 0x00, 0x00);
    HOST(ESPI_OPCODE_GET_PC);
    HOST(ESPI_OPCODE_SET_CONFIGURATION, 0x00, 0x10, 0x01, 0x11, 0x00, 0x00);
    serve(&open);
    HOST(ESPI_OPCODE_GET_STATUS);
    HOST(ESPI_OPCODE_GET_PC);
    press(0x23);
    HOST(ESPI_OPCODE_SHORT_IO_READ + ESPI_SHORT_1, 0x00, 0x60);
    device();
    HOST(ESPI_OPCODE_GET_PC);
}

static void pltrst_by_wire(void)
{
    struct espi_request open;
    show_part("The same with PLTRST#: the host lowers it with an answer still open");
    HOST(ESPI_OPCODE_PUT_VWIRE, 0x00, 0x03, 0x22);
    HOST(ESPI_OPCODE_SHORT_IO_READ + ESPI_SHORT_1, 0x00, 0x64);
    if (espi_target_look(&target, &open) != ESPI_OK)
        return;
    HOST(ESPI_OPCODE_PUT_VWIRE, 0x00, 0x03, 0x20);
    HOST(ESPI_OPCODE_GET_STATUS);
    serve(&open);
    HOST(ESPI_OPCODE_GET_PC);
    press(0x32);
    HOST(ESPI_OPCODE_SHORT_IO_READ + ESPI_SHORT_1, 0x00, 0x60);
    device();
    HOST(ESPI_OPCODE_GET_PC);
}

static void interrupts(void)
{
    show_part("Interrupts: the keyboard's line is raised, the timer's is pulsed once two entries fit a packet");
    HOST(ESPI_OPCODE_SHORT_IO_WRITE + ESPI_SHORT_1, 0x00, 0x60, 0x01);
    device();
    HOST(ESPI_OPCODE_GET_PC);
    tick();
    press(0x15);
    HOST(ESPI_OPCODE_GET_STATUS);
    HOST(ESPI_OPCODE_SET_CONFIGURATION, 0x00, 0x20, 0x01, 0x00, 0x03, 0x00);
    device();
    HOST(ESPI_OPCODE_GET_VWIRE);
    HOST(ESPI_OPCODE_SHORT_IO_READ + ESPI_SHORT_1, 0x00, 0x60);
    device();
    HOST(ESPI_OPCODE_GET_PC);
    HOST(ESPI_OPCODE_GET_VWIRE);
}

int main(void)
{
    espi_target_start(&target);
    everyday();
    customer();
    pltrst_by_wire();
    interrupts();
    return 0;
}
