/* What the example prints: each exchange as an analyser would show it, and what the device does in between. A board needs none of it. */
#ifndef EXAMPLES_PRINT_H
#define EXAMPLES_PRINT_H

#include <stdio.h>

#include "espi.h"

static const char *opcode_name(uint8_t opcode)
{
    static const char *const shorts[] = {"SHORT I/O READ", "SHORT I/O WRITE", "SHORT MEMORY READ", "SHORT MEMORY WRITE"};
    switch (opcode) {
    case ESPI_OPCODE_PUT_PC: return "PUT_PC";
    case ESPI_OPCODE_GET_PC: return "GET_PC";
    case ESPI_OPCODE_PUT_NP: return "PUT_NP";
    case ESPI_OPCODE_PUT_VWIRE: return "PUT_VWIRE";
    case ESPI_OPCODE_GET_VWIRE: return "GET_VWIRE";
    case ESPI_OPCODE_GET_CONFIGURATION: return "GET_CONFIGURATION";
    case ESPI_OPCODE_SET_CONFIGURATION: return "SET_CONFIGURATION";
    case ESPI_OPCODE_GET_STATUS: return "GET_STATUS";
    case ESPI_OPCODE_RESET: return "RESET";
    default: return opcode >= 0x40 && opcode < 0x50 && opcode % 4 != 2 ? shorts[(opcode - 0x40) / 4] : "?";
    }
}

static const char *response_name(uint8_t response)
{
    switch (response) {
    case ESPI_RESPONSE_ACCEPT: return "ACCEPT";
    case ESPI_RESPONSE_DEFER: return "DEFER";
    case ESPI_RESPONSE_NON_FATAL: return "NON_FATAL";
    case ESPI_RESPONSE_FATAL: return "FATAL";
    default: return "?";
    }
}

static const char *cycle_name(uint8_t cycle)
{
    switch (cycle) {
    case ESPI_CYCLE_ONLY: return "completion, only";
    case ESPI_CYCLE_FIRST: return "completion, first";
    case ESPI_CYCLE_MIDDLE: return "completion, middle";
    case ESPI_CYCLE_LAST: return "completion, last";
    case ESPI_CYCLE_DONE: return "completion without data";
    case ESPI_CYCLE_FAILED: return "failed completion";
    default: return "?";
    }
}

static void print_bytes(const uint8_t *bytes, uint32_t n)
{
    for (uint32_t i = 0; i < n && i < 16; i++)
        printf(" %02X", (unsigned)bytes[i]);
    if (n > 16)
        printf(" .. (%u bytes)", (unsigned)n);
}

static void print_status(uint32_t status)
{
    static const char *const names[16] = {"PC_FREE", "NP_FREE", "VWIRE_FREE", 0, "PC_AVAIL", 0, "VWIRE_AVAIL"};
    for (int i = 0; i < 16; i++)
        if (status >> i & 1)
            printf(" %s", names[i] ? names[i] : "?");
}

/* An entry of a GET_VWIRE's packet: a line's level, or a group. */
static void print_entry(uint8_t index, uint8_t data, const char *before)
{
    if (index < 2)
        printf("%sline %d: level %d;", before, index * 128 + (data & 127), data >> 7);
    else
        printf("%sgroup %d: valid %X, level %X;", before, index, (unsigned)data >> 4, (unsigned)data & 15u);
}

static void show_part(const char *title) { printf("\n== %s\n", title); }

static void show_command(const uint8_t *command, uint32_t n)
{
    printf("-> %-20s", opcode_name(command[0]));
    print_bytes(command, n);
    printf("\n");
}

/* The reply to a command with this opcode, by the word of its exchange. */
static void show_reply(uint8_t opcode, const uint8_t *reply, uint32_t word)
{
    uint32_t n = espi_value(word);
    if (n == 0) {
        printf("  <- nothing (number %u)\n", (unsigned)espi_number(word));
        return;
    }
    printf("  <- %-18s", response_name(reply[0]));
    print_bytes(reply, n);
    printf("\n       ");
    if (reply[0] == ESPI_RESPONSE_ACCEPT && opcode == ESPI_OPCODE_GET_PC)
        printf("%s, tag %d, %d bytes;", cycle_name(reply[1]), reply[2] >> 4, (reply[2] & 15) * 256 + reply[3]);
    if (reply[0] == ESPI_RESPONSE_ACCEPT && opcode == ESPI_OPCODE_GET_VWIRE)
        for (uint32_t i = 2; i + 3 < n; i += 2)
            print_entry(reply[i], reply[i + 1], i > 2 ? " " : "");
    if (reply[0] == ESPI_RESPONSE_ACCEPT && opcode == ESPI_OPCODE_GET_CONFIGURATION)
        printf("register %02X%02X%02X%02Xh;", (unsigned)reply[4], (unsigned)reply[3], (unsigned)reply[2], (unsigned)reply[1]);
    printf(" status:");
    print_status(espi_status(reply, n));
    printf("\n");
}

static void show_answer(uint32_t serial, const char *how, const uint8_t *data, uint32_t n, uint32_t number)
{
    printf("   device answers %u%s with%s", (unsigned)serial, how, n ? "" : " nothing");
    print_bytes(data, n);
    printf(": number %u\n", (unsigned)number);
}

/* Small C libraries print no 64-bit numbers: an address goes in two halves. */
static void show_write(const struct espi_write *taken, const uint8_t *data)
{
    printf("   device takes a write of %u bytes at ", (unsigned)taken->length);
    if (taken->address >> 32 != 0)
        printf("%lX%08lXh:", (unsigned long)(taken->address >> 32), (unsigned long)(uint32_t)taken->address);
    else
        printf("%lXh:", (unsigned long)taken->address);
    print_bytes(data, taken->length);
    printf("\n");
}

static void show_line(const char *how, uint32_t line, uint32_t number)
{
    printf("   device %s line %u: number %u\n", how, (unsigned)line, (unsigned)number);
}

static void show_key(uint8_t key) { printf("   a key is pressed: %02X\n", (unsigned)key); }

static void show_reset(void) { printf("   PLTRST# fell: the platform was reset\n"); }

static void show_wire(const char *name, uint32_t level) { printf("   device reads %s: %u\n", name, (unsigned)level); }

#endif
