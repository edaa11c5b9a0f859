/* What the proof cannot see of the C boundary: the archive as linked, guard bytes round every slice, refusals that write nothing, silence where
 * silent; and the header: its names, its readers, its calls over one struct. Bench lines of document 01, packets of many groups, third transitions,
 * interrupt lines, the customer's story, every name by what the engine does with it, and two seeded random runs. Exit status 0 and one line at the end if
 * all is well. */
#include <stdio.h>
#include <stdlib.h>
#include <string.h>

#include "crc8.h"
#include "espi.h"

#define GUARD 32
#define GUARD_BYTE 0xA5

/* A slice with guard bytes on both sides and a copy of what it held before a call. */
struct slice {
    uint8_t room[GUARD + 4200 + GUARD];
    uint8_t before[4200];
    size_t length;
};

static struct slice state, command, reply, write_store, read_store, report, data;
static const char *doing = "start";

static uint8_t *bytes(struct slice *s) { return s->room + GUARD; }

static _Noreturn void fail(const char *what)
{
    printf("boundary: %s: %s\n", doing, what);
    exit(1);
}

static void want(int holds, const char *what)
{
    if (!holds)
        fail(what);
}

static void lend(struct slice *s, size_t length)
{
    s->length = length;
    memset(s->room, GUARD_BYTE, GUARD);
    memset(s->room + GUARD + length, GUARD_BYTE, sizeof s->room - GUARD - length);
    memcpy(s->before, bytes(s), length);
}

static void check_guards(const struct slice *s)
{
    for (size_t i = 0; i < GUARD; i++)
        if (s->room[i] != GUARD_BYTE || s->room[GUARD + s->length + i] != GUARD_BYTE)
            fail("a byte outside a lent slice was written");
}

static void check_same(struct slice *s, size_t from)
{
    check_guards(s);
    if (s->length > from && memcmp(bytes(s) + from, s->before + from, s->length - from) != 0)
        fail("a byte that no rule writes was written");
}

static int is_short(const struct slice *s, size_t least) { return s->length < least; }

/* Number 10 comes first: exactly where a slice that the call uses is too short. */
static void check_short(uint32_t word, int any)
{
    if ((word == ESPI_SHORT_STORE) != any)
        fail(any ? "a slice that is too short was not refused" : "number 10 with every slice long enough");
}

/* A refusal leaves every slice, but for the four bytes of an error reply. */
static void check_refused(uint32_t word)
{
    check_same(&state, 0);
    check_same(&write_store, 0);
    if (word != espi_number(word))
        fail("a refusal with a value");
}

static uint32_t exchange(const uint8_t *sent, size_t n)
{
    memcpy(bytes(&command), sent, n);
    lend(&state, state.length);
    lend(&command, n);
    lend(&reply, reply.length);
    lend(&write_store, write_store.length);
    lend(&read_store, read_store.length);
    uint32_t word = espi_exchange(bytes(&state), state.length, bytes(&command), n, bytes(&reply), reply.length, bytes(&write_store),
                                  write_store.length, bytes(&read_store), read_store.length);
    uint32_t number = espi_number(word), length = espi_value(word);
    check_short(word, is_short(&state, ESPI_STATE_LEN) || is_short(&reply, ESPI_REPLY_LEN) || is_short(&write_store, ESPI_WRITE_STORE_LEN) ||
                          is_short(&read_store, ESPI_READ_STORE_LEN));
    check_same(&command, 0);
    check_same(&read_store, 0);
    check_same(&reply, length);
    check_same(&state, ESPI_STATE_LEN);
    check_guards(&write_store);
    if (number == ESPI_FATAL || number == ESPI_FORBIDDEN) {
        check_same(&state, 0);
        check_same(&write_store, 0);
        if (length != 4 || bytes(&reply)[0] != (number == ESPI_FATAL ? 0x03 : 0x02))
            fail("an error reply that is not one");
    } else if (number != ESPI_OK) {
        check_refused(word);
    }
    return word;
}

static uint32_t answer(uint32_t serial, uint32_t success, const uint8_t *with, size_t n)
{
    memcpy(bytes(&data), with, n);
    lend(&state, state.length);
    lend(&read_store, read_store.length);
    lend(&data, n);
    uint32_t word = espi_answer(bytes(&state), state.length, bytes(&read_store), read_store.length, serial, success, bytes(&data), n);
    check_short(word, is_short(&state, ESPI_STATE_LEN) || is_short(&read_store, ESPI_READ_STORE_LEN));
    check_same(&data, 0);
    check_same(&read_store, word == ESPI_OK ? n : 0);
    check_same(&state, word == ESPI_OK ? ESPI_STATE_LEN : 0);
    return word;
}

static uint32_t take_write(void)
{
    lend(&state, state.length);
    lend(&write_store, write_store.length);
    lend(&report, report.length);
    uint32_t word = espi_take_write(bytes(&state), state.length, bytes(&write_store), write_store.length, bytes(&report), report.length);
    check_short(word, is_short(&state, ESPI_STATE_LEN) || is_short(&write_store, ESPI_WRITE_STORE_LEN) || is_short(&report, ESPI_TAKE_REPORT_LEN));
    check_same(&write_store, 0);
    check_same(&report, word == ESPI_OK ? ESPI_TAKE_REPORT_LEN : 0);
    check_same(&state, word == ESPI_OK ? ESPI_STATE_LEN : 0);
    return word;
}

static uint32_t look(void)
{
    lend(&state, state.length);
    lend(&report, report.length);
    uint32_t word = espi_look(bytes(&state), state.length, bytes(&report), report.length);
    check_short(word, is_short(&state, ESPI_STATE_LEN) || is_short(&report, ESPI_LOOK_REPORT_LEN));
    check_same(&state, 0);
    check_same(&report, word == ESPI_OK ? ESPI_LOOK_REPORT_LEN : 0);
    return word;
}

static uint32_t set_wire(uint32_t index, uint32_t bit, uint32_t value)
{
    lend(&state, state.length);
    uint32_t word = espi_set_wire(bytes(&state), state.length, index, bit, value);
    check_short(word, is_short(&state, ESPI_STATE_LEN));
    check_same(&state, word == ESPI_OK ? ESPI_STATE_LEN : 0);
    return word;
}

static uint32_t read_wire(uint32_t index, uint32_t bit)
{
    lend(&state, state.length);
    uint32_t word = espi_read_wire(bytes(&state), state.length, index, bit);
    check_short(word, is_short(&state, ESPI_STATE_LEN));
    check_same(&state, 0);
    return word;
}

static uint32_t set_line(uint32_t number, uint32_t level)
{
    lend(&state, state.length);
    uint32_t word = espi_set_line(bytes(&state), state.length, number, level);
    check_short(word, is_short(&state, ESPI_STATE_LEN));
    check_same(&state, word == ESPI_OK ? ESPI_STATE_LEN : 0);
    return word;
}

static uint32_t pulse_line(uint32_t number)
{
    lend(&state, state.length);
    uint32_t word = espi_pulse_line(bytes(&state), state.length, number);
    check_short(word, is_short(&state, ESPI_STATE_LEN));
    check_same(&state, word == ESPI_OK ? ESPI_STATE_LEN : 0);
    return word;
}

static uint32_t reset_by(uint32_t (*call)(uint8_t *, espi_len))
{
    lend(&state, state.length);
    uint32_t word = call(bytes(&state), state.length);
    check_short(word, is_short(&state, ESPI_STATE_LEN));
    check_same(&state, word == ESPI_OK ? ESPI_STATE_LEN : 0);
    return word;
}

static void fresh(void)
{
    state.length = ESPI_STATE_LEN + 8;
    reply.length = ESPI_REPLY_LEN + 8;
    write_store.length = ESPI_WRITE_STORE_LEN + 8;
    read_store.length = ESPI_READ_STORE_LEN + 8;
    report.length = ESPI_LOOK_REPORT_LEN + 8;
    if (reset_by(espi_start) != ESPI_OK)
        fail("start was refused");
}

/* ---- lines: a command in hex gets a number and a reply in hex */

static size_t from_hex(const char *text, uint8_t *out)
{
    size_t n = 0;
    for (unsigned byte; sscanf(text, " %2x", &byte) == 1; n++) {
        out[n] = (uint8_t)byte;
        while (*text == ' ')
            text++;
        text += 2;
    }
    return n;
}

static void line(const char *sent, uint32_t number, const char *said)
{
    uint8_t command_bytes[64], reply_bytes[64];
    doing = sent;
    size_t n = from_hex(sent, command_bytes), length = from_hex(said, reply_bytes);
    uint32_t word = exchange(command_bytes, n);
    if (espi_number(word) != number)
        fail("wrong number");
    if (espi_value(word) != length || memcmp(bytes(&reply), reply_bytes, length) != 0)
        fail("wrong reply");
}

static void answered(uint32_t serial, size_t n, uint32_t number)
{
    uint8_t with[4096];
    doing = "answer";
    for (size_t i = 0; i < n; i++)
        with[i] = (uint8_t)i;
    if (answer(serial, 1, with, n) != number)
        fail("wrong number");
}

/* GET_PC: the header that it shows, and the answer's counting bytes behind it. */
static void piece(const char *header, size_t from)
{
    uint8_t head[4];
    static const uint8_t get_pc[2] = {0x01, 0x07};
    doing = header;
    from_hex(header, head);
    uint32_t word = exchange(get_pc, 2);
    size_t length = (size_t)(head[2] & 15) * 256 + head[3];
    if (word != 256 * (length + 7) || memcmp(bytes(&reply), head, 4) != 0)
        fail("wrong piece");
    for (size_t i = 0; i < length; i++)
        if (bytes(&reply)[4 + i] != (uint8_t)(from + i))
            fail("wrong data");
}

static void bench_lines(void)
{
    fresh();
    line("25 FB", 0, "08 07 00 3A");
    line("21 00 08 10", 0, "08 03 00 0C 03 07 00 AF");
    line("01 07", 1, "03 07 00 D6");
    line("40 00 64 BD", 0, "01 05 00 2A");
    uint8_t key = 0x1D;
    if (answer(1, 1, &key, 1) != ESPI_OK)
        fail("answer 1 was refused");
    line("25 FB", 0, "08 15 00 47");
    line("01 07", 0, "08 0F 00 01 1D 07 00 34");

    fresh();
    line("22 00 20 01 00 00 00 6A", 0, "08 07 00 3A");
    if (set_wire(6, 0, 0) != ESPI_OK)
        fail("SCI# was refused");
    line("25 FB", 0, "08 47 00 61");
    line("05 1B", 0, "08 00 06 F6 07 00 41");

    fresh();
    line("22 00 10 03 31 00 00 9A", 0, "08 07 00 3A");
    line("02 00 50 A0 00 00 10 30 FA", 0, "01 05 00 2A");
    answered(1, 160, 0);
    piece("08 0B 50 10", 0);
    piece("08 09 50 40", 16);
    piece("08 09 50 40", 80);
    piece("08 0D 50 10", 144);

    fresh();
    line("22 00 10 03 33 00 00 4C", 0, "08 07 00 3A");
    line("02 00 50 A0 00 00 10 30 FA", 0, "01 05 00 2A");
    answered(1, 160, 0);
    piece("08 0F 50 A0", 0);

    fresh();
    line("02 00 50 40 00 00 10 20 B1", 1, "03 07 00 D6");
    line("22 00 10 03 21 00 00 38", 0, "08 07 00 3A");
    line("02 00 50 40 00 00 10 20 B1", 0, "01 05 00 2A");
    answered(1, 64, 0);
    piece("08 0B 50 20", 0);
    piece("08 0D 50 20", 32);

    fresh();
    line("22 00 10 03 71 00 00 00", 0, "08 07 00 3A");
    line("02 00 00 00 00 00 10 00 00", 0, "01 05 00 2A");
    answered(1, 4096, 0);
    for (int k = 0; k < 64; k++)
        piece(k == 0 ? "08 0B 00 40" : k == 63 ? "08 0D 00 40" : "08 09 00 40", (size_t)k * 64);
    line("01 07", 1, "03 07 00 D6");

    fresh();
    line("42 00 64 00", ESPI_BAD_OPCODE, "");
    line("", ESPI_BAD_LENGTH, "");
    line("22 00 08 00 00 00 80 88", 0, "08 07 00 3A");
    line("02 05 00", ESPI_BAD_CYCLE, "");
    line("01 00", ESPI_BAD_CRC, "");
    line("FF FF", 0, "");
    line("01 00", ESPI_FATAL, "03 07 00 D6");
    line("22 00 10 00 00 00 00 2A", ESPI_FORBIDDEN, "02 07 00 BD");
}

/* ---- packets of many groups (document 02, Q-5) */

/* A packet of so many pairs, of which the last alone names PLTRST#: its number, and the level of both wires after it. */
static void packet(size_t pairs, uint32_t number, uint32_t level)
{
    uint8_t b[3 + 2 * 64];
    size_t n = 2 + 2 * pairs;
    doing = "a packet of many groups";
    for (size_t i = 2; i < n; i += 2)
        memcpy(b + i, "\x02\x11", 2);
    memcpy(b, (const uint8_t[]){ESPI_OPCODE_PUT_VWIRE, (uint8_t)(pairs - 1)}, 2);
    memcpy(b + n - 2, "\x03\x22", 2);
    b[n] = crc8(b, n);
    want(exchange(b, n + 1) == 4 * 256 + number, "wrong number");
    want(read_wire(2, 0) == 256 * level && read_wire(3, 1) == 256 * level, "wrong levels");
}

static void many_groups(void)
{
    fresh();
    line("21 00 20 C8", 0, "08 00 3F 00 00 07 00 E7");
    line("22 00 20 01 00 3F 00 50", 0, "08 07 00 3A");
    packet(64, ESPI_OK, 1);
    fresh();
    line("22 00 20 01 00 3E 00 45", 0, "08 07 00 3A");
    packet(64, ESPI_FATAL, 0);
    packet(63, ESPI_OK, 1);
    /* The state bytes of an engine that advertised 8 groups pack no state. */
    fresh();
    bytes(&state)[9] = 0x07;
    line("25 FB", ESPI_NOT_SOUND, "");
}

/* ---- more than two changes of one wire */

/* A packet: its number, and the wires of group 2 after it, bits 2:0. */
static void put_line(const char *command, uint32_t number, uint32_t levels)
{
    line(command, number, number == ESPI_OK ? "08 07 00 3A" : "03 07 00 D6");
    for (uint32_t bit = 0; bit < 3; bit++)
        want(read_wire(2, bit) == (levels >> bit & 1) * 256, "wrong levels");
}

static void third_transition(void)
{
    fresh();
    line("22 00 20 01 00 03 00 55", 0, "08 07 00 3A");
    put_line("04 02 02 11 02 10 02 11 24", ESPI_FATAL, 0);
    put_line("04 01 02 11 02 10 79", ESPI_OK, 0);
    /* Spread over pairs of other wires, which stay too. */
    put_line("04 03 02 11 02 22 02 10 02 11 00", ESPI_FATAL, 0);
    put_line("04 03 02 11 03 11 02 10 02 11 00", ESPI_FATAL, 0);
    want(read_wire(3, 0) == 0, "a refused packet has changed a wire");
    /* One value four times is one transition; then the held value is high. */
    put_line("04 03 02 11 02 11 02 11 02 11 00", ESPI_OK, 1);
    put_line("04 02 02 10 02 11 02 10 00", ESPI_FATAL, 1);
    put_line("04 02 02 11 02 10 02 11 00", ESPI_OK, 1);
    /* An undefined bit, an up group, the valid bit clear. */
    put_line("04 02 02 88 02 80 02 88 00", ESPI_OK, 1);
    put_line("04 02 05 11 05 10 05 11 00", ESPI_OK, 1);
    put_line("04 02 02 02 02 00 02 02 00", ESPI_OK, 1);
    /* Two wires of a group, two each. */
    put_line("04 02 02 66 02 20 02 40 00", ESPI_OK, 1);
}

/* The third in the last of 64 pairs. */
static void third_in_the_last(void)
{
    uint8_t b[3 + 2 * 64] = {ESPI_OPCODE_PUT_VWIRE, 63};
    fresh();
    line("22 00 20 01 00 3F 00 50", 0, "08 07 00 3A");
    doing = "a third transition in the last of 64 pairs";
    for (size_t i = 2; i < 130; i += 2)
        memcpy(b + i, i == 126 ? "\x02\x10" : "\x02\x11", 2);
    want(exchange(b, 131) == 4 * 256 + ESPI_FATAL && read_wire(2, 0) == 0, "not refused");
    memcpy(b + 128, "\x02\x10", 2);
    want(exchange(b, 131) == 4 * 256 + ESPI_OK && read_wire(2, 0) == 0, "not accepted");
}

/* ---- PLTRST# by wire: the platform reset follows after the reply (document 02, Q-1) */

static void pltrst_falls(void)
{
    fresh();
    line("22 00 20 01 00 00 00 6A", 0, "08 07 00 3A");
    line("04 00 03 22 89", 0, "08 07 00 3A");
    line("40 00 64 BD", 0, "01 05 00 2A");
    line("04 00 03 20 87", 0, "08 05 00 10");
    line("25 FB", 0, "08 07 00 3A");
    answered(1, 1, ESPI_NO_REQUEST);
    /* Low to low is none: the request stays. */
    line("40 00 64 BD", 0, "01 05 00 2A");
    line("04 00 03 20 87", 0, "08 05 00 10");
    line("25 FB", 0, "08 05 00 10");
    answered(2, 1, ESPI_OK);
}

/* At an operating count of 4, PLTRST# having this level: whether a held request is still there says whether the packet was a reset. A board that reads PLTRST#
 * before and after an accepted one sees the same. */
static void pltrst_packet(uint32_t level, const char *command, uint32_t number, int resets)
{
    fresh();
    line("22 00 20 01 00 03 00 55", 0, "08 07 00 3A");
    line(level ? "04 00 03 22 89" : "04 00 03 20 87", 0, "08 07 00 3A");
    line("40 00 64 BD", 0, "01 05 00 2A");
    line(command, number, number == ESPI_OK ? "08 05 00 10" : "03 05 00 FC");
    want((read_wire(3, 1) == 0 && level == 1) == resets, "the levels of PLTRST# say something else");
    line("25 FB", 0, resets ? "08 07 00 3A" : "08 05 00 10");
    answered(1, 1, resets ? ESPI_NO_REQUEST : ESPI_OK);
}

static void pltrst_packets(void)
{
    pltrst_packet(1, "04 00 03 20 87", ESPI_OK, 1);
    pltrst_packet(1, "04 01 03 20 03 22 6E", ESPI_OK, 0);
    pltrst_packet(0, "04 01 03 22 03 20 B6", ESPI_OK, 0);
    pltrst_packet(1, "04 01 03 22 03 20 B6", ESPI_OK, 1);
    pltrst_packet(0, "04 00 03 20 87", ESPI_OK, 0);
    pltrst_packet(0, "04 00 03 22 89", ESPI_OK, 0);
    /* The other wires of its group and the same bit of another; a value that is not valid; a packet that is refused. */
    pltrst_packet(1, "04 01 03 55 03 50 00", ESPI_OK, 0);
    pltrst_packet(1, "04 01 02 22 02 20 00", ESPI_OK, 0);
    pltrst_packet(1, "04 00 03 10 00", ESPI_OK, 0);
    pltrst_packet(1, "04 02 03 20 03 22 03 20 00", ESPI_FATAL, 0);
    pltrst_packet(1, "04 04 03 20 03 20 03 20 03 20 03 20 00", ESPI_FATAL, 0);
}

/* What it resets, the packet itself putting group 7: 010h, queues, groups 6 and 7, the place; and what stays. */
static void pltrst_resets(void)
{
    fresh();
    line("22 00 20 01 00 01 00 7F", 0, "08 07 00 3A");
    line("22 00 10 03 31 00 00 9A", 0, "08 07 00 3A");
    line("04 00 03 77 25", 0, "08 07 00 3A");
    want(set_wire(4, 0, 1) == ESPI_OK && set_wire(5, 1, 1) == ESPI_OK && set_wire(6, 0, 0) == ESPI_OK, "a wire was refused");
    line("05 1B", 0, "08 01 04 DD 05 F2 47 00 BE");
    want(set_wire(4, 0, 0) == ESPI_OK, "OOB_RST_ACK was refused");
    line("4C 00 00 20 00 AA 81", 0, "08 46 00 74");
    line("40 00 64 BD", 0, "01 44 00 64");
    line("04 01 03 20 07 70 83", 0, "08 44 00 5E");
    line("25 FB", 0, "08 47 00 61");
    line("21 00 10 58", 0, "08 33 11 00 00 47 00 54");
    want(read_wire(3, 0) == 256 && read_wire(3, 1) == 0 && read_wire(3, 2) == 256, "group 3 is not as the packet put it");
    want(read_wire(6, 0) == 256, "group 6 was not reset");
    want(read_wire(7, 0) == 0 && read_wire(7, 1) == 256 && read_wire(7, 2) == 256, "group 7 was not reset");
    line("05 1B", 0, "08 00 04 DC 07 00 A9");
    want(take_write() == ESPI_NOTHING && look() == ESPI_NOTHING, "a queue was kept");
    line("40 00 64 BD", 0, "01 05 00 2A");
    answered(1, 1, ESPI_NO_REQUEST);
    answered(2, 1, ESPI_OK);
}

/* ---- interrupt lines (document 02, Q-4) */

/* Channel 1 on or off with an operating count: accepted, or refused with number 2. */
static void channel_1(uint8_t on, uint8_t count, uint32_t number)
{
    uint8_t b[8] = {0x22, 0x00, 0x20, on, 0x00, (uint8_t)(count - 1), 0x00};
    b[7] = crc8(b, 7);
    doing = "a write of 020h";
    want(exchange(b, 8) == 4 * 256 + number, "wrong word");
}

/* GET_VWIRE sends these pairs of index and data; whether more waits. */
static void sends(const char *pairs, int more)
{
    static const uint8_t get_vwire[2] = {0x05, 0x1B};
    uint8_t is[140] = {0x08};
    doing = pairs;
    size_t n = from_hex(pairs, is + 2);
    is[1] = (uint8_t)(n / 2 - 1);
    is[n + 2] = more ? 0x47 : 0x07;
    is[n + 3] = 0x00;
    is[n + 4] = crc8(is, n + 4);
    want(exchange(get_vwire, 2) == 256 * (n + 5) && memcmp(bytes(&reply), is, n + 5) == 0, "wrong packet");
}

static void done(uint32_t word) { want(word == ESPI_OK, "a call was refused"); }

static void line_rows(void)
{
    fresh();
    line("22 00 20 01 00 01 00 7F", 0, "08 07 00 3A");
    done(set_line(1, 1));
    done(pulse_line(130));
    done(set_wire(5, 0, 1));
    line("05 1B", 0, "08 01 05 F1 00 81 47 00 F1");
    line("05 1B", 0, "08 01 01 82 01 02 07 00 96");
    line("05 1B", 1, "03 07 00 D6");
}

/* 22 and 24 in each of their cases; 22 comes first. */
static void lines_refused(void)
{
    doing = "lines that are refused";
    fresh();
    want(set_line(256, 1) == ESPI_BAD_WIRE && set_line(UINT32_MAX, 0) == ESPI_BAD_WIRE && set_line(0, 2) == ESPI_BAD_WIRE, "a line or level that is none");
    want(pulse_line(256) == ESPI_BAD_WIRE && pulse_line(0) == ESPI_NOT_NOW, "a pulse while channel 1 is off");
    channel_1(1, 1, ESPI_OK);
    want(pulse_line(0) == ESPI_NOT_NOW && pulse_line(0x80000000u) == ESPI_BAD_WIRE, "a pulse at an operating count of 1");
    channel_1(1, 2, ESPI_OK);
    done(set_line(255, 1));
    want(pulse_line(255) == ESPI_NOT_NOW, "a pulse on a line that waits");
    done(set_line(255, 0));
    done(set_line(255, 1));
    sends("01 FF", 0);
    done(set_line(255, 1));
    line("25 FB", 0, "08 07 00 3A");
    done(pulse_line(255));
    want(pulse_line(255) == ESPI_NOT_NOW && set_line(255, 0) == ESPI_NOT_NOW && set_line(255, 1) == ESPI_NOT_NOW, "a line whose pulse waits");
    want(set_line(255, 2) == ESPI_BAD_WIRE, "22 comes before 24");
    sends("01 7F 01 FF", 0);
}

/* A pulse with one place left closes a packet and is first in the next; turns go from line 255 to group 4 and from group 6 to line 0. */
static void line_turns(void)
{
    fresh();
    channel_1(1, 4, ESPI_OK);
    done(set_wire(4, 0, 1));
    done(set_line(0, 1));
    done(set_line(1, 1));
    done(pulse_line(2));
    done(set_line(3, 1));
    sends("04 DD 00 80 00 81", 1);
    sends("00 82 00 02 00 83", 0);
    done(set_line(255, 1));
    done(set_line(0, 0));
    done(set_wire(4, 0, 0));
    done(set_wire(6, 0, 0));
    sends("01 FF 04 DC 06 F6 00 00", 0);
}

/* The operating count and a pulse that waits; enabling and disabling; both resets, and PLTRST#. */
static void line_resets(void)
{
    char all[6 * 64 + 1];
    fresh();
    channel_1(1, 8, ESPI_OK);
    done(set_line(9, 1));
    channel_1(1, 1, ESPI_OK);
    channel_1(1, 2, ESPI_OK);
    done(pulse_line(10));
    line("22 00 20 01 00 00 00 6A", 2, "02 47 00 E6");
    channel_1(1, 3, ESPI_OK);
    channel_1(0, 1, ESPI_OK);
    line("25 FB", 0, "08 07 00 3A");
    for (uint32_t number = 0; number < 256; number++)
        done(set_line(number, 1));
    channel_1(1, 64, ESPI_OK);
    for (int packet_at = 0; packet_at < 4; packet_at++) {
        for (int k = 0; k < 64; k++)
            snprintf(all + 6 * k, sizeof all - 6u * (unsigned)k, "%02X %02X ", (unsigned)packet_at / 2, 0x80u + 64u * (packet_at % 2u) + (unsigned)k);
        sends(all, packet_at < 3);
    }
    for (int reset = 0; reset < 3; reset++) {
        done(set_line(200, 1));
        done(set_line(7, 1));
        if (reset == 1)
            done(pulse_line(8));
        if (reset == 2) {
            done(pulse_line(8));
            line("04 01 03 22 03 20 B6", 0, "08 47 00 61"); /* high and low again: no reset */
            line("04 00 03 22 89", 0, "08 47 00 61");
            line("04 00 03 20 87", 0, "08 47 00 61");
        } else {
            done(reset_by(reset == 0 ? espi_reset : espi_platform_reset));
        }
        line("25 FB", 0, "08 07 00 3A");
        channel_1(0, 8, ESPI_OK);
        channel_1(1, 8, ESPI_OK);
        line("05 1B", 1, "03 07 00 D6");
    }
}

/* ---- the customer's story: channel 0 off and on with an answer still open */

static void customer(void)
{
    fresh();
    line("40 00 64 BD", 0, "01 05 00 2A");
    line("22 00 10 00 11 00 00 E3", 0, "08 05 00 10");
    line("01 07", ESPI_CHANNEL_OFF, "");
    line("22 00 10 01 11 00 00 00", 0, "08 07 00 3A");
    answered(1, 1, ESPI_NO_REQUEST);
    line("25 FB", 0, "08 07 00 3A");
    line("01 07", 1, "03 07 00 D6");
    line("40 00 60 00", 0, "01 05 00 2A");
    answered(1, 1, 20);
    uint8_t key = 0x1C;
    if (answer(2, 1, &key, 1) != ESPI_OK)
        fail("the answer to the new read was refused");
    line("01 07", 0, "08 0F 00 01 1C 07 00 5F");
}

/* ---- a seeded random run */

static uint64_t seed = 0x9E3779B97F4A7C15u;

static uint32_t below(uint32_t n)
{
    seed ^= seed << 13;
    seed ^= seed >> 7;
    seed ^= seed << 17;
    return (uint32_t)(seed >> 33) % n;
}

/* A command that is often well formed: an opcode, fields, and as many bytes as they ask for. */
static size_t some_command(uint8_t *b)
{
    static const uint8_t opcodes[] = {0x00, 0x01, 0x01, 0x01, 0x02, 0x04, 0x05, 0x05, 0x21, 0x22, 0x22, 0x25, 0xFF, 0x40, 0x41, 0x43, 0x44,
                                      0x45, 0x47, 0x48, 0x49, 0x4B, 0x4C, 0x4D, 0x4F, 0x42, 0x03};
    static const uint16_t registers[] = {0x004, 0x008, 0x010, 0x010, 0x020, 0x020, 0x030};
    size_t n = 1, size = 0;
    for (size_t i = 0; i < 400; i++)
        b[i] = (uint8_t)below(256);
    b[0] = opcodes[below(sizeof opcodes)];
    switch (b[0]) {
    case 0x00:
    case 0x02:
        b[1] = (uint8_t)(below(8) == 0 ? below(256) : (b[0] == 0x00) + 2 * below(2));
        size = 1 + below(80);
        b[2] = (uint8_t)(below(16) * 16);
        b[3] = (uint8_t)size;
        n = 4 + (b[1] & 2 ? 8 : 4) + (b[0] == 0x00 ? size : 0);
        break;
    case 0x04:
        b[1] = (uint8_t)(below(8) == 0 ? below(64) : below(4));
        n = 2 + 2 * ((size_t)b[1] + 1);
        for (size_t i = 2; i < n; i += 2)
            b[i] = (uint8_t)below(9);
        break;
    case 0x21:
    case 0x22: {
        uint16_t at = registers[below(7)];
        uint32_t value = at == 0x010   ? 1 + 2 * below(2) + 0x100 * below(4) + 0x1000 * below(8)
                         : at == 0x020 ? below(2) + 0x10000 * below(64)
                                       : 0x80000000u * below(2) + below(0x10000000);
        if (at == 0x010 && below(4) == 0)
            value &= ~1u;
        b[1] = (uint8_t)(at >> 8);
        b[2] = (uint8_t)at;
        for (int i = 0; i < 4; i++)
            b[3 + i] = (uint8_t)(value >> (8 * i));
        n = b[0] == 0x21 ? 3 : 7;
        break;
    }
    case 0xFF:
        memset(b, 0xFF, 8);
        return 2 + below(4);
    default:
        if (b[0] >= 0x40 && b[0] < 0x50) {
            size = b[0] % 4 == 3 ? 4 : 1u + b[0] % 4;
            n = (b[0] < 0x48 ? 3 : 5) + (b[0] & 4 ? size : 0);
        }
    }
    b[n] = crc8(b, n);
    n++;
    if (below(12) == 0)
        b[below((uint32_t)n)] ^= (uint8_t)(1u << below(8));
    if (below(16) == 0)
        n = below((uint32_t)n + 4);
    return n;
}

static unsigned long seen[25], short_takes, short_looks;

/* Often enough, seldom too short. */
static size_t some_length(size_t least) { return least + below(9) - (below(64) == 0 ? 9 : 0); }

/* A take or a look with a report of some length. Where only the report was too short, a long enough one shows whether there was something to report. */
static uint32_t some_report(uint32_t (*call)(void), size_t least, unsigned long *shortened)
{
    report.length = some_length(least);
    uint32_t word = call();
    if (is_short(&report, least)) {
        report.length = least;
        *shortened += call() == ESPI_OK;
    }
    return word;
}

static uint32_t some_take(void) { return some_report(take_write, ESPI_TAKE_REPORT_LEN, &short_takes); }
static uint32_t some_look(void) { return some_report(look, ESPI_LOOK_REPORT_LEN, &short_looks); }

/* An answer that is often right: what the request asks for, if there is one. */
static void some_answer(uint32_t *serial, uint32_t *length)
{
    *serial = 0;
    *length = below(4);
    if (some_look() == ESPI_OK) {
        const uint8_t *r = bytes(&report);
        *serial = r[11] | (uint32_t)r[12] << 8 | (uint32_t)r[13] << 16 | (uint32_t)r[14] << 24;
        *length = r[0] == ESPI_IO_WRITE ? 0 : r[9] | (uint32_t)r[10] << 8;
    }
    *serial -= below(8) == 0;
    *length += below(8) == 0;
}

static void some_call(void)
{
    static uint8_t b[4200];
    uint32_t word = 0;
    switch (below(14)) {
    case 0:
        word = set_wire(2 + below(7), below(5), below(3));
        break;
    case 1:
        word = read_wire(1 + below(8), below(5));
        break;
    case 2:
        word = some_take();
        break;
    case 3:
        word = some_look();
        break;
    case 4:
    case 5: {
        uint32_t serial, length, success = below(5);
        some_answer(&serial, &length);
        memset(b, (int)below(256), sizeof b);
        word = answer(serial, success, b, success == 0 ? below(8) == 0 : length);
        break;
    }
    case 6:
        if (below(64) == 0)
            word = reset_by(below(2) ? espi_reset : espi_platform_reset);
        break;
    case 7:
        word = set_line(below(260), below(16) == 0 ? 2 : below(2));
        break;
    case 8:
        word = pulse_line(below(8) == 0 ? below(300) : below(4));
        break;
    default: {
        size_t n = some_command(b);
        word = exchange(b, n);
    }
    }
    if (espi_number(word) > 24)
        fail("no number of the table");
    seen[espi_number(word)]++;
}

static void random_run(unsigned long calls)
{
    doing = "random run";
    fresh();
    for (unsigned long i = 0; i < calls; i++) {
        uint8_t kept[ESPI_STATE_LEN];
        memcpy(kept, bytes(&state), sizeof kept);
        state.length = some_length(ESPI_STATE_LEN);
        reply.length = some_length(ESPI_REPLY_LEN);
        write_store.length = some_length(ESPI_WRITE_STORE_LEN);
        read_store.length = some_length(ESPI_READ_STORE_LEN);
        int damaged = below(64) == 0;
        if (damaged)
            bytes(&state)[below(ESPI_STATE_LEN)] ^= (uint8_t)(1u << below(8));
        some_call();
        /* guard bytes stand where a slice was cut short */
        if (damaged || state.length < ESPI_STATE_LEN)
            memcpy(bytes(&state), kept, sizeof kept);
    }
    static const int all[] = {0, 1, 2, 10, 11, 12, 13, 14, 15, 16, 20, 21, 22, 23, 24};
    for (size_t k = 0; k < sizeof all / sizeof *all; k++)
        if (seen[all[k]] == 0)
            fail("a number that the run never reached");
    want(short_takes > 0, "no take with a short report while a write was held");
    want(short_looks > 0, "no look with a short report while a request waited");
}

/* ---- the header's readers */

static void readers(void)
{
    static const uint8_t looked[ESPI_LOOK_REPORT_LEN] = {0x02, 0x11, 0x22, 0x33, 0x44, 0x55, 0x66, 0x77, 0x88, 0x99,
                                                         0x0A, 0xBB, 0xCC, 0xDD, 0xEE, 0xF1, 0xF2, 0xF3, 0xF4};
    static const uint8_t taken[ESPI_TAKE_REPORT_LEN] = {0x81, 0x72, 0x63, 0x54, 0x45, 0x36, 0x27, 0x18, 0x09, 0x01};
    struct espi_request q = espi_request_of(looked);
    struct espi_write w = espi_write_of(taken);
    doing = "readers";
    want(q.kind == 2 && q.address == 0x8877665544332211u && q.length == 0x0A99 && q.serial == 0xEEDDCCBBu && q.value == 0xF4F3F2F1u, "a request read wrong");
    want(w.address == 0x1827364554637281u && w.length == 0x0109, "a write read wrong");
    want(espi_status(taken, 4) == 0x6372 && espi_status(taken, 10) == 0x0918 && espi_status(taken, 3) == 0, "a status read wrong");
    want(ESPI_VERSION_MAJOR >= 0 && ESPI_VERSION_MAJOR < 10 && ESPI_VERSION[0] == '0' + ESPI_VERSION_MAJOR && ESPI_VERSION[1] == '.', "the version's text");
}

/* ---- the header's names, by what the engine does with them: all through the calls over a struct, which the twin run holds against the plain ones */

static struct espi_target target;

#define FREE (ESPI_STATUS_PC_FREE + ESPI_STATUS_NP_FREE + ESPI_STATUS_VWIRE_FREE)

/* The host sends these bytes and their CRC. */
static void host(uint8_t response, uint32_t status, const uint8_t *sent, size_t n)
{
    uint8_t b[32];
    memcpy(b, sent, n);
    b[n] = crc8(b, n);
    uint32_t word = espi_target_exchange(&target, b, n + 1);
    want(espi_value(word) >= 4 && target.reply[0] == response, "another response than the named one");
    want(espi_status(target.reply, espi_value(word)) == status, "another status than the named one");
}

#define HOST(response, status, ...) host(response, status, (const uint8_t[]){__VA_ARGS__}, sizeof((const uint8_t[]){__VA_ARGS__}))

/* Requests at 1004h and what a look makes of them; each is answered, then asked again and failed. */
static const struct {
    uint8_t sent[16];
    size_t n;
    struct espi_request is; /* address, length, serial, value, kind */
} requests[] = {
    {{ESPI_OPCODE_SHORT_IO_READ + ESPI_SHORT_1, 0x10, 0x04}, 3, {0x1004, 1, 0, 0, ESPI_IO_READ}},
    {{ESPI_OPCODE_SHORT_IO_READ + ESPI_SHORT_2, 0x10, 0x04}, 3, {0x1004, 2, 0, 0, ESPI_IO_READ}},
    {{ESPI_OPCODE_SHORT_IO_READ + ESPI_SHORT_4, 0x10, 0x04}, 3, {0x1004, 4, 0, 0, ESPI_IO_READ}},
    {{ESPI_OPCODE_SHORT_IO_WRITE + ESPI_SHORT_1, 0x10, 0x04, 0xA1}, 4, {0x1004, 1, 0, 0xA1, ESPI_IO_WRITE}},
    {{ESPI_OPCODE_SHORT_IO_WRITE + ESPI_SHORT_2, 0x10, 0x04, 0xA1, 0xB2}, 5, {0x1004, 2, 0, 0xB2A1, ESPI_IO_WRITE}},
    {{ESPI_OPCODE_SHORT_IO_WRITE + ESPI_SHORT_4, 0x10, 0x04, 0xA1, 0xB2, 0xC3, 0xD4}, 7, {0x1004, 4, 0, 0xD4C3B2A1, ESPI_IO_WRITE}},
    {{ESPI_OPCODE_SHORT_MEMORY_READ + ESPI_SHORT_1, 0, 0, 0x10, 0x04}, 5, {0x1004, 1, 0, 0, ESPI_MEMORY_READ}},
    {{ESPI_OPCODE_SHORT_MEMORY_READ + ESPI_SHORT_2, 0, 0, 0x10, 0x04}, 5, {0x1004, 2, 0, 0, ESPI_MEMORY_READ}},
    {{ESPI_OPCODE_SHORT_MEMORY_READ + ESPI_SHORT_4, 0, 0, 0x10, 0x04}, 5, {0x1004, 4, 0, 0, ESPI_MEMORY_READ}},
    {{ESPI_OPCODE_PUT_NP, ESPI_CYCLE_READ_32, 0x50, 40, 0, 0, 0x10, 0x04}, 8, {0x1004, 40, 0, 0, ESPI_MEMORY_READ}},
    {{ESPI_OPCODE_PUT_NP, ESPI_CYCLE_READ_64, 0x50, 40, 0, 0, 0, 9, 0, 0, 0x10, 0x04}, 12, {0x900001004, 40, 0, 0, ESPI_MEMORY_READ}},
};

static void same_request(const struct espi_request *q, const struct espi_request *is, uint32_t serial)
{
    want(q->kind == is->kind && q->address == is->address && q->length == is->length && q->value == is->value, "another request than the named one");
    want(q->serial == serial, "a serial that was not given");
}

static void requests_by_name(void)
{
    static const uint8_t with[ESPI_READ_STORE_LEN] = {0x5A, 0x6B, 0x7C, 0x8D};
    struct espi_request q = {0};
    espi_target_start(&target);
    for (uint32_t k = 0; k < sizeof requests / sizeof *requests; k++) {
        int write = requests[k].is.kind == ESPI_IO_WRITE;
        uint32_t n = write ? 0 : requests[k].is.length;
        doing = "a request by name";
        host(ESPI_RESPONSE_DEFER, FREE - ESPI_STATUS_NP_FREE, requests[k].sent, requests[k].n);
        want(espi_target_look(&target, &q) == ESPI_OK, "a look was refused");
        same_request(&q, &requests[k].is, 2 * k + 1);
        want(espi_target_answer(&target, q.serial, write ? 0 : with, n) == ESPI_OK, "an answer was refused");
        HOST(ESPI_RESPONSE_ACCEPT, FREE - ESPI_STATUS_NP_FREE + ESPI_STATUS_PC_AVAIL, ESPI_OPCODE_GET_STATUS);
        HOST(ESPI_RESPONSE_ACCEPT, FREE, ESPI_OPCODE_GET_PC);
        want(target.reply[1] == (write ? ESPI_CYCLE_DONE : ESPI_CYCLE_ONLY), "another completion than the named one");
        want(target.reply[3] == n && memcmp(target.reply + 4, with, n) == 0, "a completion with other data than the answer's");
        doing = "a failure by name";
        host(ESPI_RESPONSE_DEFER, FREE - ESPI_STATUS_NP_FREE, requests[k].sent, requests[k].n);
        want(espi_target_fail(&target, 2 * k + 2) == ESPI_OK, "a failure was refused");
        HOST(ESPI_RESPONSE_ACCEPT, FREE, ESPI_OPCODE_GET_PC);
        want(target.reply[1] == ESPI_CYCLE_FAILED && target.reply[3] == 0, "another completion than the failed one");
    }
}

/* Posted writes at 2004h, their data the last bytes sent, and what a take makes of them. */
static const struct {
    uint8_t sent[16];
    size_t n;
    struct espi_write is;
} writes[] = {
    {{ESPI_OPCODE_SHORT_MEMORY_WRITE + ESPI_SHORT_1, 0, 0, 0x20, 0x04, 0xA1}, 6, {0x2004, 1}},
    {{ESPI_OPCODE_SHORT_MEMORY_WRITE + ESPI_SHORT_2, 0, 0, 0x20, 0x04, 0xA1, 0xB2}, 7, {0x2004, 2}},
    {{ESPI_OPCODE_SHORT_MEMORY_WRITE + ESPI_SHORT_4, 0, 0, 0x20, 0x04, 0xA1, 0xB2, 0xC3, 0xD4}, 9, {0x2004, 4}},
    {{ESPI_OPCODE_PUT_PC, ESPI_CYCLE_WRITE_32, 0, 3, 0, 0, 0x20, 0x04, 0xA1, 0xB2, 0xC3}, 11, {0x2004, 3}},
    {{ESPI_OPCODE_PUT_PC, ESPI_CYCLE_WRITE_64, 0, 3, 0, 0, 0, 9, 0, 0, 0x20, 0x04, 0xA1, 0xB2, 0xC3}, 15, {0x900002004, 3}},
};

static void writes_by_name(void)
{
    struct espi_write w = {0};
    doing = "a write by name";
    espi_target_start(&target);
    for (size_t k = 0; k < sizeof writes / sizeof *writes; k++) {
        host(ESPI_RESPONSE_ACCEPT, FREE - ESPI_STATUS_PC_FREE, writes[k].sent, writes[k].n);
        want(espi_target_take(&target, &w) == ESPI_OK, "a take was refused");
        want(w.address == writes[k].is.address && w.length == writes[k].is.length, "another write than the named one");
        want(memcmp(target.write_store, writes[k].sent + writes[k].n - w.length, w.length) == 0, "a write with other data than was sent");
        HOST(ESPI_RESPONSE_ACCEPT, FREE, ESPI_OPCODE_GET_STATUS);
    }
}

/* What is left: the marks of a read in pieces, configuration, error replies, RESET. */
static void replies_by_name(void)
{
    static const uint8_t with[160], reset[2] = {ESPI_OPCODE_RESET, ESPI_OPCODE_RESET};
    static const uint8_t marks[4] = {ESPI_CYCLE_FIRST, ESPI_CYCLE_MIDDLE, ESPI_CYCLE_MIDDLE, ESPI_CYCLE_LAST};
    doing = "replies by name";
    espi_target_start(&target);
    HOST(ESPI_RESPONSE_FATAL, FREE, ESPI_OPCODE_GET_PC);
    HOST(ESPI_RESPONSE_NON_FATAL, FREE, ESPI_OPCODE_SET_CONFIGURATION, 0x00, 0x10, 0x00, 0x00, 0x00, 0x00);
    HOST(ESPI_RESPONSE_ACCEPT, FREE, ESPI_OPCODE_SET_CONFIGURATION, 0x00, 0x10, 0x03, 0x31, 0x00, 0x00);
    HOST(ESPI_RESPONSE_ACCEPT, FREE, ESPI_OPCODE_GET_CONFIGURATION, 0x00, 0x10);
    want(memcmp(target.reply + 1, "\x33\x31\x00\x00", 4) == 0, "another register than was written");
    HOST(ESPI_RESPONSE_DEFER, FREE - ESPI_STATUS_NP_FREE, ESPI_OPCODE_PUT_NP, ESPI_CYCLE_READ_32, 0x50, 0xA0, 0x00, 0x00, 0x10, 0x30);
    want(espi_target_answer(&target, 1, with, sizeof with) == ESPI_OK, "an answer was refused");
    for (int k = 0; k < 4; k++) {
        HOST(ESPI_RESPONSE_ACCEPT, k == 3 ? FREE : FREE - ESPI_STATUS_NP_FREE + ESPI_STATUS_PC_AVAIL, ESPI_OPCODE_GET_PC);
        want(target.reply[1] == marks[k], "another mark than the named one");
    }
    uint32_t word = espi_target_exchange(&target, reset, sizeof reset);
    want(word == ESPI_OK && espi_status(target.reply, espi_value(word)) == 0, "a RESET with a reply");
}

/* The numbers of board calls; those of an exchange are named in the lines above. */
static void refusals_by_name(void)
{
    static const uint8_t with[2];
    struct espi_request q;
    struct espi_write w;
    doing = "refusals by name";
    espi_target_start(&target);
    want(espi_target_look(&target, &q) == ESPI_NOTHING && espi_target_take(&target, &w) == ESPI_NOTHING, "something to look at or to take");
    HOST(ESPI_RESPONSE_DEFER, FREE - ESPI_STATUS_NP_FREE, ESPI_OPCODE_SHORT_IO_READ + ESPI_SHORT_1, 0x00, 0x64);
    want(espi_target_answer(&target, 2, with, 1) == ESPI_NO_REQUEST && espi_target_fail(&target, 2) == ESPI_NO_REQUEST, "a serial that was not given");
    want(espi_target_answer(&target, 1, with, 2) == ESPI_BAD_COUNT, "an answer of the wrong length");
    want(espi_target_pulse(&target, 0) == ESPI_NOT_NOW && espi_target_line(&target, 256, 1) == ESPI_BAD_WIRE, "a pulse while channel 1 is off");
    target.state[ESPI_STATE_LEN - 1] = 0x80; /* an edge of a line that does not wait */
    want(espi_target_look(&target, &q) == ESPI_NOT_SOUND && espi_target_reset(&target) == ESPI_NOT_SOUND, "a state that is not sound");
}

/* The wires' names beside index and bit of source 004, tables 9 to 14; document 01's rows. */
static const struct {
    uint32_t name, index, bit;
} wires[] = {
    {ESPI_WIRE_SLP_S3, 2, 0},                {ESPI_WIRE_SLP_S4, 2, 1},      {ESPI_WIRE_SLP_S5, 2, 2},
    {ESPI_WIRE_SUS_STAT, 3, 0},              {ESPI_WIRE_PLTRST, 3, 1},      {ESPI_WIRE_OOB_RST_WARN, 3, 2},
    {ESPI_WIRE_OOB_RST_ACK, 4, 0},           {ESPI_WIRE_WAKE, 4, 2},        {ESPI_WIRE_PME, 4, 3},
    {ESPI_WIRE_TARGET_BOOT_LOAD_DONE, 5, 0}, {ESPI_WIRE_ERROR_FATAL, 5, 1}, {ESPI_WIRE_ERROR_NONFATAL, 5, 2}, {ESPI_WIRE_TARGET_BOOT_LOAD_STATUS, 5, 3},
    {ESPI_WIRE_SCI, 6, 0},                   {ESPI_WIRE_SMI, 6, 1},         {ESPI_WIRE_RCIN, 6, 2},           {ESPI_WIRE_HOST_RST_ACK, 6, 3},
    {ESPI_WIRE_HOST_RST_WARN, 7, 0},         {ESPI_WIRE_SMIOUT, 7, 1},      {ESPI_WIRE_NMIOUT, 7, 2},
};
#define WIRES (sizeof wires / sizeof *wires)

static const struct {
    uint32_t index, up, defined, reset;
} rows[] = {{2, 0, 0x7, 0x0}, {3, 0, 0x7, 0x0}, {4, 1, 0xD, 0xC}, {5, 1, 0xF, 0x0}, {6, 1, 0xF, 0x7}, {7, 0, 0x7, 0x6}};

/* Fresh, with channel 1 on. */
static void wires_on(void)
{
    espi_target_start(&target);
    HOST(ESPI_RESPONSE_ACCEPT, FREE, ESPI_OPCODE_SET_CONFIGURATION, 0x00, 0x20, 0x01, 0x00, 0x00, 0x00);
}

/* A wire with a name goes over the bus at its index and bit, and nothing but it changes. */
static void wire_on_the_bus(uint32_t name, uint32_t index, uint32_t bit)
{
    uint32_t up = rows[index - 2].up, defined = rows[index - 2].defined, reset = rows[index - 2].reset, level = (reset >> bit & 1) ^ 1;
    wires_on();
    want(espi_target_read(&target, name) == 256 * (level ^ 1), "a fresh wire's level is not its reset value");
    want(espi_target_set(&target, name, 2) == ESPI_BAD_WIRE, "a wire set to 2");
    want(espi_target_set(&target, name, level) == (up ? ESPI_OK : ESPI_BAD_WIRE), "a board's wire that it cannot set, or a host's that it can");
    if (up) {
        HOST(ESPI_RESPONSE_ACCEPT, FREE + ESPI_STATUS_VWIRE_AVAIL, ESPI_OPCODE_GET_STATUS);
        HOST(ESPI_RESPONSE_ACCEPT, FREE, ESPI_OPCODE_GET_VWIRE);
        want(target.reply[1] == 0 && target.reply[2] == index && target.reply[3] == (defined << 4 | (reset ^ 1u << bit)), "another wire than the named one");
    } else {
        HOST(ESPI_RESPONSE_ACCEPT, FREE, ESPI_OPCODE_PUT_VWIRE, 0x00, (uint8_t)index, (uint8_t)(1u << (bit + 4) | level << bit));
    }
    for (size_t k = 0; k < WIRES; k++) {
        uint32_t fresh_level = rows[wires[k].index - 2].reset >> wires[k].bit & 1;
        want(espi_target_read(&target, wires[k].name) == 256 * (fresh_level ^ (wires[k].name == name)), "another wire changed, or the named one did not");
    }
}

static void wires_by_name(void)
{
    doing = "wires by name";
    for (size_t k = 0; k < WIRES; k++) {
        want(espi_wire_index(wires[k].name) == wires[k].index && espi_wire_bit(wires[k].name) == wires[k].bit, "a name at another index or bit");
        wire_on_the_bus(wires[k].name, wires[k].index, wires[k].bit);
    }
    wires_on();
    for (uint32_t wire = 0; wire < 300; wire++) {
        int names = 0, defined = wire / 4 >= 2 && wire / 4 <= 7 && rows[wire / 4 - 2].defined >> wire % 4 & 1;
        for (size_t k = 0; k < WIRES; k++)
            names += wires[k].name == wire;
        want(names == defined, "a defined wire without a name, or a name too many");
        want(espi_number(espi_target_read(&target, wire)) == (defined ? ESPI_OK : ESPI_BAD_WIRE), "a wire that is not defined was read");
        want(defined || espi_target_set(&target, wire, 0) == ESPI_BAD_WIRE, "a wire that is not defined was set");
    }
    want(espi_target_read(&target, UINT32_MAX) == ESPI_BAD_WIRE, "a wire that is not defined was read");
}

/* ---- the calls over a struct beside the plain ones: the same words, the same bytes */

static struct {
    uint8_t before[GUARD];
    struct espi_target target;
    uint8_t after[GUARD];
} twin;

static void same_word(uint32_t plain, uint32_t word) { want(plain == word, "another word than the plain call's"); }

static void same_bytes(void)
{
    want(memcmp(twin.target.state, bytes(&state), ESPI_STATE_LEN) == 0, "another state than the plain call's");
    want(memcmp(twin.target.reply, bytes(&reply), ESPI_REPLY_LEN) == 0, "another reply than the plain call's");
    want(memcmp(twin.target.write_store, bytes(&write_store), ESPI_WRITE_STORE_LEN) == 0, "another write store than the plain call's");
    want(memcmp(twin.target.read_store, bytes(&read_store), ESPI_READ_STORE_LEN) == 0, "another read store than the plain call's");
    for (size_t i = 0; i < GUARD; i++)
        want(twin.before[i] == GUARD_BYTE && twin.after[i] == GUARD_BYTE, "a byte beside the struct was written");
}

/* The number's bytes stand in the report, low byte first. */
static int stands(uint64_t number, size_t at, size_t count)
{
    for (size_t i = 0; i < count; i++)
        if (bytes(&report)[at + i] != (uint8_t)(number >> 8 * i))
            return 0;
    return count == 8 || number >> 8 * count == 0;
}

static void twin_look(void)
{
    struct espi_request q, kept;
    memset(&q, 0x5A, sizeof q);
    kept = q;
    uint32_t word = look();
    same_word(word, espi_target_look(&twin.target, &q));
    if (word == ESPI_OK)
        want(stands(q.kind, 0, 1) && stands(q.address, 1, 8) && stands(q.length, 9, 2) && stands(q.serial, 11, 4) && stands(q.value, 15, 4),
             "another request than the plain call's");
    else
        want(q.kind == kept.kind && q.address == kept.address && q.length == kept.length && q.serial == kept.serial && q.value == kept.value,
             "a refused look wrote a request");
}

static void twin_take(void)
{
    struct espi_write w, kept;
    memset(&w, 0x5A, sizeof w);
    kept = w;
    uint32_t word = take_write();
    same_word(word, espi_target_take(&twin.target, &w));
    if (word == ESPI_OK)
        want(stands(w.address, 0, 8) && stands(w.length, 8, 2), "another write than the plain call's");
    else
        want(w.address == kept.address && w.length == kept.length, "a refused take wrote a write");
}

static void twin_answer(void)
{
    static uint8_t b[4200];
    uint32_t serial, length, success = below(3);
    some_answer(&serial, &length);
    memset(b, (int)below(256), sizeof b);
    if (success == 0)
        same_word(answer(serial, 0, b, 0), espi_target_fail(&twin.target, serial));
    else
        same_word(answer(serial, 1, b, length), espi_target_answer(&twin.target, serial, length == 0 ? 0 : b, length));
}

static void twin_call(void)
{
    static uint8_t b[4200];
    uint32_t wire = below(36), value = below(3);
    report.length = ESPI_LOOK_REPORT_LEN;
    switch (below(14)) {
    case 0:
        same_word(set_wire(wire / 4, wire % 4, value), espi_target_set(&twin.target, wire, value));
        break;
    case 1:
        same_word(read_wire(wire / 4, wire % 4), espi_target_read(&twin.target, wire));
        break;
    case 2:
        twin_take();
        break;
    case 3:
        twin_look();
        break;
    case 4:
    case 5:
        twin_answer();
        break;
    case 6:
        if (below(64) == 0)
            same_word(reset_by(espi_reset), espi_target_reset(&twin.target));
        else if (below(64) == 0)
            same_word(reset_by(espi_platform_reset), espi_target_platform_reset(&twin.target));
        break;
    case 7:
        same_word(set_line(wire, value), espi_target_line(&twin.target, wire, value));
        break;
    case 8:
        same_word(pulse_line(wire), espi_target_pulse(&twin.target, wire));
        break;
    default: {
        size_t n = some_command(b);
        same_word(exchange(b, n), espi_target_exchange(&twin.target, b, n));
    }
    }
    same_bytes();
}

static void twin_run(unsigned long calls)
{
    doing = "calls over a struct";
    fresh();
    memset(&twin, GUARD_BYTE, sizeof twin);
    same_word(ESPI_OK, espi_target_start(&twin.target));
    memcpy(twin.target.reply, bytes(&reply), ESPI_REPLY_LEN);
    memcpy(twin.target.write_store, bytes(&write_store), ESPI_WRITE_STORE_LEN);
    memcpy(twin.target.read_store, bytes(&read_store), ESPI_READ_STORE_LEN);
    for (unsigned long i = 0; i < calls; i++)
        twin_call();
}

int main(void)
{
    bench_lines();
    many_groups();
    third_transition();
    third_in_the_last();
    pltrst_falls();
    pltrst_packets();
    pltrst_resets();
    line_rows();
    lines_refused();
    line_turns();
    line_resets();
    customer();
    random_run(300000);
    readers();
    requests_by_name();
    writes_by_name();
    replies_by_name();
    refusals_by_name();
    wires_by_name();
    twin_run(100000);
    printf("boundary: bench lines, packets of many groups, third transitions, PLTRST# by wire, interrupt lines, the customer's story, 300000 random "
           "calls, the header's names and readers, 100000 calls over a struct: ok\n");
    return 0;
}
