/* The eSPI target engine: eleven calls over bytes that the board lends.
 *
 * Every call takes any input at all, ends, and does nothing undefined. It returns a word: bits 7:0 are its number, bits 31:8 a value where the call has
 * one, else 0 (espi_number, espi_value). A call whose number is not 0 has changed nothing, but that an exchange with number 1 or 2 has written an error
 * reply of four bytes.
 *
 * The board's duties
 * - The slices of one call do not overlap.
 * - Each call gets the state bytes that the last one left, and no call is made during another: if an interrupt makes calls and the main loop too, one
 *   of them waits. The state bytes are opaque; copy them whole or not at all.
 * - State bytes belong to the engine that made them, and are longer since 4.0. After an update of the engine call espi_start; hand it no bytes that an older
 *   one left.
 * - The read store is left alone from an accepted answer to its last piece (PC_AVAIL drops then), and every exchange in between is lent the same bytes.
 * - A taken write's data stands at the start of the write store: copy it out before the next exchange.
 * - A write is taken before a later read is answered: on the bus a read must not pass a write, and no number refuses it here.
 * - At espi_start the serials begin anew: forget every answer that is still open.
 * - Wires set while channel 1 is off are not sent. When the host enables the channel, each up group that differs from its reset value is sent by itself.
 *   One that was set back to its reset value meanwhile is not, and the host goes on seeing the old level: set such a wire to its opposite and back once the
 *   channel is on.
 * - Interrupt lines: see the section on them below. After every reset the board raises its level lines again, and a pulse that was refused with 24 or that
 *   had not been fetched is the board's to ask for again.
 * - Channel 0 is switched off by a read-modify-write of register 010h that keeps its size fields, as 22 00 10 00 11 00 00 E3. A write of 00000000h has
 *   forbidden sizes: it gets NON_FATAL (number 2) and the channel stays on. Switching it off drops the held write, request and completions; a late answer
 *   is then refused with 20.
 * - A packet that lowers PLTRST# resets the platform, and only the wire tells: after every accepted exchange that begins 04h read ESPI_WIRE_PLTRST (group 3,
 *   bit 1) and compare it with the level before. Low and high again between two looks would hide a reset.
 *
 * What stands where: lengths and numbers; the eleven calls, those of the interrupt lines last; names of what goes over the bus; readers for the two
 * reports; struct espi_target, the state and the stores in one, with calls of two or three arguments. All but the eleven calls is inline: what a board does
 * not use costs it nothing.
 */
#ifndef ESPI_H
#define ESPI_H

#include <stdint.h>

/* The major number goes up when a board has to change something, the minor one when something is added. ESPI_VERSION is their text, "major.minor". */
#define ESPI_VERSION_MAJOR 4
#define ESPI_VERSION_MINOR 0
#define ESPI_VERSION ESPI_TEXT_(ESPI_VERSION_MAJOR) "." ESPI_TEXT_(ESPI_VERSION_MINOR)
#define ESPI_TEXT_(number) ESPI_TEXT_OF_(number)
#define ESPI_TEXT_OF_(number) #number

/* Lengths are 64-bit numbers on every machine, on 32-bit ones too: a size_t there would put what follows it in the wrong place. */
typedef uint64_t espi_len;
#ifdef __cplusplus
static_assert(sizeof(espi_len) == 8 && sizeof(uint8_t) == 1, "espi.h: a length must be 64 bits");
#else
_Static_assert(sizeof(espi_len) == 8 && sizeof(uint8_t) == 1, "espi.h: a length must be 64 bits");
#endif

#ifdef __cplusplus
extern "C" {
#endif

/* The least lengths of the lent slices, in bytes. Longer ones are fine: bytes past these are neither read nor written. */
#define ESPI_STATE_LEN 174
#define ESPI_REPLY_LEN 263
#define ESPI_WRITE_STORE_LEN 256
#define ESPI_READ_STORE_LEN 4096
#define ESPI_LOOK_REPORT_LEN 19
#define ESPI_TAKE_REPORT_LEN 10

/* Numbers. */
#define ESPI_OK 0              /* accepted or deferred */
#define ESPI_FATAL 1           /* exchange: no credit, too large, a boundary crossed, or a wire's third change in a packet; FATAL reply */
#define ESPI_FORBIDDEN 2       /* exchange: forbidden configuration value, or an operating count of 1 while a pulse waits; NON_FATAL reply */
#define ESPI_SHORT_STORE 10    /* a lent slice is too short */
#define ESPI_NOT_SOUND 11      /* the state bytes pack no sound state */
#define ESPI_BAD_LENGTH 12     /* exchange: empty, cut short or too long; silent */
#define ESPI_BAD_OPCODE 13     /* exchange: unknown opcode, or FFh not a RESET; silent */
#define ESPI_CHANNEL_OFF 14    /* exchange: its channel is disabled; silent */
#define ESPI_BAD_CYCLE 15      /* exchange: cycle type not listed; silent */
#define ESPI_BAD_CRC 16        /* exchange: wrong CRC while it is checked; silent */
#define ESPI_NO_REQUEST 20     /* answer: no unanswered request with this serial */
#define ESPI_BAD_COUNT 21      /* answer: byte count wrong */
#define ESPI_BAD_WIRE 22       /* set: not the board's wire, or value above 1; read: no such defined wire; a line above 255, or its level above 1 */
#define ESPI_NOTHING 23        /* take: no write held; look: no unanswered request */
#define ESPI_NOT_NOW 24        /* pulse: channel 1 off, operating count 1, or the line waits already; set a line: its pulse waits */

static inline uint32_t espi_number(uint32_t word) { return word & 0xFFu; }
static inline uint32_t espi_value(uint32_t word) { return word >> 8; }

/* ---- The eleven calls */

/* The fresh state, whatever the bytes held. Numbers: 0, 10. */
uint32_t espi_start(uint8_t *state, espi_len state_len);

/* eSPI reset (the pin): all registers and wire groups, all lines low, all queues. The last serial given stays. Numbers: 0, 10, 11. */
uint32_t espi_reset(uint8_t *state, espi_len state_len);

/* Platform reset: register 010h, wire groups 6 and 7, all lines low, channel 0's queues. An exchange makes it by itself where the host lowers PLTRST#.
 * Numbers: 0, 10, 11. */
uint32_t espi_platform_reset(uint8_t *state, espi_len state_len);

/* One exchange: `command` is the whole command phase of one Chip Select# assertion, its CRC byte included. The value is the reply's length; 0: do not
 * drive the bus (silent, or a RESET). A posted write's data goes to the start of the write store; a completion's data comes from the read store, which is
 * never written. After an accepted PUT_VWIRE that ends with PLTRST# low and was high before it the state is that after a platform reset; the reply shows the
 * status before. Numbers: 0, 1, 2 (value 4), 10 to 16 (value 0). */
uint32_t espi_exchange(uint8_t *state, espi_len state_len, const uint8_t *command, espi_len command_len,
                       uint8_t *reply, espi_len reply_len,
                       uint8_t *write_store, espi_len write_store_len,
                       const uint8_t *read_store, espi_len read_store_len);

/* The unanswered request, if there is one. Report, low byte first: kind 1, address 8, length 2, serial 4, an I/O write's bytes 4 (unused ones 0); read it
 * by espi_request_of. Changes nothing. Numbers: 0, 10, 11, 23. */
uint32_t espi_look(const uint8_t *state, espi_len state_len, uint8_t *report, espi_len report_len);

/* The answer to the request with this serial. success 0: failure, with no data; any other value: success, with exactly the request's length of data
 * (none for an I/O write), which is copied to the start of the read store. Numbers: 0, 10, 11, 20, 21. */
uint32_t espi_answer(uint8_t *state, espi_len state_len, uint8_t *read_store, espi_len read_store_len,
                     uint32_t serial, uint32_t success, const uint8_t *data, espi_len data_len);

/* Takes the held posted write: its place is free again, its data stays in the write store. Report, low byte first: address 8, length 2; read it by
 * espi_write_of. Numbers: 0, 10, 11, 23. */
uint32_t espi_take_write(uint8_t *state, espi_len state_len, const uint8_t *write_store, espi_len write_store_len,
                         uint8_t *report, espi_len report_len);

/* Sets one defined bit of an up group (index 4 to 6). A real change while channel 1 is on is sent by a later GET_VWIRE. Numbers: 0, 10, 11, 22. */
uint32_t espi_set_wire(uint8_t *state, espi_len state_len, uint32_t index, uint32_t bit, uint32_t value);

/* One defined bit of any group (index 2 to 7); the value is the wire's. Numbers: 0, 10, 11, 22. */
uint32_t espi_read_wire(const uint8_t *state, espi_len state_len, uint32_t index, uint32_t bit);

/* ---- Interrupt lines
 *
 * 256 lines to the host's interrupts, 0 to 255. On the bus line n is index n / 128, with the level in data bit 7 and n mod 128 in bits 6:0. No call reads a
 * line.
 *
 * A level line is raised while its device wants the host and lowered when it has been served: espi_set_line. Each real change is sent by a later GET_VWIRE,
 * with the level of then; raised and lowered before that, the line is sent once, low. A level that the line has already is accepted and changes nothing.
 *
 * An edge line is pulsed: espi_pulse_line. The host gets the line's other level and then the level held, two entries of one packet, in this order; the
 * level held stays. The pulse waits until it is sent whole. Meanwhile this line takes neither another pulse nor a level: 24.
 *
 * - A pulse is 24 besides while channel 1 is off and while the operating count is 1, where two entries do not fit. It is not kept: the board asks again.
 * - While a pulse waits the host cannot lower the operating count to 1, but by a write that switches channel 1 off: else number 2, and nothing changes.
 * - When the host enables channel 1 every high line is sent, and no low one. Switching it off keeps the levels and drops what waits, pulses too.
 * - espi_start, espi_reset, espi_platform_reset and a packet that lowers PLTRST# lower every line and drop what waits; the host is sent nothing of it. The
 *   board raises its level lines again after each of them.
 * - Turns go over lines 0 to 255, then the wire groups 4, 5 and 6, and begin at group 4 after a start, a reset and a switching off. A packet goes on from
 *   where the last one ended and closes at the first one waiting that does not fit: a pulse with one place left is the first in the next packet. With c the
 *   least operating count meanwhile and h the larger of 1 and c / 2 rounded down, whatever waits has been sent after 259 / h accepted GET_VWIREs, rounded
 *   up. */

/* Raises (1) or lowers (0) a line. A real change while channel 1 is on is sent by a later GET_VWIRE. Numbers: 0, 10, 11, 22, 24. */
uint32_t espi_set_line(uint8_t *state, espi_len state_len, uint32_t line, uint32_t level);

/* Asks for an edge on a line: its other level and its level again in one packet. Numbers: 0, 10, 11, 22, 24. */
uint32_t espi_pulse_line(uint8_t *state, espi_len state_len, uint32_t line);

/* ---- Names of what goes over the bus */

/* Kinds of a request. */
#define ESPI_MEMORY_READ 0
#define ESPI_IO_READ 1
#define ESPI_IO_WRITE 2

/* The defined wires, all of them: index * 4 + bit, so that a wire is one number, which a call, a variable or a table takes. No name is below 8: a value
 * handed over in a wire's place names no wire (22). A # says active low: the level 0 means that it is so. The host's wires are the board's to read, the
 * board's to read and to set. */
enum espi_wire {
    /* Group 2, the host's. */
    ESPI_WIRE_SLP_S3 = 2 * 4 + 0,                  /* SLP_S3# */
    ESPI_WIRE_SLP_S4 = 2 * 4 + 1,                  /* SLP_S4# */
    ESPI_WIRE_SLP_S5 = 2 * 4 + 2,                  /* SLP_S5# */
    /* Group 3, the host's. */
    ESPI_WIRE_SUS_STAT = 3 * 4 + 0,                /* SUS_STAT# */
    ESPI_WIRE_PLTRST = 3 * 4 + 1,                  /* PLTRST#; a packet that lowers it resets the platform */
    ESPI_WIRE_OOB_RST_WARN = 3 * 4 + 2,
    /* Group 4, the board's. */
    ESPI_WIRE_OOB_RST_ACK = 4 * 4 + 0,
    ESPI_WIRE_WAKE = 4 * 4 + 2,                    /* WAKE# */
    ESPI_WIRE_PME = 4 * 4 + 3,                     /* PME# */
    /* Group 5, the board's. */
    ESPI_WIRE_TARGET_BOOT_LOAD_DONE = 5 * 4 + 0,
    ESPI_WIRE_ERROR_FATAL = 5 * 4 + 1,
    ESPI_WIRE_ERROR_NONFATAL = 5 * 4 + 2,
    ESPI_WIRE_TARGET_BOOT_LOAD_STATUS = 5 * 4 + 3, /* set it before TARGET_BOOT_LOAD_DONE */
    /* Group 6, the board's; a platform reset resets it. */
    ESPI_WIRE_SCI = 6 * 4 + 0,                     /* SCI# */
    ESPI_WIRE_SMI = 6 * 4 + 1,                     /* SMI# */
    ESPI_WIRE_RCIN = 6 * 4 + 2,                    /* RCIN# */
    ESPI_WIRE_HOST_RST_ACK = 6 * 4 + 3,
    /* Group 7, the host's; a platform reset resets it. */
    ESPI_WIRE_HOST_RST_WARN = 7 * 4 + 0,
    ESPI_WIRE_SMIOUT = 7 * 4 + 1,                  /* SMIOUT# */
    ESPI_WIRE_NMIOUT = 7 * 4 + 2                   /* NMIOUT# */
};

/* Index and bit of a wire, as espi_set_wire and espi_read_wire take them. */
static inline uint32_t espi_wire_index(uint32_t wire) { return wire / 4u; }
static inline uint32_t espi_wire_bit(uint32_t wire) { return wire % 4u; }

/* A command's first byte. A short access is its opcode plus the code of its size: ESPI_OPCODE_SHORT_IO_READ + ESPI_SHORT_1. */
#define ESPI_OPCODE_PUT_PC 0x00
#define ESPI_OPCODE_GET_PC 0x01
#define ESPI_OPCODE_PUT_NP 0x02
#define ESPI_OPCODE_PUT_VWIRE 0x04
#define ESPI_OPCODE_GET_VWIRE 0x05
#define ESPI_OPCODE_GET_CONFIGURATION 0x21
#define ESPI_OPCODE_SET_CONFIGURATION 0x22
#define ESPI_OPCODE_GET_STATUS 0x25
#define ESPI_OPCODE_SHORT_IO_READ 0x40
#define ESPI_OPCODE_SHORT_IO_WRITE 0x44
#define ESPI_OPCODE_SHORT_MEMORY_READ 0x48
#define ESPI_OPCODE_SHORT_MEMORY_WRITE 0x4C
#define ESPI_OPCODE_RESET 0xFF
#define ESPI_SHORT_1 0         /* 1 byte */
#define ESPI_SHORT_2 1         /* 2 bytes */
#define ESPI_SHORT_4 3         /* 4 bytes */

/* Cycle types: of PUT_PC and PUT_NP with 4 and 8 address bytes, and of the completions that GET_PC hands over. */
#define ESPI_CYCLE_READ_32 0x00
#define ESPI_CYCLE_WRITE_32 0x01
#define ESPI_CYCLE_READ_64 0x02
#define ESPI_CYCLE_WRITE_64 0x03
#define ESPI_CYCLE_DONE 0x06   /* an I/O write's success, no data */
#define ESPI_CYCLE_MIDDLE 0x09
#define ESPI_CYCLE_FIRST 0x0B
#define ESPI_CYCLE_LAST 0x0D
#define ESPI_CYCLE_FAILED 0x0E /* failure, no data */
#define ESPI_CYCLE_ONLY 0x0F

/* A reply's first byte. */
#define ESPI_RESPONSE_DEFER 0x01
#define ESPI_RESPONSE_NON_FATAL 0x02
#define ESPI_RESPONSE_FATAL 0x03
#define ESPI_RESPONSE_ACCEPT 0x08

/* Bits of the status in a reply; the others are 0. */
#define ESPI_STATUS_PC_FREE 0x0001u     /* no write held */
#define ESPI_STATUS_NP_FREE 0x0002u     /* no request held */
#define ESPI_STATUS_VWIRE_FREE 0x0004u  /* always 1 */
#define ESPI_STATUS_PC_AVAIL 0x0010u    /* a completion is ready */
#define ESPI_STATUS_VWIRE_AVAIL 0x0040u /* a wire group is pending or a line waits */

/* The status in a reply of this length, the value of its exchange: the two bytes before the CRC, as it is after the command (in the reply to a
 * SET_CONFIGURATION: before it). 0 if there is no reply. */
static inline uint32_t espi_status(const uint8_t *reply, uint32_t reply_len)
{
    return reply_len < 4u ? 0u : (uint32_t)reply[reply_len - 3u] | (uint32_t)reply[reply_len - 2u] << 8;
}

/* ---- Readers for the two reports */

/* The request that waits for an answer. */
struct espi_request {
    uint64_t address;
    uint32_t length; /* bytes: 1 to 4096 */
    uint32_t serial; /* names the request in its answer */
    uint32_t value;  /* an I/O write's bytes, the first one lowest; else 0 */
    uint8_t kind;    /* ESPI_MEMORY_READ, ESPI_IO_READ or ESPI_IO_WRITE */
};

/* A posted write that was taken: its data stands at the start of the write store. */
struct espi_write {
    uint64_t address;
    uint32_t length; /* bytes: 1 to 256 */
};

static inline uint32_t espi_low_first_(const uint8_t *bytes, uint32_t count)
{
    uint32_t number = 0;
    while (count-- > 0)
        number = number << 8 | bytes[count];
    return number;
}

static inline struct espi_request espi_request_of(const uint8_t report[ESPI_LOOK_REPORT_LEN])
{
    struct espi_request request;
    request.kind = report[0];
    request.address = (uint64_t)espi_low_first_(report + 5, 4) << 32 | espi_low_first_(report + 1, 4);
    request.length = espi_low_first_(report + 9, 2);
    request.serial = espi_low_first_(report + 11, 4);
    request.value = espi_low_first_(report + 15, 4);
    return request;
}

static inline struct espi_write espi_write_of(const uint8_t report[ESPI_TAKE_REPORT_LEN])
{
    struct espi_write taken;
    taken.address = (uint64_t)espi_low_first_(report + 4, 4) << 32 | espi_low_first_(report, 4);
    taken.length = espi_low_first_(report + 8, 2);
    return taken;
}

/* ---- A target with its stores
 *
 * The eleven calls over one struct: each does what its plain call does and returns the same word. The struct is 4.8 KB: make it static, not a local
 * variable. What is handed in (command, data) lies outside it; the board reads `reply` after an exchange and `write_store` after a take, and leaves the
 * rest alone. Then no slices overlap, and every call gets the state and the stores that the last one left; the other duties above stay the board's. */
struct espi_target {
    uint8_t state[ESPI_STATE_LEN];
    uint8_t reply[ESPI_REPLY_LEN];
    uint8_t write_store[ESPI_WRITE_STORE_LEN];
    uint8_t read_store[ESPI_READ_STORE_LEN];
};

static inline uint32_t espi_target_start(struct espi_target *target) { return espi_start(target->state, ESPI_STATE_LEN); }
static inline uint32_t espi_target_reset(struct espi_target *target) { return espi_reset(target->state, ESPI_STATE_LEN); }
static inline uint32_t espi_target_platform_reset(struct espi_target *target) { return espi_platform_reset(target->state, ESPI_STATE_LEN); }

/* The reply is the first espi_value(word) bytes of target->reply. */
static inline uint32_t espi_target_exchange(struct espi_target *target, const uint8_t *command, espi_len command_len)
{
    return espi_exchange(target->state, ESPI_STATE_LEN, command, command_len, target->reply, ESPI_REPLY_LEN, target->write_store, ESPI_WRITE_STORE_LEN,
                         target->read_store, ESPI_READ_STORE_LEN);
}

/* Fills in the request if the number is 0, else leaves it. */
static inline uint32_t espi_target_look(const struct espi_target *target, struct espi_request *request)
{
    uint8_t report[ESPI_LOOK_REPORT_LEN];
    uint32_t word = espi_look(target->state, ESPI_STATE_LEN, report, ESPI_LOOK_REPORT_LEN);
    if (word == ESPI_OK)
        *request = espi_request_of(report);
    return word;
}

/* Success, with exactly the request's length of data; an I/O write's with 0 bytes, for which data may be a null pointer. */
static inline uint32_t espi_target_answer(struct espi_target *target, uint32_t serial, const uint8_t *data, espi_len data_len)
{
    return espi_answer(target->state, ESPI_STATE_LEN, target->read_store, ESPI_READ_STORE_LEN, serial, 1, data_len > 0 ? data : target->reply, data_len);
}

/* Failure. */
static inline uint32_t espi_target_fail(struct espi_target *target, uint32_t serial)
{
    return espi_answer(target->state, ESPI_STATE_LEN, target->read_store, ESPI_READ_STORE_LEN, serial, 0, target->reply, 0);
}

/* Fills in the write if the number is 0, else leaves it; its data is the first taken->length bytes of target->write_store until the next exchange. */
static inline uint32_t espi_target_take(struct espi_target *target, struct espi_write *taken)
{
    uint8_t report[ESPI_TAKE_REPORT_LEN];
    uint32_t word = espi_take_write(target->state, ESPI_STATE_LEN, target->write_store, ESPI_WRITE_STORE_LEN, report, ESPI_TAKE_REPORT_LEN);
    if (word == ESPI_OK)
        *taken = espi_write_of(report);
    return word;
}

/* Sets a wire of the board's: espi_target_set(&target, ESPI_WIRE_SCI, 0). */
static inline uint32_t espi_target_set(struct espi_target *target, uint32_t wire, uint32_t value)
{
    return espi_set_wire(target->state, ESPI_STATE_LEN, espi_wire_index(wire), espi_wire_bit(wire), value);
}

/* Reads any wire: its level is espi_value(word). */
static inline uint32_t espi_target_read(const struct espi_target *target, uint32_t wire)
{
    return espi_read_wire(target->state, ESPI_STATE_LEN, espi_wire_index(wire), espi_wire_bit(wire));
}

/* Raises or lowers a line: espi_target_line(&target, 1, 1). */
static inline uint32_t espi_target_line(struct espi_target *target, uint32_t line, uint32_t level)
{
    return espi_set_line(target->state, ESPI_STATE_LEN, line, level);
}

/* Pulses a line: espi_target_pulse(&target, 0). 24 says that it could not be asked for now. */
static inline uint32_t espi_target_pulse(struct espi_target *target, uint32_t line) { return espi_pulse_line(target->state, ESPI_STATE_LEN, line); }

#ifdef __cplusplus
}
#endif

#endif
