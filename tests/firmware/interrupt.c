/* docs/PORTING.md's way to call the engine, on an emulated board with a real interrupt. A timer's interrupt stands for the bus block and plays the host:
 * reads of up to 4,096 bytes, posted writes, channel 0 off and on with a read open. The main loop is the device: it takes writes and answers reads, with the
 * interrupt held off round a call, or on a copy of the state that is put back if the state still is what it was. Replies made ahead are held against those
 * sent. Exit status 0 and one line at the end if the host saw every byte right, and the device every write, in order. */
#include <stdio.h>
#include <stdlib.h>
#include <string.h>

#include "../crc8.h"
#include "espi.h"

void bus_interrupt(void);

/* ---- the timer: an interrupt after so many ticks */

#ifdef __riscv
__asm__(".option arch, +zicsr");
#define HELD "csrci mstatus, 8"
#define FREE "csrsi mstatus, 8"
#define HANDLER __attribute__((interrupt, aligned(4)))
static volatile uint32_t *const compare = (uint32_t *)0x02004000, *const now = (uint32_t *)0x0200BFF8; /* 10 MHz */

static void after(uint32_t ticks)
{
    compare[0] = *now + ticks / 2;
    compare[1] = 0;
}

static void timer_on(void)
{
    after(1000);
    __asm__ volatile("csrw mtvec, %0; csrs mie, %1" : : "r"(bus_interrupt), "r"(128));
}
#else
#define HELD "cpsid i"
#define FREE "cpsie i"
#define HANDLER
static volatile uint32_t *const systick = (uint32_t *)0xE000E010; /* control, reload, value; 25 MHz */

static void after(uint32_t ticks)
{
    systick[1] = ticks;
    systick[2] = 0;
}

static void timer_on(void)
{
    after(1000);
    systick[0] = 7;
}
#endif

static void hold(void) { __asm__ volatile(HELD : : : "memory"); }
static void release(void) { __asm__ volatile(FREE : : : "memory"); }

/* ---- what both sides know */

#define WRITES 400 /* until so many were taken, and as many reads handed over */

static uint8_t state[ESPI_STATE_LEN], reply[ESPI_REPLY_LEN], write_store[ESPI_WRITE_STORE_LEN], read_store[ESPI_READ_STORE_LEN];
static volatile uint32_t reads_done, writes_sent, writes_taken, dropped, pieces, late, again, copied, ahead_sent;

static void fail(const char *what)
{
    hold();
    printf("interrupt: %s (reads %u, writes %u)\n", what, (unsigned)reads_done, (unsigned)writes_taken);
    exit(1);
}

static uint32_t below(uint32_t *seed, uint32_t n)
{
    *seed ^= *seed << 13;
    *seed ^= *seed >> 17;
    *seed ^= *seed << 5;
    return *seed % n;
}

static uint8_t byte_at(uint32_t address) { return (uint8_t)(address * 7 + (address >> 8)); }

/* ---- replies made ahead, for the three commands with fixed bytes */

static const uint8_t fixed[3][2] = {{0x25, 0xFB}, {0x01, 0x07}, {0x05, 0x1B}};
static uint8_t ahead[3][ESPI_REPLY_LEN];
static uint32_t ahead_word[3];

static void make_ahead(void)
{
    for (int k = 0; k < 3; k++) {
        uint8_t copy[ESPI_STATE_LEN];
        memcpy(copy, state, sizeof copy);
        ahead_word[k] = espi_exchange(copy, sizeof copy, fixed[k], 2, ahead[k], sizeof ahead[k], write_store, sizeof write_store,
                                      read_store, sizeof read_store);
    }
}

/* ---- the host, in the interrupt */

static uint32_t host_seed = 0x1234567u, address, length, got;

static uint32_t sends(const uint8_t *command, size_t n)
{
    uint32_t word = espi_exchange(state, sizeof state, command, n, reply, sizeof reply, write_store, sizeof write_store, read_store, sizeof read_store);
    for (int k = 0; k < 3; k++)
        if (n == 2 && memcmp(command, fixed[k], 2) == 0) {
            ahead_sent++;
            if (word != ahead_word[k] || memcmp(reply, ahead[k], espi_value(word)) != 0)
                fail("a reply made ahead is not the one that is sent");
        }
    make_ahead();
    return word;
}

static uint32_t sends_with_crc(uint8_t *command, size_t n)
{
    command[n] = crc8(command, n);
    return sends(command, n + 1);
}

#define HOST(...) sends_with_crc((uint8_t[]){__VA_ARGS__, 0}, sizeof((uint8_t[]){__VA_ARGS__}))

static void asks(void)
{
    length = below(&host_seed, 4) == 0 ? 4096 : 1 + below(&host_seed, 300);
    address = below(&host_seed, 64) * 4096 + below(&host_seed, 4097 - length);
    got = 0;
    uint32_t word = HOST(0x02, 0x00, (uint8_t)(length % 4096 >> 8), (uint8_t)length, 0, (uint8_t)(address >> 16), (uint8_t)(address >> 8), (uint8_t)address);
    if (espi_number(word) != 0)
        fail("a read was refused");
}

static void fetches(void)
{
    if (espi_number(sends(fixed[1], 2)) != 0)
        fail("GET_PC was refused while PC_AVAIL stood");
    uint32_t n = (reply[2] & 15u) * 256 + reply[3];
    uint8_t mark = got == 0 ? (n == length ? 0x0F : 0x0B) : (got + n == length ? 0x0D : 0x09);
    if (reply[1] != mark || n > 64 || n == 0)
        fail("a wrong piece");
    for (uint32_t i = 0; i < n; i++)
        if (reply[4 + i] != byte_at(address + got + i))
            fail("a wrong byte of a read");
    pieces++;
    got += n;
    if (got == length)
        length = 0, reads_done++;
}

static void posts(void)
{
    uint8_t command[8 + 64 + 1] = {0x00, 0x01, 0x00, 64, 0, (uint8_t)(writes_sent >> 10), (uint8_t)(writes_sent >> 2), (uint8_t)(writes_sent << 6)};
    for (uint32_t i = 0; i < 64; i++)
        command[8 + i] = byte_at(writes_sent * 64 + i);
    if (espi_number(sends_with_crc(command, 8 + 64)) != 0)
        fail("a write was refused while PC_FREE stood");
    writes_sent++;
}

/* Channel 0 off and on: the open read goes, and its answer comes too late. Not while a write is held, which would go too. */
static void drops(void)
{
    HOST(0x22, 0x00, 0x10, 0x00, 0x71, 0x00, 0x00);
    HOST(0x22, 0x00, 0x10, 0x03, 0x71, 0x00, 0x00);
    length = 0;
    dropped++;
}

HANDLER void bus_interrupt(void)
{
    uint32_t status = espi_status(reply, espi_value(sends(fixed[0], 2)));
    if (length != 0 && (status & ESPI_STATUS_PC_AVAIL))
        fetches();
    else if ((status & ESPI_STATUS_PC_FREE) && below(&host_seed, 3) == 0)
        posts();
    else if (length == 0)
        asks();
    else if ((status & ESPI_STATUS_PC_FREE) && below(&host_seed, 8) == 0)
        drops();
    after(20 + below(&host_seed, 1500));
}

/* ---- the device, in the main loop */

static uint32_t device_seed = 0x89ABCDEu;

static void take(void)
{
    uint8_t report[ESPI_TAKE_REPORT_LEN], data[64];
    hold();
    uint32_t word = espi_take_write(state, sizeof state, write_store, sizeof write_store, report, sizeof report);
    if (word == ESPI_OK)
        memcpy(data, write_store, sizeof data);
    make_ahead();
    release();
    if (word != ESPI_OK)
        return;
    for (uint32_t i = 0; i < 64; i++)
        if (data[i] != byte_at(writes_taken * 64 + i))
            fail("a wrong byte of a write");
    writes_taken++;
}

/* On a copy, with the interrupt free; the copy is put back only over the bytes that it was made of. */
static uint32_t answer_on_copy(uint32_t serial, const uint8_t *data, uint32_t n)
{
    uint8_t before[ESPI_STATE_LEN], copy[ESPI_STATE_LEN];
    hold();
    memcpy(before, state, sizeof before);
    release();
    memcpy(copy, before, sizeof copy);
    uint32_t word = espi_answer(copy, sizeof copy, read_store, sizeof read_store, serial, 1, data, n);
    hold();
    int same = memcmp(before, state, sizeof before) == 0;
    if (same && word == ESPI_OK) {
        memcpy(state, copy, sizeof state);
        make_ahead();
    }
    release();
    copied += same && word == ESPI_OK;
    again += !same;
    return same ? word : ESPI_OK;
}

static void serve(void)
{
    static uint8_t data[4096];
    uint8_t report[ESPI_LOOK_REPORT_LEN];
    hold();
    uint32_t word = espi_look(state, sizeof state, report, sizeof report);
    release();
    if (word != ESPI_OK)
        return;
    struct espi_request request = espi_request_of(report);
    for (uint32_t i = 0; i < request.length; i++)
        data[i] = byte_at((uint32_t)request.address + i);
    if (below(&device_seed, 2) == 0) {
        word = answer_on_copy(request.serial, data, request.length);
    } else {
        hold();
        word = espi_answer(state, sizeof state, read_store, sizeof read_store, request.serial, 1, data, request.length);
        make_ahead();
        release();
    }
    if (word == ESPI_NO_REQUEST)
        late++;
    else if (word != ESPI_OK)
        fail("an answer was refused");
}

int main(void)
{
    espi_start(state, sizeof state);
    HOST(0x22, 0x00, 0x10, 0x03, 0x71, 0x00, 0x00);
    timer_on();
    release();
    while (writes_taken < WRITES || reads_done < WRITES) {
        take();
        serve();
    }
    hold();
    if (dropped == 0 || late == 0 || again == 0 || copied == 0)
        fail("a way that the run never went");
    printf("interrupt: %u reads in %u pieces, %u writes, %u dropped, %u late, %u answers on a copy and %u made again, %u replies made ahead: ok\n",
           (unsigned)reads_done, (unsigned)pieces, (unsigned)writes_taken, (unsigned)dropped, (unsigned)late, (unsigned)copied, (unsigned)again,
           (unsigned)ahead_sent);
    return 0;
}
