/* Makes the calls that it is sent on the proved engine, within the message itself, and sends the whole message back.
 *
 * A message begins with fifteen words, low byte first: its length in bytes, the call's row (as in traffic.rs), three numbers, and for five
 * slices where each begins in the message and its length. The slices are those of the C call in their order, the state first; what
 * stands between them must come back unchanged. The call's word goes into the first word. */
#include <stdint.h>
#include <unistd.h>

#include "espi.h"

#define WORDS 15
#define ROOM 65536

static union {
    uint32_t word[WORDS];
    uint8_t byte[ROOM];
} message;

static uint8_t *at(int slice) { return message.byte + message.word[5 + 2 * slice]; }
static size_t length(int slice) { return message.word[6 + 2 * slice]; }

static uint32_t make(uint32_t row, uint32_t first, uint32_t second, uint32_t third)
{
    switch (row) {
    case 0:
        return espi_start(at(0), length(0));
    case 1:
        return espi_reset(at(0), length(0));
    case 2:
        return espi_platform_reset(at(0), length(0));
    case 3:
        return espi_exchange(at(0), length(0), at(1), length(1), at(2), length(2), at(3), length(3), at(4), length(4));
    case 4:
        return espi_look(at(0), length(0), at(1), length(1));
    case 5:
        return espi_answer(at(0), length(0), at(1), length(1), first, second, at(2), length(2));
    case 6:
        return espi_take_write(at(0), length(0), at(1), length(1), at(2), length(2));
    case 7:
        return espi_set_wire(at(0), length(0), first, second, third);
    case 8:
        return espi_read_wire(at(0), length(0), first, second);
    case 9:
        return espi_set_line(at(0), length(0), first, second);
    case 10:
        return espi_pulse_line(at(0), length(0), first);
    default:
        _exit(2);
    }
}

static int receive(size_t from, size_t to)
{
    while (from < to) {
        ssize_t got = read(0, message.byte + from, to - from);
        if (got <= 0)
            return 0;
        from += (size_t)got;
    }
    return 1;
}

int main(void)
{
    while (receive(0, sizeof message.word)) {
        size_t total = message.word[0];
        if (total < sizeof message.word || total > ROOM || !receive(sizeof message.word, total))
            return 2;
        message.word[0] = make(message.word[1], message.word[2], message.word[3], message.word[4]);
        for (size_t sent = 0; sent < total;) {
            ssize_t put = write(1, message.byte + sent, total - sent);
            if (put <= 0)
                return 2;
            sent += (size_t)put;
        }
    }
    return 0;
}
