/* How deep each call goes into the stack, over all that tests/boundary.c does. The linker's --wrap puts these functions between that program and the
 * archive: one paints the stack below itself, makes the call, and looks how far down the paint is gone. The deepest of each is printed at the end. */
#include <stdio.h>
#include <stdlib.h>

#include "espi.h"

#define ROOM 512 /* words */
#define PAINT 0xC5A3965Au

enum call { START, RESET, PLATFORM_RESET, EXCHANGE, LOOK, ANSWER, TAKE_WRITE, SET_WIRE, READ_WIRE, SET_LINE, PULSE_LINE, CALLS };

static unsigned deepest[CALLS];

static void show(void)
{
    static const char *const names[CALLS] = {"espi_start", "espi_reset", "espi_platform_reset", "espi_exchange", "espi_look",
                                             "espi_answer", "espi_take_write", "espi_set_wire", "espi_read_wire", "espi_set_line", "espi_pulse_line"};
    for (int call = 0; call < CALLS; call++)
        printf("stack %s %u\n", names[call], deepest[call]);
}

/* Inlined, so that nothing but the call itself writes below the stack pointer. */
#define INLINED static inline __attribute__((always_inline))

INLINED volatile uint32_t *painted(void)
{
    static int told;
    if (!told)
        told = 1, atexit(show);
    volatile uint32_t *sp;
#ifdef __riscv
    __asm__ volatile("mv %0, sp" : "=r"(sp));
#else
    __asm__ volatile("mov %0, sp" : "=r"(sp));
#endif
    for (int i = 1; i <= ROOM; i++)
        sp[-i] = PAINT;
    return sp;
}

INLINED void look_below(volatile uint32_t *sp, enum call call)
{
    int words = ROOM;
    while (words > 0 && sp[-words] == PAINT)
        words--;
    if (words == ROOM)
        _Exit(98); /* deeper than the paint */
    if (4u * (unsigned)words > deepest[call])
        deepest[call] = 4u * (unsigned)words;
}

#define WRAPPED(call, name, parameters, arguments) \
    uint32_t __real_##name parameters;             \
    uint32_t __wrap_##name parameters;             \
    uint32_t __wrap_##name parameters              \
    {                                              \
        volatile uint32_t *sp = painted();         \
        uint32_t word = __real_##name arguments;   \
        look_below(sp, call);                      \
        return word;                               \
    }

WRAPPED(START, espi_start, (uint8_t * s, espi_len n), (s, n))
WRAPPED(RESET, espi_reset, (uint8_t * s, espi_len n), (s, n))
WRAPPED(PLATFORM_RESET, espi_platform_reset, (uint8_t * s, espi_len n), (s, n))
WRAPPED(EXCHANGE, espi_exchange,
        (uint8_t * s, espi_len n, const uint8_t *c, espi_len cn, uint8_t *r, espi_len rn, uint8_t *w, espi_len wn, const uint8_t *d, espi_len dn),
        (s, n, c, cn, r, rn, w, wn, d, dn))
WRAPPED(LOOK, espi_look, (const uint8_t *s, espi_len n, uint8_t *r, espi_len rn), (s, n, r, rn))
WRAPPED(ANSWER, espi_answer, (uint8_t * s, espi_len n, uint8_t *d, espi_len dn, uint32_t serial, uint32_t success, const uint8_t *a, espi_len an),
        (s, n, d, dn, serial, success, a, an))
WRAPPED(TAKE_WRITE, espi_take_write, (uint8_t * s, espi_len n, const uint8_t *w, espi_len wn, uint8_t *r, espi_len rn), (s, n, w, wn, r, rn))
WRAPPED(SET_WIRE, espi_set_wire, (uint8_t * s, espi_len n, uint32_t index, uint32_t bit, uint32_t value), (s, n, index, bit, value))
WRAPPED(READ_WIRE, espi_read_wire, (const uint8_t *s, espi_len n, uint32_t index, uint32_t bit), (s, n, index, bit))
WRAPPED(SET_LINE, espi_set_line, (uint8_t * s, espi_len n, uint32_t line, uint32_t level), (s, n, line, level))
WRAPPED(PULSE_LINE, espi_pulse_line, (uint8_t * s, espi_len n, uint32_t line), (s, n, line))
