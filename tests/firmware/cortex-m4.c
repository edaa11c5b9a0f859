/* The emulated Cortex-M4 board (qemu's mps2-an386): a vector table, whose reset goes to the C library's start (newlib's rdimon, which prints by
 * semihosting), and a fault ends the run. */
#include <stdint.h>
#include <stdlib.h>

extern uint32_t stack_top[];
extern void _start(void);

/* Nothing to set up or tear down. */
void _init(void) {}
void _fini(void) {}

static void fault(void)
{
    _Exit(99);
}

/* The timer's, in a program that has one. */
__attribute__((weak, alias("fault"))) void bus_interrupt(void);

#define FAULT (void *)fault
__attribute__((section(".vectors"), used)) static void *const vectors[16] = {
    stack_top, (void *)_start, FAULT, FAULT, FAULT, FAULT, FAULT, FAULT, FAULT, FAULT, FAULT, FAULT, FAULT, FAULT, FAULT, (void *)bus_interrupt};
