/* tests/figures.c on an emulated board, which has no clock, and whose words come without quotes: after `figures` all but the last are the kind. */
#include <string.h>
#include <time.h>

#ifndef CLOCK_MONOTONIC
#define CLOCK_MONOTONIC 0
#endif
#define clock_gettime no_clock
#define main figures
static inline int no_clock(int clock, struct timespec *time)
{
    (void)clock;
    memset(time, 0, sizeof *time);
    return 0;
}
#include "../figures.c"
#undef main

int main(int argc, char **argv)
{
    char kind[64] = "";
    int at = argc > 1 && strcmp(argv[0], "figures") == 0 ? 1 : 2; /* picolibc has a name of its own before it */
    for (; at < argc - 1; at++) {
        if (kind[0] != '\0')
            strcat(kind, " ");
        strcat(kind, argv[at]);
    }
    char *words[] = {argv[0], kind, argv[argc - 1], 0};
    return figures(3, words);
}
