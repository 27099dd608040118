/* Playout depths in C over the library: playout >losses. It has the arrivals of 20 frames as a capture gives them, by their times: some frames overtook others, two came
 * twice, and one never came. For each depth from 0 to 200 ms, by tens, it prints `(playout (depth D) (lost N) (kinds K))`: how many frames would be lost at that depth,
 * and the kind of each, 0 voice or 3 lost. Or it prints `(refused (code C) (line 0))` as its last form, with exit status 1. Where standard output can't be written it says
 * why on standard error, with exit status 2. */
#include "common.h"
#include <holdamek.h>
#include <stdio.h>

enum { FRAMES = 20, ARRIVALS = 21, START = 1000, DEEPEST = 200, STEP = 10 };

/* Which frame arrived, and when, in milliseconds: frame i was sent at 1000 + 10 i. */
static const uint32_t numbers[ARRIVALS] = {0, 1, 2, 4, 3, 6, 11, 7, 8, 9, 10, 12, 14, 15, 18, 15, 17, 13, 13, 16, 19};
static const uint32_t times[ARRIVALS] = {1012, 1025, 1029, 1062, 1068, 1077, 1130, 1130, 1135, 1136, 1137,
                                         1140, 1170, 1178, 1199, 1203, 1211, 1240, 1268, 1340, 1410};

/* Prints what a depth costs. */
static int print_depth(uint32_t depth, uint32_t lost, const uint32_t kinds[FRAMES])
{
    char digits[FRAMES + 1] = "";
    size_t i;

    for (i = 0; i < FRAMES; i++)
        digits[i] = (char)('0' + kinds[i]);
    return printf("(playout (depth %u) (lost %u) (kinds %s))\n", (unsigned)depth, (unsigned)lost, digits) >= 0;
}

/* Tries the depths, and returns the exit status. */
static int run(void)
{
    uint32_t kinds[FRAMES], lost = 0, depth, code;

    for (depth = 0; depth <= DEEPEST; depth += STEP) {
        code = holdamek_playout(FRAMES, START, depth, numbers, ARRIVALS, times, ARRIVALS, kinds, FRAMES, &lost);
        if (code != HOLDAMEK_OK)
            return refused(code, 0); /* not reached: every number is below 20 */
        if (!print_depth(depth, lost, kinds))
            return failed("standard output");
    }
    return 0;
}

int main(int argc, char **argv)
{
    if (argc != 1) {
        fprintf(stderr, "usage: %s\n", argv[0]);
        return 2;
    }
    return finished(run());
}
