/* Times the library's trying of playout depths beside the loops of playout_loops.c by two compilers: tests/playout_speed builds and runs it. Frames and arrivals are 16 to 4,096 each, an arrival for each frame, in order or shuffled, all in time or half of
 * them late. Every size has as many calls as make the same number of arrivals in all, TOTAL, so that a greater one doesn't differ by its memory; the double loops, which take longer, have MOST. They stay in the core's own cache, but are too many to be
 * foreseen by the branch predictor. Every round times each way once, a different one first, in processor time on one core. Medians of all rounds, and medians of the rounds' ratios. */
#define _GNU_SOURCE
#include "playout_loops.h"
#include "timing.h"
#include <holdamek.h>

enum { LEAST = 16, MOST = 4096, TOTAL = 32768, WAYS = 7, ROUNDS = 101, START = 100000, DEPTH = 60 };

static uint32_t numbers[TOTAL], times[TOTAL], kinds[TOTAL], due[TOTAL], lost[TOTAL], lost_due[TOTAL];

enum { LIBRARY, LINEAR_CC, LINEAR_OTHER, MASKED_CC, MASKED_OTHER, DOUBLE_CC, DOUBLE_OTHER };
static const struct {
    const char *name;
    playout *run;
} ways[WAYS] = {
    {"library", holdamek_playout},
    {"linear, " FIRST, linear_cc}, {"linear, " SECOND, linear_other},
    {"masked, " FIRST, masked_cc}, {"masked, " SECOND, masked_other},
    {"double, " FIRST, double_cc}, {"double, " SECOND, double_other},
};

static double took[WAYS][MORE_ROUNDS];
volatile uint32_t seen; /* so that what is only read is read */

/* The first `calls` calls of a size, by one way. Gives how many are refused. */
static uint32_t some_calls(int way, uint32_t size, uint32_t calls)
{
    uint32_t refused = 0, c;

    for (c = 0; c < calls; c++)
        refused += ways[way].run(size, START, DEPTH, numbers + size * c, size, times + size * c, size, kinds + size * c, size, lost + c) != 0;
    return refused;
}

/* All memory of the calls into the cache, so that no way pays for what went on before, without any of their branches, which they would learn. */
static void touch(void)
{
    uint32_t sum = 0, k;

    for (k = 0; k < TOTAL; k++) {
        kinds[k] = 1;
        sum += numbers[k] + times[k];
    }
    seen = sum;
}

/* Nanoseconds a frame and arrival of one way. */
static double timed(int way, uint32_t size)
{
    uint32_t calls = (way < DOUBLE_CC ? TOTAL : MOST) / size;
    double began;

    touch();
    began = now();
    some_calls(way, size, calls);
    return (now() - began) / (2.0 * size * calls);
}

static uint64_t seed = 1;

/* A number below n. */
static uint32_t below(uint32_t n)
{
    seed = seed * 6364136223846793005u + 1442695040888963407u;
    return (uint32_t)((seed >> 33) % n);
}

/* The arrivals of all calls of a size: one for each frame, within 50 ms before its last millisecond, or, for half of them by chance where some are late, within 50 ms behind it. */
static void make(uint32_t size, int shuffled, int late)
{
    uint32_t k, other, kept;

    for (k = 0; k < TOTAL; k++)
        numbers[k] = k % size;
    for (k = 0; shuffled && k < TOTAL; k++) {
        other = k - k % size + below(k % size + 1);
        kept = numbers[k];
        numbers[k] = numbers[other];
        numbers[other] = kept;
    }
    for (k = 0; k < TOTAL; k++)
        times[k] = START + DEPTH + 10 * numbers[k] + (late && below(2) ? 1 + below(50) : 0 - below(50));
}

/* Whether every way gives the same in all calls, before any is timed. Gives how many frames are lost in all, or -1. */
static long alike(uint32_t size)
{
    uint32_t calls = TOTAL / size, c;
    long sum = 0;
    int way;

    for (way = 0; way < WAYS; way++) {
        memset(kinds, 1, sizeof kinds);
        memset(lost, 1, sizeof lost);
        if (some_calls(way, size, calls) != 0) {
            printf("failed: %s refuses %u frames\n", ways[way].name, size);
            return -1;
        }
        if (way == LIBRARY) {
            memcpy(due, kinds, sizeof due);
            memcpy(lost_due, lost, sizeof lost_due);
        }
        if (memcmp(kinds, due, sizeof due) != 0 || memcmp(lost, lost_due, calls * sizeof *lost) != 0) {
            printf("failed: %s gives something else for %u frames\n", ways[way].name, size);
            return -1;
        }
    }
    for (c = 0; c < calls; c++)
        sum += lost_due[c];
    return sum;
}

/* All rounds of a size, and their line of the table. */
static void measure(uint32_t size, long all_lost, int rounds)
{
    int r, way;

    for (way = 0; way < WAYS; way++)
        timed(way, size); /* not counted: the code into the cache */
    for (r = 0; r < rounds; r++)
        for (way = 0; way < WAYS; way++)
            took[(way + r) % WAYS][r] = timed((way + r) % WAYS, size);
    printf("| %u | %.0f %% |", size, 100.0 * (double)all_lost / TOTAL);
    for (way = 0; way < WAYS; way++)
        printf(" %.3f |", median(took[way], rounds));
    printf(" %.3f |", 2e-3 * size * median(took[LIBRARY], rounds));
    for (way = LINEAR_CC; way < WAYS; way++)
        printf(way < DOUBLE_CC ? " %.2f |" : " %.4f |", ratio(took[LIBRARY], took[way], rounds));
    printf("\n");
    fflush(stdout);
}

static int table(const char *name, int shuffled, int late, int rounds)
{
    uint32_t size;
    long all_lost;
    int way;

    printf("\n%s, %d rounds: nanoseconds a frame and arrival (the time of a call divided by the sum of both), microseconds a call of the library, and the library's time in times of each loop's\n\n| frames = arrivals | lost |", name, rounds);
    for (way = 0; way < WAYS; way++)
        printf(" %s |", ways[way].name);
    printf(" µs a call |");
    for (way = LINEAR_CC; way < WAYS; way++)
        printf(" / %s |", ways[way].name);
    printf("\n|");
    for (way = 0; way < 2 * WAYS + 2; way++)
        printf("---|");
    printf("\n");
    for (size = LEAST; size <= MOST; size *= 2) {
        make(size, shuffled, late);
        if ((all_lost = alike(size)) < 0)
            return 0;
        measure(size, all_lost, rounds);
    }
    return 1;
}

int main(int argc, char **argv)
{
    int rounds = rounds_asked(argc, argv, ROUNDS);

    if (rounds == 0)
        return 2;
    return table("In order, all in time", 0, 0, rounds) && table("Shuffled, all in time", 1, 0, rounds) && table("In order, half of them late", 0, 1, rounds) && table("Shuffled, half of them late", 1, 1, rounds) ? 0 : 2;
}
