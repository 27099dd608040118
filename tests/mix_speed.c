/* Times the library's mixing of 1 to 8 legs beside the plain loop of mix_loop.c and a copy of the same bytes: tests/mix_speed builds and runs it. Samples are random, once so quiet that no sum is limited and once of full size. Every round times each way
 * once, a different one first, in processor time on one core. Medians of all rounds, and medians of the rounds' ratios. */
#define _GNU_SOURCE
#include "mix_loop.h"
#include "timing.h"
#include <holdamek.h>

/* A round goes PASSES times over the calls, one for each of CONFERENCES: these stay in the core's own cache, but are too many to be foreseen by the branch predictor. */
enum { FRAME = 80, LEGS = 8, CONFERENCES = 64, PASSES = 20, WAYS = 4, ROUNDS = 301 };

static int16_t legs[CONFERENCES][LEGS * FRAME], heard[CONFERENCES][LEGS * FRAME], due[CONFERENCES][LEGS * FRAME];

static void library(const int16_t *in, size_t count, int16_t *out) { holdamek_mix(in, FRAME * count, out, FRAME * count); }
static void copy(const int16_t *in, size_t count, int16_t *out) { memcpy(out, in, FRAME * count * sizeof *in); }

enum { LIBRARY, LOOP_O2, LOOP_O3, COPY };
static const struct {
    const char *name;
    void (*run)(const int16_t *in, size_t count, int16_t *out);
} ways[WAYS] = {{"library", library}, {"C, -O2", loop_o2}, {"C, -O3", loop_o3}, {"copy", copy}};

static double took[WAYS][MORE_ROUNDS];

static void all_calls(int way, size_t count)
{
    size_t c;

    for (c = 0; c < CONFERENCES; c++)
        ways[way].run(legs[c], count, heard[c]);
}

/* Nanoseconds a call of one way. */
static double timed(int way, size_t count)
{
    double began = now();
    int pass;

    for (pass = 0; pass < PASSES; pass++)
        all_calls(way, count);
    return (now() - began) / (PASSES * CONFERENCES);
}

/* Random samples without so many of their 16 bits. */
static void make(int quieter)
{
    uint64_t seed = 1;
    size_t c, i;

    for (c = 0; c < CONFERENCES; c++)
        for (i = 0; i < LEGS * FRAME; i++) {
            seed = seed * 6364136223846793005u + 1442695040888963407u;
            legs[c][i] = (int16_t)((int32_t)(seed >> 48) - 32768);
            legs[c][i] = (int16_t)(legs[c][i] / (1 << quieter));
        }
}

/* Whether every way that mixes gives the same, before any is timed. How many samples of what is heard are at a limit is added up. */
static int alike(size_t count, size_t *limits)
{
    size_t size = FRAME * count * sizeof **heard, c, i;
    int way;

    for (way = 0; way < COPY; way++) {
        memset(heard, 1, sizeof heard);
        all_calls(way, count);
        if (way == LIBRARY)
            memcpy(due, heard, sizeof due);
        for (c = 0; c < CONFERENCES; c++)
            if (memcmp(heard[c], due[c], size) != 0) {
                printf("failed: %s gives something else for %zu legs\n", ways[way].name, count);
                return 0;
            }
    }
    for (c = 0; c < CONFERENCES; c++)
        for (i = 0; i < FRAME * count; i++)
            *limits += due[c][i] == 32767 || due[c][i] == -32768;
    return 1;
}

/* All rounds with so many legs, and their line of the table. A call has 10 ms of a conference. */
static void measure(size_t count, size_t limits, int rounds)
{
    double samples = (double)(FRAME * count), call;
    int r, way;

    for (way = 0; way < WAYS; way++)
        timed(way, count); /* not counted: caches */
    for (r = 0; r < rounds; r++)
        for (way = 0; way < WAYS; way++)
            took[(way + r) % WAYS][r] = timed((way + r) % WAYS, count);
    call = median(took[LIBRARY], rounds);
    printf("| %zu | %.0f %% |", count, 100.0 * (double)limits / (samples * CONFERENCES));
    for (way = 0; way < WAYS; way++)
        printf(" %.3f |", median(took[way], rounds) / samples);
    printf(" %.2f | %.2f | %.2f | %.2f | %.0f |\n", ratio(took[LIBRARY], took[LOOP_O2], rounds), ratio(took[LIBRARY], took[LOOP_O3], rounds), ratio(took[LIBRARY], took[COPY], rounds), 1e3 / call, 1e9 / call / 100);
}

static int table(const char *name, int quieter, int rounds)
{
    size_t count, limits;

    make(quieter);
    printf("\n%s, %d rounds: nanoseconds a sample of a leg, the library's in times of each, million calls a second, and how many times real time a conference goes on one core\n\n", name, rounds);
    printf("| legs | at a limit | library | C, -O2 | C, -O3 | copy | / C, -O2 | / C, -O3 | / copy | million calls | times real time |\n|---|---|---|---|---|---|---|---|---|---|---|\n");
    for (count = 1; count <= LEGS; count++) {
        limits = 0;
        if (!alike(count, &limits))
            return 0;
        measure(count, limits, rounds);
    }
    return 1;
}

int main(int argc, char **argv)
{
    int rounds = rounds_asked(argc, argv, ROUNDS);

    if (rounds == 0)
        return 2;
    return table("Quiet legs", 4, rounds) && table("Legs of full size", 0, rounds) ? 0 : 2;
}
