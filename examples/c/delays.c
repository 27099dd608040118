/* Delays with their rules in C over the library: delays TABLES >delays. It has ten frames as lines of a call, so that every rule is among them. For each it prints the
 * line and behind it `(delays (first T) (rule R) (second T) (rule R))`: the delay of each subframe in thirds of a sample, and how it was found, one of enum holdamek_rule. Last
 * it prints `(counts (frames N) (lost M) (thirds A) (whole B) (relative C) (bad-parity D) (concealed E))`, or `(refused (code C) (line L))` with exit status 1. Where
 * standard output can't be written it says why on standard error, with exit status 2. */
#include "common.h"
#include <holdamek.h>
#include <stdio.h>
#include <string.h>

/* The word of a state that has the delay that is carried into the next frame. */
enum { CARRIED = 61 };

/* P1 is 62, 196, 197, 86 with the P0 that fails parity, and 255; then no voice; then 3 with the P0 that fails parity, and 62. */
static const char *const call[] = {"(frame (voice 04690fb710df51b886fa))", "(frame (voice 0469311710df40b886fa))", "(frame (voice 0469315710df5fb886fa))",
                                   "(frame (voice 046915b710df49b886fa))", "(frame (voice 04693ff710df5fb886fa))", "(frame (sid f303))",
                                   "(frame (lost))",                       "(frame (quiet))",                      "(frame (voice 046900d710df50b886fa))",
                                   "(frame (voice 04690fb710df51b886fa))"};

/* What is kept from frame to frame: the state, the delay that is carried, and the counts. */
struct job {
    int16_t *state;
    int16_t carried;
    uint32_t counts[HOLDAMEK_COUNTS];
};

/* The delays of a frame and their rules. holdamek_delays tells the rules before the frame is decoded, so that a frame that isn't counted isn't decoded either; what
 * holdamek_frame then writes is the same. */
static uint32_t decode(const int16_t *tables, struct job *job, const char *line, int16_t delays[HOLDAMEK_DELAYS], uint32_t rules[HOLDAMEK_RULES])
{
    int16_t samples[HOLDAMEK_FRAME_SAMPLES];
    uint8_t payload[HOLDAMEK_PAYLOAD_BYTES];
    uint32_t kind = 0, code = holdamek_line((const uint8_t *)line, strlen(line), &kind, payload, sizeof payload);

    if (code == HOLDAMEK_OK)
        code = holdamek_delays(&job->carried, kind, payload, payload_length[kind], delays, rules);
    if (code == HOLDAMEK_OK)
        code = holdamek_count(kind, rules[0], rules[1], job->counts);
    if (code == HOLDAMEK_OK)
        code = holdamek_frame(tables, HOLDAMEK_TABLE_WORDS, job->state, HOLDAMEK_STATE_WORDS, kind, payload, payload_length[kind], samples, HOLDAMEK_FRAME_SAMPLES,
                              delays, rules);
    return code;
}

static int print_delays(const char *line, const int16_t delays[HOLDAMEK_DELAYS], const uint32_t rules[HOLDAMEK_RULES])
{
    int first = 3 * delays[0] + delays[1], second = 3 * delays[2] + delays[3];

    return printf("%s\n(delays (first %d) (rule %u) (second %d) (rule %u))\n", line, first, (unsigned)rules[0], second, (unsigned)rules[1]) >= 0;
}

static int print_counts(const uint32_t counts[HOLDAMEK_COUNTS])
{
    static const char *const names[HOLDAMEK_COUNTS] = {"frames", "lost", "thirds", "whole", "relative", "bad-parity", "concealed"};
    size_t i;

    for (i = 0; i < HOLDAMEK_COUNTS; i++)
        if (printf("%s (%s %u)", i == 0 ? "(counts" : "", names[i], (unsigned)counts[i]) < 0)
            return 0;
    return printf(")\n") >= 0;
}

/* Decodes the call, and returns the exit status. */
static int run(const int16_t *tables, int16_t *state)
{
    struct job job = {state, state[CARRIED], {0}};
    int16_t delays[HOLDAMEK_DELAYS];
    uint32_t rules[HOLDAMEK_RULES], n, code;

    for (n = 0; n < sizeof call / sizeof *call; n++) {
        code = decode(tables, &job, call[n], delays, rules);
        if (code != HOLDAMEK_OK)
            return refused(code, n + 1);
        if (!print_delays(call[n], delays, rules))
            return failed("standard output");
    }
    return print_counts(job.counts) ? 0 : failed("standard output");
}

int main(int argc, char **argv)
{
    return on_argument(argc, argv, run);
}
