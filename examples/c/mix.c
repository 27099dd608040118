/* A conference in C over the library: mix TABLES >heard. It has three legs of four frames: a G.711 leg, mu-law, and two G.729 legs as lines of a call, each with a decoder
 * of its own. For each frame and each leg it prints `(heard (leg L) (frame F))` and behind it `(pcm H)`, what leg L heard in frame F: the sum of the two others, limited. Or
 * it prints `(refused (code C) (line L))` as its last form, with exit status 1. Where standard output can't be written it says why on standard error, with exit status 2. */
#include "common.h"
#include <holdamek.h>
#include <stdio.h>
#include <string.h>

enum { FRAMES = 4, CALLS = 2, LEGS = 1 + CALLS, SAMPLES = LEGS * HOLDAMEK_FRAME_SAMPLES };

/* A period of the G.711 leg: a square of 1 kHz, as loud as mu-law goes, so that sums with it meet the limit. */
static const uint8_t period[8] = {0x00, 0x00, 0x00, 0x00, 0x80, 0x80, 0x80, 0x80};

/* The frames of the two G.729 legs. */
static const char *const calls[FRAMES][CALLS] = {{"(frame (voice 84431a08a153cc2d7387))", "(frame (voice 845217f22f100d99679f))"},
                                                 {"(frame (voice 84f0190183e9cf496f85))", "(frame (quiet))"},
                                                 {"(frame (voice 842b98af961f1097f20b))", "(frame (voice 0409172a888431c0a6cc))"},
                                                 {"(frame (lost))", "(frame (voice 8469173dfd8132de0c15))"}};

/* The samples of a frame of the G.711 leg. */
static uint32_t read_tone(int16_t samples[HOLDAMEK_FRAME_SAMPLES])
{
    uint8_t bytes[HOLDAMEK_FRAME_SAMPLES];
    size_t i;

    for (i = 0; i < sizeof bytes; i++)
        bytes[i] = period[i % sizeof period];
    return holdamek_g711_read(HOLDAMEK_MU_LAW, bytes, sizeof bytes, samples, HOLDAMEK_FRAME_SAMPLES);
}

/* The samples of a line of a call. */
static uint32_t decode(const int16_t *tables, int16_t *state, const char *line, int16_t samples[HOLDAMEK_FRAME_SAMPLES])
{
    uint8_t payload[HOLDAMEK_PAYLOAD_BYTES];
    int16_t delays[HOLDAMEK_DELAYS];
    uint32_t rules[HOLDAMEK_RULES], kind = 0, code = holdamek_line((const uint8_t *)line, strlen(line), &kind, payload, sizeof payload);

    if (code != HOLDAMEK_OK)
        return code;
    return holdamek_frame(tables, HOLDAMEK_TABLE_WORDS, state, HOLDAMEK_STATE_WORDS, kind, payload, payload_length[kind], samples, HOLDAMEK_FRAME_SAMPLES, delays,
                          rules);
}

/* What each leg heard in a frame: the samples of all legs, one after another, are mixed. */
static uint32_t hear(const int16_t *tables, int16_t states[CALLS][HOLDAMEK_STATE_WORDS], size_t frame, int16_t heard[SAMPLES])
{
    int16_t legs[SAMPLES];
    uint32_t code = read_tone(legs);
    size_t n;

    for (n = 0; n < CALLS && code == HOLDAMEK_OK; n++)
        code = decode(tables, states[n], calls[frame][n], legs + (1 + n) * HOLDAMEK_FRAME_SAMPLES);
    return code == HOLDAMEK_OK ? holdamek_mix(legs, SAMPLES, heard, SAMPLES) : code;
}

static int print_heard(unsigned frame, const int16_t heard[SAMPLES])
{
    unsigned leg;

    for (leg = 1; leg <= LEGS; leg++) {
        if (printf("(heard (leg %u) (frame %u))\n", leg, frame) < 0)
            return 0;
        if (!print_samples(heard + (leg - 1) * HOLDAMEK_FRAME_SAMPLES, HOLDAMEK_FRAME_SAMPLES))
            return 0;
    }
    return 1;
}

/* Runs the conference, and returns the exit status. Both decoders begin in the fresh state. */
static int run(const int16_t *tables, int16_t *state)
{
    int16_t states[CALLS][HOLDAMEK_STATE_WORDS], heard[SAMPLES];
    uint32_t n, code;

    for (n = 0; n < CALLS; n++)
        memcpy(states[n], state, sizeof states[n]);
    for (n = 0; n < FRAMES; n++) {
        code = hear(tables, states, n, heard);
        if (code != HOLDAMEK_OK)
            return refused(code, n + 1);
        if (!print_heard(n + 1, heard))
            return failed("standard output");
    }
    return 0;
}

int main(int argc, char **argv)
{
    return on_argument(argc, argv, run);
}
