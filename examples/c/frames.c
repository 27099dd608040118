/* A test bench's traffic in C over the library: frames TABLES >traffic. It makes voice frames from fields by name, a steady vowel whose delay
 * grows, with a parity fault, a lost frame and one without transmission among them. Each is written as a line of a call, and the line is read
 * back and decoded. It prints the line of each frame and behind it `(pcm H)`, or `(refused (code C) (line L))` as its last form with exit
 * status 1. Where standard output can't be written it says why on standard error, with exit status 2. */
#include "common.h"
#include <holdamek.h>
#include <stdio.h>
#include <string.h>

/* A frame of the traffic: its kind, and of a voice frame P1 and whether it has the P0 that fails parity. */
struct step {
    uint32_t kind;
    uint16_t p1;
    int fault;
};

/* A P1 of 3 T - 58, below 197, means a delay of T samples: 40, 42 and so on. */
static const struct step traffic[] = {
    {HOLDAMEK_VOICE, 62, 0},  {HOLDAMEK_VOICE, 68, 0},  {HOLDAMEK_VOICE, 74, 0},          {HOLDAMEK_VOICE, 80, 0},
    {HOLDAMEK_VOICE, 86, 1},  {HOLDAMEK_VOICE, 92, 0},  {HOLDAMEK_ERASED, 0, 0},          {HOLDAMEK_VOICE, 104, 0},
    {HOLDAMEK_VOICE, 110, 0}, {HOLDAMEK_VOICE, 116, 0}, {HOLDAMEK_NO_TRANSMISSION, 0, 0}, {HOLDAMEK_VOICE, 128, 0}};

/* The fields of the vowel. P0 is still to be supplied. */
static void vowel(uint16_t p1, uint16_t fields[HOLDAMEK_FIELDS])
{
    memset(fields, 0, HOLDAMEK_FIELDS * sizeof *fields);
    fields[HOLDAMEK_L1] = 4;
    fields[HOLDAMEK_L2] = 13;
    fields[HOLDAMEK_L3] = 4;
    fields[HOLDAMEK_P1] = p1;
    fields[HOLDAMEK_P2] = 17; /* the delay of the first subframe again */
    fields[HOLDAMEK_C1] = fields[HOLDAMEK_C2] = 5904;
    fields[HOLDAMEK_S1] = fields[HOLDAMEK_S2] = 13;
    fields[HOLDAMEK_GA1] = fields[HOLDAMEK_GA2] = 7;
    fields[HOLDAMEK_GB1] = fields[HOLDAMEK_GB2] = 10;
}

/* Writes the ten bytes of a voice frame, and none for another kind. A fault has the fields of a sound frame and the other P0. */
static uint32_t write_payload(const struct step *step, uint8_t bytes[HOLDAMEK_PAYLOAD_BYTES])
{
    uint16_t fields[HOLDAMEK_FIELDS];
    uint32_t code;

    if (step->kind != HOLDAMEK_VOICE)
        return HOLDAMEK_OK;
    vowel(step->p1, fields);
    /* P0 is left out. */
    memmove(fields + HOLDAMEK_P0, fields + HOLDAMEK_C1, (HOLDAMEK_FIELDS - HOLDAMEK_C1) * sizeof *fields);
    code = holdamek_write_fields_parity(fields, HOLDAMEK_FIELDS_WITHOUT_P0, bytes, HOLDAMEK_PAYLOAD_BYTES);
    if (code != HOLDAMEK_OK || !step->fault)
        return code;
    code = holdamek_fields(bytes, HOLDAMEK_PAYLOAD_BYTES, fields, HOLDAMEK_FIELDS);
    if (code != HOLDAMEK_OK)
        return code;
    fields[HOLDAMEK_P0] = fields[HOLDAMEK_P0] == 0;
    return holdamek_write_fields(fields, HOLDAMEK_FIELDS, bytes, HOLDAMEK_PAYLOAD_BYTES);
}

/* Makes, prints and decodes the traffic, and returns the exit status. */
static int run(const int16_t *tables, int16_t *state)
{
    int16_t samples[HOLDAMEK_FRAME_SAMPLES], delays[HOLDAMEK_DELAYS];
    uint8_t payload[HOLDAMEK_PAYLOAD_BYTES], line[HOLDAMEK_LONGEST_LINE], received[HOLDAMEK_PAYLOAD_BYTES];
    uint32_t n, kind = 0, rules[HOLDAMEK_RULES], code;
    size_t length = 0;

    for (n = 0; n < sizeof traffic / sizeof *traffic; n++) {
        const struct step *step = traffic + n;

        code = write_payload(step, payload);
        if (code == HOLDAMEK_OK)
            code = holdamek_write_line(step->kind, payload, payload_length[step->kind], line, sizeof line, &length);
        if (code == HOLDAMEK_OK)
            code = holdamek_line(line, length, &kind, received, sizeof received);
        if (code == HOLDAMEK_OK)
            code = holdamek_frame(tables, HOLDAMEK_TABLE_WORDS, state, HOLDAMEK_STATE_WORDS, kind, received, payload_length[kind], samples,
                                  HOLDAMEK_FRAME_SAMPLES, delays, rules);
        if (code != HOLDAMEK_OK)
            return refused(code, n + 1);
        if (!print_frame(line, length, samples))
            return failed("standard output");
    }
    return 0;
}

int main(int argc, char **argv)
{
    return on_argument(argc, argv, run);
}
