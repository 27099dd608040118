/* The decoding program in C over the library: decode TABLES <call >samples. It prints `(pcm H)` for each frame and then
 * `(total (frames N) (lost M))`, or `(refused (code C) (line L))` as its last form with exit status 1. Where the call can't be read or
 * the samples can't be written it says why on standard error, with exit status 2. */
#include "common.h"
#include <holdamek.h>
#include <stdio.h>
#include <string.h>

/* Reads a line with its line feed. Returns its length without it; -1 where no line is left; -2 for a line that is overlong or
 * unfinished, or has a NUL. */
static int read_line(char line[HOLDAMEK_LONGEST_LINE + 2])
{
    size_t length;

    if (fgets(line, HOLDAMEK_LONGEST_LINE + 2, stdin) == NULL)
        return -1;
    length = strlen(line);
    return length != 0 && line[length - 1] == '\n' ? (int)length - 1 : -2;
}

/* Decodes the call, and returns the exit status. */
static int decode(const int16_t *tables, int16_t *state)
{
    int16_t samples[HOLDAMEK_FRAME_SAMPLES], delays[HOLDAMEK_DELAYS];
    uint8_t payload[HOLDAMEK_PAYLOAD_BYTES];
    char line[HOLDAMEK_LONGEST_LINE + 2];
    uint32_t counts[HOLDAMEK_COUNTS] = {0}, rules[HOLDAMEK_RULES], kind = 0, code;
    int length;

    while ((length = read_line(line)) != -1) {
        if (length < 0)
            return refused(HOLDAMEK_LINE_FORM, counts[HOLDAMEK_COUNT_FRAMES] + 1);
        code = holdamek_line((const uint8_t *)line, (size_t)length, &kind, payload, sizeof payload);
        if (code == HOLDAMEK_OK)
            code = holdamek_frame(tables, HOLDAMEK_TABLE_WORDS, state, HOLDAMEK_STATE_WORDS, kind, payload, payload_length[kind],
                                  samples, HOLDAMEK_FRAME_SAMPLES, delays, rules);
        if (code == HOLDAMEK_OK)
            code = holdamek_count(kind, rules[0], rules[1], counts);
        if (code != HOLDAMEK_OK)
            return refused(code, counts[HOLDAMEK_COUNT_FRAMES] + 1);
        if (!print_samples(samples, HOLDAMEK_FRAME_SAMPLES))
            return failed("standard output");
    }
    if (ferror(stdin))
        return failed("standard input");
    if (printf("(total (frames %u) (lost %u))\n", (unsigned)counts[HOLDAMEK_COUNT_FRAMES], (unsigned)counts[HOLDAMEK_COUNT_LOST]) < 0)
        return failed("standard output");
    return 0;
}

int main(int argc, char **argv)
{
    if (argc != 2) {
        fprintf(stderr, "usage: %s TABLES <call\n", argv[0]);
        return 2;
    }
    return on_tables(argv[1], decode);
}
