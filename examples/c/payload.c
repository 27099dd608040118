/* RTP payloads in C over the library: payload TABLES >frames. It takes five payloads apart, by RFC 3551: two voice frames, a voice frame and a SID frame, no frame, 15
 * bytes, which are refused, and a SID frame alone. It prints `(payload N (frames M))` for payload N, and then for each of its frames the line of a call and
 * `(pcm H)`; for one that is refused `(refused (code C) (payload N))`, and goes on with the next. Where the tables are refused it prints
 * `(refused (code C) (line 0))`, with exit status 1. Where standard output can't be written it says why on standard error, with exit status 2. */
#include "common.h"
#include <holdamek.h>
#include <stdio.h>

/* A payload as it comes off the wire, behind the header of its packet. */
struct payload {
    size_t length;
    uint8_t bytes[20];
};

static const struct payload payloads[] = {
    {20, {0x53, 0xc5, 0x19, 0xc3, 0xd1, 0x25, 0xce, 0xfc, 0xb0, 0x24, 0xd3, 0xac, 0xd9, 0x8e, 0x5c, 0x75, 0xef, 0x22, 0x83, 0xb2}},
    {12, {0xd3, 0x82, 0x59, 0x96, 0x2f, 0x8c, 0x0b, 0x7d, 0xc4, 0x5c, 0xf3, 0x03}},
    {0, {0}},
    {15, {0xd3, 0x70, 0x57, 0x62, 0x22, 0x69, 0x6c, 0xbe, 0x9a, 0xaf, 0x53, 0xe3, 0xd6, 0xdd, 0x53}},
    {2, {0xb9, 0xcf}}};

/* The line of a frame, and its samples. The frame is read where it lies in the payload. */
static uint32_t decode(const int16_t *tables, int16_t *state, const struct payload *payload, size_t index, uint8_t line[HOLDAMEK_LONGEST_LINE],
                       size_t *length, int16_t samples[HOLDAMEK_FRAME_SAMPLES])
{
    struct holdamek_frame_part part = holdamek_payload_frame(payload->bytes, payload->length, index);
    const uint8_t *bytes = payload->bytes + part.start;
    int16_t delays[HOLDAMEK_DELAYS];
    uint32_t rules[HOLDAMEK_RULES], code = part.code;

    if (code == HOLDAMEK_OK)
        code = holdamek_write_line(part.kind, bytes, part.length, line, HOLDAMEK_LONGEST_LINE, length);
    if (code == HOLDAMEK_OK)
        code = holdamek_frame(tables, HOLDAMEK_TABLE_WORDS, state, HOLDAMEK_STATE_WORDS, part.kind, bytes, part.length, samples,
                              HOLDAMEK_FRAME_SAMPLES, delays, rules);
    return code;
}

/* Says how many frames a payload has, or why it is refused. */
static int print_count(unsigned number, struct holdamek_frame_count count)
{
    if (count.code != HOLDAMEK_OK)
        return printf("(refused (code %u) (payload %u))\n", (unsigned)count.code, number) >= 0;
    return printf("(payload %u (frames %u))\n", number, (unsigned)count.frames) >= 0;
}

/* Takes the payloads apart, and returns the exit status. */
static int run(const int16_t *tables, int16_t *state)
{
    int16_t samples[HOLDAMEK_FRAME_SAMPLES];
    uint8_t line[HOLDAMEK_LONGEST_LINE];
    size_t length = 0, index;
    uint32_t n, code;

    for (n = 0; n < sizeof payloads / sizeof *payloads; n++) {
        struct holdamek_frame_count count = holdamek_payload_frames(payloads[n].bytes, payloads[n].length);

        if (!print_count(n + 1, count))
            return failed("standard output");
        /* A refused payload has a count of 0. */
        for (index = 0; index < count.frames; index++) {
            code = decode(tables, state, payloads + n, index, line, &length, samples);
            if (code != HOLDAMEK_OK)
                return refused(code, n + 1); /* not reached: no frame of a payload that was counted is refused */
            if (!print_frame(line, length, samples))
                return failed("standard output");
        }
    }
    return 0;
}

int main(int argc, char **argv)
{
    return on_argument(argc, argv, run);
}
