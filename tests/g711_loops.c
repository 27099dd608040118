/* Plain C for G.711, to time the library beside: the table loop for reading, and for writing a table loop and the usual search for the segment. Neither writer refuses a
 * sample: one that is no value of the law becomes some byte. A file of its own, so that nothing is known here of where it is called. */
#include "g711_loops.h"

static void read_table(const int16_t *table, const uint8_t *bytes, int16_t *samples, size_t length)
{
    size_t i;

    for (i = 0; i < length; i++)
        samples[i] = table[bytes[i]];
}

static void write_table(const uint8_t *table, const int16_t *samples, uint8_t *bytes, size_t length)
{
    size_t i;

    for (i = 0; i < length; i++)
        bytes[i] = table[(uint16_t)samples[i]];
}

/* The ends of the segments: sizes of A-law without their three lowest bits, of mu-law without two and with 33 added. */
static const int a_ends[8] = {0x1f, 0x3f, 0x7f, 0xff, 0x1ff, 0x3ff, 0x7ff, 0xfff};
static const int mu_ends[8] = {0x3f, 0x7f, 0xff, 0x1ff, 0x3ff, 0x7ff, 0xfff, 0x1fff};

static int segment(int size, const int ends[8])
{
    int e;

    for (e = 0; e < 8; e++)
        if (size <= ends[e])
            return e;
    return 8;
}

static uint8_t a_byte(int sample)
{
    int mask = sample < 0 ? 0x55 : 0xd5, size = (sample < 0 ? -sample - 1 : sample) >> 3, e = segment(size, a_ends);

    return (uint8_t)(e == 8 ? 0x7f ^ mask : (e << 4 | (size >> (e < 2 ? 1 : e) & 15)) ^ mask);
}

static uint8_t mu_byte(int sample)
{
    int mask = sample < 0 ? 0x7f : 0xff, size = ((sample < 0 ? -sample : sample) >> 2) + 33, e = segment(size, mu_ends);

    return (uint8_t)(e == 8 ? 0x7f ^ mask : (e << 4 | (size >> (e + 1) & 15)) ^ mask);
}

static void search_a(const int16_t *samples, uint8_t *bytes, size_t length)
{
    size_t i;

    for (i = 0; i < length; i++)
        bytes[i] = a_byte(samples[i]);
}

static void search_mu(const int16_t *samples, uint8_t *bytes, size_t length)
{
    size_t i;

    for (i = 0; i < length; i++)
        bytes[i] = mu_byte(samples[i]);
}

const struct loops LOOPS = {read_table, write_table, search_a, search_mu};
