/* The plain loops of g711_loops.c, once by -O2 and once by -O3. */
#ifndef G711_LOOPS_H
#define G711_LOOPS_H

#include <stddef.h>
#include <stdint.h>

struct loops {
    void (*read)(const int16_t *table, const uint8_t *bytes, int16_t *samples, size_t length);   /* a table of 256 samples */
    void (*write)(const uint8_t *table, const int16_t *samples, uint8_t *bytes, size_t length);  /* a table of 65,536 bytes */
    void (*search_a)(const int16_t *samples, uint8_t *bytes, size_t length);                     /* A-law, by a search for the segment */
    void (*search_mu)(const int16_t *samples, uint8_t *bytes, size_t length);                    /* mu-law */
};

extern const struct loops loops_o2, loops_o3;

#endif
