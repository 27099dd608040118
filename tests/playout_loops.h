/* The loops of playout_loops.c by each of two compilers. */
#ifndef PLAYOUT_LOOPS_H
#define PLAYOUT_LOOPS_H

#include <stddef.h>
#include <stdint.h>

/* What holdamek_playout takes and gives. */
typedef uint32_t playout(uint32_t frames, uint32_t start, uint32_t depth, const uint32_t *numbers, size_t numbers_length, const uint32_t *times, size_t times_length, uint32_t *kinds, size_t kinds_length, uint32_t *lost);

playout double_cc, linear_cc, masked_cc, double_other, linear_other, masked_other;

#endif
