/* The plain loop of mix_loop.c, once by -O2 and once by -O3. */
#ifndef MIX_LOOP_H
#define MIX_LOOP_H

#include <stddef.h>
#include <stdint.h>

void loop_o2(const int16_t *legs, size_t count, int16_t *heard);
void loop_o3(const int16_t *legs, size_t count, int16_t *heard);

#endif
