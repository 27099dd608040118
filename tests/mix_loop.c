/* The plain loop in C that mixes legs of 80 samples, to time the library beside: the total, then for each leg the total without its own sample, limited. It refuses nothing. A file of its own, compiled once by -O2 and once by -O3, so that
 * nothing is known here of where it is called. */
#include "mix_loop.h"

static int16_t limited(int32_t sum)
{
    return (int16_t)(sum > 32767 ? 32767 : sum < -32768 ? -32768 : sum);
}

void LOOP(const int16_t *legs, size_t count, int16_t *heard)
{
    int32_t total[80] = {0};
    size_t k, i;

    for (k = 0; k < count; k++)
        for (i = 0; i < 80; i++)
            total[i] += legs[80 * k + i];
    for (k = 0; k < count; k++)
        for (i = 0; i < 80; i++)
            heard[80 * k + i] = limited(total[i] - legs[80 * k + i]);
}
