/* The trying of a playout depth in plain C, to time the library beside: once as the wording has it, a loop over the frames and in it one over the arrivals, and once linear: every kind is 3, then each arrival that is in time makes its frame's 0, then
 * the 3s are counted; and once more so, but written without a branch: each arrival's kind is masked, by all bits where the difference of the times is negative, else by none (gcc 12 leaves it so, clang 14 makes a branch of it again). All refuse what the
 * library does. A file of its own, compiled by -O2, so that nothing is known here of where they are called. */
#include "playout_loops.h"

enum { MOST = 4096, VOICE = 0, LOST = 3 };

static uint32_t refusal(uint32_t frames, const uint32_t *numbers, size_t numbers_length, size_t times_length, size_t kinds_length)
{
    size_t k;

    if (frames > MOST || numbers_length > MOST)
        return 20;
    for (k = 0; k < numbers_length; k++)
        if (numbers[k] >= frames)
            return 21;
    return times_length != numbers_length || kinds_length != frames ? 7 : 0;
}

/* When frame i plays. */
static uint64_t plays(uint32_t start, uint32_t depth, uint32_t i)
{
    return (uint64_t)start + depth + 10 * (uint64_t)i;
}

uint32_t DOUBLE(uint32_t frames, uint32_t start, uint32_t depth, const uint32_t *numbers, size_t numbers_length, const uint32_t *times, size_t times_length, uint32_t *kinds, size_t kinds_length, uint32_t *lost)
{
    uint32_t code = refusal(frames, numbers, numbers_length, times_length, kinds_length), count = 0, i;
    size_t k;

    if (code != 0)
        return code;
    for (i = 0; i < frames; i++) {
        for (k = 0; k < numbers_length; k++)
            if (numbers[k] == i && times[k] <= plays(start, depth, i))
                break;
        kinds[i] = k < numbers_length ? VOICE : LOST;
        count += kinds[i] == LOST;
    }
    *lost = count;
    return 0;
}

uint32_t LINEAR(uint32_t frames, uint32_t start, uint32_t depth, const uint32_t *numbers, size_t numbers_length, const uint32_t *times, size_t times_length, uint32_t *kinds, size_t kinds_length, uint32_t *lost)
{
    uint32_t code = refusal(frames, numbers, numbers_length, times_length, kinds_length), count = 0, i;
    size_t k;

    if (code != 0)
        return code;
    for (i = 0; i < frames; i++)
        kinds[i] = LOST;
    for (k = 0; k < numbers_length; k++)
        if (times[k] <= plays(start, depth, numbers[k]))
            kinds[numbers[k]] = VOICE;
    for (i = 0; i < frames; i++)
        count += kinds[i] == LOST;
    *lost = count;
    return 0;
}

uint32_t MASKED(uint32_t frames, uint32_t start, uint32_t depth, const uint32_t *numbers, size_t numbers_length, const uint32_t *times, size_t times_length, uint32_t *kinds, size_t kinds_length, uint32_t *lost)
{
    uint32_t code = refusal(frames, numbers, numbers_length, times_length, kinds_length), count = 0, i;
    size_t k;

    if (code != 0)
        return code;
    for (i = 0; i < frames; i++)
        kinds[i] = LOST;
    for (k = 0; k < numbers_length; k++)
        kinds[numbers[k]] &= 0 - (uint32_t)((plays(start, depth, numbers[k]) - times[k]) >> 63);
    for (i = 0; i < frames; i++)
        count += kinds[i] == LOST;
    *lost = count;
    return 0;
}
