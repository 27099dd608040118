/* The mixing of legs in plain C, as include/holdamek.h says it for MISTAKE 0, and with one mistake for each other number: tests/mistakes shows that the stored list of replay_mix tells each from the right one. */
#include <stddef.h>
#include <stdint.h>

enum { FRAME = 80 };
enum { RIGHT, OWN_KEPT, ON_THE_WAY, SEVEN_FIRST, NINE_LEGS, WRAPPED, ROTATED, TOTAL_LIMITED, NO_LEG, ONE_ITSELF, WRITTEN_BESIDE, ABOVE_LEAST, LAST_LEFT };

static int32_t limited(int32_t sum)
{
    int32_t least = MISTAKE == ABOVE_LEAST ? -32767 : -32768;

    return sum > 32767 ? 32767 : sum < least ? least : sum;
}

/* The sum that the leg of a place hears of `count` legs. */
static int32_t sum_of(const int16_t *legs, size_t count, size_t place, size_t i)
{
    int32_t sum = 0;
    size_t k;

    for (k = 0; k < count; k++) {
        if (k != place || MISTAKE == OWN_KEPT || MISTAKE == TOTAL_LIMITED || (MISTAKE == ONE_ITSELF && count == 1))
            sum += legs[FRAME * k + i];
        if (MISTAKE == ON_THE_WAY)
            sum = limited(sum);
    }
    return MISTAKE == TOTAL_LIMITED ? limited(sum) - legs[FRAME * place + i] : sum;
}

static uint32_t refusal(size_t legs_length, size_t heard_length)
{
    size_t most = MISTAKE == NINE_LEGS ? 9 : 8;

    if (MISTAKE == SEVEN_FIRST && heard_length != legs_length)
        return 7;
    if (legs_length % FRAME != 0 || legs_length > most * FRAME || (legs_length == 0 && MISTAKE != NO_LEG))
        return 19;
    return heard_length != legs_length ? 7 : 0;
}

uint32_t holdamek_mix(const int16_t *legs, size_t legs_length, int16_t *heard, size_t heard_length)
{
    uint32_t code = refusal(legs_length, heard_length);
    size_t count = legs_length / FRAME, n;

    if (MISTAKE == WRITTEN_BESIDE && code != 0 && heard_length != 0)
        heard[0] = 0;
    for (n = 0; code == 0 && n < legs_length - (MISTAKE == LAST_LEFT); n++) {
        int32_t sum = sum_of(legs, count, (n / FRAME + (MISTAKE == ROTATED)) % count, n % FRAME);

        heard[n] = (int16_t)(MISTAKE == WRAPPED ? sum : limited(sum));
    }
    return code;
}
