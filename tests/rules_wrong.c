/* The delay with its rule and the counters in plain C, as include/holdamek.h says it for MISTAKE 0, and with one mistake for each other number: tests/rules and tests/mistakes show that the comparison with the Rust, or the stored list of replay_rules,
 * tells each from the right one. Of the frame call there is only what delays and rules need: no samples, and of the state the delay that it carries. */
#include <stddef.h>
#include <stdint.h>
#include <string.h>

enum { TABLE_WORDS = 1880, STATE_WORDS = 234, FRAME_SAMPLES = 80, INITIAL_DELAY = 1867, PREDICTOR = 40, DELAY = 61, MOST = 360000 };
enum { THIRDS = 1, WHOLE, RELATIVE, BAD_PARITY, CONCEALED };
enum {
    RIGHT, P1_BEFORE_PARITY, BAD_PARITY_TWICE, RELATIVE_TO_CARRIED, WHOLE_FROM_196, WHOLE_FROM_198, CONCEALED_AS_4, SECOND_CONCEALED_AS_3, SID_AS_VOICE_RULES, SECOND_AS_FIRST_RULE, RULES_FROM_0, CARRIED_HANDED_UP, SAME_TWICE, BOUND_144,
    USED_LIMITED, BAD_PARITY_ONE_MORE, FRACTION_KEPT, FIRST_CARRIED_ON, FIRST_COUNTED_ALONE, EQUAL_COUNTED_ONCE, LOST_KIND_3, LOST_BY_RULE, TESTED_360000, TESTED_720001, GROWING_TESTED, SUM_TESTED, TEN_BEFORE_5, ZERO_TAKEN,
    SIX_TAKEN, UNFIT_REFUSED, COUNTED_BESIDE, LAST_COUNTER_LEFT, FIVE_FIRST, CARRIED_145, CARRIED_19_REFUSED, RULES_BESIDE, PARITY_OF_8_BITS, PARITY_EVEN, TEN_BEFORE_24
};

/* ---- delays and rules */

struct delay {
    int16_t integer, fraction;
};

static struct delay of_thirds(int thirds)
{
    struct delay d;

    d.integer = (int16_t)((thirds + 1) / 3);
    d.fraction = (int16_t)(thirds - 3 * d.integer);
    return d;
}

static int bits(const uint8_t *bytes, int from, int count)
{
    int value = 0, i;

    for (i = from; i < from + count; i++)
        value = 2 * value + (bytes[i / 8] >> (7 - i % 8) & 1);
    return value;
}

static int parity_passes(int p1, int p0)
{
    int sum = MISTAKE == PARITY_EVEN ? p0 : p0 + 1, bit;

    for (bit = MISTAKE == PARITY_OF_8_BITS ? 0 : 2; bit < 8; bit++)
        sum += p1 >> bit & 1;
    return sum % 2 == 0;
}

/* The first delay of a voice frame, and its rule. */
static struct delay first(int carried, int p1, int passes, uint32_t *rule)
{
    struct delay d;
    int whole = p1 >= (MISTAKE == WHOLE_FROM_196 ? 196 : MISTAKE == WHOLE_FROM_198 ? 198 : 197);

    *rule = whole ? WHOLE : THIRDS;
    d = p1 < 197 ? of_thirds(58 + p1) : of_thirds(3 * (p1 - 112));
    if (!passes) {
        if (MISTAKE != P1_BEFORE_PARITY)
            *rule = BAD_PARITY;
        d.integer = (int16_t)(carried + (MISTAKE == BAD_PARITY_ONE_MORE));
        d.fraction = MISTAKE == FRACTION_KEPT ? d.fraction : 0;
    }
    return d;
}

static void voice(int16_t *carried, const uint8_t *payload, int16_t *delays, uint32_t *rules)
{
    int p1 = bits(payload, 18, 8), p2 = bits(payload, 51, 5), passes = parity_passes(p1, bits(payload, 26, 1)), least;
    struct delay one = first(*carried, p1, passes, rules), two;

    least = (MISTAKE == RELATIVE_TO_CARRIED ? *carried : one.integer) - 5;
    least = least < 20 ? 20 : least > 134 ? 134 : least;
    two = of_thirds(3 * least - 2 + p2);
    rules[1] = MISTAKE == SECOND_AS_FIRST_RULE ? rules[0] : MISTAKE == BAD_PARITY_TWICE && !passes ? BAD_PARITY : RELATIVE;
    delays[0] = one.integer;
    delays[1] = one.fraction;
    delays[2] = two.integer;
    delays[3] = two.fraction;
    *carried = MISTAKE == FIRST_CARRIED_ON ? one.integer : two.integer;
}

/* One more, up to the greatest delay. */
static int16_t more(int16_t carried)
{
    int most = MISTAKE == BOUND_144 ? 144 : 143;

    return (int16_t)(carried + 1 > most ? most : carried + 1);
}

static void concealed(uint32_t kind, int16_t *carried, int16_t *delays, uint32_t *rules)
{
    int16_t one = MISTAKE == USED_LIMITED && *carried > 143 ? 143 : *carried, two = MISTAKE == SAME_TWICE ? one : more(*carried), next = more(two);

    delays[0] = MISTAKE == CARRIED_HANDED_UP ? two : one;
    delays[2] = MISTAKE == CARRIED_HANDED_UP ? next : two;
    delays[1] = delays[3] = 0;
    rules[0] = MISTAKE == CONCEALED_AS_4 ? BAD_PARITY : CONCEALED;
    rules[1] = MISTAKE == SECOND_CONCEALED_AS_3 ? RELATIVE : rules[0];
    if (MISTAKE == SID_AS_VOICE_RULES && kind == 1) {
        rules[0] = THIRDS;
        rules[1] = RELATIVE;
    }
    *carried = next;
}

static void both(int16_t *carried, uint32_t kind, const uint8_t *payload, int16_t *delays, uint32_t *rules)
{
    if (kind == 0)
        voice(carried, payload, delays, rules);
    else
        concealed(kind, carried, delays, rules);
    if (MISTAKE == RULES_FROM_0) {
        rules[0]--;
        rules[1]--;
    }
}

static size_t length_of(uint32_t kind) { return kind == 0 ? 10 : kind == 1 ? 2 : 0; }

static int outside(int16_t delay)
{
    return delay < (MISTAKE == CARRIED_19_REFUSED ? 20 : 19) || delay > (MISTAKE == CARRIED_145 ? 145 : 144);
}

uint32_t holdamek_delays(int16_t *carried, uint32_t kind, const uint8_t *payload, size_t payload_length, int16_t delays[4], uint32_t rules[2])
{
    uint32_t code = outside(*carried) ? 4 : kind > 3 ? 5 : payload_length != length_of(kind) ? 6 : 0;

    if (MISTAKE == FIVE_FIRST && kind > 3)
        code = 5;
    if (MISTAKE == RULES_BESIDE && code != 0)
        rules[0] = CONCEALED;
    if (code == 0)
        both(carried, kind, payload, delays, rules);
    return code;
}

uint32_t holdamek_frame(const int16_t *tables, size_t tables_length, int16_t *state, size_t state_length, uint32_t kind, const uint8_t *payload, size_t payload_length, int16_t *samples, size_t samples_length, int16_t delays[4], uint32_t rules[2])
{
    (void)samples;
    if (tables_length != TABLE_WORDS)
        return 1;
    if (tables[INITIAL_DELAY] < 19 || tables[INITIAL_DELAY] > 144)
        return 2;
    if (state_length != STATE_WORDS)
        return 3;
    if (state[PREDICTOR] < 0 || state[PREDICTOR] > 1 || outside(state[DELAY]))
        return 4;
    if (kind > 3)
        return 5;
    if (payload_length != length_of(kind))
        return 6;
    if (samples_length != FRAME_SAMPLES)
        return 7;
    both(state + DELAY, kind, payload, delays, rules);
    return 0;
}

/* ---- counters */

static int known(uint32_t rule) { return (rule >= THIRDS && rule <= CONCEALED) || (MISTAKE == ZERO_TAKEN && rule == 0) || (MISTAKE == SIX_TAKEN && rule == 6); }

static int full(uint32_t one, uint32_t two, const uint32_t *counts)
{
    uint32_t most = MISTAKE == TESTED_360000 ? MOST : MISTAKE == TESTED_720001 ? 2 * MOST + 1 : 2 * MOST, rule;
    uint64_t sum = 0;
    int found = counts[0] >= MOST || counts[1] >= MOST;

    for (rule = THIRDS; rule <= CONCEALED; rule++) {
        sum += counts[1 + rule];
        if (MISTAKE == SUM_TESTED || (MISTAKE == GROWING_TESTED && rule != one && rule != two) || (MISTAKE == LAST_COUNTER_LEFT && rule == CONCEALED))
            continue;
        found |= counts[1 + rule] >= most;
    }
    return found || (MISTAKE == SUM_TESTED && sum >= 2 * MOST);
}

static uint32_t refusal(uint32_t kind, uint32_t one, uint32_t two, const uint32_t *counts)
{
    int ten = full(one, two, counts);

    if (MISTAKE == TEN_BEFORE_5 && ten)
        return 10;
    if (kind > 3)
        return 5;
    if (MISTAKE == TEN_BEFORE_24 && ten)
        return 10;
    if (!known(one) || !known(two))
        return 24;
    if (MISTAKE == UNFIT_REFUSED && (kind == 0) == (one == CONCEALED))
        return 24;
    return ten ? 10 : 0;
}

uint32_t holdamek_count(uint32_t kind, uint32_t one, uint32_t two, uint32_t counts[7])
{
    uint32_t code = refusal(kind, one, two, counts);

    if (MISTAKE == COUNTED_BESIDE && code != 0)
        counts[0]++;
    if (code != 0)
        return code;
    counts[0]++;
    counts[1] += MISTAKE == LOST_KIND_3 ? kind == 3 : MISTAKE == LOST_BY_RULE ? one == CONCEALED : kind != 0;
    if (one >= THIRDS && one <= CONCEALED)
        counts[1 + one]++;
    if (two >= THIRDS && two <= CONCEALED && MISTAKE != FIRST_COUNTED_ALONE && !(MISTAKE == EQUAL_COUNTED_ONCE && one == two))
        counts[1 + two]++;
    return 0;
}

/* ---- lines */

static int digit(uint8_t c) { return c >= '0' && c <= '9' ? c - '0' : c >= 'a' && c <= 'f' ? c - 'a' + 10 : -1; }

static int hexadecimal(const uint8_t *text, size_t count, uint8_t *bytes)
{
    size_t i;

    for (i = 0; i < count; i++) {
        int high = digit(text[2 * i]), low = digit(text[2 * i + 1]);

        if (high < 0 || low < 0)
            return 0;
        bytes[i] = (uint8_t)(16 * high + low);
    }
    return 1;
}

uint32_t holdamek_line(const uint8_t *text, size_t text_length, uint32_t *kind, uint8_t *payload, size_t payload_length)
{
    static const char *const opens[] = {"(frame (voice ", "(frame (sid ", "(frame (quiet", "(frame (lost"};
    uint8_t found[10];
    uint32_t k;

    if (payload_length != 10)
        return 11;
    for (k = 0; k < 4; k++) {
        size_t open = strlen(opens[k]), count = length_of(k);

        if (text_length == open + 2 * count + 2 && memcmp(text, opens[k], open) == 0 && memcmp(text + open + 2 * count, "))", 2) == 0 && hexadecimal(text + open, count, found)) {
            memcpy(payload, found, count);
            *kind = k;
            return 0;
        }
    }
    return 9;
}
