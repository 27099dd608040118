/* Times the scan of delays with their rules, holdamek_delays, beside holdamek_frame, which hands up the same with the samples, and beside the plain C of rules_wrong.c: tests/delays_speed builds and runs it, in the folder that holds examples/. A call has
 * FRAMES frames: voice frames of the example call, or with random bits, some of them with bad parity, and lost ones. Every round times each way once, a different one first, in processor time on one core. Medians of all rounds, and medians of the
 * rounds' ratios. */
#define _GNU_SOURCE
#include "timing.h"
#include <holdamek.h>

enum { FRAMES = 4096, PASSES = 8, WAYS = 3, ROUNDS = 101, DELAY = 61 };

static int16_t tables[HOLDAMEK_TABLE_WORDS], fresh[HOLDAMEK_STATE_WORDS];
static uint32_t kinds[FRAMES];
static uint8_t payloads[FRAMES][HOLDAMEK_PAYLOAD_BYTES];
static size_t lengths[FRAMES];

/* What each way hands up, and the delay that is carried on behind each frame. */
struct found {
    int16_t delays[4], carried;
    uint32_t rules[2];
};
static struct found found[FRAMES], due[FRAMES];

uint32_t plain_delays(int16_t *carried, uint32_t kind, const uint8_t *payload, size_t payload_length, int16_t delays[4], uint32_t rules[2]);

/* All frames by one way; gives how many are refused. */
static uint32_t by_frame(void)
{
    int16_t state[HOLDAMEK_STATE_WORDS], samples[HOLDAMEK_FRAME_SAMPLES];
    uint32_t refused = 0;
    size_t n;

    memcpy(state, fresh, sizeof state);
    for (n = 0; n < FRAMES; n++) {
        refused += holdamek_frame(tables, HOLDAMEK_TABLE_WORDS, state, HOLDAMEK_STATE_WORDS, kinds[n], payloads[n], lengths[n], samples, HOLDAMEK_FRAME_SAMPLES, found[n].delays, found[n].rules) != 0;
        found[n].carried = state[DELAY];
    }
    return refused;
}

static uint32_t by_scan(void)
{
    int16_t carried = fresh[DELAY];
    uint32_t refused = 0;
    size_t n;

    for (n = 0; n < FRAMES; n++) {
        refused += holdamek_delays(&carried, kinds[n], payloads[n], lengths[n], found[n].delays, found[n].rules) != 0;
        found[n].carried = carried;
    }
    return refused;
}

static uint32_t by_plain(void)
{
    int16_t carried = fresh[DELAY];
    uint32_t refused = 0;
    size_t n;

    for (n = 0; n < FRAMES; n++) {
        refused += plain_delays(&carried, kinds[n], payloads[n], lengths[n], found[n].delays, found[n].rules) != 0;
        found[n].carried = carried;
    }
    return refused;
}

enum { FRAME, SCAN, PLAIN };
static const struct {
    const char *name;
    uint32_t (*run)(void);
    int passes;
} ways[WAYS] = {{"holdamek_frame", by_frame, 1}, {"holdamek_delays", by_scan, PASSES}, {"C, -O2", by_plain, PASSES}};

static double took[WAYS][MORE_ROUNDS];

/* Nanoseconds a frame of one way. */
static double timed(int way)
{
    double began = now();
    int pass;

    for (pass = 0; pass < ways[way].passes; pass++)
        ways[way].run();
    return (now() - began) / ((double)FRAMES * ways[way].passes);
}

static uint64_t seed = 1;

/* A number below n. */
static uint32_t below(uint32_t n)
{
    seed = seed * 6364136223846793005u + 1442695040888963407u;
    return (uint32_t)((seed >> 33) % n);
}

/* The voice frames of the example call. Gives how many. */
static uint32_t example(uint8_t (*to)[HOLDAMEK_PAYLOAD_BYTES], uint32_t most)
{
    char line[100];
    uint32_t count = 0, kind;
    FILE *file = fopen("examples/example.call", "r");

    while (file != NULL && count < most && fgets(line, sizeof line, file) != NULL)
        if (holdamek_line((const uint8_t *)line, strcspn(line, "\n"), &kind, to[count], HOLDAMEK_PAYLOAD_BYTES) == HOLDAMEK_OK && kind == HOLDAMEK_VOICE)
            count++;
    if (file != NULL)
        fclose(file);
    return count;
}

static int read_tables(void)
{
    FILE *file = fopen("examples/tables.g729", "rb");
    size_t n;
    uint8_t word[2];

    for (n = 0; file != NULL && n < HOLDAMEK_TABLE_WORDS && fread(word, 1, 2, file) == 2; n++)
        tables[n] = (int16_t)(uint16_t)(word[0] | word[1] << 8);
    if (file != NULL)
        fclose(file);
    return file != NULL && holdamek_fresh_state(tables, HOLDAMEK_TABLE_WORDS, fresh, HOLDAMEK_STATE_WORDS) == HOLDAMEK_OK;
}

/* A call: so many of a hundred frames are concealed, of kinds 1 to 3; the others are those of the example call in turn, or random bits, half of which have bad parity. Gives whether it could be made. */
static int make(uint32_t concealed, int bits)
{
    static uint8_t speech[FRAMES][HOLDAMEK_PAYLOAD_BYTES];
    uint32_t count = example(speech, FRAMES), n, i;

    for (n = 0; count > 0 && n < FRAMES; n++) {
        kinds[n] = below(100) < concealed ? 1 + below(3) : HOLDAMEK_VOICE;
        lengths[n] = kinds[n] == HOLDAMEK_VOICE ? HOLDAMEK_PAYLOAD_BYTES : kinds[n] == HOLDAMEK_SID ? HOLDAMEK_SID_BYTES : 0;
        memcpy(payloads[n], speech[n % count], HOLDAMEK_PAYLOAD_BYTES);
        for (i = 0; bits && i < HOLDAMEK_PAYLOAD_BYTES; i++)
            payloads[n][i] = (uint8_t)below(256);
    }
    return count > 0;
}

/* Whether every way gives the same, before any is timed. */
static int alike(void)
{
    int way;

    for (way = 0; way < WAYS; way++) {
        memset(found, 1, sizeof found);
        if (ways[way].run() != 0) {
            printf("failed: %s refuses frames\n", ways[way].name);
            return 0;
        }
        if (way == FRAME)
            memcpy(due, found, sizeof due);
        if (memcmp(found, due, sizeof due) != 0) {
            printf("failed: %s gives something else\n", ways[way].name);
            return 0;
        }
    }
    return 1;
}

/* How many of a hundred first delays have a rule. */
static double share(uint32_t rule)
{
    uint32_t n, count = 0;

    for (n = 0; n < FRAMES; n++)
        count += due[n].rules[0] == rule;
    return 100.0 * count / FRAMES;
}

/* All rounds of a call, and their line of the table. */
static int measure(const char *name, uint32_t concealed, int bits, int rounds)
{
    int r, way;

    if (!make(concealed, bits) || !alike())
        return 0;
    for (way = 0; way < WAYS; way++)
        timed(way); /* not counted: caches */
    for (r = 0; r < rounds; r++)
        for (way = 0; way < WAYS; way++)
            took[(way + r) % WAYS][r] = timed((way + r) % WAYS);
    printf("| %s | %.0f %% | %.0f %% | %.0f %% | %.0f %% |", name, share(1), share(2), share(4), share(5));
    for (way = 0; way < WAYS; way++)
        printf(" %.1f |", median(took[way], rounds));
    printf(" %.0f | %.2f |\n", ratio(took[FRAME], took[SCAN], rounds), ratio(took[SCAN], took[PLAIN], rounds));
    fflush(stdout);
    return 1;
}

int main(int argc, char **argv)
{
    int rounds = rounds_asked(argc, argv, ROUNDS), way;

    if (rounds == 0)
        return 2;
    if (!read_tables()) {
        fprintf(stderr, "delays_speed: examples/tables.g729 can't be used\n");
        return 2;
    }
    printf("%d rounds of %d frames: the share of each rule of first delays, nanoseconds a frame, and medians of the rounds' ratios\n\n| frames | 1 | 2 | 4 | 5 |", rounds, FRAMES);
    for (way = 0; way < WAYS; way++)
        printf(" %s |", ways[way].name);
    printf(" frame / delays | delays / C |\n|---|---|---|---|---|---|---|---|---|---|\n");
    return measure("example call", 0, 0, rounds) && measure("example call, 3 % concealed", 3, 0, rounds) && measure("example call, 20 % concealed", 20, 0, rounds) && measure("random bits", 0, 1, rounds)
                   && measure("random bits, 40 % concealed", 40, 1, rounds) && measure("all concealed", 100, 0, rounds)
               ? 0
               : 2;
}
