/* Threads that share one table block: eight of them, each with 16 KiB of stack, decode the same frames over and over, each with a state of its
 * own, and have to get what the main thread gets. Usage: threads TABLES. Exit status 0 if they do. */
#include <holdamek.h>
#include <pthread.h>
#include <stdio.h>
#include <string.h>

enum { THREADS = 8, FRAMES = 300, STACK = 16384 };

static int16_t tables[HOLDAMEK_TABLE_WORDS];
static int16_t due[FRAMES][HOLDAMEK_FRAME_SAMPLES];

/* The next frame's samples; payloads follow from the frame's number, and every seventh frame is lost. */
static uint32_t next(int16_t state[HOLDAMEK_STATE_WORDS], unsigned n, int16_t samples[HOLDAMEK_FRAME_SAMPLES])
{
    uint8_t payload[HOLDAMEK_PAYLOAD_BYTES];
    int16_t delays[HOLDAMEK_DELAYS];
    uint32_t rules[HOLDAMEK_RULES];
    unsigned i;

    for (i = 0; i < sizeof payload; i++)
        payload[i] = (uint8_t)((n * 7919 + i * 104729) >> 3);
    return n % 7 == 6 ? holdamek_frame(tables, HOLDAMEK_TABLE_WORDS, state, HOLDAMEK_STATE_WORDS, HOLDAMEK_ERASED, NULL, 0, samples,
                                       HOLDAMEK_FRAME_SAMPLES, delays, rules)
                      : holdamek_frame(tables, HOLDAMEK_TABLE_WORDS, state, HOLDAMEK_STATE_WORDS, HOLDAMEK_VOICE, payload,
                                       sizeof payload, samples, HOLDAMEK_FRAME_SAMPLES, delays, rules);
}

/* Gives NULL if all samples are those due. */
static void *work(void *unused)
{
    int16_t state[HOLDAMEK_STATE_WORDS], samples[HOLDAMEK_FRAME_SAMPLES];
    unsigned n, round;

    (void)unused;
    for (round = 0; round < 50; round++) {
        if (holdamek_fresh_state(tables, HOLDAMEK_TABLE_WORDS, state, HOLDAMEK_STATE_WORDS) != HOLDAMEK_OK)
            return tables;
        for (n = 0; n < FRAMES; n++)
            if (next(state, n, samples) != HOLDAMEK_OK || memcmp(samples, due[n], sizeof samples) != 0)
                return tables;
    }
    return NULL;
}

int main(int argc, char **argv)
{
    int16_t state[HOLDAMEK_STATE_WORDS];
    pthread_t threads[THREADS];
    pthread_attr_t attributes;
    FILE *file = argc == 2 ? fopen(argv[1], "rb") : NULL;
    unsigned n, failed = 0;
    void *result;

    /* the machine's words are low byte first, as the file's are */
    if (file == NULL || fread(tables, 2, HOLDAMEK_TABLE_WORDS, file) != HOLDAMEK_TABLE_WORDS)
        return 2;
    fclose(file);
    if (holdamek_fresh_state(tables, HOLDAMEK_TABLE_WORDS, state, HOLDAMEK_STATE_WORDS) != HOLDAMEK_OK)
        return 2;
    for (n = 0; n < FRAMES; n++)
        if (next(state, n, due[n]) != HOLDAMEK_OK)
            return 2;
    if (pthread_attr_init(&attributes) != 0 || pthread_attr_setstacksize(&attributes, STACK) != 0)
        return 2;
    for (n = 0; n < THREADS; n++)
        if (pthread_create(&threads[n], &attributes, work, NULL) != 0)
            return 2;
    for (n = 0; n < THREADS; n++)
        failed += pthread_join(threads[n], &result) != 0 || result != NULL;
    printf("threads: %d, %u failed\n", THREADS, failed);
    return failed != 0;
}
