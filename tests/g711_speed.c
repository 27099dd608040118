/* Times the library's reading and writing of G.711 legs beside the plain loops of g711_loops.c: tests/g711_speed builds and runs it. Legs are random bytes, and for writing their samples, in calls of 80, of 8,000 and of
 * 1,000,000 samples. Every round times each way once, a different one first, in processor time on one core; medians and least times of all rounds, medians of the rounds' ratios, and ratios of the least times. */
#define _GNU_SOURCE
#include "g711_loops.h"
#include "timing.h"
#include <holdamek.h>

/* A round goes over MOST samples in calls of MOST, and PASSES times over SOME of them in shorter ones: these stay in the core's own cache, but are too many to be foreseen by the branch predictor. */
enum { SOME = 64000, PASSES = 5, MOST = 1000000, WAYS = 8, ROUNDS = 101 };

static uint8_t leg[MOST], written[MOST], due_bytes[MOST], byte_of[65536];
static int16_t samples[MOST], read_samples[MOST], value_of[256];
static uint32_t law;

static void library_read(size_t at, size_t n) { holdamek_g711_read(law, leg + at, n, read_samples + at, n); }
static void loop_read_o2(size_t at, size_t n) { loops_o2.read(value_of, leg + at, read_samples + at, n); }
static void loop_read_o3(size_t at, size_t n) { loops_o3.read(value_of, leg + at, read_samples + at, n); }
static void library_write(size_t at, size_t n) { holdamek_g711_write(law, samples + at, n, written + at, n); }
static void loop_write_o2(size_t at, size_t n) { loops_o2.write(byte_of, samples + at, written + at, n); }
static void loop_write_o3(size_t at, size_t n) { loops_o3.write(byte_of, samples + at, written + at, n); }

static void search_with(const struct loops *loops, size_t at, size_t n)
{
    (law == HOLDAMEK_A_LAW ? loops->search_a : loops->search_mu)(samples + at, written + at, n);
}

static void search_o2(size_t at, size_t n) { search_with(&loops_o2, at, n); }
static void search_o3(size_t at, size_t n) { search_with(&loops_o3, at, n); }

/* The table loop for reading is what all are measured by. */
enum { LIBRARY_READ, LOOP, LOOP_O3, LIBRARY_WRITE };
static const struct {
    const char *name;
    void (*run)(size_t at, size_t n);
} ways[WAYS] = {{"reading: library", library_read},
                {"reading: table loop, -O2", loop_read_o2},
                {"reading: table loop, -O3", loop_read_o3},
                {"writing: library", library_write},
                {"writing: table of 65,536, -O2", loop_write_o2},
                {"writing: table of 65,536, -O3", loop_write_o3},
                {"writing: segment search, -O2", search_o2},
                {"writing: segment search, -O3", search_o3}};

static double took[WAYS][MORE_ROUNDS];

/* Nanoseconds a sample of one way, in calls of so many samples. */
static double timed(int way, size_t call)
{
    size_t whole = call == MOST ? MOST : SOME, passes = call == MOST ? 1 : PASSES, pass, at;
    double began = now();

    for (pass = 0; pass < passes; pass++)
        for (at = 0; at < whole; at += call)
            ways[way].run(at, call);
    return (now() - began) / (double)(whole * passes);
}

static double least(int way, int rounds)
{
    return ranked(took[way], rounds, 0);
}

/* Random bytes and, by the library, their samples, the tables for the loops, and the bytes that the samples have to become. */
static int make(void)
{
    uint8_t every[256];
    uint64_t seed = law;
    size_t i;

    for (i = 0; i < 256; i++)
        every[i] = (uint8_t)i;
    if (holdamek_g711_read(law, every, 256, value_of, 256) != HOLDAMEK_OK)
        return 0;
    memset(byte_of, 0, sizeof byte_of);
    for (i = 0; i < 256; i++)
        byte_of[(uint16_t)value_of[i]] = (uint8_t)i; /* FF for mu-law 0, as the later of both */
    for (i = 0; i < MOST; i++) {
        seed = seed * 6364136223846793005u + 1442695040888963407u;
        leg[i] = (uint8_t)(seed >> 56);
        samples[i] = value_of[leg[i]];
        due_bytes[i] = byte_of[(uint16_t)samples[i]];
    }
    return 1;
}

/* Whether every way gives the same, before any is timed. */
static int alike(void)
{
    int way;

    for (way = 0; way < WAYS; way++) {
        memset(read_samples, 1, sizeof read_samples);
        memset(written, 1, sizeof written);
        ways[way].run(0, MOST);
        if (way < LIBRARY_WRITE ? memcmp(read_samples, samples, sizeof samples) != 0 : memcmp(written, due_bytes, sizeof written) != 0) {
            printf("failed: %s gives something else\n", ways[way].name);
            return 0;
        }
    }
    return 1;
}

/* All rounds in calls of so many samples; gives whether the bar is kept, by the least times, on which other work of the machine weighs least. */
static int measure(size_t call, int rounds)
{
    double loop;
    int r, way;

    for (way = 0; way < WAYS; way++)
        timed(way, call); /* not counted: caches */
    for (r = 0; r < rounds; r++)
        for (way = 0; way < WAYS; way++)
            took[(way + r) % WAYS][r] = timed((way + r) % WAYS, call);
    loop = least(LOOP, rounds) < least(LOOP_O3, rounds) ? least(LOOP, rounds) : least(LOOP_O3, rounds);
    printf("\n%s, %zu samples a call, %d rounds\n%-32s %8s %8s %10s %10s %12s\n", law == HOLDAMEK_A_LAW ? "A-law" : "mu-law", call, rounds, "nanoseconds a sample", "median",
           "least", "/ loop -O2", "/ loop -O3", "least / loop");
    for (way = 0; way < WAYS; way++)
        printf("%-32s %8.3f %8.3f %10.2f %10.2f %12.2f\n", ways[way].name, median(took[way], rounds), least(way, rounds), ratio(took[way], took[LOOP], rounds), ratio(took[way], took[LOOP_O3], rounds),
               least(way, rounds) / loop);
    return least(LIBRARY_READ, rounds) <= 1.1 * loop && least(LIBRARY_WRITE, rounds) <= 2 * loop;
}

int main(int argc, char **argv)
{
    static const size_t calls[] = {80, 8000, MOST};
    int rounds = rounds_asked(argc, argv, ROUNDS), kept = 1;
    size_t n;

    if (rounds == 0)
        return 2;
    for (law = HOLDAMEK_A_LAW; law <= HOLDAMEK_MU_LAW; law++) {
        if (!make() || !alike())
            return 2;
        for (n = 0; n < sizeof calls / sizeof *calls; n++)
            kept = measure(calls[n], rounds) && kept;
    }
    printf("\nthe bar (at most 1.1 times the loop's least time for reading, twice for writing): %s\n", kept ? "kept" : "not kept");
    return !kept;
}
