/* G.711 legs in C over the library: g711 a|mu read <leg >samples reads the bytes of a leg, A-law or mu-law, and prints `(pcm H)` for each 80 samples, and for those
 * that are left; g711 a|mu write <samples >leg turns these lines back into the leg. A line of another form, or with a sample that isn't a value of the law, ends it
 * with `(refused (code C) (line L))` on standard error and exit status 1; what stood before that line is written. Where something can't be read or written it
 * says why on standard error, with exit status 2. */
#include "common.h"
#include <holdamek.h>
#include <stdio.h>
#include <string.h>

/* Characters of `(pcm `, and of a sample. */
enum { HEAD = 5, DIGITS = 4 };

/* Prints the samples of a leg, and returns the exit status. */
static int read_leg(uint32_t law)
{
    uint8_t bytes[HOLDAMEK_FRAME_SAMPLES];
    int16_t samples[HOLDAMEK_FRAME_SAMPLES];
    size_t count;

    while ((count = fread(bytes, 1, sizeof bytes, stdin)) != 0) {
        uint32_t code = holdamek_g711_read(law, bytes, count, samples, count);

        if (code != HOLDAMEK_OK)
            return refused(code, 0); /* not reached: every byte is read */
        if (!print_samples(samples, count))
            return failed("standard output");
    }
    return ferror(stdin) ? failed("standard input") : 0;
}

/* Reads the samples of a line with its line feed, and returns their number; 0 for a line that isn't `(pcm H)` with 1 to 80 of them. */
static size_t parse(const char *line, int16_t samples[HOLDAMEK_FRAME_SAMPLES])
{
    size_t digits, i;
    unsigned word = 0;

    if (strncmp(line, "(pcm ", HEAD) != 0)
        return 0;
    digits = strspn(line + HEAD, "0123456789abcdef");
    if (digits % DIGITS != 0 || strcmp(line + HEAD + digits, ")\n") != 0)
        return 0;
    for (i = 0; i < digits; i++) {
        char c = line[HEAD + i];

        word = word << 4 | (unsigned)(c <= '9' ? c - '0' : c - 'a' + 10);
        samples[i / DIGITS] = (int16_t)(uint16_t)word;
    }
    return digits / DIGITS;
}

/* Writes the leg of these lines, and returns the exit status. */
static int write_leg(uint32_t law)
{
    uint8_t bytes[HOLDAMEK_FRAME_SAMPLES];
    int16_t samples[HOLDAMEK_FRAME_SAMPLES];
    char line[5 + 4 * HOLDAMEK_FRAME_SAMPLES + 2 + 1];
    uint32_t number;

    for (number = 1; fgets(line, sizeof line, stdin) != NULL; number++) {
        size_t count = parse(line, samples);
        uint32_t code = HOLDAMEK_LINE_FORM;

        if (count != 0)
            code = holdamek_g711_write(law, samples, count, bytes, count);
        if (code != HOLDAMEK_OK) {
            fprintf(stderr, "(refused (code %u) (line %u))\n", (unsigned)code, (unsigned)number);
            return 1;
        }
        if (fwrite(bytes, 1, count, stdout) != count)
            return failed("standard output");
    }
    return ferror(stdin) ? failed("standard input") : 0;
}

int main(int argc, char **argv)
{
    const char *law = argc == 3 ? argv[1] : "", *way = argc == 3 ? argv[2] : "";
    uint32_t number = strcmp(law, "a") == 0 ? HOLDAMEK_A_LAW : HOLDAMEK_MU_LAW;

    if ((strcmp(law, "a") != 0 && strcmp(law, "mu") != 0) || (strcmp(way, "read") != 0 && strcmp(way, "write") != 0)) {
        fprintf(stderr, "usage: %s a|mu read <leg, %s a|mu write <samples\n", argv[0], argv[0]);
        return 2;
    }
    return finished(strcmp(way, "read") == 0 ? read_leg(number) : write_leg(number));
}
