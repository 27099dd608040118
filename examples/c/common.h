/* What the example programs in C share: tables from a file, printed forms and exit statuses. */
#ifndef COMMON_H
#define COMMON_H

#include <holdamek.h>
#include <stdio.h>
#include <string.h>

/* Bytes of a payload, by kind. */
static const size_t payload_length[] = {HOLDAMEK_PAYLOAD_BYTES, HOLDAMEK_SID_BYTES, 0, 0};

static int failed(const char *what)
{
    perror(what);
    return 2;
}

static inline int refused(uint32_t code, uint32_t line)
{
    int printed = printf("(refused (code %u) (line %u))\n", (unsigned)code, (unsigned)line);

    return printed < 0 ? failed("standard output") : 1;
}

/* The exit status. What is still in the buffer is written here: a full disk may show only now. */
static int finished(int status)
{
    if (fclose(stdout) != 0 && status != 2)
        return failed("standard output");
    return status;
}

/* Reads 1,880 words, low byte first; a file of another length is refused. */
static inline uint32_t read_tables(const char *path, int16_t tables[HOLDAMEK_TABLE_WORDS])
{
    uint8_t bytes[2 * HOLDAMEK_TABLE_WORDS + 1];
    FILE *file = fopen(path, "rb");
    size_t length = 0, i;

    if (file != NULL)
        length = fread(bytes, 1, sizeof bytes, file);
    if (file == NULL || ferror(file))
        perror(path);
    if (file != NULL)
        fclose(file);
    if (length != 2 * HOLDAMEK_TABLE_WORDS)
        return HOLDAMEK_TABLE_LENGTH;
    for (i = 0; i < HOLDAMEK_TABLE_WORDS; i++)
        tables[i] = (int16_t)(uint16_t)(bytes[2 * i] | bytes[2 * i + 1] << 8);
    return holdamek_table_check(tables, HOLDAMEK_TABLE_WORDS);
}

/* Runs a program on the tables of a file and a fresh state, and returns the exit status. */
static inline int on_tables(const char *path, int (*run)(const int16_t *tables, int16_t *state))
{
    int16_t tables[HOLDAMEK_TABLE_WORDS], state[HOLDAMEK_STATE_WORDS];
    uint32_t code = read_tables(path, tables);

    if (code == HOLDAMEK_OK)
        code = holdamek_fresh_state(tables, HOLDAMEK_TABLE_WORDS, state, HOLDAMEK_STATE_WORDS);
    return finished(code == HOLDAMEK_OK ? run(tables, state) : refused(code, 0));
}

/* Prints the form of the samples of a frame, or of fewer, by one fwrite; a printf for each sample would take longer than decoding it. */
static inline int print_samples(const int16_t *samples, size_t count)
{
    static const char digits[] = "0123456789abcdef";
    char form[5 + 4 * HOLDAMEK_FRAME_SAMPLES + 2] = "(pcm ";
    char *to = form + 5;
    size_t length = 5 + 4 * count + 2, i;

    for (i = 0; i < count; i++) {
        unsigned word = (uint16_t)samples[i];

        *to++ = digits[word >> 12];
        *to++ = digits[word >> 8 & 15];
        *to++ = digits[word >> 4 & 15];
        *to++ = digits[word & 15];
    }
    memcpy(to, ")\n", 2);
    return fwrite(form, 1, length, stdout) == length;
}

/* Prints the line of a frame and its samples. */
static inline int print_frame(const uint8_t *line, size_t length, const int16_t samples[HOLDAMEK_FRAME_SAMPLES])
{
    return fwrite(line, 1, length, stdout) == length && putchar('\n') != EOF && print_samples(samples, HOLDAMEK_FRAME_SAMPLES);
}

/* Runs a program whose one argument is the table file. */
static inline int on_argument(int argc, char **argv, int (*run)(const int16_t *tables, int16_t *state))
{
    if (argc != 2) {
        fprintf(stderr, "usage: %s TABLES\n", argv[0]);
        return 2;
    }
    return on_tables(argv[1], run);
}

#endif
