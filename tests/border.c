/* The border of the library, from C: every refusal of every function under its exact condition and in its order, nothing written by a
 * refusal and zeros beside it where a struct is returned, NULL with length 0, and the bytes beside the lent memory left alone. Exit status 0
 * if all checks hold. */
#include <holdamek.h>
#include <stdio.h>
#include <string.h>

static int checks, failed;

static void check(int holds, const char *what)
{
    checks++;
    if (!holds) {
        failed++;
        printf("failed: %s\n", what);
    }
}
#define CHECK(holds) check((holds) != 0, #holds)

enum { DELAY_OF_TABLES = 1867, PREDICTOR = 40, DELAY = 61, SEED = 62, PAST = 70, MARK = 0x5aa5 };

/* Lent memory with a mark behind it. */
static int16_t tables[HOLDAMEK_TABLE_WORDS + 1], state[HOLDAMEK_STATE_WORDS + 1], samples[HOLDAMEK_FRAME_SAMPLES + 1];
static int16_t state_before[HOLDAMEK_STATE_WORDS + 1], samples_before[HOLDAMEK_FRAME_SAMPLES + 1];
static const uint8_t voice[HOLDAMEK_PAYLOAD_BYTES + 1] = {0x3e, 0xa0, 0x1d, 0x77, 0x10, 0xdf, 0x31, 0x07, 0x79, 0x94, 0};

/* What a frame hands up, with a mark before each list and one behind. */
static struct report {
    int16_t delays[1 + HOLDAMEK_DELAYS + 1];
    uint32_t rules[1 + HOLDAMEK_RULES + 1];
} report, report_before;

/* Marks all of it. The mark is no delay, and no rule's number. */
static void mark_report(void)
{
    size_t n;

    for (n = 0; n < sizeof report.delays / sizeof *report.delays; n++)
        report.delays[n] = MARK;
    for (n = 0; n < sizeof report.rules / sizeof *report.rules; n++)
        report.rules[n] = MARK;
}

/* Whether the marks beside the lists are as they were. */
static int marked_report(void)
{
    return report.delays[0] == MARK && report.delays[1 + HOLDAMEK_DELAYS] == MARK && report.rules[0] == MARK && report.rules[1 + HOLDAMEK_RULES] == MARK;
}

static int same_report(void)
{
    return memcmp(report.delays, report_before.delays, sizeof report.delays) == 0 && memcmp(report.rules, report_before.rules, sizeof report.rules) == 0;
}

static uint32_t frame_of(size_t t, size_t s, uint32_t kind, const uint8_t *payload, size_t p, int16_t *out, size_t o)
{
    return holdamek_frame(tables, t, state, s, kind, payload, p, out, o, report.delays + 1, report.rules + 1);
}

static uint32_t frame(size_t t, size_t s, uint32_t kind, size_t p, size_t o)
{
    return frame_of(t, s, kind, voice, p, samples, o);
}

static void keep(void)
{
    memcpy(state_before, state, sizeof state);
    memcpy(samples_before, samples, sizeof samples);
    report_before = report;
}

static int kept(void)
{
    return memcmp(state_before, state, sizeof state) == 0 && memcmp(samples_before, samples, sizeof samples) == 0 && same_report();
}

static void of_tables(void)
{
    size_t n;
    int delay;

    tables[DELAY_OF_TABLES] = 60;
    for (n = 0; n < HOLDAMEK_TABLE_WORDS; n++)
        check(holdamek_table_check(tables, n) == HOLDAMEK_TABLE_LENGTH, "a shorter table block is refused");
    CHECK(holdamek_table_check(tables, HOLDAMEK_TABLE_WORDS) == HOLDAMEK_OK);
    CHECK(holdamek_table_check(tables, HOLDAMEK_TABLE_WORDS + 1) == HOLDAMEK_TABLE_LENGTH);
    CHECK(holdamek_table_check(tables, (size_t)-1) == HOLDAMEK_TABLE_LENGTH);
    CHECK(holdamek_table_check(NULL, 0) == HOLDAMEK_TABLE_LENGTH);
    for (delay = -32768; delay < 32768; delay++) {
        uint32_t due = delay < 19 || delay > 144 ? HOLDAMEK_TABLE_DELAY : HOLDAMEK_OK;
        tables[DELAY_OF_TABLES] = (int16_t)delay;
        check(holdamek_table_check(tables, HOLDAMEK_TABLE_WORDS) == due, "the initial delay is from 19 to 144");
    }
    tables[DELAY_OF_TABLES] = 60;
}

static void of_fresh_state(void)
{
    size_t n;

    keep();
    for (n = 0; n < HOLDAMEK_STATE_WORDS; n++)
        check(holdamek_fresh_state(tables, HOLDAMEK_TABLE_WORDS, state, n) == HOLDAMEK_STATE_LENGTH, "a shorter state is refused");
    CHECK(holdamek_fresh_state(tables, HOLDAMEK_TABLE_WORDS, state, HOLDAMEK_STATE_WORDS + 1) == HOLDAMEK_STATE_LENGTH);
    CHECK(holdamek_fresh_state(tables, HOLDAMEK_TABLE_WORDS, NULL, 0) == HOLDAMEK_STATE_LENGTH);
    CHECK(holdamek_fresh_state(NULL, 0, NULL, 0) == HOLDAMEK_TABLE_LENGTH);
    tables[DELAY_OF_TABLES] = 18;
    CHECK(holdamek_fresh_state(tables, HOLDAMEK_TABLE_WORDS, NULL, 0) == HOLDAMEK_TABLE_DELAY);
    tables[DELAY_OF_TABLES] = 60;
    CHECK(kept());
    CHECK(holdamek_fresh_state(tables, HOLDAMEK_TABLE_WORDS, state, HOLDAMEK_STATE_WORDS) == HOLDAMEK_OK);
    CHECK(state[0] == 2339 && state[9] == 23396 && state[PREDICTOR] == 0 && state[DELAY] == 60 && state[62] == 21845);
    CHECK(state[63] == -14336 && state[69] == 3277 && state[233] == 0 && state[HOLDAMEK_STATE_WORDS] == MARK);
}

static const size_t payload_length[] = {10, 2, 0, 0};

/* The order of the refusals, and every wrong length. */
static void of_frame_lengths(void)
{
    const size_t t = HOLDAMEK_TABLE_WORDS, s = HOLDAMEK_STATE_WORDS, o = HOLDAMEK_FRAME_SAMPLES;
    uint32_t kind;
    size_t n;

    keep();
    CHECK(frame(t - 1, s - 1, 4, 9, o - 1) == HOLDAMEK_TABLE_LENGTH);
    tables[DELAY_OF_TABLES] = 145;
    CHECK(frame(t, s - 1, 4, 9, o - 1) == HOLDAMEK_TABLE_DELAY);
    tables[DELAY_OF_TABLES] = 60;
    CHECK(frame(t, s - 1, 4, 9, o - 1) == HOLDAMEK_STATE_LENGTH);
    CHECK(frame(t, s + 1, 4, 9, o - 1) == HOLDAMEK_STATE_LENGTH);
    CHECK(frame(t, s, 4, 9, o - 1) == HOLDAMEK_KIND_ABOVE_3);
    CHECK(frame(t, s, 0xffffffffu, 10, o) == HOLDAMEK_KIND_ABOVE_3);
    for (kind = 0; kind < 4; kind++) {
        for (n = 0; n < 12; n++)
            if (n != payload_length[kind])
                check(frame(t, s, kind, n, o - 1) == HOLDAMEK_PAYLOAD_LENGTH, "another payload length is refused");
        for (n = 0; n < 300; n++)
            if (n != o)
                check(frame(t, s, kind, payload_length[kind], n) == HOLDAMEK_OUTPUT_LENGTH, "another output length is refused");
    }
    CHECK(frame_of(t, s, 0, NULL, 0, samples, o) == HOLDAMEK_PAYLOAD_LENGTH);
    CHECK(frame_of(t, s, 3, NULL, 0, NULL, 0) == HOLDAMEK_OUTPUT_LENGTH);
    CHECK(kept());
}

/* Words of the state that are out of range, each tested before the kind. */
static void of_frame_states(void)
{
    const size_t t = HOLDAMEK_TABLE_WORDS, s = HOLDAMEK_STATE_WORDS, o = HOLDAMEK_FRAME_SAMPLES;

    state[PREDICTOR] = 2;
    keep();
    CHECK(frame(t, s, 4, 9, o - 1) == HOLDAMEK_STATE_VALUES && kept());
    state[PREDICTOR] = -1;
    CHECK(frame(t, s, 0, 10, o) == HOLDAMEK_STATE_VALUES);
    state[PREDICTOR] = 1;
    state[DELAY] = 18;
    CHECK(frame(t, s, 0, 10, o) == HOLDAMEK_STATE_VALUES);
    state[DELAY] = 145;
    CHECK(frame(t, s, 0, 10, o) == HOLDAMEK_STATE_VALUES);
    CHECK(same_report());
}

/* What a frame hands up, and the delay that it carries on. */
struct found {
    int16_t delays[HOLDAMEK_DELAYS], carried;
    uint32_t rules[HOLDAMEK_RULES];
};

/* The delay that is carried behind a concealed subframe. */
static int16_t grown(int16_t delay)
{
    return (int16_t)(delay < 143 ? delay + 1 : 143);
}

/* Of a voice frame, from the bits of P1, P0 and P2 (G.729 clauses 3.7.2, 4.1.2 and 4.1.3). */
static struct found find_voice(int16_t carried, const uint8_t *payload)
{
    const int p1 = (payload[2] & 63) << 2 | payload[3] >> 6, p0 = payload[3] >> 5 & 1, p2 = payload[6] & 31;
    struct found f = {{0, 0, 0, 0}, 0, {HOLDAMEK_RULE_BAD_PARITY, HOLDAMEK_RULE_RELATIVE}};
    int bit, ones = 1, thirds = 3 * carried, least;

    for (bit = 2; bit < 8; bit++)
        ones += p1 >> bit & 1;
    if (ones % 2 == p0) {
        f.rules[0] = p1 < 197 ? HOLDAMEK_RULE_THIRDS : HOLDAMEK_RULE_WHOLE;
        thirds = p1 < 197 ? p1 + 58 : 3 * (p1 - 112);
    }
    f.delays[0] = (int16_t)((thirds + 1) / 3);
    f.delays[1] = (int16_t)(thirds - 3 * f.delays[0]);
    least = f.delays[0] - 5 < 20 ? 20 : f.delays[0] - 5 > 134 ? 134 : f.delays[0] - 5;
    thirds = 3 * least + p2 - 2;
    f.delays[2] = f.carried = (int16_t)((thirds + 1) / 3);
    f.delays[3] = (int16_t)(thirds - 3 * f.delays[2]);
    return f;
}

/* Of a frame of any kind; one that is concealed has the carried delay (clause 4.4.4). */
static struct found find(int16_t carried, uint32_t kind, const uint8_t *payload)
{
    struct found f = {{0, 0, 0, 0}, 0, {HOLDAMEK_RULE_CONCEALED, HOLDAMEK_RULE_CONCEALED}};

    if (kind == HOLDAMEK_VOICE)
        return find_voice(carried, payload);
    f.delays[0] = carried;
    f.delays[2] = grown(carried);
    f.carried = grown(f.delays[2]);
    return f;
}

/* Whether these are the delays and the rules that were written, and nothing beside them. */
static int handed_up(struct found f)
{
    return memcmp(report.delays + 1, f.delays, sizeof f.delays) == 0 && memcmp(report.rules + 1, f.rules, sizeof f.rules) == 0 && marked_report();
}

/* A frame of each kind writes its state, its samples, its delays and their rules, and nothing beside them. */
static void of_frame(void)
{
    const size_t t = HOLDAMEK_TABLE_WORDS, s = HOLDAMEK_STATE_WORDS, o = HOLDAMEK_FRAME_SAMPLES;
    uint32_t kind;

    for (kind = 0; kind < 4; kind++) {
        state[DELAY] = 144;
        mark_report();
        keep();
        CHECK(frame(t, s, kind, payload_length[kind], o) == HOLDAMEK_OK);
        CHECK(memcmp(state, state_before, sizeof state) != 0);
        CHECK(handed_up(find(144, kind, voice)) && state[DELAY] == find(144, kind, voice).carried);
    }
    CHECK(frame_of(t, s, 2, NULL, 0, samples, o) == HOLDAMEK_OK);
    CHECK(state[HOLDAMEK_STATE_WORDS] == MARK && samples[HOLDAMEK_FRAME_SAMPLES] == MARK);
}

static uint32_t delays_of(int16_t *carried, uint32_t kind, const uint8_t *payload, size_t p)
{
    return holdamek_delays(carried, kind, payload, p, report.delays + 1, report.rules + 1);
}

/* Every delay that can't be carried, before a wrong kind and a wrong payload; then these, in their order. Nothing is written. */
static void of_delays_refusals(void)
{
    int16_t carried[3] = {MARK, 0, MARK};
    uint32_t kind;
    size_t n;
    int delay;

    mark_report();
    keep();
    for (delay = -32768; delay < 32768; delay++) {
        uint32_t due = delay < 19 || delay > 144 ? HOLDAMEK_STATE_VALUES : HOLDAMEK_KIND_ABOVE_3;
        carried[1] = (int16_t)delay;
        check(delays_of(carried + 1, 4, NULL, 3) == due && delays_of(carried + 1, 0xffffffffu, NULL, (size_t)-1) == due && carried[1] == delay,
              "a carried delay outside 19 to 144 is refused, then the kind");
        if (due == HOLDAMEK_STATE_VALUES)
            check(delays_of(carried + 1, 0, voice, 10) == due && delays_of(carried + 1, 3, NULL, 0) == due && carried[1] == delay,
                  "a carried delay outside 19 to 144 is refused");
    }
    carried[1] = 60;
    for (kind = 0; kind < 4; kind++)
        for (n = 0; n < 300; n++)
            if (n != payload_length[kind])
                check(delays_of(carried + 1, kind, NULL, n) == HOLDAMEK_PAYLOAD_LENGTH, "delays of another payload length are refused unread");
    for (kind = 4; kind != 0; kind *= 2)
        check(delays_of(carried + 1, kind, voice, 10) == HOLDAMEK_KIND_ABOVE_3, "delays of another kind are refused");
    CHECK(delays_of(carried + 1, 0, voice, (size_t)-1) == HOLDAMEK_PAYLOAD_LENGTH && delays_of(carried + 1, 3, NULL, (size_t)-1) == HOLDAMEK_PAYLOAD_LENGTH);
    CHECK(kept() && carried[0] == MARK && carried[1] == 60 && carried[2] == MARK);
}

/* Whether a frame has the delays and rules of the reading above, and carries on what that tells. */
static int finds(int16_t carried, uint32_t kind, const uint8_t *payload)
{
    struct found f = find(carried, kind, payload);
    int16_t room[3] = {MARK, carried, MARK};

    mark_report();
    return delays_of(room + 1, kind, payload, payload_length[kind]) == HOLDAMEK_OK && handed_up(f) && room[0] == MARK && room[1] == f.carried && room[2] == MARK;
}

/* Every P1, P0 and P2, with all other bits 0 and 1; and every delay that can be carried, through a frame of each kind. */
static void of_delays(void)
{
    static const int16_t some[] = {19, 24, 25, 26, 60, 139, 140, 143, 144};
    uint8_t payload[HOLDAMEK_PAYLOAD_BYTES];
    uint32_t bits, kind;
    size_t n;
    int16_t delay;

    for (bits = 0; bits < 1u << 15; bits++)
        for (n = 0; n < sizeof some / sizeof *some; n++) {
            memset(payload, bits >> 14 == 0 ? 0 : 0xff, sizeof payload);
            payload[2] = (uint8_t)((payload[2] & 0xc0) | (bits >> 8 & 63));
            payload[3] = (uint8_t)((payload[3] & 0x1f) | (bits >> 6 & 3) << 6 | (bits >> 5 & 1) << 5);
            payload[6] = (uint8_t)((payload[6] & 0xe0) | (bits & 31));
            check(finds(some[n], HOLDAMEK_VOICE, payload), "delays and rules of every P1, P0 and P2");
        }
    for (delay = 19; delay <= 144; delay++)
        for (kind = 0; kind < 4; kind++)
            check(finds(delay, kind, voice), "delays and rules by every carried delay");
    CHECK(finds(60, HOLDAMEK_NO_TRANSMISSION, NULL) && finds(60, HOLDAMEK_ERASED, NULL));
}

/* Numbers that seem random, below a limit. */
static uint32_t below(uint32_t limit)
{
    static uint64_t seed = 1;

    seed = seed * 6364136223846793005u + 1;
    return (uint32_t)(seed >> 33) % limit;
}

/* Random frames: the delays without samples are those of the frame call, and the delay that is carried is the state's. */
static void of_delays_and_frames(void)
{
    uint8_t payload[HOLDAMEK_PAYLOAD_BYTES];
    int16_t carried;
    uint32_t turn, kind;
    size_t n;

    CHECK(holdamek_fresh_state(tables, HOLDAMEK_TABLE_WORDS, state, HOLDAMEK_STATE_WORDS) == HOLDAMEK_OK);
    carried = state[DELAY];
    CHECK(carried == tables[DELAY_OF_TABLES]);
    for (turn = 0; turn < 5000; turn++) {
        kind = below(7) < 4 ? 0 : below(4);
        for (n = 0; n < sizeof payload; n++)
            payload[n] = (uint8_t)below(256);
        mark_report();
        check(delays_of(&carried, kind, payload, payload_length[kind]) == HOLDAMEK_OK, "delays of random frames");
        report_before = report;
        mark_report();
        check(frame_of(HOLDAMEK_TABLE_WORDS, HOLDAMEK_STATE_WORDS, kind, payload, payload_length[kind], samples, HOLDAMEK_FRAME_SAMPLES) == HOLDAMEK_OK &&
                  same_report() && state[DELAY] == carried,
              "delays without samples are those of the frame call");
    }
    CHECK(state[HOLDAMEK_STATE_WORDS] == MARK && samples[HOLDAMEK_FRAME_SAMPLES] == MARK);
}

static void of_fields(void)
{
    static const uint16_t due[HOLDAMEK_FIELDS] = {0, 62, 20, 0, 117, 1, 5904, 13, 7, 9, 17, 239, 3, 1, 4};
    uint16_t fields[HOLDAMEK_FIELDS + 1], before[HOLDAMEK_FIELDS + 1];
    size_t n;

    memset(fields, 0x77, sizeof fields);
    memcpy(before, fields, sizeof fields);
    for (n = 0; n < 12; n++)
        if (n != 10)
            check(holdamek_fields(voice, n, fields, 14) == HOLDAMEK_PAYLOAD_LENGTH, "fields of another length are refused");
    for (n = 0; n < 17; n++)
        if (n != HOLDAMEK_FIELDS)
            check(holdamek_fields(voice, 10, fields, n) == HOLDAMEK_RECEIVER_LENGTH, "another receiver is refused");
    CHECK(holdamek_fields(NULL, 0, NULL, 0) == HOLDAMEK_PAYLOAD_LENGTH);
    CHECK(holdamek_fields(voice, 10, NULL, 0) == HOLDAMEK_RECEIVER_LENGTH);
    CHECK(memcmp(fields, before, sizeof fields) == 0);
    CHECK(holdamek_fields(voice, 10, fields, HOLDAMEK_FIELDS) == HOLDAMEK_OK);
    CHECK(memcmp(fields, due, sizeof due) == 0 && fields[HOLDAMEK_FIELDS] == 0x7777);
}

static uint32_t line(const char *text, uint32_t *kind, uint8_t *payload, size_t room)
{
    return holdamek_line((const uint8_t *)text, strlen(text), kind, payload, room);
}

static void of_line(void)
{
    static const char *const wrong[] = {
        "", " ", "(frame (lost)) ", " (frame (lost))", "(frame (lost)", "(frame  (lost))", "(frame (Lost))", "(frame (lost))\r",
        "(frame (voice 3ea01d7710df3107799))", "(frame (voice 3ea01d7710df310779940))", "(frame (voice 3EA01D7710DF31077994))",
        "(frame (voice 3ea01d7710df3107799g))", "(frame (sid c0a))", "(frame (sid c0aaa))", "(frame (sid c0 a))", "(frame (silent))"};
    uint32_t kind = 77;
    uint8_t p[HOLDAMEK_PAYLOAD_BYTES + 1], before[HOLDAMEK_PAYLOAD_BYTES + 1];
    size_t n;

    memset(p, 0xee, sizeof p);
    memcpy(before, p, sizeof p);
    for (n = 0; n < sizeof wrong / sizeof *wrong; n++)
        check(line(wrong[n], &kind, p, 10) == HOLDAMEK_LINE_FORM, "another form is refused");
    for (n = 0; n < 12; n++)
        if (n != 10)
            check(line("(frame (lost))", &kind, p, n) == HOLDAMEK_LINE_ROOM && line("", &kind, p, n) == HOLDAMEK_LINE_ROOM,
                  "room for other than ten bytes is refused");
    CHECK(holdamek_line(NULL, 0, &kind, p, 10) == HOLDAMEK_LINE_FORM);
    for (n = 37; n != 0; n *= 2)
        check(holdamek_line(p, n, &kind, p + 1, 10) == HOLDAMEK_LINE_FORM, "an overlong line is refused unread");
    CHECK(holdamek_line(p, (size_t)-1, &kind, p + 1, 10) == HOLDAMEK_LINE_FORM);
    CHECK(holdamek_line(NULL, 0, &kind, NULL, 0) == HOLDAMEK_LINE_ROOM);
    CHECK(kind == 77 && memcmp(p, before, sizeof p) == 0);
    CHECK(line("(frame (lost))", &kind, p, 10) == HOLDAMEK_OK && kind == HOLDAMEK_ERASED);
    CHECK(line("(frame (quiet))", &kind, p, 10) == HOLDAMEK_OK && kind == HOLDAMEK_NO_TRANSMISSION);
    CHECK(memcmp(p, before, sizeof p) == 0);
    CHECK(line("(frame (sid c0aa))", &kind, p, 10) == HOLDAMEK_OK && kind == HOLDAMEK_SID);
    CHECK(p[0] == 0xc0 && p[1] == 0xaa && memcmp(p + 2, before + 2, sizeof p - 2) == 0);
    CHECK(line("(frame (voice 3ea01d7710df31077994))", &kind, p, 10) == HOLDAMEK_OK && kind == HOLDAMEK_VOICE);
    CHECK(memcmp(p, voice, 10) == 0 && p[10] == 0xee);
}

static uint32_t write_line(uint32_t kind, size_t p, uint8_t *out, size_t room, size_t *length)
{
    return holdamek_write_line(kind, voice, p, out, room, length);
}

static void of_write_line(void)
{
    static const char *const due[] = {"(frame (voice 3ea01d7710df31077994))", "(frame (sid 3ea0))", "(frame (quiet))", "(frame (lost))"};
    uint8_t out[HOLDAMEK_LONGEST_LINE + 1], before[HOLDAMEK_LONGEST_LINE + 1], p[HOLDAMEK_PAYLOAD_BYTES];
    size_t n, length = 77;
    uint32_t kind, read;

    memset(out, 0xee, sizeof out);
    memcpy(before, out, sizeof out);
    CHECK(write_line(4, 9, out, 35, &length) == HOLDAMEK_KIND_ABOVE_3);
    CHECK(write_line(0xffffffffu, 10, out, HOLDAMEK_LONGEST_LINE, &length) == HOLDAMEK_KIND_ABOVE_3);
    for (kind = 0; kind < 4; kind++) {
        for (n = 0; n < 12; n++)
            if (n != payload_length[kind])
                check(write_line(kind, n, out, 35, &length) == HOLDAMEK_PAYLOAD_LENGTH, "a line of another payload length is refused");
        for (n = 0; n <= HOLDAMEK_LONGEST_LINE + 1; n++)
            if (n != HOLDAMEK_LONGEST_LINE)
                check(write_line(kind, payload_length[kind], out, n, &length) == HOLDAMEK_OUTPUT_LENGTH, "another room for a line is refused");
    }
    CHECK(holdamek_write_line(0, NULL, 0, out, HOLDAMEK_LONGEST_LINE, &length) == HOLDAMEK_PAYLOAD_LENGTH);
    CHECK(holdamek_write_line(3, NULL, 0, NULL, 0, &length) == HOLDAMEK_OUTPUT_LENGTH);
    CHECK(length == 77 && memcmp(out, before, sizeof out) == 0);
    for (kind = 0; kind < 4; kind++) {
        memcpy(out, before, sizeof out);
        CHECK(write_line(kind, payload_length[kind], out, HOLDAMEK_LONGEST_LINE, &length) == HOLDAMEK_OK);
        CHECK(length == strlen(due[kind]) && memcmp(out, due[kind], length) == 0);
        CHECK(memcmp(out + length, before + length, sizeof out - length) == 0);
        CHECK(holdamek_line(out, length, &read, p, sizeof p) == HOLDAMEK_OK && read == kind && memcmp(p, voice, payload_length[kind]) == 0);
    }
    CHECK(holdamek_write_line(2, NULL, 0, out, HOLDAMEK_LONGEST_LINE, &length) == HOLDAMEK_OK && length == 15);
}

/* The counts of a call, with a mark before them and one behind. */
static uint32_t counts_room[1 + HOLDAMEK_COUNTS + 1], counts_before[1 + HOLDAMEK_COUNTS + 1];
static uint32_t *const counts = counts_room + 1;

/* Each of the counts becomes this number and its place times some more; then all are kept. */
static void set_counts(uint32_t from, uint32_t more)
{
    uint32_t n;

    counts_room[0] = counts_room[1 + HOLDAMEK_COUNTS] = MARK;
    for (n = 0; n < HOLDAMEK_COUNTS; n++)
        counts[n] = from + n * more;
    memcpy(counts_before, counts_room, sizeof counts_room);
}

/* Whether a frame is counted: its kind and its rules tell what is added, and nothing beside the counts is written. */
static int adds_frame(uint32_t kind, uint32_t first, uint32_t second)
{
    memcpy(counts_before, counts_room, sizeof counts_room);
    counts_before[1 + HOLDAMEK_COUNT_FRAMES]++;
    counts_before[1 + HOLDAMEK_COUNT_LOST] += kind != HOLDAMEK_VOICE;
    counts_before[1 + 1 + first]++;
    counts_before[1 + 1 + second]++;
    return holdamek_count(kind, first, second, counts) == HOLDAMEK_OK && memcmp(counts_room, counts_before, sizeof counts_room) == 0;
}

/* Whether a frame is refused with this number, and the counts are as they were. */
static int leaves_counts(uint32_t kind, uint32_t first, uint32_t second, uint32_t due)
{
    memcpy(counts_before, counts_room, sizeof counts_room);
    return holdamek_count(kind, first, second, counts) == due && memcmp(counts_room, counts_before, sizeof counts_room) == 0;
}

/* Numbers that are no rule's, first or second or both, with counts that have room and with full ones: behind the kind, before the limit. */
static void of_count_numbers(void)
{
    static const uint32_t wrong[] = {0, 6, 7, 8, 10, 24, 255, 256, 257, 261, 65536, 65537, 65541, 0x7fffffffu, 0x80000000u, 0x80000001u, 0x80000005u, 0xffffffffu};
    uint32_t full, kind, right;
    size_t n, k;

    for (full = 0; full < 2; full++) {
        set_counts(full != 0 ? 720000 : 11, 3);
        for (n = 0; n < sizeof wrong / sizeof *wrong; n++) {
            for (right = 1; right <= 5; right++)
                for (kind = 0; kind < 4; kind++)
                    check(leaves_counts(kind, wrong[n], right, HOLDAMEK_NO_RULE) && leaves_counts(kind, right, wrong[n], HOLDAMEK_NO_RULE), "a number that is no rule's is refused");
            for (k = 0; k < sizeof wrong / sizeof *wrong; k++)
                check(leaves_counts(3, wrong[n], wrong[k], HOLDAMEK_NO_RULE) && leaves_counts(4, wrong[n], wrong[k], HOLDAMEK_KIND_ABOVE_3),
                      "two numbers that are no rule's are refused behind the kind");
        }
        for (kind = 4; kind != 0; kind *= 2)
            check(leaves_counts(kind, 1, 3, HOLDAMEK_KIND_ABOVE_3) && leaves_counts(kind, 0, 6, HOLDAMEK_KIND_ABOVE_3), "another kind is refused first");
        CHECK(leaves_counts(0xffffffffu, 5, 5, HOLDAMEK_KIND_ABOVE_3));
    }
}

/* Each count at its limit, at one less, and beyond, the others with room: every kind and every two rules. */
static void of_count_limits(void)
{
    static const uint32_t beyond[] = {0, 1, 1000, 360000, 0x7fffffffu, 0x80000000u};
    uint32_t kind, first, second, place;
    size_t n;

    for (kind = 0; kind < 4; kind++)
        for (first = 1; first <= 5; first++)
            for (second = 1; second <= 5; second++) {
                set_counts(1000, 100);
                check(adds_frame(kind, first, second), "a frame of any kind and rules is counted");
                for (place = 0; place < HOLDAMEK_COUNTS; place++) {
                    const uint32_t limit = place <= HOLDAMEK_COUNT_LOST ? HOLDAMEK_MOST_FRAMES : HOLDAMEK_MOST_RULE;

                    set_counts(1000, 100);
                    counts[place] = limit - 1;
                    check(adds_frame(kind, first, second), "a count one below its limit");
                    for (n = 0; n < sizeof beyond / sizeof *beyond; n++) {
                        set_counts(1000, 100);
                        counts[place] = limit + beyond[n];
                        check(leaves_counts(kind, first, second, HOLDAMEK_COUNT_LIMIT), "a count at its limit is refused, whichever would grow");
                    }
                    counts[place] = 0xffffffffu;
                    check(leaves_counts(kind, first, second, HOLDAMEK_COUNT_LIMIT), "the greatest count is refused");
                }
            }
}

/* The limits by their numbers. One rule twice goes from 719,999 to 720,001. */
static void of_count(void)
{
    uint32_t n, kind;

    of_count_numbers();
    of_count_limits();
    set_counts(0, 0);
    counts[0] = counts[1] = 359999;
    counts[6] = 719998;
    CHECK(adds_frame(3, 5, 5) && counts[0] == 360000 && counts[1] == 360000 && counts[6] == 720000);
    CHECK(leaves_counts(0, 1, 3, HOLDAMEK_COUNT_LIMIT) && leaves_counts(4, 1, 3, HOLDAMEK_KIND_ABOVE_3) && leaves_counts(0, 0, 3, HOLDAMEK_NO_RULE));
    counts[0] = counts[1] = 0;
    CHECK(leaves_counts(0, 1, 3, HOLDAMEK_COUNT_LIMIT));
    counts[6] = 719999;
    CHECK(adds_frame(3, 5, 5) && counts[6] == 720001 && counts[0] == 1 && leaves_counts(3, 5, 5, HOLDAMEK_COUNT_LIMIT));
    set_counts(0, 0);
    for (n = 0; n < HOLDAMEK_MOST_FRAMES; n++) {
        kind = below(4);
        check(adds_frame(kind, 1 + below(5), 1 + below(5)), "an hour of frames is counted");
    }
    CHECK(counts[0] == 360000 && counts[2] + counts[3] + counts[4] + counts[5] + counts[6] == 720000);
    CHECK(leaves_counts(0, 1, 3, HOLDAMEK_COUNT_LIMIT));
}

static int16_t other[HOLDAMEK_STATE_WORDS + 1];

static uint32_t agree(size_t a, size_t b, uint32_t *agreement)
{
    return holdamek_agree(state, a, other, b, agreement);
}

/* Every wrong length of either block, also where the other's words are out of range; then these. */
static void of_agree_refusals(void)
{
    static const int16_t wrong[][2] = {{PREDICTOR, 2}, {PREDICTOR, -1}, {DELAY, 18}, {DELAY, 145}};
    const size_t s = HOLDAMEK_STATE_WORDS;
    uint32_t agreement = 77;
    size_t n;

    CHECK(holdamek_fresh_state(tables, HOLDAMEK_TABLE_WORDS, state, s) == HOLDAMEK_OK);
    memcpy(other, state, sizeof other);
    keep();
    for (n = 0; n < sizeof wrong / sizeof *wrong; n++) {
        size_t length;
        other[wrong[n][0]] = wrong[n][1];
        for (length = 0; length <= s + 1; length++)
            if (length != s)
                check(agree(length, s, &agreement) == HOLDAMEK_STATE_LENGTH && agree(s, length, &agreement) == HOLDAMEK_STATE_LENGTH &&
                          agree(length, length, &agreement) == HOLDAMEK_STATE_LENGTH,
                      "another length of either block is refused");
        CHECK(agree(s, (size_t)-1, &agreement) == HOLDAMEK_STATE_LENGTH);
        CHECK(holdamek_agree(NULL, 0, other, s, &agreement) == HOLDAMEK_STATE_LENGTH);
        CHECK(holdamek_agree(other, s, NULL, 0, &agreement) == HOLDAMEK_STATE_LENGTH);
        CHECK(agree(s, s, &agreement) == HOLDAMEK_STATE_VALUES);
        CHECK(holdamek_agree(other, s, state, s, &agreement) == HOLDAMEK_STATE_VALUES);
        CHECK(holdamek_agree(other, s, other, s, &agreement) == HOLDAMEK_STATE_VALUES);
        CHECK(other[wrong[n][0]] == wrong[n][1]);
        memcpy(other, state, sizeof other);
    }
    CHECK(holdamek_agree(NULL, 0, NULL, 0, &agreement) == HOLDAMEK_STATE_LENGTH);
    CHECK(agreement == 77 && kept());
}

/* Each word that differs alone, and each bit of the seed. */
static void of_agree(void)
{
    const size_t s = HOLDAMEK_STATE_WORDS;
    uint32_t agreement = 77, back = 77;
    unsigned bit;
    size_t n;

    CHECK(agree(s, s, &agreement) == HOLDAMEK_OK && agreement == HOLDAMEK_AGREE_SAMPLES);
    CHECK(holdamek_agree(state, s, state, s, &back) == HOLDAMEK_OK && back == HOLDAMEK_AGREE_SAMPLES);
    for (n = 0; n < s; n++) {
        uint32_t due = n == SEED ? HOLDAMEK_AGREE_PARAMETERS : n < PAST ? HOLDAMEK_AGREE_NOTHING : HOLDAMEK_AGREE_PULSES;
        other[n] = (int16_t)(state[n] ^ 1);
        check(agree(s, s, &agreement) == HOLDAMEK_OK && agreement == due, "a word that differs");
        check(holdamek_agree(other, s, state, s, &back) == HOLDAMEK_OK && back == due, "a word that differs, the other way round");
        other[n] = state[n];
    }
    for (bit = 0; bit < 16; bit++) {
        other[SEED] = (int16_t)(state[SEED] ^ (int16_t)(1u << bit));
        CHECK(agree(s, s, &agreement) == HOLDAMEK_OK && agreement == (bit < 13 ? HOLDAMEK_AGREE_PARAMETERS : HOLDAMEK_AGREE_SAMPLES));
    }
    CHECK(kept() && other[HOLDAMEK_STATE_WORDS] == MARK);
}

static int16_t memory[HOLDAMEK_COMPARE_WORDS + 1], memory_before[HOLDAMEK_COMPARE_WORDS + 1], far[HOLDAMEK_FRAME_SAMPLES + 1];
static uint32_t what = 77, number = 78;
static int32_t rest = 79;

static uint32_t compare(size_t m, uint32_t kind, size_t payload, size_t y, size_t out)
{
    return holdamek_compare(tables, HOLDAMEK_TABLE_WORDS, memory, m, kind, voice, payload, far, y, samples, out, &what, &number, &rest);
}

/* Every refusal in its order, with nothing written; then each number of samples and words but the right one. */
static void of_compare_refusals(void)
{
    static const int16_t wrong[][2] = {{PREDICTOR, 2}, {PREDICTOR, -1}, {DELAY, 18}, {DELAY, 145}};
    const size_t m = HOLDAMEK_COMPARE_WORDS, f = HOLDAMEK_FRAME_SAMPLES;
    size_t n;

    CHECK(holdamek_begin_compare(tables, 7, memory, 8) == HOLDAMEK_TABLE_LENGTH);
    for (n = 0; n < m + 2; n++)
        if (n != m)
            check(holdamek_begin_compare(tables, HOLDAMEK_TABLE_WORDS, memory, n) == HOLDAMEK_STATE_LENGTH, "another memory is refused");
    CHECK(holdamek_begin_compare(tables, HOLDAMEK_TABLE_WORDS, memory, m) == HOLDAMEK_OK && memory[m] == MARK);
    keep();
    for (n = 0; n < sizeof wrong / sizeof *wrong; n++) {
        int16_t was = memory[wrong[n][0]];
        memory[wrong[n][0]] = wrong[n][1];
        memcpy(memory_before, memory, sizeof memory);
        CHECK(compare(m, 4, 1, 2, 3) == HOLDAMEK_STATE_VALUES && compare(m - 1, 4, 1, 2, 3) == HOLDAMEK_STATE_LENGTH);
        CHECK(memcmp(memory, memory_before, sizeof memory) == 0);
        memory[wrong[n][0]] = was;
    }
    memcpy(memory_before, memory, sizeof memory);
    CHECK(holdamek_compare(tables, 3, memory, 4, 5, voice, 6, far, 7, samples, 8, &what, &number, &rest) == HOLDAMEK_TABLE_LENGTH);
    CHECK(compare(m, 4, 1, 2, 3) == HOLDAMEK_KIND_ABOVE_3 && compare(m, 0, 9, 2, 3) == HOLDAMEK_PAYLOAD_LENGTH);
    for (n = 0; n < f + 2; n++)
        if (n != f)
            check(compare(m, 0, 10, n, f) == HOLDAMEK_OUTPUT_LENGTH && compare(m, 0, 10, f, n) == HOLDAMEK_OUTPUT_LENGTH, "another number of samples is refused");
    CHECK(memcmp(memory, memory_before, sizeof memory) == 0 && kept() && what == 77 && number == 78 && rest == 79);
}

/* A voice frame again and again, with tables whose filters are in bound: what a decoder from another past makes of it is known from the eighth on, a sample changed by 3 is found, and
 * the next frame is known again. Then a loss, and with full-scale samples no frame that tells anything. */
static void of_compare(void)
{
    static const int16_t scalars[4] = {20861, 40, 25681, 321}; /* from frequencies to LSP; their limits and least distance */
    static const uint32_t due[13] = {0, 1, 1, 1, 1, 1, 1, 1, 3, 3, 4, 3, 3};
    const size_t m = HOLDAMEK_COMPARE_WORDS, f = HOLDAMEK_FRAME_SAMPLES, s = HOLDAMEK_STATE_WORDS;
    uint32_t n;

    memset(tables, 0, sizeof tables - sizeof *tables);
    for (n = 0; n < 1280; n++)
        tables[n] = (int16_t)(2339 * (n % 10 + 1)); /* line spectral frequencies at even distances, so that the filter is flat */
    for (n = 1680; n < 1700; n++)
        tables[n] = 32767;
    memcpy(tables + 1876, scalars, sizeof scalars);
    tables[DELAY_OF_TABLES] = 60;
    CHECK(holdamek_begin_compare(tables, HOLDAMEK_TABLE_WORDS, memory, m) == HOLDAMEK_OK);
    CHECK(holdamek_fresh_state(tables, HOLDAMEK_TABLE_WORDS, state, s) == HOLDAMEK_OK);
    for (n = PAST; n < s; n++)
        state[n] = (int16_t)(300 - n);
    for (n = 1; n <= 12; n++) {
        CHECK(frame_of(HOLDAMEK_TABLE_WORDS, s, 0, voice, 10, far, f) == HOLDAMEK_OK);
        if (n == 10)
            far[33] = (int16_t)(far[33] + 3);
        CHECK(compare(m, 0, 10, f, f) == HOLDAMEK_OK && what == due[n]);
        CHECK(what == HOLDAMEK_SETTLING ? number == n && rest == 0 : n == 10 ? number == 33 && rest == 3 : number == 0 && rest == 0);
        CHECK(n < 8 || (memcmp(samples, far, f * sizeof *far) == 0) == (n != 10));
    }
    CHECK(compare(m, 3, 0, f, f) == HOLDAMEK_OK && what == HOLDAMEK_CONCEALED && number == 0 && rest == 0);
    far[5] = 32767;
    for (n = 1; n <= 9; n++)
        CHECK(compare(m, 0, 10, f, f) == HOLDAMEK_OK && what == (n < 6 ? HOLDAMEK_SETTLING : HOLDAMEK_NOT_CLEAN) && number == n);
    CHECK(memory[m] == MARK && samples[f] == MARK);
}

/* The greatest number of each field (G.729 Table 8), in the order of their bits. */
static const uint16_t most[HOLDAMEK_FIELDS] = {1, 127, 31, 31, 255, 1, 8191, 15, 7, 15, 31, 8191, 15, 7, 15};

enum { MORE_FIELDS = 20, MORE_BYTES = 12, MARK_BYTE = 0xee };

/* Fields to be written, and the bytes that they are written to, with a mark before them: more of both than a frame has. */
static uint16_t fields[MORE_FIELDS];
static uint8_t room[1 + MORE_BYTES];
static uint8_t *const bytes = room + 1;

/* Whether the bytes beside the ten are as they were. */
static int marked(void)
{
    return room[0] == MARK_BYTE && bytes[10] == MARK_BYTE && bytes[11] == MARK_BYTE;
}

typedef uint32_t writer(const uint16_t *fields, size_t fields_length, uint8_t *bytes, size_t bytes_length);

/* Whether the writer refuses these lengths with this number, and leaves all bytes and the fields as they were. */
static int refuses(writer *write, size_t f, size_t b, uint32_t due)
{
    uint16_t fields_before[MORE_FIELDS];
    uint8_t room_before[sizeof room];

    memset(room, MARK_BYTE, sizeof room);
    memcpy(room_before, room, sizeof room);
    memcpy(fields_before, fields, sizeof fields);
    return write(fields, f, bytes, b) == due && memcmp(room, room_before, sizeof room) == 0 && memcmp(fields, fields_before, sizeof fields) == 0;
}

/* Every wrong length, with fields that are all too wide: their number comes first, then the bytes, then the widths. */
static void of_writing_lengths(writer *write, size_t count)
{
    size_t n, b;

    memset(fields, 0xff, sizeof fields);
    for (n = 0; n <= MORE_FIELDS; n++)
        for (b = 0; b <= MORE_BYTES; b++)
            check(refuses(write, n, b, n != count ? HOLDAMEK_RECEIVER_LENGTH : b != 10 ? HOLDAMEK_PAYLOAD_LENGTH : HOLDAMEK_FIELD_WIDTH),
                  "lengths are refused before widths, that of the fields first");
    CHECK(refuses(write, (size_t)-1, 10, HOLDAMEK_RECEIVER_LENGTH));
    CHECK(refuses(write, count, (size_t)-1, HOLDAMEK_PAYLOAD_LENGTH));
    CHECK(write(NULL, 0, NULL, 0) == HOLDAMEK_RECEIVER_LENGTH);
    CHECK(write(NULL, 0, bytes, 10) == HOLDAMEK_RECEIVER_LENGTH);
    CHECK(write(fields, count, NULL, 0) == HOLDAMEK_PAYLOAD_LENGTH);
    /* What has a wrong length isn't touched. */
    CHECK(write(NULL, count - 1, bytes, 10) == HOLDAMEK_RECEIVER_LENGTH && write(NULL, count + 1, NULL, 10) == HOLDAMEK_RECEIVER_LENGTH);
    CHECK(write(NULL, count, NULL, 9) == HOLDAMEK_PAYLOAD_LENGTH && write(NULL, count, NULL, 11) == HOLDAMEK_PAYLOAD_LENGTH);
    memset(fields, 0, sizeof fields);
    CHECK(refuses(write, count, 9, HOLDAMEK_PAYLOAD_LENGTH) && refuses(write, count + 1, 10, HOLDAMEK_RECEIVER_LENGTH));
}

/* Each field at its limit, one above it, and with each higher bit alone; the others at 0, then at their limits. `limits` are the writer's. */
static void of_writing_widths(writer *write, const uint16_t *limits, size_t count)
{
    size_t n;
    unsigned others, bit;

    for (others = 0; others < 2; others++)
        for (n = 0; n < count; n++) {
            memset(fields, 0, sizeof fields);
            if (others)
                memcpy(fields, limits, count * sizeof *limits);
            fields[n] = (uint16_t)(limits[n] + 1);
            check(refuses(write, count, 10, HOLDAMEK_FIELD_WIDTH), "a field one above its limit is refused");
            fields[n] = 0xffff;
            check(refuses(write, count, 10, HOLDAMEK_FIELD_WIDTH), "a field far above its limit is refused");
            for (bit = 0; bit < 16; bit++) {
                fields[n] = (uint16_t)(1u << bit);
                if (fields[n] > limits[n])
                    check(refuses(write, count, 10, HOLDAMEK_FIELD_WIDTH), "a field with a higher bit is refused");
            }
            fields[n] = limits[n];
            check(write(fields, count, bytes, 10) == HOLDAMEK_OK && marked(), "a field at its limit is written");
        }
}

static void without_p0(const uint16_t *from, uint16_t *to)
{
    memcpy(to, from, HOLDAMEK_P0 * sizeof *to);
    memcpy(to + HOLDAMEK_P0, from + HOLDAMEK_C1, (HOLDAMEK_FIELDS - HOLDAMEK_C1) * sizeof *to);
}

/* Whether the fields are written, and reading the bytes returns them. */
static int read_back(void)
{
    uint16_t back[HOLDAMEK_FIELDS];

    return holdamek_write_fields(fields, HOLDAMEK_FIELDS, bytes, 10) == HOLDAMEK_OK &&
           holdamek_fields(bytes, 10, back, HOLDAMEK_FIELDS) == HOLDAMEK_OK && memcmp(fields, back, sizeof back) == 0;
}

/* Whether what is read from these ten bytes is written as these bytes. */
static int written_back(const uint8_t *from)
{
    return holdamek_fields(from, 10, fields, HOLDAMEK_FIELDS) == HOLDAMEK_OK &&
           holdamek_write_fields(fields, HOLDAMEK_FIELDS, bytes, 10) == HOLDAMEK_OK && memcmp(from, bytes, 10) == 0;
}

/* Whether the fields but P0 are written, and reading the bytes returns them; `fields` then has the P0 that was supplied. */
static int supplied(void)
{
    uint16_t lent[HOLDAMEK_FIELDS_WITHOUT_P0], back[HOLDAMEK_FIELDS_WITHOUT_P0];

    without_p0(fields, lent);
    if (holdamek_write_fields_parity(lent, HOLDAMEK_FIELDS_WITHOUT_P0, bytes, 10) != HOLDAMEK_OK ||
        holdamek_fields(bytes, 10, fields, HOLDAMEK_FIELDS) != HOLDAMEK_OK)
        return 0;
    without_p0(fields, back);
    return memcmp(lent, back, sizeof lent) == 0;
}

/* Both round trips: every number of every field, every bit alone, and bytes at random. */
static void of_round_trips(void)
{
    uint8_t from[HOLDAMEK_PAYLOAD_BYTES];
    uint32_t seed = 1;
    unsigned n, k, value;

    memset(room, MARK_BYTE, sizeof room);
    for (n = 0; n < HOLDAMEK_FIELDS; n++)
        for (value = 0; value <= most[n]; value++) {
            memset(fields, 0, sizeof fields);
            fields[n] = (uint16_t)value;
            check(read_back(), "a field alone reads back");
            memcpy(fields, most, sizeof most);
            fields[n] = (uint16_t)value;
            check(read_back(), "a field among limits reads back");
        }
    for (n = 0; n < 80; n++) {
        memset(from, 0, sizeof from);
        from[n / 8] = (uint8_t)(0x80u >> n % 8);
        check(written_back(from), "a bit alone is written again");
    }
    for (n = 0; n < 10000; n++) {
        for (k = 0; k < sizeof from; k++) {
            seed = seed * 1664525u + 1013904223u;
            from[k] = (uint8_t)(seed >> 24);
        }
        check(written_back(from) && supplied(), "what was read is written again");
    }
    CHECK(written_back(voice) && fields[HOLDAMEK_L1] == 62 && fields[HOLDAMEK_C1] == 5904 && fields[HOLDAMEK_GB2] == 4);
    CHECK(marked());
}

/* Whether a voice frame passes parity: a comparison counts from the first that does. Any accepted tables and far samples will do. */
static int passes(const uint8_t *payload)
{
    CHECK(holdamek_begin_compare(tables, HOLDAMEK_TABLE_WORDS, memory, HOLDAMEK_COMPARE_WORDS) == HOLDAMEK_OK);
    CHECK(holdamek_compare(tables, HOLDAMEK_TABLE_WORDS, memory, HOLDAMEK_COMPARE_WORDS, HOLDAMEK_VOICE, payload, 10, far, HOLDAMEK_FRAME_SAMPLES, samples,
                           HOLDAMEK_FRAME_SAMPLES, &what, &number, &rest) == HOLDAMEK_OK);
    CHECK(what == HOLDAMEK_SETTLING && number <= 1);
    return number == 1;
}

/* Every P1: parity passes with the P0 that is supplied, and fails with the other. */
static void of_parity(void)
{
    unsigned p1, bit, sum;

    memset(room, MARK_BYTE, sizeof room);
    for (p1 = 0; p1 < 256; p1++) {
        CHECK(holdamek_fields(voice, 10, fields, HOLDAMEK_FIELDS) == HOLDAMEK_OK);
        fields[HOLDAMEK_P1] = (uint16_t)p1;
        CHECK(supplied());
        sum = fields[HOLDAMEK_P0] + 1u;
        for (bit = 2; bit < 8; bit++)
            sum += p1 >> bit & 1;
        CHECK(sum % 2 == 0 && passes(bytes));
        fields[HOLDAMEK_P0] = fields[HOLDAMEK_P0] == 0;
        CHECK(read_back() && !passes(bytes));
    }
    CHECK(marked());
}

/* Both writers; the second has all limits but that of P0. */
static void of_writing(void)
{
    uint16_t limits[HOLDAMEK_FIELDS_WITHOUT_P0];

    without_p0(most, limits);
    of_writing_lengths(holdamek_write_fields, HOLDAMEK_FIELDS);
    of_writing_lengths(holdamek_write_fields_parity, HOLDAMEK_FIELDS_WITHOUT_P0);
    of_writing_widths(holdamek_write_fields, most, HOLDAMEK_FIELDS);
    of_writing_widths(holdamek_write_fields_parity, limits, HOLDAMEK_FIELDS_WITHOUT_P0);
    of_round_trips();
    of_parity();
}

/* Whether these are the frames of a payload of this length; of a refused one, 0. */
static int counted(const uint8_t *payload, size_t length, uint32_t code, size_t frames)
{
    struct holdamek_frame_count count = holdamek_payload_frames(payload, length);

    return count.code == code && count.frames == frames;
}

/* Whether this index is refused with this number, and an empty part handed back. */
static int no_part(const uint8_t *payload, size_t length, size_t index, uint32_t code)
{
    struct holdamek_frame_part part = holdamek_payload_frame(payload, length, index);

    return part.code == code && part.kind == 0 && part.start == 0 && part.length == 0;
}

/* Whether the frame of this index has this kind and occupies this part. */
static int has_part(const uint8_t *payload, size_t length, size_t index, uint32_t kind, size_t start)
{
    struct holdamek_frame_part part = holdamek_payload_frame(payload, length, index);

    return part.code == HOLDAMEK_OK && part.kind == kind && part.start == start && part.length == payload_length[kind];
}

/* Indexes that no payload has, whatever its length. Ten times one of them, taken modulo 2 to the 64, is a small number or a great one. */
static const size_t no_index[] = {(size_t)-1 / 10 + 1, (size_t)-1 / 5 + 1, (size_t)-1 / 2, (size_t)-1 / 2 + 1, (size_t)-2, (size_t)-1};

/* Whether all of them are refused with this number. */
static int no_such(const uint8_t *payload, size_t length, uint32_t code)
{
    size_t n;

    for (n = 0; n < sizeof no_index / sizeof *no_index; n++)
        if (!no_part(payload, length, no_index[n], code))
            return 0;
    return 1;
}

/* Every index of a payload: its frames are walked one behind the other. */
static void of_payload(const uint8_t *payload, size_t length)
{
    size_t n, start = 0, frames = 0;

    if (length % 10 != 0 && length % 10 != 2) {
        check(counted(payload, length, HOLDAMEK_PAYLOAD_REMAINDER, 0), "another remainder is refused, with a count of 0");
        for (n = 0; n <= length; n++)
            check(no_part(payload, length, n, HOLDAMEK_PAYLOAD_REMAINDER), "the remainder is tested before the index");
        check(no_such(payload, length, HOLDAMEK_PAYLOAD_REMAINDER), "the remainder is tested before any index");
        return;
    }
    for (; length - start >= 10; start += 10)
        check(has_part(payload, length, frames++, HOLDAMEK_VOICE, start), "a voice frame is the ten bytes behind those before it");
    if (length - start == 2)
        check(has_part(payload, length, frames++, HOLDAMEK_SID, start), "a SID frame is the last two bytes");
    check(counted(payload, length, HOLDAMEK_OK, frames), "the frames are counted");
    for (n = frames; n <= length + 1; n++)
        check(no_part(payload, length, n, HOLDAMEK_FRAME_INDEX), "an index that isn't below the count is refused");
    check(no_such(payload, length, HOLDAMEK_FRAME_INDEX), "any such index is refused");
}

/* A great length, which no memory has: its first and last frames. */
static void of_great_payload(size_t length)
{
    size_t tens = length / 10, over = length % 10;

    if (over != 0 && over != 2) {
        check(counted(NULL, length, HOLDAMEK_PAYLOAD_REMAINDER, 0) && no_part(NULL, length, 0, HOLDAMEK_PAYLOAD_REMAINDER) &&
                  no_part(NULL, length, tens + 1, HOLDAMEK_PAYLOAD_REMAINDER) && no_such(NULL, length, HOLDAMEK_PAYLOAD_REMAINDER),
              "another remainder of a great length is refused");
        return;
    }
    check(counted(NULL, length, HOLDAMEK_OK, tens + over / 2), "the frames of a great length are counted");
    check(has_part(NULL, length, 0, HOLDAMEK_VOICE, 0), "the first frame of a great length");
    check(has_part(NULL, length, tens - 1, HOLDAMEK_VOICE, 10 * (tens - 1)), "the last voice frame of a great length");
    check(over == 2 ? has_part(NULL, length, tens, HOLDAMEK_SID, length - 2) : no_part(NULL, length, tens, HOLDAMEK_FRAME_INDEX),
          "what is behind the voice frames of a great length");
    check(no_part(NULL, length, tens + 1, HOLDAMEK_FRAME_INDEX) && no_such(NULL, length, HOLDAMEK_FRAME_INDEX),
          "an index behind a great length is refused");
}

enum { MORE_PAYLOAD = 400 };

/* Whether the parts of a payload of this length, joined in index order, are the payload. */
static int joined(const uint8_t *payload, size_t length)
{
    uint8_t parts[MORE_PAYLOAD];
    size_t n, frames = holdamek_payload_frames(payload, length).frames, at = 0;

    for (n = 0; n < frames; n++) {
        struct holdamek_frame_part part = holdamek_payload_frame(payload, length, n);

        if (part.length > sizeof parts - at || part.start > length || part.length > length - part.start)
            return 0;
        memcpy(parts + at, payload + part.start, part.length);
        at += part.length;
    }
    return at == length && memcmp(parts, payload, length) == 0;
}

/* Payloads of every length up to 400, in memory and as NULL, with every index, and of great lengths. */
static void of_payloads(void)
{
    static const size_t great[] = {(size_t)1 << 31, (size_t)1 << 32, (size_t)1 << 33, (size_t)-1 / 10, (size_t)-1 / 2};
    uint8_t payload[MORE_PAYLOAD], before[MORE_PAYLOAD];
    size_t n, k;

    for (n = 0; n < sizeof payload; n++)
        payload[n] = before[n] = (uint8_t)(n * 7 + n / 256);
    for (n = 0; n <= sizeof payload; n++) {
        of_payload(payload, n);
        of_payload(NULL, n);
        if (n % 10 == 0 || n % 10 == 2)
            check(joined(payload, n), "the parts are the payload");
    }
    CHECK(counted(NULL, 0, HOLDAMEK_OK, 0) && no_part(NULL, 0, 0, HOLDAMEK_FRAME_INDEX));
    CHECK(no_part(payload, 15, 1, HOLDAMEK_PAYLOAD_REMAINDER) && no_part(payload, 15, 2, HOLDAMEK_PAYLOAD_REMAINDER));
    CHECK(has_part(payload, 22, 2, HOLDAMEK_SID, 20) && no_part(payload, 22, 3, HOLDAMEK_FRAME_INDEX));
    for (k = 0; k <= 40; k++) {
        for (n = 0; n < sizeof great / sizeof *great; n++)
            of_great_payload(great[n] - 20 + k);
        of_great_payload((size_t)-1 - k);
    }
    CHECK(counted(NULL, (size_t)-1, HOLDAMEK_PAYLOAD_REMAINDER, 0) && no_part(NULL, (size_t)-1, (size_t)-1, HOLDAMEK_PAYLOAD_REMAINDER));
    CHECK(memcmp(payload, before, sizeof payload) == 0);
}

enum { MORE_LEG = 300 };

/* A leg, its bytes and its samples, with a mark before each and one behind. The mark of samples, MARK, isn't a value of either law. */
static uint8_t leg[1 + MORE_LEG + 1], leg_before[1 + MORE_LEG + 1];
static int16_t words[1 + MORE_LEG + 1], words_before[1 + MORE_LEG + 1];

static void keep_leg(void)
{
    memcpy(leg_before, leg, sizeof leg);
    memcpy(words_before, words, sizeof words);
}

static int kept_leg(void)
{
    return memcmp(leg_before, leg, sizeof leg) == 0 && memcmp(words_before, words, sizeof words) == 0;
}

static void mark_leg(void)
{
    size_t n;

    memset(leg, MARK_BYTE, sizeof leg);
    for (n = 0; n < MORE_LEG + 2; n++)
        words[n] = MARK;
    keep_leg();
}

/* The sample of a byte, by the rule of a law (enum holdamek_law). */
static int16_t value(uint32_t law, unsigned byte)
{
    unsigned flipped = byte ^ (law == HOLDAMEK_A_LAW ? 0x55u : 0xffu), s = flipped >> 7, e = flipped >> 4 & 7;
    int m = (int)(flipped & 15), size;

    if (law == HOLDAMEK_A_LAW)
        size = e == 0 ? 16 * m + 8 : (16 * m + 264) << (e - 1);
    else
        size = ((8 * m + 132) << e) - 132;
    return (int16_t)((s == 1) == (law == HOLDAMEK_A_LAW) ? size : -size);
}

/* Whether reading and writing refuse this law and these numbers of bytes and samples, each with its number, and leave all memory as it was. */
static int leg_refused(uint32_t law, size_t b, size_t s, uint32_t reading, uint32_t writing)
{
    return holdamek_g711_read(law, leg + 1, b, words + 1, s) == reading && holdamek_g711_write(law, words + 1, s, leg + 1, b) == writing && kept_leg();
}

/* The same with no memory at all: none is touched. */
static int unread(uint32_t law, size_t b, size_t s, uint32_t due)
{
    return holdamek_g711_read(law, NULL, b, NULL, s) == due && holdamek_g711_write(law, NULL, s, NULL, b) == due;
}

/* Other laws, with lengths that are equal or not and samples that are no values: the law comes first. */
static void of_other_laws(void)
{
    static const uint32_t other[] = {0, 3, 4, 255, 256, 257, 258, 65535, 65536, 65537, 65538, 0x7fffffffu, 0x80000001u, 0x80000002u, 0xfffffffeu, 0xffffffffu};
    static const size_t pairs[][2] = {{0, 0}, {0, 1}, {1, 0}, {1, 1}, {80, 80}, {80, 79}, {300, 300}, {(size_t)-1, (size_t)-1}, {(size_t)-1, 0}};
    size_t n, k;

    mark_leg();
    for (n = 0; n < sizeof other / sizeof *other; n++)
        for (k = 0; k < sizeof pairs / sizeof *pairs; k++)
            check(leg_refused(other[n], pairs[k][0], pairs[k][1], HOLDAMEK_OTHER_LAW, HOLDAMEK_OTHER_LAW) &&
                      unread(other[n], pairs[k][0], pairs[k][1], HOLDAMEK_OTHER_LAW),
                  "another law is refused first");
}

/* Numbers of bytes and samples that aren't equal, with samples that are no values: the numbers come before the values. */
static void of_leg_lengths(uint32_t law)
{
    const uint32_t due = HOLDAMEK_OUTPUT_LENGTH;
    size_t b, s;

    mark_leg();
    for (b = 0; b <= MORE_LEG; b++)
        for (s = 0; s <= MORE_LEG; s++)
            if (b != s)
                check(leg_refused(law, b, s, due, due), "not as many bytes as samples is refused");
    for (b = 1; b != 0; b *= 2)
        for (s = 0; s < 3; s++)
            check(unread(law, s + b, s, due) && unread(law, s, s + b, due) && leg_refused(law, s + b, s, due, due) && leg_refused(law, s, s + b, due, due),
                  "lengths that differ by one bit are refused unread");
    CHECK(unread(law, (size_t)-1, 0, due) && unread(law, 0, (size_t)-1, due) && unread(law, 80, 79, due) && unread(law, 79, 80, due));
    CHECK(unread(law, 0, 0, HOLDAMEK_OK) && leg_refused(law, 0, 0, HOLDAMEK_OK, HOLDAMEK_OK));
    /* Equal numbers: only the values are left to be refused. */
    for (b = 1; b <= MORE_LEG; b++)
        check(holdamek_g711_write(law, words + 1, b, leg + 1, b) == HOLDAMEK_NO_TABLE_VALUE && kept_leg(), "a sample that is no value is refused last");
}

/* Every byte by itself and back, and every sample by itself. */
static void of_values(uint32_t law)
{
    static const uint32_t number[] = {0, 256, 255};
    unsigned byte, taken = 0;
    int sample;

    mark_leg();
    for (byte = 0; byte < 256; byte++) {
        int16_t due = value(law, byte);
        uint8_t back = (uint8_t)(law == HOLDAMEK_MU_LAW && byte == 0x7f ? 0xff : byte);

        leg[1] = (uint8_t)byte;
        keep_leg();
        CHECK(holdamek_g711_read(law, leg + 1, 1, words + 1, 1) == HOLDAMEK_OK && words[1] == due && leg[1] == byte);
        leg[1] = MARK_BYTE;
        CHECK(holdamek_g711_write(law, words + 1, 1, leg + 1, 1) == HOLDAMEK_OK && words[1] == due && leg[1] == back);
        leg[1] = leg_before[1];
        words[1] = words_before[1];
        CHECK(kept_leg());
    }
    for (sample = -32768; sample < 32768; sample++) {
        uint32_t code;

        mark_leg();
        words[1] = (int16_t)sample;
        keep_leg();
        code = holdamek_g711_write(law, words + 1, 1, leg + 1, 1);
        if (code == HOLDAMEK_OK) {
            taken++;
            check(value(law, leg[1]) == sample && (sample != 0 || leg[1] == 0xff), "a sample becomes a byte that is read as it");
            leg[1] = leg_before[1];
        } else {
            check(code == HOLDAMEK_NO_TABLE_VALUE, "another sample is refused");
        }
        check(kept_leg(), "nothing else is written");
    }
    CHECK(taken == number[law]);
}

/* Legs of every length, read and turned back, with what lies beside them left alone; then with one sample that is no value, at every place. */
static void of_legs(uint32_t law)
{
    size_t length, n;
    unsigned next = 0;

    for (length = 0; length <= MORE_LEG; length++) {
        int good = 1;

        mark_leg();
        for (n = 1; n <= length; n++)
            leg[n] = leg_before[n] = (uint8_t)(next++ * 7);
        CHECK(holdamek_g711_read(law, leg + 1, length, words + 1, length) == HOLDAMEK_OK && memcmp(leg, leg_before, sizeof leg) == 0);
        for (n = 0; n < MORE_LEG + 2; n++)
            good = good && words[n] == (n >= 1 && n <= length ? value(law, leg[n]) : words_before[n]);
        memcpy(words_before, words, sizeof words);
        memset(leg, MARK_BYTE, sizeof leg);
        CHECK(holdamek_g711_write(law, words + 1, length, leg + 1, length) == HOLDAMEK_OK && memcmp(words, words_before, sizeof words) == 0);
        for (n = 1; n <= length; n++)
            good = good && leg[n] == (law == HOLDAMEK_MU_LAW && leg_before[n] == 0x7f ? 0xff : leg_before[n]);
        check(good && kept_leg() == (law == HOLDAMEK_A_LAW || memchr(leg_before, 0x7f, sizeof leg) == NULL), "a leg is read and turned back");
    }
    for (n = 1; n <= MORE_LEG; n++) {
        keep_leg();
        words[n] = (int16_t)(words[n] ^ 1);
        memset(leg, MARK_BYTE, sizeof leg);
        memcpy(leg_before, leg, sizeof leg);
        check(holdamek_g711_write(law, words + 1, MORE_LEG, leg + 1, MORE_LEG) == HOLDAMEK_NO_TABLE_VALUE && memcmp(leg, leg_before, sizeof leg) == 0,
              "a sample that is no value is refused before a byte is written");
        words[n] = (int16_t)(words[n] ^ 1);
        CHECK(memcmp(words, words_before, sizeof words) == 0);
    }
}

/* Both laws. */
static void of_g711(void)
{
    static const uint8_t mu[2] = {0x00, 0x80}, a[2] = {0xd5, 0x55};
    int16_t two[2];
    uint32_t law;

    CHECK(holdamek_g711_read(HOLDAMEK_MU_LAW, mu, 2, two, 2) == HOLDAMEK_OK && two[0] == -32124 && two[1] == 32124);
    CHECK(holdamek_g711_read(HOLDAMEK_A_LAW, a, 2, two, 2) == HOLDAMEK_OK && two[0] == 8 && two[1] == -8);
    of_other_laws();
    for (law = HOLDAMEK_A_LAW; law <= HOLDAMEK_MU_LAW; law++) {
        of_leg_lengths(law);
        of_values(law);
        of_legs(law);
    }
}

enum { LEG = HOLDAMEK_FRAME_SAMPLES, MOST_MIXED = HOLDAMEK_MOST_LEGS * LEG, MORE_MIXED = MOST_MIXED + LEG };

/* The legs of a conference and what each heard, with a mark before each of the two and one behind. */
static int16_t legs[1 + MORE_MIXED + 1], legs_before[1 + MORE_MIXED + 1];
static int16_t heard[1 + MORE_MIXED + 1], heard_before[1 + MORE_MIXED + 1];

static void mark_legs(void)
{
    size_t n;

    for (n = 0; n < MORE_MIXED + 2; n++)
        legs[n] = legs_before[n] = heard[n] = heard_before[n] = MARK;
}

static int kept_legs(void)
{
    return memcmp(legs, legs_before, sizeof legs) == 0 && memcmp(heard, heard_before, sizeof heard) == 0;
}

/* Whether these lengths are refused with this number, with no memory at all too: none is touched. */
static int unmixed(size_t l, size_t h, uint32_t due)
{
    return holdamek_mix(legs + 1, l, heard + 1, h) == due && holdamek_mix(NULL, l, NULL, h) == due;
}

/* Every length up to nine legs with every other, and with great ones: the legs come first. */
static void of_mix_lengths(void)
{
    const uint32_t first = HOLDAMEK_LEGS_LENGTH;
    size_t l, h, k;

    mark_legs();
    for (l = 0; l <= MORE_MIXED; l++) {
        int whole = l % LEG == 0 && l >= LEG && l <= MOST_MIXED;
        uint32_t due = whole ? HOLDAMEK_OUTPUT_LENGTH : HOLDAMEK_LEGS_LENGTH;

        for (h = 0; h <= MORE_MIXED; h++)
            if (!whole || h != l)
                check(unmixed(l, h, due), "legs of no 1 to 8 frames, or not as many samples heard, are refused");
        for (k = 1; k != 0; k *= 2)
            check(unmixed(l, l + k, due) && unmixed(l, (size_t)-1 - k, due), "a great number of samples heard is refused");
        for (k = 1024; k != 0; k *= 2)
            check(unmixed(l + k, l + k, first) && unmixed(l + k, l, first), "legs of a great length are refused first");
        check(kept_legs(), "a refusal leaves legs and what they heard as they were");
    }
    for (l = MORE_MIXED; l <= (size_t)-1 / 2; l *= 2)
        check(unmixed(l, l, first) && unmixed(l, LEG, first), "more than eight legs are refused first");
    CHECK(unmixed(0, 0, first) && unmixed(0, LEG, first) && unmixed((size_t)-1, (size_t)-1, first));
    CHECK((size_t)-16 % LEG == 0 && unmixed((size_t)-16, (size_t)-16, first) && unmixed((size_t)-16, LEG, first));
    CHECK(unmixed(LEG, 0, HOLDAMEK_OUTPUT_LENGTH) && kept_legs());
}

/* The sum of what all legs but one have at a place, limited. */
static int16_t sum_of_others(size_t count, size_t own, size_t place)
{
    int sum = 0;
    size_t n;

    for (n = 0; n < count; n++)
        if (n != own)
            sum += legs[1 + n * LEG + place];
    return (int16_t)(sum > 32767 ? 32767 : sum < -32768 ? -32768 : sum);
}

/* Whether each of these legs hears the sum of the others, and nothing else is written. */
static int mixes(size_t count)
{
    size_t n, length = count * LEG;
    int good;

    memcpy(legs_before, legs, sizeof legs);
    memcpy(heard, heard_before, sizeof heard);
    good = holdamek_mix(legs + 1, length, heard + 1, length) == HOLDAMEK_OK && memcmp(legs, legs_before, sizeof legs) == 0;
    for (n = 0; n < MORE_MIXED + 2; n++)
        good = good && heard[n] == (n >= 1 && n <= length ? sum_of_others(count, (n - 1) / LEG, (n - 1) % LEG) : heard_before[n]);
    return good;
}

/* Every number of legs with every choice of samples at the limits and beside zero, a choice at each place: sums that meet the limit, sums one off it, and sums
 * that pass it on the way alone. */
static void of_mix_sums(void)
{
    static const int16_t ends[4] = {-32768, -1, 1, 32767};
    size_t count, n, first;

    for (count = 1; count <= HOLDAMEK_MOST_LEGS; count++) {
        size_t choices = (size_t)1 << 2 * count;

        mark_legs();
        for (first = 0; first < choices; first += LEG) {
            for (n = 0; n < count * LEG; n++)
                legs[1 + n] = ends[(first + n % LEG) >> 2 * (n / LEG) & 3];
            check(mixes(count), "each leg hears the limited sum of the others");
        }
    }
}

/* Whether leg `own` heard this sample, at every place. */
static int hears(size_t own, int16_t due)
{
    size_t n;

    for (n = 0; n < LEG; n++)
        if (heard[1 + own * LEG + n] != due)
            return 0;
    return 1;
}

/* Mixes legs of which each has one sample at every place. */
static int mix_steady(const int16_t *samples, size_t count)
{
    size_t n;

    mark_legs();
    for (n = 0; n < count * LEG; n++)
        legs[1 + n] = samples[n / LEG];
    return mixes(count);
}

/* One leg, two, three of full size, and four of which two take the others back. */
static void of_mix_cases(void)
{
    static const int16_t alone[1] = {1234}, two[2] = {-32768, 32767}, high[3] = {32767, 32767, 32767}, low[3] = {-32768, -32768, -32768};
    static const int16_t back[5] = {32767, 32767, -32768, -32768, 5};

    CHECK(mix_steady(alone, 1) && hears(0, 0));
    CHECK(mix_steady(two, 2) && hears(0, 32767) && hears(1, -32768));
    CHECK(mix_steady(high, 3) && hears(0, 32767) && hears(1, 32767) && hears(2, 32767));
    CHECK(mix_steady(low, 3) && hears(0, -32768) && hears(1, -32768) && hears(2, -32768));
    CHECK(mix_steady(back, 5) && hears(4, -2) && hears(0, -32764) && hears(2, 32767));
}

/* The leg at a place of an order: 0 to 7 begin at that leg and go forwards, 8 to 15 go backwards. */
static size_t ordered(size_t order, size_t place)
{
    return (order < HOLDAMEK_MOST_LEGS ? order + place : order + HOLDAMEK_MOST_LEGS - place) % HOLDAMEK_MOST_LEGS;
}

/* Eight legs, in each of these orders: every leg hears the same in all. */
static void of_mix_order(void)
{
    int16_t own[MOST_MIXED], due[MOST_MIXED];
    size_t order, n;

    mark_legs();
    for (n = 0; n < MOST_MIXED; n++)
        legs[1 + n] = own[n] = (int16_t)((int)(n * 7919 % 65536) - 32768);
    CHECK(mixes(HOLDAMEK_MOST_LEGS));
    memcpy(due, heard + 1, sizeof due);
    for (order = 0; order < 2 * HOLDAMEK_MOST_LEGS; order++) {
        int good;

        for (n = 0; n < MOST_MIXED; n++)
            legs[1 + n] = own[ordered(order, n / LEG) * LEG + n % LEG];
        good = mixes(HOLDAMEK_MOST_LEGS);
        for (n = 0; n < MOST_MIXED; n++)
            good = good && heard[1 + n] == due[ordered(order, n / LEG) * LEG + n % LEG];
        check(good, "legs in another order hear the same, in that order");
    }
}

static void of_mix(void)
{
    of_mix_lengths();
    of_mix_cases();
    of_mix_sums();
    of_mix_order();
}

enum { MORE_TRIED = HOLDAMEK_MOST_PLAYOUT + 1, MARK_NUMBER = 0x5aa55aa5, MARK_LOST = 77 };

/* What is lent to try a playout depth: arrivals, the kinds of frames and the lost count, with a mark before each list and one behind. */
static struct lent {
    uint32_t numbers[1 + MORE_TRIED + 1], times[1 + MORE_TRIED + 1], kinds[1 + MORE_TRIED + 1], lost;
} lent, lent_before;

/* Marks all of it. The mark is no frame's number. */
static void mark_lent(void)
{
    size_t n;

    for (n = 0; n < MORE_TRIED + 2; n++)
        lent.numbers[n] = lent.times[n] = lent.kinds[n] = MARK_NUMBER;
    lent.lost = MARK_LOST;
    lent_before = lent;
}

static int kept_lent(void)
{
    return memcmp(&lent, &lent_before, sizeof lent) == 0;
}

static uint32_t try_depth(uint32_t frames, uint32_t start, uint32_t depth, size_t n, size_t t, size_t k)
{
    return holdamek_playout(frames, start, depth, lent.numbers + 1, n, lent.times + 1, t, lent.kinds + 1, k, &lent.lost);
}

/* Whether these numbers of frames, arrivals, times and kinds are refused with this number, with no memory too where none is touched: that is all but the numbers' behind the
 * first refusal. */
static int untried(uint32_t frames, size_t n, size_t t, size_t k, uint32_t due)
{
    const uint32_t *numbers = due == HOLDAMEK_PLAYOUT_LIMIT ? NULL : lent.numbers + 1;

    return try_depth(frames, 1000, 60, n, t, k) == due && holdamek_playout(frames, 1000, 60, numbers, n, NULL, t, NULL, k, &lent.lost) == due;
}

static const size_t lengths[] = {0, 1, 2, 20, 4095, 4096, 4097, 65536, (size_t)1 << 31, (size_t)1 << 32, ((size_t)1 << 32) + 1, (size_t)-1};
enum { LENGTHS = sizeof lengths / sizeof *lengths };

/* Whether this number of frames and of arrivals is refused with this number, whatever the other lengths. */
static int never_tried(uint32_t frames, size_t n, uint32_t due)
{
    size_t t, k;

    for (t = 0; t < LENGTHS; t++)
        for (k = 0; k < LENGTHS; k++)
            if (!untried(frames, n, lengths[t], lengths[k], due))
                return 0;
    return 1;
}

/* More than 4,096 frames or arrivals, with numbers that are no frame's and with every other length: their count comes first. */
static void of_playout_limits(void)
{
    static const uint32_t frames[] = {4097, 4098, 8192, 65535, 65536, 69632, 0x7fffffffu, 0x80000000u, 0x80001000u, 0xfffff000u, 0xffffffffu};
    static const uint32_t within[] = {0, 1, 20, 4096};
    size_t n, k;

    mark_lent();
    for (n = 0; n < sizeof frames / sizeof *frames; n++)
        for (k = 0; k < LENGTHS; k++)
            check(never_tried(frames[n], lengths[k], HOLDAMEK_PLAYOUT_LIMIT), "more than 4,096 frames are refused first");
    for (n = 0; n < sizeof within / sizeof *within; n++) {
        check(never_tried(within[n], 4097, HOLDAMEK_PLAYOUT_LIMIT), "4,097 arrivals are refused first");
        for (k = 8192; k != 0; k *= 2)
            check(never_tried(within[n], k, HOLDAMEK_PLAYOUT_LIMIT) && never_tried(within[n], k + 20, HOLDAMEK_PLAYOUT_LIMIT) &&
                      never_tried(within[n], 0 - k, HOLDAMEK_PLAYOUT_LIMIT),
                  "a great number of arrivals is refused first");
        check(never_tried(within[n], (size_t)-1, HOLDAMEK_PLAYOUT_LIMIT), "the greatest number of arrivals is refused first");
    }
    CHECK(kept_lent());
}

/* A number that is no frame's at a place among numbers that are, with every other length: it comes before these. */
static void of_arrival_number(uint32_t frames, size_t n, size_t place)
{
    const uint32_t wrong[] = {frames, frames + 1, frames + 65536, 0x80000000u, 0xffffffffu};
    size_t k;

    mark_lent();
    memset(lent.numbers + 1, 0, n * sizeof *lent.numbers);
    for (k = 0; k < sizeof wrong / sizeof *wrong; k++) {
        lent.numbers[place] = wrong[k];
        lent_before = lent;
        check(never_tried(frames, n, HOLDAMEK_ARRIVAL_NUMBER), "a number that is no frame's is refused before the lengths");
        check(kept_lent(), "a refusal of a number leaves all memory as it was");
    }
}

/* At every place of a short list, and at some of the longest. */
static void of_arrival_numbers(void)
{
    static const uint32_t frames[] = {0, 1, 2, 20, 4095, 4096};
    size_t n, place;

    for (n = 0; n < sizeof frames / sizeof *frames; n++) {
        for (place = 1; place <= 20; place++)
            of_arrival_number(frames[n], 20, place);
        of_arrival_number(frames[n], 1, 1);
        of_arrival_number(frames[n], 4096, 1);
        of_arrival_number(frames[n], 4096, 2049);
        of_arrival_number(frames[n], 4096, 4096);
    }
    /* No frames: the least number is no frame's either. */
    mark_lent();
    lent.numbers[1] = lent_before.numbers[1] = 0;
    CHECK(never_tried(0, 1, HOLDAMEK_ARRIVAL_NUMBER) && kept_lent());
}

/* Numbers that are a frame's, with other lengths of times and kinds: only these are left to be refused. */
static void of_playout_lengths(void)
{
    const uint32_t due = HOLDAMEK_OUTPUT_LENGTH;
    uint32_t frames;
    size_t n, t, k;

    mark_lent();
    memset(lent.numbers + 1, 0, HOLDAMEK_MOST_PLAYOUT * sizeof *lent.numbers);
    lent_before = lent;
    for (frames = 0; frames <= 12; frames++)
        for (n = 0; n <= (frames == 0 ? 0 : 12); n++) {
            for (t = 0; t <= 14; t++)
                for (k = 0; k <= 14; k++)
                    if (t != n || k != frames)
                        check(untried(frames, n, t, k, due), "not as many times as numbers, or not as many kinds as frames, are refused");
            for (k = 1; k != 0; k *= 2)
                check(untried(frames, n, n + k, frames, due) && untried(frames, n, n, frames + k, due) && untried(frames, n, n + k, frames + k, due),
                      "lengths that differ by one bit are refused");
        }
    CHECK(untried(4096, 4096, 4095, 4096, due) && untried(4096, 4096, 4097, 4096, due));
    CHECK(untried(4096, 4096, 4096, 4095, due) && untried(4096, 4096, 4096, 4097, due) && untried(0, 0, 0, 1, due) && untried(0, 0, 1, 0, due));
    CHECK(kept_lent());
}

/* The kind of a frame that is played at this time: all arrivals are looked at. */
static uint32_t kind_of(uint32_t frame, uint64_t at, size_t n)
{
    size_t k;

    for (k = 1; k <= n; k++)
        if (lent.numbers[k] == frame && lent.times[k] <= at)
            return HOLDAMEK_VOICE;
    return HOLDAMEK_ERASED;
}

/* Whether a depth, tried on so many frames and arrivals, gives what a plain double loop tells, and nothing else is written. */
static int tries(uint32_t frames, uint32_t start, uint32_t depth, size_t n)
{
    uint32_t i;

    for (i = 0; i < MORE_TRIED + 2; i++)
        lent.kinds[i] = MARK_NUMBER;
    lent.lost = MARK_LOST;
    lent_before = lent;
    lent_before.lost = 0;
    for (i = 0; i < frames; i++) {
        lent_before.kinds[1 + i] = kind_of(i, (uint64_t)start + depth + 10 * (uint64_t)i, n);
        lent_before.lost += lent_before.kinds[1 + i] == HOLDAMEK_ERASED;
    }
    return try_depth(frames, start, depth, n, n, frames) == HOLDAMEK_OK && kept_lent();
}

/* Whether a frame with one arrival, at this time, has this kind. */
static int plays(uint32_t start, uint32_t depth, uint32_t frame, uint32_t time, uint32_t kind)
{
    lent.numbers[1] = frame;
    lent.times[1] = time;
    return tries(frame + 1, start, depth, 1) && lent.kinds[1 + frame] == kind && lent.lost == frame + (kind == HOLDAMEK_ERASED);
}

/* Arrivals at the time at which a frame is played, before it and after it. */
static void of_playout_times(void)
{
    static const uint32_t starts[] = {0, 1, 1000, 65530, 0x7ffffff0u}, depths[] = {0, 1, 60, 65530, 1000000}, frames[] = {0, 1, 2, 300, 4095};
    size_t s, d, f;

    mark_lent();
    for (s = 0; s < sizeof starts / sizeof *starts; s++)
        for (d = 0; d < sizeof depths / sizeof *depths; d++)
            for (f = 0; f < sizeof frames / sizeof *frames; f++) {
                uint32_t at = starts[s] + depths[d] + 10 * frames[f];

                CHECK(plays(starts[s], depths[d], frames[f], at, HOLDAMEK_VOICE) && plays(starts[s], depths[d], frames[f], 0, HOLDAMEK_VOICE));
                CHECK(at == 0 || plays(starts[s], depths[d], frames[f], at - 1, HOLDAMEK_VOICE));
                CHECK(plays(starts[s], depths[d], frames[f], at + 1, HOLDAMEK_ERASED));
                CHECK(plays(starts[s], depths[d], frames[f], 0xffffffffu, HOLDAMEK_ERASED));
            }
}

/* Times of playing around 32 bits and beyond: each is the whole sum. */
static void of_playout_sums(void)
{
    const uint32_t most32 = 0xffffffffu, half = 0x80000000u, voice_kind = HOLDAMEK_VOICE, erased = HOLDAMEK_ERASED;

    mark_lent();
    CHECK(plays(most32, 0, 0, most32, voice_kind) && plays(0, most32, 0, most32, voice_kind));
    CHECK(plays(most32 - 1, 0, 0, most32, erased) && plays(0, most32 - 1, 0, most32, erased));
    CHECK(plays(most32 - 1, 1, 0, most32, voice_kind) && plays(1, most32 - 1, 0, most32, voice_kind));
    CHECK(plays(most32, 1, 0, most32, voice_kind) && plays(1, most32, 0, most32, voice_kind) && plays(most32, 1, 0, 1, voice_kind));
    CHECK(plays(half, half, 0, most32, voice_kind) && plays(half, half - 1, 0, most32, voice_kind) && plays(half, half - 2, 0, most32, erased));
    CHECK(plays(most32 - 10, 0, 1, most32, voice_kind) && plays(most32 - 11, 0, 1, most32, erased));
    CHECK(plays(most32 - 1, 0, 1, most32, voice_kind) && plays(most32, 0, 1, most32, voice_kind));
    CHECK(plays(most32 - 40950, 0, 4095, most32, voice_kind) && plays(most32 - 40951, 0, 4095, most32, erased));
    CHECK(plays(most32, most32, 0, most32, voice_kind) && plays(most32, most32, 4095, most32, voice_kind));
}

enum { REPEATED = 7, ORDERS = 5040 };

/* Puts seven arrivals into one of their 5,040 orders: the place of each among those that are left is a digit of its number. */
static void put_in_order(const uint32_t arrivals[REPEATED][2], size_t order)
{
    size_t places[REPEATED], n, left;

    for (n = 0; n < REPEATED; n++)
        places[n] = n;
    for (n = 0; n < REPEATED; n++) {
        left = REPEATED - n;
        lent.numbers[1 + n] = arrivals[places[order % left]][0];
        lent.times[1 + n] = arrivals[places[order % left]][1];
        places[order % left] = places[left - 1];
        order /= left;
    }
}

/* Frame 0 arrives in time, twice and late; frame 1 late and at its time; frame 2 late twice; frame 3 never. */
static void of_playout_orders(void)
{
    static const uint32_t arrivals[REPEATED][2] = {{0, 105}, {0, 100}, {0, 900}, {1, 121}, {1, 120}, {2, 131}, {2, 132}};
    static const uint32_t due[4] = {HOLDAMEK_VOICE, HOLDAMEK_VOICE, HOLDAMEK_ERASED, HOLDAMEK_ERASED};
    size_t order, n;

    mark_lent();
    for (order = 0; order < ORDERS; order++) {
        put_in_order(arrivals, order);
        check(try_depth(4, 100, 10, REPEATED, REPEATED, 4) == HOLDAMEK_OK && memcmp(lent.kinds + 1, due, sizeof due) == 0 && lent.lost == 2,
              "one arrival in time is enough, in any order");
    }
    for (n = 0; n < HOLDAMEK_MOST_PLAYOUT; n++) {
        lent.numbers[1 + n] = arrivals[n % REPEATED][0];
        lent.times[1 + n] = arrivals[n % REPEATED][1];
    }
    CHECK(tries(4, 100, 10, HOLDAMEK_MOST_PLAYOUT) && memcmp(lent.kinds + 1, due, sizeof due) == 0);
}

/* Random arrivals: with times around those of playing, that are small or of 32 bits; and with a depth that grows, by which no played frame is lost. */
static void of_playout_arrivals(void)
{
    uint32_t turn, n, depth, played[20] = {0};

    mark_lent();
    for (turn = 0; turn < 3000; turn++) {
        uint32_t frames = 1 + below(50), count = below(80), base = turn % 3 == 0 ? 0 : turn % 3 == 1 ? 0xfffffb50u : 0x7ffffff0u;

        for (n = 1; n <= count; n++) {
            lent.numbers[n] = below(frames);
            lent.times[n] = base + below(1200);
        }
        check(tries(frames, base + below(300), below(400), count) && tries(frames, below(400), base + below(300), count), "random arrivals");
    }
    for (n = 1; n <= 40; n++) {
        lent.numbers[n] = below(20);
        lent.times[n] = 1000 + 10 * lent.numbers[n] + below(250);
    }
    for (depth = 0; depth <= 250; depth++) {
        CHECK(tries(20, 1000, depth, 40));
        for (n = 0; n < 20; n++) {
            check(lent.kinds[1 + n] == HOLDAMEK_VOICE || !played[n], "a greater depth never makes a played frame lost");
            played[n] = lent.kinds[1 + n] == HOLDAMEK_VOICE;
        }
    }
}

/* No frames, no arrivals, the most of both, and one list as numbers and as times. */
static void of_playout_counts(void)
{
    uint32_t n, lost = MARK_LOST;

    mark_lent();
    CHECK(holdamek_playout(0, 1000, 60, NULL, 0, NULL, 0, NULL, 0, &lost) == HOLDAMEK_OK && lost == 0);
    CHECK(tries(0, 1000, 60, 0) && lent.lost == 0 && tries(0, 0xffffffffu, 0xffffffffu, 0));
    CHECK(holdamek_playout(20, 1000, 60, NULL, 0, NULL, 0, lent.kinds + 1, 20, &lost) == HOLDAMEK_OK && lost == 20);
    for (n = 0; n <= 20; n++)
        CHECK(tries(n, 0xffffffffu, 0xffffffffu, 0) && lent.lost == n);
    CHECK(tries(HOLDAMEK_MOST_PLAYOUT, 1000, 60, 0) && lent.lost == HOLDAMEK_MOST_PLAYOUT);
    for (n = 0; n < HOLDAMEK_MOST_PLAYOUT; n++) {
        lent.numbers[1 + n] = n * 2731 % HOLDAMEK_MOST_PLAYOUT;
        lent.times[1 + n] = below(2 * 10 * HOLDAMEK_MOST_PLAYOUT);
    }
    CHECK(tries(HOLDAMEK_MOST_PLAYOUT, 1000, 60, HOLDAMEK_MOST_PLAYOUT) && lent.lost > 1000 && lent.lost < 4000);
    CHECK(tries(HOLDAMEK_MOST_PLAYOUT, 0xffffffffu, 0, HOLDAMEK_MOST_PLAYOUT) && lent.lost == 0);
    memcpy(lent.times, lent.numbers, sizeof lent.times);
    CHECK(tries(HOLDAMEK_MOST_PLAYOUT, 0, 0, HOLDAMEK_MOST_PLAYOUT) && lent.lost == 0);
    lent.kinds[1] = MARK_NUMBER;
    CHECK(holdamek_playout(4096, 0, 0, lent.numbers + 1, 4096, lent.numbers + 1, 4096, lent.kinds + 1, 4096, &lent.lost) == HOLDAMEK_OK && kept_lent());
}

static void of_playout(void)
{
    of_playout_limits();
    of_arrival_numbers();
    of_playout_lengths();
    of_playout_times();
    of_playout_sums();
    of_playout_orders();
    of_playout_arrivals();
    of_playout_counts();
}

int main(void)
{
    size_t n;

    for (n = 0; n < HOLDAMEK_TABLE_WORDS; n++)
        tables[n] = (int16_t)(7 * n % 1000);
    tables[HOLDAMEK_TABLE_WORDS] = state[HOLDAMEK_STATE_WORDS] = samples[HOLDAMEK_FRAME_SAMPLES] = MARK;
    mark_report();
    of_tables();
    of_fresh_state();
    of_frame_lengths();
    of_frame_states();
    of_frame();
    of_delays_refusals();
    of_delays();
    of_delays_and_frames();
    of_fields();
    of_line();
    of_write_line();
    of_count();
    of_agree_refusals();
    of_agree();
    memory[HOLDAMEK_COMPARE_WORDS] = MARK;
    of_compare_refusals();
    of_compare();
    of_writing();
    of_payloads();
    of_g711();
    of_mix();
    of_playout();
    CHECK(tables[HOLDAMEK_TABLE_WORDS] == MARK);
    printf("border: %d checks, %d failed\n", checks, failed);
    return failed != 0;
}
