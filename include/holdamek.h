/* Holdamek: the six operations of a G.729 voice path, the delays of frames with their rules, the writing of lines and of voice frames, the frames of an RTP payload, G.711 legs, what each leg of a
 * conference heard, the trying of playout depths, the agreement of two decoders and the comparison with a far one, as C functions (x86-64 Linux; C99 or later, C++).
 * `rt lib` in crates/holdamek makes libholdamek.a:  cc -Iinclude program.c crates/holdamek/out/libholdamek.a
 * Installed (`make install`):  cc program.c $(pkg-config --cflags --libs holdamek)
 *
 * Each function returns 0 or the number of the first refusal that applies, in the order of its list below. The two for RTP payloads, holdamek_payload_frames
 * and holdamek_payload_frame, return a struct: that number is its `code`, and beside a refusal its other members are 0. A refusal leaves all lent
 * memory as it was. Nothing is allocated, no function keeps anything between two calls, and none waits or calls the system, so
 * threads may call them at the same time, on one table block too, as long as nobody else touches the memory lent for writing. 16 KiB
 * of stack are enough (5.3 KB were measured for holdamek_frame).
 *
 * A length counts elements, not bytes. A wrong length is refused before the memory is touched; so NULL with length 0 is refused where
 * another length is due, and is right for the payload of HOLDAMEK_NO_TRANSMISSION and HOLDAMEK_ERASED, for the bytes and samples of an
 * empty G.711 leg, and for the lists of no arrivals and the kinds of no frames. The bytes of an RTP payload are never read; NULL is right for an empty one.
 *
 * What no function can notice, and the caller sees to: a pointer with a right length that isn't 0 isn't NULL and points to that much memory of its type;
 * `kind`, `lost`, `length`, `agreement`, `what`, `number`, `rest` and `carried` are never NULL; `delays`, `rules` and `counts`, which come without a length, are never NULL and
 * point to as many numbers as stand in brackets; and what is lent for writing overlaps nothing else that is lent in the same call. */
#ifndef HOLDAMEK_H
#define HOLDAMEK_H

#include <stddef.h>
#include <stdint.h>

/* The version of header and library; the shared library has the first number in its name. */
#define HOLDAMEK_VERSION "0.10.0"
#define HOLDAMEK_VERSION_MAJOR 0
#define HOLDAMEK_VERSION_MINOR 10
#define HOLDAMEK_VERSION_PATCH 0

#ifdef __cplusplus
extern "C" {
#endif

enum holdamek_size {
    HOLDAMEK_TABLE_WORDS = 1880,      /* 16-bit words of a table block; in a file 3,760 bytes, low byte first */
    HOLDAMEK_STATE_WORDS = 234,       /* words of a state block */
    HOLDAMEK_COMPARE_WORDS = 2203,    /* words of the memory of a comparison */
    HOLDAMEK_FRAME_SAMPLES = 80,      /* samples of a frame, 10 ms */
    HOLDAMEK_PAYLOAD_BYTES = 10,      /* bytes of a voice frame, and room for the payload of a line */
    HOLDAMEK_SID_BYTES = 2,           /* bytes of a SID frame */
    HOLDAMEK_FIELDS = 15,             /* fields of a voice frame */
    HOLDAMEK_FIELDS_WITHOUT_P0 = 14,  /* fields that are written with P0 supplied */
    HOLDAMEK_SHORTEST_LINE = 14,      /* characters of the shortest line, without its line feed */
    HOLDAMEK_LONGEST_LINE = 36,       /* characters of the longest line, without its line feed */
    HOLDAMEK_DELAYS = 4,              /* numbers of both delays of a frame: integer and fraction of the first subframe's, then of the second's */
    HOLDAMEK_RULES = 2,               /* rules of a frame, one of each subframe */
    HOLDAMEK_COUNTS = 7,              /* counts of a call */
    HOLDAMEK_MOST_FRAMES = 360000,    /* frames of a call at most */
    HOLDAMEK_MOST_RULE = 720000,      /* subframes of one rule at most */
    HOLDAMEK_MOST_LEGS = 8,           /* legs of a conference at most */
    HOLDAMEK_MOST_PLAYOUT = 4096      /* frames, and arrivals, that a playout depth is tried on at most */
};

/* Kinds of frames. 1 to 3 are concealed like losses. */
enum holdamek_kind {
    HOLDAMEK_VOICE = 0,
    HOLDAMEK_SID = 1,
    HOLDAMEK_NO_TRANSMISSION = 2,
    HOLDAMEK_ERASED = 3
};

/* The places of a voice frame's fields (G.729 Table 8), in the order of their bits, and their widths. Highest bits come first. The fourteen fields of
 * holdamek_write_fields_parity are the same with HOLDAMEK_P0 left out: those behind it stand one place earlier. */
enum holdamek_field {
    HOLDAMEK_L0 = 0,                  /* 1 bit: predictor of the line spectral frequencies */
    HOLDAMEK_L1 = 1,                  /* 7 bits: their first codebook */
    HOLDAMEK_L2 = 2,                  /* 5 bits: their second codebook, for the lower five */
    HOLDAMEK_L3 = 3,                  /* 5 bits: the same, for the higher five */
    HOLDAMEK_P1 = 4,                  /* 8 bits: delay of the first subframe */
    HOLDAMEK_P0 = 5,                  /* 1 bit: parity of bits 2 to 7 of P1 */
    HOLDAMEK_C1 = 6,                  /* 13 bits: positions of the first subframe's pulses */
    HOLDAMEK_S1 = 7,                  /* 4 bits: their signs */
    HOLDAMEK_GA1 = 8,                 /* 3 bits: gains, first codebook */
    HOLDAMEK_GB1 = 9,                 /* 4 bits: gains, second codebook */
    HOLDAMEK_P2 = 10,                 /* 5 bits: delay of the second subframe, relative to the first's; then as there */
    HOLDAMEK_C2 = 11,                 /* 13 bits */
    HOLDAMEK_S2 = 12,                 /* 4 bits */
    HOLDAMEK_GA2 = 13,                /* 3 bits */
    HOLDAMEK_GB2 = 14                 /* 4 bits */
};

/* How the delay of a subframe was found. With the fields of the frame the rule tells the delay, given the one that is carried into the subframe or, for rule 3, the first
 * subframe's. P1 and P2 are the fields HOLDAMEK_P1 and HOLDAMEK_P2. A second subframe after bad parity has rule 3 too: its delay is relative to the carried one. */
enum holdamek_rule {
    HOLDAMEK_RULE_THIRDS = 1,         /* coded in thirds of a sample: first subframe, P1 below 197 */
    HOLDAMEK_RULE_WHOLE = 2,          /* coded whole: first subframe, P1 197 or more */
    HOLDAMEK_RULE_RELATIVE = 3,       /* coded relative to the first, by P2: second subframe of every voice frame */
    HOLDAMEK_RULE_BAD_PARITY = 4,     /* carried after bad parity: first subframe, whatever P1 is */
    HOLDAMEK_RULE_CONCEALED = 5       /* carried in concealment: both subframes of kinds 1 to 3. The second's is one more than the first's, at most 143 */
};

/* The places of a call's counts. The counter of a rule stands at 1 + its number. */
enum holdamek_count_place {
    HOLDAMEK_COUNT_FRAMES = 0,        /* frames */
    HOLDAMEK_COUNT_LOST = 1,          /* those of kinds 1 to 3 */
    HOLDAMEK_COUNT_THIRDS = 2,        /* subframes of rule 1, then of the others */
    HOLDAMEK_COUNT_WHOLE = 3,
    HOLDAMEK_COUNT_RELATIVE = 4,
    HOLDAMEK_COUNT_BAD_PARITY = 5,
    HOLDAMEK_COUNT_CONCEALED = 6
};

/* The laws of G.711, by which a byte is read as a sample. s is the top bit, e the next three and m the low four of the byte with the bits of 55 hexadecimal
 * flipped (A-law), or with all flipped (mu-law). */
enum holdamek_law {
    HOLDAMEK_A_LAW = 1,               /* the size is 16 m + 8 for e = 0, else (16 m + 264) 2^(e - 1); positive if s is 1 */
    HOLDAMEK_MU_LAW = 2               /* the size is (8 m + 132) 2^e - 132; negative if s is 1 */
};

/* How far two decoders agree from here on, with the same tables, through every list of frames (of any kinds, losses too) that both receive. */
enum holdamek_agreement {
    HOLDAMEK_AGREE_NOTHING = 0,       /* nothing can be said; it is not said that they differ */
    HOLDAMEK_AGREE_PARAMETERS = 1,    /* delays, pitch and fixed gains, line spectral frequencies and filter coefficients are equal */
    HOLDAMEK_AGREE_PULSES = 2,        /* and the pulses (codevectors), in concealed frames too */
    HOLDAMEK_AGREE_SAMPLES = 3        /* and the samples */
};

/* What a frame is in a comparison of a far decoder's samples with what decoders make of the same frames. A common voice frame is one that both decoders
 * had; they are counted from one that passes parity. */
enum holdamek_comparison {
    HOLDAMEK_CONCEALED = 0,           /* kind 1, 2 or 3: not compared, and the count begins anew */
    HOLDAMEK_SETTLING = 1,            /* no state of the far decoder is computed yet, or none any more: the last window's did not fit */
    HOLDAMEK_NOT_CLEAN = 2,           /* the same, and this frame can't be part of a window though it is the sixth or a later one: a sample is -32768 or 32767, or coefficients are out of bound */
    HOLDAMEK_KNOWN = 3,               /* a decoder of these frames, in a state that the samples before tell, makes these 80 samples */
    HOLDAMEK_DIFFERS = 4              /* the samples since the last concealed frame (or the first frame), up to and with this frame's, are not those of any decoder of these frames, whatever its past */
};

/* The numbers that the functions return. */
enum holdamek_refusal {
    HOLDAMEK_OK = 0,
    HOLDAMEK_TABLE_LENGTH = 1,        /* the table block isn't 1,880 words */
    HOLDAMEK_TABLE_DELAY = 2,         /* the initial delay in the table block is outside 19..144 */
    HOLDAMEK_STATE_LENGTH = 3,        /* the state block isn't 234 words; the memory of a comparison: not 2,203 */
    HOLDAMEK_STATE_VALUES = 4,        /* in the state block, or in the memory of a comparison, the predictor isn't 0 or 1, or the delay is outside 19..144; for delays alone: the carried one is */
    HOLDAMEK_KIND_ABOVE_3 = 5,        /* there is no such kind of frame */
    HOLDAMEK_PAYLOAD_LENGTH = 6,      /* the payload isn't 10, 2, 0, 0 bytes for kinds 0 to 3; for fields and their writing: not ten bytes */
    HOLDAMEK_OUTPUT_LENGTH = 7,       /* the output isn't 80 words, or there aren't 80 far samples; for the writing of a line: not 36 bytes; for G.711: not as many bytes as samples; for what legs heard: not as many samples as the legs have; for a playout depth: not as many times as numbers, or not as many kinds as frames */
    HOLDAMEK_RECEIVER_LENGTH = 8,     /* the receiver of fields isn't 15 numbers; for the writing of fields: there are not 15, or not 14 without P0 */
    HOLDAMEK_LINE_FORM = 9,           /* the line isn't one of the four forms */
    HOLDAMEK_COUNT_LIMIT = 10,        /* the frames or the lost ones are 360,000 or more already, or the subframes of a rule 720,000 */
    HOLDAMEK_LINE_ROOM = 11,          /* the room for a line's payload isn't ten bytes */
    HOLDAMEK_PAYLOAD_REMAINDER = 12,  /* the length of the RTP payload leaves a remainder other than 0 or 2 by ten */
    HOLDAMEK_FRAME_INDEX = 13,        /* the index isn't below the number of frames of the RTP payload */
    HOLDAMEK_FIELD_WIDTH = 15,        /* a field exceeds its width */
    HOLDAMEK_OTHER_LAW = 16,          /* the law is neither 1 nor 2 */
    HOLDAMEK_NO_TABLE_VALUE = 17,     /* a sample isn't a table value of the law: no byte is read as it */
    HOLDAMEK_LEGS_LENGTH = 19,        /* the legs of a conference aren't 80, 160, .. or 640 samples, a frame of each of 1 to 8 legs */
    HOLDAMEK_PLAYOUT_LIMIT = 20,      /* there are more than 4,096 frames, or more than 4,096 arrivals */
    HOLDAMEK_ARRIVAL_NUMBER = 21,     /* an arrival's number isn't below the number of frames */
    HOLDAMEK_NO_RULE = 24             /* the number of a rule isn't 1 to 5 */
};

/* How many frames an RTP payload has. */
struct holdamek_frame_count {
    uint32_t code;                    /* 0, or the refusal */
    size_t frames;                    /* beside a refusal 0 */
};

/* A frame of an RTP payload, as the part of the payload that it occupies: `length` bytes from payload[start] on. Beside a refusal the part is empty, and all
 * but `code` is 0: a kind of 0 alone doesn't say that there is a voice frame. */
struct holdamek_frame_part {
    uint32_t code;                    /* 0, or the refusal */
    uint32_t kind;                    /* HOLDAMEK_VOICE or HOLDAMEK_SID */
    size_t start;
    size_t length;                    /* HOLDAMEK_PAYLOAD_BYTES or HOLDAMEK_SID_BYTES */
};

/* Whether a table block is accepted. Refusals 1, 2. */
uint32_t holdamek_table_check(const int16_t *tables, size_t tables_length);

/* Writes the state of a decoder before its first frame, all 234 words. Refusals 1, 2, 3. */
uint32_t holdamek_fresh_state(const int16_t *tables, size_t tables_length, int16_t *state, size_t state_length);

/* Decodes one frame: writes its 80 samples before the postfilter, and the state for the next frame. Writes to `delays` the delays that its two subframes used, integer and
 * fraction in thirds (-1, 0 or 1) of the first, then of the second, and to `rules` how each was found, one of enum holdamek_rule. 3 delays[0] + delays[1] is the first in
 * thirds of a sample. To save a job keep the 234 words; to resume it lend them to the next call. Refusals 1 to 7. */
uint32_t holdamek_frame(const int16_t *tables, size_t tables_length, int16_t *state, size_t state_length, uint32_t kind,
                        const uint8_t *payload, size_t payload_length, int16_t *samples, size_t samples_length, int16_t delays[4],
                        uint32_t rules[2]);

/* The delays and rules of one frame without its samples, as holdamek_frame writes them, and without tables: of the state only the delay is needed that is carried into the
 * frame, word 61 of the state block, which becomes the one that is carried on. Before the first frame it is word 1867 of the table block. Refusals 4, 5, 6. */
uint32_t holdamek_delays(int16_t *carried, uint32_t kind, const uint8_t *payload, size_t payload_length, int16_t delays[4], uint32_t rules[2]);

/* The fifteen fields of a voice frame, in the order of enum holdamek_field. Refusals 6, 8. */
uint32_t holdamek_fields(const uint8_t *bytes, size_t bytes_length, uint16_t *fields, size_t fields_length);

/* Writes the ten bytes of a voice frame from its fifteen fields, the opposite of holdamek_fields: reading them returns the fields, and writing what was
 * read from any ten bytes returns the bytes. P0 is written as it is, whether parity passes or not. Refusals 8, 6, 15. */
uint32_t holdamek_write_fields(const uint16_t *fields, size_t fields_length, uint8_t *bytes, size_t bytes_length);

/* The same from fourteen fields, all but P0, which is supplied so that parity passes (clause 3.7.2: the sum of bits 2 to 7 of P1, of P0 and of 1 is even).
 * With the other P0 the same fields fail it. Refusals 8, 6, 15. */
uint32_t holdamek_write_fields_parity(const uint16_t *fields, size_t fields_length, uint8_t *bytes, size_t bytes_length);

/* Reads one line of a call without its line feed, `(frame (voice H))` with 20 digits 0-9 a-f, `(frame (sid H))` with 4,
 * `(frame (quiet))` or `(frame (lost))`: writes its kind, and its payload to the front of ten bytes, of which the others stay as
 * they were. A text of any length is taken; bytes of a text that has not the length of one of the forms are not read. Refusals 11, 9. */
uint32_t holdamek_line(const uint8_t *text, size_t text_length, uint32_t *kind, uint8_t *payload, size_t payload_length);

/* Writes the line that holdamek_line reads as this kind and payload, without a line feed, to the front of 36 bytes, of which the others stay
 * as they were, and the number of its characters to `length`. Refusals 5, 6, 7. */
uint32_t holdamek_write_line(uint32_t kind, const uint8_t *payload, size_t payload_length, uint8_t *out, size_t out_length, size_t *length);

/* The number of frames of an RTP payload (RFC 3551, section 4.5.6): voice frames of ten bytes each, then at most one SID frame of two (Annex B). The length tells
 * it. An empty payload has 0 frames. Refusal 12. */
struct holdamek_frame_count holdamek_payload_frames(const uint8_t *payload, size_t payload_length);

/* The frame of an index, from 0, of an RTP payload: its kind, and the part of the payload that it occupies, which isn't copied. holdamek_frame and
 * holdamek_write_line take payload + start and length with that kind. Joined in index order, the parts are the payload. Refusals 12, 13. */
struct holdamek_frame_part holdamek_payload_frame(const uint8_t *payload, size_t payload_length, size_t index);

/* Reads the bytes of a G.711 leg, or of a part of it, by a law, one of enum holdamek_law: writes a sample for each. Refusals 16, 7. */
uint32_t holdamek_g711_read(uint32_t law, const uint8_t *bytes, size_t bytes_length, int16_t *samples, size_t samples_length);

/* Turns samples back into the bytes that are read as these; mu-law 0, which 7F and FF are read as, into FF. So every byte that was read comes back, but for
 * mu-law 7F. No sample is rounded: one that no byte is read as is refused, and no byte is written then. Refusals 16, 7, 17. */
uint32_t holdamek_g711_write(uint32_t law, const int16_t *samples, size_t samples_length, uint8_t *bytes, size_t bytes_length);

/* Writes what each leg of a conference heard. `legs` has the 80 samples of a frame of each of 1 to 8 legs, one leg after another, whether they come from G.711 or
 * G.729; `heard`, which doesn't overlap it, gets as many, in the order of the legs: at each place the sum of all other legs' samples, limited to -32768..32767. Only the
 * whole sum is limited, nothing on the way to it. A leg alone heard 80 zeros, and of two legs each heard the other unchanged. Refusals 19, 7. */
uint32_t holdamek_mix(const int16_t *legs, size_t legs_length, int16_t *heard, size_t heard_length);

/* Tries a playout depth on the arrivals of a call's frames. Frame i, from 0, is played at start + depth + 10 i milliseconds, summed without wrapping. Arrival j is of
 * frame numbers[j], at times[j]; a frame may arrive several times or never, and arrivals stand in any order. Writes to `kinds` for each frame HOLDAMEK_VOICE, if one
 * of its arrivals is at or before the time at which it is played, else HOLDAMEK_ERASED, and to `lost` how many are erased. A greater depth never makes a played frame
 * lost. The numbers are read before the lengths of `times` and `kinds` are looked at. The time taken grows with frames plus arrivals. Refusals 20, 21, 7. */
uint32_t holdamek_playout(uint32_t frames, uint32_t start, uint32_t depth, const uint32_t *numbers, size_t numbers_length, const uint32_t *times,
                          size_t times_length, uint32_t *kinds, size_t kinds_length, uint32_t *lost);

/* Counts a frame by its kind and the rules of its two subframes: adds 1 to the frames, for kinds 1 to 3 to the lost ones, and for each of the two rules to its counter, 2 where
 * they are equal. enum holdamek_count_place has the order of the counts. From counts that all began at 0, the five of the rules add up to twice the frames. A kind and rules
 * that don't go together are counted too. Refusals 5, 24, 10; for 10 all seven counts are looked at, whichever would grow. */
uint32_t holdamek_count(uint32_t kind, uint32_t first, uint32_t second, uint32_t counts[7]);

/* Writes to `agreement` how far two decoders with these state blocks agree from here on, one of enum holdamek_agreement. The blocks may be the
 * same memory. Refusals 3, 4, of either block; 4 only where both have 234 words. */
uint32_t holdamek_agree(const int16_t *first, size_t first_length, const int16_t *second, size_t second_length, uint32_t *agreement);

/* Writes the memory of a comparison before its first frame, all 2,203 words. Refusals 1, 2, 3. */
uint32_t holdamek_begin_compare(const int16_t *tables, size_t tables_length, int16_t *memory, size_t memory_length);

/* Compares the far decoder's samples of one frame, on memory that holdamek_begin_compare wrote and earlier calls left, always with the same tables. It may begin
 * at any frame of a call; from there lend it every frame, in order, with the 80 samples that belong to it. SID and no-transmission frames are lent as they are; a
 * frame that was lost at either end is lent as HOLDAMEK_ERASED, with payload NULL and length 0. For these three kinds `far` is 80 samples too, but any will do.
 * Writes to `what` one of enum holdamek_comparison; to `number`, for settling and not clean, the frame's number in the count (0: no frame has passed parity yet; it
 * stays at 32767), for differs the first sample, from 0, at which no computed decoder is left, else 0; to `rest`, for differs, the far sample minus the computed one
 * there, else 0. For known and differs the computed samples are written to `computed`, which otherwise stays as it was. To save a comparison keep the 2,203 words.
 * Refusals 1 to 7. */
uint32_t holdamek_compare(const int16_t *tables, size_t tables_length, int16_t *memory, size_t memory_length, uint32_t kind, const uint8_t *payload,
                          size_t payload_length, const int16_t *far, size_t far_length, int16_t *computed, size_t computed_length, uint32_t *what,
                          uint32_t *number, int32_t *rest);

#ifdef __cplusplus
}
#endif

#endif
