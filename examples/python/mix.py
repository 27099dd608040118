#!/usr/bin/env python3
"""A conference in Python over the shared library, by ctypes: mix.py TABLES >heard. It has three legs of four frames: a G.711 leg, mu-law,
and two G.729 legs as lines of a call, each with a decoder of its own. For each frame and each leg it prints `(heard (leg L) (frame F))` and
behind it `(pcm H)`, what leg L heard in frame F: the sum of the two others, limited. Or it prints `(refused (code C) (line L))` as its last
form, with exit status 1. Where standard output can't be written it says why on standard error, with exit status 2."""
import sys
from ctypes import c_int16, c_size_t, c_uint8, c_uint32

sys.dont_write_bytecode = True
from decode import BYTES, DELAYS, FRAME_SAMPLES, PAYLOAD_BYTES, PAYLOAD_LENGTH, RULES, STATE_WORDS, TABLE_WORDS, WORDS, Refused, load, read_tables
from decode import FUNCTIONS as DECODING

FUNCTIONS = {
    **DECODING,
    "holdamek_g711_read": (c_uint32, BYTES, c_size_t, WORDS, c_size_t),
    "holdamek_mix": (WORDS, c_size_t, WORDS, c_size_t),
}
MU_LAW, LEGS = 2, 3

# A period of the G.711 leg: a square of 1 kHz, as loud as mu-law goes, so that sums with it meet the limit.
PERIOD = bytes.fromhex("0000000080808080")

# The frames of the two G.729 legs.
CALLS = [
    (b"(frame (voice 84431a08a153cc2d7387))", b"(frame (voice 845217f22f100d99679f))"),
    (b"(frame (voice 84f0190183e9cf496f85))", b"(frame (quiet))"),
    (b"(frame (voice 842b98af961f1097f20b))", b"(frame (voice 0409172a888431c0a6cc))"),
    (b"(frame (lost))", b"(frame (voice 8469173dfd8132de0c15))"),
]


def decode(library, tables, state, line, samples):
    """Decodes a line of a call to these samples."""
    kind, payload, delays, rules = c_uint32(), (c_uint8 * PAYLOAD_BYTES)(), (c_int16 * DELAYS)(), (c_uint32 * RULES)()
    library.holdamek_line(line, len(line), kind, payload, PAYLOAD_BYTES)
    library.holdamek_frame(tables, TABLE_WORDS, state, STATE_WORDS, kind, payload, PAYLOAD_LENGTH[kind.value], samples, FRAME_SAMPLES, delays, rules)


def hear(library, tables, states, lines):
    """What each leg heard in a frame. Each leg is decoded where it stands among the samples that are mixed."""
    legs, heard = ((c_int16 * FRAME_SAMPLES * LEGS)() for _ in range(2))
    tone = (c_uint8 * FRAME_SAMPLES)(*PERIOD * (FRAME_SAMPLES // len(PERIOD)))
    library.holdamek_g711_read(MU_LAW, tone, FRAME_SAMPLES, legs[0], FRAME_SAMPLES)
    for state, line, samples in zip(states, lines, legs[1:]):
        decode(library, tables, state, line, samples)
    library.holdamek_mix(legs[0], LEGS * FRAME_SAMPLES, heard[0], LEGS * FRAME_SAMPLES)
    return heard


def run(library, path, out):
    """Runs the conference, and returns the exit status."""
    states = [(c_int16 * STATE_WORDS)() for _ in range(2)]
    number = 0
    try:
        tables = read_tables(path)
        for state in states:
            library.holdamek_fresh_state(tables, TABLE_WORDS, state, STATE_WORDS)
        for number, lines in enumerate(CALLS, 1):
            for leg, samples in enumerate(hear(library, tables, states, lines), 1):
                out.write("(heard (leg %d) (frame %d))\n" % (leg, number))
                out.write("(pcm %s)\n" % "".join("%04x" % (sample & 0xFFFF) for sample in samples))
    except Refused as refusal:
        out.write("(refused (code %d) (line %d))\n" % (*refusal.args, number))
        return 1
    return 0


def main():
    if len(sys.argv) != 2:
        print("usage: mix.py TABLES", file=sys.stderr)
        return 2
    try:
        library = load(FUNCTIONS)
        # Closed here, so that a full disk shows.
        with open(1, "w", encoding="ascii") as out:
            return run(library, sys.argv[1], out)
    except OSError as error:
        print(f"mix.py: {error}", file=sys.stderr)
        return 2


if __name__ == "__main__":
    sys.exit(main())
