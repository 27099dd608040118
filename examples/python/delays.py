#!/usr/bin/env python3
"""Delays with their rules in Python over the shared library, by ctypes: delays.py TABLES >delays. It has ten frames as lines of a call, so that
every rule is among them. For each it prints the line and behind it `(delays (first T) (rule R) (second T) (rule R))`: the delay of each subframe
in thirds of a sample, and how it was found, by the number of its rule. Last it prints
`(counts (frames N) (lost M) (thirds A) (whole B) (relative C) (bad-parity D) (concealed E))`, or `(refused (code C) (line L))` with exit status 1.
Where standard output can't be written it says why on standard error, with exit status 2."""
import sys
from ctypes import c_int16, c_size_t, c_uint8, c_uint32

sys.dont_write_bytecode = True
from decode import BYTES, COUNTS, DELAYS, FRAME_SAMPLES, PAYLOAD_BYTES, PAYLOAD_LENGTH, RULES, STATE_WORDS, TABLE_WORDS, WORDS, Refused, load, read_tables
from decode import FUNCTIONS as DECODING

FUNCTIONS = {
    **DECODING,
    "holdamek_delays": (WORDS, c_uint32, BYTES, c_size_t, c_int16 * DELAYS, c_uint32 * RULES),
}
NAMES = "frames", "lost", "thirds", "whole", "relative", "bad-parity", "concealed"

# The word of a state that has the delay that is carried into the next frame.
CARRIED = 61

# P1 is 62, 196, 197, 86 with the P0 that fails parity, and 255; then no voice; then 3 with the P0 that fails parity, and 62.
CALL = [
    "(frame (voice 04690fb710df51b886fa))",
    "(frame (voice 0469311710df40b886fa))",
    "(frame (voice 0469315710df5fb886fa))",
    "(frame (voice 046915b710df49b886fa))",
    "(frame (voice 04693ff710df5fb886fa))",
    "(frame (sid f303))",
    "(frame (lost))",
    "(frame (quiet))",
    "(frame (voice 046900d710df50b886fa))",
    "(frame (voice 04690fb710df51b886fa))",
]


def run(library, path, out):
    """Decodes the call, and returns the exit status. holdamek_delays tells the rules before a frame is decoded, so that one that isn't counted
    isn't decoded either; what holdamek_frame then writes is the same."""
    state, samples, payload = (c_int16 * STATE_WORDS)(), (c_int16 * FRAME_SAMPLES)(), (c_uint8 * PAYLOAD_BYTES)()
    kind, delays, rules, counts = c_uint32(), (c_int16 * DELAYS)(), (c_uint32 * RULES)(), (c_uint32 * COUNTS)()
    number = 0
    try:
        tables = read_tables(path)
        library.holdamek_fresh_state(tables, TABLE_WORDS, state, STATE_WORDS)
        carried = c_int16(state[CARRIED])
        for number, line in enumerate(CALL, 1):
            library.holdamek_line(line.encode(), len(line), kind, payload, PAYLOAD_BYTES)
            length = PAYLOAD_LENGTH[kind.value]
            library.holdamek_delays(carried, kind, payload, length, delays, rules)
            library.holdamek_count(kind, *rules, counts)
            library.holdamek_frame(tables, TABLE_WORDS, state, STATE_WORDS, kind, payload, length, samples, FRAME_SAMPLES, delays, rules)
            first, second = 3 * delays[0] + delays[1], 3 * delays[2] + delays[3]
            out.write("%s\n(delays (first %d) (rule %d) (second %d) (rule %d))\n" % (line, first, rules[0], second, rules[1]))
    except Refused as refusal:
        out.write("(refused (code %d) (line %d))\n" % (*refusal.args, number))
        return 1
    out.write("(counts %s)\n" % " ".join("(%s %d)" % each for each in zip(NAMES, counts)))
    return 0


def main():
    if len(sys.argv) != 2:
        print("usage: delays.py TABLES", file=sys.stderr)
        return 2
    try:
        library = load(FUNCTIONS)
        # Closed here, so that a full disk shows.
        with open(1, "w", encoding="ascii") as out:
            return run(library, sys.argv[1], out)
    except OSError as error:
        print(f"delays.py: {error}", file=sys.stderr)
        return 2


if __name__ == "__main__":
    sys.exit(main())
