#!/usr/bin/env python3
"""Playout depths in Python over the shared library, by ctypes: playout.py >losses. It has the arrivals of 20 frames as a capture gives them,
by their times: some frames overtook others, two came twice, and one never came. For each depth from 0 to 200 ms, by tens, it prints
`(playout (depth D) (lost N) (kinds K))`: how many frames would be lost at that depth, and the kind of each, 0 voice or 3 lost. Or it prints
`(refused (code C) (line 0))` as its last form, with exit status 1. Where standard output can't be written it says why on standard error, with
exit status 2."""
import sys
from ctypes import c_size_t, c_uint32

sys.dont_write_bytecode = True
from decode import NUMBER, Refused, load

FUNCTIONS = {
    "holdamek_playout": (c_uint32, c_uint32, c_uint32, NUMBER, c_size_t, NUMBER, c_size_t, NUMBER, c_size_t, NUMBER),
}
FRAMES, START = 20, 1000

# Which frame arrived, and when, in milliseconds: frame i was sent at 1000 + 10 i.
ARRIVALS = [
    (0, 1012), (1, 1025), (2, 1029), (4, 1062), (3, 1068), (6, 1077), (11, 1130), (7, 1130), (8, 1135), (9, 1136), (10, 1137),
    (12, 1140), (14, 1170), (15, 1178), (18, 1199), (15, 1203), (17, 1211), (13, 1240), (13, 1268), (16, 1340), (19, 1410),
]


def run(library, out):
    """Tries the depths, and returns the exit status."""
    count, lost, kinds = len(ARRIVALS), c_uint32(), (c_uint32 * FRAMES)()
    numbers, times = ((c_uint32 * count)(*each) for each in zip(*ARRIVALS))
    try:
        for depth in range(0, 201, 10):
            library.holdamek_playout(FRAMES, START, depth, numbers, count, times, count, kinds, FRAMES, lost)
            out.write("(playout (depth %d) (lost %d) (kinds %s))\n" % (depth, lost.value, "".join(map(str, kinds))))
    except Refused as refusal:
        out.write("(refused (code %d) (line 0))\n" % refusal.args)
        return 1
    return 0


def main():
    if len(sys.argv) != 1:
        print("usage: playout.py", file=sys.stderr)
        return 2
    try:
        library = load(FUNCTIONS)
        # Closed here, so that a full disk shows.
        with open(1, "w", encoding="ascii") as out:
            return run(library, out)
    except OSError as error:
        print(f"playout.py: {error}", file=sys.stderr)
        return 2


if __name__ == "__main__":
    sys.exit(main())
