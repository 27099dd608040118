#!/usr/bin/env python3
"""G.711 legs in Python over the shared library, by ctypes: g711.py a|mu read <leg >samples reads the bytes of a leg, A-law or mu-law, and
prints `(pcm H)` for each 80 samples, and for those that are left; g711.py a|mu write <samples >leg turns these lines back into the leg.
A line of another form, or with a sample that isn't a value of the law, ends it with `(refused (code C) (line L))` on standard error and
exit status 1; what stood before that line is written. Where something can't be read or written it says why on standard error, with exit
status 2."""
import array
import re
import sys
from ctypes import c_int16, c_size_t, c_uint8, c_uint32

sys.dont_write_bytecode = True
from decode import BYTES, FRAME_SAMPLES, LINE_FORM, WORDS, Refused, load

LAWS = {"a": 1, "mu": 2}
FUNCTIONS = {
    "holdamek_g711_read": (c_uint32, BYTES, c_size_t, WORDS, c_size_t),
    "holdamek_g711_write": (c_uint32, WORDS, c_size_t, BYTES, c_size_t),
}
LINE = re.compile(rb"\(pcm ((?:[0-9a-f]{4}){1,80})\)\n")
LONGEST = len(b"(pcm )\n") + 4 * FRAME_SAMPLES


def read_leg(library, law, leg, out):
    """Prints the samples of a leg, and returns the exit status."""
    for part in iter(lambda: leg.read(FRAME_SAMPLES), b""):
        count = len(part)
        samples = array.array("h", bytes(2 * count))
        lent = (c_int16 * count).from_buffer(samples)
        library.holdamek_g711_read(law, (c_uint8 * count).from_buffer_copy(part), count, lent, count)
        samples.byteswap()
        out.write(b"(pcm %b)\n" % samples.tobytes().hex().encode())
    return 0


def write_leg(library, law, lines, out):
    """Writes the leg of these lines, and returns the exit status."""
    for number, line in enumerate(iter(lambda: lines.readline(LONGEST), b""), 1):
        try:
            found = LINE.fullmatch(line)
            if not found:
                raise Refused(LINE_FORM)
            samples = array.array("h", bytes.fromhex(found[1].decode()))
            samples.byteswap()
            count = len(samples)
            part = (c_uint8 * count)()
            library.holdamek_g711_write(law, (c_int16 * count).from_buffer(samples), count, part, count)
        except Refused as refusal:
            print("(refused (code %d) (line %d))" % (*refusal.args, number), file=sys.stderr)
            return 1
        out.write(part)
    return 0


def main():
    ways = {"read": read_leg, "write": write_leg}
    law, way = sys.argv[1:] if len(sys.argv) == 3 else ("", "")
    if law not in LAWS or way not in ways:
        print("usage: g711.py a|mu read <leg, g711.py a|mu write <samples", file=sys.stderr)
        return 2
    try:
        library = load(FUNCTIONS)
        # Closed here, so that a full disk shows.
        with open(0, "rb") as lent, open(1, "wb") as out:
            return ways[way](library, LAWS[law], lent, out)
    except OSError as error:
        print(f"g711.py: {error}", file=sys.stderr)
        return 2


if __name__ == "__main__":
    sys.exit(main())
