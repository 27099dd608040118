#!/usr/bin/env python3
"""The decoding program in Python over the shared library, by ctypes: decode.py TABLES <call >samples. It prints `(pcm H)` for each
frame and then `(total (frames N) (lost M))`, or `(refused (code C) (line L))` as its last form with exit status 1. Where the call
can't be read or the samples can't be written it says why on standard error, with exit status 2."""
import array
import binascii
import ctypes
import sys
from ctypes import POINTER, c_char_p, c_int16, c_size_t, c_uint8, c_uint32

# Sizes, refusals and functions are those of include/holdamek.h.
TABLE_WORDS, STATE_WORDS, FRAME_SAMPLES, PAYLOAD_BYTES, LONGEST_LINE = 1880, 234, 80, 10, 36
DELAYS, RULES, COUNTS = 4, 2, 7
PAYLOAD_LENGTH = (PAYLOAD_BYTES, 2, 0, 0)
TABLE_LENGTH, LINE_FORM = 1, 9
WORDS, BYTES, NUMBER = POINTER(c_int16), POINTER(c_uint8), POINTER(c_uint32)
FUNCTIONS = {
    "holdamek_fresh_state": (WORDS, c_size_t, WORDS, c_size_t),
    "holdamek_line": (c_char_p, c_size_t, NUMBER, BYTES, c_size_t),
    "holdamek_count": (c_uint32, c_uint32, c_uint32, c_uint32 * COUNTS),
    "holdamek_frame": (WORDS, c_size_t, WORDS, c_size_t, c_uint32, BYTES, c_size_t, WORDS, c_size_t, c_int16 * DELAYS, c_uint32 * RULES),
}


class Refused(Exception):
    """A refusal, with its number."""


def check(code, *_):
    """Raises the refusal of a function's answer, if it is one."""
    if code:
        raise Refused(code)


def load(functions):
    """The shared library that `make install` installs, each function with its types: without them ctypes would cut lengths to 32 bits."""
    library = ctypes.CDLL("libholdamek.so.0.10")
    for name, types in functions.items():
        function = getattr(library, name)
        function.argtypes, function.restype, function.errcheck = types, c_uint32, check
    return library


def read_tables(path):
    """The 1,880 words of a file, low byte first, as x86-64 has them."""
    data = b""
    try:
        with open(path, "rb") as file:
            data = file.read()
    except OSError as error:
        print(f"{path}: {error.strerror}", file=sys.stderr)
    if len(data) != 2 * TABLE_WORDS:
        raise Refused(TABLE_LENGTH)
    return (c_int16 * TABLE_WORDS).from_buffer_copy(data)


def decode(library, path, call, out):
    """Decodes the call, and returns the exit status."""
    state, payload = (c_int16 * STATE_WORDS)(), (c_uint8 * PAYLOAD_BYTES)()
    kind, delays, rules, counts = c_uint32(), (c_int16 * DELAYS)(), (c_uint32 * RULES)(), (c_uint32 * COUNTS)()
    samples = array.array("h", bytes(2 * FRAME_SAMPLES))
    lent = (c_int16 * FRAME_SAMPLES).from_buffer(samples)
    number = 0
    try:
        tables = read_tables(path)
        library.holdamek_fresh_state(tables, TABLE_WORDS, state, STATE_WORDS)
        for number, line in enumerate(iter(lambda: call.readline(LONGEST_LINE + 1), b""), 1):
            if not line.endswith(b"\n"):
                raise Refused(LINE_FORM)
            library.holdamek_line(line, len(line) - 1, kind, payload, PAYLOAD_BYTES)
            library.holdamek_frame(tables, TABLE_WORDS, state, STATE_WORDS, kind, payload, PAYLOAD_LENGTH[kind.value], lent, FRAME_SAMPLES, delays, rules)
            library.holdamek_count(kind, *rules, counts)
            samples.byteswap()
            out.write(b"(pcm %b)\n" % binascii.hexlify(samples))
    except Refused as refusal:
        out.write(b"(refused (code %d) (line %d))\n" % (refusal.args[0], number))
        return 1
    out.write(b"(total (frames %d) (lost %d))\n" % tuple(counts[:2]))
    return 0


def main():
    if len(sys.argv) != 2:
        print("usage: decode.py TABLES <call", file=sys.stderr)
        return 2
    try:
        library = load(FUNCTIONS)
        # Closed here, so that a full disk shows.
        with open(0, "rb") as call, open(1, "wb") as out:
            return decode(library, sys.argv[1], call, out)
    except OSError as error:
        print(f"decode.py: {error}", file=sys.stderr)
        return 2


if __name__ == "__main__":
    sys.exit(main())
