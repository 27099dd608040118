#!/usr/bin/env python3
"""RTP payloads in Python over the shared library, by ctypes: payload.py TABLES >frames. It takes five payloads apart, by RFC 3551: two
voice frames, a voice frame and a SID frame, no frame, 15 bytes, which are refused, and a SID frame alone. It prints
`(payload N (frames M))` for payload N, and then for each of its frames the line of a call and `(pcm H)`; for one that is refused
`(refused (code C) (payload N))`, and goes on with the next. Where the tables are refused it prints `(refused (code C) (line 0))`, with
exit status 1. Where standard output can't be written it says why on standard error, with exit status 2."""
import ctypes
import sys
from ctypes import POINTER, c_int16, c_size_t, c_uint8, c_uint32

sys.dont_write_bytecode = True
from decode import BYTES, DELAYS, FRAME_SAMPLES, LONGEST_LINE, RULES, STATE_WORDS, TABLE_WORDS, Refused, check, load, read_tables
from decode import FUNCTIONS as DECODING

# The payloads as they come off the wire, behind the headers of their packets.
PAYLOADS = [
    "53c519c3d125cefcb024 d3acd98e5c75ef2283b2",
    "d38259962f8c0b7dc45c f303",
    "",
    "d370576222696cbe9aaf 53e3d6dd53",
    "b9cf",
]


class FrameCount(ctypes.Structure):
    """struct holdamek_frame_count of include/holdamek.h."""

    _fields_ = [("code", c_uint32), ("frames", c_size_t)]


class FramePart(ctypes.Structure):
    """struct holdamek_frame_part."""

    _fields_ = [("code", c_uint32), ("kind", c_uint32), ("start", c_size_t), ("length", c_size_t)]


# What each function returns, and takes.
FUNCTIONS = {
    "holdamek_payload_frames": (FrameCount, BYTES, c_size_t),
    "holdamek_payload_frame": (FramePart, BYTES, c_size_t, c_size_t),
    "holdamek_write_line": (c_uint32, c_uint32, BYTES, c_size_t, BYTES, c_size_t, POINTER(c_size_t)),
}


def check_code(answer, *_):
    """Raises the refusal of a function's answer, if it is one; the answer may be a struct that has it as its code."""
    check(getattr(answer, "code", answer))
    return answer


def load_all():
    """The library of decode.py, with the functions above too."""
    library = load(DECODING)
    for name, (returned, *taken) in FUNCTIONS.items():
        function = getattr(library, name)
        function.argtypes, function.restype, function.errcheck = taken, returned, check_code
    return library


def frames(library, payload):
    """Each frame of a payload: its kind, and the part of the payload that it occupies, which isn't copied."""
    count = library.holdamek_payload_frames(payload, len(payload)).frames
    parts = [library.holdamek_payload_frame(payload, len(payload), index) for index in range(count)]
    return [(part.kind, (c_uint8 * part.length).from_buffer(payload, part.start)) for part in parts]


def run(library, path, out):
    """Takes the payloads apart, and returns the exit status."""
    state, samples = (c_int16 * STATE_WORDS)(), (c_int16 * FRAME_SAMPLES)()
    line, length, delays, rules = (c_uint8 * LONGEST_LINE)(), c_size_t(), (c_int16 * DELAYS)(), (c_uint32 * RULES)()
    try:
        tables = read_tables(path)
        library.holdamek_fresh_state(tables, TABLE_WORDS, state, STATE_WORDS)
    except Refused as refusal:
        out.write("(refused (code %d) (line 0))\n" % refusal.args)
        return 1
    for number, text in enumerate(map(bytes.fromhex, PAYLOADS), 1):
        try:
            parts = frames(library, (c_uint8 * len(text)).from_buffer_copy(text))
        except Refused as refusal:
            out.write("(refused (code %d) (payload %d))\n" % (*refusal.args, number))
            continue
        out.write("(payload %d (frames %d))\n" % (number, len(parts)))
        for kind, part in parts:
            library.holdamek_write_line(kind, part, len(part), line, LONGEST_LINE, length)
            library.holdamek_frame(tables, TABLE_WORDS, state, STATE_WORDS, kind, part, len(part), samples, FRAME_SAMPLES, delays, rules)
            out.write(bytes(line[: length.value]).decode() + "\n")
            out.write("(pcm %s)\n" % "".join("%04x" % (sample & 0xFFFF) for sample in samples))
    return 0


def main():
    if len(sys.argv) != 2:
        print("usage: payload.py TABLES", file=sys.stderr)
        return 2
    try:
        library = load_all()
        # Closed here, so that a full disk shows.
        with open(1, "w", encoding="ascii") as out:
            return run(library, sys.argv[1], out)
    except OSError as error:
        print(f"payload.py: {error}", file=sys.stderr)
        return 2


if __name__ == "__main__":
    sys.exit(main())
