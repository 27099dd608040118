# What the tests of the programs share: made-up calls, the programs, a folder to work in, and the counts of what holds. No trained table value: the tables are the made-up ones of examples.
import atexit, os, random, shutil, stat, subprocess, sys, tempfile

ROOT = os.path.dirname(os.path.dirname(os.path.abspath(__file__)))
RESUME = os.path.abspath(os.environ.get("RESUME", os.path.join(ROOT, "crates/resume/out/resume")))
COMPARE = os.path.abspath(os.environ.get("COMPARE", os.path.join(ROOT, "crates/compare/out/compare")))
PAYLOADS = os.path.abspath(os.environ.get("PAYLOADS", os.path.join(ROOT, "crates/payloads/out/payloads")))
G711_LEG = os.path.abspath(os.environ.get("G711_LEG", os.path.join(ROOT, "crates/g711_leg/out/g711_leg")))
CONFERENCE = os.path.abspath(os.environ.get("CONFERENCE", os.path.join(ROOT, "crates/conference/out/conference")))
DEPTHS = os.path.abspath(os.environ.get("DEPTHS", os.path.join(ROOT, "crates/depths/out/depths")))
DELAYS = os.path.abspath(os.environ.get("DELAYS", os.path.join(ROOT, "crates/delays/out/delays")))
DECODE = os.path.abspath(os.environ.get("DECODE", os.path.join(ROOT, "crates/decode/out/decode")))
TABLES = os.path.join(ROOT, "examples/tables.g729")
VERSION = b"holdamek 0.10.0\n"


def a_line(r):
    kind = r.choices(["voice", "sid", "quiet", "lost"], [80, 5, 5, 10])[0]
    digits = {"voice": 20, "sid": 4}.get(kind, 0)
    if digits == 0:
        return "(frame (%s))\n" % kind
    return "(frame (%s %0*x))\n" % (kind, digits, r.getrandbits(4 * digits))


def a_call(seed, frames):
    r = random.Random(seed)
    return "".join(a_line(r) for _ in range(frames)).encode()


# How many subframes of a call's lines have each of the rules 1 to 5. P1 and P0 of a voice frame stand behind 18 bits; it passes parity where P0 and the six high bits of P1 have an odd number of ones
# (ITU-T G.729 clause 3.7.2).
def by_rule(lines):
    found = []
    for line in lines:
        if not line.startswith(b"(frame (voice "):
            found += [5, 5]
            continue
        p1, p0 = int(line[14:34], 16) >> 54 & 255, int(line[14:34], 16) >> 53 & 1
        found += [4 if (bin(p1 >> 2).count("1") + p0) % 2 == 0 else 1 if p1 < 197 else 2, 3]
    return [found.count(rule) for rule in range(1, 6)]


# A new folder with the tables in it, which the programs read in their working folder. It goes when the test ends.
def folder():
    d = tempfile.mkdtemp(prefix="holdamek-")
    atexit.register(shutil.rmtree, d, ignore_errors=True)
    shutil.copyfile(TABLES, os.path.join(d, "tables.g729"))
    return d


def get(path):
    with open(path, "rb") as f:
        return f.read()


def put(path, data):
    with open(path, "wb") as f:
        f.write(data)


# What the whole call prints.
def whole(d, text):
    return subprocess.run([DECODE], input=text, cwd=d, stdout=subprocess.PIPE, check=True).stdout


# A run of a program in folder d: its exit status, standard output and standard error. A program that waits for a pipe is ended, with status None.
def run(d, program, *words, stdin=b"", timeout=60):
    try:
        return subprocess.run([program] + list(words), cwd=d, input=stdin, stdout=subprocess.PIPE, stderr=subprocess.PIPE, timeout=timeout)
    except subprocess.TimeoutExpired as e:
        return subprocess.CompletedProcess(e.cmd, None, e.stdout or b"", e.stderr or b"")


def resume(d, *words):
    return run(d, RESUME, *words, timeout=600)


# Everything in a folder, by name: the kind of file, which file it is, when it was last written or changed, and its bytes.
def contents(d):
    found = {}
    for at, folders, files in os.walk(d):
        for name in folders + files:
            path = os.path.join(at, name)
            s = os.lstat(path)
            data = get(path) if stat.S_ISREG(s.st_mode) else os.readlink(path) if stat.S_ISLNK(s.st_mode) else None
            found[os.path.relpath(path, d)] = (s.st_mode, s.st_ino, s.st_nlink, s.st_mtime_ns, data)
    return found


def refusal(code):
    return b"(refused (code %d) (line 0))\n" % code


# Ends the test where something doesn't hold.
def expect(holds, what):
    if not holds:
        print("FAILED: " + what)
        sys.exit(1)


counts = {True: 0, False: 0}


# Counts what holds, and says what doesn't, with what was seen.
def check(holds, what, seen=None):
    counts[bool(holds)] += 1
    if not holds:
        print("failed: %s%s" % (what, "" if seen is None else ": %.300r" % (seen,)))


# The last line of a test that counts.
def finish():
    print("%d passed, %d failed" % (counts[True], counts[False]))
    sys.exit(0 if counts[False] == 0 else 1)
