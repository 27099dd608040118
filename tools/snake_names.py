#!/usr/bin/env python3
"""Brings the repository's own names in .antt files, contracts, edits and documents from hyphens to snake case, types to camel case.

usage: tools/snake_names.py          at the top of the repository, once, after the toolchain's port.py

A word with a hyphen stays where it is a library's: the file imports it from another crate than ours, or the library has it and
nothing in this repository that the file can see declares it. Names that the toolchain makes (`Need-..`, `After-..`) stay too.
"""
import collections
import os
import re
import sys

KIT = "/opt/rattle/rattle"
HYPHENED = re.compile(r"(?<![\w'◌/.-])([A-Za-z][\w'◌]*(?:-[\w'◌]+)+)(?![\w'◌-]|/)")
FIELD = re.compile(r"(?<=\.)([A-Za-z][\w'◌]*(?:-[\w'◌]+)+)(?![\w'◌-]|/)")
WORD = re.compile(r"(?<![\w'◌-])([A-Za-z][\w'◌]*(?:-[\w'◌]+)+)(?![\w'◌-])")
DECLARED = re.compile(r"(?:^|[\s({;,])((?:[A-Za-z_◌][\w'◌-]* +)*?[A-Za-z][\w'◌-]*)(?: *\{[^}\n]*\})* *:(?!:)")
MADE = re.compile(r"^(Need|After|Goal)-")


def files(root, ends):
    for folder, dirs, names in os.walk(root):
        dirs[:] = sorted(d for d in dirs if d not in ("out", ".git", "target"))
        for f in sorted(names):
            if f.endswith(ends):
                yield os.path.join(folder, f)


def read(path):
    with open(path, encoding="utf-8") as f:
        return f.read()


def code(line):
    """A line of .antt without its comment."""
    at = re.search(r"(?<!\S)--", line)
    return line[: at.start()] if at else line


def imports(text):
    """(module, words) of each `use` with a list."""
    for m in re.finditer(r"\buse ([\w.+'-]+?)\.\{([^}]*)\}", text):
        yield m.group(1), [w.strip().split(" as ")[0].strip() for w in m.group(2).split(",")]


def new(word):
    if MADE.match(word):
        return word
    if word == "accepted-tables":
        return "AcceptedTables"
    if word[0].isupper():
        return "".join(p[0].upper() + p[1:] for p in word.split("-"))
    return word.replace("-", "_")


def main():
    own = set(os.listdir("crates"))
    kit = set()
    for p in files(KIT, (".antt", ".rt")):
        kit |= set(WORD.findall(open(p, encoding="utf-8", errors="replace").read()))

    def ours(module):
        parts = module.split(".")
        return parts[0] == "Rattle" and len(parts) > 1 and parts[1] in own

    declared = set()
    for p in files("crates", (".antt",)):
        for line in read(p).split("\n"):
            for m in DECLARED.finditer(code(line)):
                declared |= set(WORD.findall(m.group(1)))
            m = re.match(r"\s*(?:pub )?(?:record|data|module) +([^\s:({]+)", line)
            if m:
                declared |= set(WORD.findall(m.group(1)))
            for m in re.finditer(r"\blet ([\w'-]+) *[:=]", line):
                declared |= set(WORD.findall(m.group(1)))
    # what port.py has respelled already, and edits and documents have not
    done_already = set()
    for p in files("crates", (".antt",)):
        for line in read(p).split("\n"):
            for m in DECLARED.finditer(code(line)):
                done_already |= set(re.findall(r"[A-Za-z][\w']*_[\w']*", m.group(1)))

    def known(w):
        return (w in declared and w not in kit) or w.replace("-", "_") in done_already

    said = collections.Counter()
    renamed = set()

    def turn(text, path, only_code):
        here = set()
        theirs = set()
        for module, words in imports(text):
            for w in words:
                for x in WORD.findall(w):
                    (here if ours(module) else theirs).add(x)
        for line in text.split("\n"):
            for m in DECLARED.finditer(code(line)):
                here |= set(WORD.findall(m.group(1)))
            for m in re.finditer(r"\blet ([\w'-]+) *[:=]", code(line)):
                here |= set(WORD.findall(m.group(1)))
            for m in re.finditer(r"^\s*([a-z][\w'-]*)(?: [^:]*)? = ", code(line)):
                if m.group(1) in declared:
                    here |= set(WORD.findall(m.group(1)))

        def word(m):
            w = m.group(1)
            if w in theirs and w not in here:
                return w
            if w in kit and w not in here and not (path.endswith(".edit") and known(w)):
                if w in declared:
                    said[f"left: {path}: {w}"] += 1
                return w
            if w not in declared and not only_code:
                return w
            renamed.add((w, new(w)))
            return new(w)

        out = []
        for line in text.split("\n"):
            if only_code:
                c = code(line)
                rest = line[len(c):]
                c = WORD.sub(word, c)
                rest = re.sub(r"`[^`]*`", lambda m: WORD.sub(word, m.group(0)), rest)
                out.append(c + rest)
            else:
                out.append(line)
        return "\n".join(out)

    def contracts(text, path):
        """Of a .rt file: ghost imports and clauses; elsewhere a word that this repository declares and that stands as one in backquotes."""
        here = set()
        for module, words in imports(text):
            for w in words:
                if ours(module):
                    here |= set(WORD.findall(w))
        out = []
        for line in text.split("\n"):
            at = line.find("//")
            c, rest = (line, "") if at < 0 else (line[:at], line[at:])

            def word(m):
                w = m.group(1)
                if w in here or known(w):
                    renamed.add((w, new(w)))
                    return new(w)
                return w

            c = WORD.sub(word, c)
            rest = re.sub(r"`[^`]*`", lambda m: WORD.sub(word, m.group(0)), rest)
            out.append(c + rest)
        return "\n".join(out)

    def edit(text, path):
        """Of a must-fail edit: its lines are of the file that it names."""
        m = re.search(r"(?m)^file: *(\S+)", text)
        of = os.path.join(os.path.dirname(os.path.dirname(path)), m.group(1)) if m else ""
        body = read(of) if os.path.exists(of) else ""
        ghost = of.endswith(".antt")
        out = []
        for line in text.split("\n"):
            if line.startswith(("old:", "new:")):
                turned = turn(body + "\n" + line[4:], path, True) if ghost else contracts(body + "\n" + line[4:], path)
                line = line[:4] + turned.split("\n")[-1]
            else:
                line = names(line)
            out.append(line)
        return "\n".join(out)

    apart = {f for d in ("tests", "oracle", "batch", "plot", "capture", "docs") for f in os.listdir(d)}

    def names(text):
        """Words in backquotes that this repository alone declares."""

        def word(m):
            w = m.group(1)
            return new(w) if known(w) and w not in apart else w

        return re.sub(r"`[^`\n]*`", lambda m: WORD.sub(word, m.group(0)), text)

    done = {}
    for p in files("crates", (".antt",)):
        done[p] = turn(read(p), p, True)
    for p in files("crates", (".rt",)):
        done[p] = contracts(read(p), p)
    for p in files("crates", (".edit",)):
        done[p] = edit(read(p), p)
    for p in ["README.md", *files("docs", (".md",))]:
        done[p] = names(read(p))
    for p, text in done.items():
        if text != read(p):
            with open(p, "w", encoding="utf-8") as f:
                f.write(text)
    for w, n in sorted(renamed):
        print(f"{w}\t{n}")
    for k, n in sorted(said.items()):
        print(f"{k} ({n})", file=sys.stderr)


if __name__ == "__main__":
    main()
