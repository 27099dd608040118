#!/usr/bin/env python3
"""Drops imports that a .antt file doesn't use, by its text alone.

usage: tools/drop_imports.py FOLDER..
"""
import os
import re
import sys

USE = re.compile(r"^use (?!.*\bas \w+$)([\w.+'-]+)\.\{([^}]*)\}$", re.M)


def used(name, body):
    as_ = name.split(" as ")
    name = as_[-1].strip()
    if "◌" in name:
        core = [p for p in name.split("◌") if p]
        return all(c in body for c in core) or name in body
    if name == "[]":
        return "[]" in body or "∷" in body
    return re.search(rf"(?<![\w'◌-]){re.escape(name)}(?![\w'◌-])", body) is not None


def turn(text):
    body = "\n".join(l for l in text.split("\n") if not l.startswith("use ") and not l.startswith("pub use ") and not l.startswith("--"))
    out = []
    for l in text.split("\n"):
        m = USE.match(l)
        if m:
            names = [n.strip() for n in m.group(2).split(",") if n.strip()]
            keep = [n for n in names if used(n, body)]
            if not keep:
                continue
            if keep != names:
                l = f"use {m.group(1)}.{{{', '.join(keep)}}}"
        elif re.match(r"use [\w.+'-]+\.Goals as goal$|use [\w.+'-]+\.Given as goal$", l):
            pass
        out.append(l)
    return "\n".join(out)


def main():
    n = 0
    for root in sys.argv[1:]:
        for folder, dirs, files in os.walk(root):
            dirs[:] = [d for d in dirs if d not in ("out", ".git")]
            for f in files:
                if f.endswith(".antt"):
                    p = os.path.join(folder, f)
                    t = open(p, encoding="utf-8").read()
                    u = turn(t)
                    if u != t:
                        open(p, "w", encoding="utf-8").write(u)
                        n += 1
    print(f"{n} files")


if __name__ == "__main__":
    main()
