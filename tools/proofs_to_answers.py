#!/usr/bin/env python3
"""Turns a crate's Proof.antt files that close by `tie.spec` to Invariants.antt and Answers.antt.

usage: tools/proofs_to_answers.py NAMES.json crates/NAME..

NAMES.json is what `rt check --generated DIR --old-names` writes. An answer that is `search rules` alone is left out.
"""
import json
import os
import re
import sys

OPEN, CLOSE = "([{", ")]}"


def norm(w):
    return w.replace("-", "_")


def parts(text, ends):
    """The parts of a text between characters that `ends` takes, outside brackets."""
    out, depth, cur = [], 0, ""
    for ch in text:
        depth += (ch in OPEN) - (ch in CLOSE)
        if depth == 0 and ends(ch):
            out.append(cur.strip())
            cur = ""
        else:
            cur += ch
    return [p for p in [*out, cur.strip()] if p]


def top_split(text):
    """The arguments of a call."""
    return parts(text, str.isspace)


def commas(text):
    """The parts of a tuple."""
    return parts(text, ",".__eq__)


def inner(text):
    """What stands in the outermost brackets, if they hold the whole."""
    t = text.strip()
    if not t.startswith("("):
        return None
    depth = 0
    for i, ch in enumerate(t):
        if ch in OPEN:
            depth += 1
        if ch in CLOSE:
            depth -= 1
            if depth == 0:
                return t[1:i] if i == len(t) - 1 else None
    return None


class Decl:
    def __init__(self):
        self.comments, self.name, self.head, self.type, self.unfolding, self.clauses, self.raw = [], None, "", "", [], [], False


def parse(text):
    lines = text.split("\n")
    head, uses, decls, pending = [], [], [], []
    cur = None
    i = 0
    while i < len(lines):
        l = lines[i]
        if not l.strip():
            if cur and cur.clauses:
                cur = None
            i += 1
            continue
        if l.startswith("--"):
            if not uses and not decls:
                head.append(l)
            else:
                pending.append(l)
                cur = None
        elif l.startswith("use "):
            uses.append(l)
        elif l.startswith("unfolding "):
            cur.unfolding.append(l)
        elif l[0].isspace() or l[0] in CLOSE:
            if not cur.clauses:
                cur.type += "\n" + l
            else:
                cur.clauses[-1] += "\n" + l
        else:
            if re.match(r"(pub )?(record|data|module) ", l):
                cur = Decl()
                cur.comments, pending = pending, []
                cur.name, cur.raw = " " + l, True
                cur.clauses = [l]
                decls.append(cur)
                i += 1
                continue
            m = re.match(r"((?:abbrev |pub |unfoldable )*)([^\s:{(]+)((?: *\{[^}]*\})*) : (.*)$", l)
            if m and not (cur and cur.name == m.group(2) and cur.clauses == [] and re.match(r"[^:]*=", l)):
                cur = Decl()
                cur.comments, pending = pending, []
                cur.head, cur.name, cur.type = m.group(1), m.group(2), m.group(4)
                cur.extra = m.group(3)
                decls.append(cur)
            else:
                if cur is None:
                    raise ValueError("loose line: " + l)
                cur.clauses.append(l)
        i += 1
    return head, uses, decls


PATH = re.compile(r"(?<![\w'₀-₉.◌-])([A-Za-z_κ][\w'₀-₉]*)((?:\.[\w'₀-₉«»-]+)*)(?![\w'₀-₉-])")


class Conv:
    def __init__(self, entry, clauses, crate, fn):
        self.e, self.clauses, self.crate, self.fn = entry, clauses, crate, fn
        self.parent, self.field, self.callee, self.newplace = {}, {}, {}, {}
        for p, n in zip(entry["places"], entry["places_by_name"]):
            self.parent[norm(p[0])] = norm(p[1]) if p[1] else None
            self.field[norm(p[0])] = (norm(p[2][0]), p[2][1])
            self.callee[norm(p[0])] = p[3]
            self.newplace[norm(p[0])] = n
        self.arm = {norm(p[0]): a for p, a in zip(entry["places"], entry["arms"]) if a}
        self.argmap = {}
        for old, new in entry["args"]:
            o, n = old.replace(" ", "").strip("."), new.replace(" ", "").strip(".")
            self.argmap[tuple(norm(x) for x in o.split("."))] = n.split(".")
        self.warn = []
        self.helpers = {}
        self.lemmas = set()

    def names_of(self, callee, kind):
        if not callee:
            return []
        return self.clauses.get(callee, {}).get(kind, [])

    def clause(self, parts, names):
        """`.0`, `.1.0` .. of several clauses, by their names."""
        if len(names) < 2:
            return parts
        k, i = 0, 0
        while i < len(parts) and parts[i] in ("0", "1"):
            if parts[i] == "0":
                return [names[k]] + parts[i + 1:]
            k += 1
            i += 1
            if k == len(names) - 1:
                return [names[k]] + parts[i:]
        self.warn.append("clauses " + ".".join(parts))
        return parts

    def at(self, place, parts, var):
        """The path of a step's field, if the step is this place's."""
        f, rest = parts[0], parts[1:]
        if place in self.arm:
            name, _, facts = self.arm[place]
            for new, step, was in facts:
                if norm(f) == norm(step) and [norm(x) for x in rest[: len(was)]] == [norm(x) for x in was]:
                    return var + "." + ".".join([name, new] + rest[len(was):])
        own = self.field.get(place, ("", ""))
        if own[0] and norm(f).lower() == own[0].lower():
            if rest[:1] == ["ensures"]:
                rest = ["ensures"] + self.clause(rest[1:], self.names_of(self.callee[place], "ensures"))
            if rest[:1] in (["new"], ["auto"]) and rest[1:2] in (["0"], ["1"]):
                k = 1
                while k < len(rest) and rest[k] == "1":
                    k += 1
                names = self.e["params"].get(self.callee[place] or "", [])
                if k < len(rest) and rest[k] == "0" and k - 1 < len(names):
                    rest = [rest[0], names[k - 1]] + rest[k + 1:]
                else:
                    self.warn.append("new of " + str(self.callee[place]))
            return var + "." + ".".join([own[1]] + rest)
        return None

    def path(self, base, place, parts, var="c"):
        while parts and parts[0] == "before":
            place = self.parent.get(place)
            parts = parts[1:]
        if not parts:
            return place, None
        for k, n in self.argmap.items():
            if tuple(norm(x) for x in parts[: len(k)]) == k:
                parts = n + parts[len(k):]
                break
        f = parts[0]
        rest = parts[1:]
        if place is not None:
            found = self.at(place, parts, var)
            if found:
                return place, found
        # the step of another place on the way, by its name
        up = base
        while up is not None:
            found = self.at(up, parts, var)
            if found:
                return place, found
            up = self.parent.get(up)
        # a name that was counted, or had capitals, before
        bare = re.sub(r"([a-z])([A-Z])", r"\1_\2", f).lower()
        for g in (re.sub(r"\d+$", "", f), bare, re.sub(r"\d+$", "", bare)):
            if g != f and f not in ("args", "requires", "ranges"):
                up = base
                while up is not None:
                    found = self.at(up, [g] + rest, var)
                    if found:
                        return place, found
                    up = self.parent.get(up)
        if f == "requires":
            rest = self.clause(rest, self.names_of(self.crate + "::" + self.fn, "requires"))
        if f in ("well-formed", "well_formed"):
            f = "well_formed"
        elif not f.startswith(("told", "fits-")) and f not in ("args", "requires", "ranges", "lifetimes", "type_inv", "measure"):
            self.warn.append(f"field {f} at {place}")
        return place, var + "." + ".".join([f] + rest)

    def expr(self, text, place, need, var="c"):
        """The text of an answer at a place, with the paths of today."""
        alias = {var: place}
        # aliases by let
        while True:
            m = re.search(r"let ([\w'₀-₉]+) = ([\w'₀-₉]+)((?:\.before)*) in\s*", text)
            done = False
            for m in re.finditer(r"let ([\w'₀-₉]+) = ([\w'₀-₉]+)((?:\.[\w'₀-₉«»-]+)*) in\s*", text):
                root, parts = m.group(2), [x for x in m.group(3).split(".") if x]
                if root in alias and all(x == "before" for x in parts) and not isinstance(alias[root], str) is False:
                    p = alias[root]
                    for _ in parts:
                        p = self.parent.get(p)
                    alias[m.group(1)] = p
                    text = text[: m.start()] + text[m.end():]
                    done = True
                    break
            if not done:
                break

        def sub(m):
            root, parts = m.group(1), [x for x in m.group(2).split(".") if x]
            if root not in alias:
                return m.group(0)
            p, out = self.path(place, alias[root], parts)
            if out is None:
                # a helper says of which place it speaks
                before = re.search(r"([\w'₀-₉]+) +\(?$", text[: m.start()])
                if before and before.group(1) in self.helpers:
                    p = self.helpers[before.group(1)]
                    if before.group(1) in self.lemmas:
                        if need is None and p == place:
                            return var
                        return f"(goal.at.{need or self.newplace.get(place)} {var}).{self.newplace.get(p, '?')}"
                up, q = "", place
                while q != p and q is not None:
                    q, up = self.parent.get(q), up + ".before"
                return var + up
            return out

        text = PATH.sub(sub, text)
        # an alias of a call's clauses
        for m in list(re.finditer(r"let ([\w'₀-₉]+) = c\.([\w'«»-]+)\.ensures in", text)):
            callee = next((self.callee[p] for p, f in self.field.items() if f[1] == m.group(2)), None)
            names = self.names_of(callee, "ensures")
            if len(names) > 1:
                text = re.sub(rf"(?<![\w.]){m.group(1)}((?:\.[01])+)(?![\w])", lambda q: m.group(1) + "." + ".".join(self.clause(q.group(1)[1:].split("."), names)), text)
        # an alias of a call's step
        for m in list(re.finditer(r"let ([\w'₀-₉]+) = c\.([\w'«»-]+) in", text)):
            callee = next((self.callee[p] for p, f in self.field.items() if f[1] == m.group(2)), None)
            x = m.group(1)
            names = self.names_of(callee, "ensures")
            if len(names) > 1:
                text = re.sub(rf"(?<![\w.]){x}\.ensures((?:\.[01])+)(?![\w])", lambda q: x + ".ensures." + ".".join(self.clause(q.group(1)[1:].split("."), names)), text)
            params = self.e["params"].get(callee or "", [])
            if params:
                text = re.sub(rf"(?<![\w.]){x}\.(new|auto)((?:\.1)*)\.0(?![\w])", lambda q: f"{x}.{q.group(1)}.{params[q.group(2).count('1')]}", text)
        # a call's step is a record of its own today, so what it gives is cited by its fields
        text = re.sub(r"\bcame (w\d+) ([A-Za-z][\w'₀-₉.«»-]*)", r"via \1 \2.result \2.type_inv", text)
        text = re.sub(r"\bfits_came (w\d+) ([A-Za-z][\w'₀-₉.«»-]*)", r"fits_by \1 \2.result \2.type_inv", text)
        text = re.sub(r"\b(to_z w\d+ c\.loop-[\w'«»-]+\.(?!invariant)[\w'«»-]+)", r"\1-bits", text)
        # a test of `!x` says of x itself what it says
        text = re.sub(r"\bnot-(true|false) (\((?:[^()]|\([^()]*\))*\)|\S+) (c\.if-not[\w'.«»-]*\.(?:true|false))", r"\3", text)
        return text


def contracts_of(root):
    """crate::path::fn -> names of its clauses, in order."""
    out = {}
    for crate in sorted(os.listdir(os.path.join(root, "crates"))):
        src = os.path.join(root, "crates", crate, "src")
        if not os.path.isdir(src):
            continue
        for f in sorted(os.listdir(src)):
            if not f.endswith(".rt"):
                continue
            mod = [] if f in ("lib.rt", "main.rt") else [f[:-3]]
            impl = None
            fn = None
            for l in open(os.path.join(src, f), encoding="utf-8"):
                m = re.match(r"impl(?:<[^>]*>)? (?:\w+ for )?(\w+)", l)
                if m:
                    impl = m.group(1)
                if l.startswith("}"):
                    impl = None
                m = re.match(r"\s*(?:pub(?:\([^)]*\))? )?(?:const )?(?:unsafe )?(?:extern \"C\" )?fn (\w+)", l)
                if m:
                    fn = "::".join([crate] + mod + ([impl] if impl and l[0].isspace() else []) + [m.group(1)])
                    out[fn] = {"ensures": [], "requires": []}
                for m in re.finditer(r"^\s+(requires|ensures) (\w+) \{", l):
                    if fn:
                        out[fn][m.group(1)].append(m.group(2))
    return out


def shadowed(text, names):
    """Marks what a λ binds under a name that is also a variable of the loop."""
    at = 0
    while True:
        m = re.compile(r"λ ([^.λ]*)\. ").search(text, at)
        if not m:
            return text
        bound = [w for w in re.findall(r"[A-Za-z_][\w']*", re.sub(r":[^)]*", "", m.group(1))) if w in names]
        depth, k = 0, m.start()
        while k < len(text):
            if text[k] in OPEN:
                depth += 1
            if text[k] in CLOSE:
                depth -= 1
                if depth < 0:
                    break
            k += 1
        scope = text[m.start():k]
        for w in bound:
            scope = re.sub(rf"(?<![\w.]){w}(?![\w§'-])", w + "§", scope)
        text = text[: m.start()] + scope + text[k:]
        at = m.start() + 2


def joins(text, entry, goal_types):
    """Where two branches join: `⊎_elim (λ w. A) (λ w. B) c.if-x.branch` becomes an `elim` with a case for each."""
    while True:
        at = text.find("⊎_elim ")
        if at < 0:
            return text
        rest = text[at + len("⊎_elim "):]
        parts, depth, k = [], 0, 0
        cur = ""
        while k < len(rest) and len(parts) < 3:
            ch = rest[k]
            if ch in OPEN:
                depth += 1
            if ch in CLOSE:
                if depth == 0:
                    break
                depth -= 1
            if depth == 0 and (ch.isspace() or ch in ",") and cur:
                parts.append(cur)
                cur = ""
                if ch == ",":
                    break
            elif depth > 0 or not ch.isspace():
                cur += ch
            k += 1
        if cur and len(parts) < 3:
            parts.append(cur)
        if len(parts) != 3:
            return text
        end = text.index(parts[2], at) + len(parts[2])
        m = re.match(r"c\.(if-[\w'-]+)\.branch$", parts[2])
        if not m:
            return text.replace("⊎_elim ", "⊎-elim ", 1)
        step = m.group(1)
        name = step[3:]
        vs = [v for loop, ch in zip(entry["loops"], entry["changed"]) for v, x in zip(loop[1], ch) if x and loop[0][1] != "loop-" + v]
        var = vs[0] if vs else "x"

        def case(part, which):
            b = re.match(r"λ (\w+)\. (.*)$", inner(part), re.S)
            w = b.group(1)
            b = b.group(2)
            b = re.sub(rf"\b{w}\.0\.(taken|left)", lambda q: f"{w}.{step}." + ("true" if q.group(1) == "taken" else "false"), b)
            return f"{which}-{name} {w} ↦ " + re.sub(rf"\b{w}\.1(?![\w.])", f"{w}.{var}-is", b)

        goal_types |= {"then-" + name, "else-" + name}
        text = text[:at] + f"elim {parts[2]} [ {case(parts[0], 'then')} | {case(parts[1], 'else')} ]" + text[end:]


def strip_lambda(a):
    t = inner(a)
    t = t if t is not None else a
    m = re.match(r"\s*λ (c(?: κs)?)\.\s*(.*)$", t, re.S)
    return m.group(2) if m else None


def tupled(body, names):
    """The body of an answer for several clauses."""
    m = re.match(r"((?:\s*let .*? in\b)*)(.*)$", body, re.S)
    # the last bracket that ends the body
    at = None
    depth = 0
    for i in range(len(body) - 1, -1, -1):
        ch = body[i]
        if ch in CLOSE:
            depth += 1
        elif ch in OPEN:
            depth -= 1
            if depth == 0:
                at = i
                break
        elif depth == 0 and not ch.isspace():
            break
    if at is not None:
        before = body[:at].rstrip()
        parts = commas(inner(body[at:].strip()) or "")
        if (before == "" or before.endswith(" in") or before == "in") and len(parts) >= 2:
            flat = parts
            while len(flat) < len(names) and inner(flat[-1]) and len(commas(inner(flat[-1]))) > 1:
                flat = flat[:-1] + commas(inner(flat[-1]))
            while len(flat) < len(names) and flat[-1] == "search rules":
                flat = flat + ["search rules"]
            if len(flat) > len(names):
                flat = flat[: len(names) - 1] + ["(" + ", ".join(flat[len(names) - 1:]) + ")"]
            if len(flat) == len(names):
                return before + ("\n    " if before else "") + "record { " + "; ".join(f"{n} = {p}" for n, p in zip(names, flat)) + " }"
    b = body.strip()
    if b == "search rules":
        return "record { " + "; ".join(f"{n} = search rules" for n in names) + " }"
    if len(names) == 2:
        return f"let all = {b} in record {{ {names[0]} = all.0; {names[1]} = all.1 }}"
    if len(names) == 3:
        return f"let all = {b} in record {{ {names[0]} = all.0; {names[1]} = all.1.0; {names[2]} = all.1.1 }}"
    return body


def aligned(answers, needs, byname):
    """The answers in the order of the goals, where some goals are gone: named answers by their goal's name, the others by their place between these."""

    def trivial(a):
        b = strip_lambda(a)
        return b is not None and b.strip() in ("search rules", "omega arith")

    anchors = {}
    for i, a in enumerate(answers):
        d = byname.get(a)
        m = re.match(r"\s*tie\.Need-(\S+)", d.type) if d else None
        if m:
            k = norm(m.group(1))
            hit = [j for j, n in enumerate(needs) if norm(n[0]) == k] or [j for j, n in enumerate(needs) if norm(n[1]) == k]
            hit = [j for j in hit if j not in anchors.values()]
            if hit:
                anchors[i] = hit[0]
    out = ["(λ c. search rules)"] * len(needs)
    for i, j in anchors.items():
        out[j] = answers[i]
    last_i, last_j = -1, -1
    for i in sorted(anchors) + [len(answers)]:
        j = anchors.get(i, len(needs))
        between = list(range(last_i + 1, i))
        room = [x for x in range(last_j + 1, j) if x not in anchors.values()]
        loose = [x for x in between if x not in anchors and not trivial(answers[x])]
        if loose:
            if len(room) == len(between):
                for x, y in zip(between, room):
                    out[y] = answers[x]
            elif len(room) == len(loose):
                for x, y in zip(loose, room):
                    out[y] = answers[x]
            else:
                raise ValueError(f"{len(answers)} answers for {len(needs)} goals: {[n[1] for n in needs]}; loose: {[answers[x][:60] for x in loose]}")
        last_i, last_j = i, j
    return out


def turn(path, entry, clauses, crate, modpath, out):
    text = open(path, encoding="utf-8").read()
    head, uses, decls = parse(text)
    fn = "::".join(modpath)
    conv = Conv(entry, clauses, crate, fn)
    byname = {d.name: d for d in decls}
    spec = next(d for d in decls if d.name.endswith("_spec"))
    body = "\n".join(spec.clauses).split("=", 1)[1]
    m = re.search(r"tie\.close\s*\(tie\.spec(.*)\)\s*$", body, re.S) or re.search(r"tie\.close\s*(tie\.spec)\s*$", body, re.S)
    if not m:
        raise ValueError("no tie.spec")
    args = top_split(m.group(1)) if m.group(1) != "tie.spec" else []
    # (λ c. x) may have been split at the top level? it stands in brackets always
    loops = entry["loops"]
    ninv = sum(2 for _ in loops)
    needs = entry["needs"]
    given, answers = args[:ninv], args[ninv:]
    if len(answers) != len(needs):
        answers = aligned(answers, needs, byname)
    uses = [re.sub(r"\bcame\b", "via", u) if "Back.{" in u and "via" not in u else u for u in uses]
    uses = [re.sub(r"\bfits_came\b", "fits_by", u) if "Back.{" in u else u for u in uses]
    base = [u for u in uses if not re.search(r"\.(Statement|Tie)\b", u) and "borrow.Author.Rules" not in u]
    rules = "use Rattle.std.proofs.Common.{rules}"
    dotted = ".".join(modpath)
    inv_lines, ans_lines, used_helpers = [], [], []
    goal_types = set()
    for d in decls:
        if d is spec:
            continue
        t = d.type.replace("\n", " ")
        gm = re.match(r"\s*tie\.(\S+)", t)
        if d.name in given:
            k = given.index(d.name)
            (old, new), vs = loops[k // 2][0], loops[k // 2][1]
            kind = "invariant" if k % 2 == 0 else "decreases"
            changed = entry["changed"][k // 2]
            m = re.match(r"(\S+)((?: [^=]*?)?) =(.*)$", "\n".join(d.clauses), re.S)
            L = next(x for x in ("l", "at", "it") if not re.search(rf"(?<![\w.]){x}(?!\w)", m.group(3)))
            params = m.group(2).split()
            first = [v for v in vs]
            want = len(vs) + sum(changed)
            if len(params) != want:
                raise ValueError(f"{d.name}: {len(params)} parameters for {want}: {params} {vs} {changed}")
            sub = {}
            for v, ch, p in zip(vs, changed, params):
                sub[p] = (L + ".initial." if ch else L + ".") + v
            rest = [v for v, ch in zip(vs, changed) if ch]
            for v, p in zip(rest, params[len(vs):]):
                sub[p] = L + "." + v
            b = m.group(3)

            def s(mm):
                if mm.group(1) in sub:
                    return sub[mm.group(1)] + mm.group(2)
                return mm.group(0)

            pat = re.compile(r"(?<![\w'₀-₉.◌-])([A-Za-zκ_«][\w'₀-₉»-]*)((?:\.[\w'₀-₉«»-]+)*)(?![\w'₀-₉◌§])")
            b = pat.sub(s, shadowed(b, sub)).replace("§", "")
            # a signed variable is a number in an invariant of today
            b = re.sub(rf"\(to_z w\d+ ({L}\.[\w.«»-]+)\)", r"\1", b)
            b = re.sub(rf"\bto_z w\d+ ({L}\.[\w.«»-]+)", r"\1", b)
            inv_lines += d.comments + [f"abbrev pub {kind}-{new} : goal.{kind}-{new}"] + d.unfolding + [f"{kind}-{new} {L} ={b}", ""]
            continue
    # helpers and answers
    for d in decls:
        hm = re.search(r"\([\w'₀-₉]+ : tie\.(\S+?)(?: invariant_\w+| decreases_\w+)*\)", d.type)
        if hm:
            conv.helpers[d.name] = norm(hm.group(1))
            conv.lemmas.add(d.name)
    position = {}
    for i, a in enumerate(answers):
        if re.fullmatch(r"[\w'₀-₉-]+", a):
            conv.helpers[a] = norm(entry["asked_at"][i][0])
    for i, a in enumerate(answers):
        if re.fullmatch(r"[\w'₀-₉-]+", a):
            position.setdefault(a, []).append(i)
    emitted = set()

    def cited(text):
        """An answer that another one cites, at its place."""

        def sub(m):
            n = m.group(1)
            if n not in position:
                return m.group(0)
            new = needs[position[n][0]][1]
            return new

        return re.sub(r"(?<![\w'₀-₉.◌-])([A-Za-z][\w'₀-₉]*)(?![\w'₀-₉.-])(?= +c\b)", sub, text)

    def answer(i, body, unf, comments, more=""):
        old, new = needs[i]
        place = norm(entry["asked_at"][i][0])
        b = conv.expr(body, place, new)
        names = entry["asked"].get(old) or entry["asked"].get(new)
        if not names and new.endswith("-requires") or (names is None and re.search(r"-requires(-|$)", new)):
            callee = None
            # the callee of that call, by its name
            base_name = re.sub(r"-requires.*", "", new)
            for k, v in conv.clauses.items():
                if k.split("::")[-1] == base_name.split("-")[0] and (k.startswith(crate + "::") or callee is None):
                    if len(v["requires"]) > 1:
                        callee = k
            names = conv.names_of(callee, "requires") if callee else None
        if names and len(names) > 1:
            b = tupled(b, names)
        b = joins(cited(b), entry, goal_types)
        sep = "" if b.startswith("\n") or b.startswith(" ") else " "
        return comments + [f"pub {new} : goal.{new}"] + unf + [f"{new} c{more} ={sep}{b}", ""]

    for d in decls:
        if d is spec or d.name in given:
            continue
        if d.raw:
            ans_lines += d.comments + d.clauses + [""]
        elif d.name in position:
            if len(d.clauses) != 1:
                raise ValueError(f"{d.name} has {len(d.clauses)} clauses")
            m = re.match(r"(\S+) c(?: κs)?((?: \w+)*) =(.*)$", d.clauses[0], re.S)
            if not m:
                m0 = re.match(r"(\S+) =(.*)$", d.clauses[0], re.S)
                raise ValueError(f"{d.name}: {d.clauses[0][:60]}")
            for k in position[d.name]:
                others = "\n".join("\n".join(x.clauses) for x in decls if x is not d)
                if m.group(3).strip() == "search rules" and not d.unfolding and not re.search(r"\b" + re.escape(d.name) + r" +(?:c\b|k|\()", others):
                    continue
                ans_lines += answer(k, m.group(3), d.unfolding, d.comments, m.group(2) or "")
        else:
            t = d.type
            cl = "\n".join(d.clauses)
            ms = list(re.finditer(r"\(([\w'₀-₉]+) : tie\.(\S+?)((?: invariant_\w+| decreases_\w+)*)\)", t))
            if ms:
                var = ms[0].group(1)
                place = norm(ms[0].group(2))
                new = conv.newplace.get(place, ms[0].group(2))
                goal_types.add(new)
                rest = t[ms[0].end():]
                t = t[: ms[0].start()] + f"({var} : {new})" + conv.expr(rest, place, None, var).replace("c.", var + ".") if var != "c" else t[: ms[0].start()] + f"({var} : {new})" + conv.expr(rest, place, None, var)
                head_, eq, tail = cl.partition("=")
                cl = head_ + eq + cited(conv.expr(tail, place, None, var))
            used_helpers.append(d.name)
            ans_lines += d.comments + [f"{d.head}{d.name}{getattr(d, 'extra', '')} : {t}"] + d.unfolding + [cl, ""]
    for i, a in enumerate(answers):
        if re.fullmatch(r"[\w'₀-₉-]+", a):
            if a not in byname:
                ans_lines += answer(i, f" {a} c", [], [])
            continue
        b = strip_lambda(a)
        if b is None:
            ans_lines += answer(i, f" {a} c", [], [])
            continue
        if b.strip() in ("search rules", "omega arith"):
            continue
        ans_lines += answer(i, " " + b, spec.unfolding, [])
    folder = os.path.dirname(path)
    said = []
    if inv_lines:
        t = "\n".join(head + base + [f"use Rattle.{crate}.proofs.{dotted}.Given as goal", ""] + inv_lines).rstrip() + "\n"
        out[os.path.join(folder, "Invariants.antt")] = t
    if any(l.strip() for l in ans_lines):
        imp = [f"use Rattle.{crate}.proofs.{dotted}.Goals as goal"]
        if goal_types:
            imp.append(f"use Rattle.{crate}.proofs.{dotted}.Goals.{{{', '.join(sorted(goal_types))}}}")
        hd = head if not inv_lines else [f"-- The answers of `{crate}::{'::'.join(modpath)}`."]
        b = base + ([rules] if any("search rules" in l for l in ans_lines) or "search (rules" in "\n".join(ans_lines) else [])
        t = "\n".join(hd + b + imp + [""] + ans_lines).rstrip() + "\n"
        out[os.path.join(folder, "Answers.antt")] = t
    return conv.warn


def main():
    names = json.load(open(sys.argv[1]))
    clauses = contracts_of(".")
    done = bad = 0
    for crate_dir in sys.argv[2:]:
        crate = os.path.basename(crate_dir.rstrip("/"))
        for folder, dirs, files in os.walk(os.path.join(crate_dir, "proofs")):
            if "Proof.antt" not in files:
                continue
            path = os.path.join(folder, "Proof.antt")
            modpath = os.path.relpath(folder, os.path.join(crate_dir, "proofs")).split(os.sep)
            key = f"Rattle-{crate}-proofs.{'.'.join(modpath)}.Lts"
            if key not in names:
                print(f"left: {path}: no names")
                bad += 1
                continue
            out = {}
            try:
                warn = turn(path, names[key], clauses, crate, modpath, out)
            except Exception as e:
                print(f"left: {path}: {e}")
                bad += 1
                continue
            for p, t in out.items():
                open(p, "w", encoding="utf-8").write(t)
            os.remove(path)
            done += 1
            for w in warn:
                print(f"look: {path}: {w}")
    print(f"{done} turned, {bad} left")


if __name__ == "__main__":
    main()
