#!/usr/bin/env python3
"""Turns proofs of the older form, `tie.close (tie.spec ..)` in a Proof.antt, to Invariants.antt and Answers.antt.

usage: tools/answers.py CRATE [FUNCTION ..]     from the repository's top; FUNCTION as its folder below proofs/

It asks `rt check --generated --old-names` for the names that goals, steps and loops have now, and writes the two files in place of the
Proof.antt. What it cannot turn (a case split by branches) it prints as 'look:'. A proof that walks the code by hand is left.
"""
import json
import os
import re
import subprocess
import sys

# laws of cdef_spec that stand in its proofs/ now
MOVED = "PlaceLaws|FilterLaws|TapLaws|ClipLaws|TrialLaws|LocalLaws|PictureLaws|PairLaws|AppliedLaws|PlaneLaws|TrialCallLaws|OutcomeLaws|Agreement"
W = r"[A-Za-z_][\w'₀-₉-]*"


def norm(s):
    return re.sub("-+", "-", s.replace("_", "-"))


# ---- contracts: names of the clauses of each function

def contracts():
    found = {}
    for folder, dirs, names in os.walk("crates"):
        dirs[:] = [d for d in dirs if d != "out"]
        if "/src" not in folder:
            continue
        for n in names:
            if n.endswith(".rt"):
                text = open(os.path.join(folder, n), encoding="utf-8").read()
                crate = folder.split("/")[1]
                rel = os.path.relpath(os.path.join(folder, n), f"crates/{crate}/src")[:-3]
                mod = [] if rel in ("lib", "main") else rel.split("/")
                cur = None
                for l in text.split("\n"):
                    m = re.match(r"\s*(?:pub )?(?:unsafe )?(?:extern \"C\" )?fn (\w+)", l)
                    if m:
                        cur = "::".join([crate] + mod + [m[1]])
                        found[cur] = {"requires": [], "ensures": []}
                    m = re.match(r"\s*(requires|ensures)\b\s*(\w+)?\s*\{", l)
                    if m and cur:
                        found[cur][m[1]].append(m[2])
                    if l == "{":
                        cur = None
    return found


def split_top(text):
    """Parts of a text at its commas outside brackets."""
    out, depth, last = [], 0, 0
    for i, ch in enumerate(text):
        if ch in "([{":
            depth += 1
        elif ch in ")]}":
            depth -= 1
        elif ch == "," and depth == 0:
            out.append(text[last:i].strip())
            last = i + 1
    out.append(text[last:].strip())
    return out


def tail_tuple(body):
    """Where the tuple stands that ends the body, or None."""
    b = body.rstrip()
    if not b.endswith(")"):
        return None
    depth = 0
    for i in range(len(b) - 1, -1, -1):
        if b[i] == ")":
            depth += 1
        elif b[i] == "(":
            depth -= 1
            if depth == 0:
                before = b[:i].rstrip()
                if before.endswith("=") or re.search(r"(^|\s)in$", before):
                    return i, len(b)
                return None
    return None


class Turner:
    def __init__(self, entry, fn, known):
        self.e, self.fn, self.known = entry, fn, known
        self.places = {norm(p[0]): n for p, n in zip(entry["places"], entry["places_by_name"])}
        self.place_names = set(entry["places_by_name"])
        self.fields, self.callee = {}, {}
        for p in entry["places"]:
            old, new = p[2]
            if old:
                self.fields[norm(old)] = new
                if p[3]:
                    self.callee[new] = p[3]
        for l in entry["loops"]:
            self.fields[norm(l[0][0])] = l[0][1]
        self.needs = {}
        for o, n in entry["needs"]:
            self.needs.setdefault(norm(o), n)
        self.inner = set()
        self.used_places = set()
        self.used_callees = {}
        # places whose record in Goals says what types tell: lemmas take the plain record of steps
        self.plain = {n: p[0] for p, n, t in zip(entry["places"], entry["places_by_name"], entry.get("typed", [])) if t}
        self.used_plain = {}

    def clauses(self, fn, kind):
        c = self.known.get(fn)
        return [x for x in c[kind]] if c else []

    def need(self, old):
        o = norm(old)
        for cand in (o, re.sub(r"^overflow-", "", o), re.sub(r"^(offset-bounds|nonzero)-", "", o)):
            if cand in self.needs:
                return self.needs[cand]
        return None

    # ---- paths

    def clause(self, names, parts, i, out, text):
        """Appends the name of the clause that the numbers after parts[i] pick from pairs in pairs; where they end."""
        n, k = len(names), 0
        if n < 2 or i + 1 >= len(parts) or not parts[i + 1].isdigit():
            return i
        while k < n - 2 and i + 1 < len(parts) and parts[i + 1] == "1":
            k, i = k + 1, i + 1
        if i + 1 < len(parts) and parts[i + 1] in ("0", "1"):
            out.append(names[k + int(parts[i + 1])])
            return i + 1
        print(f"look: {self.fn}: clauses of {text}")
        return i

    def path(self, text):
        """A dotted path, its first part the root."""
        parts = text.split(".")
        out, state, i = [parts[0]], "in" if parts[0] in self.inner else "place", 1
        while i < len(parts):
            p = parts[i]
            if state == "place":
                if p == "before":
                    out.append(p)
                elif p == "requires":
                    out.append(p)
                    names = self.clauses(self.fn, "requires")
                    i = self.clause(names, parts, i, out, text)
                    state = "in"
                elif p == "pre":
                    out.append("requires")
                    state = "in"
                elif p == "well-formed":
                    out.append("well_formed")
                    state = "in"
                elif p in ("args", "ranges") and i + 1 < len(parts):
                    out += [p, parts[i + 1].replace("-", "_")]
                    i += 1
                    state = "in"
                elif norm(p) in self.fields or norm(p[:1].lower() + p[1:]) in self.fields:
                    new = self.fields.get(norm(p)) or self.fields[norm(p[:1].lower() + p[1:])]
                    out.append(new)
                    state = "in"
                    if i + 1 < len(parts) and parts[i + 1] == "ensures" and new in self.callee:
                        names = self.clauses(self.callee[new], "ensures")
                        out.append("ensures")
                        i += 1
                        i = self.clause(names, parts, i, out, text)
                    elif new.startswith("loop") and i + 1 < len(parts) and parts[i + 1] not in ("invariant", "initial", "auto", "true", "false"):
                        out.append(parts[i + 1].replace("-", "_"))
                        i += 1
                    elif i + 1 < len(parts) and parts[i + 1] == "auto":
                        print(f"look: {self.fn}: {text}")
                else:
                    out.append(p)
                    if p != "now":
                        state = "in"
            else:
                out.append(p.replace("-", "_") if i == 1 and parts[0] in self.inner else p)
            i += 1
        return ".".join(out)

    def code(self, text):
        for o, n in self.e.get("args", []):
            text = text.replace(o.replace(" .", "."), n.replace(" .", "."))
        text = re.sub(r"\btie\.([A-Za-z][\w-]*)((?:\s+(?:invariant|decreases)-loop\d*)*)", self.type_of, text)
        # a name for the clauses, or for all of them but the first
        for m in re.finditer(rf"let ({W}) = ([\w.'-]+\.(?:requires|ensures)(?:\.1)*) in ", text):
            kind = "requires" if "requires" in m[2] else None
            if kind and len(self.clauses(self.fn, kind)) > 1:
                head, tail = text[: m.end()], text[m.end() :]
                tail = re.sub(rf"(?<![\w.']){m[1]}(?=\.\d)", m[2], tail)
                if not re.search(rf"(?<![\w.']){m[1]}(?![\w'-])", tail):
                    head = head[: m.start()]
                text = head + tail
                break
        # names of what is inside a step: arguments and loops
        self.inner = {m[1] for m in re.finditer(rf"let ({W}) = [^;]*?\.(?:args|loop\d*|now|requires)(?:\.\d+)* in\b", text) if not re.search(r"\bin\b", m[0][: -3])}
        # dotted paths, from a name or from a bracket
        text = re.sub(rf"(?<![\w.'])({W}|\))((?:\.{W}|\.\d+)+)", lambda m: self.path(m[1] + m[2]), text)
        return self.splits(text)

    def splits(self, text):
        """⊎_elim over a branch: an elim by its two ways."""
        while True:
            m = re.search(r"⊎_elim\s+\(λ (\w+)\. ", text)
            if not m:
                return text
            spans, i = [], m.start() + len("⊎_elim")
            for _ in range(2):
                while text[i].isspace():
                    i += 1
                if text[i] != "(":
                    return text
                depth, j = 0, i
                while True:
                    depth += (text[j] == "(") - (text[j] == ")")
                    j += 1
                    if depth == 0:
                        break
                spans.append(text[i + 1 : j - 1])
                i = j
            b = re.match(r"\s+([\w.'-]+)\.branch", text[i:])
            if not b:
                return text.replace("⊎_elim", "⊎_elim'", 1) if False else text
            step = b[1].split(".")[-1]
            way = step[3:]
            vars_ = []
            for v in re.findall(rf"\.{re.escape(step)}\.(\w+)", self.whole):
                if v not in ("branch", "true", "false", "ensures", "result") and v not in vars_:
                    vars_.append(v)
            arms = []
            for kind, truth, s in (("then", "true", spans[0]), ("else", "false", spans[1])):
                mm = re.match(r"λ (\w+)\. (.*)$", s, re.S)
                w, body = mm[1], mm[2]
                body = re.sub(rf"(?<![\w.]){w}(\.0)?\.(taken|left)(?![\w-])", f"{w}.{step}.{truth}", body)
                body = re.sub(rf"(?<![\w.]){w}\.(\d+)(?![\w-])", lambda x: f"{w}.{vars_[int(x[1]) - 1]}-is" if 0 < int(x[1]) <= len(vars_) else x[0], body)
                arms.append(f"{kind}-{way} {w} ↦ {body}")
                self.used_places.add(f"{kind}-{way}")
            text = text[: m.start()] + f"elim {b[1]}.branch [ {arms[0]} | {arms[1]} ]" + text[i + b.end() :]
            print(f"look: {self.fn}: a case split at {step}, with {vars_}")

    def type_of(self, m):
        name = m[1]
        p = self.places.get(norm(name))
        if p in self.plain:
            self.used_plain[f"Upto-{p}"] = self.plain[p]
            return f"Upto-{p}"
        if p:
            self.used_places.add(p)
            return p
        print(f"look: {self.fn}: tie.{name}")
        return m[0]

    # ---- declarations

    def invariant(self, loop, header, body):
        spec = next(l for l in self.e["loops"] if norm(l[0][0]) == norm(loop))
        at = self.e["loops"].index(spec)
        vars_, changed = spec[1], self.e["changed"][at]
        args = header.split()
        names = {}
        k = 0
        for v, c in zip(vars_, changed):
            if k >= len(args):
                break
            names[args[k]] = f"l.initial.{v}" if c else f"l.{v}"
            k += 1
        for v, c in zip(vars_, changed):
            if c and k < len(args):
                names[args[k]] = f"l.{v}"
                k += 1
        if k != len(args):
            print(f"look: {self.fn}: invariant of {loop}: {len(args)} names, {k} variables")
        bound = set(re.findall(r"\(((?:[A-Za-z_][\w']*\s+)+):", body))
        shadow = {w for b in bound for w in b.split()} | {w for b in re.findall(r"λ ((?:[A-Za-z_][\w']*\s+)*[A-Za-z_][\w']*)\.", body) for w in b.split()}
        both = shadow & set(names)
        if both:
            # rename what the body binds
            for b in both:
                new = b + "'"
                body = self.rebind(body, b, new)
        body = re.sub(rf"(?<![\w.'-])({W})(?! = )", lambda m: names.get(m[1], m[1]), body)
        return body, spec[0][1]

    def rebind(self, body, name, new):
        """Renames a bound variable within the bracket that binds it."""
        out = body
        for m in list(re.finditer(rf"\(((?:[\w']+\s+)*){name}((?:\s+[\w']+)*)\s+:", body))[::-1]:
            start = m.start()
            # to the end of the bracket around, or of the text
            depth, end = 0, len(out)
            i = start
            d0 = out[:start].count("(") - out[:start].count(")")
            depth = 0
            for j in range(start, len(out)):
                if out[j] == "(":
                    depth += 1
                elif out[j] == ")":
                    depth -= 1
                    if depth < 0:
                        end = j
                        break
            seg = out[start:end]
            seg = re.sub(rf"(?<![\w.'-]){name}(?![\w'-])", new, seg)
            out = out[:start] + seg + out[end:]
        for m in list(re.finditer(rf"λ ((?:[\w']+\s+)*){name}((?:\s+[\w']+)*)\.", out))[::-1]:
            start, end, depth = m.start(), len(out), 0
            for j in range(start, len(out)):
                if out[j] == "(":
                    depth += 1
                elif out[j] == ")":
                    depth -= 1
                    if depth < 0:
                        end = j
                        break
            seg = re.sub(rf"(?<![\w.'-]){name}(?![\w'-])", new, out[start:end])
            out = out[:start] + seg + out[end:]
        return out

    def as_record(self, body, names):
        t = tail_tuple(body)
        if not t or len(names) < 2:
            return body
        a, b = t
        parts = split_top(body[a + 1 : b - 1])
        if parts and parts[-1] == "tt" and len(parts) == len(names) + 1:
            parts = parts[:-1]
        while len(parts) < len(names) and parts[-1].startswith("(") and parts[-1].endswith(")") and len(split_top(parts[-1][1:-1])) > 1:
            parts = parts[:-1] + split_top(parts[-1][1:-1])
        if len(parts) != len(names):
            print(f"look: {self.fn}: {len(parts)} parts for {names}")
            return body
        return body[:a] + "record { " + "; ".join(f"{n} = {p}" for n, p in zip(names, parts)) + " }" + body[b:]


def handed(path, name):
    """What the module Goals hands the record of a step, in an answer's words."""
    if not os.path.exists(path):
        out = path.split("/Rattle-")[0]
        subprocess.run(["rt", "check", "--generated", out], cwd=f"crates/{sys.argv[1]}", stdout=subprocess.DEVNULL, stderr=subprocess.DEVNULL)
    goals = open(path, encoding="utf-8").read() if os.path.exists(path) else ""
    m = re.search(rf"\n{re.escape(name.removeprefix('Upto-'))} =\s+View\.In-\S+((?:\s+[\w.'-]+)*)\n\n", goals)
    words = m[1].split() if m else ["Tie.the-claims", "Reads.Pre", "Reads.Post"]
    return " ".join(w.replace("Tie.", "tie.").replace("Reads.", "reads.") if "." in w else "goal." + w for w in words)


def turn(path, entry, fn, known, module):
    text = open(path, encoding="utf-8").read()
    text = re.sub(rf"cdef_spec\.specs\.({MOVED})\b", r"cdef_spec.proofs.\1", text)
    t = Turner(entry, fn, known)
    t.whole = re.sub(rf"\.({W})", lambda m: "." + t.fields.get(norm(m[1]), m[1]), text)
    blocks, cur = [], []
    for l in text.split("\n"):
        if l == "":
            if cur:
                blocks.append(cur)
            cur = []
        else:
            cur.append(l)
    if cur:
        blocks.append(cur)
    uses, head, invs, answers = [], [], [], []
    for block in blocks:
        if block[0].startswith("--") and all(x.startswith(("--", "use ")) for x in block):
            for x in block:
                if x.startswith("use "):
                    uses.append(x)
                else:
                    head.append(x)
            continue
        if block[0].startswith("use "):
            uses += block
            continue
        j = "\n".join(block)
        if re.match(r"pub \S+[-_]spec\b", block[0]):
            continue
        m = re.match(r"((?:--[^\n]*\n)*)abbrev (invariant|decreases)-(loop\d*) : tie\.\S+\n(?:unfolding [^\n]*\n)?(?:invariant|decreases)-loop\d* ([^=]*)=\s*(.*)$", j, re.S)
        if m:
            body, name = t.invariant(m[3], m[4].strip(), m[5])
            invs.append((m[1], m[2], name, body, m[3]))
            continue
        m = re.match(rf"((?:--[^\n]*\n)*)({W}) :\s+tie\.Need-(\S+)((?:\s+(?:invariant|decreases)-loop\d*)*)\n((?:unfolding [^\n]*\n)?)(.*)$", j, re.S)
        if m:
            note, own, old, _, unf, rest = m.groups()
            new = t.need(old)
            if not new:
                print(f"look: {fn}: no goal for {old}")
                continue
            mm = re.match(rf"{re.escape(own)}\s+(.*?)\s*=\s?(.*)$", rest, re.S)
            if not mm:
                print(f"look: {fn}: cannot read the answer {own}")
                continue
            binders, body = mm[1], mm[2]
            binders = re.sub(r"\s+κs$", "", binders)
            body = t.code("= " + body)[2:] if False else t.code(body)
            names = []
            if new.endswith("requires") or "-requires" in new:
                base = new.split("-requires")[0]
                for f, c in t.callee.items():
                    if f == base or (not names and c.split("::")[-1] == base):
                        names = t.clauses(c, "requires")
            elif new.startswith("returns"):
                names = t.clauses(fn, "ensures")
            if len(names) > 1:
                body = t.as_record("= " + body, names)[2:]
            answers.append((note, new, unf, binders, body))
            continue
        answers.append(("", None, "", "", t.code(j)))
    # std's wrapping operations name their clause
    answers = [a[:-1] + (re.sub(r"\b(wrapping_\w+(?:-\w+)*\.ensures)(?![\w.])", r"\1.value", a[-1]),) for a in answers]
    uses = [u for u in uses if not re.search(r"\.(Statement\.\{statement\}|Tie as \S+|Reads as \S+|Lts as \S+)$", u)]
    folder = os.path.dirname(path)
    first = head[0] if head else f"-- `{fn}` meets its contract."
    if invs:
        body = "".join(f"\n{note}abbrev pub {kind}-{name} : goal.{kind}-{name}\n{kind}-{name} l = {b}\n" for note, kind, name, b, _ in invs)
        used = [u for u in uses if any(re.search(rf"(?<![\w'-]){re.escape(x.strip().replace('◌', ''))}(?![\w'-])" if x.strip().isidentifier() else re.escape(x.strip().replace('◌', '')), body) for x in re.findall(r"\{(.*)\}", u)[0].split(",")) ] if uses else []
        with open(os.path.join(folder, "Invariants.antt"), "w", encoding="utf-8") as f:
            f.write("\n".join(head[:1] + used + [f"use {module}.Given as goal"]) + "\n" + body)
    own = []
    for note, new, unf, binders, body in answers:
        if new is None:
            own.append("\n" + body + "\n")
        else:
            own.append(f"\n{note}pub {new} : goal.{new}\n{unf}{new} {binders} = {body}\n")
    places = f"use {module}.Goals.{{{', '.join(sorted(t.used_places))}}}" if t.used_places else None
    invuse = []
    if any(re.search(r"\b(invariant|decreases)-loop", x) for x in own):
        print(f"look: {fn}: an invariant is named in an answer")
    with open(os.path.join(folder, "Answers.antt"), "w", encoding="utf-8") as f:
        steps = [f"use {module}.Lts as steps", f"use {module}.Tie as tie", f"use {module}.Reads as reads"] if t.used_plain else []
        plain = "".join(f"\nabbrev {n} : Type 0\n{n} = steps.{o} HANDED-{n}\n" for n, o in sorted(t.used_plain.items()))
        f.write("\n".join(head + uses + [f"use {module}.Goals as goal"] + ([places] if places else []) + steps + invuse) + "\n" + plain + "".join(own))
    os.remove(path)


def main():
    crate = sys.argv[1]
    only = sys.argv[2:]
    known = contracts()
    out = f"/tmp/old-names-{crate}-{os.getpid()}"
    subprocess.run(["rt", "check", "--generated", out, "--old-names"], cwd=f"crates/{crate}", stdout=subprocess.DEVNULL, stderr=subprocess.DEVNULL)
    names = json.load(open(os.path.join(out, "names.json"), encoding="utf-8"))
    plain = []
    for folder, dirs, files in sorted(os.walk(f"crates/{crate}/proofs")):
        if "Proof.antt" not in files:
            continue
        rel = os.path.relpath(folder, f"crates/{crate}/proofs")
        if only and rel not in only:
            continue
        path = os.path.join(folder, "Proof.antt")
        if "Tie as tie" not in open(path, encoding="utf-8").read():
            print(f"left: {path}: it walks the code by hand")
            continue
        key = f"Rattle-{crate}-proofs.{rel.replace('/', '.')}.Lts"
        if key not in names:
            print(f"left: {path}: no names for {key}")
            continue
        fn = "::".join([crate] + rel.split("/"))
        answers = os.path.join(folder, "Answers.antt")
        turn(path, names[key], fn, known, f"Rattle.{crate}.proofs.{rel.replace('/', '.')}")
        if "HANDED-" in open(answers, encoding="utf-8").read():
            plain.append((answers, f"{out}-goals/Rattle-{crate}-proofs/{rel}/Goals.antt"))
    for answers, goals in plain:
        text = open(answers, encoding="utf-8").read()
        text = re.sub(r"HANDED-(\S+)", lambda m: handed(goals, m[1]), text)
        open(answers, "w", encoding="utf-8").write(text)


main()
