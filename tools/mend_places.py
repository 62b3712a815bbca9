#!/usr/bin/env python3
"""Mends an answer that hands a lemma the wrong step: adds or drops `.before` as the check's error says.

usage: tools/mend_places.py CRATE     from the repository's top; checks the crate, mends, and checks again until nothing more is mended
"""
import json
import os
import re
import subprocess
import sys

crate = sys.argv[1]
folder = f"crates/{crate}"
done = set()


def plain_steps(table):
    """Lemmas over steps whose record in Goals says what types tell take the plain record of steps."""
    changed = 0
    made = f"/tmp/goals-{crate}-{os.getpid()}"

    def given(module, name):
        """What Goals gives the record of a place, by the names that an answer has."""
        if not os.path.exists(made):
            subprocess.run(["rt", "check", "--generated", made], cwd=folder, capture_output=True, text=True)
        goals = open(f"{made}/Rattle-{crate}-proofs/{module.replace('.', '/')}/Goals.antt", encoding="utf-8").read()
        m = re.search(rf"^{re.escape(name)} =\s+(?:View\.In|Lts\.)\S*((?:\s+[\w.'-]+)*?)\n\n", goals, re.M)
        if not m:
            print(f"look: {module}: {name} is none of Goals' places")
            return None
        return " ".join({"Tie": "tie.", "Reads": "reads.", "the": "goal.the"}[re.match(r"Tie|Reads|the", x)[0]] + re.sub(r"^(Tie\.|Reads\.|the)", "", x) for x in m[1].split())

    for key, e in table.items():
        m = re.fullmatch(rf"Rattle-{crate}-proofs\.(.*)\.Lts", key)
        path = f"{folder}/proofs/{m[1].replace('.', '/')}/Answers.antt" if m else ""
        if not os.path.exists(path):
            continue
        text = open(path, encoding="utf-8").read()
        if "\nabbrev Upto-" in text:
            new = re.sub(r"^(Upto-(\S+) = steps\.\S+) .*$", lambda x: f"{x[1]} {given(m[1], x[2]) or x[0].split(x[1] + ' ')[1]}", text, flags=re.M)
            if new != text:
                text = new
                changed += 1
                open(path, "w", encoding="utf-8").write(text)
        raw = {n: p[0] for p, n, t in zip(e["places"], e["places_by_name"], e.get("typed", [])) if t}
        use = re.search(r"^use (\S+)\.Goals\.\{(.*)\}$", text, re.M)
        if not use:
            continue
        names = [x.strip() for x in use[2].split(",")]
        hit = [n for n in names if n in raw and re.search(rf"\(\w+ : {re.escape(n)}\)", text)]
        if not hit:
            continue
        changed += 1
        left = [n for n in names if n not in hit]
        steps = "" if " as steps\n" in text else "".join(f"use {use[1]}.{x} as {y}\n" for x, y in (("Lts", "steps"), ("Tie", "tie"), ("Reads", "reads")))
        abbrevs = "".join(f"\nabbrev Upto-{n} : Type 0\nUpto-{n} = steps.{raw[n]} {given(m[1], n)}\n" for n in hit)
        head = (f"use {use[1]}.Goals.{{{', '.join(left)}}}\n" if left else "") + steps
        text = text.replace(use[0] + "\n", head)
        if "tie." not in abbrevs + text:
            text = re.sub(r"^use \S+\.Tie as tie\n", "", text, flags=re.M)
        at = max(x.end() for x in re.finditer(r"^use .*\n", text, re.M))
        text = text[:at] + abbrevs + text[at:]
        for n in hit:
            text = re.sub(rf"(\(\w+ : ){re.escape(n)}\)", rf"\1Upto-{n})", text)
        open(path, "w", encoding="utf-8").write(text)
    return changed


for turn in range(12):
    out = subprocess.run(["rt", "check"], cwd=folder, capture_output=True, text=True)
    said = out.stdout + out.stderr
    open(f"/tmp/check-{crate}.txt", "w").write(said)
    names = subprocess.run(["rt", "check", "--generated", f"/tmp/on-{crate}-{os.getpid()}", "--old-names"], cwd=folder, capture_output=True, text=True) if turn == 0 else names
    table = json.load(open(f"/tmp/on-{crate}-{os.getpid()}/names.json"))
    changed = plain_steps(table) if turn == 0 else 0
    if changed:
        print(f"plain steps: {changed}", flush=True)
        continue
    edits = {}
    # a field of a record that is spelled with a dash
    for m in re.finditer(r"^\./(proofs/\S+\.antt):(\d+):(\d+): error: .*has no field `(\w+)`\n  the fields that can be named here are (.*)", said, re.M):
        want = [x for x in re.findall(r"`([^`]+)`", m[5]) if x.replace("-", "_") == m[4]]
        if want:
            full = os.path.join(folder, m[1])
            lines = open(full, encoding="utf-8").read().split("\n")
            lines[int(m[2]) - 1] = re.sub(rf"\.{m[4]}\b(?!-)", "." + want[0], lines[int(m[2]) - 1])
            changed += 1
            open(full, "w", encoding="utf-8").write("\n".join(lines))
    blocks = re.split(r"(?m)^(?=\S)", said)
    for block in blocks:
        m = re.match(r"\./(proofs/(\S+)/Answers\.antt):(\d+):(\d+): error: (?:.|\n)*?expected type `([\w'-]+)[^`]*`,?\s+but this has type `(Rattle\.\S+\.Lts\.|steps\.|goal\.|)(View\.In-)?([\w'-]+)", block)
        if not m:
            continue
        path, rel, line, col, want, view, has = m[1], m[2], int(m[3]), int(m[4]), m[5].removeprefix("Upto-"), bool(m[7]), m[8].removeprefix("Upto-")
        plain = m[5].startswith("Upto-")
        e = table[f"Rattle-{crate}-proofs.{rel.replace('/', '.')}.Lts"]
        by = {p[0]: p for p in e["places"]}
        new = {p[0]: n for p, n in zip(e["places"], e["places_by_name"])}
        old = {n: p[0] for p, n in zip(e["places"], e["places_by_name"])}
        typed = {n for n, t in zip(e["places_by_name"], e.get("typed", [])) if t}
        view = view or (m[6] in ("goal.", "") and not m[8].startswith("Upto-") and has in typed)
        # a name of Lts is the older one; one of Goals is the newer
        w, h = old.get(want, want), has if m[6].endswith("Lts.") or m[6] == "steps." and not m[7] else old.get(has, has)
        if w not in by or h not in by:
            continue

        def up(a, b):
            n = 0
            while a is not None and a != b:
                a = by[a][1]
                n += 1
            return n if a == b else None

        n, d = up(h, w), up(w, h)
        if plain and view and n is not None:
            n += 1
        edits.setdefault(path, []).append((line, col, n, d))
    for m in re.finditer(r"^\./(proofs/\S+/Answers\.antt):\d+:\d+: error: `Upto-[^`]*`: expected type `Type 0`, but this has type `steps\.the-Clauses", said, re.M):
        full = os.path.join(folder, m[1])
        text = open(full, encoding="utf-8").read()
        new = re.sub(r"(= steps\.\S+ tie\.the-claims reads\.Pre reads\.Post)$", r"\1 tie.handed_clauses", text, flags=re.M)
        changed += new != text
        open(full, "w", encoding="utf-8").write(new)
    for m in re.finditer(r"^\./(proofs/\S+/Answers\.antt):\d+:\d+: error: `Upto-[^`]*`: `tie\.the-claims`: module \S+ has no", said, re.M):
        full = os.path.join(folder, m[1])
        text = open(full, encoding="utf-8").read()
        new = text.replace(" tie.the-claims reads.Pre", " reads.Pre")
        changed += new != text
        open(full, "w", encoding="utf-8").write(new)
    for path, es in edits.items():
        full = os.path.join(folder, path)
        lines = open(full, encoding="utf-8").read().split("\n")
        for line, col, n, d in sorted(set(es), reverse=True):
            l = lines[line - 1]
            at = col - 1
            mm = re.match(r"[\w'₀-₉]+(?:\.[\w'-]+)*", l[at:])
            if not mm:
                continue
            tok = mm[0]
            if not re.fullmatch(r"[\w'₀-₉-]+(?:\.before)*", tok):
                continue
            if n:
                new_tok = tok + ".before" * n
            elif d and tok.endswith(".before" * d):
                new_tok = tok[: -len(".before" * d)]
            else:
                continue
            lines[line - 1] = l[:at] + new_tok + l[at + len(tok) :]
            changed += 1
        open(full, "w", encoding="utf-8").write("\n".join(lines))
    if not changed:
        break
    print(f"mended {changed}", flush=True)
for l in said.split("\n"):
    if re.match(r"(\./|src/|specs/|\s|fn .*(not|no) |help|note: `|error|logic=)", l) and not l.startswith("note: finished"):
        print(l[:420])
