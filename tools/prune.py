#!/usr/bin/env python3
"""Takes out the answers of a crate that the check finds alone: tools/prune.py CRATE

Each answer of the form `NAME c = search rules` or `= omega arith` in proofs/**/Answers.antt goes; `rt check` is run, and those that it asks for
are put back, until the crate is proved. What stays is printed. Run it on a crate that is proved; then `rt tidy` drops the imports that nothing uses.
"""
import os
import re
import subprocess
import sys

crate = os.path.join("crates", sys.argv[1])
BARE = re.compile(r"^(?:pub )?([\w-]+) : goal\.\1\n(?:unfolding[^\n]*\n)?\1(?: \w+)* = (?:search rules|omega arith|refl)\n\n?", re.M)
MISSING = re.compile(r"`([\w-]+)` of (proofs/[\w/-]+/Answers)\.antt must prove")

original = {}
for folder, _, names in os.walk(os.path.join(crate, "proofs")):
    for name in names:
        path = os.path.join(folder, name)
        if name == "Answers.antt" and BARE.search(open(path).read()):
            original[path] = open(path).read()
kept = {path: set() for path in original}


def write():
    for path, text in original.items():
        for m in BARE.finditer(text):
            if m.group(1) not in kept[path]:
                text = text.replace(m.group(0), "", 1)
        if re.search(r"^[\w-]+(?: : |.* = )", text, re.M) or re.search(r"^pub ", text, re.M):
            os.makedirs(os.path.dirname(path), exist_ok=True)
            open(path, "w").write(text.rstrip("\n") + "\n")
        elif os.path.exists(path):
            os.remove(path)


def restore():
    for path, text in original.items():
        os.makedirs(os.path.dirname(path), exist_ok=True)
        open(path, "w").write(text)


def proved(out):
    return re.findall(r"^logic=([\w-]+)", out, re.M)[-1:] == ["proved"]


while original:
    write()
    run = subprocess.run(["rt", "check"], cwd=crate, capture_output=True, text=True)
    out = run.stdout + run.stderr
    if proved(out):
        break
    asked = [(n, os.path.join(crate, p + ".antt")) for n, p in MISSING.findall(out)]
    asked = [(n, p) for n, p in asked if p in kept and n not in kept[p] and re.search(rf"^(?:pub )?{re.escape(n)} : ", original[p], re.M)]
    if not asked:
        restore()
        sys.exit(out + "\nnot proved, and for another reason; all is as it was")
    for name, path in asked:
        kept[path].add(name)

total = sum(len(BARE.findall(text)) for text in original.values())
stay = sum(map(len, kept.values()))
print(f"{sys.argv[1]}: {total} bare answers, {total - stay} gone, {stay} stay")
for path, names in kept.items():
    for name in sorted(names):
        print(f"  stays: {path} {name}")
