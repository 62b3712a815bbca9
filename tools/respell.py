#!/usr/bin/env python3
"""Gives this repository's own definitions and lemmas the spelling of today's Rattle: words in snake case.

usage: tools/respell.py FOLDER [--collisions]

FOLDER is a checkout whose crates port.py has turned. Changed are the .rt, .antt and .edit files below crates/; each identifier is taken
apart at its dashes, and a part in lower camel case, or one of the words of WORDS, is spelt in snake case. Types, facts and modules keep
their capitals. Text in quotes of a .rt file is left; in comments only the names of definitions are turned, not the standard's variables.
With --collisions nothing is written: listed are the new names that already stand in the same file.
"""
import collections
import os
import re
import sys

# functions and tables that begin with a capital, and names that stand for the library's
WORDS = {
    "FloorLog2": "floor_log2",
    "Clip3": "clip3",
    "CdefFilter": "cdef_filter",
    "Cdef-Uv-Dir": "cdef_uv_dir",
    "Div-Table": "div_table",
    "Cdef-Directions": "cdef_directions",
    "Cdef-Pri-Taps": "cdef_pri_taps",
    "Cdef-Sec-Taps": "cdef_sec_taps",
    "getD": "get_or",
    "sumℤ": "sum_ℤ",
    "sum2ℤ": "sum2_ℤ",
}
# the standard's own variables: turned in code, left in comments
STANDARD = {"priStr", "varStr", "secStr", "yDir", "bestCost", "coeffShift", "subX", "subY"}
# made by the toolchain
MADE = {"theAnswer", "theUnitPair", "theVisible", "theDampingChoice", "theAgreement", "ofResult"}

# names that fall together with a word once it is in snake case: the lemma gets _lem
LEMMAS = {
    "crates/cdef_spec/specs/TotalLaws.antt": {"add_at": "add_at_lem"},
    "crates/direction_lanes/specs/LanesLaws.antt": {"from_at": "from_at_lem"},
}

TOKEN = re.compile(r"[A-Za-z_𝓤𝓛𝓜𝓡ℕℤκ][\w'₀-₉ℕℤ-]*")
CAMEL = re.compile(r"[a-z][a-z0-9']*[A-Z]")


def snake(part):
    return re.sub(r"(?<=[a-z0-9'])([A-Z])", lambda m: "_" + m.group(1), part).lower() if part.isascii() else part


def turned(token, comment, own={}):
    if token in own:
        return own[token]
    if token in WORDS:
        return WORDS[token]
    out = []
    for part in token.split("-"):
        if part in WORDS:
            out.append(WORDS[part])
        elif part.rstrip("'") in MADE or (comment and part in STANDARD):
            out.append(part)
        elif CAMEL.match(part):
            out.append(snake(part))
        else:
            out.append(part)
    return "-".join(out)


def line_of(text, antt, own={}):
    """A line, its comment apart."""
    mark = "--" if antt else "//"
    if antt:
        m = re.search(r"(^|\s)--(\s|$)", text)
        at = m.start() if m else -1
    else:
        at = -1
        quoted = False
        for i, ch in enumerate(text):
            if ch == '"' and (i == 0 or text[i - 1] != "\\"):
                quoted = not quoted
            if not quoted and text.startswith(mark, i):
                at = i
                break
    code, comment = (text, "") if at < 0 else (text[:at], text[at:])
    if antt:
        code = TOKEN.sub(lambda m: turned(m.group(), False, own), code)
    else:
        code = "".join(
            p if p.startswith(('"', "b'")) else TOKEN.sub(lambda m: turned(m.group(), False), p)
            for p in re.findall(r"""b'(?:[^'\\]|\\.)'|"(?:[^"\\]|\\.)*"|(?:(?!b'(?:[^'\\]|\\.)')[^"])+|\"""", code)
        )
    comment = TOKEN.sub(lambda m: turned(m.group(), True), comment)
    return code + comment


def files(top):
    for folder, dirs, names in os.walk(os.path.join(top, "crates")):
        dirs[:] = sorted(d for d in dirs if d != "out")
        for n in sorted(names):
            if n.endswith((".rt", ".antt", ".edit")):
                yield os.path.join(folder, n)


def main():
    top = sys.argv[1]
    look = "--collisions" in sys.argv
    clash = collections.Counter()
    for path in files(top):
        with open(path, encoding="utf-8") as f:
            old = f.read()
        own = LEMMAS.get(os.path.relpath(path, top), {})
        new = "\n".join(line_of(l, path.endswith(".antt"), own) for l in old.split("\n"))
        if look:
            had = set(TOKEN.findall(old))
            for t in had:
                n = turned(t, False)
                if n != t and n in had:
                    clash[(t, n, os.path.relpath(path, top))] += 1
        elif new != old:
            with open(path, "w", encoding="utf-8") as f:
                f.write(new)
    for k in sorted(clash):
        print(*k)


main()
