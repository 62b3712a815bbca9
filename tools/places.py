#!/usr/bin/env python3
"""Counts the places that docs/DESIGN-PASS.md speaks of: tools/places.py [--list | --bare] [COMMIT]. Without a commit, the files as they lie here.

Behind each count stands how many of the places have a line with the word Kept, which gives the reason: in the function, in the comment above it, or
in the comment at the head of its file. A place that is several functions has one where each of them has. --list prints each place, a + before those
with a reason; --bare prints those without.

  1  enums; fields and parameters of type bool; functions that return an error code; parameters and constants that number a kind
  2  functions that are alike but for integer types and numbers ("but for a type"), or but for every name ("in shape"; groups of functions of six lines and more)
  3  `for` over a range, and `while`
  4  functions that write out what std has (by name), and pieces of lines printed one by one
  5  facts of `requires` clauses that stand in three functions or more; groups of three parameters or more that stand together in three functions or more
  6  slices taken as `x[..n]`, the two lists of strengths, arrays with a fixed most
  7  parameters that choose a step
  8  answers that say `search rules` or `omega arith` alone; steps cited through Upto; clause names that say only a place
"""
import collections, re, subprocess, sys

args = [a for a in sys.argv[1:] if not a.startswith('--')]
listed, bare = '--list' in sys.argv, '--bare' in sys.argv
commit = args[0] if args else None
FUNCTION = r'^( *)(?:pub )?(?:const )?(?:unsafe )?(?:extern "C" )?fn (\w+).*?\n\1\}\n'


def run(*command):
    return subprocess.run(command, capture_output=True, text=True, check=True).stdout


def files(pattern):
    names = run('git', 'ls-tree', '-r', '--name-only', commit, 'crates').split('\n') if commit else run('git', 'ls-files', 'crates').split('\n')
    for name in names:
        if re.fullmatch(pattern, name):
            yield name, run('git', 'show', commit + ':' + name) if commit else open(name).read()


raw = list(files(r'crates/\w+/src/.*\.rt'))
sources = [(n, re.sub(r'^ *//.*$', '', s, flags=re.M)) for n, s in raw]
proofs = list(files(r'crates/\w+/proofs/.*\.antt'))
texts = dict(raw + proofs)


def head(name):
    return re.match(r'(?:(?://|--)[^\n]*\n|#!\[[^\n]*\n|\n)*', texts[name]).group(0)


def above(name, at):
    """The lines of comments and attributes above the line of an offset, and the offset's line."""
    lines = texts[name][:at].split('\n')
    k = len(lines) - 1
    while k and re.match(r' *(//|--|#\[)', lines[k - 1]):
        k -= 1
    return '\n'.join(lines[k:]) + texts[name][at:].split('\n')[0]


spans = {n: [(m.start(), m.end()) for m in re.finditer(FUNCTION, s, re.M | re.S)] for n, s in raw}


def has_reason(name, at):
    around = [texts[name][b:e] + above(name, b) for b, e in spans.get(name, ()) if b <= at < e]
    return 'Kept' in head(name) + above(name, at) + ''.join(around)


class Place:
    def __init__(self, text, parts):
        self.text, self.kept = text, all(has_reason(n, at) for n, at in parts)


def show(point, what, found):
    print(f'{point}  {what}: {len(found)}, {sum(p.kept for p in found)} with a reason')
    for p in found:
        if listed or bare and not p.kept:
            print('     ', '+' if p.kept else ' ', p.text)


def matching(pattern, where=raw):
    return [
        Place(f'{n}: {m.group(0).strip()}', [(n, m.start() + len(m.group(0)) - len(m.group(0).lstrip()))])
        for n, s in where
        for m in re.finditer(pattern, s, re.M)
        if not s[s.rfind('\n', 0, m.start()) + 1 : m.end()].lstrip().startswith('//')
    ]


functions = []
where = {}
for name, text in sources:
    starts = spans[name]
    for k, m in enumerate(re.finditer(FUNCTION, text, re.M | re.S)):
        functions.append((name, m.group(2), m.group(0)))
        where[len(functions) - 1] = (name, starts[k][0])


def of_functions(test):
    return [Place(f'{f} {n}', [where[k]]) for k, (f, n, t) in enumerate(functions) if test(n, t)]


def code(text):
    return '\n'.join(l for l in re.sub(r'^ +(requires|ensures).*?(?=^\{|^ *requires|^ *ensures)', '', text, flags=re.M | re.S).split('\n') if l.strip())


def alike(text, own, names):
    text = re.sub(r'\b%s\b' % own, 'SELF', code(text))
    text = re.sub(r'\b(u8|u16|u32|u64|usize|i8|i16|i32|i64|isize)\b', 'T', text)
    text = re.sub(r'\b\d[\d_]*(?:T|u8|u16|u32|u64|usize|i16|i32|i64)?\b', 'N', text)
    if names:
        seen = {}
        text = re.sub(r'[A-Za-z_]\w*', lambda m: m.group(0) if m.group(0) in ('fn', 'let', 'for', 'in', 'if', 'else', 'return', 'mut', 'T', 'N') else seen.setdefault(m.group(0), f'v{len(seen)}'), text)
    return re.sub(r'\s+', ' ', text)


def groups(names, least):
    found = collections.defaultdict(list)
    for k, (f, n, t) in enumerate(functions):
        if len(code(t).split('\n')) >= least:
            found[alike(t, n, names)].append(k)
    return [Place(', '.join(f'{functions[k][0]} {functions[k][1]}' for k in g), [where[k] for k in g]) for g in found.values() if len(g) > 1]


def params(text):
    head = text.split('\n{')[0]
    inner = re.search(r'fn \w+(?:<[^(]*>)?\((.*?)\)\s*(?:->|\n|requires|ensures|\{|$)', head, re.S)
    return [re.sub(r'\s+', ' ', p).strip() for p in re.split(r',(?![^\[<(]*[\]>)])', inner.group(1)) if ':' in p] if inner else []


def facts(text):
    for clause in re.findall(r'^ +requires (?:\w+ )?\{(.*?)\}\n', text, re.M | re.S):
        depth, part = 0, ''
        for c in re.sub(r'\s+', ' ', clause) + '×':
            depth += (c == '(') - (c == ')')
            if c == '×' and depth == 0:
                yield part.strip()
                part = ''
            else:
                part += c


show(1, 'enums', matching(r'^ *(?:pub )?enum \w+'))
show(1, 'flags: bool fields and parameters', matching(r'(?<!const )\b\w+: bool\b'))
show(1, 'functions that return an error code', of_functions(lambda n, t: not re.search(r'-> Result|-> Option', t) and (re.search(r'_no$|^no_|^number$', n) or (re.search(r'\) -> u8', t) and re.search(r'return [1-9];', t) and re.search(r'\bno\b', t)))))
show(1, 'kinds by number', matching(r'\b(?:kind|way|what|plane|picture|trial|which): (?:u8|u32|usize)\b') + matching(r'^pub const \w+: (?:usize|u32) = \d+;'))
show(2, 'functions alike but for a type (groups)', groups(False, 4))
show(2, 'functions alike in shape (groups)', groups(True, 6))
show(3, 'for over a range', matching(r'^ *for \w+ in [^\n]*\.\.[^\n]*\{'))
show(3, 'while', matching(r'^ *while [^\n]*\{'))
show(4, 'functions that std has', of_functions(lambda n, t: re.fullmatch(r'least|most|lesser|less|at_most|at_least|held|magnitude|apart|or_none|difference|same|is_same|wide|small|copy|clear_\w+|one_if|is_sound|log2_floor|nearest|byte_at|at_or_zero|is_digit|all_hold|both|choose|narrow|held_low|held_high|number|answer_of', n)))
show(4, 'pieces printed', matching(r'\b(?:print|say)::(?:text|number|labelled|pair|whole|refused|same|totals)\('))
count, together = collections.defaultdict(set), collections.defaultdict(set)
for f, (_, _, t) in enumerate(functions):
    for fact in facts(t):
        count[fact].add(f)
    p = params(t)
    for k in (3, 4, 5):
        for i in range(len(p) - k + 1):
            together[', '.join(p[i:i + k])].add(f)


def shared(found):
    return [Place(f'{len(k)} {f}: ' + ', '.join(sorted({where[i][0][7:].replace('/src/', '::') + ' ' + functions[i][1] for i in k})), [where[i] for i in k]) for f, k in found]


show(5, 'facts in three functions or more', shared(sorted(((f, k) for f, k in count.items() if len(k) > 2), key=lambda f: -len(f[1]))))
wide = {g: c for g, c in together.items() if len(c) > 2}
show(5, 'groups of parameters in three functions or more', shared((g, c) for g, c in wide.items() if not any(g != h and g in h and wide[h] == c for h in wide)))
show(6, 'slices by a length beside', matching(r'&(?:mut )?\w+\[\.\.\w+\]'))
show(6, 'two lists of strengths', matching(r'\bpris: &'))
show(6, 'arrays of a fixed most', matching(r'\[(?:\w+|\w+\.\w+|UnitPair \{.*?\}); ?(?:4096|1_000_000|12288|3840|32768|320|4800)\]'))
show(7, 'parameters that choose a step', matching(r'\b(?:kind|way|same|on|filters|luma|last|comment|stored): (?:bool|usize|u32)\b'))
show(8, 'answers of a bare tactic', matching(r'^ *[\w-]+(?: \w+)* = (?:search rules|omega arith|search|grind)$', proofs))
show(8, 'steps cited through Upto', matching(r'Upto-[\w-]+', proofs))
show(8, 'clause names that say a place', matching(r'^ +(?:requires|ensures) (?:by_index|x_value|w_value|width_bound|cols_bound|rows_bound|dir_bound|filled_2|a_len_2|a_len|y0_le_y|x_lt_w|le_width|plane_len|out_len|orig_len|n_in_bounds|n_bound|k_bound|sh_value|v_value|height_value|value)\b'))
