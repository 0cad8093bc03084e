#!/usr/bin/env python3
"""Respells the repository's own names for the Rattle that it was brought to; run once, at the top, after the kit's port.py.

Definitions, fields, constructors and lemmas become snake case, in specs/, proofs/, the ghost text of src/ and must-fail
edits: mapOf is map_of, their-bits is their_bits. In a lemma's name a dash stays where it joins two names, as in
length-added, and a plain word is added by an underscore, as in added_at. Names of the library keep their spelling, and
so do functions of src/. In proofs/F/ the names that Rattle makes get the spelling of the source: in-default is in_default.
In an edit a projection is written tight: (s .kinds) is s.kinds. It prints each name that it leaves, and why."""
import glob
import os
import re
import subprocess

TOKEN = re.compile(r"[A-Za-z_][A-Za-z0-9_'₀-₉]*(?:-[A-Za-z0-9_'₀-₉]+)*")
DECLARED = re.compile(r"\s*(?:(?:abbrev|unfoldable|pub|rec) )*(" + TOKEN.pattern + r") :")
KIT = os.path.dirname(subprocess.run(['rt', 'doc'], capture_output=True, text=True).stdout.strip())

# Names that the new spelling of another would hide.
BY_HAND = {
    'crates/flipping/proofs/': {'start-bit': 'start_bit_small'},
    'crates/frames/proofs/Faults.antt': {'first-wrong': 'first_wrong_is'},
    'crates/frames/proofs/Firsts.antt': {'first-wrong': 'first_wrong_is'},
    'crates/protocol/proofs/': {'is-settled': 'has_settled'},
    'crates/protocol/proofs/Hiding.antt': {'is_open': 'is_new'},
    'crates/protocol/proofs/Proved.antt': {'map-in': 'map_read'},
    'crates/runs/proofs/Bytes.antt': {'bit-at': 'bit_at_split'},
    'crates/runs/proofs/Packed.antt': {'bit-at': 'bit_at_split'},
    'crates/worked_cases/proofs/': {'two-rounds': 'both_rounds'},
}

paths = [p for part in ('specs', 'proofs', 'src', 'must-fail') for p in glob.glob(f'crates/*/{part}/**/*', recursive=True)
         if p.endswith(('.antt', '.rt', '.edit'))]
text = {p: open(p).read() for p in paths}


def bare(s):
    return re.sub(r'(--|//).*', '', s)


def tokens(p):
    return set(TOKEN.findall(bare(text[p])))


def is_lemma_file(p):
    return p.endswith('.antt') and '/proofs/' in p and p.count('/') == 3


for p in paths:
    for prefix, names in BY_HAND.items():
        if p.startswith(prefix):
            text[p] = TOKEN.sub(lambda m: names.get(m[0], m[0]), text[p])

library, functions, words, lemmas = set(), set(), set(), set()
for p, s in text.items():
    for path, names in re.findall(r'use ([\w.+◌·]+)\.\{([^}]*)\}', s):
        root = path.split('.')
        if not (root[0] == 'Rattle' and os.path.isdir(f'crates/{root[1]}')):
            library |= {n.strip().split(' as ')[0] for n in names.split(',')}
    if p.endswith('.rt'):
        functions |= set(re.findall(r'\bfn ([a-z_0-9]+)', bare(s)))
    if not p.endswith('.antt'):
        continue
    block = None
    for line in bare(s).split('\n'):
        if not line.strip():
            continue
        indent = len(line) - len(line.lstrip())
        if block is not None and indent <= block:
            block = None
        m = DECLARED.match(line)
        if m and ('/specs/' in p or block is not None and indent == block + 2):
            words.add(m[1])
        elif m and is_lemma_file(p):
            lemmas.add(m[1])
        if re.match(r'\s*(pub )?(record|data) ', line):
            block = indent


def snake(part):
    if part == 'getD':
        return 'get_or'
    return re.sub(r'(?<=[a-z0-9])([A-Z])', lambda m: '_' + m[1].lower(), part) if part[:1].islower() else part


names = {snake(w) for w in words | library | functions} - {'is', 'at', 'in', 'of', 'all', 'one', 'not', 'here', 'back', 'end', 'start'}


def respelled(token):
    if token in library:
        return token
    parts = [snake(p) for p in token.split('-')]
    if token in words:
        return '_'.join(parts)
    if token not in lemmas:
        return '-'.join(parts)
    out = parts[0]
    for left, right in zip(parts, parts[1:]):
        out += ('-' if left in names and right in names else '_') + right
    return out


change, left = {}, {}
for p in paths:
    here = tokens(p)
    for t in here:
        n = respelled(t)
        if n == t:
            continue
        change[t] = n
        if n in here and not (p.endswith('.rt') and n in functions):
            left[t] = f'{p} has {n}'
for t, why in sorted(left.items()):
    print('left:', t, 'since', why)
for n in sorted(set(change.values())):
    olds = [t for t in change if change[t] == n and t not in left]
    if len(olds) > 1:
        both = [p for p in paths if len(set(olds) & tokens(p)) > 1]
        print('one name now:', *sorted(olds), '->', n, *both)
for p in paths:
    text[p] = TOKEN.sub(lambda m: m[0] if m[0] in left else change.get(m[0], m[0]), text[p])
    if p.endswith('.edit'):
        text[p] = re.sub(r'\((\w+)((?: \.\w+)+)\)', lambda m: m[1] + m[2].replace(' ', ''), text[p])
        text[p] = re.sub(r'(?<=[\w)]) \.(?=\w)', '.', text[p])

# The names that Rattle makes of the source's, in the proofs of functions.
MADE = {'in_default', 'in_ok', 'in_err', 'slice_known', 'type_inv', 'len_at_least', 'len_below', 'yielded_by', 'invariant_of',
        'slice_bounds', 'offset_bounds', 'overflow_add', 'overflow_sub', 'overflow_mul', 'overflow_shl', 'overflow_shr',
        'overflow_cast', 'overflow_step', 'nonzero_div', 'nonzero_rem', 'from_residual', 'from_output', 'into_iter',
        'deref_mut', 'index_mut', 'add_assign', 'sub_assign', 'mul_assign', 'call_once', 'call_mut', 'partial_cmp',
        'as_slice', 'as_mut_slice'}
for p, s in text.items():
    if p.endswith('.rt'):
        MADE |= set(re.findall(r'\b[A-Za-z][A-Za-z0-9]*(?:_[A-Za-z0-9]+)+\b', bare(s)))
for p in glob.glob(KIT + '/rattle/std*/src/**/*.rt', recursive=True) + glob.glob(KIT + '/rattle/core/src/**/*.rt', recursive=True):
    MADE |= set(re.findall(r'\b(?:fn|ensures|requires|invariant)\*? +([a-z][a-z0-9]*(?:_[a-z0-9]+)+)', bare(open(p).read())))


def of_source(token):
    parts, out, i = token.split('-'), [], 0
    while i < len(parts):
        j = next((j for j in range(len(parts), i + 1, -1) if '_'.join(parts[i:j]) in MADE), i + 1)
        out.append('_'.join(parts[i:j]))
        i = j
    return '-'.join(out)


for p, s in text.items():
    if not p.endswith('.antt') or '/proofs/' not in p or is_lemma_file(p):
        continue
    brought = {n.strip().split(' as ')[-1] for path, ns in re.findall(r'use ([^{;\n]*)\.\{([^}]*)\}', s)
               if not re.search(r'\.(Goals|Given|Lts)$', path) for n in ns.split(',')}
    lines = []
    for line in s.split('\n'):
        def one(m):
            declared = line.startswith(' = ', m.end()) and not line[:m.start()].strip()
            return m[0] if m[0] in brought and not declared else of_source(m[0])
        lines.append(line if line.lstrip().startswith('--') else re.sub(r"[A-Za-z_][\w'₀-₉]*(?:-[\w'₀-₉]+)+", one, line))
    text[p] = '\n'.join(lines)

lines = 0
for p in paths:
    old = open(p).read()
    if old != text[p]:
        lines += sum(a != b for a, b in zip(old.split('\n'), text[p].split('\n')))
        open(p, 'w').write(text[p])
print(len(change) - len(left), 'names,', lines, 'lines')
