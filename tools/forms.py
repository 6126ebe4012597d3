#!/usr/bin/env python3
"""Counts the places in crates/*/src that have an older form of Rattle: the points of docs/DESIGN-PASS.md.

usage: python3 tools/forms.py [REPOSITORY] [-v]      (-v names each place)
"""
import collections
import glob
import os
import re
import sys

verbose = '-v' in sys.argv
rest = [a for a in sys.argv[1:] if a != '-v']
os.chdir(rest[0] if rest else '.')

# every function: file, line, name, parameters, result, body
FN = re.compile(r'^( *)(?:pub(?:\(crate\))? )?fn (\w+)(?:<[^\n]*?>)?\((.*?)\)(?: -> ([^\n{]*?))?\n?(?:\s*where\n.*?\n)?((?:\s+(?:requires|ensures)[^\n]*\n)*)\s*\{(.*?)^\1\}$', re.M | re.S)
functions = []
text = {}
for path in sorted(glob.glob('crates/*/src/**/*.rt', recursive=True)):
    code = re.sub(r'^\s*//.*\n', '', open(path).read(), flags=re.M)
    text[path] = code
    for m in FN.finditer(code):
        functions.append((path, m[2], m[3], (m[4] or '').strip(), m[5], m[6]))


def report(title, places):
    print(f'{title}: {len(places)}')
    if verbose:
        for p in places:
            print('    ' + p)


def lines(pattern):
    return [f'{p}: {l.strip()}' for p, c in text.items() for l in c.split('\n') if re.search(pattern, l)]


def bodies(pattern, where=functions):
    return [f'{f[0]}: {f[1]}' for f in where if re.search(pattern, f[5], re.M)]


# 1
shapes = []
for p, c in text.items():
    for m in re.finditer(r'enum (\w+) \{\n\s+\w+\([^)]*\),\n\s+\w+,\n\}', c):
        shapes.append(f'{p}: {m[1]}')
report('1 enums of the shape of Option or Result', shapes)
refusing = [f for f in functions if f[3] == 'u8' and re.search(r'return \d+;|return [a-z];', f[5])]
report('1 functions that answer a refusal as a number', [f'{f[0]}: {f[1]}' for f in refusing])
answers = {m[1] for c in text.values() for m in re.finditer(r'struct (\w+)(?:<[^>]*>)? \{\n\s+pub number: u8', c)}
report('1 structs with a number beside a value', sorted(answers))
report('1 calls that answer such a struct', [f'{f[0]}: {f[1]}' for f in functions if f[3].split('<')[0] in answers])
report('1 tests of a kind, a mode or a code against a number', lines(r'\b(code|kind|mode) (==|<|>|!=) \d'))
report('1 flags beside a value', lines(r'\b(carry|bad|ready): bool'))


# 2: functions that are the same but for names, types and numbers
def shape(f):
    names = {}
    t = ' '.join((f[2], f[3], f[5]))
    t = re.sub(r'\b(u8|i8|u64|usize|u16|i16)\b', 'T', t)
    t = re.sub(r'\b\d+(T)?\b', '0', t)
    t = re.sub(r'0[ui]\d+', '0', t)
    keep = {'T', 'if', 'else', 'while', 'for', 'in', 'let', 'mut', 'return', 'match', 'true', 'false', 'as', 'len', 'loop', 'break'}
    t = re.sub(r'\b[A-Za-z_]\w*\b', lambda m: m[0] if m[0] in keep else names.setdefault(m[0], f'n{len(names)}'), t)
    return re.sub(r'\s+', ' ', t)


groups = collections.defaultdict(list)
for f in functions:
    if f[5].count('\n') >= 1:
        groups[shape(f)].append(f'{f[0]}: {f[1]}')
twins = [' ~ '.join(g) for g in groups.values() if len(g) > 1]
report('2 groups of functions that differ in names, types and numbers alone', twins)
report('2 functions in them', [x for g in groups.values() if len(g) > 1 for x in g])
types = collections.defaultdict(list)
for p, c in text.items():
    for m in re.finditer(r'struct (\w+)(?:<[^>]*>)? \{\n(.*?)\n\}', c, re.S):
        types[re.sub(r'\d+', '0', m[2])].append(m[1])
report('2 types that differ in a size alone', [' ~ '.join(g) for g in types.values() if len(g) > 1])

# 3
report('3 loops that count by hand', lines(r'^\s*while '))

# 4
report('4 equality, conversion and printing by hand', [f'{f[0]}: {f[1]}' for f in functions if re.fullmatch(r'same_\w+|bit_of|digit_of|byte_of|glyph|hex\w*|decimal|write|print|text|wrapping_digit|add_limb|sub_limb|limb_of|copy_\w+|clear_\w+', f[1])])

# 5
report('5 functions of six parameters or more', [f'{f[0]}: {f[1]}' for f in functions if f[2].count(': ') >= 6])

# 6
report('6 a count, a place or a state handed on beside a buffer', [f'{f[0]}: {f[1]}' for f in functions if re.search(r'&', f[2]) and re.search(r'\b(at|m|s|unit): (usize|State)', f[2])])

# 7
report('7 switches on which call to run', bodies(r'if code (==|<) \d+ \{\n\s+return') + bodies(r'match kind \{'))

# 8
count = lambda pattern: sum(len(open(p).read().split('\n')) - 1 for p in glob.glob(pattern, recursive=True) if '/out/' not in p)
print('8 lines of proofs:', count('crates/*/proofs/**/*.antt'), 'of specs:', count('crates/*/specs/**/*.antt'), 'of src:', sum(c.count('\n') for c in map(lambda p: open(p).read(), text)))
