#!/usr/bin/env python3
"""Counts the places that docs/DESIGN-PASS.md speaks of: python3 docs/places.py [COMMIT] [POINT]

Without a commit it reads the files as they lie, with one it reads them as they were then. It goes by text, so that it
also finds places that are as they should be; the page says of each why it stays. Prints each place with its point."""
import re
import subprocess
import sys
from collections import defaultdict

commit = next((a for a in sys.argv[1:] if not re.fullmatch(r'[1-8]', a)), None)
point = next((a for a in sys.argv[1:] if re.fullmatch(r'[1-8]', a)), None)


def git(*words):
    return subprocess.run(['git', *words], capture_output=True, text=True, check=True).stdout


def files(pattern):
    names = git('ls-tree', '-r', '--name-only', commit, '--', 'crates') if commit else git('ls-files', '--', 'crates')
    found = {}
    for name in names.split('\n'):
        if re.search(pattern, name):
            found[name] = git('show', '%s:%s' % (commit, name)) if commit else open(name, encoding='utf-8').read()
    return found


code = files(r'^crates/\w+/src/.*\.rt$')
places = defaultdict(list)


def found(at, path, text, index, what):
    places[at].append('%s:%d: %s' % (path, text.count('\n', 0, index) + 1, what))


def functions(text):
    for m in re.finditer(r'^(?:pub(?:\(crate\))? )?(?:extern "C" )?fn (\w+)(?:<[^(]*?>)?\((.*?)\)(.*?)\{\n(.*?)^\}', text, re.M | re.S):
        # the body begins after the last brace that ends a line of the contract
        promise, body = m.group(3), m.group(4)
        inner = re.match(r'(.*?)^\{\n(.*)', promise + '{\n' + body, re.M | re.S)
        yield m, m.group(1), m.group(2), *(inner.groups() if inner else (promise, body))


for path, text in code.items():
    # 1: enums of two cases with a value, or with a case that refuses
    for m in re.finditer(r'^(?:pub )?enum (\w+) \{\n(.*?)^\}', text, re.M | re.S):
        cases = re.findall(r'^    (\w+)(\(.*?\))?,', m.group(2), re.M)
        if (len(cases) == 2 and any(value for _, value in cases)) or any(name == 'Refused' for name, _ in cases):
            found(1, path, text, m.start(), 'enum ' + m.group(1))
    # a flag with a value beside it
    for m in re.finditer(r'^(?:pub )?struct (\w+)(?:<.*?>)? \{\n(.*?)^\}', text, re.M | re.S):
        kinds = re.findall(r'^    (?:pub(?:\(crate\))? )?\w+: (.*),', m.group(2), re.M)
        if 'bool' in kinds and set(kinds) != {'bool'}:
            found(1, path, text, m.start(), 'flag beside values in ' + m.group(1))
    # a number that means none, and the numbers of refusals
    for m in re.finditer(r'^// .*?(?:, or \d+\b|number 0\b).*$', text, re.M):
        found(1, path, text, m.start(), 'number for none: ' + m.group(0)[3:70])
    for m in re.finditer(r'^pub const ([A-Z_]+): u8 = (\d+);', text, re.M):
        if path.startswith('crates/constants/') and text.index('---- refusals') < m.start():
            found(1, path, text, m.start(), 'number of a refusal: ' + m.group(1))
    # 3: loops that count
    for m in re.finditer(r'^( *)while ([^\n]*) \{\n(.*?)^\1\}', text, re.M | re.S):
        for name in re.findall(r'\b[a-z]\w*\b', m.group(2)):
            if re.search(r'^ *%s (\+=|-=|= %s [+-]) ' % (name, name), m.group(3), re.M):
                found(3, path, text, m.start(), 'while ' + m.group(2))
                break
    # 4: bytes, digits, signs, the lesser, equality and copies by hand
    for m in re.finditer(r"^.*(?:% 256\b|/ 256\b|\b256 \*|65536 \*|\b16777216\b|- 256\)|- 65536\b|\b48 \+|- 48\)|b'0').*$", text, re.M):
        if not m.group(0).lstrip().startswith('//'):
            found(4, path, text, m.start(), m.group(0).strip())
    for m in re.finditer(r'if (\w+) < (\w+) \{ \1 \} else \{ \2 \}|=> (?:true|false),\n|(\w+): (\w+)\.\3,\n +(\w+): \4\.\5,\n *\}', text):
        found(4, path, text, m.start(), ' '.join(m.group(0).split())[:60])
    # 6: a lent buffer and a place in it, an array and a count beside it
    for m, name, given, _, body in functions(text):
        if re.search(r'&mut \[[^\]]*\](?:, | *,\n *)(?:at|from|end|n|size): usize', given):
            found(6, path, text, m.start(), 'buffer and place: ' + name)
    # 7: a step by its number, in a struct
    for m in re.finditer(r'^(?:pub )?struct (\w+)(?:<.*?>)? \{\n(.*?)^\}', text, re.M | re.S):
        for kind in re.findall(r'^    (?:pub )?(stage|step|phase|mode|kind): u\d+,', m.group(2), re.M):
            found(7, path, text, m.start(), '%s of %s is a number' % (kind, m.group(1)))

# 2: functions of one crate, or of all programs, that differ in names, types and numbers alone
shapes = defaultdict(list)
for path, text in code.items():
    for m, name, given, promise, body in functions(text):
        if len(body.split('\n')) > 3 or '] as ' in body:
            shape = re.sub(r'\b(?!if\b|while\b|for\b|return\b|let\b|mut\b|match\b|else\b|as\b)[A-Za-z_]\w*\b', 'x', body)
            shape = re.sub(r'\b\d[\d_]*\b', '0', shape)
            shapes[' '.join(shape.split())].append((path, text, m.start(), name))
for same in shapes.values():
    if len(same) > 1:
        for path, text, index, name in same:
            found(2, path, text, index, '%s, like %s' % (name, ', '.join(n for _, _, _, n in same if n != name) or 'its namesakes'))

# 5: clauses and runs of parameters that stand in three functions of a crate or more
clauses, runs = defaultdict(list), defaultdict(list)
for path, text in code.items():
    crate = path.split('/')[1]
    for m, name, given, promise, body in functions(text):
        for clause in re.findall(r'requires \{ (.*?) \}\n', promise, re.S):
            clauses[crate, ' '.join(clause.split())].append((path, text, m.start(), name))
        given = [' '.join(p.split()) for p in given.split(',') if p.strip()]
        for k in range(len(given) - 2):
            runs[crate, ', '.join(given[k:k + 3])].append((path, text, m.start(), name))
for table, what in ((clauses, 'clause'), (runs, 'parameters')):
    for (crate, text_of), same in table.items():
        if len({n for _, _, _, n in same}) > 2:
            path, text, index, name = same[0]
            found(5, path, text, index, '%s of %d functions: %s' % (what, len(same), text_of))

# 8: answers written out
for path, text in files(r'^crates/\w+/proofs/.*/Answers\.antt$').items():
    places[8].append('%s: %d answers, %d lines' % (path, len(re.findall(r'^pub \S+ :', text, re.M)), text.count('\n')))

for at in sorted(places):
    if point in (None, str(at)):
        for line in places[at]:
            print('%d %s' % (at, line))
for at in sorted(places):
    if point in (None, str(at)):
        print('point %d: %d' % (at, len(places[at])))
