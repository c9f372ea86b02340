#!/usr/bin/env python3
"""Lines added and taken away by crate, for a note in docs/changes/: python3 docs/moved.py BASE [END]

BASE and END are commits; without END the files are taken as they are now. Files renamed within a crate are followed.
Definitions are the files that docs/BELIEVED.md lists. Prints a table."""
import os, re, subprocess, sys

COLUMNS = ['definitions and statements', 'laws, examples and proofs', 'code', 'edits', 'files of tests']

root = os.path.dirname(os.path.dirname(os.path.abspath(__file__)))
os.chdir(root)
listed = set(re.findall(r'^\| `(\w+/specs/[\w/]+\.antt)` \|', open('docs/BELIEVED.md', encoding='utf-8').read(), re.M))


def column(path):
    """The column that a file below crates/ belongs to."""
    room = path.split('/')[1]
    if room == 'specs':
        return COLUMNS[0] if path in listed else COLUMNS[1]
    return {'proofs': COLUMNS[1], 'src': COLUMNS[2], 'must-fail': COLUMNS[3]}.get(room, COLUMNS[4])


def cell(pair):
    return '+%d −%d' % pair if pair != (0, 0) else ''


def changed(words, crate):
    """Each changed file of a crate with its lines added and taken away. A renamed file has two paths, each ended by a
    zero."""
    out = subprocess.run(['git', 'diff', '--numstat', '-M', '-z'] + words + ['--', 'crates/' + crate],
                         check=True, capture_output=True, text=True).stdout.split('\0')
    while out and out[0]:
        added, taken, path = out.pop(0).split('\t')
        if not path:
            out.pop(0)
            path = out.pop(0)
        if added != '-':
            yield path[len('crates/'):], int(added), int(taken)


def total(pairs):
    pairs = list(pairs)
    return sum(p[0] for p in pairs), sum(p[1] for p in pairs)


if not 2 <= len(sys.argv) <= 3:
    sys.exit('usage: moved.py BASE [END]')
crates = {}
names = subprocess.run(['git', 'diff', '--name-only', '--no-renames'] + sys.argv[1:] + ['--', 'crates'],
                       check=True, capture_output=True, text=True).stdout.split('\n')
for crate in sorted({name.split('/')[1] for name in names if name.count('/') > 1}):
    row = crates.setdefault(crate, dict.fromkeys(COLUMNS, (0, 0)))
    for path, added, taken in changed(sys.argv[1:], crate):
        row[column(path)] = total([row[column(path)], (added, taken)])
order = re.findall(r'^(\w+):', open('crates.txt', encoding='utf-8').read(), re.M)
print('| Crate | %s | all |' % ' | '.join(COLUMNS))
print('|---|%s' % ('---|' * (len(COLUMNS) + 1)))
for crate in sorted(crates, key=lambda c: order.index(c) if c in order else len(order)):
    row = crates[crate]
    print('| `%s` | %s | %s |' % (crate, ' | '.join(cell(row[c]) for c in COLUMNS), cell(total(row.values()))))
sums = [total(row[c] for row in crates.values()) for c in COLUMNS]
print('| all | %s | %s |' % (' | '.join(map(cell, sums)), cell(total(sums))))
