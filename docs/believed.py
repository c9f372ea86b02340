#!/usr/bin/env python3
"""Checks the lists of docs/BELIEVED.md against crates/*/specs/, and counts lines. Status 1 if a list is wrong.

The head of each file of specs/ has one of three lines, which says what the file holds, and BELIEVED.md lists the file
so: as definitions, as beside them, or, of laws, not at all. Laws stand in proofs/Laws/. A listed definition, and the contract of a public function,
may use no file of specs/ that is not listed as definitions, and a definition only files that are listed before it.
Lines are counted without empty lines, comments and the lines that name modules (use, mod)."""
import glob, os, re, sys

root = os.path.dirname(os.path.dirname(os.path.abspath(__file__)))
os.chdir(os.path.join(root, 'crates'))
text = open('../docs/BELIEVED.md', encoding='utf-8').read()
wrong = []
HEADS = {
    'definitions': '-- Definitions, to be believed.',
    'beside': '-- Definitions beside the rules, which need not be believed.',
    'laws': '-- Assumes nothing.',
}


def section(name):
    found = re.search(r'<a id="%s"></a>(.*?)(?=<a id=|\Z)' % name, text, re.S)
    return found.group(1) if found else ''


def listed(name):
    return re.findall(r'^\| `(\w+/specs/[\w/]+\.antt)` \|', section(name), re.M)


def read(path):
    return open(path, encoding='utf-8').read()


def head(path):
    """The lines of the comment at the top of a file."""
    return re.match(r'(?:--.*\n)*', read(path)).group(0).split('\n')


def lines(path):
    kept = (line.strip() for line in read(path).split('\n'))
    return sum(1 for s in kept if s and not re.match(r'--|//|(ghost )?use |(pub )?mod ', s))


def used(source):
    """The names that a file takes from specs/, each with the file that it stands in."""
    names = {}
    for crate, module, group in re.findall(r'use Rattle\.(\w+?)\.specs\.([\w.-]+?)\.\{([^}]*)\}', source):
        for name in group.split(','):
            names[name.split(' as ')[-1].strip()] = '%s/specs/%s.antt' % (crate, module.replace('.', '/'))
    for crate, module, name in re.findall(r'use Rattle\.(\w+?)\.specs\.([\w.-]+) as (\w+)', source):
        names[name] = '%s/specs/%s.antt' % (crate, module.replace('.', '/'))
    return {n: f for n, f in names.items() if '/declared/' not in f and not f.startswith('std/')}


definitions, beside = listed('definitions'), listed('beside')
files = sorted(f for f in glob.glob('*/specs/**/*.antt', recursive=True) if not f.endswith('/Lib.antt'))
laws = [f for f in files if f not in definitions and f not in beside]
proofs = glob.glob('*/proofs/**/*.antt', recursive=True)
laws_apart = [f for f in proofs if '/proofs/Laws' in f]

for f in definitions + beside:
    if f not in files:
        wrong.append('%s is listed, and is not there' % f)
for f in set(definitions) & set(beside) | {f for f in definitions if definitions.count(f) > 1}:
    wrong.append('%s is listed twice' % f)
for f in files:
    listed_as = 'definitions' if f in definitions else 'beside' if f in beside else 'laws'
    for kind in HEADS:
        if (HEADS[kind] in head(f)) != (kind == listed_as):
            has = 'lacks' if kind == listed_as else 'has'
            wrong.append('%s: listed as %s, and its head %s the line "%s"' % (f, listed_as, has, HEADS[kind]))
for f in (f for f in definitions if f in files):
    for name, at in sorted(used(read(f)).items()):
        if at not in definitions:
            wrong.append('%s uses %s of %s, which is not listed as definitions' % (f, name, at))
        if at in definitions and definitions.index(at) > definitions.index(f):
            wrong.append('%s uses %s of %s, which is listed after it' % (f, name, at))
sources = sorted(glob.glob('*/src/**/*.rt', recursive=True))
for f in (f for f in sources if not f.startswith('test_')):
    names = used(read(f))
    for fn, contract in re.findall(r'\npub (?:extern "C" )?fn (\w+)(\(.*?)\n\{', read(f), re.S):
        for name in sorted(set(re.findall(r'[\w-]+', re.sub(r'//.*', '', contract))) & set(names)):
            if names[name] not in definitions:
                wrong.append('%s: the contract of %s uses %s of %s, not listed' % (f, fn, name, names[name]))

for what, group in (
    ('definitions', definitions),
    ('beside', beside),
    ('laws', laws + laws_apart),
    ('proofs of code', [f for f in proofs if f not in laws_apart]),
    ('code of libraries and of the program', [f for f in sources if not f.startswith('test_')]),
    ('code of test programs', [f for f in sources if f.startswith('test_')]),
):
    print('%6d lines in %3d files: %s' % (sum(lines(f) for f in group if os.path.exists(f)), len(group), what))
for line in wrong:
    print(line)
sys.exit(bool(wrong))
