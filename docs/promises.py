#!/usr/bin/env python3
"""Checks docs/PROMISES.md and the must-fail edits against the code: python3 docs/promises.py

Every public function of a library crate has its row, and each row names two edits or more that are there. Its column
"Stated by" links the definition that the promise names: the first name of its `ensures` that a `use` line brings in, in
an equation the first after `≡`. If that is a record with a part `is`, the column links the rule of this part too. What
it links has to be there. Every edit quotes a text that stands in its file exactly once, changes neither a proof nor a
law, and is named in PROMISES.md or in TRACE.md. Reads text only; that an edit is refused, the gate shows. Prints what
is wrong, and ends with status 1 if anything is."""
import glob, os, re, sys

root = os.path.dirname(os.path.dirname(os.path.abspath(__file__)))
os.chdir(root)
wrong = []


def read(path):
    return open(path, encoding='utf-8').read()


def public_functions():
    """crate::function, or crate::module::function, of every crate that is no program: its file and its `ensures`."""
    found = {}
    for path in glob.glob('crates/*/src/**/*.rt', recursive=True):
        crate, module = path.split('/')[1], os.path.basename(path)[:-3]
        # a program has none, and exports_c says again what exports says
        if crate == 'exports_c' or os.path.exists('crates/%s/src/main.rt' % crate):
            continue
        for name, rest in re.findall(r'^pub (?:extern "C" )?fn (\w+)(.*?)^\}', read(path), re.M | re.S):
            promise = re.search(r'ensures(?: \w+)? \{(.*?)\}\s*\n', rest, re.S)
            full = '::'.join([crate] + ([] if module == 'lib' else [module]) + [name])
            found[full] = (path, promise.group(1) if promise else '')
    return found


def brought_in(path):
    """The names that the `use` lines of a file bring in: what each is called at home, and its file in specs/."""
    names = {}
    for module, group in re.findall(r'^(?:ghost )?use ([\w.-]+)\.\{([^}]*)\}', read(path), re.M):
        crate = re.match(r'Rattle\.(\w+)\.specs\.(.*)', module)
        crate = None if crate and crate.group(1) == 'std' else crate
        file = 'crates/%s/specs/%s.antt' % (crate.group(1), crate.group(2).replace('.', '/')) if crate else None
        for name in group.split(','):
            own, _, here = name.strip().partition(' as ')
            names[here or own] = (own, file)
    return names


def defined_in(path):
    """The names that a file of specs/ defines."""
    return re.findall(r'^(?:\w+ )*pub (?:record |data )?([\w-]+) ', read(path), re.M) if os.path.exists(path) else []


def stated_by(path, statement):
    """The definition that a statement in a file names first, after its `≡` if it has one: its name and file."""
    names = {**brought_in(path), **{own: (own, path) for own in defined_in(path) if path.endswith('.antt')}}
    for name in re.findall(r'[\w-]+', statement.split('≡', 1)[-1]):
        if name in names:
            return names[name]
    return None


def definitions_named(path, promise):
    """What "Stated by" has to link: the definition that a promise names and, of a record, the rule of its part `is`."""
    first = stated_by(path, promise)
    file = first[1] if first and first[1] and os.path.exists(first[1]) else None
    record = re.search(r'^pub record %s .*?(?=\n\n|\Z)' % first[0], read(file), re.M | re.S) if file else None
    part = re.search(r'^  pub is : (.*?)(?=^  pub |\Z)', record.group(), re.M | re.S) if record else None
    return [first] + ([stated_by(file, part.group(1))] if part else [])


def proof_or_law(path):
    return path.startswith('proofs/') or re.search(r'/(Laws|All|Proved)(\.antt|/)|specs/Theorems/', path)


def look_at(edit):
    """An edit: its files, and the texts that it takes out, each of which has to stand once in what the pairs before made."""
    crate, texts, path, old = edit.split('/must-fail/')[0], {}, None, None
    for line in read(edit).split('\n'):
        if line.startswith('file: '):
            path = os.path.join(crate, line[6:])
            texts.setdefault(path, read(path) if os.path.exists(path) else '')
            if proof_or_law(line[6:]):
                wrong.append('%s changes a proof or a law: %s' % (edit, line[6:]))
        elif line.startswith('old: '):
            old = line[5:]
            if texts[path].count(old) != 1:
                wrong.append('%s: its text stands %d times in %s: %s' % (edit, texts[path].count(old), path, old))
        elif line.startswith('new: '):
            texts[path] = texts[path].replace(old, line[5:])


edits = {os.path.basename(path)[:-5]: path for path in sorted(glob.glob('crates/*/must-fail/*.edit'))}
for path in sorted(glob.glob('crates/*/must-fail/*.edit')):
    look_at(path)

rows, cells = {}, {}
for line in read('docs/PROMISES.md').split('\n'):
    row = re.match(r'\| \[?`(\w+(?:::\w+)+)', line)
    if row:
        rows[row.group(1)] = {name for name in re.findall(r'must-fail/(\w+)\.edit', line)}
        cells[row.group(1)] = line.split(' | ')[2]
functions = public_functions()
wrong += ['no row for %s' % name for name in sorted(set(functions) - set(rows))]
wrong += ['a row for %s, which is no public function' % name for name in sorted(set(rows) - set(functions))]
wrong += ['fewer than two edits in the row of %s' % name for name in sorted(rows) if len(rows[name] & set(edits)) < 2]
for name in sorted(set(rows) & set(functions)):
    for named in definitions_named(*functions[name]):
        if named is None:
            wrong.append('the promise of %s names no definition' % name)
        elif ('[`%s`](../%s)' % named if named[1] else '`%s`' % named[0]) not in cells[name]:
            wrong.append('"Stated by" of %s leaves out %s of %s' % (name, named[0], named[1] or 'the library'))
    for own, file in re.findall(r'\[`([\w-]+)`\]\(\.\./([^)]*)\)', cells[name]):
        if own not in defined_in(file):
            wrong.append('"Stated by" of %s: no %s in %s' % (name, own, file))

named = set(re.findall(r'must-fail/(\w+)\.edit', read('docs/PROMISES.md') + read('docs/TRACE.md')))
wrong += ['%s is named in no document' % edits[name] for name in sorted(set(edits) - named)]

for line in wrong:
    print(line)
print('%d public functions, %d rows, %d edits: %d to look at' % (len(functions), len(rows), len(edits), len(wrong)))
sys.exit(1 if wrong else 0)
