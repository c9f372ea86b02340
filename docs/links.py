#!/usr/bin/env python3
"""Checks that the documents' links lead somewhere, and that each rule is traced: python3 docs/links.py

Looks at README.md, CONTRIBUTING.md, docs/**/*.md and rust/README.md. A relative link has to name a file or a folder of
the repository, and its #anchor an anchor or a heading of that page. A code span that links to a file of Rattle names
something that stands in it. A code span that names a file with a slash, such as `crates/x/specs/Y.antt` or, below
crates/, `x/specs/Y.antt`, has to name one that is there; one that begins with a crate's room, as `specs/Y.antt`, one of
some crate. A part in capitals, as in `crates/NAME/must-fail/`, stands for any
name. A comment in crates/ such as `RULES: gaps` or `DECISIONS: gaps-runs-merge` has to name anchors of that page. Each
rule of RULES.md, an anchor with a hyphen, shows its name and has a row in TRACE.md that links to it. Each statement of
the demands has a row in DEMANDS.md. Prints what leads nowhere or is left out, and ends with status 1 if anything does
or is."""
import glob, os, re, sys

root = os.path.dirname(os.path.dirname(os.path.abspath(__file__)))
os.chdir(root)
pages = ['README.md', 'CONTRIBUTING.md', 'rust/README.md'] + sorted(glob.glob('docs/**/*.md', recursive=True))
pages.remove('docs/PORT.md')  # it names files as they were

# a code span with a slash inside is taken for a file or a folder if it ends in one of these
ENDINGS = ('.antt', '.rt', '.rs', '.py', '.md', '.txt', '.edit', '.h', '.c', '.toml', '.job', '.hex', '.listing', '/')
PLACES = ('', 'crates', 'rust', 'docs', 'crates/*', 'rust/*', 'rust/*/src')


def without_fences(text):
    """The text with fenced code blocks emptied, line for line."""
    out, inside = [], False
    for line in text.split('\n'):
        fence = line.lstrip().startswith('```')
        out.append('' if inside or fence else line)
        inside = inside != fence
    return '\n'.join(out)


def slug(heading):
    heading = re.sub(r'<[^>]*>', '', heading)
    heading = re.sub(r'\[([^\]]*)\]\([^)]*\)', r'\1', heading)
    return re.sub(r'[^\w\- ]', '', heading.strip().lower()).replace(' ', '-')


known = {}


def anchors(page):
    if page not in known:
        text = without_fences(open(page, encoding='utf-8').read())
        found, seen = set(re.findall(r'<a (?:id|name)="([^"]+)"', text)), {}
        for heading in re.findall(r'^#{1,6} (.*)$', text, re.M):
            name = slug(heading)
            found.add(name if name not in seen else '%s-%d' % (name, seen[name]))
            seen[name] = seen.get(name, 0) + 1
        known[page] = found
    return known[page]


def there(path, page):
    """Whether a code span's path names something: from the root, below a place, or beside the page."""
    return any(glob.glob(os.path.join(place, path)) for place in PLACES + (os.path.dirname(page),))


def link(target, page):
    """What is wrong with a relative link, or nothing."""
    if re.match(r'[a-z][a-z0-9+.-]*:', target):
        return None
    path, _, anchor = target.partition('#')
    file = os.path.normpath(os.path.join(os.path.dirname(page), path)) if path else page
    if file.startswith('..') or not os.path.exists(file):
        return 'no such file'
    if anchor and (not file.endswith('.md') or anchor not in anchors(file)):
        return 'no such anchor'
    return None


def stands(name, file):
    """Whether the last part of a linked name, as of `crate::function(x)` or `Record.part`, stands in its file. A proof
    is named by its function, in its path."""
    part = re.split(r'::|\.', name.split('(')[0])[-1]
    return (file.endswith('/Proof.antt') or name == os.path.basename(file)
            or re.search(r'(?<![\w-])%s(?![\w-])' % re.escape(part), open(file, encoding='utf-8').read()))


bad = links = spans = 0
for page in pages:
    if not os.path.exists(page):
        print('%s: is not there' % page)
        bad += 1
        continue
    text = without_fences(open(page, encoding='utf-8').read())
    for number, line in enumerate(text.split('\n'), 1):
        bare = re.sub(r'`[^`]*`', '``', line)
        for target in re.findall(r'\]\(<?([^)\s>]+)>?(?: "[^"]*")?\)', bare):
            links += 1
            why = link(target, page)
            if why:
                print('%s:%d: (%s): %s' % (page, number, target, why))
                bad += 1
        for name, target in re.findall(r'\[`([^`]+)`\]\(([^)\s#]+\.(?:antt|rt))\)', line):
            file = os.path.normpath(os.path.join(os.path.dirname(page), target))
            if os.path.exists(file) and not stands(name, file):
                print('%s:%d: `%s` does not stand in %s' % (page, number, name, file))
                bad += 1
        for span in re.findall(r'`([^`]+)`', line):
            if not re.fullmatch(r'[\w.*-]+(/[\w.*-]+)+/?', span) or not span.endswith(ENDINGS):
                continue
            if re.search(r'(^|/)[A-Z]+(/|$)', span):  # a word in capitals stands for any name
                continue
            spans += 1
            if not there(span, page):
                print('%s:%d: `%s`: no such file' % (page, number, span))
                bad += 1

cited = 0
for path in sorted(glob.glob('crates/**/*.antt', recursive=True) + glob.glob('crates/**/*.rt', recursive=True)):
    text = open(path, encoding='utf-8').read()
    for page, names in re.findall(r'(?:--|//) (RULES|DECISIONS): ([a-z0-9, -]+)$', text, re.M):
        for name in names.split(', '):
            cited += 1
            if name not in anchors('docs/%s.md' % page):
                print('%s: %s: %s: no such anchor' % (path, page, name))
                bad += 1

rules = re.findall(r'<a id="([a-z]+-[a-z0-9-]+)"></a>(`[^`]*`)?', open('docs/RULES.md', encoding='utf-8').read())
trace = open('docs/TRACE.md', encoding='utf-8').read()
for name, shown in rules:
    if shown != '`%s`' % name:
        print('docs/RULES.md: the rule %s does not show its name' % name)
        bad += 1
    if not re.search(r'^\| [^|]*\(RULES\.md#%s\)' % name, trace, re.M):
        print('docs/TRACE.md: no row for the rule %s' % name)
        bad += 1

# what the demands state, each with a row of its own: their parts, and the words that they are said with
told = set(re.findall(r'`([\w-]+)`', ' '.join(re.findall(r'^\| ([^|]*) \|', open('docs/DEMANDS.md', encoding='utf-8').read(), re.M))))
stated = set()
for path in glob.glob('crates/demands/specs/*.antt'):
    text = open(path, encoding='utf-8').read()
    stated |= set(re.findall(r'^ *pub (?:record|data) (\w+)', text, re.M)) - {'Demand1', 'Demand2', 'Demand3', 'Meets'}
    for parts in re.findall(r'^pub record (?:Demand\d|Meets)\b.*where\n((?:  .*\n|\n)*)', text, re.M):
        stated |= set(re.findall(r'^  pub ([\w-]+) :', parts, re.M))
for name in sorted(stated - told):
    print('docs/DEMANDS.md: no row for %s' % name)
    bad += 1
print('%d pages, %d links, %d names of files, %d names in comments, %d rules, %d statements: %d to look at'
      % (len(pages), links, spans, cited, len(rules), len(stated), bad))
sys.exit(bool(bad))
