#!/usr/bin/env python3
"""Brings the repository's own definitions and lemmas to today's spelling: words in snake case, a prime as an apostrophe.

usage: tools/snake_names.py [--look]     at the top of the repository, once, after the toolchain's own port.py

A name is the repository's own if an .antt file of a crate declares it. `pilotsLeast` becomes `pilots_least`, `row-is`
becomes `row_is`. Types, modules and what the code of src/ declares keep their names, and so do the names that the
toolchain makes for a function's goals. In .rt files the clauses and the ghost lines are respelled, in comments and
documents what stands in backticks and names in camel case. --look writes nothing and lists the names that would fall
together in one file.
"""
import glob
import re
import sys
from collections import defaultdict

TOKEN = re.compile(r"[A-Za-z0-9_'′◌₀-₉μ+][A-Za-z0-9_'′◌₀-₉ℤℕ]*(?:-[A-Za-z0-9_'′◌₀-₉ℤℕ]+)*")
DECLARED = re.compile(r"^(\s*)((?:abbrev |unfoldable |pub |ruleset |data )*)([A-Za-z0-9_'′-]+) :(?: (.*))?$")
LIBRARY = {"in_float"}
# facts, which are spelled as types
FACTS = {"start_in": "StartIn", "maximumIn": "MaximumIn", "heldIn": "HeldIn", "sumIn": "SumIn"}
RULESET = re.compile(r"^\s*(?:pub )?ruleset ([A-Za-z0-9_'′-]+)")


def antt_files():
    return sorted(glob.glob("crates/*/specs/**/*.antt", recursive=True) + glob.glob("crates/*/proofs/**/*.antt", recursive=True))


def snake(name):
    name = name.replace("′", "'").replace("-", "_")
    name = re.sub(r"(?<=[a-z0-9'])([A-Z])", r"_\1", name)
    return name.lower()


def is_word(name):
    return name[0].islower() and not name.startswith(("returns", "tie", "goal"))


def own_names():
    own = set()
    for path in antt_files():
        of_a_function = path.endswith("/Proof.antt")
        for line in open(path):
            if line.lstrip().startswith("--"):
                continue
            m, r = DECLARED.match(line), RULESET.match(line)
            if m and not (of_a_function and (" tie." in " " + (m.group(4) or "") or m.group(3).endswith("-spec"))):
                own.add(m.group(3))
            if r:
                own.add(r.group(1))
    for path in glob.glob("crates/*/src/**/*.rt", recursive=True):
        own |= set(re.findall(r" as ([a-z]\w*)\b", "\n".join(l for l in open(path) if l.startswith("ghost use"))))
    own -= {"one-mul"}  # the library's own
    own -= set(FACTS)
    found = {n: snake(n) for n in own if is_word(n) and snake(n) != n}
    words = {s for n, s in found.items() if "-" not in n}
    for n, s in found.items():
        # a lemma that would have its definition's name
        if "-" in n and (s in words or s in own or s in LIBRARY):
            found[n] = s + "_lem"
    for n in own & words:
        found[n] = n + "_lem"
    return found | FACTS


def respelled(text, names):
    def one(m):
        word = m.group(0)
        # a snake word behind a dot is a module of a function's proof or a field of its goal
        if "_" in word and text[: m.start()].endswith((".", ":")):
            return word
        return names.get(word, word)

    return TOKEN.sub(one, text)


def in_comment(text, camel, names):
    return respelled(re.sub(r"`[^`]*`", lambda m: respelled(m.group(0), names), text), camel)


def turn_antt(text, names, camel):
    out = []
    for line in text.split("\n"):
        code, mark, comment = line, "", ""
        m = re.search(r"(^|\s)--(\s|$)", line)
        if m:
            code, comment = line[: m.start()], line[m.start():]
        out.append(respelled(code, names) + in_comment(comment, camel, names))
    return "\n".join(out)


def turn_rt(text, names, camel):
    """Ghost lines and clauses whole; of the rest only names in camel case, which the code itself never has."""
    out, depth = [], 0
    for line in text.split("\n"):
        code, comment = line, ""
        m = re.search(r"(^|\s)//", line)
        if m and '"' not in line:
            code, comment = line[: m.start()], line[m.start():]
        starts = re.match(r"\s*(requires|ensures|ghost|invariant|decreases)\b", code)
        if depth > 0 or (starts and not code.lstrip().startswith("ghost use")):
            code = respelled(code, names)
            depth = max(0, depth + code.count("{") - code.count("}"))
        elif code.lstrip().startswith("ghost use"):
            code = respelled(code, names)
        else:
            code = respelled(code, camel)
        out.append(code + in_comment(comment, camel, names))
    return "\n".join(out)


def turn_page(text, names, camel):
    """In backticks: names in camel case, and a name with a dash where it stands alone, since else it may be a file's."""
    declared = set(names.values()) | {m.group(3) for p in antt_files() for l in open(p) if (m := DECLARED.match(l))}

    def one(word):
        return names.get(word) or (snake(word) if is_word(word) and snake(word) in declared else word)

    def span(m):
        inner = m.group(1)
        if re.fullmatch(r"[a-z][A-Za-z0-9_'-]*", inner):
            return "`" + one(inner) + "`"
        return "`" + re.sub(r"\b[a-z][a-z0-9]*(?:[A-Z][a-z0-9]*)+\b", lambda w: one(w.group(0)), inner) + "`"

    return re.sub(r"`([^`\n]+)`", span, text)


def turn_edit(text, names, camel):
    out, antt = [], True
    for line in text.split("\n"):
        if line.startswith("file:"):
            antt = line.strip().endswith(".antt")
        if line.startswith(("old:", "new:")):
            line = respelled(line, names if antt or re.search(r"ensures|requires|ghost", line) else camel)
        elif line.startswith("#"):
            line = in_comment(line, camel, names)
        out.append(line)
    return "\n".join(out)


def fall_together(names):
    for path in antt_files() + sorted(glob.glob("crates/*/src/**/*.rt", recursive=True)):
        text = open(path).read()
        code = "\n".join(re.sub(r"(^|\s)(--|//)(\s.*|$)", "", l) for l in text.split("\n"))
        if path.endswith(".rt"):
            code = "\n".join(l for l in code.split("\n") if re.match(r"\s*(requires|ensures|ghost)", l))
        seen = defaultdict(set)
        for t in set(TOKEN.findall(code)):
            seen[names.get(t, t)].add(t)
        for new, olds in sorted(seen.items()):
            if len(olds) > 1:
                yield path, new, sorted(olds)


def main():
    names = own_names()
    camel = {n: s for n, s in names.items() if re.search(r"[a-z0-9][A-Z]", n) and "-" not in n}
    if sys.argv[1:] == ["--look"]:
        for path, new, olds in fall_together(names):
            print(f"{path}: {new}: {' '.join(olds)}")
        print(len(names), "names")
        return
    turns = [(antt_files(), turn_antt), (glob.glob("crates/*/src/**/*.rt", recursive=True), turn_rt)]
    turns += [(glob.glob("crates/*/must-fail/*.edit"), turn_edit)]
    turns += [(["README.md", "CONTRIBUTING.md"] + glob.glob("docs/**/*.md", recursive=True), turn_page)]
    for paths, turn in turns:
        for path in paths:
            old = open(path).read()
            new = turn(old, names, camel)
            if new != old:
                open(path, "w").write(new)


if __name__ == "__main__":
    main()
