#!/usr/bin/env python3
"""Moves the files of laws from specs/ to proofs/Laws/, and respells the paths of all who cite them.

usage: tools/laws_to_proofs.py [--look]     at the top of the repository, once

A file of specs/ holds laws if its head says `-- Assumes nothing.`; the others hold definitions and stay. The part
`Laws` of a module's name moves to its front: Rattle.levels.specs.Level.Laws.Powers is then
Rattle.levels.proofs.Laws.Level.Powers. Today's toolchain counts a must-fail edit of a definition only where no theorem
of specs/ rests on a theorem that the edit breaks.
"""
import glob
import os
import re
import subprocess
import sys


def is_law(path):
    return "-- Assumes nothing" in open(path).read()


def module(parts):
    # a file of the name Answers in proofs/ is a function's, and Units is a record of the module that would be its parent
    return [{"Answers": "OnAnswers", "Units": "Measured"}.get(p, p) for p in parts if p != "Laws"]


def moves():
    found = {}
    for path in sorted(glob.glob("crates/*/specs/**/*.antt", recursive=True)):
        if is_law(path):
            crate = path.split("/")[1]
            parts = path.split("/specs/")[1][: -len(".antt")].split("/")
            found[(crate, tuple(parts))] = tuple(module(parts))
    return found


def children(crate, parts, found):
    return [p for (c, p) in found if c == crate and len(p) == len(parts) + 1 and p[: len(parts)] == parts]


def mod_lines(text):
    return re.findall(r"^((?:pub )?mod) (\w+)$", text, re.M)


def main():
    found = moves()
    news = {}
    for (crate, parts), new in found.items():
        if (crate, new) in news:
            sys.exit(f"{crate}: {parts} and {news[(crate, new)]} fall together")
        news[(crate, new)] = parts
    if sys.argv[1:] == ["--look"]:
        for (crate, parts), new in found.items():
            print(crate, "/".join(parts), "->", "Laws/" + "/".join(new))
        return
    # how each law's module was declared, and by whom
    shown = {}
    for crate in {c for c, _ in found}:
        for path in glob.glob(f"crates/{crate}/specs/**/*.antt", recursive=True):
            at = path.split("/specs/")[1][: -len(".antt")].split("/")
            parent = () if at == ["Lib"] else tuple(at)
            text = open(path).read()
            for kind, name in mod_lines(text):
                if (crate, parent + (name,)) in found:
                    shown[(crate, parent + (name,))] = kind
                    text = re.sub(rf"^{kind} {name}\n", "", text, flags=re.M)
            open(path, "w").write(text)
    nodes = {}
    for (crate, parts), new in found.items():
        old = f"crates/{crate}/specs/{'/'.join(parts)}.antt"
        to = f"crates/{crate}/proofs/Laws/{'/'.join(new)}.antt"
        os.makedirs(os.path.dirname(to), exist_ok=True)
        subprocess.run(["git", "mv", old, to], check=True)
        for k in range(1, len(new) + 1):
            kind = shown.get((crate, parts), "pub mod") if k == len(new) else "pub mod"
            line = nodes.setdefault((crate, new[: k - 1]), {})
            if kind == "pub mod" or new[k - 1] not in line:
                line[new[k - 1]] = kind
    for (crate, node), lines in nodes.items():
        path = f"crates/{crate}/proofs/Laws{''.join('/' + n for n in node)}.antt"
        text = open(path).read() if os.path.exists(path) else "-- The laws of this crate's definitions.\n"
        head = re.match(r"(?:--.*\n)*", text).group(0)
        text = head + "".join(f"{kind} {n}\n" for n, kind in sorted(lines.items())) + text[len(head):]
        open(path, "w").write(text)
    for crate in {c for c, _ in found}:
        path = f"crates/{crate}/proofs/Lib.antt"
        text = open(path).read() if os.path.exists(path) else ""
        open(path, "w").write("pub mod Laws\n" + text)
    # whoever cites them
    paths = {}
    for (crate, parts), new in found.items():
        for sep in (".", "::"):
            for own in ([crate] if sep == "." else [crate, "crate"]):
                front = f"Rattle.{crate}" if sep == "." else own
                paths[(crate, sep.join([front, "specs", *parts]))] = sep.join([front, "proofs", "Laws", *new])
    files = [p for kind in ("specs/**/*.antt", "proofs/**/*.antt", "src/**/*.rt", "must-fail/*.edit") for p in glob.glob(f"crates/*/{kind}", recursive=True)]
    long_first = sorted(paths.items(), key=lambda kv: -len(kv[0][1]))
    for path in files:
        own = path.split("/")[1]
        text = was = open(path).read()
        for (crate, old), new in long_first:
            if old.startswith("crate::") and crate != own:
                continue
            text = re.sub(re.escape(old) + r"(?![\w'])", lambda m: new, text)
        if path.endswith(".edit"):
            for (crate, parts), new in found.items():
                if crate == own:
                    text = re.sub(rf"^file: specs/{'/'.join(parts)}\.antt$", f"file: proofs/Laws/{'/'.join(new)}.antt", text, flags=re.M)
        if text != was:
            open(path, "w").write(text)


if __name__ == "__main__":
    main()
