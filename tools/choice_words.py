#!/usr/bin/env python3
"""Renames the choice of crate ground, `if TEST then A else B`, to `when TEST then A else B`.

usage: tools/choice_words.py [FOLDER..]     at the top of the repository, or over these folders of crates

Today's library has an operator of the first name, with another precedence, and its gate refuses a second one.
"""
import glob
import re
import sys


def turn(text, comment):
    out = []
    for line in text.split("\n"):
        m = re.search(rf"(^|\s){comment}(\s|$)", line)
        code, rest = (line[: m.start()], line[m.start():]) if m else (line, "")
        code = code.replace("if◌then◌else◌", "when◌then◌else◌")
        if not code.lstrip().startswith(("use ", "ghost use ")):
            code = re.sub(r"(?<![\w'-])if(?![\w'-])", "when", code)
        out.append(code + rest)
    return "\n".join(out)


def main():
    for folder in sys.argv[1:] or sorted(glob.glob("crates/*")):
        for path in glob.glob(f"{folder}/specs/**/*.antt", recursive=True) + glob.glob(f"{folder}/proofs/**/*.antt", recursive=True):
            text = open(path).read()
            if "if◌then◌else◌" in text:
                open(path, "w").write(turn(text, "--"))
        for path in glob.glob(f"{folder}/src/**/*.rt", recursive=True):
            text = open(path).read()
            if "if◌then◌else◌" in text:
                text = text.replace("if◌then◌else◌", "when◌then◌else◌")
                text = re.sub(r"(?m)^(\s*(?:requires|ensures)\b.*)$", lambda m: re.sub(r"(?<![\w'-])if(?![\w'-])", "when", m.group(1)), text)
                open(path, "w").write(text)
        for path in glob.glob(f"{folder}/must-fail/*.edit"):
            text, antt, out = open(path).read(), False, []
            for line in text.split("\n"):
                if line.startswith("file:"):
                    antt = line.strip().endswith(".antt")
                if antt and line.startswith(("old:", "new:")):
                    line = re.sub(r"(?<![\w'-])if(?![\w'-])", "when", line.replace("if◌then◌else◌", "when◌then◌else◌"))
                out.append(line)
            if out != text.split("\n"):
                open(path, "w").write("\n".join(out))


if __name__ == "__main__":
    main()
