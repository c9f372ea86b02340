# Checks that each sample's text makes its job: `python3 texts.py`, run by hand when a sample changes. NAME.txt is the
# text that ./compose reads. It is read here by rules written from the documents, and the file that its settings, gaps
# and rows make has to be NAME.job, byte for byte. That file goes through the page's reader as written in Python
# (crates/test_published/job.py): what it refuses, ./compose refuses with the same number and place, and writes nothing.
import re
import sys
from pathlib import Path

HERE = Path(__file__).resolve().parent
sys.dont_write_bytecode = True
sys.path.insert(0, str(HERE.parent / "crates" / "test_published"))

from job import Refused, load

# the longest text that is read
TEXT_MOST = 1_048_576

# the least and the most of a field, and its bytes; the count of `rows` is no field of the file
BYTE, SIGNED, TWO, POWER = (0, 255, 1), (-128, 127, 1), (0, 65_535, 2), (-32_768, 32_767, 2)
COUNT = (0, 999_999_999, 0)

# each word that begins a line, and its fields in order
FIELDS = {
    "settings": [BYTE] * 5 + [SIGNED, POWER],
    "gain": [BYTE] * 3,
    "gap": [BYTE] * 6 + [TWO] * 3,
    "row": [BYTE] * 2,
    "rows": [COUNT] + [BYTE] * 2,
}

# where a word may stand: after which words
AFTER = {
    "settings": [None],
    "gain": ["settings"],
    "gap": ["gain", "gap"],
    "row": ["gain", "gap", "row", "rows"],
    "rows": ["gain", "gap", "row", "rows"],
}


class Unreadable(Exception):
    pass


# words between spaces and tabs; what follows a '#' is skipped
def words_of(line):
    return [word for word in re.split(b"[ \t]+", line.split(b"#")[0]) if word]


# "A number is an optional `-` and 1 to 9 digits"; one that does not fit its bytes is unreadable
def number(word, field):
    least, most, _ = field
    if not re.fullmatch(b"-?[0-9]{1,9}", word) or not least <= int(word) <= most:
        raise Unreadable
    return int(word)


# the word and the numbers of a line that is not empty, after a line with the word `before`
def fields(words, before):
    word = words[0].decode("latin-1")
    if before not in AFTER.get(word, []) or len(words) != 1 + len(FIELDS[word]):
        raise Unreadable
    return word, [number(*pair) for pair in zip(words[1:], FIELDS[word])]


def packed(word, numbers):
    sizes = [field[2] for field in FIELDS[word]]
    return b"".join((n % 256**size).to_bytes(size, "little") for n, size in zip(numbers, sizes))


# the three bodies that a text describes, or the number of its first line that cannot be read
def bodies(text):
    # a carriage return before the line feed is left out; elsewhere, in a comment too, it makes its line unreadable
    lines = text.replace(b"\r\n", b"\n").split(b"\n")
    if lines[-1] == b"":
        lines.pop()
    before, parts = None, {word: b"" for word in FIELDS}
    for at, line in enumerate(lines):
        words = words_of(line)
        try:
            if b"\r" in line:
                raise Unreadable
            if words:
                before, numbers = fields(words, before)
                kind = "row" if before == "rows" else before
                # a file of so many rows is too long already: that more are kept changes nothing
                times = min(numbers[0], 40_000) if before == "rows" else 1
                parts[kind] += packed(before, numbers) * times
        except Unreadable:
            return None, at + 1
    if before in (None, "settings"):
        return None, len(lines) + 1
    settings = parts["settings"]
    return (settings[:5] + parts["gain"] + settings[5:6] + b"\0" + settings[6:], parts["gap"], parts["row"]), 0


# "A table of contents first, then the bodies."
def file_of(kind, parts):
    contents, begin = bytes([kind, 3]), 29
    for entry, part in enumerate(parts):
        contents += bytes([entry + 1]) + begin.to_bytes(4, "little") + len(part).to_bytes(4, "little")
        begin += len(part)
    return contents + b"".join(parts)


# the job that a text makes, and what is said in its place, which is empty if the job is written
def composed(text):
    if len(text) > TEXT_MOST:
        return b"", "input too long"
    parts, line = bodies(text)
    if parts is None:
        return b"", "line %d unreadable" % line
    data = file_of(1, parts)
    try:
        load(data)
    except Refused as refused:
        return data, "refused %d at %d" % refused.args
    return data, ""


def main():
    wrong = 0
    for source in sorted(HERE.glob("*.hex")):
        data, said = composed(source.with_suffix(".txt").read_bytes())
        same = data == source.with_suffix(".job").read_bytes()
        # the listing of a refused job is that refusal alone
        listing = source.with_suffix(".listing").read_text()
        right = same and (said + "\n" == listing or not said and not listing.startswith("refused"))
        print("%s: %s" % (source.stem, (said or "%d bytes" % len(data)) if right else "WRONG " + said))
        wrong += not right
    sys.exit(1 if wrong else 0)


if __name__ == "__main__":
    main()
