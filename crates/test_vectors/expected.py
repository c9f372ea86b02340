# Prints what the program has to print: `python3 expected.py > stdout`. Levels are this language's own floats, which are binary64 too;
# whether one is in range, and its nearest whole number, are worked out in exact fractions.
import math
import struct
from fractions import Fraction

TOP = 2**32 - 1


def bits(x):
    return struct.unpack(">Q", struct.pack(">d", x))[0]


def in_range(x):
    return math.isfinite(x) and abs(Fraction(x)) <= 1984


def nearest(x):
    if not in_range(x):
        return 0
    size = math.floor(abs(Fraction(x)) + Fraction(1, 2))
    return -size if x < 0 else size


def shown(x):
    return "%016x" % bits(x) if in_range(x) else "-"


def update(f, bracket):
    level, count = f
    return 0.9375 * level - float(bracket), min(count + 1, TOP)


def bracket(command, step, before, now):
    return 0 if before and now else command * (step * 31 // 32)


def resume(itp, step, command, f):
    return step * command if itp == 0 else nearest(f[0])


def show(name, f, *more):
    print(name, *more, shown(f[0]), f[1], nearest(f[0]))


def run(name, f, brackets):
    digest = 0
    for b in brackets:
        f = update(f, b)
        digest = (3 * digest + (bits(f[0]) if in_range(f[0]) else 0)) % 2**64
    show(name, f, "%016x" % digest)


def drawn(seed, updates):
    for _ in range(updates):
        seed = (seed % 2**31 * 1103515245 + 12345) % 2**31
        yield (-124, -62, 0, 62, 124)[seed // 65536 % 5]


EMPTY = (0.0, 0)
once = update(EMPTY, bracket(1, 64, False, False))
twice = update(once, bracket(1, 64, False, False))
show("start", EMPTY)
show("once", once)
show("twice", twice)
for name, itp, step, command in (
    ("1", 1, 64, 1),
    ("0, 1 dB, +1", 0, 64, 1),
    ("0, 2 dB, -1", 0, 128, -1),
    ("0, 2 dB, 0", 0, 128, 0),
    ("255", 255, 64, 1),
    ("0, 255 units, -128", 0, 255, -128),
):
    print("resume by itp", name, resume(itp, step, command, twice))
for name, command, step, before, now in (
    ("+1, 1 dB", 1, 64, 0, 0),
    ("-1, 1 dB, limited before", -1, 64, 1, 0),
    ("0, 1 dB, limited now", 0, 64, 0, 1),
    ("+1, 2 dB, limited now", 1, 128, 0, 1),
    ("-1, 2 dB", -1, 128, 0, 0),
    ("+1, 1 dB, both limited", 1, 64, 1, 1),
    ("-1, 2 dB, both limited", -1, 128, 1, 1),
    ("-128, 255 units", -128, 255, 0, 0),
):
    print("bracket", name, bracket(command, step, before, now))
for text in """0.0 -0.0 5e-324 -5e-324 0.49999999999999994 0.5 -0.49999999999999994 -0.5 -0.4 1.5 2.5 -2.5 -120.125 1023.5
1983.4999999999998 1983.5 1984.0 -1984.0 1984.0000000000002 -1984.0000000000002 1.7976931348623157e308 infinity -infinity nan""".split():
    print("level", text, shown(float(text)), nearest(float(text)))
for units in (0, 128, -(2**31), 2**31 - 1):
    print("whole", units)
top = update((0.0, TOP - 1), 0)
show("top", top)
show("top", update(top, 0))
for name, level, count, rows in (
    ("0, no update, no row", 0.0, 0, 0),
    ("-0, an update, no row", -0.0, 1, 0),
    ("1984, 5 updates, 5 rows", 1984.0, 5, 5),
    ("above 1984, 5 updates, 5 rows", 1984.0000000000002, 5, 5),
    ("-1984, 6 updates, 5 rows", -1984.0, 6, 5),
):
    print("sound", name, "yes" if in_range(level) and count <= rows else "no")
for updates, b in ((12, -124), (29999, -124), (29999, 124), (29999, -62)):
    run("%d times %+d" % (updates, b), EMPTY, [b] * updates)
for name, level, updates in (
    ("62", 62.0, 11000),
    ("62", 62.0, 12000),
    ("-0", -0.0, 3),
    ("the least number", 5e-324, 3),
    ("-8 of the least", -4e-323, 3),
):
    run("%d times 0 from %s" % (updates, name), (level, 0), [0] * updates)
for seed, updates in ((1, 11), (1, 30000), (2, 30000), (3, 100000)):
    run("%d drawn by %d" % (updates, seed), EMPTY, drawn(seed, updates))
