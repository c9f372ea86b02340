# Writes the cases, `python3 cases.py > stdin`, those that have a name first: blocks of 384 bytes with PCA, RPP, link sets, bytes of records,
# slots and the length of the name, then the records from byte 8 on, a command byte for each slot from byte 96 on, the name from byte 256 on.
# Whole jobs come last (job_cases.py).
import random
import sys

import job_cases

DRAWN = 110
SLOTS = 150


# a record that breaks no rule, of short patterns, so that much happens in few slots
def sound(draw, ident):
    while True:
        tgsn, tgl1, tgpl = draw.randrange(15), draw.randint(1, 14), draw.randint(1, 4)
        tgl2 = draw.choice([0, draw.randint(1, 14)])
        tgd = draw.randint(15, 45) if tgl2 else 0
        if tgsn + max(tgl1, tgd + tgl2) <= 15 * tgpl:
            break
    direction = draw.randint(1, 3)
    tgprc, start = draw.choice([0, 0, 1, 2, 3]), draw.choice([0, 0, 1, 2, 5])
    return bytes([ident, direction, tgsn, tgl1, tgl2, tgpl, tgprc, 0, tgd, 0, start, 0])


# one byte of some records changed
def damaged(draw, part):
    part = bytearray(part)
    for _ in range(draw.randint(1, 2)):
        if part:
            part[draw.randrange(len(part))] = draw.choice([0, 1, 6, 7, 14, 15, 144, 145, 255])
    return bytes(part)


def drawn_part(draw):
    idents = draw.sample(range(1, 7), draw.choice([0, 1, 1, 2, 2, 3, 6]))
    part = b"".join(sound(draw, ident) for ident in idents)
    kind = draw.randrange(8)
    if kind == 0:
        return damaged(draw, part)
    if kind == 1 and part:
        return (part + part[:12])[:84]
    if kind == 2:
        return part[: draw.randrange(len(part) + 1)]
    if kind == 3:
        return bytes(draw.randrange(256) for _ in range(draw.choice([12, 24, 84, 88])))
    return part


# mostly ones or mostly zeros, so that five alike come up
def rows(draw, sets):
    full = 2**sets - 1
    found = []
    while len(found) < SLOTS:
        usual = draw.choice([full, 0, draw.randint(0, full)])
        found += [usual if draw.random() < 0.85 else draw.randint(0, full) for _ in range(draw.choice([5, 10, 15]))]
    return bytes(found[:SLOTS])


def block(name, pca, rpp, sets, part, rows):
    head = bytes([pca, rpp, sets, len(part), len(rows), len(name), 0, 0])
    return ((head + part).ljust(96, b"\0") + rows).ljust(256, b"\0") + name.encode().ljust(128, b"\0")


def drawn(draw, number):
    sets = draw.choice([1, 1, 2, 3, 4, 5, 6, 6])
    return block("drawn %d" % number, draw.choice([1, 2, 2]), draw.randrange(2), sets, drawn_part(draw), rows(draw, sets))


# ---- what the page names, and both sides of its edges

SEVEN = b"".join(bytes.fromhex("%02x 01 07 03 00 01 0000 0000 0000" % (i % 7)) for i in range(1, 8))

# a record that breaks no rule and stands at the upper end of each range, and what becomes of it with one number changed
EDGE = dict(ident=6, direction=3, tgsn=14, tgl1=14, tgl2=14, tgpl=144, tgprc=511, tgd=269, start=65535)
CHANGES = [
    dict(),
    *job_cases.OUTSIDE,
    dict(tgd=14),
    dict(tgd=15),
    dict(tgd=270),
    dict(tgl2=0),
    dict(tgl2=0, tgd=0),
    dict(tgl2=0, tgd=0, tgpl=1),
    dict(tgl2=0, tgd=0, tgpl=1, tgl1=1),
    dict(tgl2=0, tgd=0, tgpl=1, tgl1=2),
    dict(tgpl=19),
    dict(tgpl=20),
    dict(tgpl=2, tgl2=1, tgd=15),
    dict(tgpl=2, tgl2=2, tgd=15),
    dict(tgpl=1, tgd=14),
    dict(ident=0, direction=0, tgsn=15),
]


def edge(change):
    r = EDGE | change
    pairs = b"".join(r[n].to_bytes(2, "little") for n in ("tgprc", "tgd", "start"))
    return bytes(r[n] for n in ("ident", "direction", "tgsn", "tgl1", "tgl2", "tgpl")) + pairs


def titled(change):
    return ", ".join("%s %d" % (n, v) for n, v in change.items()) or "each number at its upper end"


PARTS = [
    ("no record", b""),
    ("six records", SEVEN[:72]),
    ("six records and eleven bytes", SEVEN[:83]),
    ("seven records", SEVEN),
    ("an id again before a fault", SEVEN[:24] + SEVEN[:12] + SEVEN[72:]),
    ("a fault before an id again", SEVEN[:24] + SEVEN[72:] + SEVEN[:12]),
] + [(titled(change), edge(change)) for change in CHANGES]

# records of both directions, each in a slot of its own
IDS = " ".join("%02x 03 %02x 01 00 02 0000 0000 0000" % pair for pair in ((0, 2), (7, 4), (255, 6), (6, 8)))

# the records, PCA, RPP, and how many slots; all commands are 1, for one link set
WALKS = [
    ("uplink gap in slots 7-9", "01 01 07 03 00 02 0000 0000 0000", 2, 1, 30),
    ("the same, RPP 0", "01 01 07 03 00 02 0000 0000 0000", 2, 0, 30),
    ("the same, RPP 2, taken as 0", "01 01 07 03 00 02 0000 0000 0000", 2, 2, 30),
    ("the same, PCA 1", "01 01 07 03 00 02 0000 0000 0000", 1, 1, 30),
    ("the same, PCA 0, taken as 1", "01 01 07 03 00 02 0000 0000 0000", 0, 1, 30),
    ("the same, PCA 3, taken as 1", "01 01 07 03 00 02 0000 0000 0000", 3, 1, 30),
    ("uplink gap in 5, downlink gap in 6", "01 01 05 01 00 02 0000 0000 0000 02 02 06 01 00 02 0000 0000 0000", 2, 0, 30),
    ("two gaps in two patterns from frame 1", "01 03 02 02 01 02 0200 0f00 0100", 2, 1, 90),
    ("a gap of nine, and the next soon after", "01 02 00 09 00 02 0000 0000 0000 02 01 0d 01 00 02 0000 0000 0000", 2, 1, 30),
    ("a pattern of no frames", "01 03 00 0e 00 00 0000 0000 0000", 2, 0, 20),
    ("a gap that sticks out of its pattern", "01 01 0e 02 00 01 0000 0000 0000", 2, 0, 35),
    ("ids 0, 7 and 255 open no gap, id 6 does", IDS, 2, 1, 30),
    ("direction 0 and direction 4 open no gap", "01 00 02 01 00 02 0000 0000 0000 02 04 04 01 00 02 0000 0000 0000", 2, 1, 30),
]

if __name__ == "__main__":
    draw = random.Random(25214)
    named = [block(name, 2, 0, 1, part, b"") for name, part in PARTS]
    walks = [block(name, pca, rpp, 1, bytes.fromhex(part), b"\1" * slots) for name, part, pca, rpp, slots in WALKS]
    sys.stdout.buffer.write(b"".join(named + walks + [drawn(draw, k) for k in range(DRAWN)] + job_cases.blocks()))
